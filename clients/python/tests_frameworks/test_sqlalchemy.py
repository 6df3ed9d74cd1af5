"""SQLAlchemy over drdad: tables, Core, the ORM, and sessions in two phases beside PostgreSQL."""
import unittest

from beside_postgresql import BesidePostgreSQL, OverAServer, drdad

try:
    import sqlalchemy as sa
    from sqlalchemy import exc, orm
    import drdad_sqlalchemy  # noqa: F401, which tells SQLAlchemy of the dialect
except ImportError as missing:
    raise unittest.SkipTest(f"{missing.name} is not installed")

BASE = orm.declarative_base()


class Customer(BASE):
    __tablename__ = "Customer"
    id = sa.Column(sa.Integer, primary_key=True, autoincrement=False)
    name = sa.Column(sa.String(40), nullable=False)
    is_good = sa.Column(sa.Boolean)
    badge = sa.Column(sa.LargeBinary(10))
    orders = orm.relationship("Order", back_populates="customer", order_by="Order.number.desc()")


class Order(BASE):
    __tablename__ = "orders"
    customer_id = sa.Column(sa.ForeignKey(Customer.id), primary_key=True, autoincrement=False)
    number = sa.Column(sa.SmallInteger, primary_key=True, autoincrement=False)
    amount = sa.Column(sa.BigInteger, default=0)
    customer = orm.relationship(Customer, back_populates="orders")


CUSTOMERS, ORDERS = Customer.__table__, Order.__table__


class OverDrdad(OverAServer):
    """An engine, which behaves as SQLAlchemy 2.0's do, and both tables with ten customers, of three orders each."""

    def setUp(self):
        super().setUp()
        self.sent = []
        self.engine = self.engine_of()
        BASE.metadata.create_all(self.engine)
        with orm.Session(self.engine) as session:
            session.add_all(Customer(
                id=number, name=f"name {number % 3}", is_good=number % 2 == 0, badge=bytes([number]),
                orders=[Order(number=at, amount=10 * number + at) for at in range(3)]) for number in range(10))
            session.commit()
        sa.event.listen(self.engine, "before_cursor_execute", self._note)

    def engine_of(self, **words):
        engine = sa.create_engine(f"drdad://ana:pw@127.0.0.1:{self.server.port}/SHOP?timeout=30", future=True, **words)
        self.addCleanup(engine.dispose)
        return engine

    def _note(self, connection, cursor, statement, *_):
        self.sent.append(" ".join(statement.split()))

    def session(self, **words):
        return self.enterContext(orm.Session(self.engine, future=True, **words))


class Tables(OverDrdad):
    def test_tables_are_made_once(self):
        BASE.metadata.create_all(self.engine)
        self.assertEqual(self.sent, [])
        inspector = sa.inspect(self.engine)
        self.assertTrue(inspector.has_table("customer") and inspector.has_table("ORDERS"))
        self.assertFalse(inspector.has_table("nosuch"))

    def test_columns_are_reflected(self):
        columns = sa.inspect(self.engine).get_columns("CUSTOMER")
        self.assertEqual([(column["name"], str(column["type"]), column["nullable"]) for column in columns], [
            ("id", "INTEGER", False), ("name", "VARCHAR(40)", False), ("is_good", "SMALLINT", True), ("badge", "VARBINARY(10)", True)])
        table = sa.Table("orders", sa.MetaData(), sa.Column("number", sa.SmallInteger, primary_key=True), autoload_with=self.engine)
        self.assertEqual([column.name for column in table.columns], ["customer_id", "number", "amount"])
        self.assertEqual(list(table.primary_key.columns), [table.c.number])
        with self.assertRaises(exc.NoSuchTableError):
            sa.Table("nosuch", sa.MetaData(), autoload_with=self.engine)
        with self.assertRaises(NotImplementedError):
            sa.inspect(self.engine).get_table_names()

    def test_types_are_spelled(self):
        types = {
            sa.SmallInteger: "SMALLINT", sa.Integer: "INTEGER", sa.BigInteger: "BIGINT", sa.Boolean: "SMALLINT", sa.String(7): "VARCHAR(7)",
            sa.Unicode(8): "VARCHAR(8)", sa.Text(9): "VARCHAR(9)", sa.UnicodeText(9): "VARCHAR(9)", sa.Enum("one", "three"): "VARCHAR(5)",
            sa.LargeBinary(10): "VARBINARY(10)", sa.VARBINARY(11): "VARBINARY(11)",
        }
        made = [sa.Column("k", sa.Integer, primary_key=True), *(sa.Column(f"a{at}", type_) for at, type_ in enumerate(types))]
        text = " ".join(str(sa.schema.CreateTable(sa.Table("t", sa.MetaData(), *made)).compile(self.engine)).split())
        columns = ", ".join(f"a{at} {name}" for at, name in enumerate(types.values()))
        self.assertEqual(text, f"CREATE TABLE t ( k INTEGER NOT NULL, {columns}, PRIMARY KEY (k) )")

    def refused(self, *parts):
        """Why a table of these parts is not made."""
        with self.assertRaises(exc.CompileError) as raised:
            sa.schema.CreateTable(sa.Table("t", sa.MetaData(), *parts)).compile(self.engine)
        return str(raised.exception)

    def test_what_the_server_has_not_is_refused_with_its_reason(self):
        self.assertIn("primary key", self.refused(sa.Column("a", sa.Integer)))
        no_types = (sa.Float, sa.Numeric(9, 2), sa.DateTime, sa.Date, sa.Time, sa.Interval, sa.String, sa.Text, sa.LargeBinary, sa.CHAR(3),
                    sa.BINARY(3), sa.JSON, sa.PickleType)
        for type_ in no_types:
            with self.subTest(type_):
                self.assertIn("drdad", self.refused(sa.Column("k", sa.Integer, primary_key=True), sa.Column("a", type_)))
        for part in (sa.UniqueConstraint("a"), sa.CheckConstraint("a > 1")):
            with self.subTest(part):
                self.refused(sa.Column("k", sa.Integer, primary_key=True), sa.Column("a", sa.Integer), part)
        self.assertIn("default", self.refused(sa.Column("k", sa.Integer, primary_key=True, server_default="1")))
        for name in ("a b", "_a", "x" * 31, "Select", "ä"):
            with self.subTest(name), self.assertRaises((exc.CompileError, exc.IdentifierError)):
                sa.schema.CreateTable(sa.Table("t", sa.MetaData(), sa.Column(name, sa.Integer, primary_key=True))).compile(self.engine)
        for statement in (sa.schema.DropTable(CUSTOMERS), sa.schema.CreateIndex(sa.Index("i", sa.Column("a", sa.Integer)))):
            with self.assertRaises(exc.CompileError):
                statement.compile(self.engine)


class Core(OverDrdad):
    def setUp(self):
        super().setUp()
        self.connection = self.enterContext(self.engine.connect())

    def all(self, statement):
        return [tuple(row) for row in self.connection.execute(statement)]

    def test_names_stand_alone_and_results_come_by_place(self):
        row = self.connection.execute(sa.select(ORDERS.c.amount.label("much"), ORDERS.c.number).where(ORDERS.c.amount == 11)).one()
        self.assertEqual((row.much, row.number, row._mapping[ORDERS.c.number]), (11, 1, 1))
        self.assertEqual(self.sent, ["SELECT amount, number FROM orders WHERE amount = ?"])

    def test_texts(self):
        text = sa.text("SELECT NAME, ID FROM CUSTOMER WHERE ID IN (:a, 5, 7) AND NAME != 'x' ORDER BY ID DESC LIMIT 2")
        self.assertEqual([row.id for row in self.connection.execute(text, {"a": 9})], [9, 7])

    def test_changes_and_their_counts(self):
        result = self.connection.execute(sa.insert(ORDERS), [{"customer_id": 50, "number": at, "amount": at} for at in range(2000)])
        self.assertEqual(result.rowcount, 2000)
        raised = sa.update(ORDERS).where(ORDERS.c.customer_id == 50, ORDERS.c.number.in_([1, 2, 3])).values(amount=ORDERS.c.amount + 5)
        self.assertEqual(self.connection.execute(raised).rowcount, 3)
        self.assertEqual(self.all(sa.select(ORDERS.c.amount).where(ORDERS.c.customer_id == 50, ORDERS.c.number == 3)), [(8,)])
        self.assertEqual(self.connection.execute(sa.delete(ORDERS).where(ORDERS.c.customer_id == 50)).rowcount, 2000)

    def test_predicates(self):
        ids = lambda *where: [row[0] for row in self.all(sa.select(CUSTOMERS.c.id).where(*where))]  # noqa: E731
        id_, name, good = CUSTOMERS.c.id, CUSTOMERS.c.name, CUSTOMERS.c.is_good
        self.assertEqual(ids(name != "name 1", id_ > 2), [3, 5, 6, 8, 9])
        self.assertEqual(ids(sa.or_(id_ == 1, sa.and_(name == "name 2", sa.not_(id_ < 6)))), [1, 8])
        self.assertEqual((ids(good), ids(~good, id_ < 4), ids(good == None)), ([0, 2, 4, 6, 8], [1, 3], []))  # noqa: E711
        self.assertEqual((ids(id_.in_([])), len(ids(id_.not_in([]))), ids(id_.not_in(range(8)))), ([], 10, [8, 9]))
        self.assertEqual(ids(id_.in_([7, 3, 7, 99]), name == "name 1"), [7])
        self.assertEqual(ids(id_ >= 3, id_ <= 4), [3, 4])
        self.assertEqual(len(ids(name.in_([f"name {number}" for number in range(1, 500)]))), 6)
        self.assertEqual(self.all(sa.select(CUSTOMERS.c.badge).where(CUSTOMERS.c.badge.in_([b"\x02", b"\x03"]))), [(b"\x02",), (b"\x03",)])

    def test_order_and_window(self):
        names = sa.select(CUSTOMERS.c.id).order_by(CUSTOMERS.c.name.desc(), CUSTOMERS.c.id)
        self.assertEqual(self.all(names.limit(4)), [(2,), (5,), (8,), (1,)])
        self.assertEqual(self.all(names.offset(8)), [(6,), (9,)])
        self.assertEqual(self.all(sa.select(CUSTOMERS.c.id).limit(2).offset(3)), [(3,), (4,)])
        self.assertEqual(self.all(sa.select(CUSTOMERS.c.id).limit(0)), [])

    def test_a_list_of_keys_claims_these_keys_alone(self):
        self.all(sa.select(CUSTOMERS).where(CUSTOMERS.c.id.in_([1, 2])))
        self.all(sa.select(ORDERS).where(ORDERS.c.customer_id == 1, ORDERS.c.number.in_([0, 1])))
        with self.engine.begin() as other:
            other.execute(sa.delete(CUSTOMERS).where(CUSTOMERS.c.id == 3))
            other.execute(sa.delete(ORDERS).where(ORDERS.c.customer_id == 1, ORDERS.c.number == 2))
            with self.assertRaises(exc.OperationalError) as raised:
                other.execute(sa.delete(CUSTOMERS).where(CUSTOMERS.c.id == 2))
            self.assertEqual(raised.exception.orig.sqlcode, -913)

    def test_one_alias_of_one_table(self):
        one = CUSTOMERS.alias("c")
        self.assertEqual(self.all(sa.select(one.c.name).where(one.c.id == 4)), [("name 1",)])

    def test_what_the_server_has_not_is_refused_with_its_reason(self):
        inner = sa.select(ORDERS.c.customer_id)
        cases = {
            "functions": sa.select(sa.func.count()).select_from(CUSTOMERS), "one table": sa.select(CUSTOMERS, ORDERS),
            "joins": sa.select(CUSTOMERS).join(ORDERS), "DISTINCT": sa.select(CUSTOMERS.c.name).distinct(),
            "GROUP BY": sa.select(CUSTOMERS.c.name).group_by(CUSTOMERS.c.name), "UNION": sa.union(inner, inner),
            "subqueries": sa.select(inner.subquery()), "WITH": sa.select(inner.cte()), "schemas": sa.select(
                sa.Table("t", sa.MetaData(), sa.Column("k", sa.Integer), schema="s")),
        }
        for reason, statement in cases.items():
            with self.subTest(reason), self.assertRaises(exc.CompileError) as raised:
                self.connection.execute(statement)
            self.assertIn(reason, str(raised.exception))
        for statement in (sa.select(CUSTOMERS.c.id + 1), sa.select(CUSTOMERS).where(CUSTOMERS.c.name.like("a%"))):
            with self.assertRaises(exc.ProgrammingError) as raised:
                self.connection.execute(statement)
            self.assertEqual(raised.exception.orig.sqlcode, -104)
        with self.assertRaises(exc.CompileError), self.engine.begin() as connection:
            connection.begin_nested()

    def test_isolation_levels(self):
        self.assertEqual(self.connection.get_isolation_level(), "SERIALIZABLE")
        with self.engine.connect().execution_options(isolation_level="AUTOCOMMIT") as other:
            other.execute(sa.insert(ORDERS), {"customer_id": 60, "number": 1})
            self.assertEqual(len(other.execute(sa.select(ORDERS).where(ORDERS.c.customer_id.in_([60, 61]))).all()), 1)
        self.assertEqual(len(self.all(sa.select(ORDERS).where(ORDERS.c.customer_id == 60))), 1)
        with self.assertRaises(exc.ArgumentError):
            self.engine.connect().execution_options(isolation_level="READ COMMITTED")

    def test_a_lost_connection_is_replaced(self):
        """Where the pool asks before use. The server has another port each time."""
        engine = self.engine_of(pool_pre_ping=True)
        sa.event.listen(engine, "do_connect", lambda dialect, record, given, words: words.update(port=self.server.port))
        for _ in range(3):
            with engine.connect() as connection:
                self.assertEqual(len(connection.execute(sa.select(CUSTOMERS)).all()), 10)
            self.server.kill()
            self.server.start()
        with self.assertRaises(exc.OperationalError) as raised:
            self.connection.execute(sa.select(CUSTOMERS))
        self.assertTrue(raised.exception.connection_invalidated)
        with self.assertLogs("sqlalchemy.pool"), engine.connect() as connection:
            self.server.kill()
            with self.assertRaises(exc.OperationalError):
                engine.dialect.has_table(connection, "customer")


class Objects(OverDrdad):
    def test_objects_are_read_changed_and_removed(self):
        session = self.session()
        customer = session.get(Customer, 4)
        self.assertEqual((customer.name, customer.is_good, customer.badge), ("name 1", True, b"\x04"))
        self.assertEqual([order.number for order in customer.orders], [2, 1, 0])
        customer.name, customer.is_good = "other", None
        session.delete(customer.orders[0])
        customer.orders.append(Order(number=7))
        session.commit()
        self.assertEqual([(order.number, order.amount) for order in customer.orders], [(7, 0), (1, 41), (0, 40)])
        self.assertEqual(session.query(Customer).filter_by(name="other", is_good=None).one().id, 4)

    def test_queries(self):
        session = self.session()
        self.assertEqual(session.query(Customer).order_by(Customer.id.desc()).first().id, 9)
        self.assertEqual([one.id for one in session.query(Customer).filter(Customer.name.in_(["name 0"])).offset(1).limit(2)], [3, 6])
        self.assertEqual(session.query(Order.amount).filter(Order.customer_id == 2, Order.number == 1).scalar(), 21)
        self.assertIsNone(session.get(Customer, 99))
        aliased = orm.aliased(Customer)
        self.assertEqual(session.query(aliased).filter(aliased.id == 3).one().id, 3)

    def test_related_objects_are_read_by_lists(self):
        session = self.session()
        orders = session.query(Order).filter(Order.customer_id < 3).options(orm.selectinload(Order.customer)).all()
        self.assertEqual(len(self.sent), 2)
        self.assertEqual(sorted({order.customer.id for order in orders}), [0, 1, 2])
        customers = session.query(Customer).options(orm.selectinload(Customer.orders)).all()
        self.assertEqual(len(self.sent), 4)
        self.assertEqual([[order.number for order in one.orders] for one in customers], [[2, 1, 0]] * 10)

    def test_changes_by_a_predicate(self):
        session = self.session()
        changed = session.query(Order).filter(Order.customer_id == 3).update({"amount": Order.amount - 30}, synchronize_session=False)
        removed = session.query(Order).filter(Order.customer_id.in_([4, 5])).delete(synchronize_session=False)
        session.commit()
        self.assertEqual((changed, removed), (3, 6))
        self.assertEqual([order.amount for order in session.get(Customer, 3).orders], [2, 1, 0])

    def test_faults(self):
        session = self.session()
        session.add(Customer(id=1, name="twice"))
        with self.assertRaises(exc.IntegrityError):
            session.commit()
        session.rollback()
        session.add(Customer(id=70, name="x" * 41))
        with self.assertRaises(exc.DataError):
            session.commit()
        session.rollback()
        session.add(Customer(name="without a key"))
        with self.assertRaises((exc.IntegrityError, orm.exc.FlushError)), self.assertWarns(exc.SAWarning):
            session.commit()
        session.rollback()
        self.assertEqual(session.query(Customer).filter(Customer.id == 70).all(), [])


class TwoPhase(OverDrdad):
    """In two phases alone; beside PostgreSQL below."""

    def test_a_unit_in_doubt_is_decided(self):
        for is_committed in (True, False):
            with self.engine.connect() as connection:
                unit = connection.begin_twophase()
                connection.execute(sa.insert(ORDERS), {"customer_id": 90, "number": 1})
                unit.prepare()
                connection.invalidate()
            with self.engine.connect() as connection:
                xid, = connection.recover_twophase()
                (connection.commit_prepared if is_committed else connection.rollback_prepared)(xid, recover=True)
                self.assertEqual(connection.recover_twophase(), [])
                row = connection.execute(sa.select(ORDERS.c.number).where(ORDERS.c.customer_id == 90, ORDERS.c.number == 1)).first()
                self.assertEqual(row, (1,) if is_committed else None)
                connection.execute(sa.delete(ORDERS).where(ORDERS.c.customer_id == 90))
                connection.connection.driver_connection.commit()

    def test_a_unit_that_is_not_prepared_is_rolled_back(self):
        with self.engine.connect() as connection:
            with self.assertRaises(ZeroDivisionError), connection.begin_twophase():
                connection.execute(sa.insert(ORDERS), {"customer_id": 90, "number": 1})
                raise ZeroDivisionError
        with self.engine.connect() as connection:
            self.assertEqual(connection.execute(sa.select(ORDERS).where(ORDERS.c.customer_id == 90)).all(), [])


class Ledger(orm.declarative_base()):
    __tablename__ = "ledger"
    id = sa.Column(sa.Integer, primary_key=True, autoincrement=False)
    amount = sa.Column(sa.Integer)


class Both(BesidePostgreSQL, OverDrdad):
    """A session in two phases over drdad and PostgreSQL."""

    def setUp(self):
        super().setUp()
        self.postgresql.clear("ledger")
        self.other = sa.create_engine(f"postgresql+psycopg2://postgres@127.0.0.1:{self.postgresql.port}/postgres", future=True)
        self.addCleanup(self.other.dispose)
        Ledger.metadata.create_all(self.other)

    def both(self):
        return self.enterContext(orm.Session(twophase=True, future=True, binds={Customer: self.engine, Order: self.engine, Ledger: self.other}))

    def test_both_are_committed_or_none(self):
        session = self.both()
        session.add_all([Ledger(id=1, amount=5), Order(customer_id=1, number=9, amount=5)])
        session.commit()
        session.add_all([Ledger(id=2, amount=5), Order(customer_id=1, number=9, amount=6)])
        with self.assertRaises(exc.IntegrityError):
            session.commit()
        session.rollback()
        session.add_all([Ledger(id=3, amount=5), Order(customer_id=1, number=8, amount=5)])
        session.rollback()
        self.assertEqual([one.id for one in session.query(Ledger)], [1])
        self.assertEqual([one.number for one in session.query(Order).filter_by(customer_id=1)], [0, 1, 2, 9])
        session.commit()
        for engine in (self.engine, self.other):
            with engine.connect() as connection:
                self.assertEqual(connection.recover_twophase(), [])


if __name__ == "__main__":
    unittest.main()
