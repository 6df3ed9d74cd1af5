"""PEP 249 case by case, in its order: the module, its exceptions, connections, cursors, type objects and constructors."""
import datetime, time, unittest

from over_a_server import CREATE, INSERT, OverAServer, drdad

EXCEPTIONS = {
    "Warning": Exception, "Error": Exception, "InterfaceError": "Error", "DatabaseError": "Error", "DataError": "DatabaseError",
    "OperationalError": "DatabaseError", "IntegrityError": "DatabaseError", "InternalError": "DatabaseError",
    "ProgrammingError": "DatabaseError", "NotSupportedError": "DatabaseError",
}

OF_CONNECTIONS = ("close", "commit", "rollback", "cursor")
OF_TWO_PHASES = ("xid", "tpc_begin", "tpc_prepare", "tpc_commit", "tpc_rollback", "tpc_recover")


class Module(unittest.TestCase):
    def test_globals(self):
        self.assertEqual((drdad.apilevel, drdad.threadsafety, drdad.paramstyle), ("2.0", 1, "qmark"))
        self.assertTrue(callable(drdad.connect))

    def test_exceptions(self):
        for name, base in EXCEPTIONS.items():
            with self.subTest(name):
                self.assertTrue(issubclass(getattr(drdad, name), getattr(drdad, base) if isinstance(base, str) else base))
        self.assertFalse(issubclass(drdad.Warning, drdad.Error))

    def test_exceptions_are_attributes_of_connections(self):
        for name in EXCEPTIONS:
            self.assertIs(getattr(drdad.Connection, name), getattr(drdad, name))


class TypesAndConstructors(unittest.TestCase):
    def test_each_type_code_is_of_one_type_object(self):
        objects = (drdad.STRING, drdad.BINARY, drdad.NUMBER, drdad.DATETIME, drdad.ROWID)
        for code, wanted in (("VARCHAR", drdad.STRING), ("VARBINARY", drdad.BINARY), ("SMALLINT", drdad.NUMBER),
                             ("INTEGER", drdad.NUMBER), ("BIGINT", drdad.NUMBER)):
            with self.subTest(code):
                self.assertEqual([code == it for it in objects], [it is wanted for it in objects])
                self.assertTrue(code != drdad.ROWID)

    def test_constructors(self):
        self.assertEqual(drdad.Date(2026, 11, 25), datetime.date(2026, 11, 25))
        self.assertEqual(drdad.Time(13, 45, 30), datetime.time(13, 45, 30))
        self.assertEqual(drdad.Timestamp(2026, 11, 25, 13, 45, 30), datetime.datetime(2026, 11, 25, 13, 45, 30))
        ticks = time.mktime((2026, 11, 25, 13, 45, 30, 0, 0, 0))
        self.assertEqual(drdad.DateFromTicks(ticks), drdad.Date(2026, 11, 25))
        self.assertEqual(drdad.TimeFromTicks(ticks), drdad.Time(13, 45, 30))
        self.assertEqual(drdad.TimestampFromTicks(ticks), drdad.Timestamp(2026, 11, 25, 13, 45, 30))
        self.assertEqual(drdad.Binary(b"\0\xff"), b"\0\xff")


class Connections(OverAServer):
    def test_attributes(self):
        connection = self.connect()
        for name in (*OF_CONNECTIONS, *OF_TWO_PHASES):
            self.assertTrue(callable(getattr(connection, name)), name)

    def test_commit(self):
        connection, cursor = self.with_table()
        cursor.execute(INSERT, (1, "kept"))
        connection.commit()
        connection.close()
        self.assertEqual(self.keys(self.connect().cursor()), [1])

    def test_rollback(self):
        connection, cursor = self.with_rows()
        cursor.execute("DELETE FROM T WHERE K = 1")
        connection.rollback()
        self.assertEqual(self.keys(cursor), [0, 1, 2])

    def test_closing_rolls_back(self):
        connection, cursor = self.with_rows()
        cursor.execute("DELETE FROM T")
        connection.close()
        self.assertEqual(self.keys(self.connect().cursor()), [0, 1, 2])

    def test_a_closed_one_is_unusable(self):
        connection, cursor = self.with_rows()
        cursor.execute("SELECT * FROM T")
        connection.close()
        calls = (connection.cursor, connection.commit, connection.rollback, connection.tpc_recover, connection.tpc_prepare,
                 lambda: connection.tpc_begin((1, b"G", b"B")), lambda: cursor.execute("SELECT * FROM T"), cursor.fetchone,
                 cursor.fetchmany, cursor.fetchall, lambda: cursor.executemany(INSERT, [(9, "")]),
                 lambda: setattr(connection, "autocommit", True))
        for at, call in enumerate(calls):
            with self.subTest(at), self.assertRaises(drdad.Error):
                call()
        connection.close()
        cursor.close()

    def test_autocommit(self):
        connection, cursor = self.with_rows(autocommit=True)
        self.assertTrue(connection.autocommit)
        cursor.execute(INSERT, (3, "at once"))
        connection.autocommit = False
        cursor.execute(INSERT, (4, "not yet"))
        connection.close()
        self.assertEqual(self.keys(self.connect().cursor()), [0, 1, 2, 3])

    def test_many_in_autocommit_are_one_unit(self):
        connection, cursor = self.with_rows(autocommit=True)
        with self.assertRaises(drdad.IntegrityError) as raised:
            cursor.executemany(INSERT, [(3, "new"), (1, "there already"), (4, "new")])
        self.assertEqual(raised.exception.row, 1)
        self.assertEqual(self.keys(cursor), [0, 1, 2])


class Cursors(OverAServer):
    def test_attributes(self):
        cursor = self.connect().cursor()
        self.assertEqual((cursor.description, cursor.rowcount, cursor.arraysize), (None, -1, 1))
        self.assertIsNone(cursor.lastrowid)
        self.assertIsNone(cursor.rownumber)
        self.assertIs(type(cursor.connection), drdad.Connection)

    def test_description(self):
        cursor = self.connect().cursor()
        cursor.execute("CREATE TABLE D (A SMALLINT NOT NULL, B INTEGER, C BIGINT, D VARCHAR(7), E VARBINARY(9), PRIMARY KEY (A))")
        self.assertIsNone(cursor.description)
        cursor.execute("SELECT * FROM D")
        self.assertEqual(cursor.description, [
            ("A", "SMALLINT", None, 2, None, None, False), ("B", "INTEGER", None, 4, None, None, True),
            ("C", "BIGINT", None, 8, None, None, True), ("D", "VARCHAR", None, 7, None, None, True),
            ("E", "VARBINARY", None, 9, None, None, True)])
        self.assertEqual([item[1] == drdad.NUMBER for item in cursor.description], [True, True, True, False, False])
        cursor.execute("INSERT INTO D (A) VALUES (1)")
        self.assertIsNone(cursor.description)

    def test_rowcount(self):
        _, cursor = self.with_rows(5)
        for text, count in (("UPDATE T SET V = 'x' WHERE K > 2", 2), ("DELETE FROM T WHERE K = 0", 1), ("DELETE FROM T WHERE K = 0", 0),
                            ("INSERT INTO T VALUES (9, NULL)", 1), ("CREATE TABLE U (K INTEGER NOT NULL, PRIMARY KEY (K))", -1)):
            with self.subTest(text):
                cursor.execute(text)
                self.assertEqual(cursor.rowcount, count)
        cursor.execute("SELECT * FROM T")
        cursor.fetchall()
        self.assertEqual(cursor.rowcount, 5)

    def test_fetchone(self):
        _, cursor = self.with_rows(2)
        cursor.execute("SELECT * FROM T")
        self.assertEqual([cursor.fetchone() for _ in range(4)], [(0, "row 0"), (1, "row 1"), None, None])

    def test_fetchmany(self):
        _, cursor = self.with_rows(7)
        cursor.execute("SELECT K FROM T")
        self.assertEqual(cursor.fetchmany(), [(0,)])
        cursor.arraysize = 3
        self.assertEqual(cursor.fetchmany(), [(1,), (2,), (3,)])
        self.assertEqual(cursor.fetchmany(2), [(4,), (5,)])
        self.assertEqual(cursor.rownumber, 6)
        self.assertEqual(cursor.fetchmany(10), [(6,)])
        self.assertEqual(cursor.fetchmany(10), [])

    def test_fetchall(self):
        _, cursor = self.with_rows(3)
        cursor.execute("SELECT K FROM T")
        cursor.fetchone()
        self.assertEqual(cursor.fetchall(), [(1,), (2,)])
        self.assertEqual(cursor.fetchall(), [])
        cursor.execute("SELECT K FROM T WHERE K = 77")
        self.assertEqual((cursor.fetchone(), cursor.fetchmany(3), cursor.fetchall(), cursor.rowcount), (None, [], [], 0))

    def test_iteration(self):
        _, cursor = self.with_rows(3)
        self.assertEqual([key for key, in cursor.execute("SELECT K FROM T")], [0, 1, 2])
        self.assertEqual(next(cursor, None), None)

    def test_rows_by_several_blocks(self):
        _, cursor = self.with_table()
        rows = [(number, f"{number:0500}") for number in range(1000)]
        cursor.executemany(INSERT, rows)
        cursor.execute("SELECT * FROM T")
        self.assertEqual(cursor.rowcount, -1)
        self.assertEqual(cursor.fetchmany(300) + cursor.fetchall(), rows)
        self.assertEqual(cursor.rowcount, 1000)

    def test_cursors_stand_side_by_side(self):
        connection, first = self.with_rows(600)
        second = connection.cursor()
        first.execute("SELECT K FROM T")
        second.execute("SELECT K FROM T WHERE K > ?", (597,))
        self.assertEqual((first.fetchone(), second.fetchone(), first.fetchone(), second.fetchall()), ((0,), (598,), (1,), [(599,)]))

    def test_no_rows_to_fetch(self):
        _, cursor = self.with_rows()
        for text in (None, "DELETE FROM T WHERE K = 0"):
            if text:
                cursor.execute(text)
            for fetch in (cursor.fetchone, cursor.fetchmany, cursor.fetchall):
                with self.subTest(text), self.assertRaises(drdad.Error):
                    fetch()

    def test_parameters(self):
        _, cursor = self.with_rows()
        cursor.execute("SELECT V FROM T WHERE K = ? OR V = ?", [2, "row 0"])
        self.assertEqual(cursor.fetchall(), [("row 0",), ("row 2",)])
        cursor.execute("CREATE TABLE B (K BIGINT NOT NULL, V VARBINARY(600), PRIMARY KEY (K))")
        rows = [(2**63 - 1, b"\0\xff"), (-2**63, None), (0, b"")]
        cursor.executemany("INSERT INTO B VALUES (?, ?)", rows)
        self.assertEqual(cursor.execute("SELECT * FROM B").fetchall(), sorted(rows))

    def test_executemany(self):
        _, cursor = self.with_table()
        cursor.executemany(INSERT, ((number, None) for number in range(2500)))
        self.assertEqual(cursor.rowcount, 2500)
        cursor.executemany("UPDATE T SET V = ? WHERE K < ?", [("a", 10), ("b", 5)])
        self.assertEqual(cursor.rowcount, 15)
        cursor.executemany(INSERT, [])
        self.assertEqual(cursor.rowcount, 0)
        with self.assertRaises(drdad.ProgrammingError):
            cursor.executemany("SELECT K FROM T WHERE K = ?", [(1,)])

    def test_what_many_are_sent_as(self):
        """All commands of an executemany go out before any reply is awaited, and one prepare serves them."""
        seen = []
        _, cursor = self.with_table(watch=seen.append)
        del seen[:]
        cursor.executemany(INSERT, [(number, "x") for number in range(50)])
        kinds = [one.form & 0x0F == 1 for one in seen]
        self.assertEqual(sum(kinds), 51)
        self.assertEqual(kinds.index(False), 1)
        self.assertEqual([one.correlator for one in seen if one.form & 0x0F == 1], list(range(1, 52)))

    def test_sizes_are_taken(self):
        cursor = self.connect().cursor()
        self.assertIsNone(cursor.setinputsizes([None, 7, drdad.STRING]))
        self.assertIsNone(cursor.setoutputsize(1000))
        self.assertIsNone(cursor.setoutputsize(1000, 0))

    def test_a_closed_one_is_unusable(self):
        connection, cursor = self.with_rows()
        cursor.execute("SELECT * FROM T")
        cursor.close()
        calls = (cursor.fetchone, cursor.fetchmany, cursor.fetchall, lambda: cursor.execute("SELECT * FROM T"),
                 lambda: cursor.executemany(INSERT, [(9, "")]), lambda: cursor.setinputsizes([]), lambda: cursor.setoutputsize(1))
        for at, call in enumerate(calls):
            with self.subTest(at), self.assertRaises(drdad.Error):
                call()
        cursor.close()
        self.assertEqual(self.keys(connection.cursor()), [0, 1, 2])

    def test_rows_outlast_a_commit_and_not_a_rollback(self):
        connection, cursor = self.with_table()
        cursor.executemany(INSERT, [(number, "x" * 500) for number in range(1000)])
        connection.commit()
        cursor.execute("SELECT K FROM T WHERE V <> 'y'")
        cursor.fetchone()
        connection.commit()
        self.assertEqual(len(cursor.fetchall()), 999)
        cursor.execute("SELECT * FROM T")
        connection.rollback()
        with self.assertRaises(drdad.ProgrammingError):
            cursor.fetchall()


class Faults(OverAServer):
    CASES = (
        ("INSERT INTO T VALUES (1, NULL)", drdad.IntegrityError, -803, "23505"),
        ("INSERT INTO T VALUES (NULL, NULL)", drdad.IntegrityError, -407, "23502"),
        ("SELECT * FROM NOSUCH", drdad.ProgrammingError, -204, "42704"),
        ("SELECT NOSUCH FROM T", drdad.ProgrammingError, -206, "42703"),
        ("SELEC", drdad.ProgrammingError, -104, "42601"),
        ("INSERT INTO T VALUES (99999999999, NULL)", drdad.DataError, -413, "22003"),
        (CREATE, drdad.ProgrammingError, -601, "42710"),
    )

    def test_by_their_states(self):
        _, cursor = self.with_rows()
        for text, kind, code, state in self.CASES:
            with self.subTest(text), self.assertRaises(drdad.DatabaseError) as raised:
                cursor.execute(text)
            failure = raised.exception
            self.assertEqual((type(failure), failure.sqlcode, failure.sqlstate), (kind, code, state))
            self.assertIn(f"SQLCODE {code}, SQLSTATE {state}", str(failure))
        self.assertEqual(self.keys(cursor), [0, 1, 2])

    def test_another_unit_has_it(self):
        """The server serves one conversation after the other: what one holds against the next is a unit in doubt."""
        connection, cursor = self.with_rows()
        connection.tpc_begin((1, b"G", b"B"))
        cursor.execute("DELETE FROM T WHERE K = 1")
        connection.tpc_prepare()
        connection.close()
        with self.assertRaises(drdad.OperationalError) as raised:
            self.connect().cursor().execute("SELECT * FROM T")
        self.assertEqual((raised.exception.sqlcode, raised.exception.sqlstate), (-913, "57033"))


if __name__ == "__main__":
    unittest.main()
