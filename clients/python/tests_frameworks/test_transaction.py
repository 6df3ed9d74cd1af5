"""drdad and PostgreSQL in one transaction of Zope's `transaction`, under a log of decisions."""
import logging, os, threading, unittest
from unittest import mock

from beside_postgresql import BesidePostgreSQL, drdad, psycopg2

try:
    import transaction
    from drdad_transaction import BrokenLog, DecisionLog, Undecided, join, recover
except ImportError as missing:
    raise unittest.SkipTest(f"{missing.name} is not installed")

CREATE = "CREATE TABLE T (K INTEGER NOT NULL, V VARCHAR(20), PRIMARY KEY (K))"


class Foreign:
    """A resource of another kind, which says no where a test wants it to."""

    def __init__(self, fails_at="", told=None):
        self.transaction_manager, self._fails_at, self._told = transaction.manager, fails_at, told

    def sortKey(self):
        return "A"

    def __getattr__(self, name):
        if name not in ("abort", "tpc_begin", "commit", "tpc_vote", "tpc_finish", "tpc_abort"):
            raise AttributeError(name)

        def told(_):
            if self._told is not None:
                self._told(name)
            if name == self._fails_at:
                raise RuntimeError(f"no {name}")
        return told


class Together(BesidePostgreSQL):
    """A table T in both, which begins empty, and a log."""

    def setUp(self):
        super().setUp()
        logging.disable(logging.CRITICAL)
        self.addCleanup(logging.disable, logging.NOTSET)
        self.addCleanup(transaction.abort)
        self.path = os.path.join(os.path.dirname(self.server.store), "decisions")
        self.log = self.enterContext(DecisionLog(self.path))
        self.shop, self.ledger = self.connect(), self.to_ledger()
        self.postgresql.clear("T")
        for connection in (self.shop, self.ledger):
            connection.cursor().execute(CREATE)
            connection.commit()

    def to_ledger(self):
        connection = self.postgresql.connect()
        self.addCleanup(connection.close)
        return connection

    def add(self, key):
        """A row in both, in the current transaction."""
        join(self.shop, "shop", self.log)
        join(self.ledger, "ledger", self.log)
        self.shop.cursor().execute("INSERT INTO T VALUES (?, ?)", (key, "x"))
        self.ledger.cursor().execute("INSERT INTO T VALUES (%s, %s)", (key, "x"))

    def again(self):
        """The log of the next process, and its connections: this one is gone, with what it did not commit."""
        self.log.close()
        for connection in (self.shop, self.ledger):
            connection.close()
        transaction.abort()
        self.log = self.enterContext(DecisionLog(self.path))
        self.shop, self.ledger = self.connect(), self.to_ledger()
        return self.log, {"shop": self.shop, "ledger": self.ledger}

    def voted(self):
        """The branches of a transaction in which all have voted."""
        self.add(1)
        branches = transaction.get()._resources
        for branch in branches:
            branch.tpc_vote(None)
        return list(branches)

    def keys_of_both(self):
        """The keys on both sides, which are the same, where nothing is in doubt."""
        found = []
        for connection in (self.connect(), self.to_ledger()):
            self.assertEqual(connection.tpc_recover(), [])
            connection.rollback()
            cursor = connection.cursor()
            cursor.execute("SELECT K FROM T")
            found.append(sorted(key for key, in cursor.fetchall()))
        self.assertEqual(*found)
        return found[0]

    # ---- one process

    def test_both_are_committed(self):
        with transaction.manager:
            self.add(1)
        with transaction.manager:
            self.add(2)
        self.assertEqual(self.keys_of_both(), [1, 2])

    def test_both_are_rolled_back(self):
        self.add(1)
        transaction.abort()
        with self.assertRaises(ZeroDivisionError), transaction.manager:
            self.add(2)
            raise ZeroDivisionError
        with transaction.manager:
            self.add(3)
        self.assertEqual(self.keys_of_both(), [3])

    def test_one_that_does_not_vote_rolls_all_back(self):
        for step in ("tpc_begin", "commit", "tpc_vote"):
            with self.subTest(step), self.assertRaises(RuntimeError), transaction.manager:
                self.add(1)
                transaction.get().join(Foreign(step))
        with self.assertRaises(psycopg2.OperationalError), transaction.manager:
            self.add(1)
            with mock.patch.object(drdad.Connection, "tpc_prepare", side_effect=psycopg2.OperationalError):
                transaction.commit()
        transaction.abort()
        with transaction.manager:
            self.add(2)
        self.assertEqual(self.keys_of_both(), [2])

    def test_the_decision_stands_before_others_finish(self):
        seen = []

        def told(name):
            if name == "tpc_finish":
                with open(self.path) as file:
                    seen.extend(line.split()[0] for line in file)

        with transaction.manager:
            self.add(1)
            transaction.get().join(Foreign(told=told))
        self.assertEqual(seen[1:], ["commit", "done"])

    def test_one_that_fails_to_finish_undoes_nothing(self):
        with self.assertRaises(RuntimeError), transaction.manager:
            self.add(1)
            transaction.get().join(Foreign("tpc_finish"))
        self.assertEqual(self.keys_of_both(), [1])

    def test_a_connection_joins_once(self):
        with transaction.manager:
            branch = join(self.shop, "shop", self.log)
            self.assertIs(join(self.shop, "shop", self.log), branch)
            with self.assertRaises(ValueError):
                join(self.connect(), "shop", self.log)
            for name in ("", "a b", "ä", "x" * 65):
                with self.assertRaises(ValueError):
                    join(self.ledger, name, self.log)

    def test_a_connection_with_work_does_not_join(self):
        self.shop.cursor().execute("INSERT INTO T VALUES (1, 'local')")
        with self.assertRaises(drdad.ProgrammingError):
            join(self.shop, "shop", self.log)
        transaction.abort()
        self.shop.commit()
        cursor = self.shop.cursor()
        self.assertEqual(list(cursor.execute("SELECT K FROM T")), [(1,)])

    def test_a_transaction_that_has_failed_takes_no_branch(self):
        transaction.get().join(Foreign("tpc_vote"))
        with self.assertRaises(RuntimeError):
            transaction.commit()
        with self.assertRaises(transaction.interfaces.TransactionFailedError):
            join(self.shop, "shop", self.log)
        transaction.abort()
        with transaction.manager:
            self.add(1)
        self.assertEqual(self.keys_of_both(), [1])

    def test_claims_of_others_are_tried_again(self):
        other = self.connect()
        other.cursor().execute("INSERT INTO T VALUES (1, 'other')")
        tries = []
        for attempt in transaction.manager.attempts(3):
            with attempt:
                tries.append(attempt)
                if len(tries) == 2:
                    other.rollback()
                self.add(1)
        self.assertEqual((len(tries), self.keys_of_both()), (2, [1]))

    def test_serialization_failures_are_tried_again(self):
        failure = type("Failure", (psycopg2.OperationalError,), {"pgcode": "40001"})
        wrapped = type("Wrapped", (Exception,), {"orig": failure()})
        branch = join(self.ledger, "ledger", self.log)
        self.assertTrue(branch.should_retry(failure()) and branch.should_retry(wrapped()))
        self.assertFalse(branch.should_retry(psycopg2.OperationalError()) or branch.should_retry(KeyError()))

    def test_sessions_of_sqlalchemy_take_part(self):
        try:
            import sqlalchemy, sqlalchemy.orm
            import drdad_sqlalchemy  # noqa: F401, which tells SQLAlchemy of the dialect
        except ImportError as missing:
            self.skipTest(f"{missing.name} is not installed")

        class Row(sqlalchemy.orm.declarative_base()):
            __tablename__ = "t"
            k = sqlalchemy.Column(sqlalchemy.Integer, primary_key=True)
            v = sqlalchemy.Column(sqlalchemy.String(20))

        engines = {
            "shop": sqlalchemy.create_engine(f"drdad://ana:pw@127.0.0.1:{self.server.port}/SHOP"),
            "ledger": sqlalchemy.create_engine(f"postgresql://postgres@127.0.0.1:{self.postgresql.port}/postgres"),
        }
        for engine in engines.values():
            self.addCleanup(engine.dispose)
        for key, ends in ((1, transaction.commit), (2, transaction.abort), (3, transaction.commit)):
            for name, engine in engines.items():
                connection = self.enterContext(engine.connect())
                join(connection.connection.driver_connection, name, self.log)
                session = self.enterContext(sqlalchemy.orm.Session(connection))
                transaction.get().addBeforeCommitHook(session.flush)
                session.add(Row(k=key, v="x"))
            ends()
        self.assertEqual(self.keys_of_both(), [1, 3])

    # ---- what is lost on the way

    def test_a_resource_that_is_lost_behind_the_decision_is_committed_later(self):
        self.add(1)
        real = self.ledger
        with mock.patch.object(drdad.Connection, "tpc_commit", side_effect=drdad.OperationalError("gone")):
            transaction.commit()
        self.assertIs(self.ledger, real)
        self.shop.close()
        outcomes = recover(self.log, {"shop": self.connect()})
        self.assertEqual([(one.name, one.is_committed) for one in outcomes], [("shop", True)])
        self.assertEqual(self.keys_of_both(), [1])

    def test_a_decision_is_kept_until_all_its_resources_were_recovered(self):
        branches = self.voted()
        branches[0].unit.decide()
        number = branches[0].unit.number
        log, at = self.again()
        for name, is_kept in (("shop", True), ("ledger", True)):
            recover(log, {name: at[name]})
            self.assertEqual(log.is_committed(number), is_kept)
        recover(log, at)
        self.assertFalse(log.is_committed(number))
        self.assertEqual(self.keys_of_both(), [1])

    def test_recovery_leaves_units_in_flight_alone(self):
        branches = self.voted()
        self.assertEqual(recover(self.log, {"shop": self.connect(), "ledger": self.to_ledger()}), [])
        for branch in branches:
            branch.tpc_finish(None)
        self.assertEqual(self.keys_of_both(), [1])

    def test_units_of_other_logs_are_left_alone(self):
        other = self.enterContext(DecisionLog(f"{self.path}.other"))
        self.voted()
        self.assertEqual(recover(other, {"shop": self.connect(), "ledger": self.to_ledger()}), [])
        log, at = self.again()
        self.assertEqual(recover(log, {"another name": at["shop"]}), [])
        self.assertEqual([one.is_committed for one in recover(log, at)], [False, False])
        self.assertEqual(self.keys_of_both(), [])

    def test_units_of_other_managers_are_left_alone(self):
        self.shop.tpc_begin(drdad.Xid(1, b"theirs", b"shop"))
        self.shop.cursor().execute("INSERT INTO T VALUES (1, 'x')")
        self.shop.tpc_prepare()
        cursor = self.ledger.cursor()
        cursor.execute("INSERT INTO T VALUES (1, 'x')")
        cursor.execute("PREPARE TRANSACTION 'theirs'")
        self.ledger.rollback()
        other = self.to_ledger()
        other.tpc_begin(other.xid(1, "theirs", "ledger"))
        other.cursor().execute("INSERT INTO T VALUES (2, 'x')")
        other.tpc_prepare()
        log, at = self.again()
        self.assertEqual(recover(log, at), [])
        self.assertEqual([len(connection.tpc_recover()) for connection in at.values()], [1, 2])

    def decided_by_hand(self, word, is_committed):
        """What recovery makes of drdad's branch of a unit that was decided by the log, and by `drdad decide`."""
        first, second = sorted(self.voted(), key=lambda branch: branch.name)
        if is_committed:
            first.tpc_finish(None)
        xid, = self.connect().tpc_recover()
        self.assertEqual(xid.branch_qualifier, second.name.encode())
        self.server.kill()
        words = str(xid.format_id), xid.global_transaction_id.hex(), xid.branch_qualifier.hex()
        self.assertEqual(self.server.done("decide", self.server.store, *words, word).stdout, "decided\n")
        self.server.start()
        outcome, = (one for one in recover(*self.again()) if one.name == "shop")
        self.assertEqual((self.shop.tpc_recover(), self.ledger.tpc_recover()), ([], []))
        return outcome.is_committed, outcome.differs

    def test_a_branch_that_was_committed_by_hand_and_is_not_decided(self):
        self.assertEqual(self.decided_by_hand("commit", False), (True, True))

    def test_a_branch_that_was_rolled_back_by_hand_and_is_decided(self):
        self.assertEqual(self.decided_by_hand("rollback", True), (False, True))

    def test_a_branch_that_was_decided_by_hand_as_by_the_log(self):
        self.assertEqual(self.decided_by_hand("commit", True), (True, False))

    # ---- the log

    def test_a_decision_that_can_not_be_written_rolls_back(self):
        with self.assertRaises(Undecided), transaction.manager:
            self.add(1)
            with mock.patch("drdad_transaction.log.os.pwrite", side_effect=OSError("full")):
                transaction.commit()
        transaction.abort()
        with transaction.manager:
            self.add(2)
        self.assertEqual(self.keys_of_both(), [2])

    def test_a_log_that_fails_leaves_the_unit_in_doubt(self):
        """The line was written, and nobody can tell whether it is on the device: the log that is opened next tells."""
        with self.assertRaises(BrokenLog), transaction.manager:
            self.add(1)
            with mock.patch("drdad_transaction.log.os.fsync", side_effect=OSError("broken")):
                with mock.patch("drdad_transaction.log.os.ftruncate", side_effect=OSError("broken")):
                    transaction.commit()
        transaction.abort()
        with self.assertRaises(BrokenLog):
            join(self.connect(), "other", self.log)
        self.assertEqual({one.is_committed for one in recover(*self.again())}, {True})
        self.assertEqual(self.keys_of_both(), [1])

    def test_a_program_that_is_interrupted_at_the_decision_rolls_back(self):
        with self.assertRaises(KeyboardInterrupt), transaction.manager:
            self.add(1)
            with mock.patch("drdad_transaction.log.os.fsync", side_effect=[KeyboardInterrupt, None]):
                transaction.commit()
        transaction.abort()
        with transaction.manager:
            self.add(2)
        self.assertEqual(self.keys_of_both(), [2])
        self.assertEqual(recover(*self.again()), [])

    def test_a_program_that_is_interrupted_behind_the_decision_is_committed_by_recovery(self):
        with self.assertRaises(KeyboardInterrupt), transaction.manager:
            self.add(1)
            with mock.patch.object(drdad.Connection, "tpc_commit", side_effect=KeyboardInterrupt):
                transaction.commit()
        transaction.abort()
        outcomes = recover(self.log, {"shop": self.connect(), "ledger": self.to_ledger()})
        self.assertEqual([(one.name, one.is_committed) for one in outcomes], [("shop", True)])
        self.assertEqual(self.keys_of_both(), [1])

    def test_one_process_at_a_time(self):
        with self.assertRaises(BrokenLog):
            DecisionLog(self.path)
        self.log.close()
        DecisionLog(self.path).close()

    def test_what_is_no_log_is_refused(self):
        for text in ("something else\n", "drdad_transaction 0011223344556677 1\nnonsense\n"):
            path = f"{self.path}.none"
            with open(path, "w") as file:
                file.write(text)
            with self.assertRaises(BrokenLog):
                DecisionLog(path)

    def test_a_line_without_its_end_is_left_out(self):
        number = self.log.begin()
        self.log.commit(number, ("shop", "ledger"))
        with open(self.path, "rb") as file:
            whole = file.read()
        start = whole.index(b"commit")
        for size in range(start, len(whole) + 1):
            self.log.close()
            with open(self.path, "wb") as file:
                file.write(whole[:size])
            self.log = DecisionLog(self.path)
            self.assertEqual(self.log.is_committed(number), size == len(whole))
        self.log.close()

    def test_the_log_keeps_its_name_and_gives_no_number_twice(self):
        name, numbers = self.log.name, set()
        for _ in range(3):
            numbers |= {self.log.begin(), self.log.begin()}
            self.log.close()
            self.log = DecisionLog(self.path)
            self.assertEqual(self.log.name, name)
        self.log.close()
        self.assertEqual(len(numbers), 6)

    def test_the_log_leaves_out_what_is_done(self):
        with mock.patch("drdad_transaction.log.LINES_OF_A_FILE", 100):
            kept = self.log.begin()
            self.log.commit(kept, ("shop",))
            for _ in range(500):
                number = self.log.begin()
                self.log.commit(number, ("shop", "ledger"))
                self.log.leave(number, True)
        with open(self.path) as file:
            self.assertLessEqual(len(file.readlines()), 105)
        self.log.close()
        with DecisionLog(self.path) as log:
            self.assertTrue(log.is_committed(kept))
            self.assertFalse(log.is_committed(number))

    def work(self, first, failures):
        """Twenty rows in both, each in a transaction of its own, on connections of its own."""
        try:
            manager, shop, ledger = transaction.TransactionManager(), self.connect(), self.to_ledger()
            for key in range(first, first + 20):
                join(shop, "shop", self.log, manager)
                join(ledger, "ledger", self.log, manager)
                shop.cursor().execute("INSERT INTO T VALUES (?, ?)", (key, "x"))
                ledger.cursor().execute("INSERT INTO T VALUES (%s, %s)", (key, "x"))
                manager.commit()
        except BaseException as failure:
            failures.append(failure)

    def test_threads_share_a_log_beside_recovery(self):
        failures, outcomes = [], []
        threads = [threading.Thread(target=self.work, args=(100 * number, failures)) for number in range(8)]
        at = {"shop": self.connect(), "ledger": self.to_ledger()}
        for thread in threads:
            thread.start()
        while any(thread.is_alive() for thread in threads):
            outcomes += recover(self.log, at)
        self.assertEqual((failures, outcomes), ([], []))
        self.assertEqual(len(self.keys_of_both()), 160)


if __name__ == "__main__":
    unittest.main()
