"""Global units by the two-phase extension of PEP 249."""
import unittest

from over_a_server import INSERT, OverAServer, drdad

UNIT = drdad.Xid(1, b"global", b"branch")
OTHER = drdad.Xid(1, b"other", b"")


class TwoPhase(OverAServer):
    def begun(self):
        """A connection in a global unit that has taken out the row of key 1, and its cursor."""
        connection, cursor = self.with_rows()
        connection.tpc_begin(UNIT)
        cursor.execute("DELETE FROM T WHERE K = 1")
        return connection, cursor

    def test_an_xid_has_its_parts(self):
        unit = self.connect().xid(7, b"G", b"B")
        self.assertEqual((unit.format_id, unit.global_transaction_id, unit.branch_qualifier), (7, b"G", b"B"))
        self.assertEqual(tuple(unit), (7, b"G", b"B"))
        self.assertEqual(str(unit), "7 47 42")

    def test_commit_in_two_phases(self):
        connection, cursor = self.begun()
        connection.tpc_prepare()
        connection.tpc_commit()
        self.assertEqual(self.keys(cursor), [0, 2])
        self.assertEqual(connection.tpc_recover(), [])

    def test_commit_in_one_phase(self):
        connection, cursor = self.begun()
        connection.tpc_commit()
        self.assertEqual(self.keys(cursor), [0, 2])

    def test_rollback(self):
        for prepares in (False, True):
            with self.subTest(prepares):
                connection, cursor = self.with_rows() if not prepares else (connection, cursor)
                connection.tpc_begin(UNIT)
                cursor.execute("DELETE FROM T WHERE K = 1")
                if prepares:
                    connection.tpc_prepare()
                connection.tpc_rollback()
                self.assertEqual(self.keys(cursor), [0, 1, 2])
                connection.commit()

    def test_one_unit_after_the_other(self):
        """Behind the end of a global unit nothing is under way: the next one can begin, and so can local work."""
        connection, cursor = self.with_table()
        ends = (lambda: connection.tpc_commit(), lambda: connection.tpc_rollback(),
                lambda: (connection.tpc_prepare(), connection.tpc_commit()), lambda: (connection.tpc_prepare(), connection.tpc_rollback()))
        for number, end in enumerate(ends):
            connection.tpc_begin((1, b"G", bytes([number])))
            cursor.execute(INSERT, (number, "x"))
            end()
        connection.tpc_begin(UNIT)
        connection.tpc_rollback()
        self.assertEqual(self.keys(cursor), [0, 2])

    def test_a_unit_that_reads_only(self):
        connection, cursor = self.with_rows()
        connection.tpc_begin(UNIT)
        self.assertEqual(self.keys(cursor), [0, 1, 2])
        connection.tpc_prepare()
        self.assertEqual(connection.tpc_recover(), [])
        connection.tpc_commit()
        self.assertEqual(self.keys(cursor), [0, 1, 2])

    def test_a_unit_outlives_its_connection_and_its_server(self):
        connection, _ = self.begun()
        connection.tpc_prepare()
        self.server.kill()
        self.server.start()
        again = self.connect()
        self.assertEqual(again.tpc_recover(), [UNIT])
        with self.assertRaises(drdad.OperationalError):
            self.keys(again.cursor())
        again.rollback()
        again.tpc_commit(again.tpc_recover()[0])
        self.assertEqual(again.tpc_recover(), [])
        self.assertEqual(self.keys(again.cursor()), [0, 2])

    def test_a_unit_that_was_decided_heuristically(self):
        for word, is_committed, keys in (("commit", True, [0, 2]), ("rollback", False, [0, 1, 2])):
            with self.subTest(word):
                self.setUp()
                connection, _ = self.begun()
                connection.tpc_prepare()
                self.server.kill()
                words = str(UNIT.format_id), UNIT.global_transaction_id.hex(), UNIT.branch_qualifier.hex()
                self.assertEqual(self.server.done("decide", self.server.store, *words, word).stdout, "decided\n")
                self.server.start()
                again = self.connect()
                self.assertEqual(again.tpc_recover(), [UNIT])
                for call in (again.tpc_commit, again.tpc_rollback):
                    with self.assertRaises(drdad.HeuristicError) as raised:
                        call(UNIT)
                    self.assertEqual(raised.exception.is_committed, is_committed)
                self.assertEqual(self.keys(again.cursor()), keys)
                again.commit()
                again.tpc_forget(UNIT)
                self.assertEqual(again.tpc_recover(), [])
                with self.assertRaises(drdad.ProgrammingError) as raised:
                    again.tpc_forget(UNIT)
                self.assertEqual(raised.exception.xacode, -4)

    def test_a_unit_that_waits_is_not_forgotten(self):
        connection, _ = self.begun()
        connection.tpc_prepare()
        connection.close()
        again = self.connect()
        with self.assertRaises(drdad.ProgrammingError) as raised:
            again.tpc_forget(UNIT)
        self.assertEqual((raised.exception.xacode, again.tpc_recover()), (-6, [UNIT]))

    def test_a_unit_that_is_not_prepared_is_lost_with_its_connection(self):
        connection, _ = self.begun()
        connection.close()
        again = self.connect()
        self.assertEqual((again.tpc_recover(), self.keys(again.cursor())), ([], [0, 1, 2]))

    def test_several_units_in_doubt(self):
        units = [drdad.Xid(1, b"G", bytes([number])) for number in range(1, 30)]
        connection, cursor = self.with_table()
        for number, unit in enumerate(units):
            connection.tpc_begin(unit)
            cursor.execute(INSERT, (number, "x"))
            connection.tpc_prepare()
            connection.close()
            connection = self.connect()
            cursor = connection.cursor()
        self.assertEqual(sorted(connection.tpc_recover()), units)
        for number, unit in enumerate(units):
            (connection.tpc_commit if number % 2 else connection.tpc_rollback)(unit)
        self.assertEqual(self.keys(cursor), list(range(1, 29, 2)))

    def test_what_has_no_place(self):
        connection, cursor = self.with_rows()
        for call in (connection.tpc_prepare, connection.tpc_commit, connection.tpc_rollback):
            with self.subTest("outside of a unit"), self.assertRaises(drdad.ProgrammingError):
                call()
        cursor.execute("DELETE FROM T WHERE K = 1")
        for call in (connection.tpc_begin, connection.tpc_commit, connection.tpc_rollback):
            with self.subTest("with work under way"), self.assertRaises(drdad.ProgrammingError):
                call(UNIT)
        connection.rollback()
        connection.tpc_begin(UNIT)
        calls = (connection.commit, connection.rollback, lambda: connection.tpc_begin(OTHER), lambda: connection.tpc_commit(OTHER),
                 lambda: connection.tpc_rollback(OTHER), lambda: setattr(connection, "autocommit", True))
        for at, call in enumerate(calls):
            with self.subTest("inside of a unit", at=at), self.assertRaises(drdad.ProgrammingError):
                call()
        cursor.execute("DELETE FROM T WHERE K = 1")
        connection.tpc_prepare()
        for call in (lambda: cursor.execute("DELETE FROM T"), connection.tpc_prepare):
            with self.subTest("prepared"), self.assertRaises(drdad.ProgrammingError):
                call()
        connection.tpc_commit()
        self.assertEqual(self.keys(cursor), [0, 2])

    def test_what_the_server_refuses(self):
        connection, _ = self.with_rows()
        for call in (connection.tpc_commit, connection.tpc_rollback):
            with self.subTest("not known"), self.assertRaises(drdad.ProgrammingError) as raised:
                call(OTHER)
            self.assertEqual(raised.exception.xacode, -4)
        for given in (None, 7, "1:47:42", (1, b"G"), (1, b"", b"B"), (2**32 - 1, b"G", b"B")):
            with self.subTest(given), self.assertRaises(drdad.ProgrammingError):
                connection.tpc_begin(given)

    def test_two_connections_in_one_store(self):
        """A unit that one connection prepared is decided by another."""
        connection, _ = self.begun()
        connection.tpc_prepare()
        connection.close()
        with self.server.connect() as other:
            other.tpc_rollback(UNIT)
        self.assertEqual(self.keys(self.connect().cursor()), [0, 1, 2])


if __name__ == "__main__":
    unittest.main()
