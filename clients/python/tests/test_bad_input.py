"""Servers that refuse, break off, say nothing or say something else; and what no server takes: a clear exception each time, no
hang, and nothing sent that is known to be refused."""
import socket, threading, time, unittest

from over_a_server import INSERT, OverABadServer, OverAServer, SILENT_SECONDS, drdad
from drdad import wire


def reply(form, correlator, *objects):
    return b"".join(wire.dss(form | (wire.CHAINED if at < len(objects) - 1 else 0), correlator, one) for at, one in enumerate(objects))


def message(code, severity, *parts):
    return wire.ddm(code, wire.number_object(wire.SVRCOD, severity, 2) + b"".join(parts))


ATTRIBUTES = wire.ddm(wire.EXCSATRD, wire.levels(*wire.LEVELS_ASKED))
SECURITY = wire.ddm(wire.ACCSECRD, wire.ddm(wire.SECMEC, wire.MECHANISM))
CHECKED = message(wire.SECCHKRM, 0, wire.ddm(wire.SECCHKCD, b"\0"))
ACCESSED = message(wire.ACCRDBRM, 0)
CLOSES = message(wire.AGNPRMRM, 64)


def chained(*replies):
    """Replies to the commands of a chain, each one DSS."""
    last = len(replies)
    return b"".join(wire.dss(form | (wire.CHAINED if at < last else 0), at, data) for at, (form, data) in enumerate(replies, 1))


OPENED = (
    chained((wire.OBJECT, ATTRIBUTES), (wire.OBJECT, SECURITY)),
    chained((wire.REPLY, CHECKED), (wire.REPLY, ACCESSED)),
)


def answering(*answers, waits=False):
    """A server that answers each request that comes with the next of these answers; then it closes, or waits."""
    def behave(stream):
        for answer in answers:
            if not stream.recv(65536):
                return
            stream.sendall(answer)
        if waits:
            while stream.recv(65536):
                pass
    return behave


class WhileItConnects(OverABadServer):
    def refused(self, behave, kind, said):
        began = time.monotonic()
        with self.assertRaises(kind) as raised:
            self.connect(behave)
        self.assertIn(said, str(raised.exception))
        self.assertLess(time.monotonic() - began, 10 * SILENT_SECONDS)

    def test_it_closes(self):
        self.refused(lambda stream: None, drdad.OperationalError, "the connection broke")

    def test_it_closes_in_the_middle(self):
        self.refused(answering(OPENED[0][:20]), drdad.OperationalError, "the server closed it")

    def test_it_says_nothing(self):
        self.refused(answering(waits=True), drdad.OperationalError, "the server was silent")

    def test_it_goes_on_byte_by_byte(self):
        def behave(stream):
            for byte in OPENED[0]:
                try:
                    stream.sendall(bytes([byte]))
                except OSError:
                    return
                time.sleep(0.1)
        self.refused(behave, drdad.OperationalError, "the server was silent")

    def test_it_says_something_else(self):
        for said in (b"HTTP/1.1 400 Bad Request\r\n\r\n", b"\0\5\xd0\1\0\1", b"\xff" * 64, wire.dss(wire.REQUEST, 1, ATTRIBUTES),
                     wire.dss(wire.OBJECT, 9, ATTRIBUTES), wire.dss(wire.OBJECT, 1, b"\0\3\x14\x43")):
            with self.subTest(said[:8]):
                self.refused(answering(said, waits=True), drdad.InterfaceError, "DRDA")

    def test_what_it_answers_lacks_something(self):
        for answer in (chained((wire.OBJECT, wire.ddm(wire.EXCSATRD)), (wire.OBJECT, SECURITY)),
                       chained((wire.OBJECT, ATTRIBUTES), (wire.OBJECT, wire.ddm(wire.SQLCARD, b"\0")))):
            with self.subTest(answer[:40]):
                self.refused(answering(answer, waits=True), drdad.InterfaceError, "")

    def test_it_gives_up(self):
        self.refused(answering(reply(wire.REPLY, 1, CLOSES)), drdad.OperationalError, "AGNPRMRM")

    def test_nobody_listens(self):
        with socket.create_server(("127.0.0.1", 0)) as listener:
            port = listener.getsockname()[1]
        with self.assertRaises(drdad.OperationalError) as raised:
            drdad.connect("127.0.0.1", port, "SHOP", "ana", "pw", timeout=SILENT_SECONDS)
        self.assertIn(f"no connection to 127.0.0.1:{port}", str(raised.exception))

    def test_a_host_that_is_none(self):
        for host, port in (("no such host", 1), ("127.0.0.1", 65536), ("127.0.0.1", -1)):
            with self.subTest(host, port=port), self.assertRaises(drdad.OperationalError):
                drdad.connect(host, port, "SHOP", "ana", "pw", timeout=SILENT_SECONDS)

    def test_the_words_of_the_call(self):
        for words in (("SHOP", "ana", "\ud800"), ("\ud800", "ana", "pw")):
            with self.subTest(words), self.assertRaises(drdad.DataError):
                drdad.connect("127.0.0.1", 1, *words)
        for timeout in (0, -1, float("inf"), float("nan")):
            with self.subTest(timeout), self.assertRaises(drdad.ProgrammingError):
                drdad.connect("127.0.0.1", 1, "SHOP", "ana", "pw", timeout=timeout)


class WhileItIsOpen(OverABadServer):
    """The conversation is open, and then something is wrong: the connection says so, is closed, and can still be asked."""

    def opened(self, *answers, waits=False):
        return self.connect(answering(*OPENED, *answers, waits=waits))

    def broken(self, connection, kind, said):
        cursor = connection.cursor()
        with self.assertRaises(kind) as raised:
            cursor.execute("DELETE FROM T")
        self.assertIn(said, str(raised.exception))
        self.assertFalse(connection.is_open())
        for call in (connection.commit, connection.rollback, lambda: cursor.execute("DELETE FROM T")):
            with self.assertRaises(drdad.InterfaceError):
                call()
        connection.close()

    def test_it_closes(self):
        self.broken(self.opened(), drdad.OperationalError, "the connection broke")

    def test_it_gives_up(self):
        self.broken(self.opened(reply(wire.REPLY, 1, CLOSES)), drdad.OperationalError, "AGNPRMRM")

    def test_it_says_nothing(self):
        began = time.monotonic()
        self.broken(self.opened(waits=True), drdad.OperationalError, "the server was silent")
        self.assertLess(time.monotonic() - began, 10 * SILENT_SECONDS)

    def test_it_takes_nothing(self):
        """The client has more to send than the way holds, and the server reads none of it."""
        def behave(stream):
            answering(*OPENED)(stream)
            done.wait(20)
        done = threading.Event()
        self.addCleanup(done.set)
        connection = self.connect(behave)
        rows = [(number, "x" * 2000) for number in range(20000)]
        with self.assertRaises(drdad.OperationalError) as raised:
            connection.cursor().executemany(INSERT, rows)
        self.assertIn("the server was silent", str(raised.exception))

    def test_it_answers_something_else(self):
        card = wire.ddm(wire.SQLCARD, b"\xff")
        for answer in (wire.dss(wire.OBJECT, 2, card), wire.dss(wire.OBJECT, 1, wire.ddm(wire.SQLCARD, b"\0\0")),
                       reply(wire.REPLY, 1, message(wire.RDBUPDRM, 0)), wire.dss(wire.OBJECT, 1, card) * 2,
                       reply(wire.OBJECT, 1, *[card] * 100)):
            with self.subTest(answer[:20]):
                self.broken(self.opened(answer, waits=True), drdad.InterfaceError, "")

    def test_it_is_of_limited_means(self):
        """RSCLMTRM is no end: the unit under way stays, and the connection is open."""
        connection = self.opened(reply(wire.REPLY, 1, message(wire.RSCLMTRM, 8)), waits=True)
        with self.assertRaises(drdad.OperationalError) as raised:
            connection.cursor().execute("DELETE FROM T")
        self.assertIn("RSCLMTRM", str(raised.exception))
        self.assertTrue(connection.is_open())
        connection.close()


class BeforeAnythingIsSent(OverAServer):
    """What the client knows to be refused is told, and nothing goes out."""

    LONGEST = "SELECT K FROM T WHERE K = 1"

    def setUp(self):
        super().setUp()
        self.sent = []
        self.connection, self.cursor = self.with_rows(watch=self.sent.append)
        del self.sent[:]

    def told(self, kind, call):
        with self.assertRaises(kind):
            call()
        self.assertEqual(self.sent, [])

    def test_statements(self):
        cursor = self.cursor
        self.told(drdad.ProgrammingError, lambda: cursor.execute("SELECT K FROM T WHERE K = " + "1" * 32742))
        self.told(drdad.ProgrammingError, lambda: cursor.executemany("INSERT INTO T VALUES (?, ?)" + " " * 32768, [(9, "")]))
        self.told(drdad.DataError, lambda: cursor.execute("SELECT K FROM T WHERE V = '\ud800'"))
        for operation in (None, b"SELECT K FROM T", 7):
            self.told(drdad.ProgrammingError, lambda operation=operation: cursor.execute(operation))

    def test_the_longest_statement_is_sent(self):
        text = self.LONGEST + " " * (32767 - len(self.LONGEST))
        self.assertEqual(self.cursor.execute(text).fetchall(), [(1,)])
        self.told_after = len(self.sent)
        with self.assertRaises(drdad.ProgrammingError):
            self.cursor.execute(text + " ")
        self.assertEqual(len(self.sent), self.told_after)

    def test_parameters(self):
        execute = self.cursor.execute
        self.told(drdad.ProgrammingError, lambda: execute("SELECT K FROM T WHERE K = ?", (1,) * 129))
        for given in ("1", b"1", {1}, {"K": 1}, 7):
            self.told(drdad.ProgrammingError, lambda given=given: execute("SELECT K FROM T WHERE K = ?", given))

    def test_values(self):
        execute, many = self.cursor.execute, self.cursor.executemany
        for value in (2**63, -2**63 - 1, "x" * 2001, b"x" * 2001, "\ud800"):
            self.told(drdad.DataError, lambda value=value: execute("SELECT K FROM T WHERE V = ?", (value,)))
            self.told(drdad.DataError, lambda value=value: many(INSERT, [(9, "first"), (10, value)]))
        for value in (1.5, object(), [1], drdad.Date(2026, 11, 25), drdad.Timestamp(2026, 11, 25)):
            self.told(drdad.NotSupportedError, lambda value=value: execute("SELECT K FROM T WHERE V = ?", (value,)))

    def test_the_most_parameters_are_sent(self):
        marks = " OR ".join(["K = ?"] * 128)
        self.assertEqual(self.cursor.execute(f"SELECT K FROM T WHERE {marks}", (1,) * 128).fetchall(), [(1,)])

    def test_the_connection_stays_as_it_was(self):
        self.cursor.execute("DELETE FROM T WHERE K = 0")
        with self.assertRaises(drdad.Error):
            self.cursor.execute("SELECT K FROM T WHERE K = ?", (object(),))
        self.assertEqual(self.keys(self.cursor), [1, 2])


class Full(OverAServer):
    """A store that has no more room tells it, and what was committed stays; a unit that is prepared can be decided."""

    size = 2 << 20
    TEXT = "x" * 600
    MOST_ROWS = 3000

    def filled(self, connection, cursor, first):
        """Commits rows until there is no room for more: how many are in."""
        for at in range(first, self.MOST_ROWS, 100):
            try:
                cursor.executemany(INSERT, [(number, self.TEXT) for number in range(at, at + 100)])
                connection.commit()
            except drdad.OperationalError as failure:
                self.assertIn("RSCLMTRM", str(failure))
                connection.rollback()
                return at
        self.fail(f"{self.MOST_ROWS} rows had room")

    def test_it_tells_and_keeps(self):
        connection, cursor = self.with_table()
        connection.tpc_begin((1, b"G", b"B"))
        cursor.execute(INSERT, (0, "in doubt"))
        connection.tpc_prepare()
        connection.close()
        connection = self.connect()
        cursor = connection.cursor()
        end = self.filled(connection, cursor, 1)
        self.assertGreater(end, 1000)
        connection.tpc_commit((1, b"G", b"B"))
        self.assertEqual(self.keys(cursor), list(range(end)))

    def test_a_unit_with_too_many_changes(self):
        connection, cursor = self.with_table()
        with self.assertRaises(drdad.OperationalError) as raised:
            cursor.executemany(INSERT, [(number, self.TEXT) for number in range(2000)])
        self.assertEqual(raised.exception.sqlcode, -904)
        connection.rollback()
        self.assertEqual(self.keys(cursor), [])


class Refused(OverAServer):
    def test_a_wrong_password(self):
        with self.assertRaises(drdad.OperationalError) as raised:
            self.server.connect(password="no")
        self.assertIn("the password is wrong", str(raised.exception))

    def test_another_user_or_database(self):
        for database, user in (("SHOP", "bob"), ("OTHER", "ana"), ("X" * 19, "ana"), ("", "ana"), ("SHOP", "")):
            with self.subTest(database=database, user=user), self.assertRaises(drdad.DatabaseError):
                drdad.connect("127.0.0.1", self.server.port, database, user, "pw")

    def test_more_or_fewer_parameters_than_markers(self):
        _, cursor = self.with_rows()
        for parameters in ((), (1,), (1, "a", 3)):
            with self.subTest(parameters), self.assertRaises(drdad.ProgrammingError):
                cursor.execute(INSERT, parameters)
        self.assertEqual(self.keys(cursor), [0, 1, 2])


if __name__ == "__main__":
    unittest.main()
