"""What the tests of the client share: a store of its own for each test, served by the built program that the environment variable
DRDAD names, and servers that are none."""
import os, pathlib, signal, socket, subprocess, sys, tempfile, threading, unittest

TOP = pathlib.Path(__file__).resolve().parents[3]
CLIENT = TOP / "clients" / "python"
sys.path.insert(0, os.fspath(TOP / "tests"))
from drdad_tests.served import PASSWORD, USER, Server, drdad

PROGRAM = os.environ.get("DRDAD")
CREATE = "CREATE TABLE T (K INTEGER NOT NULL, V VARCHAR(600), PRIMARY KEY (K))"
INSERT = "INSERT INTO T VALUES (?, ?)"
SILENT_SECONDS = 0.5


@unittest.skipUnless(PROGRAM, "DRDAD names no program")
class OverAServer(unittest.TestCase):
    """Each test has a store of its own, which is served, and a connection to it where it asks for one."""

    size = 16 << 20

    def setUp(self):
        folder = tempfile.TemporaryDirectory()
        self.addCleanup(folder.cleanup)
        self.server = self.enterContext(Server(PROGRAM, f"{folder.name}/store", self.size)).start()

    def stop_server(self):
        """No thread of the server runs from then on, until go_on()."""
        self.server.process.send_signal(signal.SIGSTOP)
        os.waitid(os.P_PID, self.server.process.pid, os.WSTOPPED | os.WNOWAIT)

    def go_on(self):
        self.server.process.send_signal(signal.SIGCONT)

    def enterContext(self, context):
        """As Python 3.11 has it."""
        entered = context.__enter__()
        self.addCleanup(context.__exit__, None, None, None)
        return entered

    def serve_again(self):
        """Serves the store at the port where it was served."""
        command = [PROGRAM, "serve", self.server.store, "--port", str(self.server.port), "--user", f"{USER}:{PASSWORD}"]
        self.server.process = subprocess.Popen(command, stdout=subprocess.PIPE, stdin=subprocess.DEVNULL, text=True)
        self.assertEqual(self.server.process.stdout.readline(), f"listening {self.server.port}\n")

    def connect(self, **words):
        connection = self.server.connect(**words)
        self.addCleanup(connection.close)
        return connection

    def with_table(self, **words):
        """A connection that has created the table T and committed it, and a cursor."""
        connection = self.connect(**words)
        cursor = connection.cursor()
        cursor.execute(CREATE)
        if not connection.autocommit:
            connection.commit()
        return connection, cursor

    def with_rows(self, count=3, **words):
        """The same with rows of the keys from 0 on, committed."""
        connection, cursor = self.with_table(**words)
        cursor.executemany(INSERT, [(number, f"row {number}") for number in range(count)])
        if not connection.autocommit:
            connection.commit()
        return connection, cursor

    def keys(self, cursor):
        """Those of T, once no other unit holds it: a connection that was closed may not have been left yet."""
        return [key for key, in drdad.retry(cursor.connection, lambda _: cursor.execute("SELECT K FROM T").fetchall())]


class OverABadServer(unittest.TestCase):
    """A server that a test plays: it answers the first connection as the test says."""

    def served(self, behave):
        """The port of a server that behaves so on its first stream."""
        listener = socket.create_server(("127.0.0.1", 0))
        self.addCleanup(listener.close)

        def serve():
            stream, _ = listener.accept()
            with stream:
                behave(stream)

        thread = threading.Thread(target=serve, daemon=True)
        thread.start()
        self.addCleanup(thread.join, 10)
        return listener.getsockname()[1]

    def connect(self, behave, **words):
        words = {"timeout": SILENT_SECONDS, **words}
        return drdad.connect("127.0.0.1", self.served(behave), "SHOP", "ana", "pw", **words)
