"""What the tests of the framework packages share: drdad served (tests/over_a_server.py), and a PostgreSQL of its own beside it."""
import contextlib, glob, os, pathlib, pwd, shutil, signal, socket, subprocess, sys, tempfile, time, unittest

sys.dont_write_bytecode = True
HERE = pathlib.Path(__file__).resolve().parent
sys.path[:0] = [os.fspath(HERE.parent / "tests"), os.fspath(HERE.parent)]
from over_a_server import PROGRAM, OverAServer, drdad  # noqa: F401, handed on

WAITS = 60
SETTINGS = """
listen_addresses = '127.0.0.1'
port = {port}
unix_socket_directories = ''
max_prepared_transactions = 100
lock_timeout = 5s
"""


def programs():
    """The folder of PostgreSQL's programs, or None."""
    found = sorted(glob.glob("/usr/lib/postgresql/*/bin"))
    return found[-1] if found else os.path.dirname(shutil.which("initdb") or "") or None


class PostgreSQL:
    """A cluster in a folder of its own, on a free port of 127.0.0.1. PostgreSQL does not run as root: there it runs as `postgres`."""

    def __init__(self):
        self._folder = tempfile.mkdtemp(prefix="drdad-postgresql-")
        self._data, self.process = f"{self._folder}/data", None
        self._user = {"user": "postgres"} if os.geteuid() == 0 else {}
        if self._user:
            os.chown(self._folder, pwd.getpwnam("postgres").pw_uid, -1)
        self._run("initdb", "-D", self._data, "-A", "trust", "-U", "postgres", "-E", "UTF8", "--locale=C", "--no-sync")
        with socket.create_server(("127.0.0.1", 0)) as free:
            self.port = free.getsockname()[1]
        with open(f"{self._data}/postgresql.conf", "a") as settings:
            settings.write(SETTINGS.format(port=self.port))

    def _run(self, name, *words):
        subprocess.run([f"{programs()}/{name}", *words], check=True, stdout=subprocess.DEVNULL, cwd=self._folder, **self._user)

    def start(self):
        """Serves the cluster, and returns once it takes connections."""
        command = [f"{programs()}/postgres", "-D", self._data]
        with open(f"{self._folder}/log", "a") as log:
            self.process = subprocess.Popen(command, cwd=self._folder, stdout=log, stderr=log, **self._user)
        ends = time.monotonic() + WAITS
        while True:
            try:
                self.connect().close()
                return self
            except psycopg2.OperationalError:
                if time.monotonic() > ends or self.process.poll() is not None:
                    raise
                time.sleep(0.05)

    def connect(self):
        return psycopg2.connect(self.dsn)

    def clear(self, *tables):
        """Drops tables, and rolls back what is prepared."""
        with contextlib.closing(self.connect()) as connection:
            for xid in connection.tpc_recover():
                connection.tpc_rollback(xid)
            for table in tables:
                connection.cursor().execute(f"DROP TABLE IF EXISTS {table}")
            connection.commit()

    @property
    def dsn(self):
        return f"host=127.0.0.1 port={self.port} user=postgres dbname=postgres"

    def kill(self):
        """Ends it as a crash does: SIGQUIT leaves everything to recovery at the next start."""
        self.process.send_signal(signal.SIGQUIT)
        self.ended()

    def ended(self):
        """The exit status, once it has ended."""
        return self.process.wait(WAITS)

    def remove(self):
        if self.process is not None and self.process.poll() is None:
            self.kill()
        shutil.rmtree(self._folder)


try:
    import psycopg2
except ImportError:
    psycopg2 = None


@unittest.skipUnless(psycopg2 and programs(), "psycopg2 or PostgreSQL is not installed")
class BesidePostgreSQL(OverAServer):
    """Each test has a store of its own, and a PostgreSQL that the class shares."""

    @classmethod
    def setUpClass(cls):
        cls.postgresql = PostgreSQL()
        cls.addClassCleanup(cls.postgresql.remove)
        cls.postgresql.start()
