"""What the tests of the shell share."""
import os, pathlib, subprocess, sys, tempfile

from over_a_server import CLIENT, OverAServer

CREATE = "CREATE TABLE T (K INTEGER NOT NULL,\n  V VARCHAR(20), B VARBINARY(8), PRIMARY KEY (K));\n"
WAITS = 240


class OfAShell(OverAServer):
    def setUp(self):
        super().setUp()
        folder = tempfile.TemporaryDirectory()
        self.addCleanup(folder.cleanup)
        self.folder = pathlib.Path(folder.name)
        self.around = {**os.environ, "PYTHONPATH": str(CLIENT), "DRDAD_PASSWORD": "pw", "PYTHONDONTWRITEBYTECODE": "1",
                       "DRDAD_HISTORY": str(self.folder / "history"), "PYTHONIOENCODING": "utf-8"}

    def words(self, *more):
        return [sys.executable, "-m", "drdad", f"127.0.0.1:{self.server.port}/SHOP", "--user", "ana", "--timeout", "60", *more]

    def ran(self, script, *more, **around):
        """How the shell ended with this script on its standard input, what it printed, and what it complained of."""
        script = script if isinstance(script, bytes) else script.encode()
        ran = subprocess.run(self.words(*more), input=script, env={**self.around, **around}, capture_output=True, timeout=WAITS)
        return ran.returncode, ran.stdout.decode(), ran.stderr.decode()
