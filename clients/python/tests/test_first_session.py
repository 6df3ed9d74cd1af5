"""A new user's first session, from the installation on, as it stands in first_session.txt: what is typed at a terminal, and what the
screen shows. `python3 test_first_session.py --write` writes that file anew from a run."""
import importlib.util, os, pathlib, re, signal, socket, sys, tempfile, time, unittest

from over_a_server import CLIENT, PROGRAM
from typing_terminal import Terminal

KEPT = pathlib.Path(__file__).resolve().parent / "first_session.txt"
ROWS = 20000
CONTROL_C, KILLS, SERVES = "Ctrl-C", "(the server is killed)", "(the server is started again)"

# A prompt, and what is typed behind it, pressed, or done elsewhere.
STEPS = (
    ("$ ", "python3 -m venv client && client/bin/pip install --quiet --no-index {client}"),
    ("$ ", "export PATH=$PWD/client/bin:$PATH"),
    ("$ ", "drdad init shop.drda --size 16777216 --rdb SHOP"),
    ("$ ", "(umask 077; echo ana:pw > login)"),
    ("$ ", "(drdad serve shop.drda --port {port} --user-file login > served & echo $! > served.pid)"),
    ("$ ", "drdad-shell drdad://ana@127.0.0.1:{port}/SHOP"),
    ("Password: ", "pw"),
    ("drdad> ", "CREATE TABLE CUSTOMER (K INTEGER NOT NULL, NAME VARCHAR(40), PRIMARY KEY (K));"),
    ("drdad> ", "SELECT * FORM CUSTOMER;"),
    ("drdad> ", "SELECT * FROM CUSTOMER ORDER BY NAME;"),
    ("drdad> ", "INSERT INTO CUSTOMER VALUES (1, 'Ada'); -- it's the first"),
    ("drdad> ", "INSERT INTO CUSTOMER VALUES (1, 'Bo');"),
    ("drdad> ", "SELECT *"),
    ("...> ", "  FROM CUSTOMER;"),
    ("drdad> ", "SELECT 'it is"),
    ("'> ", CONTROL_C),
    ("drdad> ", "\\copy CUSTOMER FROM customers.csv"),
    ("2000 rows", CONTROL_C),
    ("drdad> ", "DELETE FROM CUSTOMER WHERE K > 3;"),
    ("drdad> ", "\\copy CUSTOMER TO out.csv"),
    ("drdad> ", "CREATE TABLE COPIED (K INTEGER NOT NULL, NAME VARCHAR(40), PRIMARY KEY (K));"),
    ("drdad> ", "\\copy COPIED FROM out.csv"),
    ("drdad> ", "SELECT * FROM COPIED WHERE K <> 2;"),
    ("drdad> ", KILLS),
    ("", "SELECT * FROM COPIED WHERE K = 1;"),
    ("drdad!> ", SERVES),
    ("", "SELECT * FROM COPIED WHERE K = 1;"),
    ("drdad> ", "\\begin 1 6761 62"),
    ("drdad*> ", "UPDATE COPIED SET NAME = 'Ada L.' WHERE K = 1;"),
    ("drdad*> ", "\\prepare"),
    ("drdad?> ", "\\q"),
    ("$ ", "drdad-shell drdad://ana@127.0.0.1:{port}/SHOP"),
    ("Password: ", "pw"),
    ("drdad> ", "SELECT NAME FROM COPIED WHERE K = 1;"),
    ("drdad> ", "\\recover"),
    ("drdad> ", "\\commit 1 6761 62"),
    ("drdad> ", "SELECT NAME FROM COPIED WHERE K = 1;"),
    ("drdad> ", "quit"),
    ("$ ", "exit"),
)
# What differs from run to run.
NORMAL = (
    (re.compile(r"\(\d+\.\d ms\)"), "(T ms)"), (re.compile(r"(\r\d+ rows)+\^C(\r\d+ rows)*\n"), "2000 rows^C\n"),
    (re.compile(r"(\r\d+ rows)+\r"), ""),
    (re.compile(r"interrupted; \d+ rows"), "interrupted; N rows"),
    (re.compile(r"^\d+ rows \(T ms\)(?=\ndrdad> .copy CUSTOMER TO)", re.M), "N rows (T ms)"),
    (re.compile(r"drdad-shell \d[\d.]*"), "drdad-shell VERSION"), (re.compile(r"(the connection broke: ).*"), r"\1.."),
)


class Session:
    """Plays the steps in a folder."""

    def __init__(self, folder):
        self.folder, self.words = pathlib.Path(folder), {"client": str(CLIENT), "port": free_port()}
        names = "".join(f"{key},customer {key}\n" for key in range(2, ROWS))
        (self.folder / "customers.csv").write_text(f"K,NAME\n{names}")
        (self.folder / "bin").mkdir()
        (self.folder / "bin/drdad").symlink_to(PROGRAM)

    def around(self):
        path = f"{self.folder}/bin:{os.path.dirname(sys.executable)}:{os.environ['PATH']}"
        kept = {name: value for name, value in os.environ.items() if name not in ("PYTHONPATH", "DRDAD_PASSWORD", "DRDAD_URL")}
        return {**kept, "PATH": path, "PS1": "$ ", "HOME": str(self.folder), "LC_ALL": "C.UTF-8", "PIP_DISABLE_PIP_VERSION_CHECK": "1",
                "COLUMNS": "200", "PROMPT_COMMAND": ""}

    def play(self):
        """The screen, as it is kept."""
        os.chdir(self.folder)
        with Terminal(["bash", "--norc", "--noprofile", "-i"], self.around()) as terminal:
            terminal.types("$ ", "stty cols 200; bind 'set enable-bracketed-paste off'")
            began = terminal.until("off'\n")
            try:
                for prompt, what in STEPS:
                    self.do(terminal, prompt, what)
                terminal.ended()
            finally:
                self.kill()
            return self.normal(terminal.screen[began:])

    def do(self, terminal, prompt, what):
        terminal.until(prompt)
        if what == KILLS:
            self.kill()
        elif what == SERVES:
            self.serve()
        elif what == CONTROL_C:
            terminal.keys("\x03")
        else:
            line = what.format(**self.words)
            terminal.keys(line + "\n")
            terminal.until("\n" if prompt == "Password: " else line + "\n")
        if what.startswith("(drdad serve"):
            self.await_server()

    def serve(self):
        line = next(what for _, what in STEPS if what.startswith("(drdad serve")).format(**self.words)
        os.system(f"PATH={self.folder}/bin:$PATH; {line}")
        self.await_server()

    def await_server(self):
        ends = time.monotonic() + 60
        while "listening" not in (self.folder / "served").read_text() if (self.folder / "served").exists() else True:
            if time.monotonic() > ends:
                raise AssertionError("the server does not listen")
            time.sleep(0.05)

    def kill(self):
        path = self.folder / "served.pid"
        if path.exists():
            os.kill(int(path.read_text()), signal.SIGKILL)
            path.unlink()
            (self.folder / "served").unlink()
            time.sleep(0.5)

    def normal(self, screen):
        for value, name in ((self.words["client"], "CLIENT"), (str(self.words["port"]), "PORT")):
            screen = screen.replace(value, name)
        for pattern, put in NORMAL:
            screen = pattern.sub(put, screen)
        return "\n".join(line.rstrip() for line in screen.split("\n")).strip() + "\n"


def free_port():
    with socket.create_server(("127.0.0.1", 0)) as listener:
        return listener.getsockname()[1]


def played():
    with tempfile.TemporaryDirectory() as folder:
        before = os.getcwd()
        try:
            return Session(folder).play()
        finally:
            os.chdir(before)


@unittest.skipUnless(PROGRAM, "DRDAD names no program")
@unittest.skipUnless(importlib.util.find_spec("ensurepip"), "this Python makes no venv with pip (Debian's python3-venv)")
class FirstSession(unittest.TestCase):
    maxDiff = None

    def test_it_goes_as_it_is_kept(self):
        self.assertEqual(played(), KEPT.read_text())


if __name__ == "__main__":
    if "--write" in sys.argv:
        KEPT.write_text(played())
    else:
        unittest.main()
