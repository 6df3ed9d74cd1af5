"""The program drdad over a store: made, served, killed and served again, and read by `pipe`."""
import os, pathlib, re, subprocess, sys, threading, time

TOP = pathlib.Path(__file__).resolve().parent.parent.parent
import drdad
from drdad import link

RDB, USER, PASSWORD = "SHOP", "ana", "pw"
WAITS = 60.0


def program_of(words):
    """The path of the program that the words of a command line name; else of the one that is ready (tools/ready_program)."""
    if words:
        return os.path.realpath(words[0])
    ready = subprocess.run([TOP / "tools" / "ready_program"], stdout=subprocess.PIPE, check=True, text=True)
    return ready.stdout.rstrip("\n")


class Server:
    """A store, made at a path, and whoever serves it; no one does once the `with` that it stands in is left."""

    def __init__(self, program, store, size=2 << 20):
        self.program, self.store, self.process, self.port = program, os.fspath(store), None, None
        self.made = self.done("init", self.store, "--size", str(size), "--rdb", RDB)

    def __enter__(self):
        return self

    def __exit__(self, *_):
        if self.process is not None and self.process.poll() is None:
            self.kill()

    def done(self, *words, **options):
        """The program with these arguments, run to its end."""
        options = {"text": True, **({} if "input" in options else {"stdin": subprocess.DEVNULL}), **options}
        return subprocess.run([self.program, *words], capture_output=True, **options)

    def start(self, *words, stderr=None):
        """Serves the store on a free port, and returns once the server listens; one that does not in time is killed."""
        command = [self.program, "serve", self.store, "--port", "0", "--user", f"{USER}:{PASSWORD}", *words]
        self.process = subprocess.Popen(command, stdout=subprocess.PIPE, stdin=subprocess.DEVNULL, stderr=stderr, text=True)
        late = threading.Timer(WAITS, self.process.kill)
        late.start()
        found = re.fullmatch(r"listening (\d+)\n", self.process.stdout.readline())
        late.cancel()
        if not found:
            raise RuntimeError(f"the server ended with status {self.process.wait()}")
        self.port = int(found[1])
        return self

    def kill(self):
        """Ends the server by SIGKILL; one that has ended already is left so."""
        self.process.kill()
        return self.ended()

    def ended(self):
        """The exit status of the server, once it has ended."""
        with self.process.stdout:
            return self.process.wait()

    def connect(self, **words):
        words = {"timeout": WAITS, "password": PASSWORD, **words}
        return drdad.connect("127.0.0.1", self.port, RDB, USER, **words)

    def let_in(self):
        """A connection as soon as the server has a place for it: those that have ended may not have left theirs yet."""
        ends = time.monotonic() + WAITS
        while True:
            try:
                return self.connect()
            except drdad.OperationalError:
                if self.process.poll() is not None or time.monotonic() > ends:
                    raise
                time.sleep(0.005)

    def link(self):
        """A conversation in which nothing was said yet."""
        return link.Link("127.0.0.1", self.port, WAITS)


def resident_kib(process):
    """The memory of a process that is resident."""
    with open(f"/proc/{process.pid}/status") as status:
        return next(int(line.split()[1]) for line in status if line.startswith("VmRSS:"))
