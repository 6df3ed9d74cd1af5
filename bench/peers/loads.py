"""Loads over many connections (load.c, by drda.c or postgres.c), and what several servers made of them: rates taken in turn by rounds, and told as medians of
the rates and of the ratios inside of each round."""
import collections, os, pathlib, statistics, subprocess, sys

TOP = pathlib.Path(__file__).resolve().parents[2]
sys.path[:0] = [os.fspath(TOP / "tests"), os.fspath(TOP / "bench")]
from drdad_tests.served import PASSWORD, RDB, USER, Server, program_of

WIDTHS = (1, 4, 16, 63)
ROWS = 100_000
OURS = "drdad"
SOURCES = {"load": ("peers/load.c", "peers/drda.c", "peers/postgres.c"), "echo": ("serve/echo.c",), "slow.so": ("peers/slow.c",)}
WAITS = 600

Told = collections.namedtuple("Told", "rate median late latest sent back failed counted longest")


def built(folder):
    """The programs in C, and what is laid before the C library of others, by their names."""
    paths = {name: f"{folder}/{name}" for name in SOURCES}
    for name, sources in SOURCES.items():
        shared = ["-shared", "-fPIC"] if name.endswith(".so") else []
        words = ["cc", "-O2", "-Wall", "-pthread", *shared, "-o", paths[name], *(TOP / "bench" / source for source in sources), "-ldl"]
        subprocess.run(words, check=True)
    return paths


class Load:
    """Loads of one server; `commits` is the call of SYNCCTL that commits a branch there."""

    def __init__(self, program, port, database="-", user="-", password="-", commits=4):
        self.words, self.commits = [program, str(port), database, user, password], commits

    def run(self, work, width=1, seconds=1, table="T", rows=ROWS):
        """What came of a load: exchanges a second, the microseconds that 50, 99 and 99.9 of a hundred took at most, the bytes that an
        exchange sends and has back, how many connections failed, how many exchanges count, and the microseconds of the longest. Ends
        the script where a connection failed."""
        work = f"branch:{self.commits}" if work == "branch" else work
        words = [*self.words, work, str(width), str(seconds), table, str(rows)]
        done = subprocess.run(words, capture_output=True, text=True, timeout=WAITS)
        if done.returncode:
            sys.exit(f"{work} over {width} connections: {done.stderr}")
        return Told(*map(int, done.stdout.split())) if done.stdout else None

    def fill(self, *tables):
        """Makes the table T with its rows, and others without rows."""
        for table in ("T", *tables):
            self.run("create", table=table)
        self.run("fill")


def served(program, path, size=1 << 30):
    """drdad over a fresh store of so many bytes; it is served in the `with` that it stands in."""
    server = Server(program, path, size)
    server.made.check_returncode()
    return server


def load_of(programs, server):
    return Load(programs["load"], server.port, RDB, USER, PASSWORD)


class Rates:
    """Figures by work, width and server, one a round, and what they count."""

    def __init__(self, unit="a second"):
        self.unit = unit
        self.found = collections.defaultdict(lambda: collections.defaultdict(list))

    def note(self, work, width, rates):
        for name, rate in rates.items():
            self.found[work, width][name].append(rate)

    def add(self, work, width, rates):
        """Notes them, and tells them at once."""
        self.note(work, width, rates)
        with open("/proc/loadavg") as load:
            waiting = load.read().split()[0]
        told = ", ".join(f"{name} {rate:,.0f}" for name, rate in rates.items())
        print(f"{work} {width}, {self.unit}: {told} (load {waiting})", flush=True)

    def median(self, work, width, name):
        """The median over the rounds, where there is one."""
        found = self.found[work, width].get(name)
        return round(statistics.median(found)) if found else None

    def median_ratio(self, work, width, name):
        """That of the ratios inside of a round, of ours to another's."""
        rates = self.found[work, width]
        return round(statistics.median(map(ratio, rates[OURS], rates[name])), 2) if rates.get(name) else None

    def tell(self):
        """A line for each work and width."""
        for (work, width), rates in self.found.items():
            each = ("%s %s (%s to %s)" % (name, *(f"{it:,.0f}" for it in (statistics.median(all_of), min(all_of), max(all_of))))
                    for name, all_of in rates.items())
            ratios = (f"{statistics.median(map(ratio, rates[OURS], rates[name])):.2f} of {name}" for name in rates if name != OURS)
            print(f"{work}, {width} connections, {self.unit}: {', '.join(each)}; {', '.join(ratios)}", flush=True)


def ratio(one, other):
    return one / other if other else float("nan")
