"""The log of decisions: which global units are committed. A unit that is in doubt somewhere, and is not in the log, is rolled back."""
import fcntl, logging, os, re, secrets, threading

TOLD = logging.getLogger(__package__)

TITLE = "drdad_transaction"
# So many lines are written before those that nobody needs any more are left out.
LINES_OF_A_FILE = 100_000
LINE = re.compile(r"commit ([0-9]+\.[0-9]+)((?: [!-~]+)+)|(done) ([0-9]+\.[0-9]+)")


class Undecided(Exception):
    """The decision could not be written, and is not in the log: the unit is rolled back."""


class BrokenLog(Exception):
    """The file is no log, is used by another process, or has failed. Where it failed at a decision, the unit stays in doubt until
    the log is opened again and `recover` is called."""


class DecisionLog:
    """The decisions in a file, a line each, for one process at a time (PATH.lock is held). A decision is on the device when the call
    that writes it returns. What a crash has left of a line without its end is left out, since nobody has gone on behind it.

    The log has a name of its own, which stands in each transaction ID: `recover` decides the units of this log, and no others."""

    def __init__(self, path):
        self._path = os.path.abspath(path)
        self._mutex = threading.Lock()
        self._count, self._in_flight, self._file = 0, set(), None
        self._lock = os.open(f"{self._path}.lock", os.O_RDWR | os.O_CREAT | os.O_CLOEXEC, 0o600)
        try:
            fcntl.flock(self._lock, fcntl.LOCK_EX | fcntl.LOCK_NB)
            self.name, self._start, self._decisions = self._read()
            self._start += 1
            self._rewrite()
        except BlockingIOError:
            self.close()
            raise BrokenLog(f"{path} is used by another process") from None
        except BaseException:
            self.close()
            raise

    def _read(self):
        """The log's name, how often it was opened, and the decisions that somebody may still need, with the names of their
        resources."""
        if not os.path.exists(self._path):
            return secrets.token_hex(8), 0, {}
        with open(self._path, encoding="ascii") as file:
            head, *lines = file.read().split("\n")[:-1] or [""]
        found = re.fullmatch(rf"{TITLE} ([0-9a-f]{{16}}) ([0-9]+)", head)
        if not found:
            raise BrokenLog(f"{self._path} is no log of decisions")
        decisions = {}
        for line in lines:
            self._read_line(line, decisions)
        return found[1], int(found[2]), decisions

    def _read_line(self, line, decisions):
        found = LINE.fullmatch(line)
        if not found:
            raise BrokenLog(f"{self._path} is damaged: {line!r}")
        if found[3]:
            decisions.pop(found[4], None)
        else:
            decisions[found[1]] = tuple(found[2].split())

    def _rewrite(self):
        """Puts a file in place that has no more than what is needed; the one before stays until it is whole."""
        lines = [f"{TITLE} {self.name} {self._start}", *(self._commit_line(*one) for one in self._decisions.items())]
        path = f"{self._path}.new"
        file = os.open(path, os.O_RDWR | os.O_CREAT | os.O_TRUNC | os.O_CLOEXEC, 0o600)
        try:
            size = self._written(file, "".join(f"{line}\n" for line in lines), 0)
            os.fsync(file)
        except BaseException:
            os.close(file)
            raise
        self._replace(path, file)
        self._end, self._lines = size, len(lines)

    def _replace(self, path, file):
        """Where this fails nobody can tell which file the next process finds: nothing more may be decided here."""
        if self._file is not None:
            os.close(self._file)
        self._file = file
        try:
            os.rename(path, self._path)
            self._sync_folder()
        except OSError as fault:
            self.close()
            raise BrokenLog(f"the log of decisions has failed: {fault}") from fault

    def _sync_folder(self):
        """The file itself has to be found again."""
        folder = os.open(os.path.dirname(self._path), os.O_RDONLY | os.O_CLOEXEC)
        try:
            os.fsync(folder)
        finally:
            os.close(folder)

    @staticmethod
    def _commit_line(unit, names):
        return f"commit {unit} {' '.join(names)}"

    @staticmethod
    def _written(file, text, at):
        """Writes a text at an offset, and gives the offset behind it."""
        data = text.encode("ascii")
        if os.pwrite(file, data, at) != len(data):
            raise OSError("the file system is full")
        return at + len(data)

    def close(self):
        """Leaves the log to the next process; once more does nothing."""
        for file in (self._file, self._lock):
            if file is not None:
                os.close(file)
        self._file = self._lock = None

    def __enter__(self):
        return self

    def __exit__(self, *_):
        self.close()

    def _check_open(self):
        if self._file is None:
            raise BrokenLog("the log of decisions is closed, or has failed")

    # ---- units

    def spelled(self, number):
        """A unit's number as it stands in transaction IDs."""
        return f"{self.name}.{number}"

    def begin(self):
        """The number of a unit that begins; no other unit of this log ever had it."""
        with self._mutex:
            self._check_open()
            self._count += 1
            number = f"{self._start}.{self._count}"
            self._in_flight.add(number)
            return number

    def commit(self, number, names):
        """The decision: from here on the unit is committed at the resources of these names, whatever fails."""
        with self._mutex:
            if self._file is None:
                raise Undecided("the log of decisions is closed, or has failed")
            start = self._end
            try:
                self._end = self._written(self._file, f"{self._commit_line(number, names)}\n", start)
                os.fsync(self._file)
                self._lines += 1
                self._decisions[number] = tuple(names)
            except BaseException as fault:
                self._take_back(number, start)
                if isinstance(fault, OSError):
                    raise Undecided(f"the decision could not be written: {fault}") from fault
                raise

    def _take_back(self, number, start):
        """Cuts off a line that may not be on the device. Where that fails nobody can tell."""
        self._decisions.pop(number, None)
        self._end = start
        try:
            os.ftruncate(self._file, start)
            os.fsync(self._file)
        except BaseException as fault:
            self.close()
            raise BrokenLog("the log of decisions has failed, and the unit stays in doubt") from fault

    def leave(self, number, is_done):
        """A unit is in flight no more. Where it is done, it is committed at all its resources, and nobody needs the decision."""
        with self._mutex:
            self._in_flight.discard(number)
            if is_done:
                self._forget([number])

    def _forget(self, numbers):
        """Notes what nobody needs any more. A note that is lost costs a look at the next recovery, and no more."""
        known = [number for number in numbers if self._decisions.pop(number, None)]
        if self._file is None:
            return
        try:
            self._end = self._written(self._file, "".join(f"done {number}\n" for number in known), self._end)
            self._lines += len(known)
            if self._lines > LINES_OF_A_FILE:
                self._rewrite()
        except (OSError, BrokenLog):
            TOLD.exception("the log of decisions could not leave out what is done")

    # ---- recovery

    def settled_units(self):
        """What tells whether a unit can be decided by recovery: a function of its number. It says no of units in flight, and of
        those that begin later."""
        with self._mutex:
            self._check_open()
            in_flight, now = frozenset(self._in_flight), (self._start, self._count)

        def is_settled(number):
            start, count = map(int, number.split("."))
            return number not in in_flight and (start, count) <= now
        return is_settled

    def number_of(self, spelled):
        """The number of a unit of this log; None where it is of another."""
        name, _, number = spelled.partition(".")
        return number if name == self.name and re.fullmatch(r"[0-9]+\.[0-9]+", number) else None

    def is_committed(self, number):
        with self._mutex:
            return number in self._decisions

    def recovered(self, names, is_settled):
        """Nothing that is settled is in doubt at these resources any more."""
        with self._mutex:
            self._forget([number for number, of in list(self._decisions.items()) if set(of) <= set(names) and is_settled(number)])
