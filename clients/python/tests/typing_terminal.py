"""A terminal at which a test types."""
import os, pty, select, signal, time

WAITS = 300.0


class Terminal:
    """A program in a terminal of its own, and the screen as far as it was read."""

    def __init__(self, words, around):
        self.screen, self._read = "", 0
        self._process, self._ours = pty.fork()
        if self._process == 0:
            os.execvpe(words[0], words, {**around, "TERM": "dumb", "INPUTRC": "/dev/null"})

    def __enter__(self):
        return self

    def __exit__(self, *_):
        os.close(self._ours)
        if self._process:
            os.kill(self._process, signal.SIGKILL)
            os.waitpid(self._process, 0)

    def until(self, said, seconds=WAITS):
        """Reads until a text stands on the screen, behind where the last one was found, and gives the place behind it."""
        ends = time.monotonic() + seconds
        while (found := self.screen.find(said, self._read)) < 0:
            if not select.select([self._ours], [], [], max(0, ends - time.monotonic()))[0]:
                raise AssertionError(f"{said!r} did not come, but {self.screen[self._read:]!r}")
            self._take()
        self._read = found + len(said)
        return self._read

    def _take(self):
        try:
            came = os.read(self._ours, 65536)
        except OSError as fault:
            raise AssertionError(f"the program has ended behind {self.screen[self._read:]!r}") from fault
        self.screen += came.decode("utf-8", "replace").replace("\r\n", "\n")

    def keys(self, text):
        os.write(self._ours, text.encode())

    def types(self, prompt, line):
        """Types a line behind a prompt."""
        self.until(prompt)
        self.keys(line + "\n")

    def ended(self):
        """The exit status, once the program has ended."""
        while True:
            try:
                self._take()
            except AssertionError:
                break
        status, self._process = os.waitpid(self._process, 0)[1], 0
        return os.waitstatus_to_exitcode(status)
