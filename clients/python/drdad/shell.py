"""A shell: SQL over lines ended by `;`, and commands behind a backslash, over a connection that is made anew where a person types."""
import contextlib, time

from .commands import Commands
from .errors import Error
from .layouts import LAYOUTS, counted, shown
from .names import Names
from .splitter import IN_COMMENT, IN_TEXT, Splitter
from .units import ROWS_AT_ONCE

WORDS = ("help", "quit", "exit")
# Statements that are commands of the shell: the SQL of `drdad dump` has them, and the server none.
UNIT_ENDS = ("commit", "rollback")
MOST_FILES_IN_FILES = 16
GRACE_SECONDS = 2.0
INSIDE = {
    IN_TEXT: "a text is open, and this is in it: ' ends it, Ctrl-C gives the statement up",
    IN_COMMENT: "a comment is open, and this is in it: */ ends it, Ctrl-C gives the statement up",
}
PROMPTS = {"idle": "drdad> ", "open": "drdad*> ", "in doubt": "drdad?> ", "closed": "drdad!> "}


class Interrupted(Exception):
    """A person wants the statement to end."""


class Place:
    """Where a text stands: a line of a file, of standard input, or of what is typed, which needs no telling."""

    def __init__(self, name, is_told):
        self._name, self._is_told, self.line = name, is_told, 0

    def __str__(self):
        name = f"{self._name}, " if self._name else ""
        return f"{name}line {self.line}: " if self._is_told else ""


class Shell:
    """Does what lines ask. `connect` makes a connection. Results go to one stream, what failed and how far a copy is to another. What
    is typed goes on behind whatever fails, a script ends there unless it `keeps_going`."""

    def __init__(self, connect, out, errors, layout="table", is_typed=False, keeps_going=False):
        self._connect, self.connection = connect, connect()
        self.out, self.errors, self.is_typed, self.keeps_going = out, errors, is_typed, keeps_going
        self.layout, self.has_records, self.is_timed = layout, False, True
        # An interrupt is raised where a line or a connection is waited for, and else noted for the statement under way.
        self.has_failed, self.raises_interrupts, self.is_interrupted = False, False, False
        self.splitter, self.names, self._depth = Splitter(WORDS, is_typed), Names(), 0
        self._commands = Commands(self)

    # ---- lines

    def prompt(self):
        """What stands in front of the next line: `*` where a unit is open, `?` where it is in doubt, `!` where there is no connection; in a
        statement what has to end first."""
        prompt = PROMPTS[self.connection.unit_state()]
        return prompt if self.splitter.is_empty() else f"{self.splitter.inside or '...':>{len(prompt) - 2}}> "

    def run(self, lines, name="", ends_anywhere=False):
        """Does what the lines ask. Whether the shell goes on. The last statement may stand without `;` where it `ends_anywhere`."""
        place, outer = Place(name, not self.is_typed or self._depth > 0), self.splitter
        self.splitter = splitter = Splitter(WORDS, self.is_typed and not self._depth)
        try:
            for line in lines:
                if self.is_typed and splitter.inside and line.strip().lstrip("\\").lower() in (*WORDS, "?", "q"):
                    self.say(INSIDE[splitter.inside])
                if not self._take(splitter.feed(line), place):
                    return False
            return self._finish(splitter, place, ends_anywhere)
        finally:
            self.splitter = outer

    def run_file(self, path):
        """The same of a file. A failure to read it is an OSError or a UnicodeError."""
        if self._depth == MOST_FILES_IN_FILES:
            raise OSError("files ask for files without an end")
        self._depth += 1
        try:
            with open(path, encoding="utf-8-sig", newline="\n") as file:
                return self.run(file, path)
        finally:
            self._depth -= 1

    def _take(self, texts, place):
        for place.line, text in texts:
            if not self._done(place, text):
                return False
        return True

    def _finish(self, splitter, place, ends_anywhere):
        """At the end nothing may be left that was to go on."""
        if ends_anywhere and not splitter.inside:
            return self._take(splitter.rest(), place)
        if splitter.is_empty() or self.is_typed and not self._depth:
            return True
        place.line = splitter.start
        return self._fail(place, splitter.complaint())

    # ---- what one text asks

    def _done(self, place, text):
        """Does it, and says what became of it. Whether the shell goes on."""
        began, was_open = time.monotonic(), self.connection.is_open()
        try:
            self.check_goes_on()
            if text.startswith("\\"):
                said = self._commands.run(text[1:])
            elif text.strip().lower() in UNIT_ENDS:
                said = self._commands.run(text.strip().lower())
            else:
                said = self.statement(text)
        except Interrupted as stopped:
            return self._fail(place, f"interrupted{stopped}")
        except BrokenPipeError:
            raise
        except KeyboardInterrupt:
            return self._fail(place, "interrupted")
        except (Error, OSError, UnicodeError) as failure:
            return self._failed(place, text, failure, was_open)
        if said is False:
            return False
        if said and LAYOUTS[self.layout].is_for_people:
            took = f" ({(time.monotonic() - began) * 1000:.1f} ms)" if self.is_timed else ""
            self.out.write(f"{said}{took}\n")
        self.out.flush()
        return True

    def _failed(self, place, text, failure, was_open):
        goes_on = self._fail(place, failure)
        if self.connection.is_open():
            return goes_on
        if self.is_typed and was_open:
            self._connect_anew(self._lost(text))
        return self.is_typed and not self._depth

    def _fail(self, place, failure):
        """Tells of a failure. Whether the shell goes on."""
        self.has_failed = True
        self.out.flush()
        self.say(f"{place}error: {shown(failure)}")
        return self.is_typed and not self._depth or self.keeps_going

    def say(self, text):
        """A line beside the results."""
        self.errors.write(text + "\n")
        self.errors.flush()

    def check_goes_on(self, behind=""):
        """Here a statement may be left, with a word on what is left behind."""
        if self.is_interrupted:
            raise Interrupted(behind)

    def statement(self, text):
        """Runs a statement, writes its rows, and gives what is said of it."""
        with self.open_connection().cursor() as cursor:
            cursor.execute(text)
            self.names.note(text, cursor.description)
            if cursor.description is None:
                return "done" if cursor.rowcount < 0 else counted(cursor.rowcount)
            layout, count = LAYOUTS["records" if self.has_records else self.layout](cursor.description, self.out), 0
            while True:
                rows = cursor.fetchmany(ROWS_AT_ONCE)
                layout.add(rows)
                count += len(rows)
                self.check_goes_on(f" behind {counted(count)}")
                if not rows:
                    return counted(count)

    # ---- interrupts, and connections that are lost

    def interrupt(self):
        """Ends what is under way, in a signal: what the server still answers is waited for a little, or not at all where it is asked
        once more. Raises KeyboardInterrupt where a line or a connection is waited for."""
        if self.raises_interrupts:
            raise KeyboardInterrupt
        self.connection.hurry(0 if self.is_interrupted else GRACE_SECONDS)
        self.is_interrupted = True

    @contextlib.contextmanager
    def interruptible(self):
        """Here an interrupt is raised."""
        self.raises_interrupts = True
        try:
            yield
        finally:
            self.raises_interrupts = False

    def open_connection(self):
        """The connection; where a person types one that is closed is made anew."""
        if not self.connection.is_open() and self.is_typed:
            self._replace()
            self.say("connected")
        return self.connection

    def _replace(self):
        """Makes the connection anew, with the same settings."""
        autocommit = self.connection.autocommit
        with self.interruptible():
            self.connection = self._connect()
        self.connection.autocommit = autocommit

    def _lost(self, text):
        """What is lost with a connection."""
        branch, state = self.connection.branch, self.connection.last_unit_state()
        if branch is not None:
            fate = "is in doubt: \\recover lists it" if state == "in doubt" else "was rolled back, or stands in \\recover"
            return f"{branch} {fate}"
        if state == "open":
            return "the unit under way was rolled back, unless it was being committed"
        return "" if text[:6].upper() == "SELECT" else "whether the statement was done, the tables tell"

    def _connect_anew(self, lost):
        """Goes on with a connection, or without one."""
        try:
            self._replace()
            self.say(f"connected anew{'; ' if lost else ''}{lost}")
        except (Error, OSError, KeyboardInterrupt) as failure:
            self.say(f"not connected: {shown(failure) or 'interrupted'}; each statement tries again{'; ' if lost else ''}{lost}")

    def close(self):
        """Ends the conversation, and the file that results went to."""
        self.connection.close()
        self._commands.close()

    def ends(self, ask=None):
        """Whether the shell may end: a unit that is open is rolled back then, of which a person is asked, who says no by n."""
        state = self.connection.unit_state()
        if state == "in doubt":
            self.say(f"{self.connection.branch} stays in doubt: \\commit or \\rollback with it decides")
        if state != "open":
            return True
        if ask is not None:
            try:
                answer = ask("the unit under way is not committed, and is rolled back. End? (y/n) ")
            except EOFError:
                answer = "y"
            except KeyboardInterrupt:
                answer = "n"
            return answer.strip().lower().startswith("y")
        self.say("the unit under way was not committed, and is rolled back")
        return True

