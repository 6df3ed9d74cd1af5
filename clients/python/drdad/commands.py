"""The commands of the shell, which stand behind a backslash."""
import contextlib, csv

from .errors import DataError, Error, ProgrammingError
from .files import Copy, copy_of, write_rows
from .layouts import Table, counted
from .type_objects import Xid

HELP = r"""Statements go over lines and end with ;   Comments begin with -- or stand in /* */.
\d [TABLE]               the columns of a table; without one, the tables seen here
\copy TABLE FROM FILE    inserts the rows of a CSV file; its first line may name the columns
\copy TABLE TO FILE      writes the rows of a table to a CSV file; so does \copy (SELECT ..) TO FILE
\i FILE                  does what a file asks
\o [FILE]                writes results to a file; without one, here again
\x [on|off]              whether each value has a line of its own
\timing [on|off]         whether it is said how long each thing took
\autocommit [on|off]     whether each statement is a unit of its own
\commit, \rollback       end the unit under way
\begin XID               begins a global unit; an XID is FORMAT GLOBALHEX BRANCHHEX, as in 1 6761 62, with - for an empty part
\end, \prepare           end the work in it; prepare it: it is then in doubt until it is decided
\commit XID, \rollback XID   decide a unit in doubt
\recover                 lists the units in doubt
\forget XID              ends what is known of one that was decided heuristically (drdad decide)
\?, help                 this
\q, quit, exit           ends"""

NO_LIST = "the server can't list its tables; \\d TABLE shows the columns of one"


class Commands:
    """Does what a command asks of a shell, and gives what is said of it; False where the shell ends."""

    def __init__(self, shell):
        self._shell, self._file = shell, None
        self._stdout = shell.out
        self._all = {
            "d": self._describe, "copy": self._copy, "i": self._include, "o": self._set_output, "x": self._set_records,
            "timing": self._set_timing, "autocommit": self._set_autocommit, "commit": self._commit, "rollback": self._roll_back,
            "begin": self._begin, "end": self._end, "prepare": self._prepare, "recover": self._recover, "forget": self._forget,
            "?": self._help, "help": self._help, "q": self._quit, "quit": self._quit, "exit": self._quit,
        }
        shell.command_names = [name for name in self._all if name not in ("quit", "exit", "help")]

    def run(self, text):
        word, _, rest = text.rstrip().rstrip(";").partition(" ")
        command = self._all.get(word if word in self._all else word.lower())
        if command is None:
            raise ProgrammingError(f"there is no \\{word}; \\? lists what there is")
        return command(rest.strip())

    @property
    def _connection(self):
        return self._shell.open_connection()

    def _help(self, _):
        self._shell.out.write(HELP + "\n")

    def _quit(self, _):
        return False

    # ---- settings

    def _set_records(self, text):
        self._shell.has_records = is_on("x", text) if text else not self._shell.has_records
        return f"a line for each value {on_or_off(self._shell.has_records)}"

    def _set_timing(self, text):
        self._shell.is_timed = is_on("timing", text) if text else not self._shell.is_timed
        return f"timing {on_or_off(self._shell.is_timed)}"

    def _set_autocommit(self, text):
        if text:
            self._connection.autocommit = is_on("autocommit", text)
        return f"autocommit {on_or_off(self._connection.autocommit)}"

    def _set_output(self, path):
        file = open(path, "w", encoding="utf-8") if path else None
        self.close()
        self._file, self._shell.out = file, file or self._stdout

    def close(self):
        """Ends the file that results go to."""
        if self._file is not None:
            self._file.close()
        self._file = None

    def _include(self, path):
        if not path:
            raise ProgrammingError("\\i FILE")
        return None if self._shell.run_file(path) or self._shell.is_typed else False

    # ---- units

    def _begin(self, text):
        self._connection.tpc_begin(Xid.parse(text))
        return f"begun {Xid.parse(text)}"

    def _end(self, _):
        self._connection.tpc_end()
        return "ended"

    def _prepare(self, _):
        self._connection.tpc_prepare()
        return "prepared"

    def _commit(self, text):
        connection = self._connection
        if text or connection.is_global():
            connection.tpc_commit(*([Xid.parse(text)] if text else []))
        else:
            connection.commit()
        return "committed"

    def _roll_back(self, text):
        connection = self._connection
        if text or connection.is_global():
            connection.tpc_rollback(*([Xid.parse(text)] if text else []))
        else:
            connection.rollback()
        return "rolled back"

    def _forget(self, text):
        self._connection.tpc_forget(Xid.parse(text))
        return "forgotten"

    def _recover(self, _):
        listed = self._connection.tpc_recover()
        self._shell.out.write("".join(f"{xid}\n" for xid in listed))
        return f"{len(listed)} in doubt"

    # ---- tables

    def _describe(self, name):
        if not name:
            seen = ", ".join(sorted(self._shell.names.tables()))
            self._shell.out.write(f"{NO_LIST}{'; seen here: ' if seen else ''}{seen}\n")
            return None
        description = self._connection.describe(f"SELECT * FROM {name}")
        self._shell.names.note_table(name, [item[0] for item in description])
        table = Table([("column", "VARCHAR"), ("type", "VARCHAR"), ("NULL", "VARCHAR")], self._shell.out)
        table.add([(item[0], type_of(item), "" if item[6] else "NOT NULL") for item in description])
        return counted(len(description), "column")

    def _copy(self, text):
        what, is_out, path = copy_of(text)
        try:
            return self._copy_to(what, path) if is_out else self._copy_from(what, path)
        except (OSError, UnicodeDecodeError, csv.Error) as fault:
            raise DataError(f"{path}: {fault}") from fault

    def _copy_to(self, what, path):
        statement = what[1:-1].strip().rstrip(";") if what.startswith("(") else f"SELECT * FROM {what}"
        with self._connection.cursor() as cursor:
            cursor.execute(statement)
            if cursor.description is None:
                raise ProgrammingError("\\copy (SELECT ..) TO FILE: this statement gives no rows")
            with open(path, "w", newline="", encoding="utf-8") as file, self._progress() as tells:
                return counted(write_rows(cursor, file, lambda count: self._has_written(count, tells)))

    def _has_written(self, count, tells):
        tells(count)
        self._shell.check_goes_on(f" behind {counted(count)}")

    def _copy_from(self, table, path):
        description = self._connection.describe(f"SELECT * FROM {table}")
        self._shell.names.note_table(table, [item[0] for item in description])
        with open(path, newline="", encoding="utf-8-sig") as file:
            return self._copy_rows(Copy(table, description, file))

    def _copy_rows(self, copy):
        """Inserts the rows, list by list; in autocommit mode each list is a unit."""
        count, cursor = 0, self._connection.cursor()
        kept = "in" if self._connection.autocommit else "inserted in the unit under way"
        try:
            with self._progress() as tells:
                for unit in copy.units():
                    self._insert(cursor, copy.statement, *zip(*unit))
                    count += len(unit)
                    tells(count)
                    self._shell.check_goes_on(f"; {counted(count)} are {kept}")
        except Error as failure:
            raise type(failure)(f"{failure.said}; the {count} rows before are {kept}", failure.sqlcode, failure.sqlstate) from failure
        return counted(count)

    @staticmethod
    def _insert(cursor, statement, rows, lines):
        try:
            cursor.executemany(statement, rows)
        except Error as failure:
            if failure.row is None:
                raise
            raise type(failure)(f"line {lines[failure.row]}: {failure.said}", failure.sqlcode, failure.sqlstate) from failure

    @contextlib.contextmanager
    def _progress(self):
        """A call that shows how many rows were copied so far, on a line that the next one writes over, where somebody looks."""
        errors, ends = self._shell.errors, "\n"
        is_seen = errors.isatty()

        def show(count):
            if is_seen:
                errors.write(f"\r{counted(count)}")
                errors.flush()
        try:
            yield show
            ends = "\r"
        finally:
            if is_seen:
                errors.write(ends)
                errors.flush()


def is_on(what, text):
    if text.lower() not in ("on", "off"):
        raise ProgrammingError(f"\\{what} is on or off")
    return text.lower() == "on"


def on_or_off(is_it):
    return "on" if is_it else "off"


def type_of(item):
    return f"{item[1]}({item[3]})" if item[1].startswith("VAR") else item[1]
