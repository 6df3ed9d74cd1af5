"""CSV files for tables, and out of them."""
import csv, re

from .errors import DataError, ProgrammingError
from .layouts import Csv
from .type_objects import BINARY, NUMBER
from .units import ROWS_AT_ONCE, in_units

COPY = re.compile(r"(\(.*\)|[^\s()]+)\s+(FROM|TO)\s+(\S.*)", re.I | re.S)
FIELD = re.compile(r'("(?:[^"]|"")*"|[^,\r\n]*)(?:,|\r?\n?\Z)')


def copy_of(text):
    """What is copied, whether it goes to the file, and the path of the file."""
    found = COPY.fullmatch(text)
    if not found or found[1].startswith("(") and found[2].upper() == "FROM":
        raise ProgrammingError("\\copy TABLE FROM FILE, \\copy TABLE TO FILE, or \\copy (SELECT ..) TO FILE")
    path = found[3]
    quoted = len(path) > 1 and path[0] == path[-1] and path[0] in "'\""
    return found[1], found[2].upper() == "TO", path[1:-1] if quoted else path


class Records:
    """The records of a CSV text. Of a field that is empty the text that was read says whether it stood in quotes."""

    def __init__(self, file):
        self._file, self._lines = file, []
        self._reader = csv.reader(self._read(), strict=True)

    def _read(self):
        for line in self._file:
            self._lines.append(line)
            yield line

    @property
    def line(self):
        return self._reader.line_num

    def __iter__(self):
        for fields in self._reader:
            if fields:
                yield self._with_nulls(fields) if "" in fields else fields
            self._lines.clear()

    def _with_nulls(self, fields):
        """The fields, and None for those that are nothing and not an empty text."""
        text = "".join(self._lines)
        if '""' not in text:
            return [field or None for field in fields]
        spelled = [found[1] for found in FIELD.finditer(text)]
        return [field if field or spelling else None for field, spelling in zip(fields, spelled)]


class Copy:
    """The rows of a CSV text for the columns of a table. The first line names columns where each field of it is one's name; otherwise it
    is a row of all columns. A field that is nothing is NULL, and `""` is an empty text."""

    def __init__(self, table, description, file):
        self.columns, self._records = description, Records(file)
        self._all = iter(self._records)
        by_name = {item[0].upper(): item for item in description}
        self._first = next(self._all, None)
        if self._first and all((field or "").strip().upper() in by_name for field in self._first):
            self.columns = [by_name[field.strip().upper()] for field in self._first]
            self._first = None
        names = ", ".join(item[0] for item in self.columns)
        marks = ", ".join("?" * len(self.columns))
        self.statement = f"INSERT INTO {table} ({names}) VALUES ({marks})"

    def units(self):
        """Lists of rows, as many as go at once, each row with the number of its line."""
        return in_units(((self._row(fields), self._records.line) for fields in self._fields()), lambda item: item[0])

    def _fields(self):
        if self._first is not None:
            yield self._first
        yield from self._all

    def _row(self, fields):
        if len(fields) != len(self.columns):
            raise DataError(f"line {self._records.line} has {len(fields)} fields, and not {len(self.columns)}")
        return [self._value(item, field) for item, field in zip(self.columns, fields)]

    def _value(self, item, field):
        try:
            if field is None:
                if not item[6]:
                    raise ValueError
                return None
            if item[1] == NUMBER:
                return int(field)
            if item[1] == BINARY:
                return bytes.fromhex(field[2:-1] if field[:2].upper() == "X'" and field.endswith("'") else field)
            return field
        except ValueError as fault:
            spelled = "nothing, which is NULL," if field is None else repr(field)
            raise DataError(f"line {self._records.line}: {spelled} is no value of {item[0]} ({item[1]})") from fault


def write_rows(cursor, file, tells):
    """Writes the rows of a cursor as CSV, tells how many they are now and then, and gives that number."""
    layout, count = Csv(cursor.description, file), 0
    while rows := cursor.fetchmany(ROWS_AT_ONCE):
        layout.add(rows)
        count += len(rows)
        tells(count)
    return count
