"""Rows for people and for other programs: as an aligned table, as records, as CSV, and plain."""
import csv, unicodedata

from .type_objects import BINARY, NUMBER

PLAIN = str.maketrans({"\\": "\\\\", "\t": "\\t", "\n": "\\n", "\r": "\\r"})


def width(text):
    """How many places a text takes on a terminal."""
    if text.isascii():
        return len(text)
    return sum(0 if unicodedata.combining(one) else 2 if unicodedata.east_asian_width(one) in "WF" else 1 for one in text)


def shown(value):
    """A value as it is shown; what would move the cursor of a terminal is spelled out."""
    if value is None:
        return "NULL"
    if isinstance(value, bytes):
        return f"X'{value.hex().upper()}'"
    text = str(value)
    return text if text.isprintable() else "".join(one if one.isprintable() else one.encode("unicode_escape").decode() for one in text)


def counted(count, what="row"):
    return f"{count} {what}{'' if count == 1 else 's'}"


class Table:
    """Rows under the names of their columns, aligned by the first of them: numbers to the right."""

    is_for_people = True

    def __init__(self, description, out):
        self._names, self._out = [shown(item[0]) for item in description], out
        self._is_right = [item[1] == NUMBER for item in description]
        self._widths = None

    def add(self, rows):
        cells = [[shown(value) for value in row] for row in rows]
        if self._widths is None:
            self._widths = [max(map(width, column)) for column in zip(self._names, *cells)]
            self._write(self._names)
            self._out.write("-+-".join("-" * size for size in self._widths) + "\n")
        for row in cells:
            self._write(row)

    def _write(self, texts):
        parts = []
        for text, size, is_right in zip(texts, self._widths, self._is_right):
            blanks = " " * (size - width(text))
            parts.append(blanks + text if is_right else text + blanks)
        self._out.write(" | ".join(parts).rstrip() + "\n")


class Records:
    """A line for each value, behind the name of its column, and a line in front of each row."""

    is_for_people = True

    def __init__(self, description, out):
        names = [shown(item[0]) for item in description]
        most = max(map(width, names))
        self._heads, self._out, self._count = [name + " " * (most - width(name)) for name in names], out, 0

    def add(self, rows):
        for row in rows:
            self._count += 1
            lines = [f"{head} | {shown(value)}".rstrip() for head, value in zip(self._heads, row)]
            self._out.write("\n".join((f"-- row {self._count}", *lines, "")))


class Plain:
    """Rows alone, with a tab between their values: NULL is \\N, and a backslash, a tab and line ends are spelled out."""

    is_for_people = False

    def __init__(self, description, out):
        self._out = out

    def add(self, rows):
        self._out.write("".join("\t".join(map(_plain, row)) + "\n" for row in rows))


def _plain(value):
    if value is None:
        return "\\N"
    return value.hex() if isinstance(value, bytes) else str(value).translate(PLAIN)


class _Null:
    """A field that the csv module writes as nothing, and not as an empty text: it takes it for a number."""

    def __float__(self):
        return 0.0

    def __str__(self):
        return ""


NULL = _Null()


class Csv:
    """CSV, with the names of the columns in its first line. A text stands in quotes, so that an empty one is not NULL, which is nothing;
    bytes are hexadecimal digits."""

    is_for_people = False

    def __init__(self, description, out):
        self._out, self._is_lone = out, len(description) == 1
        self._writer = csv.writer(out, quoting=csv.QUOTE_NONNUMERIC, lineterminator="\n")
        self._are_bytes = [item[1] == BINARY for item in description]
        self._writer.writerow([item[0] for item in description])

    def add(self, rows):
        for row in rows:
            self._add(row)

    def _add(self, row):
        if self._is_lone and row[0] is None:
            self._out.write("\n")
        else:
            self._writer.writerow([
                NULL if value is None else value.hex() if is_bytes else value for value, is_bytes in zip(row, self._are_bytes)])


LAYOUTS = {"table": Table, "records": Records, "csv": Csv, "plain": Plain}
