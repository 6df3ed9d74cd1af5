"""The grammar of docs/SQL.md read over a text: where a text stops being a statement, and what may stand there. The server has the last
word on what a statement is; this only says why, and completes what is typed."""
import re
from collections import namedtuple

from . import wire

TYPES, SIZED_TYPES = ("SMALLINT", "INTEGER", "INT", "BIGINT"), ("VARCHAR", "VARBINARY")
STATEMENTS = ("CREATE", "INSERT", "UPDATE", "DELETE", "SELECT")
WORDS = frozenset((
    *STATEMENTS, *TYPES, *SIZED_TYPES,
    "TABLE", "PRIMARY", "KEY", "NOT", "NULL", "INTO", "VALUES", "SET", "WHERE", "FROM", "OR", "AND", "IS",
))
COMPARISONS = ("=", "<>", "<", "<=", ">", ">=")
# What a token is that is neither a word of the grammar nor a sign, which are what they are spelled as.
NAME, NUMBER, TEXT, BYTES, END, BAD = "a name", "a number", "a text", "bytes", "the end", "no token"
TABLE, COLUMN = "a table", "a column"
VALUES = (NUMBER, TEXT, BYTES, "?", "NULL")

LONGEST_NAME, DEEPEST, MOST_COLUMNS, MOST_KEY_COLUMNS, LONGEST = 30, 64, 64, 4, wire.LONGEST_VALUE

BLANKS = re.compile(rb"[ \t\r\n]*")
SHAPES = (
    (BYTES, re.compile(rb"[Xx]'(?:[0-9A-Fa-f]{2})*'")), (BAD, re.compile(rb"[Xx]'")), (NAME, re.compile(rb"[A-Za-z][A-Za-z0-9_]*")),
    (NUMBER, re.compile(rb"[0-9]+")), (TEXT, re.compile(rb"'(?:[^']|'')*'(?!')")), (None, re.compile(rb"<=|<>|>=|[<>=(),+\-?*]")),
)
# A letter of UTF-8, or any byte.
LETTER = re.compile(rb"[\xc0-\xff][\x80-\xbf]+|.", re.S)
SIGNED = re.compile(rb"-[0-9]+")

Token = namedtuple("Token", "kind at text")


class Fault(Exception):
    """A text is no statement, or passes a limit: `at` which byte, the token that stands there and the one before it, what may stand
    there in place of it, and the limit that is passed."""

    def __init__(self, at, token=None, before=None, wanted=(), limit=None, said=None):
        super().__init__(at)
        self.at, self.token, self.before, self.wanted, self.limit, self.said = at, token, before, wanted, limit, said


def token_at(text, at):
    """The token that begins at a place, behind blanks."""
    at = BLANKS.match(text, at).end()
    if at == len(text):
        return Token(END, at, b"")
    for kind, shape in SHAPES:
        if found := shape.match(text, at):
            return _judged(kind, at, found[0])
    return Token(BAD, at, LETTER.match(text, at)[0])


def _judged(kind, at, spelled):
    """A token that is spelled so, which may be a word or a sign, or too long or too large to be one."""
    word = spelled.decode("latin-1").upper()
    if kind is None or kind == NAME and word in WORDS:
        return Token(word, at, spelled)
    is_too_long = kind == NAME and len(spelled) > LONGEST_NAME
    is_too_large = kind == NUMBER and not wire.LEAST_NUMBER <= int(spelled) <= wire.GREATEST_NUMBER
    return Token(BAD if is_too_long or is_too_large else kind, at, spelled)


class Reader:
    """Reads a text from left to right. `wanted` is what may stand at its present token, as far as it was asked for."""

    def __init__(self, text):
        self._text, self._depth, self.before, self.wanted = text, 0, None, []
        self.token = token_at(text, 0)
        self.markers, self.table, self.columns, self.lengths, self.key, self.selected = 0, None, [], [], [], 0

    def read(self):
        """Reads a statement; Fault where the text is none."""
        if len(self._text) > wire.LONGEST_STATEMENT:
            raise Fault(wire.LONGEST_STATEMENT, limit=f"a statement has at most {wire.LONGEST_STATEMENT:,} bytes")
        {"CREATE": self._create, "INSERT": self._insert, "UPDATE": self._update, "DELETE": self._delete, "SELECT": self._select}[
            self._take(*STATEMENTS).kind]()
        if not self._sees(END):
            self._take(END)
        self._check_limits()
        self._check_names()

    # ---- tokens

    def _sees(self, *kinds):
        """Whether the present token is one of these; they are noted as what may stand here."""
        self.wanted += kinds
        if self.token.kind == "-" and NUMBER in kinds and (found := SIGNED.match(self._text, self.token.at)):
            self.token = _judged(NUMBER, self.token.at, found[0])
        is_name = self.token.kind == NAME and (TABLE in kinds or COLUMN in kinds)
        return is_name or self.token.kind in kinds and self.token.kind != BAD

    def _skips(self, *kinds):
        return self._sees(*kinds) and bool(self._take(*kinds))

    def _take(self, *kinds):
        """The present token, which has to be one of these, and goes on to the next."""
        if not self._sees(*kinds):
            raise Fault(self.token.at, self.token, self.before, tuple(dict.fromkeys(self.wanted)))
        taken = self.before = self.token
        self.token, self.wanted = token_at(self._text, taken.at + len(taken.text)), []
        self.markers += taken.kind == "?"
        return taken

    def _list(self, take, *kinds):
        """What stands between commas."""
        found = [take(*kinds)]
        while self._skips(","):
            found.append(take(*kinds))
        return found

    def _table_name(self):
        self.table = self._take(TABLE).text.decode()

    # ---- statements

    def _create(self):
        self._take("TABLE")
        self._table_name()
        self._take("(")
        self._column()
        self._take(",")
        while not self._sees("PRIMARY"):
            self._column()
            self._take(",")
        for kind in ("PRIMARY", "KEY", "("):
            self._take(kind)
        self.key = self._list(self._take, COLUMN)
        self._take(")")
        self._take(")")

    def _column(self):
        self.columns.append(self._take(NAME))
        if self._take(*TYPES, *SIZED_TYPES).kind in SIZED_TYPES:
            self._take("(")
            self.lengths.append(self._length())
            self._take(")")
        if self._skips("NOT"):
            self._take("NULL")

    def _length(self):
        """Digits without a sign, however many: a length that is too large passes a limit."""
        if not self.token.text.isdigit():
            raise Fault(self.token.at, self.token, self.before, (NUMBER,))
        self.token = self.token._replace(kind=NUMBER)
        return self._take(NUMBER)

    def _insert(self):
        self._take("INTO")
        self._table_name()
        if self._skips("("):
            self._list(self._take, COLUMN)
            self._take(")")
        self._take("VALUES")
        self._take("(")
        self._list(self._take, *VALUES)
        self._take(")")

    def _update(self):
        self._table_name()
        self._take("SET")
        self._list(self._assignment)
        self._where()

    def _assignment(self):
        self._take(COLUMN)
        self._take("=")
        self._take(COLUMN, *VALUES)
        while self._skips("+", "-"):
            self._take(COLUMN, *VALUES)

    def _delete(self):
        self._take("FROM")
        self._table_name()
        self._where()

    def _select(self):
        if not self._skips("*"):
            self.selected = len(self._list(self._take, COLUMN))
        self._take("FROM")
        self._table_name()
        self._where()

    # ---- predicates

    def _where(self):
        if self._skips("WHERE"):
            self._any_of()

    def _any_of(self):
        self._all_of()
        while self._skips("OR"):
            self._all_of()

    def _all_of(self):
        self._negated()
        while self._skips("AND"):
            self._negated()

    def _negated(self):
        if self._sees("NOT"):
            self._nested(self._negated)
        elif self._sees("("):
            self._nested(self._any_of)
            self._take(")")
        else:
            self._compared()

    def _nested(self, inside):
        self._depth += 1
        if self._depth > DEEPEST:
            raise Fault(self.token.at, limit=f"parentheses and NOTs are nested at most {DEEPEST} deep")
        self._take("NOT", "(")
        inside()
        self._depth -= 1

    def _compared(self):
        if self._take(COLUMN, *VALUES).kind == NAME and self._skips("IS"):
            self._skips("NOT")
            self._take("NULL")
            return
        self._take(*COMPARISONS)
        self._take(COLUMN, *VALUES)

    # ---- what is judged behind the grammar

    def _check_limits(self):
        longest = max((int(length.text) for length in self.lengths), default=0)
        for count, most, what in (
            (self.markers, wire.MOST_PARAMETERS, "a statement has at most {} markers"),
            (len(self.columns), MOST_COLUMNS, "a table has at most {} columns"),
            (len(self.key), MOST_KEY_COLUMNS, "a key has at most {} columns"),
            (self.selected, MOST_COLUMNS, "a SELECT names at most {} columns"), (longest, LONGEST, "a column has at most {:,} bytes"),
        ):
            if count > most:
                raise Fault(len(self._text), limit=what.format(most))

    def _check_names(self):
        for length in self.lengths:
            if int(length.text) == 0:
                raise Fault(length.at, length, said="a column has at least 1 byte")
        for names in (self.columns, self.key):
            _check_once(names)


def _check_once(names):
    seen = set()
    for name in names:
        if name.text.upper() in seen:
            raise Fault(name.at, name, said="this name stands there before")
        seen.add(name.text.upper())


def fault_of(text):
    """Where and why a text, as bytes, is no statement; None where it is one as far as the text alone tells."""
    try:
        Reader(text).read()
    except Fault as fault:
        return fault
    return None


def wanted_behind(text):
    """What may stand behind the beginning of a statement, and the table that it names, if any."""
    reader = Reader(text)
    try:
        reader.read()
    except Fault as fault:
        if fault.token is None or fault.token.kind != END:
            return (), reader.table
    return tuple(dict.fromkeys(reader.wanted)), reader.table
