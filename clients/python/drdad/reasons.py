"""Why the server refused a text: it answers a code alone, and the text says the rest."""
import contextlib

from . import grammar
from .errors import Error

NO_STATEMENT, LIMIT = -104, -904
# Which limits may be passed by what a statement is, where its text passes none.
LIMITS = {
    b"CREATE": "a store has at most 1,000 tables, and a unit 1,048,576 bytes of changes",
    b"SELECT": "a unit has at most 65,535 claims: commit, and go on",
    b"": "a row has at most 4,000 bytes, and a unit 1,048,576 bytes of changes and 65,535 claims: commit more often",
}
LACKS = 'docs/SQL.md, "What there is not"'
LONGEST_SHOWN = 24

# Words that other databases take, by what is said of them.
NO_SUCH = {
    word: said for said, words in {
        "no {} BY": "ORDER GROUP",
        "no {}": "HAVING LIMIT OFFSET FETCH LIKE ILIKE IN BETWEEN EXISTS CASE DROP ALTER TRUNCATE RENAME INDEX VIEW SEQUENCE UNIQUE CHECK "
                 "REFERENCES FOREIGN CONSTRAINT DEFAULT RETURNING DISTINCT UNION EXCEPT INTERSECT MERGE REPLACE EXPLAIN SHOW DESCRIBE "
                 "USE WITH GRANT REVOKE CALL TRIGGER CAST TRUE FALSE AUTO_INCREMENT AUTOINCREMENT IDENTITY",
        "no joins": "JOIN INNER LEFT RIGHT FULL CROSS NATURAL ON",
        "no type {}": "TEXT CHAR CHARACTER DATE TIME TIMESTAMP DECIMAL NUMERIC FLOAT REAL DOUBLE BOOLEAN BOOL BLOB CLOB SERIAL BYTEA "
                      "TINYINT JSON UUID STRING BINARY",
    }.items() for word in words.split()
}
UNITS = frozenset("BEGIN START COMMIT ROLLBACK SAVEPOINT".split())
FUNCTIONS = frozenset("COUNT SUM MIN MAX AVG UPPER LOWER LENGTH SUBSTR SUBSTRING COALESCE NOW ABS".split())
SIGNS = {
    b".": "names have one part, and numbers no fraction", b'"': "names stand without quotes", b"`": "names stand without quotes",
    b"!": "what is not equal is <>", b";": "one statement at a time", b"%": "markers are ?", b":": "markers are ?", b"$": "markers are ?",
    b"/": "sums have + and - alone, and comments are the shell's", b"|": "texts are not joined",
}
COMPARED = {*grammar.COMPARISONS}


def explained(failure, text):
    """The failure of a text, as bytes, with the reason behind its code, where the text has it."""
    said = {NO_STATEMENT: of_text, LIMIT: of_limit}.get(failure.sqlcode, lambda _: None)(text)
    if said:
        failure.said = f"SQLCODE {failure.sqlcode}, SQLSTATE {failure.sqlstate}: {said}"
        failure.args = (failure.said,)
    return failure


@contextlib.contextmanager
def told(text):
    """A failure of what is done with a text here is explained."""
    try:
        yield
    except Error as failure:
        raise explained(failure, text) from failure.__cause__


def of_many(failure, is_rolled_back):
    """The failure of an executemany, with the rows that are in the unit."""
    if failure.row is None:
        return failure
    if is_rolled_back:
        failure.done, said = [], "none of the rows is in"
    else:
        places = ", ".join(f"{one.start} to {one.stop - 1}" if len(one) > 1 else str(one.start) for one in failure.done)
        said = f"of the rows {places or 'none'} {'are' if places else 'is'} in the unit"
    failure.args = (f"row {failure.row}: {failure.said}; {said}",)
    return failure


def shown(token):
    """A token as it stands in a message."""
    text = token.text.decode("utf-8", "replace")
    return f"'{text if len(text) <= LONGEST_SHOWN else text[:LONGEST_SHOWN] + '..'}'"


def of_text(text):
    """Why a text, as bytes, is no statement, and at which byte; None where the text alone does not tell."""
    fault = grammar.fault_of(text)
    if fault is None or fault.limit:
        return None
    where = f"at {shown(fault.token)}, byte {fault.at}" if fault.token.text else f"at the end, byte {fault.at}"
    behind = grammar.token_at(text, fault.at + len(fault.token.text))
    lacking = _lacking(fault, _word(fault.token), _word(fault.before), _word(behind))
    if lacking:
        return f"{lacking} here ({LACKS}), {where}"
    return f"{where}: {fault.said or _misspelled(fault, behind) or _habit(fault) or _wanted(fault)}"


def _word(token):
    return token.text.decode("latin-1").upper() if token else ""


def of_limit(text):
    """Which limit a text passes, or may have passed; what it is about to do says which are left."""
    fault = grammar.fault_of(text)
    if fault is not None:
        return fault.limit
    return LIMITS.get(text.split(None, 1)[0].upper(), LIMITS[b""])


def _lacking(fault, word, before, behind):
    """What the writer looks for that is not there, or None."""
    if word == "(" and before in FUNCTIONS:
        return f"no {before}"
    if (before, word) == ("IF", "NOT") or before == "DISTINCT" and fault.token.kind == grammar.NAME:
        return f"no {before}"
    for one in (word, behind if word == "NOT" else ""):
        if one in NO_SUCH:
            return NO_SUCH[one].format(one)
    return _lacking_by_place(fault, word, before)


def _lacking_by_place(fault, word, before):
    wanted, is_name = {*fault.wanted}, fault.token.kind == grammar.NAME
    if word == "," and before == ")":
        return "no second row in an INSERT"
    if "WHERE" in wanted and "FROM" not in wanted and "+" not in wanted and (word == "," or is_name):
        return "no joins, and no second name of a table"
    if word == "AS" or is_name and fault.wanted == (",", "FROM"):
        return "no second name of a column"
    if word in ("+", "-") and wanted & (COMPARED | {"AND"}):
        return "no sums in a WHERE"
    return None


def _misspelled(fault, behind):
    """What is wrong with a token that can't stand there, or None."""
    token, first = fault.token, fault.token.text[:1]
    if _word(token) in UNITS and fault.at == 0:
        return "a program calls commit() and rollback(); the shell has \\commit, \\rollback and \\autocommit off"
    if token.kind in grammar.WORDS and {grammar.TABLE, grammar.COLUMN, grammar.NAME} & {*fault.wanted}:
        return f"{token.kind} is a word of SQL, and no name"
    if first == b"-" and behind.text == b"-":
        return "comments are the shell's"
    if token.kind != grammar.BAD:
        return None
    if token.text[:2].upper() == b"X'":
        return "bytes are pairs of hexadecimal digits, between X' and '"
    if first == b"'":
        return "the text has no ' at its end"
    if first.isdigit() or first == b"-":
        return "the number lies out of BIGINT"
    return f"a name has at most {grammar.LONGEST_NAME} bytes" if first.isalpha() else SIGNS.get(first)


def _habit(fault):
    """What is often written otherwise elsewhere, or None."""
    token, before = fault.token, fault.before
    if token.kind == "PRIMARY":
        return "PRIMARY KEY (..) stands behind the columns, and a comma before it"
    if fault.wanted in ((",",), ("NOT", ",")):
        return "a table has PRIMARY KEY (..) behind its columns, and a comma before it"
    if before is not None and before.kind in grammar.SIZED_TYPES:
        return f"a length in parentheses is wanted, as in {before.kind}(60)"
    if token.text == b"-" and grammar.NUMBER in fault.wanted:
        return "a - stands directly before digits"
    if token.text in (b"*", b"/") and "+" in fault.wanted:
        return "sums have + and - alone"
    return None


def _wanted(fault):
    """What may stand there, where it is no long list."""
    names = list(fault.wanted)
    for group, name in ((grammar.VALUES, "a value"), (grammar.COMPARISONS, "a comparison"), ((",",), "a comma")):
        if {*group} <= {*names}:
            names = [one for one in names if one not in group] + [name]
    names = ["the name of " + name if name in (grammar.TABLE, grammar.COLUMN) else name for name in names]
    return f"{', '.join(names[:-1])}{' or ' if names[1:] else ''}{names[-1]} is wanted"
