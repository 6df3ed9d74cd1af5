"""The exceptions of PEP 249, and which of them an answer of the server is."""
from . import wire


class Warning(Exception):  # noqa: A001, by the letter of PEP 249
    """Something worth to be told; drdad tells none."""


class Error(Exception):
    """The base of all errors. `sqlcode` and `sqlstate` are those of the SQLCARD that told of it, and `xacode` is the code of
    XA, where there was one; `row` is the place of the row, from 0, that an executemany was refused, and `done` the places of those that
    are in the unit, as ranges. `said` is the text without what it says of other rows. (`place` is that of the command in its chain.)"""

    def __init__(self, text, sqlcode=None, sqlstate=None, xacode=None):
        super().__init__(text)
        self.sqlcode, self.sqlstate, self.xacode = sqlcode, sqlstate, xacode
        self.row = self.place = None
        self.said, self.done = text, []


class InterfaceError(Error):
    """Something is wrong with the use of this package, or what came is not DRDA."""


class DatabaseError(Error):
    """Something is wrong with the database."""


class DataError(DatabaseError):
    """Something is wrong with a value."""


class OperationalError(DatabaseError):
    """The database, or the way to it, can't do it now."""


class HeuristicError(OperationalError):
    """The branch was decided without its transaction manager, which is told how: `is_committed`. The branch stays in doubt until
    tpc_forget."""

    @property
    def is_committed(self):
        return self.xacode == wire.XA_HEURCOM


class IntegrityError(DatabaseError):
    """A key is there already, or a NULL where none is taken."""


class InternalError(DatabaseError):
    """Client and server do not agree on where they are."""


class ProgrammingError(DatabaseError):
    """What was asked is wrong."""


class NotSupportedError(DatabaseError):
    """There is no such thing here."""


BY_CLASS = {
    "07": ProgrammingError, "22": DataError, "23": IntegrityError, "42": ProgrammingError, "57": OperationalError,
}

SAID = {
    -104: "the statement names a column twice, or assigns to one of the key",
    -204: "no table has this name",
    -206: "the table has no column of this name",
    -313: "the parameters do not match the markers",
    -401: "a value of one class is compared with, or given to, one of another",
    -407: "the column takes no NULL",
    -413: "the number is out of the range of its column",
    -433: "the value is longer than its column",
    -518: "the statement is not prepared, or of the wrong kind",
    -601: "a table of this name is there already",
    -803: "a row of this key is there already",
    -904: "a limit of the server is reached",
    -913: "another unit holds what the statement reads or writes, and nothing was done: roll back, and try again; "
          "where that does not help a unit in doubt holds it (\\recover)",
}

CHECKS = {
    0x01: "the server takes no user and password", 0x0F: "the password is wrong", 0x10: "a password is missing",
    0x12: "a user is missing", 0x13: "the user is not known",
}

MESSAGES = {
    wire.AGNPRMRM: (OperationalError, "the server can't go on, and has closed the conversation"),
    wire.RSCLMTRM: (OperationalError, "the server has no memory, or no room in its store"),
    wire.RDBNFNRM: (OperationalError, "the server has no database of this name"),
    wire.CMDVLTRM: (ProgrammingError, "this has no place in a global unit"),
    wire.OPNQFLRM: (DatabaseError, "the query was not opened"),
}

SAID_OF_XA = {
    wire.XA_HEURRB: (HeuristicError, "the branch was rolled back heuristically, and is known until it is forgotten"),
    wire.XA_HEURCOM: (HeuristicError, "the branch was committed heuristically, and is known until it is forgotten"),
    wire.XA_RBROLLBACK: (OperationalError, "the branch was rolled back"),
    wire.XAER_RMERR: (OperationalError, "a limit of the server is reached"),
    wire.XAER_NOTA: (ProgrammingError, "the transaction ID is not known"),
    wire.XAER_INVAL: (ProgrammingError, "the transaction ID, or a flag, is none that there is"),
    wire.XAER_PROTO: (ProgrammingError, "the branch is in another state, or belongs to another conversation"),
    wire.XAER_DUPID: (ProgrammingError, "the transaction ID is known already"),
    wire.XAER_OUTSIDE: (ProgrammingError, "the conversation has work outside of any branch"),
}


def of_card(card):
    """The exception of an SQLCARD with an SQLCODE below 0."""
    kind = BY_CLASS.get(card.sqlstate[:2], DatabaseError)
    said = SAID.get(card.sqlcode, "the statement is refused")
    behind = f" ({card.tokens})" if card.tokens else ""
    text = f"SQLCODE {card.sqlcode}, SQLSTATE {card.sqlstate}: {said}{behind}"
    return kind(text, card.sqlcode, card.sqlstate)


def of_xa(code):
    """The exception of a code of XA, or None where it is no refusal."""
    if code in (wire.XA_OK, wire.XA_RDONLY):
        return None
    kind, said = SAID_OF_XA.get(code, (DatabaseError, "the call is refused"))
    return kind(f"XA {code}: {said}", xacode=code)


def of_message(code, data):
    """The exception of a reply message that reports a failure."""
    kind, said = MESSAGES.get(code, (InternalError, "the server did not expect this command"))
    return kind(f"{wire.named(code)}: {said}{_detail(data)}")


def _detail(data):
    """What a message says of the fault: the code of a check, of a syntax, or a code point."""
    for code, value in wire.objects(data):
        if code in (wire.SYNERRCD, wire.CODPNT):
            return f" ({wire.named(code)} {value.hex()})"
    return ""


def of_answer(answer):
    """The exception of the objects that answer a command, or None where it succeeded."""
    failure = None
    for code, data in answer:
        if code == wire.SQLCARD:
            card = wire.card(data)
            if card.sqlcode < 0:
                return of_card(card)
        elif code == wire.SECCHKRM:
            check = wire.find(wire.objects(data), wire.SECCHKCD, 1)[0]
            if check:
                return OperationalError(f"SECCHKCD {check:02X}: {CHECKS.get(check, 'the user is refused')}")
        elif failure is None and wire.severity(code, data) >= wire.ERROR:
            failure = of_message(code, data)
    return failure
