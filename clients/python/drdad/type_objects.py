"""Type objects and constructors of PEP 249, and transaction IDs. Columns are numbers, texts and bytes; there is no other type, so
that a date or a time is refused where it is given as a parameter."""
from __future__ import annotations

import datetime, re
from collections import namedtuple

from . import wire
from .errors import ProgrammingError


class TypeObject:
    """Equal to each type code of its kind."""

    def __init__(self, name, *codes):
        self._name, self._codes = name, frozenset(codes)

    def __eq__(self, other):
        return self is other if isinstance(other, TypeObject) else other in self._codes

    def __hash__(self):
        return hash(self._name)

    def __repr__(self):
        return f"drdad.{self._name}"


STRING = TypeObject("STRING", "VARCHAR")
BINARY = TypeObject("BINARY", "VARBINARY")
NUMBER = TypeObject("NUMBER", "SMALLINT", "INTEGER", "BIGINT")
DATETIME = TypeObject("DATETIME")
ROWID = TypeObject("ROWID")

Date, Time, Timestamp = datetime.date, datetime.time, datetime.datetime
DateFromTicks, TimestampFromTicks = datetime.date.fromtimestamp, datetime.datetime.fromtimestamp


def Binary(value: bytes | bytearray | memoryview | str) -> bytes:  # noqa: N802
    """Bytes, as a VARBINARY takes them; those of a text are its UTF-8."""
    return value.encode("utf-8") if isinstance(value, str) else bytes(memoryview(value))


def TimeFromTicks(ticks):  # noqa: N802, by the letter of PEP 249
    return TimestampFromTicks(ticks).time()


TYPE_CODES = {wire.SMALLINT: "SMALLINT", wire.INTEGER: "INTEGER", wire.BIGINT: "BIGINT", wire.VARCHAR: "VARCHAR"}


def description_of(column):
    """The seven items of PEP 249 for a column of an SQLDARD."""
    code = TYPE_CODES.get(column.sql_type & ~1, str(column.sql_type))
    if code == "VARCHAR" and column.ccsid == 0:
        code = "VARBINARY"
    return column.name, code, None, column.length, None, None, bool(column.sql_type & 1)


SPELLED = re.compile(r"([0-9]+)[: ] *((?:[0-9A-Fa-f]{2})+)[: ] *((?:[0-9A-Fa-f]{2})*|-)")


class Xid(namedtuple("Xid", "format_id global_transaction_id branch_qualifier")):
    """A transaction ID, spelled FORMAT GLOBALHEX BRANCHHEX with - for an empty part, as `drdad indoubt` and `drdad decide` have it. The
    null XID and an empty global part are none."""

    def __new__(cls, format_id: int, global_transaction_id: bytes, branch_qualifier: bytes) -> Xid:
        parts = (global_transaction_id, branch_qualifier)
        is_good = isinstance(format_id, int) and 0 <= format_id < 2**32 - 1
        if not is_good or not all(isinstance(part, bytes) and len(part) <= 64 for part in parts) or not parts[0]:
            raise ProgrammingError(
                "a transaction ID is a number below 2^32 - 1, a global part of 1 to 64 bytes and a branch part of at most 64")
        return super().__new__(cls, format_id, *parts)

    @classmethod
    def parse(cls, text: str) -> Xid:
        """The ID that is spelled so, or with colons in place of the blanks."""
        found = SPELLED.fullmatch(text.strip())
        if not found:
            raise ProgrammingError(f"{text!r} is not FORMAT GLOBALHEX BRANCHHEX, as in 1 6761 62, with - for an empty part")
        return cls(int(found[1]), bytes.fromhex(found[2]), bytes.fromhex(found[3].replace("-", "")))

    def __str__(self) -> str:
        return f"{self.format_id} {self.global_transaction_id.hex()} {self.branch_qualifier.hex() or '-'}"

    def wire(self):
        return wire.xid_bytes(*self)


def xid_of(given):
    """The transaction ID that was given, which may be any sequence of its three parts."""
    try:
        return Xid(*given)
    except TypeError:
        raise ProgrammingError(f"{given!r} is no transaction ID") from None
