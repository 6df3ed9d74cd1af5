"""A conversation read aloud: DSSs line by line, and the objects in them by the standard's names, as they are sent."""
from . import wire
from .type_objects import description_of

INDENT = "    "
SECTION_AT, NAME_SIZE = 62, 18
CALLS = {
    wire.START: "start", wire.END: "end", wire.PREPARE: "prepare", wire.COMMIT: "commit", wire.ROLL_BACK: "rollback",
    wire.FORGET: "forget", wire.RECOVER: "recover",
}
KINDS = {wire.REQUEST: "request", wire.REPLY: "reply", wire.OBJECT: "object"}
CONTAINERS = frozenset((
    wire.EXCSAT, wire.ACCSEC, wire.SECCHK, wire.ACCRDB, wire.TYPDEFOVR, wire.EXCSATRD, wire.ACCSECRD, wire.SYNCCTL, wire.RDBCMM,
    wire.RDBRLLBCK, wire.EXCSQLIMM, wire.EXCSQLSTT, wire.PRPSQLSTT, wire.DSCSQLSTT, wire.OPNQRY, wire.CNTQRY, wire.CLSQRY, wire.SYNCCRD,
    wire.PRPHRCLST,
    *(code for code, name in wire.NAMES.items() if name.endswith("RM")),
))


class Aloud:
    """Reads DSSs aloud in the order in which they go over the wire: rows are read by the description that came last."""

    def __init__(self):
        self._fields = ()

    def lines(self, one):
        """The lines of a DSS: what it is, and each object in it, those of a container indented below it."""
        chained = ", chained" if one.form & wire.CHAINED else ""
        kind = KINDS.get(one.form & 0x0F, one.form & 0x0F)
        yield f"  DSS {kind}, correlator {one.correlator}{chained}"
        yield from self._objects(one.contents, 2)

    def _objects(self, data, depth):
        try:
            found = wire.objects(data)
        except wire.WireFault as fault:
            yield f"{INDENT * depth}({fault}) {data.hex(' ', 2)}"
            return
        for code, inside in found:
            name = INDENT * depth + wire.named(code)
            if code in CONTAINERS:
                yield name
                yield from self._objects(inside, depth + 1)
            else:
                yield f"{name} {self._value(code, inside)}".rstrip()

    def _value(self, code, data):
        """What an object says; its bytes where they are not what they should be."""
        reads = {
            wire.SQLSTT: _statement, wire.SQLATTR: _statement, wire.SQLCARD: _card, wire.SQLDARD: _described, wire.MGRLVLLS: _levels,
            wire.SQLDTA: _parameters, wire.XID: _xid, wire.QRYDSC: self._description, wire.QRYDTA: self._rows, wire.PASSWORD: _secret,
            wire.PKGNAMCSN: _section, wire.SYNCTYPE: _call, wire.XARETVAL: _number, wire.QRYBLKSZ: _number, wire.SVRCOD: _number,
        }
        try:
            return reads.get(code, shown)(data)
        except wire.WireFault:
            return shown(data)

    def _description(self, data):
        self._fields = wire.fields_of(data)
        return f"{len(self._fields)} columns"

    def _rows(self, data):
        return " ".join(map(str, wire.rows(self._fields, data))) if self._fields else shown(data)


def shown(data):
    """Bytes as a person reads them: as a text in UTF-8 or in code page 500 where they are one of printable ASCII, else in
    hexadecimal. A single one is a code."""
    if len(data) == 1:
        return data.hex()
    for encoding in ("utf-8", "cp500"):
        try:
            text = data.decode(encoding)
        except UnicodeDecodeError:
            continue
        if text and all(" " <= letter <= "~" for letter in text):
            return f"'{text.rstrip()}'"
    return data.hex(" ", 2) if data else ""


def _secret(_):
    return "(not shown)"


def _number(data):
    return str(int.from_bytes(data, "big", signed=True))


def _call(data):
    return CALLS.get(data[0], shown(data)) if len(data) == 1 else shown(data)


def _section(data):
    """The three parts of a package's name, and the number of the section in it."""
    if len(data) != SECTION_AT + 2:
        return shown(data)
    parts = (shown(data[at:at + NAME_SIZE]) for at in range(0, 3 * NAME_SIZE, NAME_SIZE))
    return f"{' '.join(parts)}, section {int.from_bytes(data[SECTION_AT:], 'big')}"


def _statement(data):
    return f"'{wire.text_of(data)}'"


def _card(data):
    card = wire.card(data)
    if card is wire.NULL_CARD:
        return "null"
    return f"SQLCODE {card.sqlcode} SQLSTATE {card.sqlstate}" + (f", {card.rows} rows" if card.rows else "")


def _described(data):
    return ", ".join(" ".join(description_of(column)[:2]) for column in wire.described(data))


def _levels(data):
    return ", ".join(f"{wire.named(manager)} {level}" for manager, level in wire.level_pairs(data).items())


def _parameters(data):
    return str(wire.parameter_values(data))


def _xid(data):
    form, *parts = wire.xid_parts(data)
    return ":".join([str(form), *(part.hex() for part in parts)])
