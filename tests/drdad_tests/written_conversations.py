"""Conversations that are written out: what comes in and what answers it, by the tables of docs/PROTOCOL.md, SQL.md and XA.md, and not by
what a server answered. CONVERSATIONS has for each its name, the word that makes its store (tests/gate/gate_conversations), and
its runs: the records in, those out, and the word of the crash behind them."""
import struct

from drdad_tests import event_records as events
from drdad import wire

REQUEST, REPLY, OBJECT = 1, 2, 3
ON, SAME, GO_ON = 0x40, 0x10, 0x20
SECCHK, ACCSEC, ACCRDB, EXCSAT = wire.SECCHK, wire.ACCSEC, wire.ACCRDB, wire.EXCSAT
EXCSQLIMM, PRPSQLSTT, OPNQRY, SYNCCTL = wire.EXCSQLIMM, wire.PRPSQLSTT, wire.OPNQRY, wire.SYNCCTL
DSCSQLSTT, EXCSQLSTT, CNTQRY, CLSQRY, SQLATTR, SQLDTA = 0x2008, 0x200B, 0x2006, 0x2005, 0x2450, 0x2412
TYPDEFOVR, CCSIDSBC, CCSIDDBC, CCSIDMBC = 0x0035, 0x119C, 0x119D, 0x119E
RTNSQLDA, TYPSQLDA, QRYINSID, QRYBLKSZ = 0x2116, 0x2146, 0x215B, wire.QRYBLKSZ
NO_NAMES, RECOVER, ROLL_BACK = b"", 0x0C, 0x07
TMFAIL, TMONEPHASE = 0x20000000, 0x40000000
SHOP, SHOP_500 = b"SHOP".ljust(18), "SHOP".ljust(18).encode("cp500")
ddm = wire.ddm

CONVERSATIONS = []


# Commands and replies.

def dss(form, correlator, contents):
    """A DSS, in segments where it is long."""
    if len(contents) <= 32761:
        return wire.dss(form, correlator, contents)
    head, rest = struct.pack(">HBBH", 0xFFFF, 0xD0, form, correlator) + contents[:32761], contents[32761:]
    while len(rest) > 32765:
        head, rest = head + b"\xff\xff" + rest[:32765], rest[32765:]
    return head + struct.pack(">H", 2 + len(rest)) + rest


def long_ddm(code, data):
    """An object; past 32,763 bytes its length stands behind the code point."""
    return ddm(code, data) if len(data) <= 32763 else struct.pack(">HHI", 0x8008, code, len(data)) + data


def chained(correlator, parts, form):
    """DSSs of one command or of its replies, of which the last is chained as `form` says."""
    last = len(parts) - 1
    return b"".join(dss(kind | (ON | SAME if at < last else form & ON), correlator, data) for at, (kind, data) in enumerate(parts))


def command(correlator, code, parameters=b"", *objects, form=0):
    """A command, with these data objects. `form` has ON where another command follows in its chain, and GO_ON."""
    parts = [(REQUEST | form & GO_ON, ddm(code, parameters)), *((OBJECT, one) for one in objects)]
    return chained(correlator, parts, form)


def answer(correlator, *replies, form=0):
    """The replies to a command: kind and object of each."""
    return chained(correlator, replies, form)


def text(words):
    return b"\0" + struct.pack(">I", len(words)) + words.encode() + b"\xff"


def sqlstt(words):
    return long_ddm(wire.SQLSTT, text(words))


def section(number=1):
    return ddm(wire.PKGNAMCSN, SHOP + b"NULLID".ljust(18) + b"SYSSH200".ljust(18) + b"TOKENTOK" + struct.pack(">H", number))


def number(code, value, size=4):
    return ddm(code, value.to_bytes(size, "big"))


def message(code, severity, *parameters):
    return REPLY, ddm(code, number(0x1149, severity, 2) + b"".join(parameters))


def named(code, severity, *parameters):
    return message(code, severity, ddm(wire.RDBNAM, SHOP), *parameters)


def card(code=0, state=b"00000", rows=0):
    numbers = struct.pack(">6i", 0, 0, rows, 0, 0, 0)
    head = b"\0" + struct.pack(">i", code) + state + b"RDA01000\0"
    return OBJECT, ddm(wire.SQLCARD, head + numbers + b" " * 11 + bytes(6) + b"\xff")


NOTHING = OBJECT, ddm(wire.SQLCARD, b"\xff")
NO_ROW_MORE = card(100, b"02000")
UPDATED = named(0x2218, 0)
END_OF_QUERY = message(0x220B, 4)
NOT_OPENED = named(0x2212, 8)
COMMITTED = message(0x220C, 4, number(0x2115, 1, 1)), NOTHING
ROLLED_BACK = message(0x220C, 4, number(0x2115, 2, 1)), NOTHING
NO_ROOM = message(0x1233, 8)
DEPENDS = message(0x1218, 8)
OUT_OF_TURN = message(0x1245, 8)
CLASHES, KEY_EXISTS, NO_TABLE = card(-913, b"57033"), card(-803, b"23505"), card(-204, b"42704")
OUT_OF_RANGE, NOT_PREPARED, WRONG_VALUES = card(-413, b"22003"), card(-518, b"07003"), card(-313, b"07001")
TOO_LONG, TOO_MUCH = card(-433, b"22001"), card(-904, b"57011")


def not_supported(code):
    return message(0x1252, 8, number(0x000C, code, 2))


def not_open(names):
    return named(0x2202, 8, names)


def opened(instance, is_held=False):
    return message(0x2205, 0, number(0x2102, 0x2417, 2), number(0x211F, 0xF1 if is_held else 0xF0, 1), number(QRYINSID, instance, 8))


def columns(*types):
    """QRYDSC of columns, each its type of FD:OCA and its length."""
    head = bytes([3 + 3 * len(types), 0x76, 0xD0]) + b"".join(struct.pack(">BH", *one) for one in types)
    return OBJECT, ddm(0x241A, head + bytes.fromhex("0971E0540001D00001 0671F0E00000"))


def rows(*found):
    return OBJECT, long_ddm(wire.QRYDTA, b"".join(b"\xff\0" + one for one in found))


def described(*parts):
    """SQLDARD of columns: length, type, CCSID and name of each."""
    told = b"".join(
        bytes(4) + struct.pack(">QHHBHH", size, kind, ccsid, 0, 0, len(name)) + name + bytes(10) + b"\xff\xff"
        for size, kind, ccsid, name in parts
    )
    return OBJECT, ddm(0x2411, b"\xff\xff" + struct.pack(">H", len(parts)) + told)


def xid(global_part, branch_part=b"B"):
    return ddm(wire.XID, struct.pack(">III", 1, len(global_part), len(branch_part)) + global_part + branch_part)


def sync(call, name=b"", flags=None):
    return number(wire.SYNCTYPE, call, 1) + (xid(name) if name else b"") + (b"" if flags is None else number(wire.XAFLAGS, flags))


def xa(code, *parameters):
    return OBJECT, ddm(wire.SYNCCRD, ddm(wire.XARETVAL, struct.pack(">i", code)) + b"".join(parameters))


def in_doubt(*names):
    return xa(0, ddm(0x1905, number(0x1906, len(names), 2) + b"".join(xid(name) for name in names)))


# Values: of a row of K INTEGER NOT NULL and V VARCHAR(600), and of parameters.

INTEGER, LONG_INTEGER, VARCHAR = (0x02, 4), (0x16, 8), (0x3F, 600)
T = columns(INTEGER, VARCHAR)


def row(key, value):
    return struct.pack(">i", key) + (b"\xff" if value is None else b"\0" + struct.pack(">H", len(value)) + value)


def parameters(*values):
    """SQLDTA of numbers of four bytes."""
    types = [(0x02, 4)] * len(values)
    triplets = b""
    for at in range(0, len(types), 84):
        part = types[at:at + 84]
        triplets += bytes([3 + 3 * len(part), *((0x7F, 0) if at else (0x76, 0xD0))]) + b"".join(struct.pack(">BH", *one) for one in part)
    data = b"\0" + struct.pack(f">{len(values)}i", *values)
    return ddm(SQLDTA, ddm(0x0010, triplets + bytes.fromhex("0671E4D00001")) + ddm(0x147A, data))


# Conversations as they go on.

CONNECTS = (wire.SECMEC, b"\0\3"), (wire.USRID, b"ana"), (wire.PASSWORD, b"pw")
TYPES = ddm(wire.TYPDEFNAM, b"QTDSQLASC")


def levels(*pairs):
    return wire.levels(*pairs)


def attributes(correlator, *pairs):
    """EXCSATRD."""
    told = [("drdad", 0x115E), ("DRDAD", 0x1147), ("drdad", 0x116D), ("RDA01000", 0x115A)]
    parts = [ddm(code, name.encode("cp500")) for name, code in told]
    if pairs:
        parts.insert(1, levels(*pairs))
    return answer(correlator, (OBJECT, ddm(0x1443, b"".join(parts))))


def mechanism(correlator, value):
    return command(correlator, ACCSEC, number(wire.SECMEC, value, 2))


def mechanism_told(correlator, value):
    return answer(correlator, (OBJECT, ddm(0x14AC, number(wire.SECMEC, value, 2))))


def checked(correlator, code, form=0):
    return answer(correlator, message(0x1219, 0 if code == 0 else 8, number(0x11A4, code, 1)), form=form)


ACCESSED = message(0x2201, 0, ddm(0x112E, b"RDA01000"), TYPES, ddm(TYPDEFOVR, number(CCSIDSBC, 1208, 2) + number(CCSIDMBC, 1208, 2)))
KNOWN = (wire.XAMGR, 7), (wire.UNICODEMGR, 1208)


class Talk:
    """Conversations as they go on: what is sent, and what answers it."""

    def __init__(self):
        self.sent = self.answered = b""

    def record(self, kind, conversation, sent=b"", answered=b""):
        self.sent += events.record(kind, conversation, sent)
        self.answered += events.record(kind, conversation, answered)

    def begins(self, conversation):
        self.record(events.OPENS, conversation)

    def says(self, conversation, sent, answered):
        """Bytes, in as many records as they need, that are answered with the last of them."""
        for at in range(0, len(sent), 65536):
            piece = sent[at:at + 65536]
            self.record(events.SENDS, conversation, piece, answered if at + 65536 >= len(sent) else b"")

    def knows(self, conversation):
        self.begins(conversation)
        self.says(conversation, command(1, EXCSAT, levels(*KNOWN)), attributes(1, *KNOWN))

    def opens(self, conversation):
        """A conversation opens, and the database SHOP."""
        self.knows(conversation)
        self.says(conversation, mechanism(2, 3), mechanism_told(2, 3))
        self.says(conversation, command(3, SECCHK, b"".join(ddm(*one) for one in CONNECTS)), checked(3, 0))
        self.says(conversation, command(4, ACCRDB, ddm(wire.RDBNAM, SHOP) + TYPES), answer(4, ACCESSED))

    def asks(self, conversation, code, parameters, *replies, objects=(), form=0):
        """A command with the correlator 6, and its replies."""
        self.says(conversation, command(6, code, parameters, *objects, form=form), answer(6, *replies, form=form))

    def runs(self, conversation, words, *replies):
        self.asks(conversation, EXCSQLIMM, b"", *replies, objects=[sqlstt(words)])

    def changes(self, conversation, words, count, is_first=False):
        self.runs(conversation, words, *([UPDATED] if is_first else []), card(rows=count))

    def says_all(self, conversation, pairs):
        """Commands with their answers, as many in one record as it holds."""
        sent = answered = b""
        for command, told in pairs:
            if len(sent) + len(command) > 65536:
                self.says(conversation, sent, answered)
                sent = answered = b""
            sent, answered = sent + command, answered + told
        self.says(conversation, sent, answered)

    def says_together(self, conversation, statements, is_first=False, behind=(b"", b"")):
        """Statements with their numbers of rows, and behind each of them the same."""
        pairs = []
        for words, count in statements:
            updates = [UPDATED] if is_first and (behind[0] or not pairs) else []
            pairs.append((command(6, EXCSQLIMM, b"", sqlstt(words)) + behind[0], answer(6, *updates, card(rows=count)) + behind[1]))
        self.says_all(conversation, pairs)

    def commits(self, conversation):
        self.asks(conversation, wire.RDBCMM, b"", *COMMITTED)

    def rolls_back(self, conversation):
        self.asks(conversation, wire.RDBRLLBCK, b"", *ROLLED_BACK)

    def creates(self, conversation, words="CREATE TABLE T (K INTEGER NOT NULL, V VARCHAR(600), PRIMARY KEY (K))"):
        self.changes(conversation, words, 0, True)
        self.commits(conversation)

    def prepares(self, conversation, words, place=1, attributes=None):
        objects = [sqlstt(words), *([ddm(SQLATTR, text(attributes))] if attributes is not None else [])]
        self.asks(conversation, PRPSQLSTT, section(place), NOTHING, objects=objects)

    def queries(self, conversation, instance, *replies, place=1, size=512, is_held=False, objects=()):
        self.asks(conversation, OPNQRY, section(place) + number(QRYBLKSZ, size), opened(instance, is_held), *replies, objects=objects)

    def finds(self, conversation, instance, *found, place=1, size=65536, is_held=False, kinds=T, objects=()):
        """A query whose rows fit in one block."""
        told = [rows(*found)] if found else []
        told = [kinds, *told, END_OF_QUERY, NO_ROW_MORE]
        self.queries(conversation, instance, *told, place=place, size=size, is_held=is_held, objects=objects)

    def continues(self, conversation, *replies, place=1, size=None, more=b""):
        sized = number(QRYBLKSZ, size) if size else b""
        self.asks(conversation, CNTQRY, section(place) + sized + more, *replies)

    def calls(self, conversation, call, name, code, flags=None):
        self.asks(conversation, SYNCCTL, sync(call, name, flags), xa(code))

    def works_in(self, conversation, name, *statements):
        """A branch begins, inserts and ends."""
        self.calls(conversation, wire.START, name, 0)
        for at, (words, count) in enumerate(statements):
            self.changes(conversation, words, count, at == 0)
        self.calls(conversation, wire.END, name, 0, wire.TMSUCCESS)


def conversation(name, store="fresh", crash=""):
    """Takes the function's talk into CONVERSATIONS."""
    def taken(said):
        talk = Talk()
        said(talk)
        CONVERSATIONS.append((name, store, [(talk.sent, talk.answered, crash)]))
        return said
    return taken


def over_a_fresh_store():
    """Those of one run over a fresh store, by their names."""
    return {name: runs[0][:2] for name, store, runs in CONVERSATIONS if store == "fresh" and len(runs) == 1}


# Opening.

CHECKS = (
    (3, (
        ({wire.SECMEC: b"\0\4", wire.USRID: b"ana", wire.PASSWORD: b"pw"}, 0x01),
        ({wire.SECMEC: b"\0\4"}, 0x01),
        ({}, 0x12),
        ({wire.PASSWORD: b"pw"}, 0x12),
        ({wire.USRID: b"bob", wire.PASSWORD: b"pw"}, 0x13),
        ({wire.USRID: b"an"}, 0x13),
        ({wire.USRID: b"ana"}, 0x10),
        ({wire.USRID: b"ana", wire.PASSWORD: b"no"}, 0x0F),
        ({wire.USRID: b"ana", wire.PASSWORD: b"p"}, 0x0F),
        ({wire.USRID: b"ana", wire.PASSWORD: b"pwd"}, 0x0F),
        ({wire.USRID: b"ana", wire.PASSWORD: b"pw"}, 0x00),
    )),
    (4, (
        ({wire.SECMEC: b"\0\3", wire.USRID: b"ana", wire.PASSWORD: b"pw"}, 0x01),
        ({}, 0x12),
        ({wire.PASSWORD: b"pw"}, 0x12),
        ({wire.USRID: b"anab", wire.PASSWORD: b"pw"}, 0x13),
        ({wire.USRID: b"ana", wire.PASSWORD: b"no"}, 0x00),
    )),
    (4, (({wire.USRID: b"ana"}, 0x00),)),
)


@conversation("checks-of-users")
def checks_of_users(talk):
    for place, (agreed, checks) in enumerate(CHECKS):
        talk.knows(place)
        talk.says(place, mechanism(2, agreed), mechanism_told(2, agreed))
        for given, code in checks:
            values = {wire.SECMEC: agreed.to_bytes(2, "big"), **given}
            talk.says(place, command(3, SECCHK, b"".join(ddm(*one) for one in values.items())), checked(3, code))
        talk.says(place, command(5, SECCHK, number(wire.SECMEC, agreed, 2)), answer(5, OUT_OF_TURN))
        talk.says(place, command(4, ACCRDB, ddm(wire.RDBNAM, SHOP) + TYPES), answer(4, ACCESSED))


# What each manager is asked for, and what is agreed on.
LEVELS = (
    ((wire.AGENT, 7), 7), ((wire.AGENT, 8), 7), ((wire.AGENT, 6), 6), ((wire.SQLAM, 7), 7), ((wire.SQLAM, 8), 7),
    ((wire.RDB, 7), 7), ((wire.RDB, 8), 7), ((wire.SECMGR, 7), 7), ((wire.SECMGR, 8), 7), ((0x1474, 5), 5), ((0x1474, 6), 5),
    ((0x1474, 4), 4), ((wire.XAMGR, 7), 7), ((wire.XAMGR, 8), 7), ((wire.XAMGR, 65535), 7), ((wire.XAMGR, 1), 1),
    ((wire.UNICODEMGR, 1208), 1208), ((wire.UNICODEMGR, 1209), 0), ((wire.UNICODEMGR, 1207), 0),
    ((0x14C0, 5), 0), ((0x14C1, 5), 0), ((0x1444, 7), 0), ((wire.SQLAM, 0), 0),
)


@conversation("levels-of-managers")
def levels_of_managers(talk):
    talk.begins(0)
    for (manager, asked), agreed in LEVELS:
        talk.says(0, command(1, EXCSAT, levels((manager, asked))), attributes(1, (manager, agreed)))
    asked = [pair for pair, _ in LEVELS]
    told = [(manager, agreed) for (manager, _), agreed in LEVELS]
    talk.says(0, command(1, EXCSAT, levels(*asked)), attributes(1, *told))


@conversation("attributes-twice")
def attributes_twice(talk):
    """EXCSAT on the open database, without a list and with one, without managers that were agreed on."""
    talk.opens(0)
    talk.creates(0)
    talk.works_in(0, b"A")
    talk.says(0, command(1, EXCSAT), attributes(1))
    talk.works_in(0, b"C")
    talk.says(0, command(1, EXCSAT, levels((wire.AGENT, 7))), attributes(1, (wire.AGENT, 7)))
    talk.asks(0, SYNCCTL, sync(wire.START, b"D"), DEPENDS)
    in_500 = message(0x2218, 0, ddm(wire.RDBNAM, SHOP_500))
    talk.runs(0, "INSERT INTO T VALUES (1, 'a')", in_500, card(rows=1))
    talk.says(0, command(1, EXCSAT, levels(*KNOWN, (wire.XAMGR, 0))), attributes(1, *KNOWN, (wire.XAMGR, 0)))
    talk.asks(0, SYNCCTL, sync(wire.START, b"D"), DEPENDS)
    talk.says(0, command(4, ACCRDB, ddm(wire.RDBNAM, SHOP) + TYPES), answer(4, named(0x2207, 8)))
    talk.says(0, command(1, EXCSAT, levels((wire.XAMGR, 1))), attributes(1, (wire.XAMGR, 1)))
    talk.calls(0, wire.START, b"D", -9)
    opening = ddm(wire.RDBNAM, SHOP_500) + ddm(wire.TYPDEFNAM, "QTDSQLASC".encode("cp500"))
    talk.says(0, command(4, ACCRDB, opening), answer(4, message(0x2207, 8, ddm(wire.RDBNAM, SHOP_500))))


# TYPDEFOVR, and whether it is supported.
ENCODINGS = (
    (number(CCSIDSBC, 1208, 2) + number(CCSIDMBC, 1280, 2), False),
    (number(CCSIDMBC, 1280, 2) + number(CCSIDSBC, 1208, 2), False),
    (number(CCSIDSBC, 500, 2) + number(CCSIDMBC, 1208, 2), False),
    (number(CCSIDMBC, 500, 2), False),
    (number(CCSIDSBC, 1208, 4), False),
    (number(CCSIDSBC, 1208, 2) + number(CCSIDDBC, 1200, 2) + number(CCSIDMBC, 1208, 2), True),
)


@conversation("encodings")
def encodings(talk):
    talk.knows(0)
    talk.says(0, mechanism(2, 3), mechanism_told(2, 3))
    talk.says(0, command(3, SECCHK, b"".join(ddm(*one) for one in CONNECTS)), checked(3, 0))
    for given, is_supported in ENCODINGS:
        reply = ACCESSED if is_supported else not_supported(TYPDEFOVR)
        talk.says(0, command(4, ACCRDB, ddm(wire.RDBNAM, SHOP) + TYPES + ddm(TYPDEFOVR, given)), answer(4, reply))
    # As data objects of any command, without further effect.
    for given, is_supported in ENCODINGS:
        replies = COMMITTED if is_supported else [not_supported(TYPDEFOVR)]
        talk.asks(0, wire.RDBCMM, b"", *replies, objects=[ddm(TYPDEFOVR, given)])


# Chains.

@conversation("chains-of-queries")
def chains_of_queries(talk):
    """OPNQFLRM and QRYPOPRM break a chain, unless the request goes on after an error; an SQLCARD never does."""
    talk.opens(0)
    talk.creates(0)
    talk.changes(0, "INSERT INTO T VALUES (1, 'a')", 1, True)
    talk.changes(0, "INSERT INTO T VALUES (2, 'b')", 1)
    talk.prepares(0, "SELECT * FROM T")
    talk.prepares(0, "SELECT * FROM NONE", 2)
    query = section(2) + number(QRYBLKSZ, 512)
    commit = command(7, wire.RDBCMM)
    talk.says(0, command(6, OPNQRY, query, form=ON) + commit, answer(6, NOT_OPENED, NO_TABLE))
    talk.says(0, command(6, OPNQRY, query, form=ON | GO_ON) + commit, answer(6, NOT_OPENED, NO_TABLE, form=ON) + answer(7, *COMMITTED))
    wide = section() + number(QRYBLKSZ, 512)
    talk.prepares(0, "SELECT V FROM T", 3)
    talk.changes(0, f"UPDATE T SET V = '{'x' * 600}'", 2, True)
    one = (T, rows(row(1, b"x" * 600)))
    talk.says(0, command(6, OPNQRY, wide, form=ON) + commit, answer(6, opened(1), *one, form=ON) + answer(7, *COMMITTED))
    # The commit has closed the cursor.
    talk.queries(0, 2, *one)
    talk.says(0, command(6, OPNQRY, wide, form=ON) + commit, answer(6, named(0x220F, 8, section())))
    is_open = named(0x220F, 8, section())
    talk.says(0, command(6, OPNQRY, wide, form=ON | GO_ON) + commit, answer(6, is_open, form=ON) + answer(7, *COMMITTED))
    talk.continues(0, not_open(section()))
    duplicate = command(6, EXCSQLIMM, b"", sqlstt("INSERT INTO T VALUES (1, 'a')"), form=ON)
    talk.says(0, duplicate + commit, answer(6, KEY_EXISTS, form=ON) + answer(7, *COMMITTED))


@conversation("open-twice")
def open_twice(talk):
    """A section whose cursor is open is not opened again, whatever was prepared there since; another one is."""
    talk.opens(0)
    talk.creates(0)
    for key in range(3):
        talk.changes(0, f"INSERT INTO T VALUES ({key}, '{'v' * 500}')", 1, key == 0)
    found = [rows(row(key, b"v" * 500)) for key in range(3)]
    talk.prepares(0, "SELECT * FROM T")
    talk.prepares(0, "SELECT * FROM T", 2)
    talk.queries(0, 1, T, found[0])
    talk.asks(0, OPNQRY, section() + number(QRYBLKSZ, 512), named(0x220F, 8, section()))
    talk.prepares(0, "DELETE FROM T")
    talk.asks(0, OPNQRY, section() + number(QRYBLKSZ, 512), named(0x220F, 8, section()))
    talk.queries(0, 2, T, found[0], place=2)
    # QRYINSID names the cursor.
    talk.continues(0, not_open(section()), more=number(QRYINSID, 2, 8))
    talk.continues(0, found[1], more=number(QRYINSID, 1, 8))
    talk.asks(0, CLSQRY, section() + number(QRYINSID, 2, 8), not_open(section()))
    talk.asks(0, CLSQRY, section() + number(QRYINSID, 1, 8), NOTHING)
    talk.continues(0, not_open(section()))
    talk.asks(0, CLSQRY, section(), not_open(section()))
    talk.asks(0, OPNQRY, section() + number(QRYBLKSZ, 512), NOT_OPENED, NOT_PREPARED)
    talk.continues(0, found[1], place=2)
    talk.continues(0, found[2], END_OF_QUERY, NO_ROW_MORE, place=2)
    talk.continues(0, not_open(section(2)), place=2)
    talk.asks(0, EXCSQLSTT, section(), card(rows=3))
    talk.finds(0, 3, place=2)


@conversation("sizes-of-blocks")
def sizes_of_blocks(talk):
    """CNTQRY with QRYBLKSZ, and then without: the size of the block before."""
    talk.opens(0)
    talk.creates(0)
    # Each row has 100 bytes in QRYDTA.
    for key in range(40):
        talk.changes(0, f"INSERT INTO T VALUES ({key}, '{'v' * 91}')", 1, key == 0)
    found = [row(key, b"v" * 91) for key in range(40)]
    talk.prepares(0, "SELECT * FROM T")
    talk.queries(0, 1, T, rows(*found[:5]))
    talk.continues(0, rows(*found[5:10]))
    talk.continues(0, rows(*found[10:17]), size=700)
    talk.continues(0, rows(*found[17:24]))
    talk.continues(0, rows(*found[24:29]), size=512)
    talk.continues(0, rows(*found[29:39]), size=1000)
    talk.continues(0, rows(found[39]), END_OF_QUERY, NO_ROW_MORE)
    talk.queries(0, 2, T, rows(*found), END_OF_QUERY, NO_ROW_MORE, size=4000)


# QRYBLKSZ and PKGNAMCSN, and whether they are supported.
BLOCK_SIZES = (
    (number(QRYBLKSZ, 511), False), (number(QRYBLKSZ, 512), True), (number(QRYBLKSZ, 10_485_760), True),
    (number(QRYBLKSZ, 10_485_761), False), (number(QRYBLKSZ, 0), False), (number(QRYBLKSZ, 4_294_967_295), False),
    (number(QRYBLKSZ, 1024, 2), False), (number(QRYBLKSZ, 1024, 8), False),
)
NAME_SIZES = (0, False), (63, False), (64, True), (65, True), (790, True), (791, True), (792, False)


@conversation("bounds-of-parameters")
def bounds_of_parameters(talk):
    talk.opens(0)
    talk.creates(0)
    talk.prepares(0, "SELECT * FROM T")
    instance = 0
    for given, is_supported in BLOCK_SIZES:
        instance += is_supported
        replies = (opened(instance), T, END_OF_QUERY, NO_ROW_MORE) if is_supported else [not_supported(QRYBLKSZ)]
        talk.asks(0, OPNQRY, section() + given, *replies)
        # Of CNTQRY too, before its cursor is looked for.
        talk.asks(0, CNTQRY, section() + given, not_open(section()) if is_supported else not_supported(QRYBLKSZ))
    for length, is_supported in NAME_SIZES:
        name = ddm(wire.PKGNAMCSN, b"N" * length)
        talk.asks(0, PRPSQLSTT, name, NOTHING if is_supported else not_supported(wire.PKGNAMCSN), objects=[sqlstt("DELETE FROM T")])
        replies = [NO_ROW_MORE] if is_supported else [not_supported(wire.PKGNAMCSN)]
        talk.asks(0, EXCSQLSTT, name, *([UPDATED] if length == 64 else []), *replies)
    for value, is_supported in ((0xEF, False), (0xF0, True), (0xF2, False)):
        reply = NOTHING if is_supported else not_supported(RTNSQLDA)
        talk.asks(0, PRPSQLSTT, section() + number(RTNSQLDA, value, 1), reply, objects=[sqlstt("DELETE FROM T")])
    talk.asks(0, DSCSQLSTT, section() + number(TYPSQLDA, 6, 1), not_supported(TYPSQLDA))
    talk.asks(0, CLSQRY, section() + number(QRYINSID, 1, 4), not_supported(QRYINSID))
    talk.asks(0, SYNCCTL, number(wire.SYNCTYPE, 5, 1), not_supported(wire.SYNCTYPE))
    talk.asks(0, SYNCCTL, number(wire.SYNCTYPE, 9, 2), not_supported(wire.SYNCTYPE))


# Statements.

ALL_TYPES = """CREATE TABLE A (S SMALLINT NOT NULL, I INT, B BIGINT NOT NULL, V VARCHAR(7), X VARBINARY(2000) NOT NULL,
    N BIGINT, PRIMARY KEY (S))"""
OF_ALL_TYPES = (
    (2, 500, 0, b"S"), (4, 497, 0, b"I"), (8, 492, 0, b"B"), (7, 449, 1208, b"V"), (2000, 448, 0, b"X"), (8, 493, 0, b"N"),
)


@conversation("descriptions")
def descriptions(talk):
    """SQLDARD of columns of each type, and TYPSQLDA: an even one describes the columns, an odd one the parameters."""
    talk.opens(0)
    talk.creates(0, ALL_TYPES)
    query = sqlstt("SELECT * FROM A WHERE V = ? AND X = ? AND S = ? AND ? = 1")
    given = described((7, 449, 1208, b""), (2000, 449, 0, b""), (2, 501, 0, b""), (8, 493, 0, b""))
    told = described(*OF_ALL_TYPES)
    talk.asks(0, PRPSQLSTT, section() + number(RTNSQLDA, 0xF1, 1), told, objects=[query])
    for value in range(6):
        side = given if value % 2 else told
        talk.asks(0, PRPSQLSTT, section() + number(RTNSQLDA, 0xF1, 1) + number(TYPSQLDA, value, 1), side, objects=[query])
        talk.asks(0, DSCSQLSTT, section() + number(TYPSQLDA, value, 1), side)
        talk.asks(0, PRPSQLSTT, section() + number(RTNSQLDA, 0xF0, 1) + number(TYPSQLDA, value, 1), NOTHING, objects=[query])
    talk.asks(0, DSCSQLSTT, section(), told)
    talk.asks(0, DSCSQLSTT, section(2), NOT_PREPARED)
    for words, columns_told, parameters_told in (
        ("SELECT N, S FROM A", (OF_ALL_TYPES[5], OF_ALL_TYPES[0]), ()),
        ("INSERT INTO A (X, S) VALUES (?, ?)", (), ((2000, 449, 0, b""), (2, 501, 0, b""))),
        ("UPDATE A SET I = ?, N = N + ? WHERE S > ?", (), ((4, 497, 0, b""), (8, 493, 0, b""), (2, 501, 0, b""))),
        ("DELETE FROM A WHERE ? = ?", (), ((8, 493, 0, b""), (8, 493, 0, b""))),
        ("CREATE TABLE C (K INTEGER NOT NULL, PRIMARY KEY (K))", (), ()),
    ):
        talk.asks(0, PRPSQLSTT, section() + number(RTNSQLDA, 0xF1, 1), described(*columns_told), objects=[sqlstt(words)])
        talk.asks(0, DSCSQLSTT, section() + number(TYPSQLDA, 1, 1), described(*parameters_told))
    talk.prepares(0, "SELECT * FROM NONE")
    talk.asks(0, DSCSQLSTT, section(), NO_TABLE)
    talk.asks(0, PRPSQLSTT, section() + number(RTNSQLDA, 0xF1, 1), NO_TABLE, objects=[sqlstt("SELECT * FROM NONE")])


@conversation("no-rows")
def no_rows(talk):
    """An UPDATE and a DELETE of no row are told so, and are changes of their unit."""
    talk.opens(0)
    talk.creates(0)
    talk.runs(0, "DELETE FROM T", UPDATED, NO_ROW_MORE)
    talk.runs(0, "UPDATE T SET V = 'a'", NO_ROW_MORE)
    talk.commits(0)
    talk.runs(0, "UPDATE T SET V = 'a' WHERE K = 5", UPDATED, NO_ROW_MORE)
    talk.rolls_back(0)
    talk.prepares(0, "DELETE FROM T WHERE K = ?")
    talk.asks(0, EXCSQLSTT, section(), UPDATED, NO_ROW_MORE, objects=[parameters(5)])
    talk.changes(0, "INSERT INTO T VALUES (5, 'a')", 1)
    talk.asks(0, EXCSQLSTT, section(), card(rows=1), objects=[parameters(5)])
    talk.asks(0, EXCSQLSTT, section(), NO_ROW_MORE, objects=[parameters(5)])
    talk.runs(0, "UPDATE T SET V = NULL", NO_ROW_MORE)


@conversation("past-the-type")
def past_the_type(talk):
    """A sum that leaves the type of its column changes nothing."""
    talk.opens(0)
    talk.creates(0, "CREATE TABLE R (K INTEGER NOT NULL, S SMALLINT, I INTEGER, B BIGINT, PRIMARY KEY (K))")
    talk.changes(0, "INSERT INTO R VALUES (1, 32767, 2147483647, 9223372036854775807)", 1, True)
    talk.changes(0, "INSERT INTO R VALUES (2, -32768, -2147483648, -9223372036854775808)", 1)
    for name in "SIB":
        talk.runs(0, f"UPDATE R SET {name} = {name} + 1", OUT_OF_RANGE)
        talk.runs(0, f"UPDATE R SET {name} = {name} - 1", OUT_OF_RANGE)
        talk.runs(0, f"UPDATE R SET {name} = {name} - 1 WHERE K = 2", OUT_OF_RANGE)
    talk.runs(0, "UPDATE R SET S = 32768", OUT_OF_RANGE)
    talk.runs(0, "UPDATE R SET I = -2147483649", OUT_OF_RANGE)
    talk.changes(0, "UPDATE R SET S = I - 2147450880 WHERE K = 1", 1)
    talk.runs(0, "INSERT INTO R VALUES (3, 32768, 0, 0)", OUT_OF_RANGE)
    talk.prepares(0, "SELECT S, I, B FROM R")
    kinds = columns((0x05, 2), (0x03, 4), (0x17, 8))
    found = [b"\0" + struct.pack(">h", low) + b"\0" + struct.pack(">i", middle) + b"\0" + struct.pack(">q", high) for low, middle, high in (
        (32767, 2147483647, 9223372036854775807), (-32768, -2147483648, -9223372036854775808))]
    talk.finds(0, 1, *found, kinds=kinds)


# Cursors that are held.

@conversation("held-cursors")
def held_cursors(talk):
    """WITH HOLD holds a cursor over a commit, and over nothing else; HOLD and FOR HOLD are not these words."""
    talk.opens(0)
    talk.creates(0)
    for key in range(5):
        talk.changes(0, f"INSERT INTO T VALUES ({key}, '{'v' * 500}')", 1, key == 0)
    found = [rows(row(key, b"v" * 500)) for key in range(5)]
    talk.commits(0)
    texts = (
        ("WITH HOLD", True), ("HOLD", False), ("FOR HOLD", False), ("", False), ("  for read only with   hold ", True),
        ("WITH  HOLDS", False), ("HOLD WITH", False),
    )
    for at, (attributes, _) in enumerate(texts, 1):
        talk.prepares(0, "SELECT * FROM T", at, attributes)
    instance = 0
    for end, replies, is_held_over in (
        ((wire.RDBCMM, b""), COMMITTED, True),
        ((wire.RDBRLLBCK, b""), ROLLED_BACK, False),
    ):
        for at, (_, is_held) in enumerate(texts, 1):
            instance += 1
            talk.queries(0, instance, T, found[0], place=at, is_held=is_held)
        talk.asks(0, *end, *replies)
        for at, (_, is_held) in enumerate(texts, 1):
            if is_held and is_held_over:
                talk.continues(0, found[1], place=at)
                talk.asks(0, CLSQRY, section(at), NOTHING)
            else:
                talk.continues(0, not_open(section(at)), place=at)
    # A cursor of local work is gone at the end of a branch that began behind it, and so is one of the branch.
    talk.queries(0, instance + 1, T, found[0], is_held=True)
    talk.commits(0)
    talk.calls(0, wire.START, b"A", 0)
    talk.continues(0, found[1])
    talk.queries(0, instance + 2, T, found[0], place=5, is_held=True)
    talk.calls(0, wire.END, b"A", 0, wire.TMSUCCESS)
    for at in (1, 5):
        talk.continues(0, not_open(section(at)), place=at)
    talk.calls(0, ROLL_BACK, b"A", 0)


# Units.

@conversation("lost-and-recovered")
def lost_and_recovered(talk):
    """A branch is prepared, and its conversation is lost; another one finds it, is kept from its row, and commits it."""
    talk.opens(0)
    talk.creates(0)
    talk.works_in(0, b"A", ("INSERT INTO T VALUES (1, 'a')", 1))
    talk.calls(0, wire.PREPARE, b"A", 0)
    talk.works_in(0, b"C", ("INSERT INTO T VALUES (2, 'b')", 1))
    talk.record(events.IS_LOST, 0)
    talk.opens(1)
    talk.asks(1, SYNCCTL, sync(RECOVER), in_doubt(b"A"))
    talk.runs(1, "INSERT INTO T VALUES (1, 'c')", CLASHES)
    # The branch that was not prepared is gone.
    talk.calls(1, wire.COMMIT, b"C", -4)
    talk.changes(1, "INSERT INTO T VALUES (2, 'd')", 1, True)
    talk.calls(1, wire.COMMIT, b"A", 0)
    talk.asks(1, SYNCCTL, sync(RECOVER), in_doubt())
    talk.prepares(1, "SELECT * FROM T")
    talk.finds(1, 1, row(1, b"a"), row(2, b"d"))
    talk.commits(1)
    talk.calls(1, wire.COMMIT, b"A", -4)


# With much of everything.

@conversation("thousand-rows")
def thousand_rows(talk):
    """One unit changes, reads, deletes, prepares and commits a thousand rows; then as many values as a statement may have."""
    talk.opens(0)
    talk.creates(0)
    inserts = [(f"INSERT INTO T VALUES ({key}, '{'v' * 50}')", 1) for key in range(1000)]
    talk.says_together(0, inserts, is_first=True)
    talk.commits(0)
    talk.works_in(0, b"A", (f"UPDATE T SET V = '{'w' * 50}'", 1000), ("DELETE FROM T WHERE K >= 500", 500))
    talk.calls(0, wire.PREPARE, b"A", 0)
    talk.runs(0, "DELETE FROM T WHERE K = 999", CLASHES)
    talk.calls(0, wire.COMMIT, b"A", 0)
    talk.prepares(0, "SELECT * FROM T")
    found = [row(key, b"w" * 50) for key in range(500)]
    talk.finds(0, 1, *found, size=1_048_576)
    # 128 values, and one too many.
    words = "DELETE FROM T WHERE " + " OR ".join(["K = ?"] * 128)
    talk.prepares(0, words, 2)
    talk.asks(0, EXCSQLSTT, section(2), UPDATED, card(rows=128), objects=[parameters(*range(0, 256, 2))])
    talk.asks(0, EXCSQLSTT, section(2), WRONG_VALUES, objects=[parameters(*range(127))])
    talk.asks(0, PRPSQLSTT, section(2), TOO_MUCH, objects=[sqlstt(words + " OR K = ?")])
    talk.finds(0, 2, *[one for key, one in enumerate(found) if key % 2 or key >= 256], size=1_048_576)


@conversation("long-values")
def long_values(talk):
    talk.opens(0)
    talk.creates(0, "CREATE TABLE X (K VARBINARY(2000) NOT NULL, V VARCHAR(1990), PRIMARY KEY (K))")
    key = bytes(at % 251 for at in range(2000))
    talk.changes(0, f"INSERT INTO X VALUES (X'{key.hex()}', '{'v' * 1990}')", 1, True)
    talk.runs(0, f"INSERT INTO X VALUES (X'{key.hex()}01', 'v')", TOO_LONG)
    talk.commits(0)
    talk.runs(0, f"INSERT INTO X VALUES (x'{key.hex().upper()}', 'w')", KEY_EXISTS)
    talk.prepares(0, f"SELECT K, V FROM X WHERE K = X'{key.hex()}'")
    told = b"\x07\xd0" + key + b"\0\x07\xc6" + b"v" * 1990
    talk.finds(0, 1, told, kinds=columns((0x28, 2000), (0x3F, 1990)), size=512)


@conversation("thousand-claims")
def thousand_claims(talk):
    """Two units of a thousand claims each, side by side."""
    for place in (0, 1):
        talk.opens(place)
    talk.creates(0)
    for place in (0, 1):
        talk.says_together(place, [(f"INSERT INTO T VALUES ({key}, NULL)", 1) for key in range(place, 2000, 2)], is_first=True)
    for place in (0, 1):
        others = [command(6, EXCSQLIMM, b"", sqlstt(f"DELETE FROM T WHERE K = {key}")) for key in range(1 - place, 2000, 50)]
        talk.says_all(place, [(other, answer(6, CLASHES)) for other in others])
    talk.commits(1)
    talk.runs(0, "DELETE FROM T WHERE K = 1999", card(rows=1))
    talk.rolls_back(0)
    talk.prepares(0, "SELECT K FROM T WHERE V IS NULL")
    found = [struct.pack(">i", key) for key in range(1, 2000, 2)]
    talk.finds(0, 1, *found, kinds=columns(INTEGER))


@conversation("nine-of-each")
def nine_of_each(talk):
    """Nine tables, nine conversations with a unit each, nine sections of each with their cursors."""
    talk.opens(0)
    for number in range(9):
        talk.changes(0, f"CREATE TABLE T{number} (K INTEGER NOT NULL, V VARCHAR(600), PRIMARY KEY (K))", 0, number == 0)
    talk.commits(0)
    for place in range(9):
        if place:
            talk.opens(place)
        for number in range(9):
            talk.changes(place, f"INSERT INTO T{number} VALUES ({place}, 'a')", 1, number == 0)
            talk.prepares(place, f"SELECT * FROM T{number} WHERE K = {place}", number + 1)
    for place in range(9):
        for number in range(9):
            talk.finds(place, number + 1, row(place, b"a"), place=number + 1)
    for place in range(9):
        if place % 2:
            talk.rolls_back(place)
        else:
            talk.commits(place)
    talk.prepares(8, "SELECT K FROM T8", 1)
    talk.finds(8, 10, *[struct.pack(">i", place) for place in range(0, 9, 2)], kinds=columns(INTEGER))


# A large store, which is opened again.

BRANCHES = [struct.pack(">H", number) for number in range(256)]
K_200, V_600 = (0x3E, 200), (0x3F, 600)


def long_key(number):
    return f"{number:05}" + "k" * 195


def fills(talk):
    """Over 1,000 records, one of them of more than 65,536 bytes, and 256 branches in doubt with ten claims each; keys of 200 bytes."""
    talk.opens(0)
    talk.creates(0, "CREATE TABLE L (K VARCHAR(200) NOT NULL, V VARCHAR(600), PRIMARY KEY (K))")
    talk.says_together(0, [(f"INSERT INTO L VALUES ('{long_key(key)}', '{'v' * 600}')", 1) for key in range(150)], is_first=True)
    talk.commits(0)
    commit, committed = command(7, wire.RDBCMM), answer(7, *COMMITTED)
    for first in range(0, 800, 100):
        pairs = [(f"UPDATE L SET V = '{at}' WHERE K = '{long_key(at % 150)}'", 1) for at in range(first, first + 100)]
        talk.says_together(0, pairs, is_first=True, behind=(commit, committed))
    for number, name in enumerate(BRANCHES):
        talk.calls(0, wire.START, name, 0)
        keys = range(10_000 + 10 * number, 10_010 + 10 * number)
        talk.says_together(0, [(f"INSERT INTO L VALUES ('{long_key(key)}', NULL)", 1) for key in keys], is_first=True)
        talk.calls(0, wire.END, name, 0, wire.TMSUCCESS)
        talk.calls(0, wire.PREPARE, name, 0)
    talk.works_in(0, b"last", (f"INSERT INTO L VALUES ('{long_key(20_000)}', NULL)", 1))
    talk.calls(0, wire.PREPARE, b"last", -3)


def decides(talk):
    """All of the branches are there with their claims. Every other one is committed, the rest are rolled back."""
    talk.opens(1)
    talk.asks(1, SYNCCTL, sync(RECOVER), in_doubt(*BRANCHES))
    claimed = [command(6, EXCSQLIMM, b"", sqlstt(f"INSERT INTO L VALUES ('{long_key(key)}', 'a')")) for key in range(10_000, 12_560, 37)]
    talk.says_all(1, [(one, answer(6, CLASHES)) for one in claimed])
    talk.calls(1, wire.COMMIT, b"last", -4)
    for number, name in enumerate(BRANCHES):
        talk.calls(1, ROLL_BACK if number % 2 else wire.COMMIT, name, 0)
    talk.asks(1, SYNCCTL, sync(RECOVER), in_doubt())


def reads(talk):
    talk.opens(0)
    talk.asks(0, SYNCCTL, sync(RECOVER), in_doubt())
    talk.prepares(0, "SELECT K, V FROM L")
    last = [max(number for number in range(800) if number % 150 == key) for key in range(150)]
    changed = [(key, str(number).encode()) for key, number in enumerate(last)]
    added = [(10_000 + 10 * number + at, None) for number in range(0, 256, 2) for at in range(10)]
    found = [b"\0\xc8" + long_key(key).encode() + row(0, value)[4:] for key, value in changed + added]
    talk.finds(0, 1, *found, kinds=columns(K_200, V_600), size=10_485_760)


def large_store():
    runs = []
    for said, crash in ((fills, "tears"), (decides, "loses"), (reads, "keeps"), (reads, "")):
        talk = Talk()
        said(talk)
        runs.append((talk.sent, talk.answered, crash))
    CONVERSATIONS.append(("large-store", "large", runs))


large_store()


def leaves_a_row(talk):
    talk.opens(0)
    talk.creates(0)
    talk.changes(0, "INSERT INTO T VALUES (1, 'a')", 1, True)
    talk.commits(0)
    talk.changes(0, "INSERT INTO T VALUES (2, 'b')", 1, True)


def finds_one_row(talk):
    talk.opens(0)
    talk.runs(0, "INSERT INTO T VALUES (1, 'c')", KEY_EXISTS)
    talk.changes(0, "INSERT INTO T VALUES (2, 'c')", 1, True)
    talk.commits(0)


def runs_over_one_store():
    """What was committed is there for the next run, and nothing else."""
    runs = []
    for said in leaves_a_row, finds_one_row:
        talk = Talk()
        said(talk)
        runs.append((talk.sent, talk.answered, ""))
    CONVERSATIONS.append(("runs-over-one-store", "fresh", runs))


runs_over_one_store()
