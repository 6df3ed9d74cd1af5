"""Conversations that fill a store of 2 MiB, which are too long to keep as files: the records that go in, and those that
answer them, written out."""
import struct

from drdad_tests import event_records as events
from drdad import wire

ROW = "v" * 1990
BRANCH = wire.xid_bytes(1, b"G", b"B")

# The replies, as whole DSSs.
CHANGED = wire.dss(0x52, 6, bytes.fromhex("0020 2218 0006 1149 0000 0016 2110") + b"SHOP".ljust(18))
COMMITTED = bytes.fromhex("0015 D052 0007 000F 220C 0006 1149 0004 0005 2115 01 000B D003 0007 0005 2408 FF")
ROLLED_BACK = bytes.fromhex("0015 D052 0007 000F 220C 0006 1149 0004 0005 2115 02 000B D003 0007 0005 2408 FF")
NO_ROOM = bytes.fromhex("0010 D002 000C 000A 1233 0006 1149 0008")
XA_OK = bytes.fromhex("0012 D003 0010 000C 1248 0008 1904 00000000")


def card(code, state, rows):
    """An SQLCARD with texts of no bytes."""
    numbers = struct.pack(">6i", 0, 0, rows, 0, 0, 0)
    body = b"\0" + struct.pack(">i", code) + state + b"RDA01000\0" + numbers + b" " * 11 + bytes(6) + b"\xff"
    return wire.dss(wire.OBJECT, 6, wire.ddm(wire.SQLCARD, body))


def run(text):
    """EXCSQLIMM of a statement, with the correlator 6."""
    return wire.command(6, wire.ddm(wire.EXCSQLIMM), wire.statement(text))


def ask(correlator, code, parameters=b""):
    return wire.command(correlator, wire.ddm(code, parameters))


def branch(call, flags=None):
    """A call of XA on the branch with the global part G and the branch part B."""
    named = wire.number_object(wire.SYNCTYPE, call, 1) + wire.ddm(wire.XID, BRANCH)
    return ask(16, wire.SYNCCTL, named + (wire.number_object(wire.XAFLAGS, flags) if flags else b""))


def inserted(key, value):
    return run(f"INSERT INTO B VALUES ({key}, '{value}')")


class Story:
    """Conversations as they go on: what is sent, and what answers it."""

    def __init__(self):
        self.sent = self.answered = b""

    def opens(self, number):
        """A conversation opens, and the database in one piece, as that of tests/vectors/connected does in two."""
        sent, answered = (events.records(data) for data in events.kept("vectors")["connected"])
        for kind in (events.OPENS, events.SENDS):
            self.sent += joined(sent, kind, number)
            self.answered += joined(answered, kind, number)

    def sends(self, number, request, reply):
        self.sent += events.record(events.SENDS, number, request)
        self.answered += events.record(events.SENDS, number, reply)

    def creates(self):
        """The first conversation creates the table and commits it."""
        create = run("CREATE TABLE B (K INTEGER NOT NULL, V VARCHAR(2000), PRIMARY KEY (K))")
        self.sends(0, create + ask(7, wire.RDBCMM), CHANGED + card(0, b"00000", 0) + COMMITTED)

    def inserts(self, count):
        """And inserts so many rows in one unit."""
        for key in range(count):
            self.sends(0, inserted(key, ROW), (b"" if key else CHANGED) + card(0, b"00000", 1))


def joined(records, kind, number):
    return events.record(kind, number, b"".join(data for found, _, data in records if found == kind))


def journal_full():
    """A branch is prepared. A unit that has no room beside it is answered that there is none, and can be rolled back; the
    branch is decided all the same."""
    story = Story()
    story.opens(0)
    story.opens(1)
    story.creates()
    story.sends(1, branch(wire.START), XA_OK)
    story.sends(1, inserted(1000, "q"), CHANGED + card(0, b"00000", 1))
    story.sends(1, branch(wire.END, wire.TMSUCCESS), XA_OK)
    story.sends(1, branch(wire.PREPARE), XA_OK)
    story.inserts(520)
    story.sends(0, ask(12, wire.RDBCMM), NO_ROOM)
    story.sends(1, branch(wire.COMMIT), XA_OK)
    story.sends(0, ask(7, wire.RDBRLLBCK), ROLLED_BACK)
    return story.sent, story.answered


def limit_changes():
    """A unit whose changes are of as many bytes as a unit may have: a row with one byte more is refused, that row is not."""
    story = Story()
    story.opens(0)
    story.creates()
    story.inserts(523)
    story.sends(0, inserted(523, "v" * 995), card(-904, b"57011", 0))
    story.sends(0, inserted(523, "v" * 994), card(0, b"00000", 1))
    story.sends(0, ask(12, wire.RDBCMM), NO_ROOM)
    return story.sent, story.answered


CONVERSATIONS = {"journal-full": journal_full(), "limit-changes": limit_changes()}
