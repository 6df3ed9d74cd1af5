"""Commands of a requester as bytes, event records, and the replies by kind: what bench/commands and bench/serve send
and count. A Script is a list of commands, each added with the replies that it must have."""
import collections, os, pathlib, subprocess, sys

TOP = pathlib.Path(__file__).resolve().parents[2]
sys.path.insert(0, os.fspath(TOP / "tests"))
from drdad_tests import event_records as events
from drdad import wire

OF_WRITE = ("RDBUPDRM", "SQLCARD 0")
OF_COMMIT = ("ENDUOWRM", "SQLCARD null")
OF_ONE_BLOCK = ("OPNQRYRM", "QRYDSC", "QRYDTA", "ENDQRYRM", "SQLCARD 100")
BYTES_OF_A_RECORD = 65536


def request(code, parameters=b"", *data_objects):
    """A command with its data objects behind it."""
    return wire.command(1, wire.ddm(code, parameters), *data_objects)


def immediate(text):
    return request(wire.EXCSQLIMM, b"", wire.statement(text))


def section(number=1, rdb=b"RDB"):
    return wire.section(rdb, number)


def prepare(text, number=1):
    return request(wire.PRPSQLSTT, section(number), wire.statement(text))


def parameters(fields, data):
    """SQLDTA: pairs of a type and a length, and the bytes of the values."""
    return wire.ddm(wire.SQLDTA, wire.ddm(wire.FDODSC, wire.descriptor(tuple(fields))) + wire.ddm(wire.FDODTA, b"\0" + data))


def block_size(size):
    return wire.number_object(wire.QRYBLKSZ, size)


def sync(call, flags, xid):
    return wire.command(1, wire.sync_control(call, flags, xid))


class Script:
    """Commands one after the other, and how many replies of each kind they must have."""

    def __init__(self):
        self.data, self.wanted = bytearray(), collections.Counter()

    def add(self, command, *replies):
        self.data += command
        self.wanted.update(replies)

    def connect(self, rdb=b"RDB"):
        commands = (wire.exchange_attributes(), wire.access_security(), wire.security_check(b"ana", b"pw"), wire.access_database(rdb))
        for command, reply in zip(commands, ("EXCSATRD", "ACCSECRD", "SECCHKRM", "ACCRDBRM")):
            self.add(wire.command(1, command), reply)

    def create(self, text):
        self.add(immediate(text), *OF_WRITE)
        self.commit()

    def commit(self):
        self.add(request(wire.RDBCMM), *OF_COMMIT)

    def records(self, opens=True):
        """The commands in event records of 65,536 bytes; in front of them, if asked for, one that opens conversation 0."""
        pieces = (self.data[at:at + BYTES_OF_A_RECORD] for at in range(0, len(self.data), BYTES_OF_A_RECORD))
        return opens * events.record(events.OPENS, 0) + b"".join(events.record(events.SENDS, 0, piece) for piece in pieces)


def bytes_of_records(out):
    """The replies in the event records that a node answers; any record that closes or refuses is an end."""
    found = events.records(out)
    other = [kind for kind, _, _ in found if kind > events.SENDS]
    if other:
        raise SystemExit(f"an event record of kind {other[0]}")
    return b"".join(data for _, _, data in found)


def kind_of(code, data):
    """The name of a reply's object, with the code that it tells."""
    if code == wire.SQLCARD:
        card = wire.card(data)
        return "SQLCARD null" if card is wire.NULL_CARD else f"SQLCARD {card.sqlcode}"
    return f"SYNCCRD {wire.sync_answer(data)[0]}" if code == wire.SYNCCRD else wire.named(code)


def replies(data):
    """How many replies of each kind there are, and the bytes of rows in all QRYDTA."""
    found = collections.Counter()
    for one in wire.dsss(data):
        code, contents = wire.objects(one.contents)[0]
        found[kind_of(code, contents)] += 1
        if code == wire.QRYDTA:
            found["bytes of rows"] += len(contents)
    return found


def check(data, wanted):
    """Ends with what differs where the replies are not those that are wanted."""
    found = replies(data)
    if found != wanted:
        raise SystemExit(f"other replies than wanted: {dict(found - wanted)} too many, {dict(wanted - found)} missing")


def format_store(program, path, size, name="RDB"):
    """A fresh store in a file."""
    if os.path.exists(path):
        os.remove(path)
    subprocess.run([program, "init", path, "--size", str(size), "--rdb", name], check=True, stdout=subprocess.DEVNULL)
