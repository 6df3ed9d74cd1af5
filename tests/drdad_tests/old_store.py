"""A store of layout 1: tests/stores/layout-1 keeps one that drdad 0.9 made, as its bytes in hexadecimal, where XX*N is the byte XX, N times."""
import re

from drdad_tests import event_records as events
from drdad_tests import written_conversations as written
from drdad import wire

KEPT = events.HERE / "stores" / "layout-1"
# Where a header has the number of its half's layout, and where the halves of a store of 2 MiB have their headers.
LAYOUT = slice(21, 25)
HEADERS = 8192, 8192 + 1_040_384
NO_LAYOUT = bytes(4)
WORD = re.compile(r"([0-9A-F]{2})\*(\d+)|([0-9A-F]+)")
# The units in doubt by the bytes of their XIDs.
IN_DOUBT = b"laid", b"added"


def image():
    """The bytes of the store."""
    words = WORD.findall(KEPT.read_text())
    return b"".join(bytes.fromhex(one) * int(count) if one else bytes.fromhex(digits) for one, count, digits in words)


def as_layout_1(store):
    """A store of 2 MiB without heuristic decisions as one of layout 1: nothing else of its bytes is another one there."""
    data = bytearray(store)
    for at in HEADERS:
        data[at + LAYOUT.start:at + LAYOUT.stop] = NO_LAYOUT
    return bytes(data)


def layouts(store):
    """The numbers of the layouts of both halves."""
    return tuple(int.from_bytes(store[at + LAYOUT.start:at + LAYOUT.stop], "big") for at in HEADERS)


def talk():
    """The conversation that made it: tables with pages, a unit in doubt that was laid at a checkpoint, one behind it, and one that is decided."""
    said = written.Talk()
    said.opens(0)
    said.creates(0)
    said.creates(0, "CREATE TABLE A (S SMALLINT NOT NULL, B BIGINT, X VARBINARY(40), PRIMARY KEY (S))")
    for at, words in enumerate((*(f"INSERT INTO T VALUES ({key}, '{'abcde'[key] * 9}')" for key in range(5)), "INSERT INTO A VALUES (-1, 7, X'00FF')")):
        said.changes(0, words, 1, at == 0)
    said.commits(0)
    said.works_in(0, b"laid", ("INSERT INTO T VALUES (100, NULL)", 1))
    said.calls(0, wire.PREPARE, b"laid", 0)
    said.record(events.CHECKPOINT, 0, b"", b"\0")
    said.changes(0, "UPDATE T SET V = 'new' WHERE K = 3", 1, True)
    said.changes(0, "DELETE FROM T WHERE K = 4", 1)
    said.commits(0)
    said.works_in(0, b"added", ("UPDATE T SET V = 'added' WHERE K = 1", 1), ("DELETE FROM A WHERE S = -1", 1))
    said.calls(0, wire.PREPARE, b"added", 0)
    said.works_in(0, b"done", ("INSERT INTO A VALUES (2, NULL, NULL)", 1))
    said.calls(0, wire.PREPARE, b"done", 0)
    said.calls(0, wire.COMMIT, b"done", 0)
    return said
