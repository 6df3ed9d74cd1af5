"""Stories of a store whose device stops: what comes in over it, and what answers that; units in doubt that are decided heuristically; what is
answered behind a fault, and the states that crashes may leave."""
import collections
import struct

from drdad_tests import event_records as events
from drdad_tests import full_stores
from drdad_tests import old_store
from drdad_tests import plain_judge
from drdad_tests import store_reader
from drdad_tests import written_conversations as written
from drdad import wire

CALLS_OF_A_RECORD = 4
FOUR_RECORDS = "four records"
BROKEN_CHECKPOINT = b"\3"

COMMIT, ROLL_BACK = 1, 2
DECISIONS = {COMMIT: "commit", ROLL_BACK: "rollback"}
# XID data of the branches that are decided heuristically.
G, R, LAID, ADDED = (struct.pack(">III", 1, len(name), 1) + name + b"B" for name in (b"G", b"R", *old_store.IN_DOUBT))

# A story: the store that it begins with, a fresh one for None; the events that this one has behind it, and the units that are decided
# heuristically then; the events that are swept, and what answers each of these.
Story = collections.namedtuple("Story", "name before sent answers begin decided", defaults=(None, ()))
# A decision that is swept: the store that it begins with, and the events behind it; the XID of the unit, and how it is decided.
Decision = collections.namedtuple("Decision", "name begin before xid decision")


def stories():
    yield Story("commits, a prepare and its decision", [], *parts_of(commits()))
    yield Story(FOUR_RECORDS, [], *parts_of(four_records()))
    yield Story("a full journal", [], *parts_of(full_stores.CONVERSATIONS["journal-full"]))
    sent, answers = parts_of(checkpoints())
    yield Story("checkpoints", [], sent, answers)
    # The same store, opened again with pages and records.
    yield Story("an opening", sent[:-6], *parts_of(decisions()))
    yield Story("a forgetting", parts_of(two_in_doubt())[0], *parts_of(forgettings()), None, ((G, COMMIT), (R, ROLL_BACK)))
    yield Story("a migration", [], *parts_of(migration()), old_store.image())


def decided():
    """Decisions that are made while a device may fail."""
    before = parts_of(two_in_doubt())[0]
    yield Decision("a heuristic commit", None, before, G, COMMIT)
    yield Decision("a heuristic rollback", None, before, R, ROLL_BACK)
    yield Decision("a heuristic commit that migrates", old_store.image(), [], ADDED, COMMIT)
    yield Decision("a heuristic rollback that migrates", old_store.image(), [], LAID, ROLL_BACK)


def parts_of(part):
    return plain_judge.event_list(part[0])[0], plain_judge.groups_of(part[1])


def commits():
    """A table and a row, each committed; a row under an XID, prepared and committed; one rolled back, and one in one phase."""
    talk = written.Talk()
    talk.opens(0)
    talk.creates(0)
    talk.changes(0, "INSERT INTO T VALUES (1, 'a')", 1, True)
    talk.commits(0)
    for name, ends in ((b"G", wire.COMMIT), (b"R", written.ROLL_BACK)):
        talk.works_in(0, name, (f"INSERT INTO T VALUES ({ends}, 'b')", 1))
        talk.calls(0, wire.PREPARE, name, 0)
        talk.calls(0, ends, name, 0)
    talk.works_in(0, b"P", ("DELETE FROM T WHERE K = 1", 1))
    talk.calls(0, wire.COMMIT, b"P", 0, written.TMONEPHASE)
    return talk.sent, talk.answered


def four_records():
    """A table and a row, each committed; a row under an XID, prepared and committed."""
    talk = written.Talk()
    talk.opens(0)
    talk.creates(0)
    talk.changes(0, "INSERT INTO T VALUES (1, 'a')", 1, True)
    talk.commits(0)
    talk.works_in(0, b"G", ("INSERT INTO T VALUES (2, 'b')", 1))
    talk.calls(0, wire.PREPARE, b"G", 0)
    talk.calls(0, wire.COMMIT, b"G", 0)
    return talk.sent, talk.answered


def claimed():
    """The row of the unit in doubt, put by another conversation."""
    talk = written.Talk()
    talk.opens(0)
    talk.runs(0, "INSERT INTO T VALUES (2, 'b')", written.CLASHES)
    return talk.sent, talk.answered


def checkpoints():
    """A unit in doubt, checkpoints into both halves, and what is recorded behind them."""
    talk = written.Talk()
    talk.opens(0)
    talk.creates(0)
    for key in range(18):
        talk.changes(0, f"INSERT INTO T VALUES ({key}, '{'v' * 480}')", 1, key == 0)
    talk.commits(0)
    talk.works_in(0, b"G", ("INSERT INTO T VALUES (100, NULL)", 1))
    talk.calls(0, wire.PREPARE, b"G", 0)
    for words in ("DELETE FROM T WHERE K = 3", "UPDATE T SET V = 'new' WHERE K = 4"):
        talk.record(events.CHECKPOINT, 0, b"", b"\0")
        talk.changes(0, words, 1, True)
        talk.commits(0)
    talk.calls(0, wire.COMMIT, b"G", 0)
    talk.record(events.CHECKPOINT, 0, b"", b"\0")
    return talk.sent, talk.answered


def decisions():
    """Behind the records of the other story: the unit in doubt is there, and is decided."""
    talk = written.Talk()
    talk.opens(0)
    talk.asks(0, written.SYNCCTL, written.sync(written.RECOVER), written.in_doubt(b"G"))
    talk.runs(0, "INSERT INTO T VALUES (100, 'a')", written.CLASHES)
    talk.calls(0, wire.COMMIT, b"G", 0)
    talk.changes(0, "UPDATE T SET V = 'decided' WHERE K = 100", 1, True)
    talk.commits(0)
    return talk.sent, talk.answered


def two_in_doubt():
    """A table and two rows, each of the rows prepared under an XID."""
    talk = written.Talk()
    talk.opens(0)
    talk.creates(0)
    for name, key in ((b"G", 1), (b"R", 2)):
        talk.works_in(0, name, (f"INSERT INTO T VALUES ({key}, 'a')", 1))
        talk.calls(0, wire.PREPARE, name, 0)
    return talk.sent, talk.answered


def forgettings():
    """Behind a heuristic commit and a heuristic rollback: both are told and forgotten, and their rows are free."""
    talk = written.Talk()
    talk.opens(0)
    talk.calls(0, wire.COMMIT, b"G", 7)
    talk.calls(0, wire.FORGET, b"G", 0)
    talk.changes(0, "UPDATE T SET V = 'b' WHERE K = 1", 1, True)
    talk.changes(0, "INSERT INTO T VALUES (2, 'b')", 1)
    talk.commits(0)
    talk.calls(0, written.ROLL_BACK, b"R", 6)
    talk.calls(0, wire.FORGET, b"R", 0)
    talk.asks(0, written.SYNCCTL, written.sync(written.RECOVER), written.in_doubt())
    return talk.sent, talk.answered


def migration():
    """Over a store of layout 1: a record, a checkpoint, which migrates it, and two records behind that."""
    talk = written.Talk()
    talk.opens(0)
    talk.changes(0, "UPDATE T SET V = 'old' WHERE K = 2", 1, True)
    talk.commits(0)
    talk.record(events.CHECKPOINT, 0, b"", b"\0")
    talk.asks(0, written.SYNCCTL, written.sync(written.RECOVER), written.in_doubt(*old_store.IN_DOUBT))
    talk.runs(0, "INSERT INTO T VALUES (100, 'a')", written.CLASHES)
    talk.calls(0, wire.COMMIT, b"laid", 0)
    talk.calls(0, written.ROLL_BACK, b"added", 0)
    return talk.sent, talk.answered


# ---- what is told and left

def joined(sent):
    return b"".join(events.record(*one) for one in sent)


def state_of(image):
    """The tables and the units in doubt of a file."""
    store = store_reader.opened(image)
    return store.tables, store.doubts


def behind_records(states):
    """The states behind each number of records, from those behind each number of events."""
    return [one for one, before in zip(states, [None, *states]) if one != before]


def answered(story, answers):
    """How many events in front are answered as ever; and what is wrong with the answers behind, which tell that the device failed."""
    at = 0
    while at < len(answers) and answers[at] == story.answers[at]:
        at += 1
    wrong, told = [], set()
    if at == len(story.answers) or len(answers) != len(story.answers):
        wrong.append(f"{len(answers)} answers, {at} of them as ever")
    for (kind, number, _), answer in zip(story.sent[at:], answers[at:]):
        if kind == events.CHECKPOINT:
            is_told = answer == [(kind, number, BROKEN_CHECKPOINT)]
        elif number in told:
            is_told = answer == [(kind, number, b""), (events.IS_CLOSED, number, b"")]
        else:
            is_told = is_broken(answer, number)
            told.add(number)
        if not is_told:
            wrong.append(f"answered by {answer} then")
    return at, wrong


def is_broken(answer, number):
    """Whether a conversation is told AGNPRMRM, last and alone, and is closed."""
    if len(answer) != 2 or answer[1] != (events.IS_CLOSED, number, b""):
        return False
    lists = plain_judge.replies_of(answer[0][2])
    return len(lists) >= 1 and [one.code for one in lists[-1]] == [wire.AGNPRMRM]
