"""The conversations of tests/, command by command: each command unchained and in an event of its own, with what answers it. The sweeps
that refuse memory send them so, and a command that found none again."""
from drdad_tests import event_records as events
from drdad_tests import full_stores
from drdad_tests import plain_judge
from drdad_tests import written_conversations as written
from drdad import wire

LONGEST = 32768


def unchained(dsss):
    """DSSs of which the last is not chained to what follows."""
    form, correlator, data = dsss[-1]
    return b"".join(written.dss(*one) for one in (*dsss[:-1], (form & ~wire.CHAINED, correlator, data)))


def lists_of(data):
    """Whole DSSs in lists, each up to the one that is not followed by one with the same correlator; None where they are not whole."""
    framing, found = plain_judge.Framing(), []
    framing.held += data
    while True:
        one = framing.next_dss()
        if one is None or isinstance(one, plain_judge.Fault):
            return found if one is None and framing.is_empty() else None
        framing.dsss.append(one)
        if not (one[0] & wire.CHAINED and one[0] & wire.SAME):
            found.append(framing.dsss)
            framing.dsss = []


def single(part):
    """The events of a conversation with each command by itself, and what answers it; None where an event is no whole commands."""
    sent, answers = plain_judge.event_list(part[0])[0], plain_judge.groups_of(part[1])
    found, broken = [], set()
    for (kind, number, data), answer in zip(sent, answers):
        if kind != events.SENDS or answer[0][0] != events.SENDS:
            found.append(((kind, number, data), answer))
            continue
        commands = lists_of(data)
        if commands is None or len(answer) > 1:
            return None
        replies = iter(plain_judge.replies_of(answer[0][2]))
        for dsss in commands:
            if number in broken:
                broken = broken if dsss[-1][0] & wire.CHAINED else broken - {number}
                continue
            given = [(one.form, one.correlator, wire_object(one)) for one in next(replies)]
            if dsss[-1][0] & wire.CHAINED and not given[-1][0] & wire.CHAINED:
                broken.add(number)
            found.append(((kind, number, unchained(dsss)), [(kind, number, unchained(given))]))
    return found


def wire_object(reply):
    """The bytes of a reply's object."""
    return written.long_ddm(reply.code, reply.data)


def conversations():
    """Those of at most 32,768 bytes whose events are whole commands, by their names."""
    kept = events.kept("vectors") | events.kept("conversations") | written.over_a_fresh_store()
    kept["checkpoints"] = checkpoints()
    for name, part in kept.items():
        talk = single(part) if len(part[0]) <= LONGEST else None
        if talk:
            yield name, talk


def journal_full():
    """A unit that has no room in the journal: it is refused by the same bytes as for want of memory, however often it is sent."""
    return single(full_stores.CONVERSATIONS["journal-full"])


def checkpoints():
    """Checkpoints of both halves, with a unit in doubt."""
    talk = written.Talk()
    talk.opens(0)
    talk.creates(0)
    talk.changes(0, "INSERT INTO T VALUES (1, 'a')", 1, True)
    talk.commits(0)
    talk.works_in(0, b"G", ("INSERT INTO T VALUES (2, NULL)", 1))
    talk.calls(0, wire.PREPARE, b"G", 0)
    for _ in range(2):
        talk.record(events.CHECKPOINT, 0, b"", b"\0")
    talk.calls(0, wire.COMMIT, b"G", 0)
    return talk.sent, talk.answered


def may_record(event):
    """Whether an event may record something: a checkpoint, a commit, or a call of XA."""
    kind, _, data = event
    commands = plain_judge.Framing().feed(data)[0] if kind == events.SENDS else []
    return kind == events.CHECKPOINT or any(command.request[2:4] in (b"\x20\x0e", b"\x10\x55") for command in commands)
