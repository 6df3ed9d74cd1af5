"""What docs/PROTOCOL.md says of event records, framing, chains, stages and refused commands, as a plain program beside the server: it
reads what comes in and the answers, whatever bytes they are, and says what is wrong with them."""
from collections import namedtuple

from drdad_tests import event_records as events
from drdad import wire

MOST_OF_DSS, MOST_OF_EVENT, MOST_OBJECTS, PLACES = 1_048_576, 65_536, 8, 64
RDB = b"SHOP"
ERROR, DAMAGE = wire.ERROR, wire.PERMANENT_DAMAGE
# What is answered besides reply messages.
DATA = {wire.EXCSATRD, wire.ACCSECRD, wire.SQLCARD, wire.SQLDARD, wire.QRYDSC, wire.QRYDTA, wire.SYNCCRD}
# Reply messages, and the severities that they have.
SEVERITIES = {
    wire.SECCHKRM: {0, 8}, wire.ACCRDBRM: {0}, wire.SYNTAXRM: {8}, wire.CMDNSPRM: {8}, wire.VALNSPRM: {8}, wire.PRCCNVRM: {8},
    wire.RSCLMTRM: {8}, wire.RDBACCRM: {8}, wire.RDBNACRM: {8}, wire.RDBNFNRM: {8}, wire.ENDUOWRM: {4}, wire.RDBUPDRM: {0},
    wire.OPNQRYRM: {0}, wire.ENDQRYRM: {4}, wire.OPNQFLRM: {8}, wire.CMDVLTRM: {8}, wire.QRYNOPRM: {8}, wire.QRYPOPRM: {8},
    wire.MGRDEPRM: {8}, wire.AGNPRMRM: {64},
}

# Refusals that the bytes of a command and its stage call for, and nothing else does.
BY_BYTES = {wire.SYNTAXRM, wire.CMDNSPRM, wire.PRCCNVRM, wire.RDBNACRM, wire.RDBACCRM, wire.VALNSPRM}

Command = namedtuple("Command", "correlator is_chained goes_on request objects")
Fault = namedtuple("Fault", "code correlator")


class Wrong(Exception):
    """An answer that is none by the tables."""


def check(is_so, said):
    if not is_so:
        raise Wrong(said)


# ---- what comes in

def is_head(kind, size):
    """Whether an event may begin so."""
    return size <= MOST_OF_EVENT if kind == events.SENDS else kind in (events.OPENS, events.IS_LOST, events.CHECKPOINT) and size == 0


def event_list(data):
    """The events that a stream begins with, and whether the rest of it is a bad event; a rest of nothing is none."""
    found, at = [], 0
    while len(data) - at >= events.HEAD.size:
        kind, number, size = events.HEAD.unpack_from(data, at)
        if not is_head(kind, size) or len(data) - at - events.HEAD.size < size:
            return found, True
        found.append((kind, number, data[at + events.HEAD.size:at + events.HEAD.size + size]))
        at += events.HEAD.size + size
    return found, at < len(data)


class Framing:
    """The commands of one conversation, as their bytes come, up to the first fault."""

    def __init__(self):
        self.held, self.dsss = bytearray(), []

    def is_empty(self):
        return not self.held and not self.dsss

    def feed(self, data):
        """The commands that these bytes complete, and the fault that they show or None."""
        self.held += data
        found = []
        while True:
            one = self.next_dss()
            if one is None or isinstance(one, Fault):
                return found, one
            self.dsss.append(one)
            form = one[0]
            if not (form & wire.CHAINED and form & wire.SAME):
                (begins, correlator, request), *objects = self.dsss
                is_chained, goes_on = bool(form & wire.CHAINED), bool(begins & wire.GOES_ON)
                found.append(Command(correlator, is_chained, goes_on, request, [data for _, _, data in objects]))
                self.dsss = []

    def next_dss(self):
        held = self.held
        if len(held) < 6:
            return None
        length, mark, form, correlator = wire.HEADER.unpack_from(held)
        code = self.header_fault(length & 0x7FFF, mark, form, correlator)
        if code:
            return Fault(code, correlator)
        total, more, size = length & 0x7FFF, length & wire.CONTINUED, length & 0x7FFF
        pieces, place = [(6, size)], size
        while more:
            if len(held) - place < 2:
                return None
            length = int.from_bytes(held[place:place + 2], "big")
            more, size = length & wire.CONTINUED, length & 0x7FFF
            total += size
            if total > MOST_OF_DSS or size <= 2:
                return Fault(0x09 if total > MOST_OF_DSS else 0x16, correlator)
            pieces.append((place + 2, place + size))
            place += size
        if len(held) < place:
            return None
        contents = b"".join(bytes(held[low:high]) for low, high in pieces)
        del held[:place]
        return form, correlator, contents

    def header_fault(self, length, mark, form, correlator):
        if length < 6:
            return 0x01
        if mark != 0xD0:
            return 0x03
        if form & 0x80 or form & 0x0F not in (wire.REQUEST, wire.OBJECT):
            return 0x04
        if form & wire.SAME and not form & wire.CHAINED:
            return 0x18
        wanted = (wire.OBJECT, self.dsss[0][1]) if self.dsss else (wire.REQUEST, correlator)
        return 0 if (form & 0x0F, correlator) == wanted else 0x13


# ---- objects and refusals

class Refused(Exception):
    """A refusal: the code point of its message, and its SYNERRCD or CODPNT."""


def syntax(code):
    return Refused(wire.SYNTAXRM, code)


def object_at(data, at):
    """The object at a place: its code point, its data, and its end."""
    left = len(data) - at
    if left < 2:
        raise syntax(0x08)
    length = int.from_bytes(data[at:at + 2], "big")
    if length & wire.CONTINUED:
        head = length & 0x7FFF
        if head not in (8, 10, 12):
            raise syntax(0x0C)
        if left < head:
            raise syntax(0x08)
        length = head + int.from_bytes(data[at + 4:at + head], "big")
    else:
        head = 4
        if length < 4:
            raise syntax(0x07)
    if left < head or length > left:
        raise syntax(0x08)
    return int.from_bytes(data[at + 2:at + 4], "big"), data[at + head:at + length], at + length


def objects_of(data, judges={}):
    """The objects of a list; each of a code point in `judges` is judged inside where it stands."""
    found, at = [], 0
    while at < len(data):
        code, inside, at = object_at(data, at)
        if code in judges:
            judges[code](inside)
        found.append((code, inside))
    return found


def judge_texts(data):
    """SQLSTT and SQLATTR: two texts, each absent or behind its length, and nothing behind them."""
    at = 0
    for _ in range(2):
        if data[at:at + 1] == b"\xff":
            at += 1
            continue
        size = int.from_bytes(data[at + 1:at + 5], "big")
        if data[at:at + 1] != b"\0" or len(data) < at + 5 + size:
            raise syntax(0x0B)
        at += 5 + size
    if at != len(data):
        raise syntax(0x0B)


TYPES = {wire.TYPDEFNAM, wire.TYPDEFOVR}
INSIDE = {wire.TYPDEFOVR: objects_of, wire.SQLSTT: judge_texts, wire.SQLATTR: judge_texts, wire.SQLDTA: objects_of}


def number_in(size, values):
    return lambda data: len(data) == size and int.from_bytes(data, "big") in values


def is_name_of_types(data):
    return data.rstrip(b" ") == wire.TYPES_OF_DATA or data.rstrip(b"\x40") == wire.TYPES_OF_DATA.decode().encode("cp500")


def are_encodings(data):
    parts = objects_of(data)
    return all(inside == (1208).to_bytes(2, "big") for code, inside in parts if code in (wire.CCSIDSBC, wire.CCSIDMBC))


# Of each value, which ones are supported; what is said of names here is what is surely supported, or surely not.
VALUES = {
    wire.MGRLVLLS: lambda data: len(data) % 4 == 0,
    wire.SECMEC: lambda data: len(data) == 2,
    wire.TYPDEFNAM: is_name_of_types,
    wire.TYPDEFOVR: are_encodings,
    wire.PKGNAMCSN: lambda data: 64 <= len(data) <= 791,
    wire.QRYBLKSZ: number_in(4, range(512, 10_485_761)),
    wire.QRYINSID: lambda data: len(data) == 8,
    wire.RTNSQLDA: number_in(1, (0xF0, 0xF1)),
    wire.TYPSQLDA: number_in(1, range(6)),
    wire.SYNCTYPE: number_in(1, (1, 4, 6, 7, 9, 0x0B, 0x0C)),
}

# Of each command, its parameters and data objects, in the order of the tables, and which of them are required.
READ = {
    wire.EXCSAT: ([wire.MGRLVLLS], []),
    wire.ACCSEC: ([wire.SECMEC, wire.RDBNAM], []),
    wire.SECCHK: ([wire.SECMEC, wire.USRID, wire.PASSWORD], []),
    wire.ACCRDB: ([wire.RDBNAM, wire.TYPDEFNAM, wire.TYPDEFOVR], []),
    wire.EXCSQLIMM: ([], [wire.SQLSTT]),
    wire.PRPSQLSTT: ([wire.PKGNAMCSN, wire.RTNSQLDA, wire.TYPSQLDA], [wire.SQLSTT, wire.SQLATTR]),
    wire.DSCSQLSTT: ([wire.PKGNAMCSN, wire.TYPSQLDA], []),
    wire.EXCSQLSTT: ([wire.PKGNAMCSN], [wire.SQLDTA]),
    wire.OPNQRY: ([wire.PKGNAMCSN, wire.QRYBLKSZ], [wire.SQLDTA]),
    wire.CNTQRY: ([wire.PKGNAMCSN, wire.QRYBLKSZ, wire.QRYINSID], []),
    wire.CLSQRY: ([wire.PKGNAMCSN, wire.QRYINSID], []),
    wire.RDBCMM: ([], []),
    wire.RDBRLLBCK: ([], []),
    wire.SYNCCTL: ([wire.SYNCTYPE, wire.XID, wire.XAFLAGS], []),
}
REQUIRED = {
    wire.ACCSEC: {wire.SECMEC}, wire.SECCHK: {wire.SECMEC}, wire.ACCRDB: {wire.RDBNAM, wire.TYPDEFNAM}, wire.EXCSQLIMM: {wire.SQLSTT},
    wire.PRPSQLSTT: {wire.PKGNAMCSN, wire.SQLSTT}, wire.DSCSQLSTT: {wire.PKGNAMCSN}, wire.EXCSQLSTT: {wire.PKGNAMCSN},
    wire.OPNQRY: {wire.PKGNAMCSN, wire.QRYBLKSZ}, wire.CNTQRY: {wire.PKGNAMCSN}, wire.CLSQRY: {wire.PKGNAMCSN},
    wire.SYNCCTL: {wire.SYNCTYPE},
}

FRESH, KNOWN, MECHANISM_CHOSEN, CHECKED, OPENED = range(5)
ALLOWED = {wire.ACCSEC: (KNOWN, MECHANISM_CHOSEN, CHECKED), wire.SECCHK: (MECHANISM_CHOSEN,), wire.ACCRDB: (CHECKED,)}


def refusal_of_stage(code, stage):
    if code == wire.EXCSAT or stage in ALLOWED.get(code, (OPENED,)):
        return None
    if code not in ALLOWED:
        return wire.RDBNACRM
    return wire.RDBACCRM if code == wire.ACCRDB and stage == OPENED else wire.PRCCNVRM


def judge_command(command, stage):
    """Raises the refusal of a command, as far as it is one by its bytes and the stage; gives its code point."""
    if not command.request:
        raise syntax(0x0E)
    code, inside, end = object_at(command.request, 0)
    if end < len(command.request):
        raise syntax(0x0B)
    if code not in READ:
        raise Refused(wire.CMDNSPRM, code)
    by_stage = refusal_of_stage(code, stage)
    if by_stage:
        raise Refused(by_stage, None)
    parameters, data_objects = READ[code]
    data_objects = [*data_objects, wire.TYPDEFNAM, wire.TYPDEFOVR]
    here = objects_of(inside, judges_of(parameters))
    there = [one for data in command.objects for one in objects_of(data, judges_of(data_objects))]
    if len(there) > MOST_OBJECTS:
        raise syntax(0x0F)
    read = [(one, named_in(here, one)) for one in parameters] + [(one, named_in(there, one)) for one in data_objects]
    judge_items(REQUIRED.get(code, ()), read)
    return code


def named_in(parts, code):
    return [data for found, data in parts if found == code]


def judges_of(items):
    return {one: judge for one, judge in INSIDE.items() if one in items}


def judge_items(required, read):
    for one, found in read:
        if len(found) > 1 or found and is_twice_inside(one, found[0]):
            raise syntax(0x12)
    # TYPDEFNAM is required as a parameter, and stands there before it does as a data object.
    seen = set()
    for one, found in read:
        is_missing = not found or one == wire.SQLSTT and found[0] == b"\xff\xff"
        if one in required and one not in seen and is_missing:
            raise syntax(0x0E)
        seen.add(one)
    refused = [one for one, found in read if found and one in VALUES and not VALUES[one](found[0])]
    if refused:
        # TYPDEFNAM and TYPDEFOVR as data objects are not ordered by the tables.
        raise Refused(wire.VALNSPRM, {refused[0]} if refused[0] not in TYPES else set(refused))


ONCE_INSIDE = {wire.TYPDEFOVR: (wire.CCSIDSBC, wire.CCSIDMBC), wire.SQLDTA: (wire.FDODSC, wire.FDODTA)}


def is_twice_inside(code, data):
    if code not in ONCE_INSIDE:
        return False
    found = [part for part, _ in objects_of(data) if part in ONCE_INSIDE[code]]
    return len(found) != len(set(found))


# ---- what is answered

Reply = namedtuple("Reply", "form correlator code data severity")


def replies_of(data):
    """The replies that bytes are, in lists: one for each command."""
    lists, last = [], None
    try:
        for form, correlator, contents in wire.dsss(data):
            parts = wire.objects(contents)
            check(len(parts) == 1, "a reply is not one object")
            code, inside = parts[0]
            if code in DATA:
                check(form & 0x0F == wire.OBJECT, f"{wire.named(code)} is no object DSS")
                severity = 0
            else:
                check(code in SEVERITIES and form & 0x0F == wire.REPLY, f"a reply {wire.named(code)} in a DSS of form {form:02X}")
                wire.objects(inside)
                severity = wire.severity(code, inside)
                check(severity in SEVERITIES[code], f"{wire.named(code)} with the severity {severity}")
            if code == wire.SQLCARD:
                check(inside == b"\xff" or len(inside) == 61, "an SQLCARD of another length")
                wire.card(inside)
            one = Reply(form, correlator, code, inside, severity)
            if last is not None and last.form & wire.SAME:
                check(correlator == last.correlator, "another correlator in the replies to a command")
                lists[-1].append(one)
            else:
                lists.append([one])
            last = one
    except wire.WireFault as fault:
        raise Wrong(f"the replies are malformed: {fault}") from fault
    check(last is None or not last.form & wire.SAME, "the replies to a command are cut off")
    return lists


def messages_of(code, what):
    """The data that a refusal may have, of this SYNERRCD, code point, or one of several code points; of a stage the database's name
    in the one encoding or the other."""
    if code == wire.SYNTAXRM:
        more = [wire.number_object(wire.SYNERRCD, what, 1)]
    elif code in (wire.CMDNSPRM, wire.VALNSPRM):
        more = [wire.number_object(wire.CODPNT, one, 2) for one in ({what} if code == wire.CMDNSPRM else what)]
    elif code == wire.PRCCNVRM:
        more = [b""]
    else:
        more = [wire.ddm(wire.RDBNAM, name) for name in (RDB.ljust(18), RDB.ljust(18).decode().encode("cp500"))]
    return [wire.number_object(wire.SVRCOD, ERROR, 2) + one for one in more]


def told(reply, code):
    """What a reply message says of a parameter."""
    return wire.find(wire.objects(reply.data), code)


class Conversation:
    """One conversation, judged event by event."""

    def __init__(self):
        self.framing, self.stage, self.is_broken, self.is_closed = Framing(), FRESH, False, False

    def judge(self, sent, data):
        """Judges the replies to some bytes, and gives them, a list for each command."""
        lists = replies_of(data)
        left = iter(lists)
        commands, fault = ([], None) if self.is_closed else self.framing.feed(sent)
        for command in commands:
            if self.is_broken:
                self.is_broken = command.is_chained
                continue
            replies = next(left, None)
            check(replies is not None, "a command is not answered")
            if self.judge_replies(command, replies):
                self.is_closed, fault = True, None
                break
        if fault:
            replies = next(left, None)
            check(replies is not None and len(replies) == 1, "a fault of the framing is not answered")
            one = replies[0]
            self.is_closed = True
            is_fault = (one.form, one.correlator, one.code) == (wire.REPLY, fault.correlator, wire.SYNTAXRM)
            is_told = is_fault and one.data in messages_of(wire.SYNTAXRM, fault.code)
            check(is_told, f"SYNERRCD {fault.code:02X} of the framing was due")
        check(next(left, None) is None, "more is answered than was asked")
        return lists

    def front_of(self, sent, lists):
        """Those of the lists of replies that the commands in a front of some bytes are due."""
        found, left = [], iter(lists)
        for command in self.framing.feed(sent)[0]:
            if self.is_broken:
                self.is_broken = command.is_chained
            else:
                found.append(next(left))
                self.judge_replies(command, found[-1])
        return found

    def judge_replies(self, command, replies):
        """Judges the replies to a command, and says whether they close the conversation."""
        worst = max(one.severity for one in replies)
        breaks = worst >= DAMAGE or worst >= ERROR and not command.goes_on
        self.is_broken = breaks and command.is_chained
        for one in replies[:-1]:
            check(one.form & 0x70 == wire.CHAINED | wire.SAME, "a reply that is not the last has another form")
        due = wire.CHAINED if command.is_chained and not breaks else 0
        check(replies[-1].form & 0x70 == due, "the last reply is chained otherwise")
        check(replies[0].correlator == command.correlator, "another correlator than the command's")
        self.judge_refusal(command, replies)
        return worst >= DAMAGE

    def judge_refusal(self, command, replies):
        first = replies[0]
        try:
            code = judge_command(command, self.stage)
        except Refused as refusal:
            wanted, number = refusal.args
            check(len(replies) == 1 and first.code == wanted, f"{wire.named(wanted)} {number} was due, and not {wire.named(first.code)}")
            check(first.data in messages_of(wanted, number), f"{wire.named(wanted)} {number} is told otherwise: {first.data.hex()}")
            return
        check(first.code not in BY_BYTES, f"{wire.named(first.code)} was not due")
        self.go_on(code, first)

    def go_on(self, code, reply):
        if code == wire.EXCSAT:
            self.stage = max(self.stage, KNOWN)
        elif reply.code == wire.ACCSECRD and wire.SECCHKCD not in dict(wire.objects(reply.data)):
            self.stage = MECHANISM_CHOSEN
        elif reply.code == wire.SECCHKRM and told(reply, wire.SECCHKCD) == b"\0":
            self.stage = CHECKED
        elif reply.code == wire.ACCRDBRM:
            self.stage = OPENED


def is_refused(lists):
    """Whether all that commands were answered are refusals, which leave the state as it was: messages of severity 8, and statements
    that are refused."""
    def is_refusal(replies):
        return replies[0].severity == ERROR or replies[0].code == wire.SQLCARD and wire.card(replies[0].data).sqlcode < 0
    return all(map(is_refusal, lists))


def groups_of(data):
    """The answers to each event: one record, or the replies and that the conversation is closed."""
    found = []
    for one in events.records(data):
        if one[0] == events.IS_CLOSED:
            check(found and found[-1][0][0] == events.SENDS and len(found[-1]) == 1, "closed without replies")
            found[-1].append(one)
        else:
            found.append([one])
    return found


class Judge:
    """Conversations side by side, judged event by event."""

    def __init__(self):
        self.conversations = {}

    def step(self, event, answer):
        """Judges the answer to the next event, and gives what its commands were answered, as lists of replies."""
        (kind, number, data), is_open = event, event[1] in self.conversations
        if kind == events.CHECKPOINT:
            check(answer[0][:2] == (kind, number) and len(answer) == 1, "a checkpoint is answered otherwise")
            return []
        wanted, lists = (events.IS_REFUSED, number, b"\1" if kind == events.OPENS else b"\2"), []
        if kind == events.OPENS and not is_open and number < PLACES:
            self.conversations[number], wanted = Conversation(), (kind, number, b"")
        elif is_open and kind == events.IS_LOST:
            del self.conversations[number]
            wanted = kind, number, b""
        elif is_open and kind == events.SENDS:
            check(answer[0][:2] == (kind, number), "bytes are answered otherwise")
            wanted, lists = answer[0], self.conversations[number].judge(data, answer[0][2])
        # One that is closed keeps its number until it is lost, and hears nothing more.
        is_closed = is_open and kind == events.SENDS and self.conversations[number].is_closed
        due = [wanted, *([(events.IS_CLOSED, number, b"")] if is_closed else [])]
        check(answer == due, f"an event {kind:02X} is answered by {answer[0][:2]}")
        return lists

    def is_between_commands(self, number):
        """Whether a conversation is open, and nothing under way in it."""
        one = self.conversations.get(number)
        return one is not None and one.framing.is_empty() and not one.is_broken and not one.is_closed
