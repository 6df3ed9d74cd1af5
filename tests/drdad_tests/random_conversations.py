"""Random conversations, each beside a plain program that says what has to be answered: tables of two columns, units with claims,
the table of X/Open XA, lost conversations and crashes, by docs/SQL.md and docs/XA.md. CONVERSATIONS is as in
tests/drdad_tests/written_conversations.py. The same lists come at each run."""
import random, struct

from drdad_tests import event_records as events
from drdad_tests import written_conversations as written
from drdad import wire

STORIES, RUNS, CALLS = 200, 2, 20
TABLES, KEYS, PLACES, BRANCHES = ("T0", "T1"), range(4), range(3), (b"A", b"C", b"D")
JOIN, SUSPEND, RESUME, FORGET = 0x00200000, 0x02000000, 0x08000000, 0x06
ACTIVE, IDLE, PREPARED, ROLLBACK_ONLY = "active", "idle", "prepared", "rollback only"
PREPARES, COMMITS, ENDS = (wire.PREPARE, None), (wire.COMMIT, None), (wire.END, wire.TMSUCCESS)
ONE_PHASE, ROLLS_BACK, JOINS = (wire.COMMIT, written.TMONEPHASE), (written.ROLL_BACK, None), (wire.START, JOIN)
ANY = ((wire.START, None), JOINS, (wire.START, RESUME), ENDS, (wire.END, SUSPEND), (wire.END, written.TMFAIL), PREPARES, COMMITS, ONE_PHASE,
       ROLLS_BACK, (FORGET, None))
# What has something to do for a branch in each state.
LIKELY = {
    None: ((wire.START, None),),
    ACTIVE: (ENDS, ENDS, ENDS, (wire.END, SUSPEND), (wire.END, written.TMFAIL)),
    IDLE: (PREPARES, PREPARES, PREPARES, ONE_PHASE, ROLLS_BACK, JOINS, (wire.START, RESUME), ENDS),
    PREPARED: (COMMITS, COMMITS, ROLLS_BACK, (FORGET, None), PREPARES),
    ROLLBACK_ONLY: (PREPARES, ONE_PHASE, ROLLS_BACK, JOINS, ENDS),
}
VIOLATION = written.named(0x221D, 8)


class Unit:
    """Its claims, as (is for writing, table, key, or None for all of it), and its changes, as (table, key) to a value or None."""

    def __init__(self):
        self.claims, self.changes = set(), {}

    def has_work(self):
        return bool(self.claims or self.changes)


class Branch:
    def __init__(self, last):
        self.unit, self.state, self.last = Unit(), ACTIVE, last


def clash(one, other):
    return (one[0] or other[0]) and one[1] == other[1] and (one[2] is None or other[2] is None or one[2] == other[2])


class Core:
    """The committed rows by (table, key), the local units by conversation, and the branches by name."""

    def __init__(self):
        self.rows, self.local, self.branches = {}, {}, {}

    def joined(self, place):
        return next((name for name, one in self.branches.items() if one.state == ACTIVE and one.last == place), None)

    def unit(self, place):
        name = self.joined(place)
        return self.branches[name].unit if name else self.local.setdefault(place, Unit())

    def claims(self, place, claim):
        """Whether the unit of a conversation gets a claim."""
        mine = self.unit(place)
        others = [one for one in (*self.local.values(), *(branch.unit for branch in self.branches.values())) if one is not mine]
        if any(clash(claim, held) for one in others for held in one.claims):
            return False
        mine.claims.add(claim)
        return True

    def view(self, place, table):
        rows = {key: value for (of, key), value in self.rows.items() if of == table}
        for (of, key), value in self.unit(place).changes.items():
            if of == table:
                rows[key] = value
        return {key: value for key, value in sorted(rows.items()) if value is not None}

    def ends(self, unit, is_committed):
        for at, value in unit.changes.items() if is_committed else ():
            self.rows[at] = value

    def loses(self, place):
        self.local.pop(place, None)
        for name in [name for name, one in self.branches.items() if one.last == place and one.state != PREPARED]:
            del self.branches[name]

    def crashes(self):
        self.local = {}
        self.branches = {name: one for name, one in self.branches.items() if one.state == PREPARED}
        for one in self.branches.values():
            one.last = None

    def due(self, place, call, flags, name):
        """The code of a call of XA, which is made."""
        known = self.branches.get(name)
        if call == wire.START:
            return self.begins(place, name, known) if flags is None else self.joins(place, known)
        if known is None:
            return -4
        if call == wire.END:
            return self.leaves(place, known, flags)
        if call == FORGET:
            return -6
        return self.decides(name, known, call, flags)

    def begins(self, place, name, known):
        if known is not None:
            return -8
        if self.joined(place):
            return -6
        if self.unit(place).has_work():
            return -9
        self.branches[name] = Branch(place)
        return 0

    def joins(self, place, known):
        if known is None:
            return -4
        if self.joined(place):
            return -6
        if self.unit(place).has_work():
            return -9
        if known.state != IDLE:
            return 100 if known.state == ROLLBACK_ONLY else -6
        known.state, known.last = ACTIVE, place
        return 0

    def leaves(self, place, known, flags):
        if known.state not in (ACTIVE, IDLE) or known.last != place:
            return -6
        known.state = ROLLBACK_ONLY if flags == written.TMFAIL else IDLE
        return 0

    def decides(self, name, known, call, flags):
        is_two_phase = call == wire.COMMIT and flags is None
        if known.state == ACTIVE or known.state == PREPARED and (call == wire.PREPARE or flags) or is_two_phase and known.state != PREPARED:
            return -6
        if known.state == ROLLBACK_ONLY and call != written.ROLL_BACK:
            del self.branches[name]
            return 100
        if call == wire.PREPARE and known.unit.changes:
            known.state = PREPARED
            return 0
        del self.branches[name]
        self.ends(known.unit, call == wire.COMMIT)
        return 3 if call == wire.PREPARE else 0


class Story(written.Talk):
    """A run: the conversations over a core, and which of them have told of a change of their unit."""

    def __init__(self, core, chance):
        super().__init__()
        self.core, self.chance, self.told, self.instances = core, chance, set(), {}

    def record(self, kind, conversation, sent=b"", answered=b""):
        """An event, now and then in two pieces, of which the first is no whole command."""
        cut = self.chance.randrange(1, len(sent)) if kind == events.SENDS and self.chance.random() < 0.2 else 0
        if cut and conversation in self.instances:
            super().record(kind, conversation, sent[:cut])
            sent = sent[cut:]
        super().record(kind, conversation, sent, answered)

    def opens(self, place):
        super().opens(place)
        self.instances[place] = 0
        for number, table in enumerate(TABLES):
            self.prepares(place, f"SELECT * FROM {table}", 2 * number + 1)
            self.prepares(place, f"SELECT V, K FROM {table} WHERE K = ?", 2 * number + 2)

    def changes_rows(self, place, words, count):
        updates = [] if place in self.told else [written.UPDATED]
        self.told.add(place)
        self.runs(place, words, *updates, written.card(rows=count) if count else written.NO_ROW_MORE)

    def writes(self, place, table, key, value, is_insert):
        """An INSERT, or the UPDATE (DELETE, where there is no value) of a key's row or of all rows."""
        core, given = self.core, "NULL" if value == "" else f"'{value}'"
        where = "" if key is None else f" WHERE {key} = K"
        words = f"DELETE FROM {table}{where}" if value is None else f"UPDATE {table} SET V = {given}{where}"
        words = f"INSERT INTO {table} (V, K) VALUES ({given}, {key})" if is_insert else words
        if not core.claims(place, (True, table, key)):
            return self.runs(place, words, written.CLASHES)
        rows = core.view(place, table)
        if is_insert and key in rows:
            return self.runs(place, words, written.KEY_EXISTS)
        changed = [key] if is_insert else [one for one in rows if key in (None, one)]
        for one in changed:
            core.unit(place).changes[table, one] = value
        return self.changes_rows(place, words, len(changed))

    def reads(self, place, table, key):
        section = 2 * TABLES.index(table) + (1 if key is None else 2)
        objects = [] if key is None else [written.parameters(key)]
        if not self.core.claims(place, (False, table, key)):
            sized = written.section(section) + written.number(written.QRYBLKSZ, 65536)
            return self.asks(place, written.OPNQRY, sized, written.NOT_OPENED, written.CLASHES, objects=objects)
        self.instances[place] += 1
        rows = [(one, value.encode() or None) for one, value in self.core.view(place, table).items() if key in (None, one)]
        found = [written.row(*one) if key is None else written.row(*one)[4:] + written.row(*one)[:4] for one in rows]
        kinds = written.T if key is None else written.columns(written.VARCHAR, written.INTEGER)
        return self.finds(place, self.instances[place], *found, place=section, kinds=kinds, objects=objects)

    def ends_local(self, place, is_committed):
        code, replies = (wire.RDBCMM, written.COMMITTED) if is_committed else (wire.RDBRLLBCK, written.ROLLED_BACK)
        if self.core.joined(place):
            return self.asks(place, code, b"", VIOLATION)
        self.core.ends(self.core.local.pop(place, Unit()), is_committed)
        self.told.discard(place)
        return self.asks(place, code, b"", *replies)

    def asks_xa(self, place, call, flags, name):
        code = self.core.due(place, call, flags, name)
        if code == 0 and call in (wire.START, wire.END):
            self.told.discard(place)
        self.calls(place, call, name, code, flags)

    def recovers(self, place):
        names = sorted(name for name, one in self.core.branches.items() if one.state == PREPARED)
        self.asks(place, written.SYNCCTL, written.sync(written.RECOVER), written.in_doubt(*names))

    def loses(self, place):
        super().record(events.IS_LOST, place)
        self.core.loses(place)
        self.told.discard(place)
        del self.instances[place]

    def calls_xa(self, place):
        """A call of XA: mostly one that has something to do, and now and then any."""
        known = sorted(self.core.branches)
        name = self.chance.choice(known if known and self.chance.random() < 0.9 else BRANCHES)
        state = self.core.branches[name].state if name in known else None
        call, flags = self.chance.choice(LIKELY[state] if self.chance.random() < 0.8 else ANY)
        last = self.core.branches[name].last if name in known else None
        idle = [one for one in self.instances if not (self.core.joined(one) or self.core.unit(one).has_work())]
        fit = {wire.END: [last] if last in self.instances else [], wire.START: idle}.get(call)
        self.asks_xa(self.chance.choice(fit) if fit and self.chance.random() < 0.8 else place, call, flags, name)

    def goes_on(self):
        """One call of a conversation that is open, or that opens now."""
        chance, place = self.chance, self.chance.choice(PLACES)
        if place not in self.instances:
            return self.opens(place)
        table, key = chance.choice(TABLES), chance.choice((*KEYS, *KEYS, None))
        value, step = chance.choice("abcd") * chance.randrange(4), chance.random()
        if self.core.joined(place) and not self.core.unit(place).changes:
            step /= 2
        if step < 0.20:
            return self.writes(place, table, key or 0, value, True)
        if step < 0.33:
            return self.writes(place, table, key, None if chance.random() < 0.4 else value, False)
        if step < 0.44:
            return self.reads(place, table, key)
        if step < 0.58:
            return self.ends_local(place, chance.random() < 0.7)
        if step < 0.95:
            return self.calls_xa(place)
        return self.recovers(place) if step < 0.985 else self.loses(place)


def story(number):
    """The runs of a story, with a crash behind each but the last."""
    chance, core, runs = random.Random(number), Core(), []
    for run in range(RUNS):
        said = Story(core, chance)
        if run == 0:
            said.opens_first()
        else:
            said.opens(0)
            said.recovers(0)
        for _ in range(CALLS):
            said.goes_on()
        crash = chance.choice(("loses", "keeps", "tears")) if run + 1 < RUNS else ""
        runs.append((said.sent, said.answered, crash))
        core.crashes()
    return f"random-{number}", "fresh", runs


def opens_first(said):
    """The tables are made by a conversation that is gone then."""
    written.Talk.opens(said, 9)
    for number, table in enumerate(TABLES):
        said.changes(9, f"CREATE TABLE {table} (K INTEGER NOT NULL, V VARCHAR(600), PRIMARY KEY (K))", 0, number == 0)
    said.commits(9)
    written.Talk.record(said, events.IS_LOST, 9)


Story.opens_first = opens_first
CONVERSATIONS = [story(number) for number in range(STORIES)]
