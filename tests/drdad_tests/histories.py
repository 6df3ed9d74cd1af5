"""Whether units that ran side by side have a serial order, by what their clients wrote down: a checker of histories. Run by itself
(`python3 tests/drdad_tests/histories.py`) it tries itself on histories that are right and on wrong ones; the last line is
`N histories judged as they should be`.

A client writes a line for each of its units (`line_of`): when it began and when its end was answered, how it ended, and what it read
and wrote, in its own order. Each write has a number that no other write has, so a read names the write that it saw, or ABSENT where
no row was there. A unit reads a key before it writes it, or else the write says that no row was there; so each version of a key
names the one before it. A unit whose commit was not answered counts as committed where a committed unit saw what it wrote, and as
undone otherwise: committed it could only add edges.

The graph has the committed units, and these edges (the standard's serializability graph): ww, from the writer of a version to the
writer of the next; wr, from the writer of a version to who read it; rw, from who read a version to the writer of the next. Beside
them stand edges of time: from a unit to each that began once its commit was answered. A history without a cycle has a serial order,
which keeps the order in time. A unit that was undone takes part by what it read, since its claims held until its end."""
import collections, json, random

ABSENT = 0
COMMITTED, UNDONE, UNANSWERED = "committed", "undone", "unanswered"
ENDS = (COMMITTED, UNDONE, UNANSWERED)
MOST_SHOWN = 12

Unit = collections.namedtuple("Unit", "name began ended end steps")
Edge = collections.namedtuple("Edge", "kind key")


class NotSerial(Exception):
    """A history that no serial order of its units explains, and what shows it."""


def line_of(began, ended, end, steps):
    """A unit as a line. Steps are lists: "r", a key, the number of the write that was read; or "w", a key, the number of this write."""
    return json.dumps((began, ended, end, steps), separators=(",", ":")) + "\n"


def units_of(name, lines):
    """The units of a client's lines; a last line that was cut is of a unit that was never judged, so there is none."""
    return [Unit(f"{name}.{at}", *json.loads(line)) for at, line in enumerate(lines)]


class History:
    """Units, and what each write's number belongs to."""

    def __init__(self, units, opening):
        """`opening` has the number of the write that each key had before; a key that is not in it had no row."""
        self.units = list(units)
        self.first = collections.defaultdict(lambda: ABSENT, opening)
        self.before, self.writer = {}, {}
        for unit in self.units:
            self._take_writes(unit)
        self.committed = self._committed()

    def _take_writes(self, unit):
        """Each write by its key and number, with the version that it stands on; a write on another of the same unit stands on it."""
        seen = {}
        for what, key, number in unit.steps:
            if what == "w":
                if (key, number) in self.writer or number == ABSENT:
                    raise ValueError(f"{unit.name} writes {number} to {key}, which is no number of its own")
                self.before[key, number], self.writer[key, number] = seen.get(key, ABSENT), unit
            elif self.writer.get((key, seen.get(key))) is unit and seen[key] != number:
                raise NotSerial(f"{unit.name} wrote {seen[key]} to {key}, and read {number} behind that")
            seen[key] = number

    def _committed(self):
        """The units that count as committed, by their names: those that were answered so, and those without an answer whose writes
        were seen by others that take part."""
        found = {unit.name: unit for unit in self.units if unit.end == COMMITTED}
        left = [unit for unit in self.units if unit.end != UNANSWERED]
        while left:
            for what, key, number in left.pop().steps:
                writer = self.writer.get((key, number))
                if what == "r" and writer is not None and writer.end == UNANSWERED and writer.name not in found:
                    found[writer.name] = writer
                    left.append(writer)
        return found


def versions(history):
    """For each key and number, the committed write that comes next; two on one version have lost an update."""
    after = {}
    for unit in history.committed.values():
        for what, key, number in unit.steps:
            if what != "w":
                continue
            previous = history.before[key, number]
            if (key, previous) in after:
                other = history.writer[key, after[key, previous]]
                raise NotSerial(f"{other.name} and {unit.name} both wrote {key} over {previous}: an update is lost")
            after[key, previous] = number
    return after


def check_read(history, unit, key, number):
    """What was read is there at some time: at the opening, or as the last write to its key of a unit that committed."""
    writer = history.writer.get((key, number))
    if writer is unit or number == history.first[key]:
        return
    if writer is None:
        raise NotSerial(f"{unit.name} read {number} of {key}, which nobody wrote")
    if writer.name not in history.committed:
        raise NotSerial(f"{unit.name} read {number} of {key}, which {writer.name} wrote and did not commit")
    if is_written_over(history, writer, key, number):
        raise NotSerial(f"{unit.name} read {number} of {key}, over which {writer.name} itself wrote")


def is_written_over(history, writer, key, number):
    """Whether the unit wrote the key again, behind this write."""
    numbers = [step[2] for step in writer.steps if step[0] == "w" and step[1] == key]
    return numbers[-1] != number


def edges_of(history, after):
    """What follows on each unit, with the edge's kind: units by their names."""
    edges = collections.defaultdict(dict)

    def join(one, kind, key, other):
        if one is not None and other is not None and one is not other:
            edges[one.name].setdefault(other.name, Edge(kind, key))

    for unit in history.units:
        commits = unit.name in history.committed
        for what, key, number in unit.steps:
            writer = history.writer.get((key, number))
            if what == "w":
                if commits:
                    join(history.writer.get((key, history.before[key, number])), "ww", key, unit)
            elif unit.end != UNANSWERED or commits:
                check_read(history, unit, key, number)
                join(writer, "wr", key, unit)
                join(unit, "rw", key, history.writer.get((key, after.get((key, number)))))
    return edges


def add_time(history, edges):
    """From each unit whose end was answered to those that began behind it, over a row of moments, so that edges stay few."""
    judged = [unit for unit in history.units if unit.end != UNANSWERED or unit.name in history.committed]
    moments = sorted({unit.ended for unit in judged if unit.end != UNANSWERED})
    for one, other in zip(moments, moments[1:]):
        edges[one][other] = Edge("time", None)
    ends = [(moment, 0, None) for moment in moments] + [(unit.began, 1, unit) for unit in judged]
    last = None
    for moment, is_beginning, unit in sorted(ends, key=lambda one: one[:2]):
        if not is_beginning:
            last = moment
        elif last is not None:
            edges[last].setdefault(unit.name, Edge("time", None))
    for unit in judged:
        if unit.end != UNANSWERED:
            edges[unit.name].setdefault(unit.ended, Edge("time", None))


def not_reached(edges):
    """The nodes that no order places, each behind all that lead to it: those on cycles, and behind them."""
    waits = collections.Counter(other for others in edges.values() for other in others)
    ready, left = [node for node in edges if not waits[node]], set(edges) | set(waits)
    while ready:
        node = ready.pop()
        left.discard(node)
        for other in edges.get(node, ()):
            waits[other] -= 1
            if not waits[other]:
                ready.append(other)
    return left


def left_in_circles(edges):
    """The nodes on cycles, or between two of them."""
    behind = not_reached(edges)
    back = {node: [] for node in behind}
    for node in behind:
        for other in edges.get(node, ()):
            back[other].append(node)
    return not_reached(back)


def shortest_cycle(edges, nodes):
    """A cycle through the first of these nodes that has one, as short as there is through it."""
    for begin in sorted(nodes, key=str):
        came, ring = {begin: None}, collections.deque([begin])
        while ring:
            node = ring.popleft()
            for other in edges.get(node, ()):
                if other == begin:
                    return path_to(came, node)
                if other in nodes and other not in came:
                    came[other] = node
                    ring.append(other)
    return []


def path_to(came, node):
    path = []
    while node is not None:
        path.append(node)
        node = came[node]
    return path[::-1]


def said_of_cycle(edges, cycle):
    """The cycle in words; the moments between units are left out."""
    parts = []
    for one, other in zip(cycle, cycle[1:] + cycle[:1]):
        edge = edges[one][other]
        if isinstance(one, str):
            parts.append(f"{one} -{edge.kind}{'' if edge.key is None else ' ' + edge.key}->")
    return " ".join(parts[:MOST_SHOWN]) + f" {cycle[0]}"


def check(units, opening):
    """Raises NotSerial where the units have no serial order, or none that keeps time; gives the History otherwise. `opening` has the
    number of the write that each key had before the first unit."""
    history = History(units, opening)
    edges = edges_of(history, versions(history))
    add_time(history, edges)
    left = left_in_circles(edges)
    if left:
        raise NotSerial("a cycle: " + said_of_cycle(edges, shortest_cycle(edges, left)))
    return history


def judgement(units, opening):
    """What is said of a history; None of one that is right."""
    try:
        check(units, opening)
    except NotSerial as found:
        return str(found)
    return None


def falsified(history, rng):
    """The units of a history that is right, but for one read: it sees the version before the one that it saw, whose writer was
    answered before the reading unit began. So nothing explains it. None where there is no such read."""
    places = [(at, step) for at, unit in enumerate(history.units) for step, (what, key, number) in enumerate(unit.steps)
              if what == "r" and unit.end == COMMITTED and is_answered_before(history.writer.get((key, number)), unit)]
    if not places:
        return None
    units = list(history.units)
    at, step = rng.choice(places)
    steps = list(units[at].steps)
    what, key, number = steps[step]
    steps[step] = (what, key, history.before[key, number])
    units[at] = units[at]._replace(steps=steps)
    return units


def is_answered_before(writer, unit):
    return writer is not None and writer.end == COMMITTED and writer.ended <= unit.began


# ---- this checker, tried on histories

def told(text):
    """Units of a text, one a line: its name, when it began and ended, how it ended, and its steps, as `r x 1`, `w x 2`."""
    for line in text.strip().splitlines():
        name, began, ended, end, *words = line.split()
        steps = [[words[at], words[at + 1], int(words[at + 2])] for at in range(0, len(words), 3)]
        yield Unit(name, int(began), int(ended), end, steps)


# What is tried, the units, and a part of what is said of them; nothing of a history that is right. At the opening x has 1 and y 2.
CASES = [
    ("one after another", """
        a 0 1 committed r x 1 w x 3
        b 2 3 committed r x 3 w x 4 r y 2 w y 5
        c 4 5 committed r x 4 r y 5""", None),
    ("side by side, on other keys", """
        a 0 9 committed r x 1 w x 3
        b 1 8 committed r y 2 w y 4""", None),
    ("a write that a unit puts over its own", """
        a 0 1 committed r x 1 w x 3 w x 4 r x 4
        b 2 3 committed r x 4""", None),
    ("a row that was not there, and then is", """
        a 0 1 committed r z 0
        b 2 3 committed w z 7
        c 4 5 committed r z 7""", None),
    ("a commit without an answer that was seen", """
        a 0 9 unanswered r x 1 w x 3
        b 2 3 committed r x 3""", None),
    ("a commit without an answer that was not seen", """
        a 0 9 unanswered r x 1 w x 3
        b 2 3 committed r x 1 w x 4""", None),
    ("a unit that was undone has read what was there", """
        a 0 9 undone r x 1 w x 3
        b 10 12 committed r x 1 w x 4""", None),
    ("a lost update", """
        a 0 5 committed r x 1 w x 3
        b 1 6 committed r x 1 w x 4""", "an update is lost"),
    ("write skew", """
        a 0 5 committed r x 1 r y 2 w x 3
        b 1 6 committed r x 1 r y 2 w y 4""", "a cycle: a -rw y-> b -rw x-> a"),
    ("half of a unit is seen", """
        a 0 5 committed r x 1 w x 3 r y 2 w y 4
        b 1 6 committed r x 3 r y 2""", "a cycle: a -wr x-> b -rw y-> a"),
    ("a read that does not repeat", """
        a 0 9 committed r x 1 r x 3
        b 1 2 committed r x 1 w x 3""", "a cycle: a -rw x-> b -wr x-> a"),
    ("a unit that was undone saw half of another", """
        a 0 5 committed r x 1 w x 3 r y 2 w y 4
        b 1 6 undone r x 3 r y 2""", "a cycle"),
    ("a read of what was undone", """
        a 0 5 undone r x 1 w x 3
        b 1 6 committed r x 3""", "did not commit"),
    ("a read between two writes of a unit", """
        a 0 5 committed r x 1 w x 3 w x 4
        b 1 6 committed r x 3""", "itself wrote"),
    ("a read of what nobody wrote", "a 0 5 committed r x 8", "nobody wrote"),
    ("a read that is not of the unit's own write", "a 0 5 committed r x 1 w x 3 r x 1", "behind that"),
    ("a row that is not seen by who asks behind its insertion", """
        a 0 1 committed w z 7
        b 2 3 committed r z 0""", "time"),
    ("an answered commit that is lost", """
        a 0 1 committed r x 1 w x 3
        b 2 3 committed r x 1""", "time"),
    ("an unanswered commit, half of which was seen", """
        a 0 9 unanswered r x 1 w x 3 r y 2 w y 4
        b 2 3 committed r x 3 r y 2""", "a cycle"),
    ("two insertions of one row", """
        a 0 5 committed w z 7
        b 1 6 committed w z 8""", "an update is lost"),
    ("three units in a circle", """
        a 0 9 committed r x 1 r y 2 w y 5
        b 0 9 committed r y 2 r z 0 w z 6
        c 0 9 committed r z 0 r x 1 w x 7""", "a cycle"),
]


def run_alone(rng, count):
    """Units one after another over a few keys: each reads some, and writes some of those."""
    now, number = {key: ABSENT for key in "abcdef"}, 0
    for at in range(count):
        steps = []
        for key in rng.sample(sorted(now), 3):
            steps.append(["r", key, now[key]])
            if rng.random() < 0.5:
                number += 1
                steps.append(["w", key, number])
                now[key] = number
        yield Unit(f"u{at}", 2 * at, 2 * at + 1, COMMITTED, steps)


def try_yourself():
    """Ends where a history is judged otherwise than it should be; gives how many there were."""
    for what, text, wanted in CASES:
        found = judgement(told(text), {"x": 1, "y": 2})
        if (found is None) != (wanted is None) or wanted is not None and wanted not in found:
            raise SystemExit(f"{what}: judged as {found!r}, not {wanted!r}")
    rng, planted = random.Random(56), 200
    for _ in range(planted):
        right = check(run_alone(rng, 40), {})
        if judgement(falsified(right, rng), {}) is None:
            raise SystemExit(f"a read that was falsified is not found in {right.units}")
    return len(CASES) + 2 * planted


if __name__ == "__main__":
    print(f"{try_yourself()} histories judged as they should be")
