"""A model of the gate: how `rt ci` lays proofs, tests and edits into lanes, and how long that takes on idle processors. What it reads:
crates.txt, the lines of each crate, its edits under must-fail/, and tools/gate_seconds.json, the processor seconds of each crate's
proof, of the proof of its tests, of one edit, and of the proof that its edits are tried over, as a run was sampled (tools/gate_table).
rt starts a task of the longest chain of lines behind it first, where a processor is idle and memory is left by its own estimate. One
edit alone is tried from nothing."""
import glob, json

from crates import TOP, crates_now, edits_in

# Seconds: the texts of all crates before any proof, the programs and tests that are run at the end.
BEFORE, AFTER = 35, 30
# How many gigabytes rt takes to be free, and how much faster a task is with so many jobs.
FREE, FASTER = 19.0, {1: 1, 2: 1.5, 3: 1.8, 4: 2.0}
PROOF, TESTS, EDITS = "proofs", "tests", "edits"


def measured():
    """The seconds of each crate, as they were sampled."""
    with open(f"{TOP}/tools/gate_seconds.json") as file:
        return json.load(file)


def lines(crate, ending):
    return sum(open(file, "rb").read().count(b"\n") for file in glob.glob(f"{TOP}/crates/{crate}/**/*{ending}", recursive=True) if "/out/" not in file)


def below_all(deps):
    """Each crate's libraries, those of its libraries among them."""
    below = {}

    def walk(crate):
        if crate not in below:
            mine = [it for it in deps[crate] if it in deps]
            below[crate] = set(mine).union(*(walk(it) for it in mine))
        return below[crate]

    for crate in deps:
        walk(crate)
    return below


def tasks(seconds, tried, left=(), kept=()):
    """Each task by crate and kind, with the edits of the crates that are tried and without those of crates that are left out: what it
    waits for, its lines, seconds and gigabytes. What a machine has kept takes no time."""
    deps = {crate: libraries for crate, libraries in crates_now().items() if crate not in left}
    below = below_all(deps)
    code = {crate: lines(crate, ".rt") for crate in deps}
    proofs = {crate: lines(crate, ".antt") for crate in deps}
    made = {}
    for crate in sorted(deps, key=lambda it: len(below[it])):
        guess = 20 + code[crate] / 6
        proof, tests, edit, seed = (0, 0, 0, 0) if crate in kept else seconds.get(crate, [guess, 0, 15, guess])
        edits = len(edits_in(f"{TOP}/crates/{crate}/must-fail")[0]) if crate in tried else 0
        size = 1 + code[crate] / 1000 + proofs[crate] / 5000 + sum(code[it] for it in below[crate]) * 8e-5
        waits = [(it, PROOF) for it in below[crate]]
        made[crate, PROOF] = waits, code[crate], proof, size
        made[crate, TESTS] = waits, code[crate] if tests else 0, tests, size
        cost = 0 if not edits else seed if edits == 1 else seed + edits * edit
        made[crate, EDITS] = [(crate, PROOF), (crate, TESTS)], code[crate] if edits else 0, cost, size
    return made


def minutes(made, processors, overhead=BEFORE + AFTER):
    """How long these tasks take, with so many seconds before and after them."""
    behind = {task: made[task][1] for task in made}
    above, waits = {}, {}
    for task in reversed(made):
        behind[task] += made[task][1]
        lower = [it for it in made[task][0] if it in made]
        for it in lower:
            behind[it] = max(behind[it], behind[task])
            above.setdefault(it, []).append(task)
        waits[task] = len(lower)
    left, running, now = sorted(made, key=lambda it: -behind[it]), [], overhead
    while left or running:
        ready = [it for it in left if not waits[it]]
        for at, task in enumerate(ready):
            idle = processors - sum(it[3] for it in running)
            room, size = FREE - sum(it[2] for it in running), made[task][3]
            if idle > 0 and (not running or size <= room):
                left.remove(task)
                jobs = 1 if task[1] == EDITS else max(1, min(4, idle // (len(ready) - at), 1 + int((room / size - 1) / 0.6)))
                running.append((now + made[task][2] / FASTER[jobs], task, size * (0.4 + 0.6 * jobs), jobs))
        running.sort()
        now, task, _, _ = running.pop(0)
        for it in above.get(task, []):
            waits[it] -= 1
    return now / 60
