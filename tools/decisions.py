"""What docs/DECISIONS.md says of the code, beside it: the crates past the limit of functions and lines, and the names that stand in the
place of others."""
import glob, os, re

from crates import TOP, crates_now

MOST_FUNCTIONS, MOST_LINES = 60, 1200
PAGE = f"{TOP}/docs/DECISIONS.md"
LIMIT, SURFACE = "Crates past the limit", "What the public surface is called"
FUNCTION = re.compile(r"^\s*(?:pub(?:\([^)]*\))? )?(?:const )?fn \w", re.MULTILINE)
DEFINED = r"\bpub (?:const )?(?:fn|struct|enum|trait|type|const) {0}\b"


def code_of(crate):
    texts = []
    for path in glob.glob(f"{TOP}/crates/{crate}/src/**/*.rt", recursive=True):
        with open(path, encoding="utf-8") as file:
            texts.append(file.read())
    return "".join(texts)


def is_past(crate):
    code = code_of(crate)
    return len(FUNCTION.findall(code)) > MOST_FUNCTIONS or code.count("\n") > MOST_LINES


def rows_of(text, section):
    """The cells of each row of a section's table, but for its head."""
    part = text.partition(f"\n## {section}\n")[2].partition("\n## ")[0]
    rows = [[cell.strip() for cell in line.strip("|").split("|")] for line in part.splitlines() if line.startswith("|")]
    return rows[2:]


def faults(text):
    """What is wrong in the page of this text."""
    listed = [(name, row[-1]) for row in rows_of(text, LIMIT) for name in row[0].split(", ")]
    past = {crate for crate in crates_now() if is_past(crate)}
    names = {name for name, _ in listed}
    yield from (f"DECISIONS: {name} is past the limit of {MOST_FUNCTIONS} functions and {MOST_LINES} lines, and is not listed" for name in sorted(past - names))
    yield from (f"DECISIONS: {name} is listed as past the limit, and is not" for name in sorted(names - past))
    yield from (f"DECISIONS: {name} is listed without a reason" for name, reason in listed if not reason)
    rows = rows_of(text, SURFACE)
    yield from (f"DECISIONS: no table under {section}" for section in (LIMIT, SURFACE) if not rows_of(text, section))
    for here in (name for row in rows for name in re.findall(r"`([^`]+)`", row[1])):
        crate, *parts = here.split("::")
        code = code_of(crate) if os.path.isdir(f"{TOP}/crates/{crate}") else ""
        if not code or not all(re.search(DEFINED.format(part), code) for part in parts):
            yield f"DECISIONS: no {here}"


def all_faults():
    with open(PAGE, encoding="utf-8") as file:
        return list(faults(file.read()))
