"""The page of each crate of the product, crates/NAME/README.md, and the three documents that gather what belongs to no crate.

A page has the crate's name as its heading, a line that says its subject, and the sections of SECTIONS in their order, none of them
empty, in LINES lines of WIDTH letters at most. The other crates (tests, fixtures) may have a page; it has no sections, and FEW lines at most.

What stands in backquotes is there. A point of "Calls" begins with calls and types that the crate's sources declare, and what else it
names is a word of the crate's sources or definitions. A name in "Edits" is an edit's of the crate; a `*` stands for any end of a
name. Any other name is a path, a word of the crate, or one of the tree; of a name with `::` each part is. What has blanks, brackets
or signs in it is code, of which words with an underscore or a capital inside are looked for."""
import fnmatch, functools, glob, os, re

from crates import TOP, crates_now, edits_of

LINES, WIDTH, FEW = 60, 150, 8
SECTIONS = "Promise", "Calls", "Proved, tested, taken", "Why", "Edits", "Before a change"
GATHERED = "docs/PROVED.md", "docs/DECISIONS.md", "docs/PROOFS.md"
OF_CODE, OF_LOGIC = "src/**/*.rt", ("specs/**/*.antt", "proofs/**/*.antt")
IS_NAME = re.compile(r"[\w.][\w./-]*(?:::\w+)*")
IS_EDIT = re.compile(r"[\w*/]+")
ONLY_A_NAME = re.compile(r"\b[a-z]+_\w+|\b[A-Z][a-z]+[A-Z]\w*")
WORD = re.compile(r"\w+(?:[-']\w+)*")
# Files beside the crates that a document may name.
OTHERS = "tests/**/*", "tools/*", "bench/**/*", "crates/*/edits/*", "crates/*/must-fail/*", "Makefile", "crates.txt"


def text_of(path):
    with open(path, encoding="utf-8", errors="replace") as file:
        return file.read()


def code_of(path):
    """The text of a source or a definition without its comments."""
    return re.sub(r"^\s*--.*$|(?<!:)//.*$", "", text_of(path), flags=re.MULTILINE)


def words_of(text):
    return {part for word in WORD.findall(text) for part in (word, *re.split(r"[-']", word))}


@functools.cache
def files_of(crate, *patterns):
    return [path for pattern in patterns for path in glob.glob(f"{TOP}/crates/{crate}/{pattern}", recursive=True)]


@functools.cache
def declared(crate):
    """What the crate's sources declare, in clauses too."""
    texts = "\n".join(code_of(path) for path in files_of(crate, OF_CODE))
    return set(re.findall(r"\b(?:fn|struct|enum|trait|const|static|type|ghost|mod)\s+(\w+)", texts))


@functools.cache
def known(crate):
    """The words of the crate's sources and definitions but for their comments, and the names of their files."""
    paths = files_of(crate, OF_CODE, *OF_LOGIC)
    return {word for path in paths for word in words_of(code_of(path))} | {os.path.splitext(os.path.basename(path))[0] for path in paths}


@functools.cache
def known_anywhere():
    """The words of all crates, their names, and those of the files beside them."""
    found = set(crates_now()).union(*(known(crate) for crate in crates_now()))
    for path in (path for pattern in OTHERS for path in glob.glob(f"{TOP}/{pattern}", recursive=True)):
        found |= {os.path.basename(path), os.path.splitext(os.path.basename(path))[0]}
    return found


def is_path(name, crate):
    return any(glob.glob(f"{top}/{name}") for top in (TOP, f"{TOP}/crates/{crate or '*'}"))


def is_there(name, crate):
    if "/" in name:
        return is_path(name, crate)
    parts = set(re.split(r"::|\.", re.sub(r"\.(antt|rt|edit)$", "", name))) - {""}
    return (crate and parts <= known(crate)) or parts <= known_anywhere() or is_path(name, crate)


def names_in(text, is_name=IS_NAME):
    return [name for name in re.findall(r"`([^`]+)`", text) if is_name.fullmatch(name)]


def faults_of_calls(crate, text):
    for point in re.split(r"^- ", text, flags=re.MULTILINE)[1:]:
        heads = names_in(re.match(r"(?:`[^`]+`(?:, | and )?)*", point)[0])
        if not heads:
            yield f"a call's point begins with no name: {point.split(chr(10))[0]}"
        yield from (f"no {name} is declared" for name in heads if not set(name.split("::")) <= declared(crate))
        yield from (f"no {name} in its sources" for name in names_in(point) if "/" not in name and not set(name.split("::")) <= known(crate))


def faults_of_edits(crate, text):
    edits, _ = edits_of(crate)
    for name in names_in(text, IS_EDIT):
        if not (is_path(name, crate) if "/" in name else fnmatch.filter(edits, name)):
            yield f"no edit {name}"


def faults_of_names(crate, text):
    yield from (f"no {name}" for name in names_in(text) if not is_there(name, crate))
    for code in re.findall(r"`([^`]+)`", text):
        words = [] if IS_NAME.fullmatch(code) else ONLY_A_NAME.findall(code)
        yield from (f"no {word} in {code}" for word in words if word not in known_anywhere())


CHECKS = {"Calls": faults_of_calls, "Edits": faults_of_edits}


def faults_of_page(crate, text):
    head, *parts = re.split(r"^## (.*)\n", text, flags=re.MULTILINE)
    sections = dict(zip(parts[::2], parts[1::2]))
    if text.count("\n") > LINES or any(len(line) > WIDTH for line in text.split("\n")):
        yield f"more than {LINES} lines of {WIDTH} letters"
    if not re.match(rf"# {crate}\n\n\S.*\n", head):
        yield "not its name and a line that says its subject"
    if tuple(parts[::2]) != SECTIONS:
        yield f"not the sections {', '.join(SECTIONS)}"
    yield from (f"nothing under {name}" for name, section in sections.items() if not section.strip())
    yield from faults_of_names(crate, head)
    for name, section in sections.items():
        yield from CHECKS.get(name, faults_of_names)(crate, section)


def is_of_tests(crate):
    return crate.endswith("_tests") or crate.startswith("test_")


def faults_of_crate(crate):
    path = f"{TOP}/crates/{crate}/README.md"
    if not os.path.isfile(path):
        return [] if is_of_tests(crate) else ["no page"]
    text = text_of(path)
    if not is_of_tests(crate):
        return faults_of_page(crate, text)
    return [*faults_of_names(crate, text), *([f"more than {FEW} lines"] if text.count("\n") > FEW else [])]


def faults():
    """What is missing in the pages and in the three documents, each with its path."""
    pages = [f"crates/{crate}/README.md: {fault}" for crate in crates_now() for fault in faults_of_crate(crate)]
    return pages + [f"{path}: {fault}" for path in GATHERED for fault in faults_of_names(None, text_of(f"{TOP}/{path}"))]
