"""The crates of crates.txt, which of them something since a commit can have touched, which a gate since then may leave out, and where
their edits stand: those that the gate tries under crates/NAME/must-fail/, the others beside them under crates/NAME/edits/."""
import os, re, subprocess

from faces import changes, laws_in

TOP = os.path.realpath(os.path.join(os.path.dirname(__file__), ".."))
# What every verdict rests on: the handles that are allowed, and the logic.
WHOLE = "HANDLES", ".ci/logic"
EDIT = re.compile(r"[A-Za-z0-9_-][A-Za-z0-9_.-]*\.edit")
OF_GATE, OTHERS = "must-fail", "edits"
PROGRAM = "drdad"


def git(*words):
    ran = subprocess.run(["git", *words], cwd=TOP, capture_output=True, text=True)
    return ran.stdout if ran.returncode == 0 else None


def logic_of(version):
    """The logic that a toolchain's version names: what it can prove."""
    return version.split()[-1:]


def libraries(text):
    """Each crate of a crates.txt with the libraries that it stands on."""
    lines = [line.split(":", 1) for line in text.split("\n") if ":" in line and not line.startswith("#")]
    return {name.split()[0]: below.split() for name, below in lines}


def crates_now():
    with open(f"{TOP}/crates.txt") as file:
        return libraries(file.read())


def edit_of(file):
    """Which edits the file belongs to, those of the gate or the others, and its crate; or None where it is no edit's."""
    parts = file.split("/")
    return (parts[2], parts[1]) if parts[0] == "crates" and parts[2:3] in ([OF_GATE], [OTHERS]) else None


def folders_of(name):
    """Where edits of a crate stand."""
    return f"crates/{name}/{OF_GATE}", f"crates/{name}/{OTHERS}"


def text_at(commit, file):
    return git("show", f"{commit}:{file}") or ""


def sources(commit):
    """The texts of all files of src/ at a commit, one behind another."""
    return git("grep", "-h", "-e", "fn ", commit, "--", "crates/*/src/*.rt") or ""


def changed_in(base, files):
    """The crates whose code or statements changed in these files since the commit, and those of them whose face did (faces.py)."""
    laws = laws_in(sources(base)) | laws_in(sources("HEAD"))
    changed, faces = set(), set()
    for file in files:
        parts = file.split("/")
        if parts[0] != "crates" or len(parts) < 4 or file.endswith(".md") or edit_of(file) or parts[2] == "proofs":
            continue
        is_changed, is_face = changes(file, text_at(base, file), text_at("HEAD", file), laws)
        changed |= {parts[1]} if is_changed else set()
        faces |= {parts[1]} if is_face else set()
    return changed, faces


def above(names, crates):
    """These crates, and those that stand on one of them."""
    found, grown = set(names), True
    while grown:
        more = {name for name, below in crates.items() if found.intersection(below)} - found
        found |= more
        grown = bool(more)
    return found


def files_since(base):
    """The files that are not as they were at the commit; None where that says nothing of verdicts: HEAD does not stand on it, or what
    each verdict rests on is another."""
    if git("merge-base", "--is-ancestor", base, "HEAD") is None:
        return None
    if logic_of(subprocess.run(["rt", "version"], capture_output=True, text=True).stdout) != logic_of(git("show", f"{base}:.ci/logic") or ""):
        return None
    changed, others = git("diff", "--no-renames", "--name-only", base), git("ls-files", "--others", "--exclude-standard")
    files = [file for file in [*(changed or "").split("\n"), *(others or "").split("\n")] if file]
    return None if changed is None or others is None or any(file in WHOLE for file in files) else files


def otherwise_listed(base, crates):
    """The crates that stand on other libraries than at the commit."""
    before = libraries(git("show", f"{base}:crates.txt") or "")
    return {name for name in crates if sorted(crates[name]) != sorted(before.get(name, ["none"]))}


def touched(base, kinds):
    """The crates whose edits something since the commit can concern: those whose code or statements changed, and those that stand on
    one whose face changed (faces.py); all of them where that can't be said. One of which an edit is changed counts too, where edits of
    that kind are asked for."""
    crates, files = crates_now(), files_since(base)
    if files is None:
        return set(crates)
    changed, faces = changed_in(base, files)
    others = otherwise_listed(base, crates)
    edited = [edit_of(file) for file in files if edit_of(file) and os.path.exists(f"{TOP}/{file}")]
    return (changed | above(faces | others, crates) | {name for kind, name in edited if kind in kinds}) & set(crates)


def below(names, crates):
    """These crates, and those that they stand on."""
    found, left = set(), list(names)
    while left:
        name = left.pop()
        if name in crates and name not in found:
            found.add(name)
            left += crates[name]
    return found


def without(changed, crates):
    """The crates that say nothing new where these changed: those that neither the program stands on, nor one that changed or that stands
    on one that did."""
    return set(crates) - below({PROGRAM} | above(changed, crates), crates)


def left_out(base):
    """The crates of tests and laws that a gate passed at the commit and that nothing since can touch: no file of theirs is another, nor
    one of a crate below. Pages, and edits, which are tried by `touched`, count for nothing. None where that can't be said."""
    crates, files = crates_now(), files_since(base)
    if files is None:
        return set()
    parts = [file.split("/") for file in files if not file.endswith(".md") and not edit_of(file)]
    return without({it[1] for it in parts if it[0] == "crates" and len(it) > 2} | otherwise_listed(base, crates), crates)


def edits_in(folder):
    """The edits right in a folder, and what else stands there that is not only to be read."""
    names = sorted(os.listdir(folder)) if os.path.isdir(folder) else []
    edits = [name for name in names if EDIT.fullmatch(name) and os.path.isfile(f"{folder}/{name}")]
    others = [name for name in names if name not in edits and not name.endswith(".md")]
    return edits, others


def edits_of(name):
    """All edits of a crate, by the names that they go by, and what is wrong in their folders."""
    edits, faults = {}, []
    for folder in folders_of(name):
        good, others = edits_in(f"{TOP}/{folder}")
        faults += [f"{folder}/{it}: an edit stands right in its crate's folder, and its name ends in .edit" for it in others]
        for it in good:
            edit = it[: -len(".edit")]
            if edit in edits:
                faults.append(f"{folder}/{it}: another edit of the crate has that name")
            edits.setdefault(edit, f"{TOP}/{folder}/{it}")
    return edits, faults


def of_no_crate():
    """What stands in edits/ at the top, and beside no crate."""
    names = sorted(os.listdir(f"{TOP}/edits")) if os.path.isdir(f"{TOP}/edits") else []
    return [f"edits/{name}: edits stand beside their crate, in crates/{name}/edits/" for name in names]
