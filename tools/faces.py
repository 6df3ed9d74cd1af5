"""What of a crate's files counts, where it is asked which edits are to be tried again.

An edit is refused since its function does not do then what its contract says. So it is to be tried again where its crate has other code
or other statements than before, or where a statement changed that the crate reads: one of a crate below it. A comment, what is written
of a proof, and the call of a law, a function without arguments and result, which does nothing when it runs, change neither. What a
crate shows to those above it is its face: definitions, types, constants, and the contracts of what is public, without bodies. A face
changes where something in it is another than before; what is new in it, or gone, changes nothing of what else is said.

Sources are read by their layout, which `rt fmt` keeps: a body ends where a brace stands below its function.
"""
import re

LAW = re.compile(r" *(?:\w+::)*(\w+)(?:::<[^>]*>)?\(\);")
LAW_DEFINED = re.compile(r"^ *(?:pub(?:\(crate\))? )?fn (\w+)(?:<[^>]*>)?\(\)$", re.M)
IMPORT = re.compile(r"^ *(?:pub )?(?:ghost )?use ([^;]*);$", re.M)
DEFINITIONS_IMPORT = re.compile(r"^(?:pub )?use (.*)$", re.M)
DEFINITIONS_MODULE = re.compile(r"^(?:pub )?mod .*$", re.M)
# Lines that say nothing: of modules, whose files speak for themselves, and of how a proof is searched.
SILENT = re.compile(r" *(?:(?:pub )?mod \w+;|#!?\[(?:tactic|inline)\b.*\])")
FUNCTION = re.compile(r"( *)(pub )?(?:pub\([a-z]+\) )?(?:const )?(?:unsafe )?fn \w")
OF_TRAIT = re.compile(r"(?:pub )?(?:unsafe )?(?:trait |impl\b.* for )")
OUTER = re.compile(r"(?:pub(?:\([a-z]+\))? )?(?:unsafe )?((?:const fn|const|static|struct|enum|trait|type|fn) \w+)")
INNER = re.compile(r"    (?:pub |ghost\*? |const |unsafe |fn |type )+(\w+)")
DEFINED = re.compile(r"(?:(?:pub|abbrev|unfoldable|record|data|module) )*([^\s(:{]+)")


def laws_in(text):
    """The names of functions that have neither arguments nor a result."""
    return set(LAW_DEFINED.findall(text))


def imported(clauses):
    """The names that imports bring, each with all that it stands for."""
    found = {}
    for clause in clauses:
        base, _, names = " ".join(clause.replace("::", ".").split()).partition("{")
        for name in filter(None, (it.strip() for it in names.rstrip("}").split(","))) if names else [""]:
            path, _, other = f"{base}{name}".partition(" as ")
            found.setdefault(other or path.split(".")[-1], set()).add(path)
    return found


def said(lines, mark):
    return [line for line in lines if line.strip() and not line.lstrip().startswith(mark)]


def code_in(text, laws):
    """The lines of a source that are code or statements, and what it imports; nothing of laws that are called."""
    bare = "\n".join(said(text.split("\n"), "//"))
    lines = [line for line in IMPORT.sub("", bare).split("\n") if line.strip() and not SILENT.fullmatch(line)]
    called = [line for line in lines if (law := LAW.fullmatch(line)) and law[1] in laws]
    imports = {name: meant for name, meant in imported(IMPORT.findall(bare)).items() if name not in laws}
    return [line for line in lines if line not in called], imports


def definitions_in(text):
    """The lines of a file of definitions, and what it imports."""
    bare = "\n".join(said(text.split("\n"), "--"))
    lines = DEFINITIONS_MODULE.sub("", DEFINITIONS_IMPORT.sub("", bare)).split("\n")
    return said(lines, "--"), imported(DEFINITIONS_IMPORT.findall(bare))


def end_of_head(lines, at, margin):
    """Where the signature and the clauses of a function end, and whether a body follows."""
    while lines[at] not in (f"{margin}{{", f"{margin}{{}}") and not lines[at].endswith((" {", ";", "{}")):
        at += 1
    return at, lines[at].endswith("{")


def without_bodies(lines):
    """A source without the bodies of functions, and without those functions that no other crate sees. All of it where it has macros."""
    if any(line.startswith("macro_rules!") for line in lines):
        return lines
    kept, at, of_trait = [], 0, False
    while at < len(lines):
        of_trait = OF_TRAIT.match(lines[at]) is not None if not lines[at].startswith(" ") else of_trait
        found = FUNCTION.match(lines[at])
        if not found:
            kept.append(lines[at])
            at += 1
            continue
        end, has_body = end_of_head(lines, at, found[1])
        kept += lines[at : end + 1] if found[2] or of_trait else []
        at = (lines.index(f"{found[1]}}}", end) if has_body else end) + 1
    return kept


def items_in(lines):
    """The items of a source: the lines of each by its kind and name, and inside of an `impl` or a trait by that and its own name."""
    items, outer, inner, ahead = {}, "", "", []
    for line in lines:
        if line.startswith(("}", ")")):
            continue
        if line.startswith("#"):
            ahead.append(line)
            continue
        if not line.startswith(" "):
            named = OUTER.match(line)
            outer, inner = named[1] if named else line, ""
        elif found := INNER.match(line):
            inner = found[1]
        items.setdefault((outer, inner), []).extend([*ahead, line])
        ahead = []
    return items


def definitions_by_name(lines):
    """The definitions of a file: the lines of each by its name, its cases among them."""
    items, name = {}, ""
    for line in lines:
        name = DEFINED.match(line)[1] if not line.startswith((" ", "(", "}")) and DEFINED.match(line) else name
        items.setdefault(name, []).append(line)
    return items


def is_other(before, after):
    """Whether something that both have is not the same in both."""
    return any(before[name] != after[name] for name in before.keys() & after.keys())


def changes(path, before, after, laws):
    """Whether the code or the statements of a crate's file changed, and whether its face did. A text is empty where there is no file."""
    if path.endswith(".antt"):
        (old, had), (new, has) = definitions_in(before), definitions_in(after)
        face = is_other(definitions_by_name(old), definitions_by_name(new)) or is_other(had, has)
    elif path.endswith(".rt"):
        (old, had), (new, has) = code_in(before, laws), code_in(after, laws)
        try:
            face = is_other(items_in(without_bodies(old)), items_in(without_bodies(new))) or is_other(had, has)
        except (IndexError, ValueError):
            face = old != new
    else:
        return before != after, False
    return (old, had) != (new, has), face
