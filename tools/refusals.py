"""The refusals that product code makes, by its tokens (tools/check_refusals)."""
import collections, pathlib, re

from crates import crates_now

TOP = pathlib.Path(__file__).resolve().parent.parent
# Words of an excuse, by what it is an excuse of.
KINDS = {
    "memory": "AllocError AllocFailed NoMemory Memory OutOfMemory no_memory ResourceLimit",
    "device": "DiskFault DeviceFailed Device AgentFailed",
    **{word: word for word in "Full Later Short Closed Alone Damaged".split()},
}
KIND_OF = {word: kind for kind, words in KINDS.items() for word in words.split()}
# AllocFailed and DiskFault are handed on alone: who makes one makes the other word.
EXCUSES = set(KIND_OF) - {"AllocFailed", "DiskFault"}
HANDED_ON = {"AllocError", "AllocFailed", "DiskFault"}
TOKEN = re.compile(r"//[^\n]*|\"(?:\\.|[^\"\\])*\"|b?'(?:\\.|[^'\\])'|\w+|=>|::|->|[<>=!]=|&&|\|\||[^\s\w]")
NO_VALUE_BEHIND = {":", "<", "->", "fn", "for", "impl"}
ENDS = {"ensures": "}", "requires": "}", "invariant": "}", "ghost": "}", "enum": "}", "struct": "}", "use": ";"}
OPEN, CLOSED = "([{", ")]}"
# Calls that take memory, and what makes one of their arguments a refusal.
TAKING = {"reserve", "with_capacity", "resize"}
GREEDY = {"if", "match", "MAX", "&&", "||", "<", ">", "<=", ">=", "==", "!=", "then_some", "unwrap_or", "saturating_mul", "pow", "<<"}
PLAIN = re.compile(r"[\w.&*:]+|\w+\(\)")
COMPARES = {"<", ">", "<=", ">=", "==", "!="}


def partner(tokens, at, step=1):
    """The place of the bracket that belongs to the one here."""
    depth = 0
    while True:
        depth += {"(": 1, "[": 1, "{": 1, ")": -1, "]": -1, "}": -1}.get(tokens[at], 0)
        if not depth:
            return at
        at += step


def code_of(text):
    """The tokens of functions: without comments, texts, clauses, ghost items, types and imports."""
    tokens, kept, at = [it for it in TOKEN.findall(text) if not it.startswith(("//", '"'))], [], 0
    while at < len(tokens):
        if tokens[at] in ENDS:
            while tokens[at] not in "{;":
                at += 1
            at = partner(tokens, at) if tokens[at] == "{" else at
        else:
            kept.append(tokens[at])
        at += 1
    return kept


def spelled(tokens):
    """Tokens as they would be written."""
    text = " ".join(tokens)
    text = re.sub(r" (::|\.|\?|;|,|\)|\]|\()", r"\1", text)
    return re.sub(r"(::|\.|\(|\[|&|!) ", r"\1", text)


class Code:
    """The tokens of a file, with its functions and the arms of its matches."""

    def __init__(self, text):
        self.tokens = code_of(text)
        self.arms = list(self._arms())
        self.functions = list(self._functions())

    def _arms(self):
        """For each arm of a match where its pattern begins, where its `=>` is, and where its value ends."""
        tokens = self.tokens
        for arrow in (at for at, it in enumerate(tokens) if it == "=>"):
            first = arrow - 1
            while tokens[first] not in "{," and not (tokens[first] == "}" and tokens[first + 1] not in ("=>", "|", "if")):
                first = (partner(tokens, first, -1) if tokens[first] in CLOSED else first) - 1
            last = arrow + 1
            while tokens[last] not in ",)]}":
                last = partner(tokens, last) if tokens[last] in OPEN else last
                last += 1
            yield first + 1, arrow, last

    def _functions(self):
        """The name of each function, and where its head begins and its body does and ends."""
        for at, word in enumerate(self.tokens):
            if word == "fn":
                body = at
                while self.tokens[body] not in "{;":
                    body = partner(self.tokens, body) if self.tokens[body] in "([" else body
                    body += 1
                if self.tokens[body] == "{":
                    yield self.tokens[at + 1], at, body, partner(self.tokens, body)

    def function_at(self, at):
        """The function whose body has this place, the innermost; an empty name outside of all."""
        around = [(first, name) for name, first, _, last in self.functions if first <= at <= last]
        return max(around, default=(0, ""))[1]

    def is_pattern(self, at):
        if any(first <= at < arrow for first, arrow, _ in self.arms):
            return True
        # Between `let` and its `=`.
        back = at
        while back > 0 and self.tokens[back] not in (";", "{", "}", "=", "let"):
            back -= 1
        return self.tokens[back] == "let"

    def is_type(self, at):
        return self.tokens[at - 1] in NO_VALUE_BEHIND or self.tokens[at - 1 : at + 2 : 2] == [",", ">"]

    def is_handed_on(self, at):
        """Whether an arm whose pattern names an excuse of the same kind tells this one."""
        kind = KIND_OF[self.tokens[at]]
        return any(arrow < at < last and kind in {KIND_OF.get(it) for it in self.tokens[first:arrow]} for first, arrow, last in self.arms)

    def is_made_from(self, at):
        """Whether this stands in `fn from` of an excuse of the same kind."""
        for name, first, body, last in self.functions:
            if name == "from" and body < at < last:
                kinds = {KIND_OF[it] for it in self.tokens[first:body] if it in HANDED_ON}
                return KIND_OF[self.tokens[at]] in kinds
        return False

    def excuses(self):
        """The places of the excuses that are made here, and not handed on."""
        for at, word in enumerate(self.tokens):
            if word in EXCUSES and not self.is_type(at) and not self.is_pattern(at) and not self.is_handed_on(at) and not self.is_made_from(at):
                yield at

    def nothings(self, types):
        """The places of the values `Nothing` of these types."""
        return [at for at, word in enumerate(self.tokens) if word == "Nothing" and self.tokens[at - 2] in types and not self.is_pattern(at)]

    def refused_nothings(self, types):
        """The types of whose `Nothing` an excuse is made here, or a `Nothing` of one of these types."""
        makes = {*self.excuses(), *self.nothings(types)}
        for first, arrow, last in self.arms:
            if any(arrow < at < last for at in makes):
                yield from (self.tokens[at - 2] for at in range(first, arrow) if self.tokens[at] == "Nothing")

    def nones(self, names):
        """The places of the values `None` in functions of these names."""
        return [at for at, word in enumerate(self.tokens) if word == "None" and self.function_at(at) in names and not self.is_pattern(at)]

    def refused_nones(self):
        """The names of the functions of whose `None` an excuse is made here."""
        tokens = self.tokens
        for at in self.excuses():
            first, last = self.statement(at)
            said = tokens[first:last]
            if "ok_or" in said or "ok_or_else" in said:
                yield from called(said[: said.index("ok_or") if "ok_or" in said else said.index("ok_or_else")])
            for name, _, body, end in self.functions:
                if body < at < end:
                    yield from self._refused_around(at, body)

    def _refused_around(self, at, body):
        """The functions that are called where a `let Some(..) = .. else` or an arm of `None` around this place begins."""
        tokens = self.tokens
        for first, arrow, last in self.arms:
            if arrow < at < last and tokens[first:arrow] == ["None"]:
                head = first
                while tokens[head] != "{":
                    head = (partner(tokens, head, -1) if tokens[head] in CLOSED else head) - 1
                back = head
                while tokens[back] != "match":
                    back -= 1
                yield from called(tokens[back + 1 : head])
        for start in (it for it in range(body, at) if tokens[it] == "let" and tokens[it + 1] == "Some"):
            stop = self.else_of(start)
            if stop and stop < at < partner(tokens, stop + 1):
                yield from called(tokens[tokens.index("=", start) + 1 : stop])

    def else_of(self, at):
        """The place of the `else` of a `let .. else` that begins here; none where there is none."""
        tokens = self.tokens
        if tokens[at - 1] in ("if", "while", "&&"):
            return None
        while tokens[at] not in (";", "}"):
            if tokens[at] == "else" and tokens[at - 1] != "}":
                return at
            at = partner(tokens, at) if tokens[at] in OPEN else at
            at += 1
        return None

    def statement(self, at):
        """Where the statement, or the value of an arm, begins and ends in which this stands."""
        tokens, first, last = self.tokens, at, at
        while tokens[first - 1] not in (";", "{", "}", "=>"):
            first = partner(tokens, first - 1, -1) if tokens[first - 1] in ")]" else first - 1
        depth = 0
        while tokens[last] not in (";", "}"):
            if tokens[last] in OPEN:
                last = partner(tokens, last)
            depth -= tokens[last] in ")]" and tokens[last] not in OPEN
            last += 1
            if tokens[last] == "," and tokens[first - 1] == "=>" and self._is_level(first, last):
                break
        return first, last

    def _is_level(self, first, last):
        return sum(it in OPEN for it in self.tokens[first:last]) == sum(it in CLOSED for it in self.tokens[first:last])

    def head(self, at):
        """The tokens of an `if`, a `while` or a `match` up to its block."""
        end = at
        while self.tokens[end] != "{":
            end = partner(self.tokens, end) if self.tokens[end] in "([" else end
            end += 1
        return self.tokens[at:end]

    def conditions(self, body, end, made):
        """What the refusals of a function stand under, and these, in their order."""
        tokens, said = self.tokens, set()
        patterns = {arrow: first for first, arrow, _ in self.arms}
        for at in range(body, end):
            if tokens[at] in ("if", "while", "match") and not self._is_guard(at):
                yield spelled(self.head(at))
            elif tokens[at] == "=>":
                yield spelled(tokens[patterns[at] : at + 1])
            elif tokens[at] == "let" and self.else_of(at):
                yield spelled(tokens[at : self.else_of(at) + 1])
            if at in made:
                place = self.statement(at)
                if place not in said:
                    said.add(place)
                    yield spelled(tokens[place[0] : place[1]])

    def _is_guard(self, at):
        return self.tokens[at] == "if" and any(first < at < arrow for first, arrow, _ in self.arms)

    def takings(self):
        """The place of each call that takes memory, and its arguments."""
        tokens = self.tokens
        for at, word in enumerate(tokens):
            if word in TAKING and tokens[at + 1] == "(" and tokens[at - 1] != "fn":
                yield at, tokens[at + 2 : partner(tokens, at + 1)]

    def lengths(self):
        """The place and the condition of each `if` on a length that returns an Err."""
        tokens = self.tokens
        for at, word in enumerate(tokens):
            if word == "if" and not self._is_guard(at):
                head = self.head(at)
                then = tokens[at + len(head) + 1 :][:2]
                if "len" in head and COMPARES.intersection(head) and (then == ["return", "Err"] or then[:1] == ["Err"]):
                    yield at, head


def called(tokens):
    """The names of the functions that are called at the end of an expression."""
    for at in range(len(tokens) - 1, 0, -1):
        if tokens[at] == "(" and re.fullmatch(r"[a-z]\w*", tokens[at - 1]) and partner(tokens, at) >= len(tokens) - 2:
            yield tokens[at - 1]
            return


def is_greedy(arguments):
    numbers = [int(it.replace("_", "")) for it in arguments if re.fullmatch(r"[\d_]*\d", it)]
    return bool(GREEDY.intersection(arguments)) or any(it >= 1 << 31 for it in numbers)


class Product:
    """The code of all crates of the product."""

    def __init__(self):
        self._files, self._constants = {}, collections.defaultdict(dict)
        for path in sorted(TOP.glob("crates/*/src/**/*.rt")):
            crate = path.relative_to(TOP).parts[1]
            if not crate.endswith("_tests") and not crate.startswith("test_"):
                text = path.read_text()
                self._files[f"{crate}/{path.name}", str(path)] = Code(text)
                for name, value in re.findall(r"\bconst ([A-Z][A-Z0-9_]*): [^=;]+ =\s+([^;]+);", text):
                    self._constants[name][crate] = " ".join(value.split())
        self._nothings, grown = set(), True
        while grown:
            more = {it for code in self._files.values() for it in code.refused_nothings(self._nothings)} - self._nothings
            self._nothings, grown = self._nothings | more, bool(more)
        # By crate, the functions that stand in it or below it and of whose `None` an excuse is made there.
        below, self._names = crates_now(), collections.defaultdict(set)
        for (file, _), code in self._files.items():
            crate, names = file.partition("/")[0], set(code.refused_nones())
            for it in (crate, *below.get(crate, [])):
                self._names[it] |= names

    def _made(self, file, code):
        """The places of all that refuses, or makes whoever is called refuse."""
        greedy = [at for at, arguments in code.takings() if is_greedy(arguments)]
        return sorted({*code.excuses(), *code.nothings(self._nothings), *code.nones(self._names[file.partition("/")[0]]), *greedy})

    def refusals(self):
        """How many refusals each function makes."""
        found = collections.Counter()
        for (name, _), code in self._files.items():
            found.update(f"{name} {code.function_at(at)}" for at in self._made(name, code))
        return found

    def shapes(self):
        """Each function that makes refusals, takes memory by more than a name, or limits a length, with what it does."""
        for (file, _), code in self._files.items():
            made, items = self._made(file, code), {}
            for name, first, body, end in code.functions:
                own = [at for at in made if body < at < end and code.function_at(at) == name]
                if own:
                    items.setdefault(name, []).extend(code.conditions(body, end, own))
            for at, arguments in code.takings():
                if not PLAIN.fullmatch(spelled(arguments)):
                    items.setdefault(code.function_at(at), []).append(f"{code.tokens[at]}({spelled(arguments)})")
            for at, head in code.lengths():
                if spelled(head) not in items.get(code.function_at(at), []):
                    items.setdefault(code.function_at(at), []).append(spelled(head))
            for name in sorted(items):
                yield f"{file} {name}", [*items[name], *self._values(file.partition("/")[0], items[name])]

    def _values(self, crate, items):
        """The values of the constants that are named."""
        for name in sorted({it for item in items for it in re.findall(r"\b[A-Z][A-Z0-9_]+\b", item)} & self._constants.keys()):
            places = self._constants[name]
            values = [places[crate]] if crate in places else sorted(set(places.values()))
            yield f"{name} = {' or '.join(values)}"
