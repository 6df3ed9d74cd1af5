"""Statements that say more than the server's grammar has: IN, `!=`, ORDER BY, LIMIT and OFFSET. Each is read once, and gives the
statements that the server takes, and what is to be done with their rows."""
import functools, re
from collections import namedtuple

MOST_MARKERS = 128

# A token with the blanks in front of it.
TOKEN = re.compile(r"[ \t\r\n]*(?:[xX]?'(?:[^']|'')*'|[A-Za-z][A-Za-z0-9_]*|[0-9]+|<=|>=|<>|!=|[^ \t\r\n])")
BEYOND_THE_GRAMMAR = re.compile(r"\b(?:IN|ORDER|LIMIT|OFFSET)\b|!=", re.IGNORECASE)
# One name where sums, parentheses and functions are none.
NAME = re.compile(r"(?!(?:NOT|NULL|AND|OR|IS|WHERE)$)[A-Z][A-Z0-9_]*")
VALUE = re.compile(r"\?|-?[0-9]+|X?'.*'", re.DOTALL)

Order = namedtuple("Order", "name is_descending")


def _word(token):
    """A token in capitals, where it is no literal, without its blanks."""
    token = token.strip()
    return token if token.endswith("'") else token.upper()


class InList:
    """`name IN (item, ..)` or `name NOT IN (item, ..)`, and the place of its first marker among those of the statement."""

    def __init__(self, name, is_negated, items, first_marker):
        self.name, self.is_negated, self.items, self.first_marker = name, is_negated, items, first_marker
        self.markers = items.count("?")

    @property
    def can_be_cut(self):
        """Whether a row that matches is one of one item, and of no other: items that are markers are compared before they are sent."""
        return not self.is_negated and self.markers == len(self.items)

    def text(self, items):
        """The comparisons that it stands for. One alone has no parentheses, so that it can fix a key."""
        compared, joined = ("<>", " AND ") if self.is_negated else ("=", " OR ")
        text = joined.join(f"{self.name} {compared} {item}" for item in items)
        return f" {text}" if len(items) == 1 else f" ({text})"

    def given(self, parameters):
        """The parameters of its markers, each once."""
        return list(dict.fromkeys(parameters[self.first_marker:self.first_marker + self.markers]))


class Statement:
    """A statement as tokens and lists, and what stands behind its WHERE."""

    def __init__(self, pieces, order=(), limit=None, offset=None):
        self.pieces, self.order, self.limit, self.offset = pieces, order, limit, offset
        self.is_select = _word(pieces[0]) == "SELECT"
        self.hidden = self._show_order() if order else 0
        self.markers = sum(piece.markers if isinstance(piece, InList) else _plain(piece) == "?" for piece in pieces)
        self.lists, self.fixed = _conjunction(pieces)

    def _show_order(self):
        """Selects the columns that rows are sorted by, where they are not selected; how many were added."""
        words = list(map(_plain, self.pieces))
        at = words.index("FROM")
        selected = words[1:at]
        added = [] if selected == ["*"] else [name for name in dict.fromkeys(order.name for order in self.order) if name not in selected]
        self.pieces[at:at] = [f", {name}" for name in added]
        return len(added)

    def whole(self, parameters, cut=None, given=()):
        """The statement as the server takes it, and its parameters; of one list, where it is cut, only those that are given."""
        text = "".join(
            piece if isinstance(piece, str) else piece.text(["?"] * len(given) if piece is cut else piece.items) for piece in self.pieces)
        values = list(parameters[:self.markers])
        if cut is not None:
            values[cut.first_marker:cut.first_marker + cut.markers] = given
        return text, values

    def parts(self, parameters, key=()):
        """The statements whose rows together are those of this one. Where lists and equations fix the key, each fixes one key,
        and so claims that alone; where there are more markers than the server takes, each has as many as it takes."""
        cut, size = self._cut(key)
        if cut is None:
            yield self.whole(parameters)
            return
        given = cut.given(parameters)
        for at in range(0, len(given), size):
            yield self.whole(parameters, cut, given[at:at + size])

    def _cut(self, key):
        """The list that is cut, and how many items go together."""
        of_key = [one for one in self.lists if one.name in key and set(key) <= self.fixed | {one.name}]
        if of_key:
            return of_key[0], 1
        if self.markers > MOST_MARKERS and self.lists:
            longest = max(self.lists, key=lambda one: one.markers)
            return longest, max(1, MOST_MARKERS - (self.markers - longest.markers))
        return None, 0

    def window(self, parameters):
        """How many rows are left out, and behind which the statement ends (None: behind all)."""
        counts = iter(parameters[self.markers:])
        limit, offset = (next(counts) if count == "?" else count for count in (self.limit, self.offset))
        first = int(offset or 0)
        return first, None if limit is None else first + int(limit)

    def arranged(self, rows, names):
        """The rows in the order that was asked for. NULL stands above all values."""
        for order in reversed(self.order):
            place = names.index(order.name)
            rows.sort(key=lambda row: (row[place] is None, 0 if row[place] is None else row[place]), reverse=order.is_descending)
        return [row[:-self.hidden] for row in rows] if self.hidden else rows


def _plain(piece):
    return _word(piece) if isinstance(piece, str) else ""


@functools.lru_cache(maxsize=1000)
def read(text):
    """What a text says beyond the server's grammar; None where it says nothing of it, or what is not made here."""
    if not BEYOND_THE_GRAMMAR.search(text):
        return None
    tokens = TOKEN.findall(text)
    first = _word(tokens[0])
    if first not in ("SELECT", "UPDATE", "DELETE"):
        return None
    limit = offset = None
    order = ()
    if first == "SELECT":
        offset = _taken_count(tokens, "OFFSET")
        limit = _taken_count(tokens, "LIMIT")
        order = _taken_order(tokens)
    return Statement(_with_lists(tokens), order, limit, offset)


def _taken_count(tokens, word):
    """Takes a word and its count off the end. A count is a number or a marker; -1 is none."""
    words = list(map(_word, tokens[-3:]))
    if words == [word, "-", "1"]:
        del tokens[-3:]
    elif words[-2:-1] == [word] and re.fullmatch(r"\?|[0-9]+", words[-1]):
        del tokens[-2:]
        return words[-1] if words[-1] == "?" else int(words[-1])
    return None


def _taken_order(tokens):
    """Takes ORDER BY and its names off the end, where it has nothing but names."""
    words = list(map(_word, tokens))
    starts = [at for at in range(len(words) - 1) if words[at:at + 2] == ["ORDER", "BY"]]
    if not starts or "FROM" not in words:
        return ()
    found = [re.fullmatch(r"([A-Z][A-Z0-9_]*)(?: (ASC|DESC))?", " ".join(one)) for one in _parted(words[starts[-1] + 2:], ",")]
    if not all(found):
        return ()
    del tokens[starts[-1]:]
    return tuple(Order(one[1], one[2] == "DESC") for one in found)


def _with_lists(tokens):
    """The tokens, with an InList for each list behind WHERE, and `<>` for `!=`."""
    words, pieces, at, markers, is_where = list(map(_word, tokens)), [], 0, 0, False
    while at < len(tokens):
        found = _list_at(words, at, markers) if is_where else None
        if found:
            piece, at = found
            pieces.append(piece)
            markers += piece.markers
            continue
        is_where = is_where or words[at] == "WHERE"
        markers += words[at] == "?"
        pieces.append(" <>" if words[at] == "!=" else tokens[at])
        at += 1
    return pieces


def _list_at(words, at, markers):
    """The list that begins with the name at a place, and the place behind it."""
    is_negated = words[at + 1:at + 2] == ["NOT"]
    opens = at + 2 + is_negated
    if not NAME.fullmatch(words[at]) or words[opens - 1:opens + 1] != ["IN", "("] or ")" not in words[opens:]:
        return None
    closes = words.index(")", opens)
    items = list(map(_item, _parted(words[opens + 1:closes], ",")))
    return None if None in items else (InList(words[at], is_negated, items, markers), closes + 1)


def _parted(words, separator):
    """What stands between separators."""
    parts = [[]]
    for word in words:
        if word == separator:
            parts.append([])
        else:
            parts[-1].append(word)
    return parts


def _item(words):
    """A value or a name; None for all else."""
    if len(words) == 2 and words[0] == "-" and words[1].isdigit():
        return "-" + words[1]
    return words[0] if len(words) == 1 and (words == ["NULL"] or VALUE.fullmatch(words[0]) or NAME.fullmatch(words[0])) else None


def _conjunction(pieces):
    """Of a WHERE that is a conjunction: the lists that are a part of it, and the names that are equal to a value in it."""
    words = list(map(_plain, pieces))
    parts, depth = [[]], 0
    start = words.index("WHERE") + 1 if "WHERE" in words else len(words)
    for piece, word in zip(pieces[start:], words[start:]):
        depth += (word == "(") - (word == ")")
        if depth == 0 and word == "OR":
            return [], set()
        if depth == 0 and word == "AND":
            parts.append([])
        else:
            parts[-1].append(word or piece)
    lists = [part[0] for part in parts if len(part) == 1 and isinstance(part[0], InList) and part[0].can_be_cut]
    return lists, {name for part in parts for name in _fixed_by(part)}


def _fixed_by(part):
    """The name that an equation with a value fixes."""
    if len(part) == 3 and part[1] == "=" and not any(isinstance(word, InList) for word in part):
        ends = part[0], part[2]
        for name, value in (ends, ends[::-1]):
            if NAME.fullmatch(name) and VALUE.fullmatch(value):
                yield name
