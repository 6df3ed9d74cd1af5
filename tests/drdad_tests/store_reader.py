"""A plain reader of a store's file, of layout 1 or 2, by docs/STORAGE.md: which tables and units in doubt it opens to, or at which offset it is
damaged.
A claim stands in a prepare as 00 read or 01 write, the table's name behind its length in one byte, and 00 for all of the table, or
01 and the key behind its length in two bytes."""
import struct
from collections import namedtuple

PAGE, OPEN_GATE = 8192, 0xA5
SMALLEST, LARGEST = 2 << 20, 1 << 30
COMMIT, PREPARE, DECIDE, HEURISTIC, FORGET = 1, 2, 3, 4, 5
# The kinds of records that a half may have, by the number that its header has for its layout.
KINDS = {0: (COMMIT, PREPARE, DECIDE), 2: (COMMIT, PREPARE, DECIDE, HEURISTIC, FORGET)}
OUTCOMES = {1: "committed", 2: "rolledback"}
CATALOGUE, ROWS = 1, 2
NUMBERS = {1: struct.Struct(">h"), 2: struct.Struct(">i"), 3: struct.Struct(">q")}
VARCHAR, VARBINARY = 4, 5
CAPITALS = b"ABCDEFGHIJKLMNOPQRSTUVWXYZ"
IN_NAMES = CAPITALS + b"0123456789_"
MOST_TABLES, MOST_IN_DOUBT = 1000, 256
LONGEST_ROW, LONGEST_KEY = 4000, 8012
ALL_NAMES = 1, b"*", None

Half = namedtuple("Half", "generation pages first_catalogue catalogue_pages layout")
Column = namedtuple("Column", "name kind takes_null length")
Schema = namedtuple("Schema", "columns key")
# A unit in doubt; of one that was decided heuristically there is the outcome alone.
Unit = namedtuple("Unit", "changes claims outcome", defaults=[None])
# What opens: tables by name, each a schema and its rows by keys; units in doubt by XIDs; the bytes that are left for records.
Store = namedtuple("Store", "name tables doubts room journal half")


class NotAStore(Exception):
    """The file is no store."""


class Damaged(Exception):
    """The offset at which a store is damaged."""


class NoValue(Exception):
    """No value stands there."""


def need(is_so):
    if not is_so:
        raise NoValue


class Front:
    """Bytes that are read from the front."""

    def __init__(self, data):
        self.data, self.at = data, 0

    def take(self, size):
        need(size <= len(self.data) - self.at)
        self.at += size
        return self.data[self.at - size:self.at]

    def number(self, size):
        return int.from_bytes(self.take(size), "big")

    def is_empty(self):
        return self.at == len(self.data)


# ---- rows, keys, schemas, changes, claims

def name_in(front):
    name = front.take(front.number(1))
    need(1 <= len(name) <= 30 and name[0] in CAPITALS and all(one in IN_NAMES for one in name))
    return bytes(name)


def schema_in(front):
    columns = []
    for _ in range(front.number(1)):
        name, kind, takes_null, length = name_in(front), front.number(1), front.number(1), front.number(2)
        need(kind in range(1, 6) and takes_null < 2 and (length == 0 if kind in NUMBERS else 1 <= length <= 2000))
        columns.append(Column(name, kind, bool(takes_null), length))
    key = tuple(front.number(1) for _ in range(front.number(1)))
    need(len(columns) <= 64 and len({one.name for one in columns}) == len(columns))
    need(1 <= len(key) <= 4 and len(set(key)) == len(key))
    need(all(place < len(columns) and not columns[place].takes_null for place in key))
    return Schema(tuple(columns), key)


def value_in(front, column):
    mark = front.number(1)
    if mark == 0xFF:
        need(column.takes_null)
        return None
    need(mark == 0)
    if column.kind in NUMBERS:
        return NUMBERS[column.kind].unpack(front.take(NUMBERS[column.kind].size))[0]
    data = bytes(front.take(front.number(2)))
    need(len(data) <= column.length)
    if column.kind == VARBINARY:
        return data
    try:
        return data.decode("utf-8")
    except UnicodeDecodeError:
        raise NoValue from None


def values_of(columns, data):
    front = Front(data)
    values = tuple(value_in(front, column) for column in columns)
    need(front.is_empty())
    return values


def row_in(schema, data):
    need(len(data) <= LONGEST_ROW)
    return values_of(schema.columns, data)


def key_columns(schema):
    return [schema.columns[place] for place in schema.key]


def order_of(values):
    """A key as it is ordered: texts by their bytes."""
    return tuple(one.encode() if isinstance(one, str) else one for one in values)


def change_in(front):
    code = front.number(1)
    name = name_in(front)
    if code == 1:
        return code, name, schema_in(front)
    need(code in (2, 3))
    data = bytes(front.take(front.number(2)))
    need(len(data) <= (LONGEST_ROW if code == 2 else LONGEST_KEY))
    return code, name, data


def claim_in(front):
    access = front.number(1)
    need(access < 2)
    table, scope = bytes(front.take(front.number(1))), front.number(1)
    need(scope < 2)
    return access, table, bytes(front.take(front.number(2))) if scope else None


def many(front, read):
    return [read(front) for _ in range(front.number(4))]


def xid_in(front):
    begin = front.at
    number, first, second = front.number(4), front.number(4), front.number(4)
    need(number != 0xFFFFFFFF and 1 <= first <= 64 and second <= 64)
    front.take(first + second)
    return bytes(front.data[begin:front.at])


# ---- the head and the halves

def head_of(image):
    if not SMALLEST <= len(image) <= LARGEST or image[:8] != b"DRDASTO1":
        raise NotAStore
    if image[8:12] != b"\0\0\0\1":
        raise Damaged(8)
    if int.from_bytes(image[12:20], "big") != len(image):
        raise Damaged(12)
    length = image[20]
    if not 1 <= length <= 18:
        raise Damaged(20)
    name = bytes(image[21:21 + length])
    if not all(0x21 <= one <= 0x7E for one in name):
        raise Damaged(21)
    return name


def half_at(image, at, size):
    """The half that begins at an offset, where its gate is open."""
    page = bytes(image[at:at + PAGE])
    if page[0] != OPEN_GATE:
        return None
    half = Half(*struct.unpack(">QIIII", page[1:25]))
    fits = PAGE * (1 + half.pages) + 1 <= size and half.first_catalogue + half.catalogue_pages <= half.pages
    if half.layout not in KINDS or not fits or page[25:].strip(b"\0"):
        raise Damaged(at)
    return half


def active_of(image):
    """The active half: where it begins, how many bytes it has, and its header."""
    size = PAGE * ((len(image) - PAGE) // (2 * PAGE))
    first, second = half_at(image, PAGE, size), half_at(image, PAGE + size, size)
    if first is None and second is None:
        raise Damaged(PAGE)
    if first and second and first.generation == second.generation:
        raise Damaged(PAGE + size)
    is_first = second is None or first is not None and first.generation > second.generation
    return (PAGE, size, first) if is_first else (PAGE + size, size, second)


# ---- pages

def page_rows(page, kind):
    front = Front(page)
    need(front.number(1) == kind)
    rows = [bytes(front.take(front.number(2))) for _ in range(front.number(2))]
    need(not page[front.at:].strip(b"\0"))
    return rows


def entry_in(row):
    front = Front(row)
    entry = name_in(front), schema_in(front), front.number(4), front.number(4)
    need(front.is_empty())
    return entry


def are_listed(entries, last):
    names, after = [entry[0] for entry in entries], 0
    need(all(one < other for one, other in zip(names, names[1:])))
    for _, _, first, pages in entries:
        need(first == (after if pages else 0) and after + pages <= last)
        after += pages
    return after


def pages_of(image, at, half):
    """The tables that the pages of a half have; raises Damaged at the first bad page."""
    end = half.first_catalogue + half.catalogue_pages

    def page(number):
        return bytes(image[at + PAGE * number:at + PAGE * (number + 1)])

    for number in range(half.pages):
        try:
            need(number < end)
            need(page_rows(page(number), ROWS if number < half.first_catalogue else CATALOGUE))
        except NoValue:
            raise Damaged(at + PAGE * number) from None
    if end != half.pages:
        raise Damaged(at + PAGE * half.pages)
    entries = []
    for number in range(half.first_catalogue, end):
        try:
            entries += map(entry_in, page_rows(page(number), CATALOGUE))
            are_listed(entries, half.first_catalogue)
        except NoValue:
            raise Damaged(at + PAGE * number) from None
    tables, number = {}, 0
    for name, schema, _, pages in entries:
        rows = {}
        for number in range(number, number + pages):
            try:
                add_rows(schema, rows, page_rows(page(number), ROWS))
            except NoValue:
                raise Damaged(at + PAGE * number) from None
        tables[name] = schema, rows
        number = are_listed(entries[:len(tables)], half.first_catalogue)
    if number != half.first_catalogue:
        raise Damaged(at + PAGE * number)
    return tables


def add_rows(schema, rows, found):
    need(found)
    for data in found:
        values = row_in(schema, data)
        key = tuple(values[place] for place in schema.key)
        need(not rows or order_of(next(reversed(rows))) < order_of(key))
        rows[key] = values


# ---- the journal

def records_of(image, at, end, layout):
    """The records of a journal of a layout: the offset of each one's gate, its kind and its body; and the offset of the closed gate behind them."""
    found = []
    while image[at] == OPEN_GATE:
        kind, size = (image[at + 1], int.from_bytes(image[at + 2:at + 6], "big")) if at + 6 < end else (0, 0)
        if kind not in KINDS[layout] or at + 6 + size >= end:
            raise Damaged(at)
        found.append((at, kind, bytes(image[at + 6:at + 6 + size])))
        at += 6 + size
    return found, at


def placed(tables, change):
    """The tables with a change, which has to have a place in them."""
    code, name, what = change
    if code == 1:
        need(name not in tables and len(tables) < MOST_TABLES)
        return {**tables, name: (what, {})}
    need(name in tables)
    schema, rows = tables[name]
    rows = dict(rows)
    if code == 2:
        values = row_in(schema, what)
        rows[tuple(values[place] for place in schema.key)] = values
    else:
        rows.pop(values_of(key_columns(schema), what), None)
    return {**tables, name: (schema, rows)}


def all_placed(tables, changes):
    """The tables with these changes, each of which has to have a place behind those before it."""
    for change in changes:
        tables = placed(tables, change)
    return tables


def applied(tables, changes):
    """The tables with these changes, of which one without a place does nothing."""
    for change in changes:
        try:
            tables = placed(tables, change)
        except NoValue:
            pass
    return tables


def step(tables, doubts, kind, body):
    """The tables and the units in doubt behind a record."""
    front = Front(body)
    if kind == COMMIT:
        changes = many(front, change_in)
        need(front.is_empty())
        return all_placed(tables, changes), doubts
    xid = xid_in(front)
    if kind == PREPARE:
        claims, changes = many(front, claim_in), many(front, change_in)
        need(front.is_empty() and xid not in doubts and len(doubts) < MOST_IN_DOUBT)
        need(all(change[0] != 1 for change in changes) or ALL_NAMES in claims)
        all_placed(tables, changes)
        return tables, {**doubts, xid: Unit(changes, claims)}
    left = {one: unit for one, unit in doubts.items() if one != xid}
    if kind == FORGET:
        need(front.is_empty() and xid in doubts and doubts[xid].outcome)
        return tables, left
    decision = front.number(1)
    need(front.is_empty() and decision in OUTCOMES)
    if kind == HEURISTIC:
        left[xid] = Unit([], [], decision)
        if xid not in doubts:
            need(len(doubts) < MOST_IN_DOUBT)
            return tables, left
    need(xid in doubts and not doubts[xid].outcome)
    return applied(tables, doubts[xid].changes) if decision == 1 else tables, left


def held_for(layout, xid, unit):
    """The bytes that are held back for a unit in doubt: for its decision, and in layout 2 for its forgetting too."""
    decision, forgetting = 7 + len(xid), 6 + len(xid)
    return (0 if unit.outcome else decision) + (forgetting if layout == 2 else 0)


def opened(image):
    """What a file opens to; raises NotAStore or Damaged."""
    name = head_of(image)
    half_begin, size, half = active_of(image)
    begin, end = half_begin + PAGE * (1 + half.pages), half_begin + size
    tables, doubts, holders = pages_of(image, half_begin + PAGE, half), {}, {}
    records, closed = records_of(image, begin, end, half.layout)
    for at, kind, body in records:
        try:
            tables, doubts = step(tables, doubts, kind, body)
        except NoValue:
            raise Damaged(at) from None
        if kind in (PREPARE, HEURISTIC):
            holders[xid_in(Front(body))] = at
    room = end - closed - 1 - sum(held_for(half.layout, *one) for one in doubts.items())
    if room < 0:
        raise Damaged(max(holders[xid] for xid in doubts))
    return Store(name.decode(), tables, dict(sorted(doubts.items())), room, end - begin, size)


def room_lines(store, size):
    """What `drdad room` tells of a file of so many bytes."""
    full = f"room {store.room} of {store.journal}\ntables {store.half - store.journal} of {store.half}"
    return f"name {store.name}\nsize {size}\n{full}\nindoubt {len(store.doubts)}\n"


def doubt_lines(doubts):
    """What `drdad indoubt` lists."""
    lines = ""
    for xid, unit in doubts.items():
        lines += " ".join([*words_of(xid), *([OUTCOMES[unit.outcome]] if unit.outcome else [])]) + "\n"
    return lines


def words_of(xid):
    """An XID in the words that `drdad indoubt` prints and `drdad decide` takes."""
    number, first, _ = struct.unpack_from(">III", xid)
    return str(number), xid[12:12 + first].hex() or "-", xid[12 + first:].hex() or "-"
