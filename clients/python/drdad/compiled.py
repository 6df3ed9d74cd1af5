"""Functions made for the types of a row: they read the rows of a block, and write rows of parameters, in one pass. Their texts are put
together here from nothing but the numbers of types and columns."""
import functools, struct

# What is packed of a type that has one size, and its bytes.
FIXED = {"i2": ("h", 2), "i4": ("i", 4), "i8": ("q", 8)}
TEXT, BYTES = "text", "bytes"
ROW = 0xFF00


class Unread(Exception):
    """A row is not plain here: it has a NULL, or is none."""


READER = """
def read(data, at, end, rows):
    add = rows.append
    while at < end:
{unpacks}
        add(({values},))
    return at
"""


def _groups(columns):
    """Columns in groups, each of which ends with one whose length varies, or with the row."""
    group = []
    for place, column in enumerate(columns):
        group.append((place, *column))
        if column[0] not in FIXED:
            yield group
            group = []
    if group:
        yield group


@functools.lru_cache(maxsize=256)
def reader_of(columns):
    """A function that reads rows of these columns, each a kind, its length and whether it takes NULL: of bytes, the place to begin at, the
    end, and a list that takes the rows. It gives the place where it ended. It raises Unread with the place of a row that it can't
    read: the rows before are in the list."""
    lines, names = [], {"Unread": Unread, "ROW": ROW}
    for number, group in enumerate(_groups(columns)):
        _unpack_group(number, group, lines, names)
    values = ", ".join(f"v{place}" for place in range(len(columns)))
    source = READER.format(unpacks="\n".join(lines), values=values)
    exec(compile(source, "<reader>", "exec"), names)  # noqa: S102
    return names["read"]


def _unpack_group(number, group, lines, names):
    """The lines that unpack a group of columns: what is fixed by one call, then the value behind it."""
    form, taken, marks = ">", [], []
    if number == 0:
        form, taken = ">H", ["row"]
        lines.append("        start = at")
        marks.append("row != ROW")
    for place, kind, length, takes_null in group:
        if takes_null:
            form, taken = form + "B", [*taken, f"m{place}"]
            marks.append(f"m{place}")
        form, taken = form + FIXED.get(kind, ("H",))[0], [*taken, f"v{place}" if kind in FIXED else "size"]
    place, kind, length, _ = group[-1]
    if kind not in FIXED:
        marks.append(f"size > {length}")
    names[f"unpack{number}"] = struct.Struct(form).unpack_from
    lines.append(f"        {', '.join(taken)}{',' if len(taken) == 1 else ''} = unpack{number}(data, at)")
    if marks:
        lines += [f"        if {' or '.join(marks)}:", "            raise Unread(start)"]
    size = struct.calcsize(form)
    if kind in FIXED:
        lines.append(f"        at += {size}")
        return
    lines += [f"        low = at + {size}", "        at = low + size"]
    lines.append(f"        v{place} = data[low:at]" + (".decode()" if kind == TEXT else ""))


WRITER = """
def write(row):
    {names}, = row
{encodes}
    return {packs}
"""


@functools.lru_cache(maxsize=256)
def writer_of(types, heads, longest):
    """A function that writes a row of values of these types, each int, str, bytes or that of None, as an object: `heads` gives
    the bytes in front of the values, and its fields that count what is behind them, as pairs of a format and what they count
    beside the values. It raises OverflowError where a value is longer than `longest` bytes, struct.error where a number is out
    of range."""
    names, encodes, packs, sizes = {}, [], [], []
    for place, kind in enumerate(types):
        if kind is str:
            encodes.append(f"    v{place} = v{place}.encode()")
        if kind in (str, bytes):
            encodes += [f"    n{place} = len(v{place})", f"    if n{place} > {longest}:", f"        raise OverflowError({place})"]
            sizes.append(f"n{place}")
    form, values = _head(heads, 8 * types.count(int) + 2 * len(sizes) + types.count(type(None)), sizes, names)
    for place, kind in enumerate(types):
        letter, value = {int: ("q", f"v{place}"), type(None): ("B", "255")}.get(kind, ("H", f"n{place}"))
        form, values = form + letter, [*values, value]
        if letter == "H" or place == len(types) - 1:
            names[f"pack{place}"] = struct.Struct(">" + form).pack
            packs.append(f"pack{place}({', '.join(values)})" + (f" + v{place}" if letter == "H" else ""))
            form, values = "", []
    source = WRITER.format(
        names=", ".join(f"v{place}" for place in range(len(types))), encodes="\n".join(encodes) or "    pass", packs=" + ".join(packs))
    exec(compile(source, "<writer>", "exec"), names)  # noqa: S102
    return names["write"]


def _head(heads, fixed, sizes, names):
    """The format of what stands in front of the values, and what is packed there."""
    form, values = "", []
    behind = "".join(f" + {size}" for size in sizes)
    for number, (one, beside) in enumerate(heads):
        form += one
        if isinstance(beside, int):
            values.append(f"{beside + fixed}{behind}")
        else:
            names[f"h{number}"] = beside
            values.append(f"h{number}")
    return form, values
