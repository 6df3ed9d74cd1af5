"""Many rows in units that the server takes: the changes of a unit are at most 1,048,576 bytes."""

ROWS_AT_ONCE = 1000
BYTES_AT_ONCE = 262144
BYTES_OF_A_NUMBER = 8
# What a value takes in a record beside its bytes, and more.
BESIDE_A_VALUE = 16


def size_of(row):
    """No fewer bytes than a row takes in the record of its unit, but for the name of its table."""
    return sum(BESIDE_A_VALUE + _bytes_of(value) for value in row)


def _bytes_of(value):
    if isinstance(value, str):
        return len(value.encode("utf-8", "replace"))
    return len(value) if isinstance(value, bytes) else BYTES_OF_A_NUMBER


def in_units(rows, row_of=lambda row: row):
    """Lists of rows, each as long as one unit takes easily. `row_of` gives the row of an item that is more than one."""
    some, size = [], 0
    for item in rows:
        some.append(item)
        size += size_of(row_of(item))
        if len(some) == ROWS_AT_ONCE or size > BYTES_AT_ONCE:
            yield some
            some, size = [], 0
    if some:
        yield some
