"""Transaction IDs of this package: a format number, the number of the unit with the name of its log, and the name of the resource."""
import drdad

# "TXLG": units of other managers are left alone.
FORMAT = 0x54584C47
LONGEST_NAME = 64


def checked_name(name):
    """The name of a resource, which is a part of each transaction ID there."""
    if not name.isascii() or not name.isprintable() or " " in name or not 0 < len(name) <= LONGEST_NAME:
        raise ValueError(f"{name!r} names no resource: a name has 1 to {LONGEST_NAME} letters, digits and signs, and no blank")
    return name


def xid_of(connection, unit, name):
    """The transaction ID of a unit's branch as a connection spells it: drdad takes bytes, other drivers take texts."""
    parts = (unit, name)
    if isinstance(connection, drdad.Connection):
        parts = (part.encode("ascii") for part in parts)
    return connection.xid(FORMAT, *parts)


def unit_of(xid, name):
    """The unit whose branch at a resource an ID names; None where it is none of this package's."""
    number, *parts = xid
    unit, resource = (part.decode("latin-1") if isinstance(part, bytes) else part for part in parts)
    return unit if number == FORMAT and resource == name else None
