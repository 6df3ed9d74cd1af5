"""Where a database is: URLs, and what stands for what they leave out."""
import os, re
import urllib.parse
from collections import namedtuple

from .errors import ProgrammingError

Address = namedtuple("Address", "host port database user password", defaults=(None, None))

HOST, PORT = "127.0.0.1", 1527
SCHEME = "drdad://"
SHORT = re.compile(r"(.+):(\d{1,5})/(\S{1,18})")


def address_of(text):
    """HOST:PORT/RDB, or drdad://[USER[:PASSWORD]@]HOST[:PORT]/RDB, where the host and the port may be left out."""
    if text.startswith(SCHEME):
        return _of_url(text)
    found = SHORT.fullmatch(text)
    if not found:
        raise ProgrammingError(f"{text!r} is not HOST:PORT/RDB, nor {SCHEME}USER@HOST:PORT/RDB")
    return Address(found[1], int(found[2]), found[3])


def _of_url(text):
    parts = urllib.parse.urlsplit(text)
    try:
        port = parts.port or PORT
    except ValueError as fault:
        raise ProgrammingError(f"{text!r} has no port below 65536") from fault
    database = urllib.parse.unquote(parts.path[1:])
    if not database or parts.query or parts.fragment:
        raise ProgrammingError(f"{text!r} is not {SCHEME}USER@HOST:PORT/RDB")
    user, password = (None if one is None else urllib.parse.unquote(one) for one in (parts.username, parts.password))
    return Address(parts.hostname or HOST, port, database, user, password)


def completed(host, port, database, user, password):
    """What connect() was given, as an address: what a URL has fills what was not said, then DRDAD_URL and DRDAD_PASSWORD of the
    environment, then the usual host and port."""
    given = Address(host, port, database, user, password)
    if host is not None and host.startswith(SCHEME):
        given = given._replace(host=None)
        given = _filled(given, address_of(host))
    if os.environ.get("DRDAD_URL"):
        given = _filled(given, address_of(os.environ["DRDAD_URL"]))
    given = _filled(given, Address(HOST, PORT, None, None, os.environ.get("DRDAD_PASSWORD")))
    missing = [name for name, value in given._asdict().items() if value is None]
    if missing:
        wanted = f'connect("{SCHEME}USER@HOST:PORT/RDB", password=..)'
        raise ProgrammingError(f"connect() is told no {' and no '.join(missing)}: say {wanted}")
    return given


def _filled(given, others):
    return Address(*[other if one is None else one for one, other in zip(given, others)])
