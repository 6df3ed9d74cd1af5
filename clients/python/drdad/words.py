"""What the command lines of the package share: where a database is, and who asks."""
import argparse, getpass, os

from collections import namedtuple

from .addresses import address_of
from .errors import Error, ProgrammingError

Address = namedtuple("Address", "host port database")


def place(text):
    """HOST:PORT/RDB, or drdad://[USER[:PASSWORD]@]HOST[:PORT]/RDB."""
    try:
        return address_of(text)
    except Error as failure:
        raise argparse.ArgumentTypeError(str(failure)) from failure


def address(text):
    """The same where the user and the password are said elsewhere."""
    return Address(*place(text)[:3])


def add_user(parser, is_required=True):
    parser.add_argument("--user", required=is_required, help="the user's name")
    parser.add_argument("--password-file", metavar="FILE", help="a file whose first line is the password")
    parser.add_argument("--timeout", type=float, default=10.0, metavar="SECONDS", help="how long the server may be silent (10)")


def password_of(words):
    """The password: the first line of the file that is named, else DRDAD_PASSWORD of the environment, else what is typed at the
    terminal; where there is none, a ProgrammingError says what to do."""
    if words.password_file:
        with open(words.password_file, encoding="utf-8") as file:
            return file.readline().rstrip("\r\n")
    return os.environ.get("DRDAD_PASSWORD") or _typed_password()


def _typed_password():
    try:
        with open("/dev/tty", "r+b", buffering=0):
            pass
        return getpass.getpass()
    except (OSError, EOFError, KeyboardInterrupt) as fault:
        raise ProgrammingError("no password: say --password-file FILE, or set DRDAD_PASSWORD; here is no terminal to ask at") from fault

