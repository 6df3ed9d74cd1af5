"""drdad-shell drdad://USER@HOST:PORT/RDB, or python3 -m drdad: the shell. A password that is not in a file is asked for, or read from the
environment variable DRDAD_PASSWORD. Status 0; 1 where something failed, 2 where no connection came."""
import argparse, os, sys

from . import Connection, dump, terminal
from .errors import Error, ProgrammingError
from .layouts import LAYOUTS, shown
from .shell import Shell
from .version import __version__
from .words import add_user, password_of, place

DESCRIPTION = "A shell for drdad, the DRDA server. Without -c and -f it takes what is typed, or a script on standard input."


class InOrder(argparse.Action):
    """Gathers -c and -f in the order in which they stand."""

    def __call__(self, parser, words, value, option=None):
        words.asked = [*(words.asked or ()), (option, value)]


def words_of(arguments):
    parser = argparse.ArgumentParser(prog="drdad-shell", description=DESCRIPTION)
    parser.add_argument("place", type=place, metavar="ADDRESS", help="HOST:PORT/RDB, or drdad://USER@HOST:PORT/RDB")
    add_user(parser, is_required=False)
    parser.add_argument("-c", dest="asked", action=InOrder, metavar="SQL", help="does this, and ends; several stand in their order")
    parser.add_argument("-f", dest="asked", action=InOrder, metavar="FILE", help="does what a file asks, and ends")
    parser.add_argument("--dump", nargs="+", metavar="TABLE", help="writes these tables as SQL, all of one moment, and ends")
    layout = parser.add_mutually_exclusive_group()
    layout.add_argument("--csv", dest="layout", action="store_const", const="csv", help="rows as CSV, and nothing beside them")
    layout.add_argument("--plain", dest="layout", action="store_const", const="plain", help="rows with tabs, and nothing beside them")
    parser.add_argument("--keep-going", action="store_true", help="a script goes on behind a failure")
    parser.add_argument("--version", action="version", version=f"drdad-shell {__version__}")
    words = parser.parse_args(arguments)
    words.user = words.user or words.place.user
    if words.user is None:
        parser.error("the user is not said: --user NAME, or drdad://NAME@HOST:PORT/RDB")
    return words


def connector(words):
    """A call that makes a connection; the password is asked for once."""
    password = (words.place.password if not words.password_file else None) or password_of(words)
    return lambda: Connection(*words.place[:3], words.user, password, words.timeout, autocommit=True)


def run_asked(shell, asked):
    """Does what the command line asks for, as long as the shell goes on."""
    for option, text in asked:
        try:
            goes_on = shell.run_file(text) if option == "-f" else shell.run(text.splitlines(True), "", ends_anywhere=True)
        except (OSError, UnicodeError) as fault:
            shell.say(f"drdad-shell: {text}: {fault}")
            shell.has_failed = goes_on = True
            goes_on = shell.keeps_going
        if not goes_on:
            return


def main(arguments=None):
    words = words_of(arguments)
    if words.dump:
        return dump.run(connector(words), words.dump)
    is_typed = not words.asked and sys.stdin.isatty()
    # A script is UTF-8, and what is not is told by the statement that it stands in; what can't be shown is spelled out.
    sys.stdin.reconfigure(encoding=None if is_typed else "utf-8", errors="surrogateescape")
    sys.stdout.reconfigure(errors="backslashreplace")
    try:
        shell = Shell(connector(words), sys.stdout, sys.stderr, words.layout or next(iter(LAYOUTS)), is_typed, words.keep_going)
    except (Error, OSError, UnicodeError) as failure:
        print(f"drdad: {shown(failure)}", file=sys.stderr)
        return 2
    try:
        if is_typed:
            print(terminal.BANNER.format(version=__version__, **words.place._replace(user=words.user)._asdict()))
            terminal.run(shell)
        else:
            shell.run(sys.stdin) if not words.asked else run_asked(shell, words.asked)
            shell.ends()
    finally:
        shell.close()
    return int(shell.has_failed)


def run():
    """The command drdad-shell."""
    try:
        status = main()
        sys.stdout.flush()
        sys.exit(status)
    except (BrokenPipeError, KeyboardInterrupt):
        # Nobody reads what is printed, or wants more of it.
        os.dup2(os.open(os.devnull, os.O_WRONLY), sys.stdout.fileno())
        sys.exit(1)


if __name__ == "__main__":
    run()
