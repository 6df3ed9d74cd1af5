"""What a program of clap tells of itself: its words, and of each its arguments and options, read from its help."""
import re, subprocess
from collections import namedtuple

# A word of the command line; `arguments` and `options` are rows of a name and its help, as they stand in the help.
Word = namedtuple("Word", "name about usage arguments options")
ROW = re.compile(r"^ {2,}(\S.*?)(?: {2,}(.*))?$")
# What the program says behind the help that was asked for.
BEHIND = re.compile(r"^drdad: .*\n", re.MULTILINE)


def told(program, *words):
    """What the program says, wherever it writes it."""
    ran = subprocess.run([program, *words], capture_output=True, text=True, stdin=subprocess.DEVNULL)
    return ran.stdout + ran.stderr


def help_of(program, *words):
    return BEHIND.sub("", told(program, *words))


def rows(text, title):
    """The rows below a title: a name, and what is told of it."""
    found = re.search(rf"^{title}:\n((?: .*\n?)+)", text, re.MULTILINE)
    lines = found[1].splitlines() if found else []
    return [(row[1], row[2] or "") for row in map(ROW.match, lines) if row]


def word(name, text):
    usage = re.search(r"^Usage: (.*)$", text, re.MULTILINE)
    if not usage:
        raise SystemExit(f"the help of {name} has no line Usage")
    return Word(name, text.split("\n", 1)[0], usage[1], rows(text, "Arguments"), rows(text, "Options"))


def program_of(program):
    """The program as a word, and the words that it takes."""
    text = help_of(program, "--help")
    names = [name for name, _ in rows(text, "Commands") if name != "help"]
    return word("drdad", text), [word(name, help_of(program, "help", name)) for name in names]


def version_of(program):
    """The version, as the program's word `version` tells it."""
    found = re.match(r"drdad (\d+(?:\.\d+)+)", told(program, "version"))
    if not found:
        raise SystemExit("the program tells no version")
    return found[1]
