"""A person at a terminal: lines that can be edited, are remembered and completed, and Ctrl-C."""
import contextlib, os, signal

MOST_IN_HISTORY = 1000
# What ends a word that is completed.
DELIMITERS = " \t\n(),=<>+-*?;'"
BANNER = """drdad-shell {version}, connected to {database} at {host}:{port} as {user}
A statement ends with ;   \\? lists the commands, \\q ends, Ctrl-C gives up what is typed or under way"""


def readline_of():
    """The module readline, or None where this Python has none."""
    try:
        import readline
    except ImportError:
        return None
    return readline


@contextlib.contextmanager
def history():
    """What a person types can be edited, and is remembered over sessions, where this Python has readline."""
    readline = readline_of()
    if readline is None:
        yield
        return
    path = os.environ.get("DRDAD_HISTORY") or os.path.expanduser("~/.drdad_history")
    with contextlib.suppress(OSError):
        readline.read_history_file(path)
    try:
        yield
    finally:
        with contextlib.suppress(OSError):
            readline.set_history_length(MOST_IN_HISTORY)
            readline.write_history_file(path)


def completes(shell):
    """The tabulator completes words of the grammar, names that were seen, commands and files."""
    readline = readline_of()
    if readline is None:
        return
    found = []

    def complete(word, number):
        if number == 0:
            begun = readline.get_line_buffer()[:readline.get_begidx()]
            behind = "" if begun.lstrip().startswith("\\") or not begun and word.startswith("\\") else shell.splitter.text()
            found[:] = shell.names.complete(behind + begun, word, shell.command_names)
        return found[number] if number < len(found) else None

    readline.set_completer_delims(DELIMITERS)
    readline.set_completer(complete)
    readline.parse_and_bind("tab: complete")


@contextlib.contextmanager
def interrupts(shell):
    """Ctrl-C ends the statement under way, and gives up what is typed."""
    before = signal.signal(signal.SIGINT, lambda *_: shell.interrupt())
    try:
        yield
    finally:
        signal.signal(signal.SIGINT, before)


def typed_lines(shell):
    """The lines that a person types, each behind a prompt. At its end the shell is asked whether it may end."""
    while True:
        try:
            line = asked(shell, shell.prompt())
        except KeyboardInterrupt:
            print()
            shell.splitter.clear()
        except EOFError:
            print()
            return
        else:
            yield line + "\n"


def asked(shell, prompt):
    """A line that is typed; KeyboardInterrupt and EOFError where it is given up."""
    shell.is_interrupted = False
    with shell.interruptible():
        return input(prompt)


def run(shell):
    """Takes what a person types, until an end is asked for and may be."""
    completes(shell)
    with history(), interrupts(shell):
        shell.run(typed_lines(shell))
        while not shell.ends(lambda question: asked(shell, question)):
            shell.run(typed_lines(shell))
