"""The tables and columns that were seen, and what completes a line that is typed."""
import glob, os, re

from . import grammar

WORD_BEFORE = re.compile(r"\S*\Z")
NAMES_OF_FILES = ("\\copy", "\\i", "\\o")
NAMES_OF_TABLES = ("\\d", "\\copy")


class Names:
    """Tables with their columns, as they were spelled first."""

    def __init__(self):
        self._tables = {}

    def note(self, text, description):
        """A statement was done: its table is there, with the columns that it creates or gives."""
        reader = grammar.Reader(text.encode("utf-8", "replace"))
        try:
            reader.read()
        except grammar.Fault:
            return
        columns = [item[0] for item in description or ()] + [token.text.decode() for token in reader.columns]
        self.note_table(reader.table, columns)

    def note_table(self, table, columns=()):
        found = self._tables.setdefault(table.upper(), (table, {}))[1]
        found.update({column.upper(): column for column in columns})

    def tables(self):
        return [spelled for spelled, _ in self._tables.values()]

    def columns(self, table=None):
        """Those of a table; of all tables where it is None, or not known."""
        tables = [self._tables[table.upper()]] if table and table.upper() in self._tables else self._tables.values()
        return list(dict.fromkeys(column for _, columns in tables for column in columns.values()))

    def complete(self, before, word, commands):
        """What a word may become behind a text."""
        if before.lstrip().startswith("\\") or word.startswith("\\") and not before.strip():
            found = self._behind_command(before.split(), word, commands)
        else:
            wanted, table = grammar.wanted_behind(before.encode("utf-8", "replace"))
            found = [one.lower() if word.islower() else one for one in wanted if one in grammar.WORDS]
            found += self.tables() * (grammar.TABLE in wanted) + self.columns(table) * (grammar.COLUMN in wanted)
        return sorted({one for one in found if one.upper().startswith(word.upper())})

    def _behind_command(self, words, word, commands):
        if not words:
            return ["\\" + name for name in commands]
        found = self.tables() if words[0] in NAMES_OF_TABLES and len(words) == 1 else []
        if words[0] == "\\copy" and len(words) == 2:
            found = ["FROM", "TO"]
        if words[0] in NAMES_OF_FILES and len(words) == (3 if words[0] == "\\copy" else 1):
            found = [path + "/" * os.path.isdir(path) for path in glob.glob(glob.escape(word) + "*")]
        return found
