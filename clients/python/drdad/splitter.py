"""Statements and commands out of lines."""
import re

IN_TEXT, IN_COMMENT = "'", "/*"
# What a piece of a line ends with: outside of texts and comments, inside of a text, inside of a comment.
ENDS = {"": re.compile(r"'|--[^\r\n]*|/\*|;"), IN_TEXT: re.compile("'"), IN_COMMENT: re.compile(r"\*/")}
SAID = {
    IN_TEXT: "the last text has no ' at its end", IN_COMMENT: "the last comment has no */ at its end",
    "": "the last statement has no ; behind it",
}
NOT_A_LINE_END = re.compile(r"[^\r\n]")


def blanked(text):
    """As many blanks as the text has bytes, so that what follows stays at its place; its line ends stay."""
    return NOT_A_LINE_END.sub(lambda found: " " * len(found[0].encode("utf-8", "surrogatepass")), text)


class Splitter:
    """Reads lines. A statement ends with `;` outside of texts and comments; its comments are blanks. A line that begins with a
    backslash outside of both is a command, also where a statement has begun, which then goes on; so is what follows a `;`. Words
    are lines that are commands without a backslash: everywhere, where no statement has begun, and for `is_typed` lines in one too."""

    def __init__(self, words=(), is_typed=False):
        self._words, self._is_typed, self._line = words, is_typed, 0
        self.clear()

    def clear(self):
        self._text, self._has_begun, self.inside, self.start = "", False, "", self._line

    def is_empty(self):
        return not self.inside and not self._has_begun

    def text(self):
        """What has come of the statement that no `;` has ended yet."""
        return self._text.lstrip()

    def complaint(self):
        """What is missing where no line follows."""
        return SAID[self.inside]

    def is_command(self, line):
        if self.inside:
            return False
        word = line.strip().rstrip(";").rstrip().lower()
        return line.lstrip().startswith("\\") or word in self._words and (self._is_typed or self.is_empty())

    def feed(self, line):
        """What the line completes: pairs of the number of the line where it began and a statement without its `;` or a command, which
        begins with a backslash."""
        self._line += 1
        if self.is_empty():
            self.clear()
        if self.is_command(line):
            return [(self._line, "\\" + line.strip().lstrip("\\"))]
        return list(self._pieces(line))

    def _pieces(self, line):
        at = 0
        while found := ENDS[self.inside].search(line, at):
            piece, end, at = line[at:found.start()], found[0], found.end()
            if end == ";":
                yield from self._ended(piece)
                if self.is_command(line[at:]) and line[at:].lstrip().startswith("\\"):
                    yield self._line, line[at:].strip()
                    return
            else:
                self._keep(piece, end)
        self._keep(line[at:], "")

    def _keep(self, piece, end):
        """Keeps a piece of the statement and what ends it, by which a text or a comment begins or ends."""
        is_comment = self.inside == IN_COMMENT
        if end:
            self.inside = {IN_TEXT: "" if self.inside else IN_TEXT, IN_COMMENT: IN_COMMENT}.get(end, "")
        kept = (blanked(piece) if is_comment else piece) + (end if end == IN_TEXT else blanked(end))
        if not self._has_begun:
            self._has_begun, self.start = bool(kept.strip()), self._line
        self._text += kept

    def _ended(self, piece):
        self._keep(piece, "")
        text, start = self._text.strip(), self.start
        self._text, self._has_begun = "", False
        if text:
            yield start, text

    def rest(self):
        """The last statement, where none has to end with `;`."""
        return list(self._ended("")) if not self.inside else []
