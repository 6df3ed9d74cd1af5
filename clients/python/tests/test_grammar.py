"""Why a text is no statement, and how statements are cut out of lines; without a server."""
import re, unittest

from over_a_server import TOP, drdad
from drdad import grammar, names, reasons
from drdad.splitter import Splitter

# The texts by which the server's parser is tested, each with its answer in the next line.
TEXTS = TOP / "crates/sql_text_tests/stdout"
ESCAPES = {"\\t": "\t", "\\n": "\n", "\\r": "\r", "\\v": "\v", "\\f": "\f"}

SAID = (
    ("SELECT * FORM T", "at 'FORM', byte 9: FROM is wanted"), ("SELECT", "at the end, byte 6: * or the name of a column is wanted"),
    ("SELECT * FROM T ORDER BY K", "no ORDER BY here"), ("SELECT COUNT(*) FROM T", "no COUNT here"),
    ("SELECT * FROM A, B", "no joins"), ("SELECT * FROM A JOIN B", "no joins"), ("SELECT K X FROM T", "no second name of a column"),
    ("SELECT * FROM T WHERE V NOT LIKE 'a'", "no LIKE here"), ("SELECT * FROM T WHERE K IN (1)", "no IN here"),
    ("SELECT * FROM T WHERE K = 1 + 1", "no sums in a WHERE"), ("SELECT * FROM T WHERE K != 1", "what is not equal is <>"),
    ("DROP TABLE T", "no DROP here"), ("COMMIT", "\\commit"), ("SELEC", "CREATE, INSERT, UPDATE, DELETE or SELECT is wanted"),
    ("CREATE TABLE T (K INTEGER PRIMARY KEY)", "PRIMARY KEY (..) stands behind the columns"),
    ("CREATE TABLE T (K INTEGER)", "a table has PRIMARY KEY (..)"), ("CREATE TABLE T (K TEXT, PRIMARY KEY (K))", "no type TEXT here"),
    ("CREATE TABLE T (K VARCHAR, PRIMARY KEY (K))", "as in VARCHAR(60)"), ("CREATE TABLE IF NOT EXISTS T", "no IF here"),
    ("CREATE TABLE T (K INT, K INT, PRIMARY KEY (K))", "at 'K', byte 23: this name stands there before"),
    ("INSERT INTO T VALUES (1), (2)", "no second row"), ("INSERT INTO T VALUES ('x)", "no ' at its end"),
    ('INSERT INTO T VALUES ("x")', "names stand without quotes"), ("INSERT INTO T (KEY) VALUES (1)", "KEY is a word of SQL"),
    ("UPDATE T SET A = A * 2", "sums have + and - alone"), ("UPDATE T SET A = 99999999999999999999", "out of BIGINT"),
    ("SELECT * FROM T -- x", "comments are the shell's"), ("INSERT INTO T VALUES (%s)", "markers are ?"),
)
LIMITS = (
    ("SELECT * FROM T WHERE " + "(" * 65, "nested at most 64 deep"), ("INSERT INTO T VALUES (" + "?, " * 128 + "?)", "at most 128 markers"),
    ("CREATE TABLE T (V VARCHAR(2001), PRIMARY KEY (V))", "at most 2,000 bytes"),
    ("SELECT " + "K, " * 64 + "K FROM T", "at most 64 columns"),
    ("INSERT INTO T VALUES (1)", "1,048,576 bytes"), ("SELECT * FROM T", "65,535 claims"),
    ("CREATE TABLE T (K INT, PRIMARY KEY (K))", "1,000 tables"),
)
# Lines, and what they complete: the line where it begins, and the text.
CUT = (
    ("SELECT 1; -- it's\nSELECT 2;\n", [(1, "SELECT 1"), (2, "SELECT 2")]),
    ("-- a\n/* x; ' \n y */ A /* ä\n q */ B;\n", [(3, "A      \n      B")]),
    ("A 'x;--/*''\n y' ; B; \\x\nC;\n", [(1, "A 'x;--/*''\n y'"), (2, "B"), (2, "\\x"), (3, "C")]),
    ("quit\nA\nquit\n;", [(1, "\\quit"), (2, "A\nquit")]), ("A 'x\n\\q\n';\\?\n", [(1, "A 'x\n\\q\n'"), (3, "\\?")]),
    ("SELECT\n\\timing\n*;", [(2, "\\timing"), (1, "SELECT\n*")]), (";;\n ; A\n;", [(2, "A")]),
)


def kept_texts():
    """Each kept text, as bytes, with its answer."""
    lines = TEXTS.read_text(encoding="utf-8").split("\n")
    for line, answer in zip(lines, lines[1:]):
        found = re.fullmatch(r"(\d*) ?\|(.*)\|", line)
        if found:
            text = re.sub(r"\\[tnrvf]", lambda escape: ESCAPES[escape[0]], found[2])
            yield text.encode() + b" " * int(found[1] or 0), answer.strip()


class Reading(unittest.TestCase):
    def test_the_texts_of_the_server(self):
        count = 0
        for text, answer in kept_texts():
            with self.subTest(text[:80]):
                fault = grammar.fault_of(text)
                ours = "limit" if fault and fault.limit else f"at {fault.at}" if fault else "a statement"
                self.assertEqual(ours, answer if answer.startswith(("at ", "limit")) else "a statement")
                count += 1
        self.assertGreater(count, 250)

    def test_what_is_said(self):
        for text, said in SAID:
            with self.subTest(text):
                self.assertIn(said, reasons.of_text(text.encode()))

    def test_which_limit(self):
        for text, said in LIMITS:
            with self.subTest(text[:40]):
                self.assertIn(said, reasons.of_limit(text.encode()))


class Cutting(unittest.TestCase):
    def test_statements_and_commands(self):
        for text, wanted in CUT:
            with self.subTest(text):
                splitter = Splitter(("quit",))
                self.assertEqual([one for line in text.splitlines(True) for one in splitter.feed(line)], wanted)

    def test_words_that_are_typed_in_a_statement(self):
        splitter = Splitter(("quit",), is_typed=True)
        self.assertEqual(splitter.feed("SELECT\n") + splitter.feed("quit\n"), [(2, "\\quit")])

    def test_what_is_missing_at_the_end(self):
        for text, said in (("A", "no ;"), ("A '", "no '"), ("/* A", "no */")):
            splitter = Splitter()
            splitter.feed(text)
            self.assertFalse(splitter.is_empty())
            self.assertIn(said, splitter.complaint())


class Completing(unittest.TestCase):
    def test_what_may_stand_there(self):
        seen = names.Names()
        seen.note("CREATE TABLE Ship (Id INT, Name VARCHAR(9), PRIMARY KEY (Id))", None)
        seen.note("SELECT * FROM T", [("K", "INTEGER")])
        for before, word, wanted in (
            ("", "s", ["select"]), ("SELECT * FROM ", "", ["Ship", "T"]), ("SELECT * FROM ship WHERE ", "N", ["NOT", "NULL", "Name"]),
            ("SELECT * FROM T ", "w", ["where"]), ("SELECT ", "I", ["Id"]), ("", "\\re", ["\\recover"]), ("\\d ", "s", ["Ship"]),
            ("\\copy T ", "f", ["FROM"]), ("SELECT * FORM ", "", []),
        ):
            with self.subTest(before + word):
                self.assertEqual(seen.complete(before, word, ("recover", "d")), wanted)


if __name__ == "__main__":
    unittest.main()
