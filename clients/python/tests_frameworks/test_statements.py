"""How statements that say more than the server's grammar are read, and what is made of them."""
import unittest

import beside_postgresql  # noqa: F401, which finds the packages

try:
    from drdad_sqlalchemy.statements import MOST_MARKERS, read
except ImportError as missing:
    raise unittest.SkipTest(f"{missing.name} is not installed")


def parts(text, parameters=(), key=()):
    return list(read(text).parts(parameters, key))


class Statements(unittest.TestCase):
    def test_what_the_server_takes_is_left_alone(self):
        for text in ("SELECT A FROM T WHERE A = 'IN (1)'", "INSERT INTO T (IN) VALUES (?)", "CREATE TABLE T (ORDER INTEGER NOT NULL)",
                     "DELETE FROM T", "SELECT LIMITS FROM INS"):
            statement = read(text)
            self.assertEqual(text if statement is None else statement.whole(())[0], text)

    def test_names_that_are_words_elsewhere(self):
        for text in ("SELECT ORDER, LIMIT, IN FROM OFFSET WHERE LIMIT = 1 AND IN = ?", "UPDATE T SET LIMIT = LIMIT - 1 WHERE IN <> LIMIT"):
            self.assertEqual(read(text).whole((7,))[0], text)

    def test_lists_are_comparisons(self):
        cases = {
            "A IN (1, 2)": "(A = 1 OR A = 2)",
            "a in(-1,NULL,'x'',y',X'00',?, b)": "(A = -1 OR A = NULL OR A = 'x'',y' OR A = X'00' OR A = ? OR A = B)",
            "A NOT IN (1, 2)": "(A <> 1 AND A <> 2)", "A IN (?)": "A = ?", "NOT A NOT IN ('(')": "NOT A <> '('", "A != 1": "A <> 1",
            "(B = 1 OR A IN (1,2)) AND C IN (3)": "(B = 1 OR (A = 1 OR A = 2)) AND C = 3",
        }
        for given, made in cases.items():
            with self.subTest(given):
                self.assertEqual(parts(f"SELECT A FROM T WHERE {given}", ("v",))[0][0], f"SELECT A FROM T WHERE {made}")
                self.assertEqual(read(f"DELETE FROM T WHERE {given}").whole(())[0], f"DELETE FROM T WHERE {made}")

    def test_what_is_not_made_here_goes_to_the_server_as_it_is(self):
        for text in ("SELECT A FROM T WHERE A IN (SELECT B FROM U)", "SELECT A FROM T WHERE A IN ()", "SELECT A FROM T WHERE A IN (1, (2))",
                     "SELECT A FROM T ORDER BY A + 1", "SELECT 1 ORDER BY A", "SELECT A FROM T WHERE A IN (1", "SELECT A FROM T LIMIT B"):
            self.assertEqual(read(text).whole(())[0], text)

    def test_a_whole_key_is_read_key_by_key(self):
        text = "SELECT A FROM T WHERE B = ? AND K IN (?, ?, ?) AND C <> ?"
        self.assertEqual(parts(text, (0, 1, 2, 1, 9), ("K",)), [
            ("SELECT A FROM T WHERE B = ? AND K = ? AND C <> ?", [0, 1, 9]), ("SELECT A FROM T WHERE B = ? AND K = ? AND C <> ?", [0, 2, 9])])
        self.assertEqual(len(parts(text, (0, 1, 2, 1, 9), ("K", "B"))), 2)
        for key in ((), ("A",), ("K", "A"), ("K", "C")):
            self.assertEqual(len(parts(text, (0, 1, 2, 1, 9), key)), 1)

    def test_only_a_list_of_markers_in_a_conjunction_is_cut(self):
        for where in ("K IN (1, 01)", "K IN (A, B)", "K IN (?, ?) OR A = 1", "NOT K IN (?, ?)", "(K IN (?, ?) AND A = 1)", "K NOT IN (?, ?)"):
            self.assertEqual(len(parts(f"SELECT A FROM T WHERE {where}", (1, 2), ("K",))), 1)

    def test_no_more_markers_than_the_server_takes(self):
        values = tuple(range(300))
        marks = ", ".join("?" * 300)
        made = parts(f"SELECT A FROM T WHERE B = ? AND A IN ({marks}) AND C = ?", (-1, *values, -2))
        self.assertEqual(max(len(values) for _, values in made), MOST_MARKERS)
        self.assertTrue(all(text.count("?") == len(values) for text, values in made))
        self.assertEqual([value for _, values in made for value in values[1:-1]], list(values))

    def test_windows(self):
        cases = {"LIMIT 2": (0, 2), "LIMIT ? OFFSET ?": (3, 8), "OFFSET 4": (4, None), "LIMIT -1 OFFSET 4": (4, None), "limit 0": (0, 0)}
        for tail, window in cases.items():
            statement = read(f"SELECT A FROM T WHERE K = ? {tail}")
            self.assertEqual(statement.window((1, 5, 3)), window)
            self.assertEqual(statement.whole((1, 5, 3)), ("SELECT A FROM T WHERE K = ?", [1]))

    def test_orders(self):
        statement = read("SELECT A FROM T WHERE K > 0 ORDER BY B DESC, a, C LIMIT 1")
        self.assertEqual(statement.whole(())[0], "SELECT A, B, C FROM T WHERE K > 0")
        self.assertEqual([tuple(order) for order in statement.order], [("B", True), ("A", False), ("C", False)])
        rows = [("x", 1, 1), ("y", None, 1), ("w", 1, 1), (None, 2, 1), ("x", 1, 0)]
        self.assertEqual(statement.arranged(rows, ["A", "B", "C"]), [("y",), (None,), ("w",), ("x",), ("x",)])
        self.assertEqual(read("SELECT * FROM T ORDER BY B").whole(())[0], "SELECT * FROM T")


if __name__ == "__main__":
    unittest.main()
