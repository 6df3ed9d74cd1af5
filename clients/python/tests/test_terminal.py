"""The shell at a terminal: prompts, Ctrl-C, connections that are lost and made anew, completion, and the history."""
import os, time, unittest

from shell_over_a_server import CREATE, OfAShell
from typing_terminal import Terminal

CONTROL_C, CONTROL_D, TAB = "\x03", "\x04", "\t"
# What was typed is a statement under way by then.
BEGUN_SECONDS = 0.5


class AtATerminal(OfAShell):
    def terminal(self, *more):
        return self.enterContext(Terminal(self.words(*more), self.around))

    def with_table(self, *more):
        """A terminal in which the table T was created."""
        terminal = self.terminal(*more)
        for prompt, line in zip(("drdad> ", "...> "), CREATE.splitlines()):
            terminal.types(prompt, line)
        terminal.until("done (")
        return terminal

    def test_a_session(self):
        path = self.folder / "file.csv"
        path.write_text("".join(f"{number},x,\n" for number in range(1200)))
        terminal = self.with_table()
        terminal.types("drdad> ", f"\\copy T FROM {path}")
        for said in ("\r1000 rows", "\r1200 rows", "1200 rows ("):
            terminal.until(said)
        terminal.types("drdad> ", "SELECT * FORM T;")
        terminal.until("error: SQLCODE -104, SQLSTATE 42601: at 'FORM', byte 9")
        terminal.types("drdad> ", "\\q")
        self.assertEqual(terminal.ended(), 1)
        self.assertIn("drdad-shell ", terminal.screen.splitlines()[0])
        self.assertIn("FORM", (self.folder / "history").read_text())

    def test_words_inside_of_a_statement(self):
        terminal = self.terminal()
        for prompt, line in (("drdad> ", "SELECT"), ("...> ", "help"), ("...> ", "\\?"), ("...> ", "'it"), ("'> ", "quit")):
            terminal.types(prompt, line)
        terminal.until("a text is open")
        terminal.types("'> ", "'")
        terminal.types("...> ", "quit")
        self.assertEqual(terminal.ended(), 0)
        self.assertEqual(terminal.screen.count("\\copy TABLE FROM FILE"), 2)

    def test_control_c_gives_up_what_is_typed(self):
        terminal = self.terminal()
        terminal.types("drdad> ", "SELECT 'it")
        terminal.until("'> ")
        terminal.keys(CONTROL_C)
        terminal.types("drdad> ", "\\q")
        self.assertEqual(terminal.ended(), 0)

    def test_control_c_ends_a_statement_that_is_answered_in_time(self):
        terminal = self.with_table()
        terminal.until("drdad> ")
        self.stop_server()
        terminal.keys("SELECT * FROM T;\n")
        terminal.until("FROM T;\n")
        time.sleep(BEGUN_SECONDS)
        terminal.keys(CONTROL_C)
        terminal.until("^C")
        self.go_on()
        terminal.until("error: interrupted behind 0 rows")
        terminal.types("drdad> ", "SELECT K FROM T;")
        terminal.until("0 rows (")
        terminal.types("drdad> ", "\\q")
        self.assertEqual(terminal.ended(), 1)
        self.assertNotIn("anew", terminal.screen)

    def test_control_c_gives_up_a_server_that_is_silent(self):
        terminal = self.with_table("--timeout", "60")
        terminal.until("drdad> ")
        self.stop_server()
        terminal.keys("INSERT INTO T VALUES (1, 'x', NULL);\n")
        terminal.until("NULL);\n")
        time.sleep(BEGUN_SECONDS)
        terminal.keys(CONTROL_C)
        terminal.until("the connection broke: nobody waited for the answer any longer")
        self.go_on()
        terminal.until("connected anew; whether the statement was done, the tables tell")
        terminal.types("drdad> ", "\\q")
        self.assertEqual(terminal.ended(), 1)

    def test_a_server_that_is_lost(self):
        terminal = self.with_table()
        terminal.types("drdad> ", "\\autocommit off")
        terminal.types("drdad> ", "INSERT INTO T VALUES (1, 'x', NULL);")
        terminal.until("drdad*> ")
        self.server.kill()
        terminal.keys("SELECT K FROM T;\n")
        terminal.until("error: the connection broke")
        terminal.until("not connected")
        terminal.until("the unit under way was rolled back")
        terminal.types("drdad!> ", "SELECT K FROM T;")
        terminal.until("error: no connection to")
        terminal.until("drdad!> ")
        self.serve_again()
        terminal.keys("SELECT K FROM T;\n")
        terminal.until("connected\n")
        terminal.until("0 rows (")
        terminal.types("drdad*> ", "\\autocommit")
        terminal.until("autocommit off")
        terminal.types("drdad*> ", "\\commit")
        terminal.types("drdad> ", "\\q")
        self.assertEqual(terminal.ended(), 1)

    def test_the_end_of_an_open_unit(self):
        terminal = self.with_table()
        terminal.types("drdad> ", "\\autocommit off")
        terminal.types("drdad> ", "INSERT INTO T VALUES (1, 'x', NULL);")
        terminal.types("drdad*> ", "\\q")
        terminal.types("End? (y/n) ", "n")
        terminal.until("drdad*> ")
        terminal.keys(CONTROL_D)
        terminal.types("End? (y/n) ", "y")
        self.assertEqual(terminal.ended(), 0)

    def test_a_unit_in_doubt(self):
        terminal = self.with_table()
        terminal.types("drdad> ", "\\begin 1 6761 62")
        terminal.types("drdad*> ", "INSERT INTO T VALUES (1, 'x', NULL);")
        terminal.types("drdad*> ", "\\prepare")
        terminal.types("drdad?> ", "\\q")
        terminal.until("1 6761 62 stays in doubt")
        self.assertEqual(terminal.ended(), 0)

    def test_completion(self):
        terminal = self.with_table()
        terminal.until("drdad> ")
        terminal.keys("sel" + TAB)
        terminal.until("select")
        terminal.keys(" * fr" + TAB + " ")
        terminal.until("from ")
        terminal.keys("T wh" + TAB + " ")
        terminal.until("where ")
        terminal.keys("K = 1;\n")
        terminal.until("0 rows (")
        terminal.until("drdad> ")
        terminal.keys("\\tim" + TAB)
        terminal.until("\\timing")
        terminal.keys("\n")
        terminal.types("drdad> ", "\\q")
        self.assertEqual(terminal.ended(), 0)


if __name__ == "__main__":
    unittest.main()
