"""The shell as a script uses it: python3 -m drdad over a server."""
import socket, subprocess, sys, unittest

from shell_over_a_server import CREATE, WAITS, OfAShell

PIPES = {"stdin": subprocess.PIPE, "stdout": subprocess.PIPE, "stderr": subprocess.PIPE, "text": True}

OVER_LINES = CREATE + """-- a remark; with one more
INSERT INTO T VALUES (1, 'a;b''c', NULL); INSERT INTO T VALUES
(20, 'ä', X'00FF');
SELECT * FROM T;
"""
SHOWN = """done
1 row
1 row
 K | V     | B
---+-------+--------
 1 | a;b'c | NULL
20 | ä     | X'00FF'
2 rows
"""
WITH_FAILURES = CREATE + """SELECT * FROM NOSUCH;
INSERT INTO T VALUES (1, NULL, NULL);

INSERT INTO T
VALUES (1, NULL, NULL);
"""
LOCAL_UNITS = CREATE + """\\autocommit off
INSERT INTO T VALUES (1, NULL, NULL);
\\commit
DELETE FROM T;
\\rollback
\\q
SELECT;
"""
NO_COMMANDS = (
    ("\\nothing", "there is no \\nothing"), ("\\begin", "FORMAT GLOBALHEX BRANCHHEX"), ("\\copy T", "\\copy TABLE FROM FILE"),
    ("\\timing perhaps", "on or off"), ("\\commit 1:47", "FORMAT GLOBALHEX BRANCHHEX"),
)
NO_ROWS = (
    ("x,one,\n", "line 1: 'x' is no value of K"), ("1,one,\n2\n", "line 2 has 1 fields, and not 3"),
    ("1,one,0\n", "line 1: '0' is no value of B"), ("99999999999,one,\n", "SQLCODE -413, SQLSTATE 22003"),
    (b"1,\xff,\n", "file.csv: 'utf-8'"), ('1,"one\n', "file.csv"), (f"1,{'x' * 21},\n", "SQLCODE -433, SQLSTATE 22001"),
    (f"1,{'x' * 2001},\n", "and a column takes at most 2000"),
)


class Scripts(OfAShell):
    def test_statements_over_lines(self):
        self.assertEqual(self.ran("\\timing off\n" + OVER_LINES), (0, "timing off\n" + SHOWN, ""))

    def test_how_long_it_took(self):
        out = self.ran(CREATE)[1]
        self.assertRegex(out, r"^done \(\d+\.\d ms\)$")

    def test_a_failure_and_its_line(self):
        status, out, errors = self.ran(WITH_FAILURES)
        self.assertEqual((status, errors), (1, "line 3: error: SQLCODE -204, SQLSTATE 42704: no table has this name\n"))
        self.assertEqual(self.keys(self.connect().cursor()), [])

    def test_a_script_that_keeps_going(self):
        status, out, errors = self.ran(WITH_FAILURES, "--keep-going")
        self.assertEqual(status, 1)
        self.assertIn("line 3: error: SQLCODE -204, SQLSTATE 42704: no table has this name", errors)
        self.assertIn("line 6: error: SQLCODE -803, SQLSTATE 23505", errors)
        self.assertIn("1 row", out)

    def test_a_script_that_ends_too_early(self):
        status, _, errors = self.ran("SELECT * FROM T")
        self.assertEqual((status, errors), (1, "line 1: error: the last statement has no ; behind it\n"))

    def test_commands_that_are_none(self):
        for text, said in NO_COMMANDS:
            with self.subTest(text):
                status, _, errors = self.ran(text + "\n")
                self.assertEqual(status, 1)
                self.assertIn(said, errors)

    def test_tables(self):
        status, out, _ = self.ran(CREATE + "\\d\n\\d T\n\\timing off\n")
        self.assertEqual(status, 0)
        self.assertIn("the server can't list its tables", out)
        self.assertIn("K      | INTEGER      | NOT NULL", out)
        self.assertIn("V      | VARCHAR(20)  |", out)
        self.assertIn("B      | VARBINARY(8) |", out)

    def test_autocommit(self):
        status, out, _ = self.ran(LOCAL_UNITS)
        self.assertEqual(status, 0)
        self.assertEqual(self.keys(self.connect().cursor()), [1])
        self.assertIn("autocommit off", out)

    def test_a_global_unit_over_a_kill(self):
        self.assertEqual(self.ran(CREATE + "\\begin 1:6761:62\nINSERT INTO T VALUES (1, 'in doubt', NULL);\n\\prepare\n")[0], 0)
        self.server.kill()
        self.server.start()
        status, out, errors = self.ran("\\recover\nSELECT * FROM T;\n")
        self.assertEqual(status, 1)
        self.assertIn("1 6761 62\n1 in doubt", out)
        self.assertIn("SQLCODE -913, SQLSTATE 57033", errors)
        status, out, _ = self.ran("\\commit 1:6761:62\n\\recover\nSELECT V FROM T;\n")
        self.assertEqual(status, 0)
        self.assertIn("0 in doubt", out)
        self.assertIn("in doubt\n1 row", out)

    def test_a_global_unit_that_was_decided_heuristically(self):
        self.assertEqual(self.ran(CREATE + "\\begin 1:6761:62\nINSERT INTO T VALUES (1, 'decided', NULL);\n\\prepare\n")[0], 0)
        self.server.kill()
        self.assertEqual(self.server.done("decide", self.server.store, "1", "6761", "62", "commit").returncode, 0)
        self.server.start()
        status, out, errors = self.ran("\\rollback 1:6761:62\n\\forget 1 6761 62\n\\recover\nSELECT V FROM T;\n", "--keep-going")
        self.assertEqual(status, 1)
        self.assertIn("XA 7: the branch was committed heuristically", errors)
        self.assertIn("forgotten", out)
        self.assertIn("0 in doubt", out)
        self.assertIn("decided\n1 row", out)

    def test_text_that_is_no_utf_8(self):
        script = CREATE.encode() + b"INSERT INTO T VALUES (1, '\xff', NULL);\nINSERT INTO T VALUES (2, 'x', NULL);\n"
        status, _, errors = self.ran(script, "--keep-going")
        self.assertEqual(status, 1)
        self.assertIn("line 3: error: the statement is not UTF-8", errors)
        self.assertEqual(self.keys(self.connect().cursor()), [2])

    def test_a_statement_that_is_too_long(self):
        status, _, errors = self.ran(f"SELECT K FROM T WHERE V = '{'x' * 32768}';\n")
        self.assertEqual(status, 1)
        self.assertIn("and may have 32767", errors)

    def test_control_characters_do_not_reach_the_terminal(self):
        out = self.ran(CREATE + "INSERT INTO T VALUES (1, 'a\x1b[2Jb', NULL);\nSELECT V FROM T;\n")[1]
        self.assertIn("a\\x1b[2Jb", out)

    def test_what_an_output_can_not_show(self):
        status, out, _ = self.ran(CREATE + "INSERT INTO T VALUES (1, 'ä', NULL);\nSELECT V FROM T;\n", PYTHONIOENCODING="ascii")
        self.assertEqual(status, 0)
        self.assertIn("\\xe4", out)

    def test_a_server_that_ends(self):
        process = subprocess.Popen(self.words(), env=self.around, **PIPES)
        with process:
            process.stdin.write(CREATE)
            process.stdin.flush()
            process.stdout.readline()
            self.server.kill()
            out, errors = process.communicate("SELECT * FROM T;\nSELECT * FROM T;\n", WAITS)
        self.assertEqual(process.returncode, 1)
        self.assertIn("line 3: error: the connection broke", errors)
        self.assertEqual(errors.count("error"), 1)

    def test_nobody_reads_what_is_printed(self):
        process = subprocess.Popen(self.words(), env=self.around, **PIPES)
        with process:
            process.stdout.close()
            process.stdin.write("\\?\n" * 3)
            process.stdin.close()
            errors = process.stderr.read()
            process.wait(WAITS)
        self.assertEqual((process.returncode, errors), (1, ""))


class Copies(OfAShell):
    def copied(self, text, table="T"):
        path = self.folder / "file.csv"
        path.write_bytes(text if isinstance(text, bytes) else text.encode())
        return self.ran(f"\\copy {table} FROM {path}\nSELECT * FROM T;\n")

    def setUp(self):
        super().setUp()
        self.assertEqual(self.ran(CREATE)[0], 0)

    def rows(self):
        """The rows of the table, over a connection that makes way for the next."""
        with self.server.connect() as connection:
            return connection.cursor().execute("SELECT * FROM T").fetchall()

    def test_lines_of_all_columns(self):
        self.assertEqual(self.copied('1,one,00ff\n2,"a ""b"", c",X\'0A\'\n3,,\n')[0], 0)
        self.assertEqual(self.rows(), [(1, "one", b"\0\xff"), (2, 'a "b", c', b"\n"), (3, None, None)])

    def test_a_first_line_of_names(self):
        self.assertEqual(self.copied("v,k\none,1\ntwo,2\n")[0], 0)
        self.assertEqual(self.rows(), [(1, "one", None), (2, "two", None)])

    def test_ten_thousand_lines(self):
        status, out, _ = self.copied("K,V\n" + "".join(f"{number},row {number}\n" for number in range(10000)))
        self.assertEqual(status, 0)
        self.assertIn("10000 rows", out)
        self.assertEqual(len(self.rows()), 10000)

    def test_what_is_no_row(self):
        for text, said in NO_ROWS:
            with self.subTest(text[:30]):
                status, _, errors = self.copied(text)
                self.assertEqual(status, 1)
                self.assertIn(said, errors)
                self.assertNotIn("Traceback", errors)
                self.assertEqual(self.rows(), [])

    def test_a_key_twice(self):
        lines = [f"{number},x,\n" for number in range(1500)] + ["7,again,\n"]
        status, _, errors = self.copied("".join(lines))
        self.assertEqual(status, 1)
        self.assertIn("line 1501: SQLCODE -803, SQLSTATE 23505", errors)
        self.assertIn("the 1000 rows before are in", errors)
        self.assertEqual(len(self.rows()), 1000)

    def test_no_such_file_or_table(self):
        script = f"\\copy T FROM {self.folder}/nothing\n\\copy NOSUCH FROM {self.folder}/nothing\n"
        status, _, errors = self.ran(script, "--keep-going")
        self.assertEqual(status, 1)
        self.assertIn("No such file or directory", errors)
        self.assertIn("SQLCODE -204", errors)


class Connecting(OfAShell):
    def test_a_password_in_a_file(self):
        path = self.folder / "password"
        path.write_text("pw\n")
        self.assertEqual(self.ran("\\recover\n", "--password-file", str(path), DRDAD_PASSWORD="no")[0], 0)

    def test_what_gives_no_connection(self):
        path = self.folder / "password"
        path.write_bytes(b"\xff\n")
        cases = (
            ((), {"DRDAD_PASSWORD": "no"}, "the password is wrong"), (("--password-file", "/nothing"), {}, "No such file"),
            (("--password-file", str(path)), {}, "utf-8"), (("--timeout", "0"), {}, "the timeout"),
        )
        for more, around, said in cases:
            with self.subTest(said):
                status, out, errors = self.ran("\\recover\n", *more, **around)
                self.assertEqual((status, out), (2, ""))
                self.assertIn(said, errors)
                self.assertNotIn("Traceback", errors)

    def test_a_server_that_says_nothing_and_none(self):
        with socket.create_server(("127.0.0.1", 0)) as listener:
            address = f"127.0.0.1:{listener.getsockname()[1]}/SHOP"
            words = [sys.executable, "-m", "drdad", address, "--user", "ana", "--timeout", "0.5"]
            ran = subprocess.run(words, env=self.around, stdin=subprocess.DEVNULL, capture_output=True, text=True, timeout=WAITS)
        self.assertEqual((ran.returncode, ran.stderr), (2, "drdad: the connection broke: the server was silent for 0.5 s\n"))
        ran = subprocess.run(words, env=self.around, stdin=subprocess.DEVNULL, capture_output=True, text=True, timeout=WAITS)
        self.assertEqual(ran.returncode, 2)
        self.assertIn("drdad: no connection to 127.0.0.1", ran.stderr)

    def test_words_that_are_none(self):
        for words in ([], ["nowhere", "--user", "ana"], ["127.0.0.1:1527", "--user", "ana"], ["127.0.0.1:1527/SHOP"]):
            with self.subTest(words):
                words = [sys.executable, "-m", "drdad", *words]
                ran = subprocess.run(words, env=self.around, capture_output=True, text=True, timeout=WAITS)
                self.assertEqual(ran.returncode, 2)
                self.assertIn("usage:", ran.stderr)


if __name__ == "__main__":
    unittest.main()
