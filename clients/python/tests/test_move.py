"""python3 -m drdad.move: the rows of one store in another."""
import os, subprocess, sys, unittest

from over_a_server import CLIENT, CREATE, INSERT, PROGRAM, OverAServer, Server

ROWS = [(number, None if number % 7 == 0 else f"ä{number:0500}") for number in range(3000)]


class Moves(OverAServer):
    def setUp(self):
        super().setUp()
        folder = os.path.dirname(self.server.store)
        self.other = self.enterContext(Server(PROGRAM, f"{folder}/larger", 32 << 20)).start()
        for server in (self.server, self.other):
            with server.connect() as connection:
                connection.cursor().execute(CREATE)
                connection.commit()

    def fill(self, server, rows):
        with server.connect() as connection:
            for at in range(0, len(rows), 1000):
                connection.cursor().executemany(INSERT, rows[at:at + 1000])
                connection.commit()

    def moved(self, *tables):
        addresses = [f"127.0.0.1:{server.port}/SHOP" for server in (self.server, self.other)]
        words = [sys.executable, "-B", "-m", "drdad.move", *addresses, "--user", "ana", *tables]
        around = {**os.environ, "PYTHONPATH": str(CLIENT), "DRDAD_PASSWORD": "pw"}
        ran = subprocess.run(words, env=around, capture_output=True, text=True, timeout=60)
        return ran.returncode, ran.stdout, ran.stderr

    def test_all_rows(self):
        self.fill(self.server, ROWS)
        self.assertEqual(self.moved("T"), (0, "T: 3000 rows moved, and read back\n", ""))
        with self.other.connect() as connection:
            self.assertEqual(connection.cursor().execute("SELECT * FROM T").fetchall(), ROWS)

    def test_what_is_in_the_way(self):
        self.fill(self.other, ROWS[:1])
        for tables, said in ((("T",), "T has rows there already"), (("NOSUCH",), "SQLCODE -204")):
            with self.subTest(said):
                status, _, errors = self.moved(*tables)
                self.assertEqual(status, 1)
                self.assertIn(said, errors)

    def test_units_in_doubt(self):
        with self.server.connect() as connection:
            connection.tpc_begin((1, b"G", b"B"))
            connection.cursor().execute(INSERT, (1, "x"))
            connection.tpc_prepare()
        status, _, errors = self.moved("T")
        self.assertEqual(status, 1)
        self.assertIn("in doubt", errors)

    def test_nobody_serves(self):
        self.other.kill()
        self.assertEqual(self.moved("T")[0], 2)


if __name__ == "__main__":
    unittest.main()
