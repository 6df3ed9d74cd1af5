"""python3 -m drdad.dump: tables as SQL, and what that SQL makes. DUMPS is how many random stores are dumped and restored (10)."""
import os, random, subprocess, sys, threading, unittest

from over_a_server import CLIENT, CREATE, INSERT, PROGRAM, TOP, OverAServer, Server, drdad

sys.path.insert(0, os.fspath(TOP / "tests"))
from drdad_tests import store_reader
from drdad import dump

DUMPS = int(os.environ.get("DUMPS", "10"))
SOON, LONG = 0.3, 300
NUMBERS = {"SMALLINT": 15, "INTEGER": 31, "BIGINT": 63}
# Letters of a random text: what quotes, scripts and terminals treat in their own way, and letters of two to four bytes.
LETTERS = "ab'\";-/*\\?\n\r\t \0é€𝄞"


class Spelling(unittest.TestCase):
    def test_values(self):
        spellings = {
            None: "NULL", 0: "0", -2**63: "-9223372036854775808", "": "''", "it's": "'it''s'", "''": "''''''", b"": "X''",
            b"\x00\xff'": "X'00FF27'",
        }
        for value, text in spellings.items():
            with self.subTest(value):
                self.assertEqual(dump.spelled(value), text)


def random_column(at):
    kind = random.choice([*NUMBERS, "VARCHAR", "VARBINARY"])
    return f"C{at}", kind, 0 if kind in NUMBERS else random.choice([1, 3, 40])


def random_value(kind, length):
    if kind in NUMBERS:
        most = 1 << NUMBERS[kind]
        return random.choice([-most, most - 1, random.randrange(-3, 3), random.randrange(-most, most)])
    if kind == "VARBINARY":
        return random.randbytes(random.randint(0, length))
    text = "".join(random.choices(LETTERS, k=random.randint(0, length)))
    return text.encode()[:length].decode(errors="ignore")


def random_rows(columns, nullable, key):
    """Some rows, one of each key."""
    found = {}
    for _ in range(random.choice([0, 1, 5, 60])):
        row = [None if at in nullable and random.random() < 0.3 else random_value(*one[1:]) for at, one in enumerate(columns)]
        found[tuple(row[at] for at in key)] = row
    return list(found.values())


def make_random_table(connection, name):
    columns = [random_column(at) for at in range(random.randint(1, 7))]
    key = random.sample(range(len(columns)), random.randint(1, min(4, len(columns))))
    nullable = {at for at in range(len(columns)) if at not in key and random.random() < 0.5}
    spelled = [f"{one} {kind}{f'({length})' if length else ''}{'' if at in nullable else ' NOT NULL'}"
               for at, (one, kind, length) in enumerate(columns)]
    cursor = connection.cursor()
    cursor.execute(f"CREATE TABLE {name} ({', '.join(spelled)}, PRIMARY KEY ({', '.join(columns[at][0] for at in key)}))")
    cursor.executemany(f"INSERT INTO {name} VALUES ({', '.join('?' * len(columns))})", random_rows(columns, nullable, key))
    connection.commit()


class Dumps(OverAServer):
    def dumped(self, *tables, server=None):
        return self.ran("drdad.dump", *tables, server=server)

    def restored(self, script):
        """A store of its own that the shell fills with a script."""
        other = self.enterContext(Server(PROGRAM, f"{self.server.store}-{random.getrandbits(64)}", self.size)).start()
        status, _, errors = self.ran("drdad", server=other, given=script)
        self.assertEqual((status, errors), (0, ""))
        return other

    def ran(self, module, *tables, server=None, given=""):
        server = server or self.server
        words = [sys.executable, "-B", "-m", module, f"127.0.0.1:{server.port}/SHOP", "--user", "ana", *tables]
        around = {**os.environ, "PYTHONPATH": str(CLIENT), "DRDAD_PASSWORD": "pw"}
        ran = subprocess.run(words, env=around, input=given.encode(), capture_output=True, timeout=LONG)
        return ran.returncode, ran.stdout.decode(), ran.stderr.decode()

    def tables_of(self, server):
        """What the store's file opens to, once nobody serves it."""
        server.kill()
        return store_reader.opened(self.bytes_of_store(server)).tables

    def bytes_of_store(self, server=None):
        with open((server or self.server).store, "rb") as file:
            return file.read()

    def test_its_text(self):
        with self.connect() as connection:
            cursor = connection.cursor()
            cursor.execute("CREATE TABLE U (A SMALLINT NOT NULL, B VARCHAR(9), C VARBINARY(2) NOT NULL, PRIMARY KEY (C, A))")
            cursor.execute("CREATE TABLE E (K BIGINT NOT NULL, PRIMARY KEY (K))")
            cursor.execute("INSERT INTO U VALUES (1, 'it''s', X'00')")
            cursor.execute("INSERT INTO U VALUES (-1, NULL, X'')")
            connection.commit()
        status, text, errors = self.dumped("u", "E", "U")
        self.assertEqual(status, 0, errors)
        self.assertEqual(text.splitlines(), [
            r"\autocommit off",
            "CREATE TABLE E (K BIGINT NOT NULL, PRIMARY KEY (K));", r"\commit",
            "CREATE TABLE U (A SMALLINT NOT NULL, B VARCHAR(9), C VARBINARY(2) NOT NULL, PRIMARY KEY (C, A));", r"\commit",
            "INSERT INTO U VALUES (-1, NULL, X'');", "INSERT INTO U VALUES (1, 'it''s', X'00');", r"\commit",
            r"\autocommit on", "-- the end: tables 2, rows 2",
        ])

    def test_random_stores(self):
        for seed in range(DUMPS):
            with self.subTest(seed=seed), Server(PROGRAM, f"{self.server.store}-{seed}", self.size).start() as server:
                random.seed(seed)
                names = [f"T{at}" for at in range(random.randint(1, 5))]
                with server.connect() as connection:
                    for name in names:
                        make_random_table(connection, name)
                status, script, errors = self.dumped(*names, server=server)
                self.assertEqual(status, 0, errors)
                self.assertEqual(self.tables_of(self.restored(script)), self.tables_of(server))

    def test_texts_with_any_letter(self):
        """As statements, without a shell that reads them."""
        rows = [(number, f"{chr(number)}'{chr(number)}") for number in [*range(256), 0x2028, 0xFEFF, 0x10FFFF]]
        connection, cursor = self.with_table()
        cursor.executemany(INSERT, rows)
        connection.commit()
        columns = connection.describe("SELECT * FROM T")
        units = list(dump.statements(connection, "T", columns, dump.key_of(connection, "T", columns)))
        with self.enterContext(Server(PROGRAM, f"{self.server.store}-2", self.size)).start().connect() as other:
            for statement in (one for unit in units for one in unit):
                other.cursor().execute(statement)
            self.assertEqual(other.cursor().execute("SELECT * FROM T").fetchall(), rows)

    def test_units_are_no_larger_than_the_server_takes(self):
        rows = [(number, "x" * 600) for number in range(1800)]
        connection, cursor = self.with_table()
        for at in range(0, len(rows), 1000):
            cursor.executemany(INSERT, rows[at:at + 1000])
            connection.commit()
        status, script, _ = self.dumped("T")
        self.assertEqual(status, 0)
        self.assertEqual(self.tables_of(self.restored(script)), self.tables_of(self.server))

    def test_it_is_of_one_moment(self):
        self.with_rows(3)
        writer, said = self.connect(), []

        def say(line):
            said.append(line)
            with self.assertRaisesRegex(drdad.OperationalError, "-913"):
                writer.cursor().execute(INSERT, (9, "late"))
            writer.rollback()

        text = []
        dump.dump(self.connect(), ["T"], text.append, say)
        self.assertEqual(said[1:], ["T: rows 3"])
        self.assertNotIn("late", "".join(text))
        writer.cursor().execute(INSERT, (9, "late"))
        writer.commit()

    def test_the_connection_stays_as_it_was(self):
        self.with_rows(3)
        connection = self.connect(autocommit=True)
        dump.dump(connection, ["T"], lambda text: None, lambda line: None)
        self.assertTrue(connection.autocommit)
        with self.assertRaisesRegex(drdad.ProgrammingError, "-204"):
            dump.dump(connection, ["NOSUCH"], lambda text: None, lambda line: None)
        self.assertTrue(connection.autocommit)
        connection.cursor().execute(INSERT, (9, "late"))
        self.assertEqual(self.keys(self.connect().cursor()), [0, 1, 2, 9])

    def test_it_leaves_everything_as_it_was(self):
        connection, cursor = self.with_rows(3)
        cursor.execute("CREATE TABLE P (A INTEGER NOT NULL, B VARCHAR(9) NOT NULL, PRIMARY KEY (B, A))")
        connection.commit()
        before = self.bytes_of_store()
        self.assertEqual(self.dumped("T", "P")[0], 0)
        self.assertEqual(self.bytes_of_store(), before)

    def test_it_waits_for_others(self):
        connection, cursor = self.with_rows(3)
        cursor.execute(INSERT, (3, "row 3"))
        status, _, errors = self.dumped("T", "--wait", "0")
        self.assertEqual(status, 1)
        self.assertIn("-913", errors)
        later = threading.Timer(SOON, connection.commit)
        later.start()
        status, text, errors = self.dumped("T")
        later.join()
        self.assertEqual((status, text.count("INSERT")), (0, 4), errors)

    def test_units_in_doubt_are_named(self):
        self.with_rows(3)
        with self.connect() as connection:
            connection.cursor().execute(CREATE.replace("TABLE T", "TABLE D"))
            connection.commit()
            connection.tpc_begin((1, b"G", b"B"))
            connection.cursor().execute("INSERT INTO D VALUES (1, 'x')")
            connection.tpc_prepare()
        status, text, _ = self.dumped("T")
        self.assertEqual((status, text.splitlines()[0]), (0, f"-- in doubt, and not in here: {drdad.Xid(1, b'G', b'B')}"))
        self.assertEqual(self.dumped("D", "--wait", "0")[0], 1)

    def test_what_is_not_there(self):
        status, text, errors = self.dumped("NOSUCH")
        self.assertEqual((status, text), (1, ""))
        self.assertIn("NOSUCH: SQLCODE -204", errors)
        self.server.kill()
        self.assertEqual(self.dumped("T")[0], 2)


if __name__ == "__main__":
    unittest.main()
