"""A hundred thousand rows, there and back."""
import sys, time, unittest

from over_a_server import INSERT, OverAServer

ROWS = 100_000
# The changes of a unit are at most 1,048,576 bytes.
ROWS_OF_A_UNIT = 10_000
MOST_SECONDS = 120


class ManyRows(OverAServer):
    # Half of a store is its present state, and what is inserted takes some 50 bytes a row of it.
    size = 64 << 20

    def insert(self, connection, cursor, rows, late):
        for at in range(0, len(rows), ROWS_OF_A_UNIT):
            cursor.executemany(INSERT, rows[at:at + ROWS_OF_A_UNIT])
            self.assertEqual(cursor.rowcount, ROWS_OF_A_UNIT)
            connection.commit()
            self.assertLess(time.monotonic(), late, f"{at + ROWS_OF_A_UNIT} rows took {MOST_SECONDS} s (a program without proof is slow)")

    def test_there_and_back(self):
        connection, cursor = self.with_table()
        rows = [(number, f"the row of the number {number}") for number in range(ROWS)]
        began = time.monotonic()
        self.insert(connection, cursor, rows, began + MOST_SECONDS)
        inserted = time.monotonic()
        cursor.execute("SELECT * FROM T")
        found = cursor.fetchall()
        read = time.monotonic()
        self.assertEqual(found, rows)
        print(f"{ROWS} rows: inserted in {inserted - began:.1f} s, read back in {read - inserted:.1f} s", file=sys.stderr)
        self.assertLess(read - began, MOST_SECONDS)


if __name__ == "__main__":
    unittest.main()
