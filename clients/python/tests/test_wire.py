"""Bytes and what they say, without a server."""
import random, re, unittest

from over_a_server import TOP, drdad
from drdad import aloud, wire


class Names(unittest.TestCase):
    def test_code_points_are_those_of_the_server(self):
        text = (TOP / "crates" / "ddm_objects" / "src" / "code_point.rt").read_text()
        theirs = {int(code, 16): name for name, code in re.findall(r"pub const (\w+): u16 = 0x(\w+);", text)}
        self.assertEqual(wire.NAMES, theirs)


class Frames(unittest.TestCase):
    LENGTHS = (0, 1, 32761, 32762, 32763, 65526, 65527, 200000)

    def test_what_is_written_is_read_however_it_is_cut(self):
        for length in self.LENGTHS:
            contents = bytes(number % 251 for number in range(length))
            written = wire.dss(wire.OBJECT, 7, contents)
            for size in (1 if length < 2 else 1021, len(written)):
                with self.subTest(length=length, size=size):
                    reader = wire.Reader()
                    for at in range(0, len(written), size):
                        self.assertIsNone(reader.next())
                        reader.feed(written[at:at + size])
                    self.assertEqual(reader.next(), (wire.OBJECT, 7, contents))
                    self.assertTrue(reader.is_empty())

    def test_what_is_no_frame_is_told(self):
        faults = ("0005 D001 0001", "0006 D101 0001", "0006 D081 0001", "0006 D005 0001", "0006 D011 0001", "8006 D001 0001 0002")
        for text in faults:
            with self.subTest(text), self.assertRaises(wire.WireFault):
                wire.dsss(bytes.fromhex(text))

    def test_what_ends_too_early_is_told(self):
        with self.assertRaises(wire.WireFault):
            wire.dsss(wire.dss(wire.REPLY, 1, b"abc")[:-1])


class Objects(unittest.TestCase):
    def test_what_is_written_is_read(self):
        for length in (0, 1, 32763, 32764, 100000):
            with self.subTest(length):
                self.assertEqual(wire.objects(wire.ddm(wire.SQLDTA, b"x" * length)), [(wire.SQLDTA, b"x" * length)])

    def test_what_is_no_object_is_told(self):
        for text in ("00", "0003 2412", "0005 2412", "8006 2412 0000", "8008 2412 0000 0001"):
            with self.subTest(text), self.assertRaises(wire.WireFault):
                wire.objects(bytes.fromhex(text))


class Values(unittest.TestCase):
    def test_what_is_written_is_read(self):
        values = (None, 0, -1, 2**63 - 1, -2**63, "", "ää", "日本", b"", b"\0\xff", "x" * 2000) * 11
        data = wire.find(wire.objects(wire.parameters(values)), wire.SQLDTA)
        self.assertEqual(wire.parameter_values(data), values)

    def test_what_no_column_takes_is_told(self):
        for value in (2**63, -2**63 - 1, "x" * 2001, "ä" * 1001, b"x" * 2001, "\ud800"):
            with self.subTest(repr(value)[:20]), self.assertRaises(ValueError):
                wire.encoded(value)
        for value in (1.5, object(), [1], {}):
            with self.subTest(repr(value)), self.assertRaises(TypeError):
                wire.encoded(value)

    def test_a_truth_value_is_a_number(self):
        self.assertEqual(wire.parameter_values(wire.find(wire.objects(wire.parameters((True, False))), wire.SQLDTA)), (1, 0))

    def test_rows_are_written_at_once_as_value_by_value(self):
        chance = random.Random(83)
        kinds = (lambda: chance.randrange(-2**63, 2**63), lambda: "ä" * chance.randrange(1001), lambda: bytes(chance.randrange(2001)),
                 lambda: None, lambda: True, lambda: bytearray(3))
        for _ in range(300):
            row = tuple(chance.choice(kinds)() for _ in range(chance.randrange(1, 40)))
            fields, data = zip(*map(wire.encoded, row))
            parts = wire.ddm(wire.FDODSC, wire.descriptor(fields)) + wire.ddm(wire.FDODTA, b"\0" + b"".join(data))
            self.assertEqual(wire.parameters(row), wire.ddm(wire.SQLDTA, parts))

    def test_rows_are_read_at_once_as_value_by_value(self):
        chance = random.Random(83)
        fields = ((wire.OF_INTEGER, 4), (0x3F, 60), (wire.OF_BIGINT | 1, 8), (0x29, 9), (0x3E, 9))
        values = (range(99), (None, "", "ä" * 30, "x"), (None, -1), (None, b"\xff\0"), ("z", ""))
        rows = [tuple(map(chance.choice, values)) for _ in range(500)]
        data = b"".join(_row_bytes(fields, row) for row in rows)
        self.assertEqual(wire.rows(fields, data), rows)
        for cut in range(1, len(_row_bytes(fields, rows[-1]))):
            with self.subTest(cut), self.assertRaises(wire.WireFault):
                wire.rows(fields, data[:-cut])

    def test_rows_that_are_none_are_told(self):
        for data in (b"\xff", b"\xff\0\0\0\0", b"\0\0\0\0\0\1", b"\xff\1\0\0\0\1"):
            with self.subTest(data), self.assertRaises(wire.WireFault):
                wire.rows(((wire.OF_INTEGER, 4),), data)


class ReadAloud(unittest.TestCase):
    def read(self, *parts):
        return [line.strip() for one in wire.dsss(wire.command(1, *parts)) for line in aloud.Aloud().lines(one)]

    def test_a_statement(self):
        wanted = ["DSS request, correlator 1, chained", "EXCSQLIMM", "DSS object, correlator 1", "SQLSTT 'SELECT'"]
        self.assertEqual(self.read(wire.ddm(wire.EXCSQLIMM), wire.statement("SELECT")), wanted)

    def test_no_password(self):
        self.assertNotIn("secret", " ".join(self.read(wire.security_check(b"ana", b"secret"))))

    def test_what_is_otherwise_than_it_should_be(self):
        self.assertIn("SQLCARD 0001", self.read(wire.ddm(wire.SQLCARD, b"\0\1")))
        self.assertIn("(an object is cut off) 00", self.read(b"\0"))


class TransactionIds(unittest.TestCase):
    def test_what_is_written_is_read(self):
        unit = drdad.Xid(7, b"global", b"branch")
        self.assertEqual(wire.xid_parts(unit.wire()), tuple(unit))
        self.assertEqual(drdad.Xid.parse(str(unit)), unit)

    def test_what_is_none_is_told(self):
        for parts in ((2**32 - 1, b"G", b""), (-1, b"G", b""), (1, b"", b"B"), (1, b"G" * 65, b""), (1, b"G", b"B" * 65), (1, "G", b"")):
            with self.subTest(parts), self.assertRaises(drdad.ProgrammingError):
                drdad.Xid(*parts)
        for text in ("", "1", "1:4:42", "x:47:42", "1:47", "4294967295:47:42"):
            with self.subTest(text), self.assertRaises(drdad.ProgrammingError):
                drdad.Xid.parse(text)


def _row_bytes(fields, row):
    """A row as a server sends it."""
    sizes = {wire.OF_INTEGER: 4, wire.OF_BIGINT: 8}
    out = [b"\xff\0"]
    for (number, _), value in zip(fields, row):
        out.append((b"\xff" if value is None else b"\0") if number & 1 else b"")
        if value is not None and number & ~1 in sizes:
            out.append(value.to_bytes(sizes[number & ~1], "big", signed=True))
        elif value is not None:
            data = value if isinstance(value, bytes) else value.encode()
            out.append(len(data).to_bytes(2, "big") + data)
    return b"".join(out)


if __name__ == "__main__":
    unittest.main()
