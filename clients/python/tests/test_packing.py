"""The wheel and the sdist that packing.py builds: what pip takes, without a network."""
import base64, csv, hashlib, io, pathlib, sys, tarfile, tempfile, unittest, zipfile

from over_a_server import CLIENT

sys.path.insert(0, str(CLIENT))
import packing


class Packing(unittest.TestCase):
    def setUp(self):
        folder = tempfile.TemporaryDirectory()
        self.addCleanup(folder.cleanup)
        self.folder = pathlib.Path(folder.name)

    def test_a_wheel(self):
        name = packing.build_wheel(self.folder)
        self.assertRegex(name, r"^drdad-[\d.]+-py3-none-any\.whl$")
        with zipfile.ZipFile(self.folder / name) as wheel:
            held = {path: wheel.read(path) for path in wheel.namelist()}
        told = packing.full_name() + ".dist-info/"
        for path in ("drdad/__init__.py", "drdad/py.typed", told + "METADATA", told + "WHEEL"):
            self.assertIn(path, held)
        self.assertIn(b"drdad-shell = drdad.__main__:run", held[told + "entry_points.txt"])
        self.assertFalse([path for path in held if path.startswith("tests/") or path.endswith(".pyc")])
        record = list(csv.reader(io.StringIO(held[told + "RECORD"].decode())))
        self.assertEqual({path for path, *_ in record}, set(held))
        for path, digest, size in record[:-1]:
            wanted = base64.urlsafe_b64encode(hashlib.sha256(held[path]).digest()).rstrip(b"=").decode()
            self.assertEqual((digest, size), (f"sha256={wanted}", str(len(held[path]))))

    def test_a_wheel_that_can_be_edited(self):
        with zipfile.ZipFile(self.folder / packing.build_editable(self.folder)) as wheel:
            self.assertEqual(wheel.read(packing.full_name() + ".pth").decode().strip(), str(CLIENT))

    def test_an_sdist_that_builds_the_same_wheel(self):
        with tarfile.open(self.folder / packing.build_sdist(self.folder)) as sdist:
            sdist.extractall(self.folder)
        inside = self.folder / packing.full_name()
        self.assertTrue((inside / "PKG-INFO").is_file() and (inside / "pyproject.toml").is_file())
        before, packing.TOP = packing.TOP, inside
        self.addCleanup(setattr, packing, "TOP", before)
        ours = packing.files()
        packing.TOP = before
        self.assertEqual(ours, packing.files())


if __name__ == "__main__":
    unittest.main()
