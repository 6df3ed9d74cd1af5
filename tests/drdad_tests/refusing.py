"""The library that refuses a program's allocations (refuse.c)."""
import pathlib, subprocess

from drdad_tests.needs import need

SOURCE = pathlib.Path(__file__).resolve().parent / "refuse.c"


def made_shim(folder):
    """The path of the library, built in a folder."""
    need("cc", "gcc")
    library = f"{folder}/refuse.so"
    subprocess.run(["cc", "-shared", "-fPIC", "-O1", "-o", library, str(SOURCE)], check=True)
    return library
