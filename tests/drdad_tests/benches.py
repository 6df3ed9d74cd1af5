"""The programs of tests/programs/."""
import os, pathlib, subprocess

TOP = pathlib.Path(__file__).resolve().parent.parent.parent


def built(name):
    """Proves and builds a program (bench/run), and gives its path. It is run once, over no conversation of `Node::feed`."""
    subprocess.run([TOP / "bench" / "run", name], input=b"n", stdout=subprocess.DEVNULL, check=True)
    scratch = f"{os.environ.get('TMPDIR', '/tmp')}/drdad-bench.{os.getuid()}{TOP}"
    return f"{scratch}/crates/{name}/out/{name}"
