"""The programs that stand under out/, the proved one and the one that is built without proof, and whether each is of the sources as
they are: beside a program stands a stamp, the sum of all that went into it."""
import contextlib, glob, hashlib, os, shutil, subprocess, sys

from crates import PROGRAM, TOP, below, crates_now

PROVED, UNPROVED = f"{TOP}/out/drdad", f"{TOP}/out/unproved/drdad"
CODE, PROOFS = ("src",), ("src", "specs", "proofs")


def version():
    """The toolchain's one line; without a toolchain the script ends."""
    if shutil.which("rt") is None:
        sys.exit("the Rattle toolchain is not there: its command rt has to be on the path")
    return subprocess.run(["rt", "version"], capture_output=True, check=True).stdout


def sum_of(folders):
    """A sum of the toolchain's version, of what stands on what, and of each file in these folders of the crates of drdad."""
    crates = crates_now()
    found = hashlib.sha256(version())
    for crate in sorted(below({PROGRAM}, crates)):
        found.update(f"{crate}: {sorted(crates[crate])}\n".encode())
        for path in sorted(it for folder in folders for it in glob.glob(f"{TOP}/crates/{crate}/{folder}/**/*.*t*", recursive=True)):
            with open(path, "rb") as file:
                found.update(path[len(TOP):].encode() + b"\0" + file.read() + b"\0")
    return found.hexdigest()


def is_there(program, wanted):
    """Whether the program stands there, and its stamp is this one."""
    with contextlib.suppress(FileNotFoundError), open(f"{program}.stamp") as stamp:
        return stamp.read() == wanted and os.access(program, os.X_OK)
    return False


def keep(made, program, stamp):
    """Moves what was made to where a program stands, and puts its stamp beside it."""
    os.makedirs(os.path.dirname(program), exist_ok=True)
    with contextlib.suppress(FileNotFoundError):
        os.remove(f"{program}.stamp")
    os.replace(made, program)
    with open(f"{program}.stamp", "w") as file:
        file.write(stamp)
