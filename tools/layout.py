"""Where each file of a release stands below a prefix, and its receipt: from which sources it comes, what their gate said, and the sum
of each file."""
import glob, gzip, hashlib, os, shutil, subprocess

from crates import TOP
from helps import version_of

RECEIPT = "share/doc/drdad/RECEIPT"
UNITS = "lib/systemd/system"
MANUALS = "share/man/man1"
COMPLETION = "share/bash-completion/completions/drdad"
CLIENT = "lib/python3/dist-packages/drdad"
NOT_RUN = "not run on these sources"
OF_NONE = "of no proved program: this one was built without proof"


# ---- what the receipt tells

def done(*words):
    return subprocess.run(words, cwd=TOP, check=True, stdout=subprocess.PIPE, text=True).stdout


def sum_of_file(path):
    with open(path, "rb") as file:
        return hashlib.sha256(file.read()).hexdigest()


def sum_of_sources():
    """The sum of the lines of `sha256sum` of all files that git knows, or would: check-receipt makes it by a line of shell."""
    names = done("git", "ls-files", "-z", "--cached", "--others", "--exclude-standard").split("\0")[:-1]
    lines = (f"{sum_of_file(f'{TOP}/{name}')}  {name}\n" for name in sorted(names, key=os.fsencode) if os.path.isfile(f"{TOP}/{name}"))
    return hashlib.sha256("".join(lines).encode()).hexdigest()


def gate_line():
    """What the gate said last of these sources (tools/tested), or that it was not run on them."""
    try:
        with open(f"{TOP}/out/tested") as file:
            told, line = file.read().rstrip("\n").split(" ", 1)
    except FileNotFoundError:
        return NOT_RUN
    return line if told == sum_of_sources() else NOT_RUN


def logic():
    with open(f"{TOP}/.ci/logic") as file:
        return file.read().strip()


def files_below(root):
    return sorted(path for path in glob.glob(f"{root}/**", recursive=True) if os.path.isfile(path))


def receipt(prefix, program, gate):
    """The receipt of what stands below a prefix, which has none yet; `gate` is what the gate said."""
    paths = files_below(prefix)
    lines = [f"drdad {version_of(program)}", f"commit {done('git', 'rev-parse', 'HEAD').strip()}", f"logic {logic()}", f"gate {gate}",
             f"sources {sum_of_sources()}", f"program {sum_of_file(program)}", "files"]
    return "\n".join([*lines, *(f"{sum_of_file(path)}  {os.path.relpath(path, prefix)}" for path in paths)]) + "\n"


# ---- files

def lay(source, target, mode=0o644):
    os.makedirs(os.path.dirname(target), exist_ok=True)
    shutil.copyfile(source, target)
    os.chmod(target, mode)


def write(target, data, mode=0o644):
    os.makedirs(os.path.dirname(target), exist_ok=True)
    with open(target, "wb") as file:
        file.write(data)
    os.chmod(target, mode)


def lay_manuals(program, root):
    """Manuals and completion, from the program's own help."""
    made = f"{TOP}/out/manuals"
    shutil.rmtree(made, ignore_errors=True)
    done(f"{TOP}/tools/write_manuals", program, made)
    for path in glob.glob(f"{made}/*.1"):
        with open(path, "rb") as file:
            write(f"{root}/{MANUALS}/{os.path.basename(path)}.gz", gzip.compress(file.read(), mtime=0))
    lay(f"{made}/drdad.bash", f"{root}/{COMPLETION}")


def lay_units(prefix, root):
    """The units, which name the program and the pages where they will stand."""
    for path in glob.glob(f"{TOP}/packaging/*.service") + glob.glob(f"{TOP}/packaging/*.timer"):
        with open(path, encoding="utf-8") as file:
            text = file.read()
        for folder in ("bin", "lib", "share"):
            text = text.replace(f"/usr/{folder}/", f"{prefix}/{folder}/")
        write(f"{root}/{UNITS}/{os.path.basename(path)}", text.encode())


def lay_below(source, target):
    """Lays all files of a folder, but for what Python has made of its sources."""
    for path in files_below(source):
        if "__pycache__" not in path:
            lay(path, f"{target}/{os.path.relpath(path, source)}")


def lay_all(program, gate, prefix, root):
    """Lays a release below `root`, a folder that is not there, and which will stand as `prefix`."""
    os.umask(0o022)
    os.makedirs(root)
    lay(program, f"{root}/bin/drdad", 0o755)
    lay(f"{TOP}/packaging/drdad-shell", f"{root}/bin/drdad-shell", 0o755)
    lay_below(f"{TOP}/clients/python/drdad", f"{root}/{CLIENT}")
    for name in ("health", "metrics", "check-receipt"):
        lay(f"{TOP}/packaging/{name}", f"{root}/lib/drdad/{name}", 0o755)
    for name in ("README.md", "CHANGELOG.md", "LICENSE"):
        lay(f"{TOP}/{name}", f"{root}/share/doc/drdad/{name}")
    lay_below(f"{TOP}/docs", f"{root}/share/doc/drdad/docs")
    lay_manuals(program, root)
    lay_units(prefix, root)
    write(f"{root}/{RECEIPT}", receipt(root, program, gate).encode())
