"""Conversations as event records (docs/PROTOCOL.md, "Event records"), those that are kept as files, and runs of the
program `drdad pipe` over them."""
import pathlib, struct, subprocess

HERE = pathlib.Path(__file__).resolve().parent.parent

OPENS, SENDS, IS_LOST, CHECKPOINT, IS_CLOSED, IS_REFUSED = 1, 2, 3, 4, 5, 6
USER = ("--user", "ana:pw")
STORE_SIZE = "2097152"
HEAD = struct.Struct(">BBI")


def record(kind, number, data=b""):
    return HEAD.pack(kind, number, len(data)) + data


def records(data):
    """The records that a stream holds: kind, number of the conversation, bytes."""
    found, at = [], 0
    while at < len(data):
        kind, number, size = HEAD.unpack_from(data, at)
        found.append((kind, number, data[at + HEAD.size:at + HEAD.size + size]))
        at += HEAD.size + size
    assert at == len(data), "the stream ends inside of a record"
    return found


def kept(folder):
    """The conversations of a folder of tests/, by their names: the records that go in, and those that answer them."""
    wanted = sorted((HERE / folder).glob("*.stdout"))
    return {path.stem: (path.with_suffix("").read_bytes(), path.read_bytes()) for path in wanted}


def kept_in_parts(folder):
    """Those of NAME.1, NAME.2 and so on by NAME, as the list of their parts."""
    found = {}
    for name, part in kept(folder).items():
        found.setdefault(name.rpartition(".")[0], []).append(part)
    return found


def pipe(program, data, store=None):
    """What `drdad pipe` does with this input, over the store of that path or else over one in memory."""
    words = [store] if store else ["--rdb", "SHOP"]
    return subprocess.run([program, "pipe", *words, *USER], input=data, capture_output=True, timeout=600)


def made_store(program, path):
    """Makes a store of 2 MiB, whose database is SHOP."""
    path.unlink(missing_ok=True)
    words = [program, "init", path, "--size", STORE_SIZE, "--rdb", "SHOP"]
    made = subprocess.run(words, stdin=subprocess.DEVNULL, capture_output=True, timeout=60)
    assert made.returncode == 0 and made.stdout == f"formatted {STORE_SIZE}\n".encode(), made
    return path
