#!/usr/bin/env python3
"""bench/pipe/measure.py [PROGRAM]: EXCSAT commands through `drdad pipe`, from event records in a file.

PROGRAM is the built program, out/drdad where none is given (`make build`). Prints, for each file, the commands and the
processor time.
"""
import os
import pathlib
import resource
import subprocess
import sys
import tempfile

TOP = pathlib.Path(__file__).resolve().parents[2]
sys.dont_write_bytecode = True
sys.path.insert(0, os.fspath(TOP / "tests"))
from drdad_tests import event_records as events
from drdad import wire

COMMAND = wire.command(1, wire.ddm(wire.EXCSAT))
OPEN = events.record(events.OPENS, 0)


def record(data):
    return events.record(events.SENDS, 0, data)


def processor_time():
    """Seconds of the children so far, in the program and in the system."""
    usage = resource.getrusage(resource.RUSAGE_CHILDREN)
    return usage.ru_utime + usage.ru_stime


def measure(program, name, text, times, commands):
    with tempfile.NamedTemporaryFile() as file:
        file.write(OPEN)
        for _ in range(times):
            file.write(text)
        file.flush()
        file.seek(0)
        before = processor_time()
        subprocess.run([program, "pipe", "--user", "ana:pw"], stdin=file, stdout=subprocess.DEVNULL, check=True)
    took = processor_time() - before
    print(f"{name}: {commands * times} commands, {took:.2f} s, {commands * times / max(took, 0.001) / 1e6:.1f} million a second")


program = sys.argv[1] if len(sys.argv) > 1 else os.fspath(TOP / "out/drdad")
whole = record(COMMAND * 6553)
pieces = b"".join(record(bytes([byte])) for byte in COMMAND)
measure(program, "whole records", whole, 200, 6553)
measure(program, "ten times as many", whole, 2000, 6553)
measure(program, "one byte a record", pieces, 131060, 1)
