"""The programs in C that drdad is measured beside."""
import os, pathlib, subprocess

BENCH = pathlib.Path(__file__).resolve().parent


def built_c(folder, *sources):
    """The path of each program by its name, built into a folder from these sources below bench/."""
    paths = {os.path.basename(source).removesuffix(".c"): source for source in sources}
    for name, source in paths.items():
        subprocess.run(["cc", "-O2", "-Wall", "-pthread", "-o", f"{folder}/{name}", BENCH / source], check=True)
    return {name: f"{folder}/{name}" for name in paths}
