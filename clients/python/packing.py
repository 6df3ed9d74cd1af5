"""Builds the wheel and the sdist of the packages that stand beside this file, by the standard library alone, so that no network is wanted:
the backend of pyproject.toml (PEP 517, PEP 621). Each folder with an __init__.py is a package."""
import ast, base64, hashlib, io, pathlib, re, tarfile, zipfile

TOP = pathlib.Path(__file__).resolve().parent
TABLE, KEY = re.compile(r"\[(.+)\]"), re.compile(r'"?([\w.-]+)"?\s*=\s*(.+)')
WHEEL = "Wheel-Version: 1.0\nGenerator: packing\nRoot-Is-Purelib: true\nTag: py3-none-any\n"
NOT_PACKED = ("__pycache__",)


def settings():
    """The tables of pyproject.toml."""
    tables, table = {}, None
    for line in (TOP / "pyproject.toml").read_text(encoding="utf-8").splitlines():
        if found := TABLE.fullmatch(line.strip()):
            table = tables.setdefault(found[1].replace('"', ""), {})
        elif found := KEY.fullmatch(line.strip()):
            table[found[1]] = ast.literal_eval(found[2])
    return tables


def version():
    return re.search(r'^__version__ = "(.+)"', (TOP / "drdad/version.py").read_text(encoding="utf-8"), re.M)[1]


def full_name():
    return f"{settings()['project']['name']}-{version()}"


def files():
    """The files of the packages, by their paths from here."""
    packages = [folder.parent for folder in TOP.glob("*/__init__.py")]
    found = [path for package in packages for path in package.rglob("*") if path.is_file() and not set(NOT_PACKED) & set(path.parts)]
    return {path.relative_to(TOP).as_posix(): path.read_bytes() for path in sorted(found)}


def metadata():
    tables = settings()
    project = tables["project"]
    lines = ["Metadata-Version: 2.1", f"Name: {project['name']}", f"Version: {version()}", f"Summary: {project['description']}"]
    lines += [f"License: {project['license']}", f"Requires-Python: {project['requires-python']}"]
    lines += [f"Keywords: {','.join(project['keywords'])}"]
    lines += [f"Classifier: {one}" for one in project["classifiers"]]
    lines += [f"Requires-Dist: {one}" for one in project.get("dependencies", ())]
    for extra, wanted in tables.get("project.optional-dependencies", {}).items():
        lines += [f"Provides-Extra: {extra}", *(f"Requires-Dist: {one}; extra == '{extra}'" for one in wanted)]
    return "\n".join(lines) + "\n"


def entry_points():
    tables, lines = settings(), []
    groups = {"console_scripts": tables.get("project.scripts", {})}
    groups.update({name.split(".", 2)[2]: table for name, table in tables.items() if name.startswith("project.entry-points.")})
    for group, entries in groups.items():
        lines += [f"[{group}]", *(f"{name} = {target}" for name, target in entries.items()), ""]
    return "\n".join(lines)


def build_wheel(wheel_directory, config_settings=None, metadata_directory=None):
    """PEP 517."""
    return _wheel(wheel_directory, files())


def build_editable(wheel_directory, config_settings=None, metadata_directory=None):
    """PEP 660: a file by which Python finds the packages here."""
    return _wheel(wheel_directory, {f"{full_name()}.pth": f"{TOP}\n".encode()})


def _wheel(directory, held):
    folder = f"{full_name()}.dist-info"
    told = {"METADATA": metadata(), "WHEEL": WHEEL, "entry_points.txt": entry_points()}
    held = {**held, **{f"{folder}/{name}": text.encode() for name, text in told.items()}}
    record = "".join(f"{name},sha256={_digest(data)},{len(data)}\n" for name, data in held.items())
    held[f"{folder}/RECORD"] = f"{record}{folder}/RECORD,,\n".encode()
    name = f"{full_name()}-py3-none-any.whl"
    with zipfile.ZipFile(pathlib.Path(directory) / name, "w", zipfile.ZIP_DEFLATED) as wheel:
        for path, data in held.items():
            wheel.writestr(path, data)
    return name


def _digest(data):
    return base64.urlsafe_b64encode(hashlib.sha256(data).digest()).rstrip(b"=").decode()


def build_sdist(sdist_directory, config_settings=None):
    """PEP 517."""
    held = {**files(), "PKG-INFO": metadata().encode()}
    held.update({name: (TOP / name).read_bytes() for name in ("pyproject.toml", "packing.py")})
    name = f"{full_name()}.tar.gz"
    with tarfile.open(pathlib.Path(sdist_directory) / name, "w:gz", format=tarfile.PAX_FORMAT) as sdist:
        for path, data in held.items():
            one = tarfile.TarInfo(f"{full_name()}/{path}")
            one.size = len(data)
            sdist.addfile(one, io.BytesIO(data))
    return name
