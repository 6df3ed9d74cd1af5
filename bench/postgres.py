"""PostgreSQL beside drdad: Debian's 15 over a fresh cluster on the loopback, with the settings that it comes with."""
import contextlib, os, pathlib, shutil, socket, subprocess

POSTGRES = pathlib.Path("/usr/lib/postgresql/15/bin")
LISTENS_IN_SECONDS = 90


def free_port():
    with socket.create_server(("127.0.0.1", 0)) as free:
        return free.getsockname()[1]


@contextlib.contextmanager
def postgres(folder, **settings):
    """Its port, once it listens; with these settings besides. It does not run as root."""
    home, port = pathlib.Path(folder) / "postgres", free_port()
    home.mkdir()
    as_who = ["runuser", "-u", "postgres", "--"] if os.geteuid() == 0 else []
    if as_who:
        shutil.chown(home, "postgres")
    makes = [*as_who, POSTGRES / "initdb", "-D", home / "data", "-A", "trust", "-U", "postgres", "-E", "UTF8", "--locale=C"]
    subprocess.run(makes, check=True, stdout=subprocess.DEVNULL, cwd=home)
    controls = [*as_who, POSTGRES / "pg_ctl", "-D", home / "data", "-l", home / "log", "-w", "-t", str(LISTENS_IN_SECONDS)]
    given = "".join(f" -c {name}={value}" for name, value in settings.items())
    options = f"-p {port} -k '' -c listen_addresses=127.0.0.1{given}"
    subprocess.run([*controls, "-o", options, "start"], check=True, stdout=subprocess.DEVNULL, cwd=home)
    try:
        yield port
    finally:
        subprocess.run([*controls, "-m", "immediate", "stop"], check=True, stdout=subprocess.DEVNULL, cwd=home)
