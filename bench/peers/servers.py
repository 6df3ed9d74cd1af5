"""drdad, Derby and PostgreSQL, each over a fresh folder with a table of rows, and the load of each (load.c)."""
import contextlib, os, pathlib, shutil, socket, subprocess, sys, time

from loads import PASSWORD, RDB, USER, Load, Server

JARS = pathlib.Path("/usr/share/java")
POSTGRES = pathlib.Path("/usr/lib/postgresql/15/bin")
LISTENS_IN_SECONDS = 90
WARMS_WIDTH, WARMS_SECONDS = 4, 3
SETTINGS = "listen_addresses = '127.0.0.1'\nport = {}\nunix_socket_directories = ''\nmax_prepared_transactions = 300\n"


def free_port():
    with socket.create_server(("127.0.0.1", 0)) as server:
        return server.getsockname()[1]


def wait_for(port, process):
    ends = time.monotonic() + LISTENS_IN_SECONDS
    while time.monotonic() < ends and process.poll() is None:
        with contextlib.suppress(OSError), socket.create_connection(("127.0.0.1", port), timeout=1):
            return
        time.sleep(0.05)
    sys.exit(f"{process.args[0]} does not listen")


@contextlib.contextmanager
def running(words, port, log, **options):
    """A server that listens on a port, and is stopped at last."""
    with open(log, "wb") as said, subprocess.Popen(words, stdout=said, stderr=said, stdin=subprocess.DEVNULL, **options) as process:
        try:
            wait_for(port, process)
            yield
        finally:
            process.terminate()


@contextlib.contextmanager
def slowed(programs, micros, is_free=False):
    """Whoever is started in this `with` takes so many microseconds more for each sync, or makes none under drdad's lock (slow.c)."""
    words = {"LD_PRELOAD": programs["slow.so"], "SYNC_DELAY_US": str(micros)} if micros or is_free else {}
    words |= {"SYNC_FREE": "1"} if is_free else {}
    os.environ.update(words)
    try:
        yield
    finally:
        for name in words:
            del os.environ[name]


@contextlib.contextmanager
def drdad(programs, program, store, micros, is_free=False):
    """drdad over a fresh store of 1 GiB, and its load."""
    with Server(program, store, 1 << 30) as server:
        server.made.check_returncode()
        with slowed(programs, micros, is_free):
            server.start()
        yield Load(programs["load"], server.port, RDB, USER, PASSWORD)


@contextlib.contextmanager
def derby(programs, folder, micros):
    """Derby with a fresh database, warm, and its load."""
    home, port = f"{folder}/derby", free_port()
    os.mkdir(home)
    jars = ":".join(os.fspath(JARS / f"{name}.jar") for name in ("derby", "derbynet", "derbytools"))
    java = ["java", f"-Dderby.system.home={home}", "-cp", jars]
    makes = "connect 'jdbc:derby:peer;create=true;user=app;password=pw';\n"
    subprocess.run([*java, "org.apache.derby.tools.ij"], input=makes, text=True, check=True, stdout=subprocess.DEVNULL, cwd=home)
    starts = ("org.apache.derby.drda.NetworkServerControl", "start", "-h", "127.0.0.1", "-p", str(port), "-noSecurityManager")
    with contextlib.ExitStack() as held:
        with slowed(programs, micros):
            held.enter_context(running([*java, *starts], port, f"{folder}/derby.log", cwd=home))
        load = Load(programs["load"], port, "peer", "app", "pw", commits=3)
        load.fill("WARM")
        load.run("select", WARMS_WIDTH, WARMS_SECONDS)
        load.run("insert", WARMS_WIDTH, WARMS_SECONDS, "WARM")
        yield load


@contextlib.contextmanager
def postgres(programs, folder, micros):
    """PostgreSQL with a fresh database, and its load."""
    home, port = pathlib.Path(folder) / "postgres", free_port()
    home.mkdir()
    # It does not run as root.
    as_who = ["runuser", "-u", "postgres", "--"] if os.geteuid() == 0 else []
    if as_who:
        shutil.chown(home, "postgres")
    makes = [*as_who, POSTGRES / "initdb", "-D", home / "data", "-A", "trust", "-U", "postgres", "-E", "UTF8", "--locale=C"]
    subprocess.run(makes, check=True, stdout=subprocess.DEVNULL, cwd=home)
    with open(home / "data" / "postgresql.conf", "a") as settings:
        settings.write(SETTINGS.format(port))
    with contextlib.ExitStack() as held:
        with slowed(programs, micros):
            words = [*as_who, POSTGRES / "postgres", "-D", home / "data"]
            held.enter_context(running(words, port, f"{folder}/postgres.log", cwd=home))
        wait_until_ready(port)
        yield Load(programs["load"], f"postgres:{port}", "postgres", "postgres", "postgres")


def wait_until_ready(port):
    """PostgreSQL listens before it lets anybody in."""
    ends = time.monotonic() + LISTENS_IN_SECONDS
    while subprocess.run([POSTGRES / "pg_isready", "-h", "127.0.0.1", "-p", str(port)], stdout=subprocess.DEVNULL).returncode:
        if time.monotonic() > ends:
            sys.exit("PostgreSQL lets nobody in")
        time.sleep(0.1)
