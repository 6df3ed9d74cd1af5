"""The manager of a transaction over drdad and PostgreSQL, and each of the two, killed at each step of a commit and at random. Behind
each kill the log is recovered: both sides have the same moves, the amounts add up, each move that was told is there, and nothing is
in doubt. DRDAD_ROUNDS is how many rounds of kills at random there are (20)."""
import contextlib, os, pathlib, random, subprocess, sys, threading, time, unittest

from beside_postgresql import BesidePostgreSQL, drdad, psycopg2

try:
    from drdad_transaction import DecisionLog, recover
except ImportError as missing:
    raise unittest.SkipTest(f"{missing.name} is not installed")

TRANSFER = pathlib.Path(__file__).resolve().parent / "transfer.py"
TABLES = ("CREATE TABLE ACCOUNT (K INTEGER NOT NULL, AMOUNT BIGINT NOT NULL, PRIMARY KEY (K))",
          "CREATE TABLE MOVED (NUMBER BIGINT NOT NULL, AMOUNT BIGINT NOT NULL, PRIMARY KEY (NUMBER))",
          "INSERT INTO ACCOUNT VALUES (1, 1000)")
TOTAL = 2000
MANY = 1_000_000
ROUNDS = int(os.environ.get("DRDAD_ROUNDS", "20"))
LONGEST_MOMENT = 0.5
WAITS = 60
TRIES, MOMENT = 50, 0.1
CLAIMED = -913


def read(connection):
    """The amount of the account, and the moves."""
    cursor = connection.cursor()
    cursor.execute("SELECT AMOUNT FROM ACCOUNT")
    (amount,), = cursor.fetchall()
    cursor.execute("SELECT NUMBER, AMOUNT FROM MOVED")
    return amount, dict(cursor.fetchall())


class Crashes(BesidePostgreSQL):
    def setUp(self):
        super().setUp()
        self.addCleanup(self.serve)
        self.path = os.path.join(os.path.dirname(self.server.store), "decisions")
        self.told = set()
        self.postgresql.clear("ACCOUNT", "MOVED")
        with self.connections() as at:
            for connection in at.values():
                for statement in TABLES:
                    connection.cursor().execute(statement)
                connection.commit()

    def serve(self):
        """Serves again what was killed."""
        for served in (self.server, self.postgresql):
            if served.process.poll() is not None:
                served.start()

    def manager(self, count, step=0, *victims):
        words = [TRANSFER, self.path, str(self.server.port), self.postgresql.dsn, str(count), str(step), *map(str, victims)]
        return subprocess.Popen([sys.executable, "-B", *words], stdout=subprocess.PIPE, stderr=subprocess.DEVNULL, text=True)

    def ended(self, manager):
        """How many steps a manager made, once it has ended; None where it did not come to its end. What it told is kept. One that
        takes too long is killed."""
        late = threading.Timer(WAITS, manager.kill)
        late.start()
        with manager.stdout:
            said = [line.split() for line in manager.stdout]
        manager.wait()
        late.cancel()
        self.told |= {int(words[1]) for words in said if words[0] == "moved"}
        return next((int(words[1]) for words in said if words[0] == "done"), None)

    @contextlib.contextmanager
    def connections(self):
        """A connection to each, where both are served again."""
        self.serve()
        with self.server.connect() as shop, contextlib.closing(self.postgresql.connect()) as ledger:
            yield {"shop": shop, "ledger": ledger}

    def in_doubt(self):
        """The resources at which something is in doubt."""
        with self.connections() as at:
            return [name for name, connection in at.items() if connection.tpc_recover()]

    def settle(self):
        """Recovers, and judges both sides: the moves that were made."""
        with self.connections() as at:
            sides = next(filter(None, (self.recovered_sides(at) for _ in range(TRIES))), None)
        self.assertIsNotNone(sides, "something stays in doubt")
        (first, taken), (second, given) = sides
        self.assertEqual((first + second, {number: -amount for number, amount in taken.items()}), (TOTAL, given))
        self.assertLessEqual(self.told, set(given))
        return set(given)

    def recovered_sides(self, at):
        """Recovers, and reads both sides. Gives None, behind a moment, where a killed manager still stands in the way: its conversations
        are not lost at once, and what it had asked for goes on."""
        sides = None
        try:
            with DecisionLog(self.path) as log:
                recover(log, at)
            sides = [read(connection) for connection in at.values()]
        except (drdad.OperationalError, psycopg2.errors.ObjectNotInPrerequisiteState) as failure:
            if getattr(failure, "sqlcode", CLAIMED) != CLAIMED:
                raise
        for connection in at.values():
            connection.rollback()
        if sides is not None and not any(connection.tpc_recover() for connection in at.values()):
            return sides
        time.sleep(MOMENT)
        return None

    def kill_at_each_step(self, *killed):
        """Kills some of manager (0), drdad (1) and PostgreSQL (2) at each step of a move, behind one that was made."""
        steps = self.ended(self.manager(1))
        self.assertGreater(steps, 15)
        servers = {1: self.server, 2: self.postgresql}
        made = []
        for step in range(1, steps + 1):
            before = self.settle()
            pids = {0: 0, 1: self.server.process.pid, 2: -self.postgresql.process.pid}
            with self.subTest(step=step):
                self.ended(self.manager(1, step, *(pids[victim] for victim in sorted(killed, reverse=True))))
                for victim in set(killed) - {0}:
                    servers[victim].ended()
                made.append(len(self.settle()) - len(before))
        return made

    def test_the_manager_is_killed_at_each_step(self):
        made = self.kill_at_each_step(0)
        self.assertEqual(made, sorted(made))
        self.assertEqual(set(made), {0, 1})

    def test_drdad_is_killed_at_each_step(self):
        self.assertEqual(set(self.kill_at_each_step(1)), {0, 1})

    def test_postgresql_is_killed_at_each_step(self):
        self.assertEqual(set(self.kill_at_each_step(2)), {0, 1})

    def test_all_are_killed_at_each_step(self):
        self.assertEqual(set(self.kill_at_each_step(0, 1, 2)), {0, 1})

    def test_recovery_is_killed_at_each_step(self):
        """From each step of a move on: the recovery is killed at one step after the other until one comes to its end."""
        decided = set()
        for step in range(1, self.ended(self.manager(1)) + 1):
            before = self.settle()
            self.ended(self.manager(1, step, 0))
            names = self.in_doubt()
            last = 1
            while names and self.ended(self.manager(0, last, 0)) is None:
                last += 1
            decided |= {(name, len(self.settle()) - len(before)) for name in names}
        self.assertEqual(decided, {("shop", 0), ("shop", 1), ("ledger", 0), ("ledger", 1)})

    def first_move(self, manager):
        """Waits until a manager tells a move; keeps what it told."""
        for line in manager.stdout:
            words = line.split()
            if words[0] == "moved":
                self.told.add(int(words[1]))
                return

    def test_kills_at_random_moments(self):
        """Behind the first move of a manager, or, in one round of three, from its start on."""
        chosen = random.Random(ROUNDS)
        for number in range(ROUNDS):
            killed = chosen.sample((0, 1, 2), chosen.randint(1, 3))
            manager = self.manager(MANY)
            if number % 3:
                self.first_move(manager)
            with contextlib.suppress(subprocess.TimeoutExpired):
                manager.wait(chosen.uniform(0, LONGEST_MOMENT))
            if 1 in killed:
                self.server.kill()
            if 2 in killed:
                self.postgresql.kill()
            manager.kill()
            with self.subTest(number=number, killed=killed):
                self.ended(manager)
                self.settle()
        self.assertGreaterEqual(len(self.told), ROUNDS // 3 * 2)


if __name__ == "__main__":
    unittest.main()
