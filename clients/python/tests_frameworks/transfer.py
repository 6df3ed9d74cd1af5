#!/usr/bin/env python3
"""transfer.py LOG DRDAD_PORT POSTGRESQL_DSN COUNT [STEP [PID..]]: recovers, and moves amounts from drdad to PostgreSQL, each move one
transaction of Zope's; prints the number of each that is made, and behind COUNT moves `done` and how many steps there were. A step is
before and behind each call that is made of a connection or of the file system. At the step that is given, processes are killed:
those of the PIDs, where 0 is this one, and one of PostgreSQL has a minus sign. Steps are counted from the first move on; where COUNT
is 0, from the start of recovery."""
import os, pathlib, signal, sys

sys.path.insert(0, os.fspath(pathlib.Path(__file__).resolve().parents[1]))
import drdad, psycopg2.extensions, transaction
from drdad_transaction import DecisionLog, join, log as log_module, recover

CALLS = ("tpc_begin", "tpc_prepare", "tpc_commit", "tpc_rollback", "tpc_recover")
MANY = 1_000_000
FILE_CALLS = ("pwrite", "fsync", "rename", "ftruncate")


class Steps:
    """Counts steps, and kills processes at one of them. PostgreSQL's are killed by SIGQUIT, as its manual has it: SIGKILL would leave
    its children behind."""

    def __init__(self, last, victims):
        self.count, self._last, self._victims = 0, last, victims

    def step(self):
        self.count += 1
        for victim in self._victims if self.count == self._last else ():
            os.kill(abs(victim) or os.getpid(), signal.SIGQUIT if victim < 0 else signal.SIGKILL)

    def around(self, call):
        def stepped(*given):
            self.step()
            answer = call(*given)
            self.step()
            return answer
        return stepped


class PostgreSQLConnection(psycopg2.extensions.connection):
    """One whose calls can be replaced."""

    def __init__(self, *given):
        super().__init__(*given)
        for name in CALLS:
            setattr(self, name, STEPS.around(getattr(self, name)))


class Files:
    """The module `os`, with steps around what the log asks of it."""

    def __getattr__(self, name):
        call = getattr(os, name)
        return STEPS.around(call) if name in FILE_CALLS else call


def connections(port, dsn):
    shop = drdad.connect("127.0.0.1", int(port), "SHOP", "ana", "pw")
    for name in CALLS:
        setattr(shop, name, STEPS.around(getattr(shop, name)))
    return {"shop": shop, "ledger": psycopg2.connect(dsn, connection_factory=PostgreSQLConnection)}


def move(at, log, number, amount):
    """Takes an amount at drdad, and gives it at PostgreSQL."""
    for name, connection in at.items():
        join(connection, name, log)
    shop, ledger = (connection.cursor() for connection in at.values())
    shop.execute("UPDATE ACCOUNT SET AMOUNT = AMOUNT - ? WHERE K = ?", (amount, 1))
    shop.execute("INSERT INTO MOVED VALUES (?, ?)", (number, -amount))
    ledger.execute("UPDATE account SET amount = amount + %s WHERE k = %s", (amount, 1))
    ledger.execute("INSERT INTO moved VALUES (%s, %s)", (number, amount))
    STEPS.step()


def next_number(shop):
    numbers = [number for number, in shop.cursor().execute("SELECT NUMBER FROM MOVED")]
    shop.commit()
    return max(numbers, default=0) + 1


def main(path, port, dsn, count):
    STEPS.count = -MANY if int(count) else 0
    at = connections(port, dsn)
    log_module.os = Files()
    with DecisionLog(path) as log:
        for outcome in recover(log, at):
            print("recovered", outcome.name, outcome.is_committed, flush=True)
        if int(count):
            STEPS.count = 0
            first = next_number(at["shop"])
        for number in range(int(count)):
            with transaction.manager:
                move(at, log, first + number, number % 7 + 1)
            print("moved", first + number, flush=True)
    print("done", STEPS.count, flush=True)


if __name__ == "__main__":
    STEPS = Steps(int(sys.argv[5]) if len(sys.argv) > 5 else 0, [int(word) for word in sys.argv[6:]])
    main(*sys.argv[1:5])
