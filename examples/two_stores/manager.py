#!/usr/bin/env python3
"""manager.py LOG PORT_A PORT_B: a transaction manager over two stores. It moves amounts between the accounts of one and of the other,
each move one global unit that both commit or neither, and prints the number of each move that is committed, until it is stopped.

The rule is that of two-phase commit with presumed abort. Both stores prepare; then one line in the log, on the device before anything
goes on, is the decision to commit; then both are told. Whoever finds a unit in doubt looks into the log: it is committed where the
decision stands there, and else rolled back. So the manager and the stores may be killed at any moment, and a new manager over the
same log begins by deciding what the last one left. A manager that loses a store ends with status 1: start both again.
"""
import os, pathlib, random, sys

sys.path.insert(0, os.fspath(pathlib.Path(__file__).resolve().parents[2] / "clients" / "python"))
import drdad

RDB, USER, PASSWORD = "SHOP", "ana", "pw"
# The format number of our transaction IDs: units of other managers are left alone.
FORMAT = 0x54574F
ACCOUNTS = 10
MOVES_OF_A_START = 1_000_000
STORE_IS_GONE = 3


class Log:
    """The decisions, a line each in a file of its own. A line is on the device when the call that writes it returns; what a crash has
    left of a line without its end is cut off, since nobody has gone on behind it."""

    def __init__(self, path):
        self._file = os.open(path, os.O_RDWR | os.O_CREAT, 0o600)
        text = os.read(self._file, os.fstat(self._file).st_size)
        lines = text[:text.rfind(b"\n") + 1].decode().splitlines()
        os.ftruncate(self._file, text.rfind(b"\n") + 1)
        os.lseek(self._file, 0, os.SEEK_END)
        self.starts = lines.count("start")
        self.committed = {int(line.split()[1]) for line in lines if line.startswith("commit ")}
        self._sync_folder(os.path.dirname(os.path.abspath(path)))

    @staticmethod
    def _sync_folder(path):
        """The file itself has to be found again."""
        folder = os.open(path, os.O_RDONLY)
        os.fsync(folder)
        os.close(folder)

    def _write(self, line):
        os.write(self._file, line.encode() + b"\n")
        os.fsync(self._file)

    def start(self):
        """A manager starts: its moves have numbers that no earlier one gave."""
        self._write("start")
        self.starts += 1

    def commit(self, number):
        """The decision. From here on the move is made, whatever fails."""
        self._write(f"commit {number}")
        self.committed.add(number)


class Store:
    """A store by its name, and a conversation with its server."""

    def __init__(self, name, port):
        self.name = name
        self.connection = drdad.connect("127.0.0.1", port, RDB, USER, PASSWORD)
        self.cursor = self.connection.cursor()

    def branch(self, number):
        """The store's part of the global unit of a move."""
        return drdad.Xid(FORMAT, number.to_bytes(8, "big"), self.name.encode())

    def add(self, number, account, amount):
        """Adds an amount to an account, and notes the move. Whether the account has so much."""
        self.cursor.execute("UPDATE ACCOUNT SET AMOUNT = AMOUNT + ? WHERE K = ? AND AMOUNT >= ?", (amount, account, -amount))
        if self.cursor.rowcount == 0:
            return False
        self.cursor.execute("INSERT INTO MOVED VALUES (?, ?)", (number, amount))
        return True


class Manager:
    def __init__(self, log, stores):
        self.log, self.stores, self._count = log, stores, 0

    def recover(self):
        """Decides each of our units that is in doubt at a store. Gives what was decided: store, number, and whether it is committed."""
        decided = []
        for store in self.stores:
            for unit in store.connection.tpc_recover():
                if unit.format_id == FORMAT:
                    number = int.from_bytes(unit.global_transaction_id, "big")
                    is_committed = number in self.log.committed
                    try:
                        (store.connection.tpc_commit if is_committed else store.connection.tpc_rollback)(unit)
                    except drdad.HeuristicError as told:
                        self.note_heuristic(store, number, is_committed, told)
                        store.connection.tpc_forget(unit)
                        is_committed = told.is_committed
                    decided.append((store.name, number, is_committed))
        return decided

    @staticmethod
    def note_heuristic(store, number, is_committed, told):
        """Somebody ran `drdad decide` in our place. Where that was the other way round, the store differs from the other one, and it
        is for people to mend."""
        if told.is_committed != is_committed:
            print(f"move {number} differs at store {store.name}: {told}", file=sys.stderr, flush=True)

    def move(self, source, from_account, target, to_account, amount):
        """Moves an amount from an account of one store to one of the other. The number of the move; None where it was not made."""
        self._count += 1
        number = self.log.starts * MOVES_OF_A_START + self._count
        parts = ((source, from_account, -amount), (target, to_account, amount))
        for store in (source, target):
            store.connection.tpc_begin(store.branch(number))
        if not all(store.add(number, account, change) for store, account, change in parts):
            for store in (source, target):
                store.connection.tpc_rollback()
            return None
        for store in (source, target):
            store.connection.tpc_prepare()
        self.log.commit(number)
        for store in (source, target):
            store.connection.tpc_commit()
        return number

    def move_at_random(self):
        source, target = random.sample(self.stores, 2)
        accounts = random.randrange(ACCOUNTS), random.randrange(ACCOUNTS)
        return self.move(source, accounts[0], target, accounts[1], random.randrange(1, 300))


def main(path, *ports):
    log = Log(path)
    try:
        manager = Manager(log, [Store(name, int(port)) for name, port in zip("AB", ports)])
        manager.recover()
        log.start()
        while True:
            number = manager.move_at_random()
            if number is not None:
                print(number, flush=True)
    except (drdad.OperationalError, drdad.InterfaceError) as failure:
        print(f"a store is gone: {failure}", file=sys.stderr)
        sys.exit(STORE_IS_GONE)


if __name__ == "__main__":
    main(*sys.argv[1:])
