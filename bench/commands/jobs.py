"""Jobs of bench/commands and bench/counts: each is a Script that connects and fills the tables, and one that does the work."""
import struct

import drda
from drda import wire

TABLE = "CREATE TABLE T (K INTEGER NOT NULL, V VARCHAR(100) NOT NULL, W BIGINT, PRIMARY KEY (K))"
NUMBER, TEXT, BIG = (0x02, 4), (0x3E, 100), (0x16, 8)


def scattered(number):
    """A number below 2^30, which no other number below 2^30 gives."""
    return number * 2_654_435_761 % (1 << 30)


def connected(table=TABLE):
    script = drda.Script()
    script.connect()
    script.create(table)
    return script


def inserts(count):
    """INSERT by literals and RDBCMM, one row a unit."""
    work = drda.Script()
    for number in range(count):
        work.add(drda.immediate(f"INSERT INTO T VALUES ({scattered(number)}, 'apple', NULL)"), *drda.OF_WRITE)
        work.commit()
    return connected(), work


def executions(count):
    """EXCSQLSTT of an INSERT with three parameters, 1,000 a unit."""
    setup, work = connected(), drda.Script()
    setup.add(drda.prepare("INSERT INTO T VALUES (?, ?, ?)"), "SQLCARD null")
    for number in range(count):
        data = struct.pack(">iH5sq", scattered(number), 5, b"apple", number)
        command = drda.request(wire.EXCSQLSTT, drda.section(), drda.parameters((NUMBER, TEXT, BIG), data))
        work.add(command, *drda.OF_WRITE[number % 1000 > 0:])
        if number % 1000 == 999:
            work.commit()
    return setup, work


def filled(rows, length, table=TABLE):
    """A table with so many rows, each with a text of so many bytes."""
    script = connected(table)
    for number in range(rows):
        text = f"INSERT INTO T VALUES ({scattered(number)}, '{'a' * length}'{', NULL' if table == TABLE else ''})"
        script.add(drda.immediate(text), *drda.OF_WRITE[number % 1000 > 0:])
        if number % 1000 == 999:
            script.commit()
    script.commit()
    return script


def points(count, rows):
    """OPNQRY with one parameter, its row and ENDQRYRM in the one reply, of so many rows; RDBCMM after each 1,000."""
    setup, work = filled(rows, 20), drda.Script()
    setup.add(drda.prepare("SELECT V FROM T WHERE K = ?"), "SQLCARD null")
    for number in range(count):
        key = struct.pack(">i", scattered(number * 7_919 % rows))
        named = drda.section() + drda.block_size(32_767)
        work.add(drda.request(wire.OPNQRY, named, drda.parameters((NUMBER,), key)), *drda.OF_ONE_BLOCK)
        if number % 1000 == 999:
            work.commit()
    work.wanted["bytes of rows"] = 24 * count
    return setup, work


def scans(rows, times):
    """SELECT * of so many rows of 96 bytes, by OPNQRY and CNTQRYs with blocks of 32,767 bytes."""
    setup, work = filled(rows, 88, "CREATE TABLE T (K INTEGER NOT NULL, V VARCHAR(100) NOT NULL, PRIMARY KEY (K))"), drda.Script()
    setup.add(drda.prepare("SELECT * FROM T"), "SQLCARD null")
    blocks = -(-rows // (32_767 // 96))
    for _ in range(times):
        work.add(drda.request(wire.OPNQRY, drda.section() + drda.block_size(32_767)), "OPNQRYRM", "QRYDSC", "QRYDTA")
        for _ in range(blocks - 1):
            work.add(drda.request(wire.CNTQRY, drda.section()), "QRYDTA")
        work.wanted.update(("ENDQRYRM", "SQLCARD 100"))
        work.commit()
    work.wanted["bytes of rows"] = 96 * rows * times
    return setup, work


def tests(rows, times):
    """SELECT with two tests over so many rows of 96 bytes, none of which is found."""
    setup, work = filled(rows, 80), drda.Script()
    setup.add(drda.prepare("SELECT K FROM T WHERE V IS NOT NULL AND W > 5"), "SQLCARD null")
    for _ in range(times):
        work.add(drda.request(wire.OPNQRY, drda.section() + drda.block_size(32_767)), "OPNQRYRM", "QRYDSC", "ENDQRYRM", "SQLCARD 100")
        work.commit()
    return setup, work


def branches(count):
    """XA start, INSERT by literals, end, prepare and commit, one row a branch."""
    work = drda.Script()
    for number in range(count):
        xid = wire.xid_bytes(1, number.to_bytes(4, "big"), b"B")
        work.add(drda.sync(wire.START, 0, xid), "SYNCCRD 0")
        work.add(drda.immediate(f"INSERT INTO T VALUES ({scattered(number)}, 'apple', NULL)"), *drda.OF_WRITE)
        work.add(drda.sync(wire.END, wire.TMSUCCESS, xid), "SYNCCRD 0")
        work.add(drda.sync(wire.PREPARE, 0, xid), "SYNCCRD 0")
        work.add(drda.sync(wire.COMMIT, 0, xid), "SYNCCRD 0")
    return connected(), work
