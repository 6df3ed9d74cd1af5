"""The tables of a store as `drdad pipe` reads them, beside those that the plain reader of store_reader.py finds in the file."""
from drdad_tests import event_records as events
from drdad_tests import store_reader
from drdad_tests import written_conversations as written
from drdad import wire


def questions(store):
    """A conversation that decides or forgets all units in doubt, and reads all tables."""
    talk = written.Talk()
    talk.opens(0)
    ends = [(xid, wire.FORGET if unit.outcome else wire.ROLL_BACK) for xid, unit in store.doubts.items()]
    sent = [wire.command(6, wire.sync_control(call, 0, xid)) for xid, call in ends]
    for number, name in enumerate(sorted(store.tables), 1):
        section = wire.section("SHOP", number)
        query = wire.ddm(wire.OPNQRY, section + wire.number_object(wire.QRYBLKSZ, 10_485_760))
        words = wire.statement(f"SELECT * FROM {name.decode()}")
        sent += [wire.command(7, wire.ddm(wire.PRPSQLSTT, section), words), wire.command(8, query)]
    return talk.sent + b"".join(events.record(events.SENDS, 0, one) for one in sent), len(events.records(talk.answered))


def tables_in(program, path, store):
    """What `pipe` reads of the tables of a store, by their names."""
    sent, opening = questions(store)
    ran = events.pipe(program, sent, path)
    assert ran.returncode == 0, f"pipe ends with status {ran.returncode}, {ran.stderr}"
    answers = [data for _, _, data in events.records(ran.stdout)][opening + len(store.doubts):]
    return {name: rows_in(answer) for name, answer in zip(sorted(store.tables), answers[1::2])}


def rows_in(data):
    found, fields = [], None
    for one in wire.dsss(data):
        for code, contents in wire.objects(one.contents):
            if code == wire.QRYDSC:
                fields = wire.fields_of(contents)
            elif code == wire.QRYDTA:
                found += wire.rows(fields, contents)
    assert fields is not None, "a query is not opened"
    return found


def in_order(rows):
    return [rows[key] for key in sorted(rows, key=store_reader.order_of)]
