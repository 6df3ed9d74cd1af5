"""Sections, which hold prepared statements at the server, and the queries that are open in them."""
import struct
from collections import OrderedDict

from . import wire
from .type_objects import description_of

BLOCK_SIZE = 131072
MOST_FREE = 64
# So many different replies to a statement are known by their bytes.
MOST_KNOWN = 16
COMMITS = (wire.ddm(wire.RDBCMM),)


class Section:
    """The name of a section, and what the server has in it."""

    def __init__(self, rdb, number):
        self.name = wire.section(rdb, number)
        self.is_fresh, self.text, self.columns, self.description, self._shortcuts = True, None, (), (), {}

    def prepares(self, text, is_described):
        """PRPSQLSTT, held, so that a commit leaves its cursor open."""
        self.is_fresh, self.text = False, None
        describing = wire.ddm(wire.RTNSQLDA, b"\xf1" if is_described else b"\xf0")
        request = wire.ddm(wire.PRPSQLSTT, self.name + describing)
        return request, wire.attributes("WITH HOLD"), wire.statement(text)

    def has_prepared(self, text, answer, is_unicode):
        """The server has answered that the text is prepared here."""
        described = [data for code, data in answer if code == wire.SQLDARD]
        self.columns = wire.described(described[0], is_unicode) if described else ()
        self.description = [description_of(column) for column in self.columns]
        self.text, self._shortcuts = text, {}

    def run_request(self):
        return wire.ddm(wire.EXCSQLSTT, self.name)

    def open_request(self):
        return wire.ddm(wire.OPNQRY, self.name + wire.number_object(wire.QRYBLKSZ, BLOCK_SIZE))

    def closes(self):
        return (wire.ddm(wire.CLSQRY, self.name),)

    def shortcut(self, is_query, commits):
        """How the statement is run again, alone or with a commit behind it."""
        found = self._shortcuts.get(commits)
        if found is None:
            request = self.open_request() if is_query else self.run_request()
            found = self._shortcuts[commits] = (QueryShortcut if is_query else RunShortcut)(request, commits)
        return found


class Shortcut:
    """The bytes by which a prepared statement is run again, and replies that are known by their bytes."""

    def __init__(self, request, commits):
        behind = wire.CHAINED if commits else 0
        self._alone = wire.dss(wire.REQUEST | behind, 1, request)
        self._request = wire.dss(wire.REQUEST | wire.CHAINED | wire.SAME, 1, request)
        self._form, self._tail = wire.OBJECT | behind, wire.command(2, *COMMITS) if commits else b""

    def sends(self, data):
        """The chain, with the data object of its parameters or with none."""
        if not data:
            return self._alone + self._tail
        if len(data) > wire.MOST_OF_SEGMENT - wire.HEADER.size:
            return self._request + wire.dss(self._form, 1, data) + self._tail
        return b"".join((self._request, wire.HEADER.pack(6 + len(data), 0xD0, self._form, 1), data, self._tail))


class RunShortcut(Shortcut):
    """Of a statement that gives no rows: each reply that came is known by what it said."""

    def __init__(self, request, commits):
        super().__init__(request, commits)
        self._known = {}

    def known(self, came):
        """How many rows were changed, by a reply that is known; None of another one."""
        return self._known.get(came)

    def learn(self, came, count):
        if len(self._known) < MOST_KNOWN:
            self._known[came] = count


class QueryShortcut(Shortcut):
    """Of a query whose rows come in one block: what stands in front of the rows, but for the number of the query, and behind
    them."""

    ROWS = struct.Struct(">HBBHHH")

    def __init__(self, request, commits):
        super().__init__(request, commits)
        self._opened, self._described, self._ended, self._fields = None, None, None, None

    def known(self, came):
        """The rows of a reply that is all known but for them; None of another one."""
        if self._opened is None or not came.startswith(self._opened) or not came.endswith(self._ended):
            return None
        at, end = len(self._opened) + 8, len(came) - len(self._ended)
        if not came.startswith(self._described, at):
            return None
        at += len(self._described)
        if at == end:
            return []
        if end - at < self.ROWS.size:
            return None
        size, mark, form, correlator, inner, code = self.ROWS.unpack_from(came, at)
        if (at + size, mark, form, correlator, inner, code) != (end, 0xD0, 0x53, 1, size - 6, wire.QRYDTA):
            return None
        return wire.rows(self._fields, came[at + 10:end])

    def learn(self, came):
        """A whole reply was read: where it has the usual form it is known from now on."""
        ends = [at for at, _ in _ends(came)]
        kinds = [kind for _, kind in _ends(came)]
        if kinds[:2] != [wire.OPNQRYRM, wire.QRYDSC] or wire.ENDQRYRM not in kinds or kinds.count(wire.QRYDTA) > 1:
            return
        instance = came[ends[0] - 12:ends[0] - 8]
        if instance != wire.HEADING.pack(12, wire.QRYINSID):
            return
        self._opened, self._described = came[:ends[0] - 8], came[ends[0]:ends[1]]
        self._fields = wire.fields_of(self._described[10:])
        self._ended = came[ends[2] if kinds[2] == wire.QRYDTA else ends[1]:]


def _ends(came):
    """The place behind each DSS, which has one segment, and the code of the object that it begins with."""
    at, found = 0, []
    while at < len(came):
        size, code = wire.HEADER.unpack_from(came, at)[0], int.from_bytes(came[at + 8:at + 10], "big")
        if size & wire.CONTINUED:
            return []
        at += size
        found.append((at, code))
    return found


class Sections:
    """The sections of a conversation. Each has one statement, and one cursor at most."""

    def __init__(self, rdb):
        self._rdb, self._free, self._made = rdb, OrderedDict(), 0

    def prepared(self, text):
        """A section without an open cursor that has the text, which stays free; else None."""
        section = self._free.get(text)
        if section is not None:
            self._free.move_to_end(text)
        return section

    def take(self, text):
        """A section without an open cursor: one that has the text; else one that was never used; else, where many are free,
        the one that was given back first."""
        found = self._free.pop(text, None)
        if found is not None:
            return found
        if len(self._free) >= MOST_FREE:
            return self._free.popitem(last=False)[1]
        self._made += 1
        return Section(self._rdb, self._made)

    def give_back(self, section):
        """Of two sections that have a text, and of those that have none, each is found by a name of its own."""
        key = section.text if section.text is not None and section.text not in self._free else section
        self._free[key] = section

    def forget(self):
        """What was described may be gone: a table that a unit created which is rolled back."""
        free, self._free = self._free, OrderedDict()
        for section in free.values():
            section.text = None
            self._free[section] = section


class Query:
    """The rows of an open query, those that have come and those that the server still has."""

    def __init__(self, section, rows=(), abandoned=None):
        self.section, self.is_open, self.is_lost = section, False, False
        self._abandoned, self._instance, self._fields = abandoned, None, ()
        self.rows, self.at, self.before = rows, 0, 0

    @classmethod
    def opened(cls, section, answer, abandoned):
        """Of the answer to OPNQRY."""
        query = cls(section, [], abandoned)
        opened = wire.find(answer, wire.OPNQRYRM)
        query._instance = wire.find(wire.objects(opened), wire.QRYINSID, 8)
        query._fields = wire.fields_of(wire.find(answer, wire.QRYDSC))
        if len(query._fields) != len(section.columns):
            raise wire.WireFault("QRYDSC and SQLDARD have not as many columns")
        query.is_open = True
        query.takes(answer)
        return query

    def __del__(self):
        if self.is_open:
            self._abandoned.append(self.section)

    def takes(self, answer):
        """The rows of the next block; behind the last one the server has closed the cursor."""
        if self.at:
            self.before += self.at
            self.rows, self.at = self.rows[self.at:], 0
        for code, data in answer:
            if code == wire.QRYDTA:
                self.rows += wire.rows(self._fields, data)
            elif code == wire.ENDQRYRM:
                self.is_open = False

    def gives(self, size):
        """So many of the rows that have come; all where the size is None."""
        if size is None and not self.at:
            taken, self.rows, self.before = self.rows, [], self.before + len(self.rows)
            return taken
        end = len(self.rows) if size is None else min(self.at + size, len(self.rows))
        taken, self.at = self.rows[self.at:end], end
        return taken

    def continues(self):
        return (wire.ddm(wire.CNTQRY, self.section.name + wire.ddm(wire.QRYINSID, self._instance)),)

    def count(self):
        """How many rows there are, or -1 while the server has more."""
        return -1 if self.is_open else self.before + len(self.rows)

    def number(self):
        """How many rows were handed out."""
        return self.before + self.at

    def lose(self):
        """The server has closed it before its end."""
        self.is_open, self.is_lost = False, True
