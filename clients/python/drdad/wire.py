"""DRDA as bytes: DSSs, DDM objects, SQLCARD, SQLDARD, and the descriptors and rows of FD:OCA, as docs/PROTOCOL.md and
docs/WIRE.md have them. Values go in and bytes come out, or the other way round; nothing here sends or waits."""
import functools, struct, sys
from collections import namedtuple

from . import compiled

# Commands.
EXCSAT = 0x1041  # exchange server attributes
ACCSEC = 0x106D  # access security
SECCHK = 0x106E  # security check
SYNCCTL = 0x1055  # sync point control
ACCRDB = 0x2001  # access RDB
CLSQRY = 0x2005  # close query
CNTQRY = 0x2006  # continue query
DSCSQLSTT = 0x2008  # describe SQL statement
EXCSQLIMM = 0x200A  # execute immediate SQL statement
EXCSQLSTT = 0x200B  # execute SQL statement
OPNQRY = 0x200C  # open query
PRPSQLSTT = 0x200D  # prepare SQL statement
RDBCMM = 0x200E  # RDB commit unit of work
RDBRLLBCK = 0x200F  # RDB rollback unit of work

# Parameters.
CODPNT = 0x000C  # code point
TYPDEFNAM = 0x002F  # data type definition name
TYPDEFOVR = 0x0035  # TYPDEF overrides
PRDID = 0x112E  # product-specific identifier
SRVCLSNM = 0x1147  # server class name
SVRCOD = 0x1149  # severity code
SYNERRCD = 0x114A  # syntax error code
SRVRLSLV = 0x115A  # server product release level
EXTNAM = 0x115E  # external name
SRVNAM = 0x116D  # server name
SYNCTYPE = 0x1187  # sync point operation type
CCSIDSBC = 0x119C  # CCSID for single-byte characters
CCSIDDBC = 0x119D  # CCSID for double-byte characters
CCSIDMBC = 0x119E  # CCSID for mixed-byte characters
USRID = 0x11A0  # user ID at the target system
PASSWORD = 0x11A1  # password
SECMEC = 0x11A2  # security mechanism
SECCHKCD = 0x11A4  # security check code
MGRLVLLS = 0x1404  # manager-level list
XID = 0x1801  # global transaction identifier
XAFLAGS = 0x1903  # XA flags
XARETVAL = 0x1904  # XA return value
PRPHRCLST = 0x1905  # prepared and heuristically completed list
XIDCNT = 0x1906  # XID count
TIMEOUT = 0x1907  # transaction timeout
QRYPRCTYP = 0x2102  # query protocol type
RDBACCCL = 0x210F  # RDB access manager class
RDBNAM = 0x2110  # relational database name
PKGNAMCSN = 0x2113  # RDB package name, consistency token and section number
QRYBLKSZ = 0x2114  # query block size
UOWDSP = 0x2115  # unit of work disposition
RTNSQLDA = 0x2116  # return SQL descriptor area
SQLCSRHLD = 0x211F  # hold cursor position
TYPSQLDA = 0x2146  # type of SQL descriptor area
QRYINSID = 0x215B  # query instance identifier
LMTBLKPRC = 0x2417  # limited block protocol

# Data objects.
FDODSC = 0x0010  # FD:OCA data descriptor
FDODTA = 0x147A  # FD:OCA data
SQLCARD = 0x2408  # SQL communications area reply data
SQLDARD = 0x2411  # SQLDA reply data
SQLDTA = 0x2412  # SQL program variable data
SQLSTT = 0x2414  # SQL statement
QRYDSC = 0x241A  # query answer set description
QRYDTA = 0x241B  # query answer set data
SQLATTR = 0x2450  # SQL statement attributes

# Managers.
AGENT = 0x1403  # agent
SQLAM = 0x2407  # SQL application manager
RDB = 0x240F  # relational database
SECMGR = 0x1440  # security manager
CMNTCPIP = 0x1474  # TCP/IP communication manager
SYNCPTMGR = 0x14C0  # sync point manager
RSYNCMGR = 0x14C1  # resynchronization manager
XAMGR = 0x1C01  # XA manager
UNICODEMGR = 0x1C08  # Unicode manager

# Replies.
MGRDEPRM = 0x1218  # manager dependency error
SECCHKRM = 0x1219  # security check
AGNPRMRM = 0x1232  # permanent agent error
RSCLMTRM = 0x1233  # resource limits reached
PRCCNVRM = 0x1245  # conversational protocol error
SYNCCRD = 0x1248  # sync point control reply data
SYNTAXRM = 0x124C  # data stream syntax error
CMDNSPRM = 0x1250  # command not supported
VALNSPRM = 0x1252  # parameter value not supported
EXCSATRD = 0x1443  # server attributes reply data
ACCSECRD = 0x14AC  # access security reply data
ACCRDBRM = 0x2201  # access to RDB completed
QRYNOPRM = 0x2202  # query not open
RDBNACRM = 0x2204  # RDB not accessed
OPNQRYRM = 0x2205  # open query complete
RDBACCRM = 0x2207  # RDB currently accessed
ENDQRYRM = 0x220B  # end of query
ENDUOWRM = 0x220C  # end unit of work condition
QRYPOPRM = 0x220F  # query previously opened
RDBNFNRM = 0x2211  # RDB not found
OPNQFLRM = 0x2212  # open query failure
RDBUPDRM = 0x2218  # RDB update
CMDVLTRM = 0x221D  # command violation

# The standard's name of each code point above.
NAMES = {value: name for name, value in list(vars(sys.modules[__name__]).items()) if name.isupper()}

# The format byte of a DSS: its type, and what follows it.
REQUEST, REPLY, OBJECT = 1, 2, 3
CHAINED = 0x40  # another DSS of the chain follows
GOES_ON = 0x20  # the chain goes on after an error
SAME = 0x10  # the next DSS has the same correlator

# A segment has at most 32,767 bytes, and its length's high bit says that another follows.
MOST_OF_SEGMENT = 0x7FFF
CONTINUED = 0x8000
MOST_OF_DSS = 16 * 1024 * 1024

# Limits of statements and values, as docs/SQL.md has them.
LONGEST_STATEMENT = 32767
LONGEST_VALUE = 2000
MOST_PARAMETERS = 128
LEAST_NUMBER, GREATEST_NUMBER = -2**63, 2**63 - 1

# Severities from which on a reply message reports a failure, and breaks its chain.
ERROR, PERMANENT_DAMAGE = 8, 64

CCSID_OF_UTF_8 = 1208
MECHANISM = b"\0\3"  # user and password
TYPES_OF_DATA = b"QTDSQLASC"

# Calls of XA as SYNCTYPE numbers them, their flags, and what they are answered.
START, END, PREPARE, COMMIT, ROLL_BACK, FORGET, RECOVER = 0x09, 0x0B, 0x01, 0x04, 0x07, 0x06, 0x0C
NO_FLAGS, TMSUCCESS, TMFAIL, TMONEPHASE = 0, 0x04000000, 0x20000000, 0x40000000
TMSTARTRSCAN, TMENDRSCAN = 0x01000000, 0x00800000
XA_OK, XA_RDONLY, XA_HEURRB, XA_HEURCOM, XA_RBROLLBACK = 0, 3, 6, 7, 100
XAER_RMERR, XAER_NOTA, XAER_INVAL, XAER_PROTO, XAER_DUPID, XAER_OUTSIDE = -3, -4, -5, -6, -8, -9


class WireFault(Exception):
    """Bytes that are not what they should be."""


# ---- DSSs

Dss = namedtuple("Dss", "form correlator contents")
HEADER = struct.Struct(">HBBH")


def dss(form, correlator, contents):
    """A DSS: full segments, and a last one that is short."""
    if 6 + len(contents) <= MOST_OF_SEGMENT:
        return HEADER.pack(6 + len(contents), 0xD0, form, correlator) + contents
    first, step = MOST_OF_SEGMENT - 6, MOST_OF_SEGMENT - 2
    out = [HEADER.pack(CONTINUED | MOST_OF_SEGMENT, 0xD0, form, correlator), contents[:first]]
    for at in range(first, len(contents), step):
        piece = contents[at:at + step]
        more = CONTINUED if at + step < len(contents) else 0
        out += [struct.pack(">H", more | 2 + len(piece)), piece]
    return b"".join(out)


def command(correlator, request, *data_objects, chained=False):
    """The DSSs of a command: its request, and its data objects behind it; chained where another command follows."""
    parts = (request, *data_objects)
    last = CHAINED if chained else 0
    forms = [CHAINED | SAME] * len(data_objects) + [last]
    kinds = [REQUEST] + [OBJECT] * len(data_objects)
    return b"".join(dss(kind | form, correlator, part) for kind, form, part in zip(kinds, forms, parts))


def chain(commands):
    """The DSSs of a chain of commands, each a request and its data objects."""
    out, before, last, pack, size = [], None, len(commands), None, 0
    for at, parts in enumerate(commands, 1):
        if at == last or len(parts) != 2 or len(parts[1]) > MOST_OF_SEGMENT - 6:
            out.append(command(at, *parts, chained=at < last))
            continue
        request, data = parts
        if request is not before:
            before, size = request, 6 + len(request)
            pack = struct.Struct(f">HBBH{len(request)}sHBBH").pack
        out += (pack(size, 0xD0, REQUEST | CHAINED | SAME, at, request, 6 + len(data), 0xD0, OBJECT | CHAINED, at), data)
    return b"".join(out)


@functools.lru_cache(maxsize=8)
def alike(head, contents, count):
    """DSSs of the same contents behind the same four bytes, with the correlators from 1 on."""
    return b"".join(b"".join((head, at.to_bytes(2, "big"), contents)) for at in range(1, count + 1))


# From so many DSSs on it pays to look whether they are alike; so many are compared with a text that is kept.
LEAST_ALIKE, MOST_ALIKE = 4, 1001


class Reader:
    """DSSs from bytes that come in any pieces."""

    def __init__(self, most=MOST_OF_DSS):
        self._held, self._at, self._most = bytearray(), 0, most

    def feed(self, data):
        self._held += data

    def is_empty(self):
        """Whether all that came was given out."""
        return self._at == len(self._held)

    def next(self):
        """The next DSS, or None while it has not come whole; WireFault where none can stand there."""
        held, at = self._held, self._at
        if len(held) - at < 6:
            return None
        length, mark, form, correlator = HEADER.unpack_from(held, at)
        self._judge(length, mark, form)
        end = at + (length & MOST_OF_SEGMENT)
        if length & CONTINUED:
            contents, end = self._continued(at + 6, end)
        else:
            contents = bytes(held[at + 6:end])
        if contents is None or len(held) < end:
            return None
        self._taken(end)
        return Dss(form, correlator, contents)

    def skip_alike(self, one, most):
        """Takes DSSs that are like one but for their correlators, which rise from that one's on, and gives how many they were: so many
        as have come, and as are asked for, or none."""
        size = 6 + len(one.contents)
        count = min((len(self._held) - self._at) // size, most)
        if count < LEAST_ALIKE or size > MOST_OF_SEGMENT:
            return 0
        head = HEADER.pack(size, 0xD0, one.form, 0)[:4]
        last = one.correlator + count
        expected = memoryview(alike(head, one.contents, max(last, MOST_ALIKE)))[one.correlator * size:last * size]
        with memoryview(self._held) as held, held[self._at:self._at + count * size] as came:
            if came != expected:
                return 0
        self._taken(self._at + count * size)
        return count

    @staticmethod
    def _judge(length, mark, form):
        if length & MOST_OF_SEGMENT < 6:
            raise WireFault("the length of a DSS is below 6")
        if mark != 0xD0:
            raise WireFault("a DSS has no D0 behind its length")
        if form & 0x80 or form & 0x0F not in (REQUEST, REPLY, OBJECT):
            raise WireFault(f"a DSS has the format {form:02X}")
        if form & SAME and not form & CHAINED:
            raise WireFault("a DSS has a correlator to follow, and no chain")

    def _continued(self, start, end):
        """The joined contents of a DSS of several segments, and its end; None while they have not come."""
        pieces, size, more = [(start, end)], end - start, True
        while more:
            if len(self._held) < end + 2:
                return None, end
            length = int.from_bytes(self._held[end:end + 2], "big")
            more, length = length & CONTINUED, length & MOST_OF_SEGMENT
            if length <= 2:
                raise WireFault("the length of a continuation is 2 or less")
            pieces.append((end + 2, end + length))
            size, end = size + length - 2, end + length
            if size > self._most:
                raise WireFault(f"a DSS has more than {self._most} bytes")
        if len(self._held) < end:
            return None, end
        with memoryview(self._held) as held:
            parts = [held[low:high] for low, high in pieces]
            contents = b"".join(parts)
            for part in parts:
                part.release()
        return contents, end

    def _taken(self, end):
        self._at = end
        if end == len(self._held) or end > 1 << 20:
            del self._held[:end]
            self._at = 0


def dsss(data):
    """The DSSs of a whole text."""
    reader, found = Reader(), []
    reader.feed(data)
    while (one := reader.next()) is not None:
        found.append(one)
    if not reader.is_empty():
        raise WireFault("the last DSS is cut off")
    return found


# ---- objects

HEADING = struct.Struct(">HH")


def ddm(code, data=b""):
    """An object: its length, its code point and its data; past 32,763 bytes of data with an extended length."""
    if len(data) <= MOST_OF_SEGMENT - 4:
        return HEADING.pack(4 + len(data), code) + data
    return HEADING.pack(CONTINUED | 8, code) + struct.pack(">I", len(data)) + data


def objects(data):
    """The objects that a text is, at one level: pairs of code point and data."""
    found, at = [], 0
    while at < len(data):
        if len(data) - at < 4:
            raise WireFault("an object is cut off")
        length, code = HEADING.unpack_from(data, at)
        head = 4
        if length & CONTINUED:
            head = length & MOST_OF_SEGMENT
            if head not in (8, 10, 12):
                raise WireFault("an extended length has other than 4, 6 or 8 bytes")
            length = head + int.from_bytes(data[at + 4:at + head], "big")
        if length < head or at + length > len(data):
            raise WireFault(f"the length of the object {named(code)} is wrong")
        found.append((code, data[at + head:at + length]))
        at += length
    return found


def find(parts, code, least=0):
    """The data of the first object with a code point, which has to be there with so many bytes."""
    for found, data in parts:
        if found == code and len(data) >= least:
            return data
    raise WireFault(f"{named(code)} is missing")


def named(code):
    """The name of a code point, or its digits."""
    return NAMES.get(code, f"{code:04X}")


def severity(code, data):
    """The severity of a reply message, whose first parameter it is; 0 of what is none."""
    if not NAMES.get(code, "RM").endswith("RM") or data[:4] != HEADING.pack(6, SVRCOD) or len(data) < 6:
        return 0
    return int.from_bytes(data[4:6], "big")


# ---- texts, names, statements

def name_bytes(text, is_unicode=True):
    """A name in UTF-8, where that is agreed, else in code page 500."""
    return text.encode("utf-8" if is_unicode else "cp500")


def name_text(data, is_unicode=True):
    try:
        return data.decode("utf-8" if is_unicode else "cp500")
    except UnicodeDecodeError as fault:
        raise WireFault("a name is not UTF-8") from fault


def _as_bytes(text):
    return text.encode() if isinstance(text, str) else text


def text_object(code, text):
    """SQLSTT or SQLATTR: the text as one of mixed characters, and none of single-byte ones."""
    text = _as_bytes(text)
    return ddm(code, b"\0" + struct.pack(">I", len(text)) + text + b"\xff")


def text_of(data):
    """The text of an SQLSTT or SQLATTR, be it one of mixed characters or of single-byte ones."""
    at = 0 if data[:1] == b"\0" else 1
    size = int.from_bytes(data[at + 1:at + 5], "big")
    if data[at:at + 1] != b"\0" or len(data) < at + 5 + size:
        raise WireFault("a text has another form")
    return name_text(data[at + 5:at + 5 + size])


def statement(text):
    return text_object(SQLSTT, text)


def attributes(text):
    return text_object(SQLATTR, text)


def levels(*pairs):
    """MGRLVLLS: managers and their levels."""
    return ddm(MGRLVLLS, b"".join(struct.pack(">HH", *pair) for pair in pairs))


def level_pairs(data):
    """What an MGRLVLLS says, by managers."""
    if len(data) % 4:
        raise WireFault("MGRLVLLS is cut off")
    return dict(struct.iter_unpack(">HH", data))


def section(rdb, number=1):
    """PKGNAMCSN: a package's name of three parts, a token, and the number of the section in it."""
    names = b"".join(name.ljust(18) for name in (_as_bytes(rdb), b"NULLID", b"SYSSH200"))
    return ddm(PKGNAMCSN, names + b"TOKENTOK" + struct.pack(">H", number))


def number_object(code, number, size=4):
    return ddm(code, number.to_bytes(size, "big"))


# ---- the commands that open the database

LEVELS_ASKED = ((AGENT, 7), (SQLAM, 7), (RDB, 7), (SECMGR, 7), (XAMGR, 7), (UNICODEMGR, CCSID_OF_UTF_8))


def exchange_attributes():
    return ddm(EXCSAT, levels(*LEVELS_ASKED))


def access_security():
    return ddm(ACCSEC, ddm(SECMEC, MECHANISM))


def security_check(user, password):
    """SECCHK with a user and a password, both as bytes."""
    return ddm(SECCHK, ddm(SECMEC, MECHANISM) + ddm(USRID, user) + ddm(PASSWORD, password))


def access_database(rdb, is_unicode=True):
    """ACCRDB for a database, whose name is bytes."""
    blank, types = (b" ", TYPES_OF_DATA) if is_unicode else (b"\x40", TYPES_OF_DATA.decode().encode("cp500"))
    return ddm(ACCRDB, ddm(RDBNAM, rdb.ljust(18, blank)) + ddm(TYPDEFNAM, types))


# ---- SQLCARD

Card = namedtuple("Card", "sqlcode sqlstate rows tokens")
NULL_CARD = Card(0, "00000", 0, "")
CARD = struct.Struct(">Bi5s8sB")


def card(data):
    """What an SQLCARD says; one that is null says nothing went wrong."""
    if data[:1] == b"\xff":
        return NULL_CARD
    try:
        mark, code, state, _, inner = CARD.unpack_from(data)
        if mark != 0 or inner not in (0, 0xFF):
            raise WireFault("SQLCARD begins with neither 00 nor FF")
        if inner == 0xFF:
            return Card(code, state.decode("ascii"), 0, "")
        rows = struct.unpack_from(">i", data, CARD.size + 8)[0]
        tokens, at = [], CARD.size + 24 + 11
        for _ in range(3):
            size = struct.unpack_from(">H", data, at)[0]
            tokens.append(data[at + 2:at + 2 + size].decode("utf-8", "replace"))
            at += 2 + size
        return Card(code, state.decode("ascii"), rows, tokens[1] or tokens[2])
    except (struct.error, UnicodeDecodeError) as fault:
        raise WireFault("SQLCARD is cut off, or its SQLSTATE is no ASCII") from fault


# ---- SQLDARD

Column = namedtuple("Column", "name sql_type length precision scale ccsid")
COLUMN = struct.Struct(">hhqHH3xH")
SMALLINT, INTEGER, BIGINT, VARCHAR = 500, 496, 492, 448  # one more where NULL is taken


def described(data, is_unicode=True):
    """The columns, or the parameters, of an SQLDARD."""
    if data[:1] == b"\0":
        raise WireFault("SQLDARD brings an SQLCA")
    try:
        first, second, count = struct.unpack_from(">BBH", data)
        if (first, second) != (0xFF, 0xFF):
            raise WireFault("SQLDARD has another form")
        columns, at = [], 4
        for _ in range(count):
            precision, scale, length, sql_type, ccsid, size = COLUMN.unpack_from(data, at)
            at += COLUMN.size + size
            name = name_text(data[at - size:at], is_unicode)
            for _ in range(5):
                at += 2 + struct.unpack_from(">H", data, at)[0]
            if data[at:at + 2] != b"\xff\xff":
                raise WireFault("a column of SQLDARD has another form")
            at += 2
            columns.append(Column(name, sql_type, length, precision, scale, ccsid))
        return columns
    except struct.error as fault:
        raise WireFault("SQLDARD is cut off") from fault


# ---- FD:OCA

# The number of a type; its nullable form is one more.
OF_INTEGER, OF_SMALLINT, OF_BIGINT = 0x02, 0x04, 0x16
OF_FIXED_BYTES, OF_FIXED_TEXT = (0x26,), (0x30, 0x3C)
OF_BYTES, OF_TEXT = (0x28, 0x2A), (0x3E, 0x32, 0x34, 0x40)
IS_THERE, IS_NULL = 0x00, 0xFF

FIELD = struct.Struct(">BH")
MOST_FIELDS_OF_TRIPLET = 84
FIRST_TRIPLET, NEXT_TRIPLET = b"\x76\xd0", b"\x7f\x00"
CLOSING = bytes.fromhex("0671E4D00001")
ANSWER_CLOSING = bytes.fromhex("0971E0540001D00001 0671F0E00000")


@functools.lru_cache(maxsize=512)
def descriptor(fields, closing=CLOSING):
    """The triplets of fields, which are pairs of a type's number and a length, up to 84 of them in each."""
    out = []
    for at in range(0, len(fields) or 1, MOST_FIELDS_OF_TRIPLET):
        here = fields[at:at + MOST_FIELDS_OF_TRIPLET]
        out += [bytes([3 + 3 * len(here)]), NEXT_TRIPLET if at else FIRST_TRIPLET]
        out += [FIELD.pack(*field) for field in here]
    return b"".join(out) + closing


def fields_of(data):
    """The fields that a descriptor describes, of parameters or of an answer."""
    fields, at = [], 0
    while at == 0 or data[at + 1:at + 2] == NEXT_TRIPLET[:1]:
        size = data[at] if at < len(data) else 0
        if size < 3 or size % 3 or at + size > len(data) or at == 0 and data[1:3] != FIRST_TRIPLET:
            raise WireFault("a descriptor has another form")
        fields += FIELD.iter_unpack(data[at + 3:at + size])
        at += size
    if not data.startswith((CLOSING, ANSWER_CLOSING), at):
        raise WireFault("a descriptor does not end as one")
    return tuple(fields)


NUMBERS = {OF_SMALLINT: struct.Struct(">h"), OF_INTEGER: struct.Struct(">i"), OF_BIGINT: struct.Struct(">q")}
LENGTH = struct.Struct(">H")


def _reader_of(number, length):
    """How a value of a type is read: a call on the bytes and a place, which gives the value and the place behind it."""
    if number in NUMBERS:
        unpack, size = NUMBERS[number].unpack_from, NUMBERS[number].size
        return lambda data, at: (unpack(data, at)[0], at + size)
    is_fixed = number in OF_FIXED_BYTES + OF_FIXED_TEXT
    if not is_fixed and number not in OF_BYTES + OF_TEXT:
        raise WireFault(f"a field has the type {number:02X}")
    made = bytes if number in OF_FIXED_BYTES + OF_BYTES else _text

    def read(data, at):
        start, size = (at, length) if is_fixed else (at + 2, LENGTH.unpack_from(data, at)[0])
        if size > length or start + size > len(data):
            raise WireFault("a value is longer than its field, or than its row")
        return made(data[start:start + size]), start + size
    return read


def _text(data):
    return data.decode("utf-8")


@functools.lru_cache(maxsize=512)
def _readers(fields):
    return tuple((number & 1, _reader_of(number & ~1, length)) for number, length in fields)


def _read_values(readers, data, at):
    values = []
    for is_nullable, read in readers:
        if is_nullable:
            mark, at = data[at], at + 1
            if mark == IS_NULL:
                values.append(None)
                continue
            if mark != IS_THERE:
                raise WireFault("a value that may be NULL begins with neither 00 nor FF")
        value, at = read(data, at)
        values.append(value)
    return tuple(values), at


def rows(fields, data):
    """The rows of a QRYDTA, by the fields of its QRYDSC."""
    fields, found, at = tuple(fields), [], 0
    read, padded, end = _compiled_reader(fields), data + PADDING, len(data)
    while at < end and read is not None:
        try:
            at = read(padded, at, end, found)
        except compiled.Unread as unread:
            at = _one_row(fields, data, unread.args[0], found)
        except UnicodeDecodeError as fault:
            raise WireFault(NO_ROW) from fault
    while at < end:
        at = _one_row(fields, data, at, found)
    if at > end:
        raise WireFault(NO_ROW)
    return found


NO_ROW = "a row is cut off, or a text in it is not UTF-8"
# A row is unpacked in pieces that may reach so far behind its end, where the last of its values are NULL.
PADDING = bytes(640)


@functools.lru_cache(maxsize=512)
def _compiled_reader(fields):
    """The reader of rows of these fields, or None where there is none for a field."""
    kinds = {OF_SMALLINT: "i2", OF_INTEGER: "i4", OF_BIGINT: "i8"}
    kinds.update({number: compiled.TEXT for number in OF_TEXT})
    kinds.update({number: compiled.BYTES for number in OF_BYTES})
    if not fields or any(number & ~1 not in kinds for number, _ in fields):
        return None
    return compiled.reader_of(tuple((kinds[number & ~1], length, bool(number & 1)) for number, length in fields))


def _one_row(fields, data, at, found):
    """Reads the row at a place value by value, and gives the place behind it."""
    try:
        if data[at] != IS_NULL or data[at + 1] != IS_THERE:
            raise WireFault("a row does not begin with FF and 00")
        row, at = _read_values(_readers(fields), data, at + 2)
    except (IndexError, struct.error, UnicodeDecodeError) as fault:
        raise WireFault(NO_ROW) from fault
    found.append(row)
    return at


def encoded(value):
    """The field of a parameter and its bytes. ValueError where no column takes the value, TypeError where none takes its
    type."""
    if value is None:
        return (OF_SMALLINT | 1, 2), b"\xff"
    if isinstance(value, int):
        if not LEAST_NUMBER <= value <= GREATEST_NUMBER:
            raise ValueError("the number is out of BIGINT")
        return (OF_BIGINT, 8), NUMBERS[OF_BIGINT].pack(int(value))
    if isinstance(value, str):
        number, data = OF_TEXT[0], value.encode("utf-8")
    elif isinstance(value, (bytes, bytearray, memoryview)):
        number, data = OF_BYTES[0], bytes(value)
    else:
        raise TypeError(f"no column takes a value of the type {type(value).__name__}")
    if len(data) > LONGEST_VALUE:
        raise ValueError(f"the value has {len(data)} bytes, and a column takes at most {LONGEST_VALUE}")
    return (number, LONGEST_VALUE), LENGTH.pack(len(data)) + data


def parameters(values):
    """SQLDTA: the description of these values, and the values."""
    types = tuple(map(type, values))
    try:
        write = _WRITERS.get(types) or _writer_of(types)
        found = write(values)
        if len(found) <= MOST_OF_SEGMENT:
            return found
    except (KeyError, OverflowError, struct.error):
        pass  # What is written value by value tells what is wrong.
    fields, contents = [], [b"\0"]
    for value in values:
        field, data = encoded(value)
        fields.append(field)
        contents.append(data)
    return ddm(SQLDTA, ddm(FDODSC, descriptor(tuple(fields))) + ddm(FDODTA, b"".join(contents)))


# The writers of rows of these types, and the most that are kept.
_WRITERS: dict = {}
MOST_WRITERS = 256
FIELD_OF = {int: (OF_BIGINT, 8), type(None): (OF_SMALLINT | 1, 2), str: (OF_TEXT[0], LONGEST_VALUE), bytes: (OF_BYTES[0], LONGEST_VALUE)}


def _writer_of(types):
    """The writer of rows of these types; KeyError where there is none."""
    description = ddm(FDODSC, descriptor(tuple(FIELD_OF[one] for one in types)))
    front = SQLDTA.to_bytes(2, "big") + description
    heads = (("H", 4 + len(description) + 5), (f"{len(front)}s", front), ("H", 5), ("3s", FDODTA.to_bytes(2, "big") + b"\0"))
    if len(_WRITERS) >= MOST_WRITERS:
        _WRITERS.clear()
    _WRITERS[types] = compiled.writer_of(types, heads, LONGEST_VALUE)
    return _WRITERS[types]


def parameter_values(data):
    """The values of an SQLDTA."""
    parts = objects(data)
    readers, row = _readers(fields_of(find(parts, FDODSC))), find(parts, FDODTA)
    try:
        values, at = _read_values(readers, row, 1)
    except (IndexError, struct.error, UnicodeDecodeError) as fault:
        raise WireFault("a row of parameters is cut off, or a text in it is not UTF-8") from fault
    if row[:1] != b"\0" or at != len(row):
        raise WireFault("a row of parameters has another form")
    return values


# ---- XA

def xid_bytes(form, global_part, branch_part):
    """An XID: its format number, and its two parts."""
    return struct.pack(">III", form, len(global_part), len(branch_part)) + global_part + branch_part


def xid_parts(data):
    """The format number and the two parts of an XID."""
    if len(data) < 12:
        raise WireFault("an XID is cut off")
    form, first, second = struct.unpack_from(">III", data)
    if len(data) < 12 + first + second:
        raise WireFault("an XID is cut off")
    return form, data[12:12 + first], data[12 + first:12 + first + second]


def sync_control(call, flags, xid=None):
    """SYNCCTL: a call of XA."""
    named_xid = b"" if xid is None else ddm(XID, xid)
    return ddm(SYNCCTL, number_object(SYNCTYPE, call, 1) + named_xid + number_object(XAFLAGS, flags))


def sync_answer(data):
    """What a SYNCCRD says: the code of XA, and the XIDs that a recover lists."""
    parts = objects(data)
    code = struct.unpack(">i", find(parts, XARETVAL, 4)[-4:])[0]
    listed = [data for found, data in parts if found == PRPHRCLST]
    return code, [data for one in listed for found, data in objects(one) if found == XID]
