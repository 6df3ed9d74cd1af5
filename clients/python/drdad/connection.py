"""Connections: units of work, and global units by the two-phase calls of PEP 249."""
from __future__ import annotations

import contextlib, math, threading, weakref
from collections.abc import Callable, Iterable, Sequence
from typing import Any

from . import errors, loading, reasons, wire
from .cursor import Cursor, statement_of
from .errors import Error, InterfaceError, OperationalError, ProgrammingError
from .link import Link
from .query import COMMITS, Query, Sections
from .threads import alone
from .type_objects import Xid, xid_of

ROLLS_BACK = (wire.ddm(wire.RDBRLLBCK),)

# How the branch of this conversation stands.
ACTIVE, ENDED, PREPARED, READ_ONLY = "active", "ended", "prepared", "read only"


class Connection:
    """A conversation with a server. Closing it, or losing it, rolls back what was not committed."""

    Warning, Error, InterfaceError, DatabaseError = errors.Warning, errors.Error, errors.InterfaceError, errors.DatabaseError
    DataError, OperationalError, IntegrityError = errors.DataError, errors.OperationalError, errors.IntegrityError
    InternalError, ProgrammingError, NotSupportedError = errors.InternalError, errors.ProgrammingError, errors.NotSupportedError

    def __init__(self, host: str, port: int, database: str, user: str, password: str, timeout: float | None = 10.0,
                 autocommit: bool = False, watch: Callable | None = None):
        if timeout is not None and not 0 < timeout < math.inf:
            raise ProgrammingError("the timeout is a number of seconds above 0, or None")
        names = [_checked_name(name) for name in (database, user, password)]
        self._autocommit, self._has_work, self._branch = bool(autocommit), False, None
        self._alone = threading.RLock()
        self._queries: weakref.WeakSet = weakref.WeakSet()
        self._abandoned: list = []
        self._link = Link(host, port, timeout, watch)
        try:
            with self._judged():
                self._open(*names)
        except BaseException:
            self._link.close()
            raise

    def _open(self, *names):
        """Opens the database: the user is checked in a chain behind which nothing is done where the check fails."""
        attributes, security = self._ask((wire.exchange_attributes(),), (wire.access_security(),))
        levels = wire.objects(wire.find(attributes, wire.EXCSATRD))
        agreed = wire.level_pairs(wire.find(levels, wire.MGRLVLLS))
        self._is_unicode = agreed.get(wire.UNICODEMGR) == wire.CCSID_OF_UTF_8
        if any(code == wire.SECCHKCD for code, _ in wire.objects(wire.find(security, wire.ACCSECRD))):
            raise OperationalError("the server takes no user and password")
        rdb, user, password = (wire.name_bytes(name, self._is_unicode) for name in names)
        _, access = self._ask((wire.security_check(user, password),), (wire.access_database(rdb, self._is_unicode),))
        wire.find(access, wire.ACCRDBRM)
        self._sections = Sections(rdb)

    # ---- asking

    @contextlib.contextmanager
    def _judged(self):
        """Where an answer is not what it should be the conversation ends."""
        try:
            yield
        except wire.WireFault as fault:
            raise self._misled(fault) from fault

    def _misled(self, fault):
        self._link.close()
        return InterfaceError(f"the server answered otherwise than it should: {fault}")

    def _ask(self, *commands):
        """A chain of commands and the objects that answer each; the first failure is raised."""
        answers = self._link.exchange(commands)
        _raise_first(answers, self._judged)
        return answers

    def _work(self, *commands):
        """A chain of commands that work in the unit under way, behind the closing of cursors that nobody has any more. In
        autocommit mode the unit ends with it."""
        self._check_works()
        commits = self._autocommit and self._branch is None
        closing, self._abandoned[:] = list(self._abandoned), []
        chain = [*(section.closes() for section in closing), *commands, *([COMMITS] if commits and commands else [])]
        if not chain:
            return []
        if self._branch is None:
            self._has_work = not commits
        answers = self._link.exchange(chain)
        for section in closing:
            self._sections.give_back(section)
        return self._done(answers, len(closing), len(commands), commits)

    def _done(self, answers, before, count, commits):
        """The answers to so many commands behind others; the first failure among all is raised."""
        try:
            _raise_first(answers, self._judged)
        except Error as failure:
            if failure.place is not None:
                failure.place -= before
                failure.done = [_is_done(answer) for answer in answers[before:before + count]]
            if commits:
                self._end_refused(answers[-1])
            raise
        return answers[before:before + count]

    def _asked_again(self, text, data, is_query):
        """Has a text run once more whose section is ready for it: the section, how it is run again, and the bytes that came first;
        None where none is ready."""
        section = None if self._abandoned or self._link.is_watched() else self._sections.prepared(text)
        if section is None:
            return None, None, None
        commits = self._autocommit and self._branch is None
        shortcut = section.shortcut(is_query, commits)
        if self._branch is None:
            self._has_work = not commits
        return section, shortcut, self._link.ask(shortcut.sends(data))

    def _read_again(self, came):
        """The answer to a text that was run once more, behind the bytes of it that came first."""
        commits = self._autocommit and self._branch is None
        return self._done(self._link.finish(came, 1 + commits), 0, 1, commits)[0]

    def _run_again(self, text, data):
        """How many rows a prepared text changes, run once more; None where no section has it."""
        section, shortcut, came = self._asked_again(text, data, False)
        if section is None:
            return None
        count = shortcut.known(came)
        if count is None:
            answer = self._read_again(came)
            with self._judged():
                count = wire.card(wire.find(answer, wire.SQLCARD)).rows
            if self._link.came_whole:
                shortcut.learn(came, count)
        return count

    def _open_again(self, text, data):
        """The query of a prepared text, opened once more; None where no section has it."""
        section, shortcut, came = self._asked_again(text, data, True)
        if section is None:
            return None
        try:
            rows = shortcut.known(came)
        except wire.WireFault as fault:
            raise self._misled(fault) from fault
        if rows is not None:
            return Query(section, rows)
        answer = self._read_again(came)
        self._sections.take(text)
        with self._judged():
            query = self._opened(Query.opened(section, answer, self._abandoned))
            if self._link.came_whole and not query.is_open:
                shortcut.learn(came)
        return query

    def _end_refused(self, answer):
        """Ends the unit of a statement in autocommit mode that failed, where the answer to its commit does not say so."""
        if self._link.is_closed() or any(code == wire.ENDUOWRM for code, _ in answer):
            return
        if not answer:
            with contextlib.suppress(Error):
                self._ask(COMMITS)
                return
        if not self._link.is_closed():
            self._roll_back()

    def _through(self, text, is_described, follows, keeps=False):
        """Has a text prepared in a section, where none has it yet, and does there what follows: in the chain of the prepare
        only where nothing was prepared in that section before. Gives the section, which is kept or given back, and the
        answers to what follows."""
        section = self._sections.take(text)
        try:
            is_prepared, is_fresh = section.text == text, section.is_fresh
            prepares = [] if is_prepared else [section.prepares(text, is_described)]
            if prepares and not is_fresh:
                self._has_prepared(section, text, self._work(*prepares)[0])
                prepares = []
            answers = self._work(*prepares, *follows(section))
            if prepares:
                self._has_prepared(section, text, answers.pop(0))
        except BaseException as failure:
            self._sections.give_back(section)
            if isinstance(failure, Error) and failure.place is not None:
                failure.place -= len(prepares)
            raise
        if not keeps:
            self._sections.give_back(section)
        return section, answers

    def _has_prepared(self, section, text, answer):
        with self._judged():
            section.has_prepared(text, answer, self._is_unicode)

    @contextlib.contextmanager
    def _one_unit(self):
        """What is done here is one unit: in autocommit mode it is committed at the end, or rolled back whole."""
        if not self._autocommit or self._branch is not None:
            yield
            return
        self._autocommit = False
        try:
            yield
            self.commit()
        except BaseException:
            if not self._link.is_closed():
                with contextlib.suppress(Error):
                    self._roll_back()
            raise
        finally:
            self._autocommit = True

    def _check_open(self):
        if self._link.is_closed():
            raise InterfaceError("the connection is closed")

    def _check_works(self):
        self._check_open()
        if self._branch is not None and self._branch[1] != ACTIVE:
            raise ProgrammingError("the work in the global unit has ended: tpc_commit or tpc_rollback comes next")

    def _check_outside(self, what):
        self._check_open()
        if self._branch is not None:
            raise ProgrammingError(f"{what} has no place inside of a global unit")

    # ---- open queries

    def _opened(self, query):
        """Keeps a query in sight as long as the server has rows of it."""
        if query.is_open:
            self._queries.add(query)
        else:
            self._sections.give_back(query.section)
        return query

    def _continue(self, query):
        """Brings the next block of a query."""
        answer = self._ask(query.continues())[0]
        with self._judged():
            query.takes(answer)
        if not query.is_open:
            self._queries.discard(query)
            self._sections.give_back(query.section)

    def _abandon(self, query):
        """Nobody wants the rows that the server still has: its cursor is closed in front of the next statement."""
        if query.is_open:
            self._queries.discard(query)
            query.is_open = False
            self._abandoned.append(query.section)

    def _close_abandoned(self):
        if self._abandoned and not self._link.is_closed():
            closing, self._abandoned[:] = list(self._abandoned), []
            self._ask(*(section.closes() for section in closing))
            for section in closing:
                self._sections.give_back(section)

    def _lose_queries(self):
        """The server has closed all cursors."""
        for query in list(self._queries):
            self._queries.discard(query)
            if query.is_open:
                query.lose()
                self._sections.give_back(query.section)
        while self._abandoned:
            self._sections.give_back(self._abandoned.pop())

    # ---- units of work

    @property
    def closed(self) -> bool:
        """Whether it was closed, or lost."""
        return self._link.is_closed()

    def is_open(self) -> bool:
        return not self._link.is_closed()

    def is_usable(self) -> bool:
        """Whether it is open, and the server has not closed it since."""
        return self._link.is_quiet()

    @property
    def autocommit(self) -> bool:
        """Whether each statement is a unit of its own. What is under way when it is set is committed."""
        return self._autocommit

    @autocommit.setter
    @alone
    def autocommit(self, wanted: bool) -> None:
        self._check_outside("a change of autocommit")
        if wanted and self._has_work:
            self.commit()
        self._autocommit = bool(wanted)

    def cursor(self) -> Cursor:
        self._check_open()
        return Cursor(self)

    @alone
    def commit(self) -> None:
        self._check_outside("commit()")
        self._ask(COMMITS)
        self._has_work = False

    @alone
    def rollback(self) -> None:
        self._check_outside("rollback()")
        self._roll_back()

    def _roll_back(self):
        self._ask(ROLLS_BACK)
        self._has_work = False
        self._lose_queries()
        self._sections.forget()

    @alone
    def close(self) -> None:
        """Ends the conversation, and rolls back what was not committed; once more does nothing."""
        self._link.close()

    def hurry(self, seconds: float) -> None:
        """What is under way has to be answered within so many seconds; else the connection is closed. Another thread may call it, or a
        handler of signals."""
        self._link.hurry(seconds)

    def unit_state(self) -> str:
        """How the unit under way stands: idle, open, in doubt, or closed where the connection is."""
        return "closed" if self.closed else self.last_unit_state()

    def last_unit_state(self) -> str:
        """The same where the connection is closed: how the unit stood last."""
        if self._branch is not None:
            return "in doubt" if self._branch[1] == PREPARED else "open"
        return "open" if self._has_work else "idle"

    @property
    def branch(self) -> Xid | None:
        """The transaction ID of the global unit under way."""
        return None if self._branch is None else self._branch[0]

    def is_global(self) -> bool:
        """Whether the unit under way is a global one."""
        return self._branch is not None

    @alone
    def describe(self, operation: str) -> list[tuple] | None:
        """What `description` will be of a statement, without running it: None where it gives no rows."""
        text = statement_of(operation)[0]
        with reasons.told(text):
            section = self._through(text, True, lambda section: ())[0]
        return list(section.description) or None

    def load(self, table: str, rows: Iterable[Sequence[Any]], columns: Sequence[str] | None = None,
             progress: Callable[[int], Any] | bool = False) -> int:
        """Inserts rows in units that the server takes, each committed before the next one begins, and gives how many they are. `columns`
        are those that each row has values for; by default all, in the order of the table. `progress` is called with the number of rows
        that are in, or is True for a line on standard error. Where it fails the units before stay in: `loaded` of the exception is how
        many rows that are."""
        return loading.load(self, table, rows, columns, progress)

    def __enter__(self) -> Connection:
        return self

    def __exit__(self, kind, value, traceback) -> None:
        """Commits the unit under way, or rolls it back where an exception came, and closes the connection. A global unit that is not
        prepared is rolled back."""
        try:
            if kind is None and self._has_work and self._branch is None and not self.closed:
                self.commit()
        finally:
            self.close()

    # ---- global units

    def xid(self, format_id: int, global_transaction_id: bytes, branch_qualifier: bytes) -> Xid:
        return Xid(format_id, global_transaction_id, branch_qualifier)

    @alone
    def tpc_begin(self, xid: Xid | Sequence) -> None:
        self._check_outside("tpc_begin()")
        xid = xid_of(xid)
        if self._has_work:
            raise ProgrammingError("tpc_begin() comes behind a commit or a rollback")
        self._sync((wire.START, wire.NO_FLAGS), xid)
        self._branch = (xid, ACTIVE)

    @alone
    def tpc_end(self) -> None:
        """Ends the work in the global unit, and does not prepare it; tpc_prepare, tpc_commit or tpc_rollback follows."""
        xid, state = self._inside("tpc_end()")
        if state != ACTIVE:
            raise ProgrammingError("the work in the global unit has ended already")
        self._sync((wire.END, wire.TMSUCCESS), xid)
        self._branch = (xid, ENDED)
        self._lose_queries()

    @alone
    def tpc_prepare(self) -> None:
        xid, state = self._inside("tpc_prepare()")
        if state not in (ACTIVE, ENDED):
            raise ProgrammingError("the global unit is prepared already")
        code = self._end_and(wire.PREPARE, wire.NO_FLAGS)
        self._branch = (xid, READ_ONLY if code == wire.XA_RDONLY else PREPARED)

    @alone
    def tpc_commit(self, xid: Xid | Sequence | None = None) -> None:
        """Commits the global unit of this connection, in one phase where it is not prepared; or, outside of one, that of a
        transaction ID, as recovery does."""
        if xid is not None:
            return self._decide(wire.COMMIT, xid, "tpc_commit(xid)")
        state = self._inside("tpc_commit()")[1]
        if state != READ_ONLY:
            self._end_and(wire.COMMIT, wire.NO_FLAGS if state == PREPARED else wire.TMONEPHASE)
        self._branch = None

    @alone
    def tpc_rollback(self, xid: Xid | Sequence | None = None) -> None:
        if xid is not None:
            return self._decide(wire.ROLL_BACK, xid, "tpc_rollback(xid)")
        state = self._inside("tpc_rollback()")[1]
        if state != READ_ONLY:
            self._end_and(wire.ROLL_BACK, wire.NO_FLAGS, wire.TMFAIL)
        self._branch = None
        self._sections.forget()

    @alone
    def tpc_forget(self, xid: Xid | Sequence) -> None:
        """Ends what is known of a branch that was decided heuristically: tpc_commit(xid) and tpc_rollback(xid) have told so, by
        HeuristicError."""
        self._decide(wire.FORGET, xid, "tpc_forget(xid)")

    @alone
    def tpc_recover(self) -> list[Xid]:
        """The transaction IDs of all global units that are in doubt: prepared, or decided heuristically and not yet forgotten."""
        self._check_open()
        listed = self._sync((wire.RECOVER, wire.TMSTARTRSCAN | wire.TMENDRSCAN))[1]
        with self._judged():
            return [Xid(*wire.xid_parts(data)) for data in listed]

    def _inside(self, what):
        self._check_open()
        if self._branch is None:
            raise ProgrammingError(f"{what} comes behind tpc_begin()")
        return self._branch

    def _sync(self, call, xid=None):
        """A call of XA, its code and the XIDs listed; a refusal is raised."""
        answer = self._ask((wire.sync_control(*call, xid and xid.wire()),))[0]
        return self._code_of(answer)

    def _code_of(self, answer):
        with self._judged():
            code, listed = wire.sync_answer(wire.find(answer, wire.SYNCCRD))
        refusal = errors.of_xa(code)
        if refusal:
            raise refusal
        return code, listed

    def _end_and(self, call, flags, ending=wire.TMSUCCESS):
        """Ends the work in the branch where it has not ended, and makes a call of XA on the branch, in one chain; the code of
        that call. A branch that the server has rolled back, or does not know, is ours no more."""
        xid, state = self._branch
        calls = [(wire.END, ending)] * (state == ACTIVE) + [(call, flags)]
        answers = self._link.exchange([(wire.sync_control(*one, xid.wire()),) for one in calls])
        try:
            for answer in answers:
                _raise_first([answer], self._judged)
                code = self._code_of(answer)[0]
                if self._branch[1] == ACTIVE:
                    self._branch = (xid, ENDED)
                    self._lose_queries()
        except Error as refusal:
            if refusal.xacode in (wire.XA_RBROLLBACK, wire.XAER_NOTA):
                self._branch = None
            raise
        return code

    def _decide(self, call, xid, what):
        """Decides the branch in doubt of a transaction ID, or forgets it."""
        self._check_outside(what)
        if self._has_work:
            raise ProgrammingError(f"{what} comes behind a commit or a rollback")
        self._sync((call, wire.NO_FLAGS), xid_of(xid))
        self._sections.forget()


def _raise_first(answers, judged):
    """Raises the first failure among answers, with its place among them."""
    with judged():
        before = None
        for at, answer in enumerate(answers):
            if answer is before:
                continue
            before, failure = answer, errors.of_answer(answer)
            if failure:
                failure.place = at
                raise failure


def _is_done(answer):
    """Whether a command of a chain that failed somewhere was done."""
    return any(code == wire.SQLCARD for code, _ in answer) and errors.of_answer(answer) is None


def _checked_name(name):
    try:
        return name if name.encode("utf-8") else name
    except UnicodeEncodeError as fault:
        raise errors.DataError("a name is not UTF-8") from fault
