"""A socket to a server: chains of commands go out while their replies come in, with a time for each step."""
import math, select, socket, time

from . import wire
from .errors import InterfaceError, OperationalError

# So many bytes that come, or go, are a step.
STEP = wire.MOST_OF_SEGMENT + 1
AT_ONCE = 262144
# What comes first of the answer to a short text.
FIRST_AT_ONCE = 16384
# No command here is answered by so many objects.
MOST_OBJECTS = 64
# So often, in seconds, a wait looks whether it has to end sooner.
LOOKS_EVERY = 0.2


class Link:
    """A conversation with a server. Whatever goes wrong closes it. `watch` is called with each DSS that goes out or comes in, those
    of a chain before it is sent, and those of its replies as they come. A timeout of None is none."""

    def __init__(self, host, port, timeout, watch=None):
        self._timeout, self._watch, self._reader, self._socket = timeout, watch, wire.Reader(), None
        self.came_whole = False
        self._seconds, self._ends_at = math.inf if timeout is None else timeout, math.inf
        try:
            self._socket = socket.create_connection((host, port), timeout=timeout)
            self._socket.setsockopt(socket.IPPROTO_TCP, socket.TCP_NODELAY, 1)
            self._socket.setblocking(False)
            self._waits = _Waits(self._socket)
        except (OSError, OverflowError, UnicodeError) as fault:
            self.close()
            raise OperationalError(f"no connection to {host}:{port}: {fault}") from fault

    def is_closed(self):
        return self._socket is None

    def is_watched(self):
        return self._watch is not None

    def is_quiet(self):
        """Whether the conversation is open and nothing has come that nobody asked for, as where the server has closed it."""
        return self._socket is not None and not self._waits.until(False, 0)[0]

    def close(self):
        if self._socket is not None:
            self._socket.close()
            self._socket = None

    def hurry(self, seconds):
        """What is under way has to be answered within so many seconds; else the link is closed. A handler of signals, or another
        thread, may call it."""
        self._ends_at = time.monotonic() + seconds

    def exchange(self, commands):
        """Sends commands as one chain, each a request and its data objects, and gives the objects that answer each of them:
        none for those behind a failure that broke the chain."""
        self._check_open()
        sent = wire.chain(commands)
        for one in wire.dsss(sent) if self._watch else ():
            self._watch(one)
        return self._guarded(lambda: self._talk(memoryview(sent), Replies(len(commands), self._watch)))

    def ask(self, sent):
        """Sends the DSSs of a short chain, and gives the bytes of its replies that came first; finish() reads them."""
        self._check_open()
        return self._guarded(lambda: self._ask(sent))

    def finish(self, came, count):
        """Reads the replies to a chain of so many commands behind ask(), as exchange() does; `came_whole` is then whether what ask() gave
        was all of them."""
        self._reader.feed(came)
        replies = Replies(count)
        answers = self._guarded(lambda: self._talk(memoryview(b""), replies, replies.take(self._reader)))
        self.came_whole = replies.count_of_takes == 1
        return answers

    def _check_open(self):
        if self._socket is None:
            raise InterfaceError("the connection is closed")
        self._ends_at = math.inf

    def _guarded(self, talk):
        try:
            return talk()
        except wire.WireFault as fault:
            self.close()
            raise InterfaceError(f"what came is not DRDA: {fault}") from fault
        except OSError as fault:
            self.close()
            raise OperationalError(f"the connection broke: {fault}") from fault
        except BaseException:
            self.close()
            raise

    def _ask(self, sent):
        deadline = time.monotonic() + self._seconds
        left = sent[self._send(sent):]
        while left and self._wait(True, deadline)[1]:
            left = left[self._send(left):]
        self._wait(False, deadline)
        came = self._socket.recv(FIRST_AT_ONCE)
        if not came:
            raise ConnectionError("the server closed it")
        return came

    def _talk(self, sent, replies, done=0):
        """Sends all, also what stands behind a failure, which the server passes over, and takes the replies meanwhile."""
        deadline = time.monotonic() + self._seconds
        if sent:
            sent = sent[self._send(sent):]
        while sent or not replies.ended:
            if replies.worst >= wire.PERMANENT_DAMAGE:
                self.close()
                return replies.answers
            can_read, can_write = self._wait(bool(sent), deadline)
            if can_read:
                done += self._receive()
                done += STEP * replies.take(self._reader)
            if can_write and sent:
                gone = self._send(sent)
                sent, done = sent[gone:], done + (gone if gone < len(sent) else STEP)
            if done >= STEP:
                done, deadline = 0, time.monotonic() + self._seconds
        if replies.worst >= wire.PERMANENT_DAMAGE:
            self.close()
        elif not self._reader.is_empty():
            raise wire.WireFault("bytes came behind the last reply")
        return replies.answers

    def _wait(self, is_sending, deadline):
        """Whether bytes can be read, and whether some can be sent, once one of them holds."""
        while True:
            left = min(deadline, self._ends_at) - time.monotonic()
            ready = self._waits.until(is_sending, min(max(0.0, left), LOOKS_EVERY))
            if ready[0] or ready[1]:
                return ready
            if left <= 0:
                is_hurried = self._ends_at < deadline
                silent = f"the server was silent for {self._timeout} s"
                raise TimeoutError("nobody waited for the answer any longer" if is_hurried else silent)

    def _receive(self):
        try:
            data = self._socket.recv(AT_ONCE)
        except BlockingIOError:
            return 0
        if not data:
            raise ConnectionError("the server closed it")
        self._reader.feed(data)
        return len(data)

    def _send(self, data):
        try:
            return self._socket.send(data[:AT_ONCE])
        except BlockingIOError:
            return 0


class _Waits:
    """Waits for a socket, by poll() where the system has it."""

    def __init__(self, one):
        self._socket, self._is_sending = one, False
        self._poll = None
        if hasattr(select, "poll"):
            self._poll = select.poll()
            self._poll.register(one, select.POLLIN)

    def until(self, is_sending, seconds):
        """Whether bytes can be read, and whether some can be sent, within so many seconds."""
        if self._poll is None:
            read, write, _ = select.select([self._socket], [self._socket] if is_sending else [], [], seconds)
            return bool(read), bool(write)
        if is_sending is not self._is_sending:
            self._is_sending = is_sending
            self._poll.modify(self._socket, select.POLLIN | (select.POLLOUT if is_sending else 0))
        ready = self._poll.poll(seconds * 1000)
        if not ready:
            return False, False
        events = ready[0][1]
        return bool(events & ~select.POLLOUT), bool(events & select.POLLOUT)


class Replies:
    """The objects that answer the commands of a chain, as they come."""

    def __init__(self, count, watch=None):
        self.answers, self.ended, self.worst = [[] for _ in range(count)], False, 0
        self._at, self._watch, self.count_of_takes = 0, watch, 0

    def take(self, reader):
        """Takes the replies that have come whole, and gives how many they are."""
        count, self.count_of_takes = 0, self.count_of_takes + 1
        while (one := reader.next()) is not None:
            count += 1
            self._judge(one)
            if self._watch:
                self._watch(one)
            is_first, self._at = one.correlator != self._at, one.correlator
            answer = self.answers[self._at - 1]
            answer += wire.objects(one.contents)
            if len(answer) > MOST_OBJECTS:
                raise wire.WireFault("a command is answered without an end")
            if not one.form & wire.CHAINED:
                self._end(answer)
            elif is_first and not one.form & wire.SAME and not self._watch:
                count += self._take_alike(reader, one, answer)
        return count

    def _take_alike(self, reader, one, answer):
        """Takes the replies to the commands that follow as long as each is like the one before; all but the last of the chain are."""
        count = reader.skip_alike(one, len(self.answers) - self._at - 1)
        self.answers[self._at:self._at + count] = [answer] * count
        self._at += count
        return count

    def _judge(self, one):
        if self.ended:
            raise wire.WireFault("a reply came behind the last one")
        if one.form & 0x0F == wire.REQUEST:
            raise wire.WireFault("a request came in place of a reply")
        if one.correlator not in (self._at, self._at + 1) or not 1 <= one.correlator <= len(self.answers):
            raise wire.WireFault(f"a reply has the correlator {one.correlator}")

    def _end(self, answer):
        """The chain ends behind the replies to its last command, or to one that broke it."""
        self.ended = True
        self.worst = max((wire.severity(code, data) for code, data in answer), default=0)
        if self._at < len(self.answers) and self.worst < wire.ERROR:
            raise wire.WireFault("the replies to a chain end before its commands do")
