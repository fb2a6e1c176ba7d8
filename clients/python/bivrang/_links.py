"""What connections and pools that block share with those of asyncio: bytes, rules and processes."""
import math
import os
import socket
import threading
import time
import weakref
from typing import (
    Any,
    Dict,
    FrozenSet,
    Generator,
    Generic,
    List,
    NamedTuple,
    NoReturn,
    Optional,
    Sequence,
    TypeVar,
    Union,
)

from ._errors import (
    ArgumentError,
    BadReply,
    BivrangError,
    ConnectionBroken,
    ConnectionSpent,
    LinkError,
    PoolClosed,
    ReplyTimeout,
    place_of,
)
from ._protocol import Call, Mismatch, window

T = TypeVar("T")

LONGEST_REPLY_LINE = 16384
"""A reply line with more bytes is not of the protocol, whose values fit a line of 8192."""

RECEIVED_AT_ONCE = 65536


def limit(seconds: float) -> float:
    """A time limit. Raises ValueError if it is not above 0 and finite."""
    if not (seconds > 0 and math.isfinite(seconds)):
        raise ValueError("a time limit is a number of seconds above 0")
    return seconds


# Processes.


class Forked:
    """What a child process made by `fork` gets too, and begins anew. Two processes that share a
    connection would read each other's replies, and a lock that another thread holds is never
    released in the child, where that thread does not run. A copy, by `pickle` or `copy`, begins
    anew as well."""

    _own: FrozenSet[str] = frozenset()
    """The attributes that no copy gets: those that are set when it begins anew, at least."""

    def __init__(self) -> None:
        _living.add(self)

    def __getstate__(self) -> Dict[str, Any]:
        return {name: value for name, value in vars(self).items() if name not in self._own}

    def __setstate__(self, state: Dict[str, Any]) -> None:
        vars(self).update(state)
        self._begin_anew()
        _living.add(self)

    def _begin_anew(self) -> None:
        raise NotImplementedError


_living: "weakref.WeakSet[Forked]" = weakref.WeakSet()


def _begin_all_anew() -> None:
    for it in list(_living):
        it._begin_anew()


if hasattr(os, "register_at_fork"):
    os.register_at_fork(after_in_child=_begin_all_anew)


# Connections.


class Send(NamedTuple):
    """To send these bytes, within the link's time limit."""

    text: bytes


class Receive(NamedTuple):
    """To receive some bytes, until this moment of `time.monotonic`."""

    until: float


Steps = Generator[Union[Send, Receive], bytes, T]
"""Input and output for someone else to do: each `Send` is answered by no bytes, each `Receive` by
some, or none at the end of the connection. `socket.timeout` and OSError are thrown in."""


class Link(Forked):
    """One connection to one namespace: its socket, and which bytes it is to carry. It does not
    reconnect. In a child process made by `fork` it is closed, which the parent and the server do
    not notice."""

    def __init__(self, host: str, port: int, reply_seconds: float) -> None:
        self.host = host
        self.port = port
        self._reply_seconds = limit(reply_seconds)
        self._received = bytearray()
        self._socket: Optional[socket.socket] = None
        super().__init__()

    def __repr__(self) -> str:
        state = "open" if self.is_open else "closed"
        return f"<{type(self).__name__} {place_of(self.host, self.port)}, {state}>"

    def __getstate__(self) -> NoReturn:
        raise TypeError("a connection is of one process: pickle or copy a Client")

    @property
    def is_open(self) -> bool:
        """Whether it can be used: it was not closed, and each reply was complete."""
        return self._socket is not None

    def close(self) -> None:
        """Closes it at once. Requests whose replies were not received may still run."""
        if self._socket is not None:
            self._socket.close()
            self._socket = None

    def _name_server(self, error: ArgumentError) -> None:
        error._place(self.host, self.port, None)

    def is_quiet(self) -> bool:
        """Whether it can be used and nothing came that nobody asked for, neither bytes nor the end
        of the connection. Does not wait."""
        if self._socket is None or self._received:
            return False
        try:
            self._socket.setblocking(False)
            self._socket.recv(1, socket.MSG_PEEK)
        except (BlockingIOError, InterruptedError):
            return True
        except OSError:
            pass
        return False

    def _begin_anew(self) -> None:
        """Closes this process's descriptor alone: neither `QUIT` nor `shutdown`, which would end
        the parent's connection."""
        self.close()

    def _exchange(self, calls: Sequence[Call]) -> Steps[List[Any]]:
        """Sends lines and reads their replies. The results are in the order of the calls; a
        `ServerError` or `DecodeError` takes the place of its call's. Any early end closes the
        connection."""
        told: List[Any] = []
        is_whole = False
        try:
            while len(told) < len(calls):
                sent = window(calls, len(told))
                yield from self._send(b"".join(call.line for call in sent), not told)
                for call in sent:
                    line = self._buffered_line()
                    if line is None:
                        line = yield from self._next_line(not told)
                    count = call.request.lines_after(line)
                    lines = (yield from self._lines(line, count)) if count else [line]
                    told.append(self._result(call, lines))
            is_whole = True
            return told
        except BivrangError as error:
            error._place(self.host, self.port, calls[len(told)].request.key)
            raise
        finally:
            if not is_whole:
                self.close()

    def _send(self, text: bytes, is_first: bool) -> Steps[None]:
        """Sends lines; whether they are the first of their call."""
        if self._socket is None:
            raise ConnectionSpent("the connection is closed")
        if self._received:
            raise BadReply("bytes came that nobody asked for")
        try:
            yield Send(text)
        except socket.timeout:
            raise ReplyTimeout(f"not sent within {self._reply_seconds} s") from None
        except OSError as error:
            raise _broken(f"the connection broke: {error}", not is_first) from error

    def _result(self, call: Call, lines: Sequence[bytes]) -> Any:
        """The result of a call whose reply has these lines, or an error in its place."""
        try:
            result = call.request.result(lines, call.codec)
        except Mismatch:
            raise BadReply(f"{lines[0][:80]!r} is no reply to {call.request!r}") from None
        if isinstance(result, BivrangError):
            result._place(self.host, self.port, call.request.key)
        return result

    def _buffered_line(self, scanned: int = 0) -> Optional[bytes]:
        """The next line of replies, without its line feed, if it has come; as many bytes as were
        scanned have none."""
        end = self._received.find(b"\n", scanned)
        if end < 0:
            return None
        line = bytes(self._received[:end])
        del self._received[: end + 1]
        return line

    def _lines(self, first: bytes, count: int) -> Steps[List[bytes]]:
        """A line, and as many as follow it."""
        lines = [first]
        while len(lines) <= count:
            line = self._buffered_line()
            lines.append((yield from self._next_line(False)) if line is None else line)
        return lines

    def _next_line(self, is_first: bool) -> Steps[bytes]:
        """The next line of replies, which has not come yet."""
        until = time.monotonic() + self._reply_seconds
        while True:
            scanned = len(self._received)
            if scanned > LONGEST_REPLY_LINE:
                raise BadReply(f"a reply line of more than {LONGEST_REPLY_LINE} bytes")
            self._received += yield from self._piece(until, not is_first or scanned > 0)
            line = self._buffered_line(scanned)
            if line is not None:
                return line

    def _piece(self, until: float, has_begun: bool) -> Steps[bytes]:
        """More bytes; whether a reply has begun already."""
        try:
            piece = yield Receive(until)
        except socket.timeout:
            raise ReplyTimeout(f"no whole line of a reply within {self._reply_seconds} s") from None
        except OSError as error:
            raise _broken(f"the connection broke: {error}", has_begun) from error
        if not piece:
            raise _broken("the server closed the connection", has_begun)
        return piece


def _broken(text: str, has_reply_begun: bool) -> ConnectionBroken:
    error = ConnectionBroken(text)
    error.has_reply_begun = has_reply_begun
    return error


# Pools.


AnyLink = TypeVar("AnyLink", bound=Link)


class Pool(Forked, Generic[AnyLink]):
    """The settings of a pool of connections to one namespace, and those that are idle. A child
    process made by `fork`, and a copy, begin without any."""

    _own = frozenset({"_lock", "_idle"})

    def __init__(
        self,
        host: str,
        port: int,
        connections: int,
        connect_seconds: float,
        reply_seconds: float,
        wait_seconds: float,
    ) -> None:
        if connections < 1:
            raise ValueError("a pool has at least one connection")
        self.host = host
        self.port = port
        self._connections = connections
        self._connect_seconds = limit(connect_seconds)
        self._reply_seconds = limit(reply_seconds)
        self._wait_seconds = limit(wait_seconds)
        self._is_closed = False
        self._begin_anew()
        super().__init__()

    def __repr__(self) -> str:
        idle = f"{len(self._idle)} idle of at most {self._connections} connections"
        state = "closed" if self._is_closed else idle
        return f"<{type(self).__name__} {place_of(self.host, self.port)}, {state}>"

    def close(self) -> None:
        """Closes the idle connections, and each other one when its call has ended. Later calls
        raise `PoolClosed`."""
        with self._lock:
            self._is_closed = True
            while self._idle:
                self._idle.pop().close()

    def _begin_anew(self) -> None:
        self._lock = threading.Lock()
        self._idle: List[AnyLink] = []

    def _name_server(self, error: ArgumentError) -> None:
        error._place(self.host, self.port, None)

    def _place(self, error: LinkError, calls: Sequence[Call]) -> None:
        """Says where calls failed, if nothing was sent; otherwise the link has said it."""
        if not error.may_have_run:
            error._place(self.host, self.port, calls[0].request.key)

    def _take_idle(self) -> Optional[AnyLink]:
        """The connection that was used last, if it is still quiet; None if there is none."""
        while True:
            with self._lock:
                if self._is_closed:
                    raise PoolClosed("the pool is closed")
                link = self._idle.pop() if self._idle else None
            if link is None or link.is_quiet():
                return link
            link.close()

    def _give_back(self, link: AnyLink) -> None:
        with self._lock:
            if link.is_open and not self._is_closed:
                self._idle.append(link)
            else:
                link.close()
