"""Connections, pools and several servers, whose calls block."""
import contextlib
import errno
import functools
import socket
import threading
import time
import warnings
from types import TracebackType
from typing import (
    Any,
    Callable,
    Dict,
    Generic,
    Iterable,
    List,
    Mapping,
    Optional,
    Sequence,
    Type,
    TypeVar,
    Union,
    overload,
)

from ._codecs import RAW, Codec, Given, Text, Told
from ._errors import (
    ArgumentError,
    BivrangError,
    ConnectFailed,
    ConnectionBroken,
    ConnectTimeout,
    LinkError,
    PoolTimeout,
    is_path,
)
from ._links import RECEIVED_AT_ONCE, Link, Pool, Receive, Send, Steps, limit
from ._protocol import (
    ABSENT,
    QUIT,
    Call,
    Held,
    Request,
    Seconds,
    calls_of,
    found,
    gets_of,
    may_be_sent_again,
    only,
    raise_first,
    refused,
    renamed_ttl,
    sets_of,
    several,
)
from ._spread import Server, Spread, merged, results_or_first_error
from ._urls import arguments_of

AnyGiven = TypeVar("AnyGiven")
AnyTold = TypeVar("AnyTold")
Default = TypeVar("Default")
Key = TypeVar("Key", str, bytes)
T = TypeVar("T")


class KeyedCommands(Generic[Given, Told]):
    """The requests with a key. Each may raise a `LinkError`, `KeyRefused` if the key is not
    allowed, and TypeError if it is neither text nor bytes."""

    codec: Codec[Given, Told]
    """How values are written and read."""

    def _run(self, calls: List[Call]) -> List[Any]:
        """Makes calls. The results are in their order; an error is in its call's place."""
        raise NotImplementedError

    def pipeline(self, requests: Iterable[Request[Any]]) -> List[Any]:
        """Sends requests without waiting for each one's reply. The results are in the order of the
        requests; a `ServerError` or `DecodeError` takes the place of its request's result, and is
        not raised. If one of the requests cannot be sent, none is.

        At a `LinkError` the results are lost: if `may_have_run`, any number of requests, from the
        first on, may have run.
        """
        try:
            calls = calls_of(requests, self.codec)
        except ArgumentError as error:
            self._name_server(error)
            raise
        return self._run(calls) if calls else []

    def _name_server(self, error: ArgumentError) -> None:
        """Says which server an argument was for, as far as it is known."""
        raise NotImplementedError

    def _ask(self, make: Callable[[], Request[T]]) -> T:
        """The result of the request that this makes, or refuses to make."""
        result: T = only(self.pipeline(it() for it in (make,)))
        return result

    def set(
        self,
        key: Text,
        value: Given,
        milliseconds: Optional[int] = None,
        *,
        ttl: Optional[Seconds] = None,
    ) -> bool:
        """Stores a value, which lives for this time at most, if given (`milliseconds` is its old
        name). Returns False if the capacity is 0 and nothing is stored.

        Raises `ValueRefused`, `DeadlineRefused`, and `DeadlineError` for a time to live in a
        namespace without `deadlines = true`.
        """
        life = renamed_ttl(ttl, milliseconds)
        return self._ask(lambda: Request.set(key, value, ttl=life))

    def set_many(self, values: Mapping[Key, Given], *, ttl: Optional[Seconds] = None) -> List[Key]:
        """Stores each key's value, in one pipeline. Returns the keys that were not stored, which
        are none unless the capacity is 0. Raises what `set` raises, after the last reply."""
        return refused(list(values), self.pipeline(sets_of(values, ttl)))

    @overload
    def get(self, key: Text) -> Optional[Told]:
        ...

    @overload
    def get(self, key: Text, default: Default) -> Union[Told, Default]:
        ...

    def get(self, key: Text, default: Any = None) -> Any:
        """Returns the key's live value, which counts as a use of it; the default if it has none.
        Sent once more if its connection broke before a reply. Raises `DecodeError`."""
        return self._ask(lambda: Request.get(key, default))

    def get_many(self, keys: Iterable[Key]) -> Dict[Key, Told]:
        """Returns the live values of keys, each of which counts as used, by key; a key without one
        is not in the dictionary. One pipeline, which is sent once more like a `get`."""
        asked = several(keys)
        return found(asked, self.pipeline(gets_of(asked)))

    def has(self, key: Text) -> bool:
        """Returns whether the key has a live value. Does not count as a use. Sent once more if its
        connection broke before a reply."""
        return self._ask(lambda: Request.has(key))

    def __contains__(self, key: Text) -> bool:
        return self.has(key)

    __iter__ = None
    """Keys are told by `keys`, and not one after the other."""

    def __getitem__(self, key: Text) -> Told:
        """Returns what `get` returns. Raises KeyError if the key has no live value."""
        told: Told = self._ask(lambda: Request.get(key, ABSENT))
        if told is ABSENT:
            raise KeyError(key)
        return told

    def __setitem__(self, key: Text, value: Given) -> None:
        """Does what `set` does, without a time to live."""
        self.set(key, value)

    def __delitem__(self, key: Text) -> None:
        """Does what `delete` does: never a KeyError, since the server does not say whether the key
        had a value."""
        self.delete(key)

    def touch(self, key: Text) -> bool:
        """Returns whether the key has a live value, and counts as a use of it, which restarts its
        idle time. A time to live stays as it is. The value is sent as for `get`, and dropped. Sent
        once more if its connection broke before a reply."""
        return self._ask(lambda: Request.touch(key))

    def load(self, key: Text) -> Optional[Told]:
        """Returns the key's live value; if it has none, the server loads one from elsewhere and
        stores it. None if there is none.

        Raises `LoadFailed`, `LoadAbandoned` and `DecodeError`. The reply may take as long as the
        load.
        """
        told: Optional[Told] = self._ask(lambda: Request.load(key))
        return told

    def delete(self, key: Text) -> None:
        """Deletes the key's value, if it has one. The server does not say whether it had."""
        self._ask(lambda: Request.delete(key))

    def delete_many(self, keys: Iterable[Text]) -> None:
        """Deletes the values of keys, in one pipeline. Raises the first error after the last
        reply."""
        raise_first(self.pipeline(map(Request.delete, several(keys))))

    def incr(self, key: Text, number: int = 1, *, ttl: Optional[Seconds] = None) -> Optional[int]:
        """Adds to the key's number (0 if it has no live value), stores the sum, and returns it.
        None if the capacity is 0. Numbers are stored as their digits, whatever the codec.

        The sum lives for this time at most, if given; otherwise it has no deadline, whatever
        deadline the value had before. Raises `NumberRefused`, `DeadlineRefused`, `DeadlineError`,
        and `NumberError` if the value is not a number or the sum is too large.
        """
        return self._ask(lambda: Request.incr(key, number, ttl=ttl))

    def add(self, key: Text, number: int, milliseconds: Optional[int] = None) -> Optional[int]:
        """The old name of `incr`, which some caches give to a call that stores a value only where
        there is none."""
        warnings.warn("add is now incr", DeprecationWarning, stacklevel=2)
        return self.incr(key, number, ttl=renamed_ttl(None, milliseconds))


class Commands(KeyedCommands[Given, Told]):
    """All requests except for `QUIT`."""

    def clear(self) -> None:
        """Hides all stored values."""
        self._ask(lambda: Request.clear())

    def drop_if(self, prefix: Text) -> None:
        """Hides all values whose keys begin with the prefix. Raises `KeyRefused` and
        `IdentifiersError`."""
        self._ask(lambda: Request.drop_if(prefix))

    def keys(self) -> List[bytes]:
        """Returns the keys that have a live value, in byte order. Does not count as a use. There
        may be millions: they come in one reply.

        Sent once more if its connection broke before a reply.
        """
        return self._ask(lambda: Request.keys())

    def sync(self) -> Held:
        """Runs maintenance, and returns what is held after it."""
        return self._ask(lambda: Request.sync())

    def ping(self) -> bool:
        """Returns True if the server answers; otherwise raises a `LinkError`. It asks whether a
        key has a value (`HAS`), which is no use of it."""
        return self._ask(lambda: Request.ping())


def connected(host: str, port: int, seconds: float) -> socket.socket:
    """A socket connected to a port of a host, or to a path."""
    if is_path(host):
        link = socket.socket(socket.AF_UNIX, socket.SOCK_STREAM)
    else:
        link = socket.create_connection((host, port), timeout=seconds)
    try:
        if is_path(host):
            link.settimeout(seconds)
            link.connect(host)
        else:
            link.setsockopt(socket.IPPROTO_TCP, socket.TCP_NODELAY, 1)
        return link
    except BaseException:
        link.close()
        raise


class Connection(Link, Commands[Text, bytes]):
    """One connection to one namespace, for one thread at a time. It does not reconnect: after a
    `LinkError` it is closed, and stays closed. In a child process made by `fork` it is closed,
    which the parent and the server do not notice.

    host, port: the address of the namespace. A host that begins with `/` is the path of a Unix
        socket (of `bivrangd`), and the port is not used.
    connect_seconds: the time limit for connecting.
    reply_seconds: the time limit for sending, and for each line of a reply, counted from the
        sending or from the line before.

    Raises `ConnectFailed` or `ConnectTimeout` if the connection cannot be made.
    """

    codec = RAW

    def __init__(
        self,
        host: str = "127.0.0.1",
        port: int = 7411,
        connect_seconds: float = 2.0,
        reply_seconds: float = 5.0,
    ) -> None:
        super().__init__(host, port, reply_seconds)
        try:
            self._socket = connected(host, port, limit(connect_seconds))
        except OSError as error:
            self.close()
            failed = connect_error(error, connect_seconds)
            failed._place(host, port, None)
            raise failed from error

    def __enter__(self) -> "Connection":
        return self

    def __exit__(
        self,
        kind: Optional[Type[BaseException]],
        error: Optional[BaseException],
        trace: Optional[TracebackType],
    ) -> None:
        self.close()

    def quit(self) -> None:
        """`QUIT`: the server replies `OK` and closes the connection; then so does the client."""
        try:
            self._ask(lambda: QUIT)
        finally:
            self.close()

    def _run(self, calls: List[Call]) -> List[Any]:
        return self._drive(self._exchange(calls))

    def _drive(self, steps: Steps[T]) -> T:
        """Performs each step."""
        with contextlib.closing(steps):
            try:
                step = next(steps)
                while True:
                    try:
                        told = self._perform(step)
                    except OSError as error:
                        step = steps.throw(error)
                    else:
                        step = steps.send(told)
            except StopIteration as end:
                result: T = end.value
                return result

    def _perform(self, step: Union[Send, Receive]) -> bytes:
        if self._socket is None:
            raise OSError(errno.EBADF, "closed during a call")
        if isinstance(step, Send):
            self._socket.settimeout(self._reply_seconds)
            self._socket.sendall(step.text)
            return b""
        left = step.until - time.monotonic()
        if left <= 0:
            raise socket.timeout
        self._socket.settimeout(left)
        return self._socket.recv(RECEIVED_AT_ONCE)


def connect_error(error: OSError, connect_seconds: float) -> ConnectFailed:
    """Why a connection could not be made."""
    if isinstance(error, socket.timeout):
        return ConnectTimeout(f"no connection within {connect_seconds} s")
    return ConnectFailed(f"no connection: {error}")


class Client(Pool[Connection], Commands[Given, Told]):
    """A pool of connections to one namespace, which threads share. Connections are made when they
    are needed, and kept. A child process made by `fork` makes its own.

    host, port: the address of the namespace. A host that begins with `/` is the path of a Unix
        socket (of `bivrangd`), and the port is not used.
    connections: the maximum number of connections, at least 1.
    connect_seconds, reply_seconds: the time limits of each, as in `Connection`.
    wait_seconds: how long a call waits at most for a connection while all are in use; then it
        raises `PoolTimeout`.
    codec: how values are written and read: `JSON`, `BASE64`, or one of your own. Without one they
        are bytes without line ends, or text, which is sent as UTF-8 and returned as bytes.

    A connection that broke, timed out or sent an invalid reply is closed and never used again. A
    request that only reads (`GET`, `HAS`, `KEYS`), or a pipeline of such, is sent once more, on a
    new connection, if the first broke before a byte of the reply was received; no other request
    is, since it may have run. Creating a `Client` does not connect yet. A copy, by `pickle` or
    `copy`, has the same settings, and makes connections of its own.
    """

    _own = frozenset({"_lock", "_idle", "_free"})

    @overload
    def __init__(
        self: "Client[Text, bytes]",
        host: str = ...,
        port: int = ...,
        connections: int = ...,
        connect_seconds: float = ...,
        reply_seconds: float = ...,
        wait_seconds: float = ...,
    ) -> None:
        ...

    @overload
    def __init__(
        self,
        host: str = ...,
        port: int = ...,
        connections: int = ...,
        connect_seconds: float = ...,
        reply_seconds: float = ...,
        wait_seconds: float = ...,
        *,
        codec: Codec[Given, Told],
    ) -> None:
        ...

    def __init__(
        self,
        host: str = "127.0.0.1",
        port: int = 7411,
        connections: int = 8,
        connect_seconds: float = 2.0,
        reply_seconds: float = 5.0,
        wait_seconds: float = 5.0,
        codec: Any = RAW,
    ) -> None:
        self.codec = codec
        super().__init__(host, port, connections, connect_seconds, reply_seconds, wait_seconds)

    @overload
    @classmethod
    def from_url(cls, url: str) -> "Client[Text, bytes]":
        ...

    @overload
    @classmethod
    def from_url(cls, url: str, *, codec: Codec[AnyGiven, AnyTold]) -> "Client[AnyGiven, AnyTold]":
        ...

    @classmethod
    def from_url(cls, url: str, *, codec: Any = RAW) -> "Client[Any, Any]":
        """A client of the server that a URL names: `bivrang://HOST:PORT`, where a port that is left
        out is 7411, or `bivrang:///PATH/OF/SOCKET`; `?connections=2&reply_seconds=0.5` behind it
        gives other arguments (`connections`, `connect_seconds`, `reply_seconds`, `wait_seconds`).
        Raises ValueError for any other text."""
        return cls(codec=codec, **arguments_of(url))

    def __enter__(self) -> "Client[Given, Told]":
        return self

    def __exit__(
        self,
        kind: Optional[Type[BaseException]],
        error: Optional[BaseException],
        trace: Optional[TracebackType],
    ) -> None:
        self.close()

    def _begin_anew(self) -> None:
        super()._begin_anew()
        self._free = threading.BoundedSemaphore(self._connections)

    def _run(self, calls: List[Call]) -> List[Any]:
        free = self._free
        try:
            if not free.acquire(timeout=self._wait_seconds):
                raise PoolTimeout(f"all connections were in use for {self._wait_seconds} s")
            try:
                return self._run_or_repeat(calls)
            finally:
                free.release()
        except LinkError as error:
            self._place(error, calls)
            raise

    def _run_or_repeat(self, calls: List[Call]) -> List[Any]:
        try:
            return self._run_on(self._take_idle() or self._connect(), calls)
        except ConnectionBroken as error:
            if error.has_reply_begun or not may_be_sent_again(calls):
                raise
            return self._run_on(self._connect(), calls)

    def _run_on(self, connection: Connection, calls: List[Call]) -> List[Any]:
        try:
            return connection._run(calls)
        finally:
            self._give_back(connection)

    def _connect(self) -> Connection:
        return Connection(self.host, self.port, self._connect_seconds, self._reply_seconds)


class Servers(Spread["Client[Any, Any]"], KeyedCommands[Given, Told]):
    """Several servers, each a `Client`, over which keys are spread by rendezvous hashing.

    A server of weight w counts as w virtual ones, `NAME#0` to `NAME#(w - 1)`, and a key belongs to
    the server of the virtual one with the highest score for it. So if a server is added, the only
    keys that move are those that it gets, and if one is removed, those that it had. The Rust
    client gives each key to the same server. There are no replicas: if a server is down, calls for
    its keys raise.

    servers: the servers, with different names.
    retry_after: for how many seconds a server is left alone that could not be reached or did not
        reply in time; calls for its keys then raise `ServerAway` at once.
    errors_as_misses: whether `get`, `get_many`, `has` and `touch` take a `LinkError` as a miss.
    codec: how values are written and read, as in `Client`.
    options: others of `Client` (`connections`, `connect_seconds`, `reply_seconds`,
        `wait_seconds`), for each server.

    Raises ValueError for an empty list, two servers with one name, or a weight out of range.
    """

    @overload
    def __init__(
        self,
        servers: Sequence[Server],
        *,
        retry_after: float = ...,
        errors_as_misses: bool = ...,
        codec: Codec[Given, Told],
        **options: Any,
    ) -> None:
        ...

    @overload
    def __init__(
        self: "Servers[Text, bytes]",
        servers: Sequence[Server],
        *,
        retry_after: float = ...,
        errors_as_misses: bool = ...,
        **options: Any,
    ) -> None:
        ...

    def __init__(
        self,
        servers: Sequence[Server],
        *,
        retry_after: float = 1.0,
        errors_as_misses: bool = False,
        codec: Any = RAW,
        **options: Any,
    ) -> None:
        self.codec = codec
        pool = functools.partial(Client[Any, Any], codec=codec, **options)
        super().__init__(servers, pool, retry_after, errors_as_misses)

    def __enter__(self) -> "Servers[Given, Told]":
        return self

    def __exit__(
        self,
        kind: Optional[Type[BaseException]],
        error: Optional[BaseException],
        trace: Optional[TracebackType],
    ) -> None:
        self.close()

    def pipeline(self, requests: Iterable[Request[Any]]) -> List[Any]:
        """Sends each server its requests as one pipeline, one server after the other. The results
        are in the order of the requests; an error takes the place of its request's result, and a
        `LinkError` that of each request of its server.

        Raises `ArgumentError` for a request without a key.
        """
        return super().pipeline(requests)

    def each(self, request: Request[T]) -> "Dict[str, Union[T, BivrangError]]":
        """Sends each server a request, one after the other. Returns the results by name; an error
        takes the place of its server's result."""
        calls = calls_of([request], self.codec)
        return {name: self._run_at(name, calls)[0] for name in self.clients}

    def clear(self) -> None:
        """Calls `clear` of each server, even if one of them fails: then the first error is raised
        after the last server."""
        results_or_first_error(self.each(Request.clear()))

    def drop_if(self, prefix: Text) -> None:
        """Calls `drop_if` of each server, like `clear`."""
        results_or_first_error(self.each(Request.drop_if(prefix)))

    def keys(self) -> List[bytes]:
        """The live keys of all servers, in byte order. A key that two servers have, since the list
        of servers changed, is returned once. Errors as in `clear`; `each(Request.keys())` returns
        those of the other servers all the same."""
        told = results_or_first_error(self.each(Request.keys()))
        return sorted({key for keys in told.values() for key in keys})

    def sync(self) -> Dict[str, Held]:
        """Calls `sync` of each server; the results by name. Errors as in `keys`."""
        return results_or_first_error(self.each(Request.sync()))

    def ping(self) -> Dict[str, bool]:
        """Whether each server answers, by name."""
        told = self.each(Request.ping())
        return {name: not isinstance(it, BivrangError) for name, it in told.items()}

    def _run(self, calls: List[Call]) -> List[Any]:
        shares = self._shares(calls)
        results = {
            name: self._run_at(name, [call for _, call in share]) for name, share in shares.items()
        }
        return merged(shares, results)

    def _run_at(self, name: str, calls: List[Call]) -> List[Any]:
        """Makes calls of one server."""
        try:
            self._back_offs[name].enter()
            results = self.clients[name]._run(calls)
        except LinkError as error:
            return self._failed(name, calls, error)
        self._back_offs[name].answered()
        return results
