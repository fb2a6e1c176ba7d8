"""The client for asyncio: the same calls, rules and errors as those that block, awaited.

    from bivrang import aio

    async with aio.Client(port=7411) as cache:
        await cache.set("a", "two words")
        await cache.get("a")                             # b"two words"

A client is for one event loop at a time, which has `add_reader` (on Windows, a selector's loop);
under another one it begins anew. A call that is cancelled closes its connection: its request may or
may not have run.
"""
import asyncio
import collections
import contextlib
import errno
import functools
import inspect
import os
import socket
import time
from types import TracebackType
from typing import (
    Any,
    Callable,
    Deque,
    Dict,
    Generic,
    Iterable,
    List,
    Mapping,
    NoReturn,
    Optional,
    Sequence,
    Type,
    TypeVar,
    Union,
    overload,
)

from . import _blocking
from ._codecs import RAW, Codec, Given, Text, Told
from ._errors import ArgumentError, BivrangError, ConnectionBroken, LinkError, PoolTimeout, is_path
from ._links import RECEIVED_AT_ONCE, Link, Pool, Receive, Send, Steps
from ._protocol import (
    ABSENT,
    Call,
    Held,
    Request,
    Seconds,
    calls_of,
    found,
    gets_of,
    may_be_sent_again,
    only,
    raise_first,
    refused,
    sets_of,
    several,
)
from ._spread import Server, Spread, merged, results_or_first_error
from ._urls import arguments_of

__all__ = ["Client", "Commands", "KeyedCommands", "Servers"]

AnyGiven = TypeVar("AnyGiven")
AnyTold = TypeVar("AnyTold")
Default = TypeVar("Default")
Key = TypeVar("Key", str, bytes)
T = TypeVar("T")


def _documented_as(blocking: type) -> Callable[[Type[T]], Type[T]]:
    """Gives each call of a class the text of the call of the same name that blocks."""

    def document(kind: Type[T]) -> Type[T]:
        for name, call in vars(kind).items():
            if inspect.iscoroutinefunction(call) and not call.__doc__:
                call.__doc__ = getattr(getattr(blocking, name, None), "__doc__", None)
        return kind

    return document


@_documented_as(_blocking.KeyedCommands)
class KeyedCommands(Generic[Given, Told]):
    """The requests with a key, as in `bivrang.KeyedCommands`."""

    codec: Codec[Given, Told]

    async def _run(self, calls: List[Call]) -> List[Any]:
        raise NotImplementedError

    async def pipeline(self, requests: Iterable[Request[Any]]) -> List[Any]:
        try:
            calls = calls_of(requests, self.codec)
        except ArgumentError as error:
            self._name_server(error)
            raise
        return await self._run(calls) if calls else []

    def _name_server(self, error: ArgumentError) -> None:
        raise NotImplementedError

    async def _ask(self, make: Callable[[], Request[T]]) -> T:
        result: T = only(await self.pipeline(it() for it in (make,)))
        return result

    async def set(self, key: Text, value: Given, *, ttl: Optional[Seconds] = None) -> bool:
        return await self._ask(lambda: Request.set(key, value, ttl=ttl))

    async def set_many(
        self, values: Mapping[Key, Given], *, ttl: Optional[Seconds] = None
    ) -> List[Key]:
        return refused(list(values), await self.pipeline(sets_of(values, ttl)))

    @overload
    async def get(self, key: Text) -> Optional[Told]:
        ...

    @overload
    async def get(self, key: Text, default: Default) -> Union[Told, Default]:
        ...

    async def get(self, key: Text, default: Any = None) -> Any:
        return await self._ask(lambda: Request.get(key, default))

    async def get_many(self, keys: Iterable[Key]) -> Dict[Key, Told]:
        asked = several(keys)
        return found(asked, await self.pipeline(gets_of(asked)))

    async def has(self, key: Text) -> bool:
        return await self._ask(lambda: Request.has(key))

    def __contains__(self, key: Text) -> NoReturn:
        """What `in` asks cannot be awaited."""
        raise TypeError("`in` cannot be awaited: use `await client.has(key)`")

    __iter__ = None

    async def __getitem__(self, key: Text) -> Told:
        told: Told = await self._ask(lambda: Request.get(key, ABSENT))
        if told is ABSENT:
            raise KeyError(key)
        return told

    async def touch(self, key: Text) -> bool:
        return await self._ask(lambda: Request.touch(key))

    async def load(self, key: Text) -> Optional[Told]:
        told: Optional[Told] = await self._ask(lambda: Request.load(key))
        return told

    async def delete(self, key: Text) -> None:
        await self._ask(lambda: Request.delete(key))

    async def delete_many(self, keys: Iterable[Text]) -> None:
        raise_first(await self.pipeline(map(Request.delete, several(keys))))

    async def incr(
        self, key: Text, number: int = 1, *, ttl: Optional[Seconds] = None
    ) -> Optional[int]:
        return await self._ask(lambda: Request.incr(key, number, ttl=ttl))


@_documented_as(_blocking.Commands)
class Commands(KeyedCommands[Given, Told]):
    """All requests except for `QUIT`, as in `bivrang.Commands`."""

    async def clear(self) -> None:
        await self._ask(lambda: Request.clear())

    async def drop_if(self, prefix: Text) -> None:
        await self._ask(lambda: Request.drop_if(prefix))

    async def keys(self) -> List[bytes]:
        return await self._ask(lambda: Request.keys())

    async def sync(self) -> Held:
        return await self._ask(lambda: Request.sync())

    async def ping(self) -> bool:
        return await self._ask(lambda: Request.ping())


def _settle(waiter: "asyncio.Future[bool]", outcome: bool) -> bool:
    """Whether the waiter still waited; it is told the outcome."""
    if waiter.done():
        return False
    waiter.set_result(outcome)
    return True


async def _ready(link: socket.socket, until: float, is_to_send: bool = False) -> None:
    """Waits until a socket can be read, or written. Raises `socket.timeout` at that moment of
    `time.monotonic`."""
    loop = asyncio.get_running_loop()
    watch = loop.add_writer if is_to_send else loop.add_reader
    leave = loop.remove_writer if is_to_send else loop.remove_reader
    waiter: "asyncio.Future[bool]" = loop.create_future()
    timer = loop.call_later(until - time.monotonic(), _settle, waiter, False)
    watch(link, _settle, waiter, True)
    try:
        if not await waiter:
            raise socket.timeout
    finally:
        leave(link)
        timer.cancel()


_NOT_YET = (BlockingIOError, InterruptedError)


async def _addresses(host: str, port: int, until: float) -> List[Any]:
    """The addresses of a host, as `socket.getaddrinfo` returns them, or that of a path."""
    if is_path(host):
        return [(socket.AF_UNIX, socket.SOCK_STREAM, 0, "", host)]
    search = asyncio.get_running_loop().getaddrinfo(host, port, type=socket.SOCK_STREAM)
    try:
        return await asyncio.wait_for(search, until - time.monotonic())
    except asyncio.TimeoutError:
        raise socket.timeout from None


async def _connected(host: str, port: int, until: float) -> socket.socket:
    """A socket connected to the first address that accepts it."""
    failed = OSError(f"{host} has no address")
    for family, kind, protocol, _, address in await _addresses(host, port, until):
        link = socket.socket(family, kind, protocol)
        try:
            await _connect(link, address, until)
            return link
        except OSError as error:
            link.close()
            failed = error
        except BaseException:
            link.close()
            raise
    raise failed


async def _connect(link: socket.socket, address: Any, until: float) -> None:
    link.setblocking(False)
    has_path = isinstance(address, str)
    if not has_path:
        link.setsockopt(socket.IPPROTO_TCP, socket.TCP_NODELAY, 1)
    code = link.connect_ex(address)
    # (to a path it connects at once or not at all)
    if code in (errno.EINPROGRESS, errno.EWOULDBLOCK) and not has_path:
        await _ready(link, until, is_to_send=True)
        code = link.getsockopt(socket.SOL_SOCKET, socket.SO_ERROR)
    if code:
        raise OSError(code, os.strerror(code))


class _Connection(Link):
    """One connection, for one task at a time. Its socket is its own, and no transport's: in a child
    process made by `fork` a transport cannot close without disturbing the parent's event loop."""

    async def _open(self, connect_seconds: float) -> "_Connection":
        until = time.monotonic() + connect_seconds
        try:
            self._socket = await _connected(self.host, self.port, until)
        except OSError as error:
            failed = _blocking.connect_error(error, connect_seconds)
            failed._place(self.host, self.port, None)
            raise failed from error
        return self

    async def _run(self, calls: List[Call]) -> List[Any]:
        return await self._drive(self._exchange(calls))

    async def _drive(self, steps: Steps[T]) -> T:
        """Performs each step."""
        with contextlib.closing(steps):
            try:
                step = next(steps)
                while True:
                    try:
                        told = await self._perform(step)
                    except OSError as error:
                        step = steps.throw(error)
                    else:
                        step = steps.send(told)
            except StopIteration as end:
                result: T = end.value
                return result

    async def _perform(self, step: Union[Send, Receive]) -> bytes:
        if self._socket is None:
            raise OSError(errno.EBADF, "closed during a call")
        if isinstance(step, Send):
            await self._send_all(self._socket, memoryview(step.text))
            return b""
        while True:
            try:
                return self._socket.recv(RECEIVED_AT_ONCE)
            except _NOT_YET:
                await _ready(self._socket, step.until)

    async def _send_all(self, link: socket.socket, rest: memoryview) -> None:
        until = time.monotonic() + self._reply_seconds
        while rest:
            try:
                rest = rest[link.send(rest) :]
            except _NOT_YET:
                await _ready(link, until, is_to_send=True)


class _Permits:
    """How many more connections may be used, and which calls wait for one, in their order."""

    def __init__(self, count: int) -> None:
        self._left = count
        self._waiting: "Deque[asyncio.Future[bool]]" = collections.deque()

    async def take(self, seconds: float) -> bool:
        """Whether a permit was taken within this time."""
        if self._left > 0:
            self._left -= 1
            return True
        loop = asyncio.get_running_loop()
        waiter: "asyncio.Future[bool]" = loop.create_future()
        self._waiting.append(waiter)
        timer = loop.call_later(seconds, _settle, waiter, False)
        try:
            return await waiter
        except asyncio.CancelledError:
            if waiter.done() and not waiter.cancelled() and waiter.result():
                self.give_back()
            raise
        finally:
            timer.cancel()

    def give_back(self) -> None:
        """Hands a permit to the first call that still waits, or keeps it."""
        while self._waiting:
            if _settle(self._waiting.popleft(), True):
                return
        self._left += 1


class Client(Pool[_Connection], Commands[Given, Told]):
    """A pool of connections to one namespace, which tasks share. Arguments and rules are those of
    `bivrang.Client`. `close` is not awaited."""

    _own = frozenset({"_lock", "_idle", "_loop", "_permits"})

    @overload
    def __init__(
        self: "Client[Text, bytes]",
        host: str = ...,
        port: int = ...,
        connections: int = ...,
        connect_seconds: float = ...,
        reply_seconds: float = ...,
        wait_seconds: float = ...,
    ) -> None:
        ...

    @overload
    def __init__(
        self,
        host: str = ...,
        port: int = ...,
        connections: int = ...,
        connect_seconds: float = ...,
        reply_seconds: float = ...,
        wait_seconds: float = ...,
        *,
        codec: Codec[Given, Told],
    ) -> None:
        ...

    def __init__(
        self,
        host: str = "127.0.0.1",
        port: int = 7411,
        connections: int = 8,
        connect_seconds: float = 2.0,
        reply_seconds: float = 5.0,
        wait_seconds: float = 5.0,
        codec: Any = RAW,
    ) -> None:
        self.codec = codec
        super().__init__(host, port, connections, connect_seconds, reply_seconds, wait_seconds)

    @overload
    @classmethod
    def from_url(cls, url: str) -> "Client[Text, bytes]":
        ...

    @overload
    @classmethod
    def from_url(cls, url: str, *, codec: Codec[AnyGiven, AnyTold]) -> "Client[AnyGiven, AnyTold]":
        ...

    @classmethod
    def from_url(cls, url: str, *, codec: Any = RAW) -> "Client[Any, Any]":
        """A client of the server that a URL names, as by `bivrang.Client.from_url`."""
        return cls(codec=codec, **arguments_of(url))

    async def __aenter__(self) -> "Client[Given, Told]":
        return self

    async def __aexit__(
        self,
        kind: Optional[Type[BaseException]],
        error: Optional[BaseException],
        trace: Optional[TracebackType],
    ) -> None:
        self.close()

    def _begin_anew(self) -> None:
        super()._begin_anew()
        self._loop: Optional[asyncio.AbstractEventLoop] = None
        self._permits = _Permits(self._connections)

    def _begin_in_loop(self) -> _Permits:
        """The permits of the running event loop; those of another one, and its connections, are
        left."""
        loop = asyncio.get_running_loop()
        if self._loop is not loop:
            for link in self._idle:
                link.close()
            self._begin_anew()
            self._loop = loop
        return self._permits

    async def _run(self, calls: List[Call]) -> List[Any]:
        permits = self._begin_in_loop()
        try:
            if not await permits.take(self._wait_seconds):
                raise PoolTimeout(f"all connections were in use for {self._wait_seconds} s")
            try:
                return await self._run_or_repeat(calls)
            finally:
                permits.give_back()
        except LinkError as error:
            self._place(error, calls)
            raise

    async def _run_or_repeat(self, calls: List[Call]) -> List[Any]:
        try:
            return await self._run_on(self._take_idle() or await self._connect(), calls)
        except ConnectionBroken as error:
            if error.has_reply_begun or not may_be_sent_again(calls):
                raise
            return await self._run_on(await self._connect(), calls)

    async def _run_on(self, connection: _Connection, calls: List[Call]) -> List[Any]:
        try:
            return await connection._run(calls)
        finally:
            self._give_back(connection)

    async def _connect(self) -> _Connection:
        connection = _Connection(self.host, self.port, self._reply_seconds)
        return await connection._open(self._connect_seconds)


@_documented_as(_blocking.Servers)
class Servers(Spread["Client[Any, Any]"], KeyedCommands[Given, Told]):
    """Several servers, each a `Client`, over which keys are spread by rendezvous hashing. Arguments
    and rules are those of `bivrang.Servers`; several servers are asked at the same time."""

    @overload
    def __init__(
        self,
        servers: Sequence[Server],
        *,
        retry_after: float = ...,
        errors_as_misses: bool = ...,
        codec: Codec[Given, Told],
        **options: Any,
    ) -> None:
        ...

    @overload
    def __init__(
        self: "Servers[Text, bytes]",
        servers: Sequence[Server],
        *,
        retry_after: float = ...,
        errors_as_misses: bool = ...,
        **options: Any,
    ) -> None:
        ...

    def __init__(
        self,
        servers: Sequence[Server],
        *,
        retry_after: float = 1.0,
        errors_as_misses: bool = False,
        codec: Any = RAW,
        **options: Any,
    ) -> None:
        self.codec = codec
        pool = functools.partial(Client[Any, Any], codec=codec, **options)
        super().__init__(servers, pool, retry_after, errors_as_misses)

    async def __aenter__(self) -> "Servers[Given, Told]":
        return self

    async def __aexit__(
        self,
        kind: Optional[Type[BaseException]],
        error: Optional[BaseException],
        trace: Optional[TracebackType],
    ) -> None:
        self.close()

    async def each(self, request: Request[T]) -> "Dict[str, Union[T, BivrangError]]":
        """Sends each server a request, all at the same time. Returns the results by name; an error
        takes the place of its server's result."""
        calls = calls_of([request], self.codec)
        results = await self._run_shares({name: calls for name in self.clients})
        return {name: of_one[0] for name, of_one in results.items()}

    async def clear(self) -> None:
        results_or_first_error(await self.each(Request.clear()))

    async def drop_if(self, prefix: Text) -> None:
        results_or_first_error(await self.each(Request.drop_if(prefix)))

    async def keys(self) -> List[bytes]:
        told = results_or_first_error(await self.each(Request.keys()))
        return sorted({key for keys in told.values() for key in keys})

    async def sync(self) -> Dict[str, Held]:
        return results_or_first_error(await self.each(Request.sync()))

    async def ping(self) -> Dict[str, bool]:
        told = await self.each(Request.ping())
        return {name: not isinstance(it, BivrangError) for name, it in told.items()}

    async def _run(self, calls: List[Call]) -> List[Any]:
        shares = self._shares(calls)
        theirs = {name: [call for _, call in share] for name, share in shares.items()}
        return merged(shares, await self._run_shares(theirs))

    async def _run_shares(self, shares: Mapping[str, List[Call]]) -> Dict[str, List[Any]]:
        """Makes each server's calls, all at the same time."""
        runs = (self._run_at(name, share) for name, share in shares.items())
        return dict(zip(shares, await asyncio.gather(*runs)))

    async def _run_at(self, name: str, calls: List[Call]) -> List[Any]:
        """Makes calls of one server."""
        try:
            self._back_offs[name].enter()
            results = await self.clients[name]._run(calls)
        except LinkError as error:
            return self._failed(name, calls, error)
        self._back_offs[name].answered()
        return results
