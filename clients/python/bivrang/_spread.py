"""Which of several servers a key belongs to, and which of them are asked."""
import threading
import time
from typing import (
    Any,
    Callable,
    Dict,
    Generic,
    List,
    Mapping,
    NamedTuple,
    Optional,
    Sequence,
    Tuple,
    TypeVar,
)

from ._codecs import Text
from ._errors import (
    ArgumentError,
    ConnectFailed,
    LinkError,
    PoolClosed,
    ReplyTimeout,
    ServerAway,
)
from ._links import Forked, Pool
from ._protocol import GREATEST_NUMBER, Call, key_bytes, raise_first


def hash_bytes(text: bytes) -> int:
    """The 64-bit FNV-1a hash."""
    value = 0xCBF29CE484222325
    for byte in text:
        value = (value ^ byte) * 0x100000001B3 & GREATEST_NUMBER
    return value


def mix(value: int) -> int:
    """The output function of the generator SplitMix64, a bijection on 64 bits."""
    value = (value ^ value >> 30) * 0xBF58476D1CE4E5B9 & GREATEST_NUMBER
    value = (value ^ value >> 27) * 0x94D049BB133111EB & GREATEST_NUMBER
    return value ^ value >> 31


class Server(NamedTuple):
    """One of several servers."""

    host: str
    port: int
    weight: int = 1
    """Its share of the keys relative to the other servers' weights, 1 to 1000."""
    name: Optional[str] = None
    """The name that determines its keys: `HOST:PORT` if it is None. With a name of its own a server
    can move and keep its keys."""

    def known_as(self) -> str:
        """The name, or `HOST:PORT`."""
        return f"{self.host}:{self.port}" if self.name is None else self.name


class BackOff(Forked):
    """Whether one server is asked. After it did not answer, it is left alone for some seconds;
    then one call tries it, while others leave it alone for as long again. A copy asks it."""

    _own = frozenset({"_lock", "_until"})
    _until: Optional[float] = None

    def __init__(self, retry_after: float) -> None:
        self._retry_after = retry_after
        self._begin_anew()
        super().__init__()

    def _begin_anew(self) -> None:
        self._lock = threading.Lock()

    def enter(self) -> None:
        """Raises `ServerAway` if the server is left alone."""
        with self._lock:
            if self._until is None:
                return
            now = time.monotonic()
            if now < self._until:
                raise ServerAway(
                    f"it did not answer; it is left alone for {self._until - now:.1f} s"
                )
            self._until = now + self._retry_after

    def answered(self) -> None:
        """The server answered a call."""
        self._until = None

    def failed(self, error: LinkError) -> None:
        """A call of the server failed."""
        if isinstance(error, (ConnectFailed, ReplyTimeout)):
            self._until = time.monotonic() + self._retry_after


AnyPool = TypeVar("AnyPool", bound=Pool[Any])

Share = List[Tuple[int, Call]]
"""The calls of one server, each with its place among all."""


class Spread(Generic[AnyPool]):
    """Several servers' pools, and which keys are whose."""

    def __init__(
        self,
        servers: Sequence[Server],
        pool: Callable[[str, int], AnyPool],
        retry_after: float,
        errors_as_misses: bool,
    ) -> None:
        names = [server.known_as() for server in servers]
        if not names or len(set(names)) < len(names):
            raise ValueError("servers are at least one, of different names")
        if not all(1 <= server.weight <= 1000 for server in servers):
            raise ValueError("a weight is 1 to 1000")
        if not retry_after >= 0:
            raise ValueError("retry_after is a number of seconds, 0 or above")
        self.clients: Dict[str, AnyPool] = {
            server.known_as(): pool(server.host, server.port) for server in servers
        }
        """The servers' pools, by name."""
        self._back_offs = {name: BackOff(retry_after) for name in names}
        self._errors_as_misses = errors_as_misses
        self._seeds: List[Tuple[int, str]] = [
            (hash_bytes(f"{name}#{number}".encode()), name)
            for name, server in zip(names, servers)
            for number in range(server.weight)
        ]

    def __repr__(self) -> str:
        return f"<{type(self).__name__} {', '.join(self.clients)}>"

    def close(self) -> None:
        """Closes each server's pool."""
        for client in self.clients.values():
            client.close()

    def server_of(self, key: Text) -> str:
        """The name of the server that a key belongs to."""
        hashed = hash_bytes(key_bytes(key))
        best, chosen = -1, ""
        for seed, name in self._seeds:
            score = mix(hashed ^ seed)
            if score > best:
                best, chosen = score, name
        return chosen

    def _name_server(self, error: ArgumentError) -> None:
        if error.key is not None:
            self.clients[self.server_of(error.key)]._name_server(error)

    def _shares(self, calls: Sequence[Call]) -> Dict[str, Share]:
        """Each server's calls."""
        shares: Dict[str, Share] = {}
        for place, call in enumerate(calls):
            if call.request.key is None:
                raise ArgumentError(f"{call.request!r} has no key, so no one server gets it")
            shares.setdefault(self.server_of(call.request.key), []).append((place, call))
        return shares

    def _failed(self, name: str, calls: Sequence[Call], error: LinkError) -> List[Any]:
        """The results of calls whose server failed."""
        self._back_offs[name].failed(error)
        self.clients[name]._place(error, calls)
        if isinstance(error, PoolClosed) or not self._errors_as_misses:
            return [error] * len(calls)
        return [call.request.miss(error) for call in calls]


def merged(shares: Mapping[str, Share], results: Mapping[str, Sequence[Any]]) -> List[Any]:
    """The results of all servers' calls, in the places of the calls."""
    placed: Dict[int, Any] = {}
    for name, share in shares.items():
        placed.update(zip((place for place, _ in share), results[name]))
    return [placed[place] for place in range(len(placed))]


def results_or_first_error(results: Dict[str, Any]) -> Dict[str, Any]:
    """Each server's result. Raises the first error."""
    raise_first(results.values())
    return results
