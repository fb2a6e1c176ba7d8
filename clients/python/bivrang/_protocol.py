"""Requests as lines, and replies as results, without any input or output."""
import collections.abc
import operator
import re
import warnings
from datetime import timedelta
from typing import (
    Any,
    Callable,
    Dict,
    Generic,
    Iterable,
    Iterator,
    List,
    Mapping,
    NamedTuple,
    NoReturn,
    Optional,
    Sequence,
    Tuple,
    TypeVar,
    Union,
)

from ._codecs import Codec, Text
from ._errors import (
    BivrangError,
    DeadlineRefused,
    DecodeError,
    KeyRefused,
    NumberRefused,
    ValueRefused,
    error_of_reply,
)

T = TypeVar("T")
Key = TypeVar("Key", str, bytes)

ABSENT = object()
"""The result of a look-up that is a miss, where None may be a value."""

Seconds = Union[timedelta, float]
"""A time to live: a `timedelta`, or a number of seconds, which may be a fraction."""

LONGEST_LINE = 8192
"""The maximum number of bytes of a request before its line feed."""

LONGEST_KEY = 250
"""The maximum number of bytes of a key or prefix."""

LONGEST_LIFE = 999_999_999_999
"""The longest time to live of a value, in milliseconds."""

GREATEST_NUMBER = 2**64 - 1
"""The greatest number that can be added, and the greatest sum."""

WINDOW = 16384
"""At most this many bytes of requests are sent before their replies are read, or one request. The
server reads nothing while replies to it are unsent; what it has not read stays in the sockets'
buffers, which hold that much."""

MILLISECOND = timedelta(milliseconds=1)


class Held(NamedTuple):
    """The result of `sync`."""

    values: int
    """How many values are held."""
    weight: int
    """Their total weight: their number, or their bytes with `weight = "bytes"`."""


# Arguments.

_KEY = re.compile(rb"[!-~]{1,%d}" % LONGEST_KEY)


def key_bytes(key: Text) -> bytes:
    """A key or prefix as it is sent."""
    try:
        taken = key.encode("ascii") if isinstance(key, str) else bytes(memoryview(key))
    except UnicodeEncodeError:
        taken = b""
    except TypeError:
        raise TypeError(f"a key is text or bytes, not {type(key).__name__}") from None
    if not _KEY.fullmatch(taken):
        raise KeyRefused(f"a key is 1 to 250 bytes, each from ! to ~, unlike {key[:40]!r}")
    return taken


def renamed_ttl(ttl: Optional[Seconds], milliseconds: Optional[int]) -> Optional[Seconds]:
    """The time to live of a call that may have got it by its old name, of which the caller of that
    call is warned."""
    if milliseconds is None:
        return ttl
    warnings.warn("milliseconds= is now ttl=, in seconds", DeprecationWarning, stacklevel=3)
    if ttl is not None:
        raise TypeError("a time to live is given once, by ttl=")
    # What is out of range stays so; a timedelta has a range of its own.
    return timedelta(milliseconds=max(-1, min(operator.index(milliseconds), LONGEST_LIFE + 1)))


def _deadline_bytes(ttl: Optional[Seconds], key: bytes) -> bytes:
    """A time to live in whole milliseconds, rounded up."""
    if ttl is None:
        return b"-"
    try:
        life = ttl if isinstance(ttl, timedelta) else timedelta(seconds=ttl)
        taken = -(-life // MILLISECOND)
    except (ValueError, OverflowError):
        taken = -1
    if not 0 <= taken <= LONGEST_LIFE:
        _refuse(DeadlineRefused(f"a time to live is 0 to {LONGEST_LIFE / 1000} seconds"), key)
    return b"%d" % taken


def _number_bytes(number: int, key: bytes) -> bytes:
    taken = operator.index(number)
    if not 0 <= taken <= GREATEST_NUMBER:
        _refuse(NumberRefused(f"a number to add is 0 to {GREATEST_NUMBER}"), key)
    return b"%d" % taken


def _value_bytes(value: Any, codec: Codec[Any, Any], room: int, key: bytes) -> bytes:
    """A value as its codec writes it, if it fits the room that its line has left."""
    try:
        taken = codec.encode(value)
    except UnicodeEncodeError:
        _refuse(ValueRefused("a text with a lone surrogate has no bytes"), key)
    if b"\n" in taken or b"\r" in taken:
        _refuse(ValueRefused("a value has no line end: use the codec BASE64 or JSON"), key)
    if len(taken) > room:
        size = f"a value of {len(taken)} bytes, as its codec writes it, is above {room}"
        cure = "the longest of this key: compress it, or divide it among several keys"
        _refuse(ValueRefused(f"{size}, {cure}"), key)
    return taken


def _refuse(error: BivrangError, key: bytes) -> NoReturn:
    error.key = key
    raise error


# Replies.


class Mismatch(Exception):
    """A line is no reply to the request."""


def _digits(text: bytes) -> int:
    if not (1 <= len(text) <= 20 and text.isdigit()):
        raise Mismatch
    return int(text)


def _read_done(lines: Sequence[bytes]) -> None:
    if lines[0] != b"OK":
        raise Mismatch


def _one_of(replies: Dict[bytes, bool]) -> "Callable[[Sequence[bytes]], bool]":
    def read(lines: Sequence[bytes]) -> bool:
        if lines[0] not in replies:
            raise Mismatch
        return replies[lines[0]]

    return read


_read_stored = _one_of({b"OK": True, b"OFF": False})
_read_presence = _one_of({b"YES": True, b"NO": False})
_read_answer = _one_of({b"YES": True, b"NO": True})


def _read_value(lines: Sequence[bytes]) -> Optional[bytes]:
    if lines[0] == b"NONE":
        return None
    if not lines[0].startswith(b"VAL "):
        raise Mismatch
    return lines[0][4:]


def _read_touched(lines: Sequence[bytes]) -> bool:
    return _read_value(lines) is not None


def _read_sum(lines: Sequence[bytes]) -> Optional[int]:
    if lines[0] == b"OFF":
        return None
    if not lines[0].startswith(b"VAL "):
        raise Mismatch
    return _digits(lines[0][4:])


_KEYS = re.compile(rb"KEYS ([0-9]{1,20})")


def _read_keys(lines: Sequence[bytes]) -> List[bytes]:
    keys = list(lines[1:])
    if not _KEYS.fullmatch(lines[0]) or not all(map(_KEY.fullmatch, keys)):
        raise Mismatch
    return keys


def _read_held(lines: Sequence[bytes]) -> Held:
    words = lines[0].split(b" ")
    if len(words) != 3 or words[0] != b"SYNC":
        raise Mismatch
    return Held(_digits(words[1]), _digits(words[2]))


# Requests.


class _Stored(NamedTuple):
    """A value that a request stores, before its codec writes it."""

    value: Any


class Request(Generic[T]):
    """A request whose words were checked, for `pipeline`. Create one by the methods below, one for
    each line of the protocol. A value is written, and checked, by the codec of the client whose
    `pipeline` gets the request.

    The method of the same name of `Client` says what a request returns and which errors it raises.
    """

    __slots__ = ("key", "is_read", "_words", "_stored", "_read", "_default")

    def __init__(
        self,
        words: Tuple[bytes, ...],
        read: Callable[[Sequence[bytes]], Any],
        key: Optional[bytes] = None,
        is_read: bool = False,
        stored: Optional[_Stored] = None,
        default: Any = None,
    ) -> None:
        self.key: Optional[bytes] = key
        """The key, if the request has one."""
        self.is_read: bool = is_read
        """Whether it changes no value, so that it may be sent again if a connection broke."""
        self._words = words
        self._stored = stored
        self._read = read
        self._default = default

    def __repr__(self) -> str:
        words = b" ".join(self._words).decode("ascii", "backslashreplace")
        stored = f" {self._stored.value!r:.40}" if self._stored else ""
        return f"<Request {words}{stored}>"

    def line(self, codec: Codec[Any, Any]) -> bytes:
        """The bytes that are sent. Raises `ValueRefused`, and what the codec raises."""
        words = b" ".join(self._words)
        if self._stored is None:
            return words + b"\n"
        room = LONGEST_LINE - len(words) - 1
        value = _value_bytes(self._stored.value, codec, room, self.key or b"")
        return b"%b %b\n" % (words, value)

    def lines_after(self, line: bytes) -> int:
        """How many lines follow this line, the first one of the reply."""
        counted = _KEYS.fullmatch(line) if self._read is _read_keys else None
        return int(counted[1]) if counted else 0

    def result(self, lines: Sequence[bytes], codec: Codec[Any, Any]) -> Any:
        """The result of a reply of these lines, or an error in its place. Raises `Mismatch`."""
        if lines[0].startswith(b"ERR "):
            return error_of_reply(lines[0])
        told = self._read(lines)
        if self._read is not _read_value:
            return told
        if told is None:
            return self._default
        try:
            return codec.decode(told)
        except ValueError as error:
            refused = DecodeError(f"the codec cannot read {told[:40]!r}: {error}")
            refused.__cause__ = error
            return refused

    def miss(self, error: BivrangError) -> Any:
        """The result of a miss, if it is a look-up; otherwise the error."""
        if self.is_read and self._read is _read_value:
            return self._default
        return False if self._read in (_read_presence, _read_touched) else error

    @staticmethod
    def set(
        key: Text,
        value: Any,
        milliseconds: Optional[int] = None,
        *,
        ttl: Optional[Seconds] = None,
    ) -> "Request[bool]":
        """`SET key deadline value`"""
        taken = key_bytes(key)
        words = (b"SET", taken, _deadline_bytes(renamed_ttl(ttl, milliseconds), taken))
        return Request(words, _read_stored, taken, stored=_Stored(value))

    @staticmethod
    def get(key: Text, default: Any = None) -> "Request[Any]":
        """`GET key`"""
        taken = key_bytes(key)
        return Request((b"GET", taken), _read_value, taken, is_read=True, default=default)

    @staticmethod
    def has(key: Text) -> "Request[bool]":
        """`HAS key`"""
        taken = key_bytes(key)
        return Request((b"HAS", taken), _read_presence, taken, is_read=True)

    @staticmethod
    def touch(key: Text) -> "Request[bool]":
        """`GET key`, of whose reply only the kind counts"""
        taken = key_bytes(key)
        return Request((b"GET", taken), _read_touched, taken, is_read=True)

    @staticmethod
    def load(key: Text) -> "Request[Any]":
        """`LOAD key`"""
        taken = key_bytes(key)
        return Request((b"LOAD", taken), _read_value, taken)

    @staticmethod
    def delete(key: Text) -> "Request[None]":
        """`DEL key`"""
        taken = key_bytes(key)
        return Request((b"DEL", taken), _read_done, taken)

    @staticmethod
    def incr(
        key: Text, number: int = 1, *, ttl: Optional[Seconds] = None
    ) -> "Request[Optional[int]]":
        """`ADD key deadline number`"""
        taken = key_bytes(key)
        words = (b"ADD", taken, _deadline_bytes(ttl, taken), _number_bytes(number, taken))
        return Request(words, _read_sum, taken)

    @staticmethod
    def add(key: Text, number: int, milliseconds: Optional[int] = None) -> "Request[Optional[int]]":
        """The old name of `incr`."""
        warnings.warn("add is now incr", DeprecationWarning, stacklevel=2)
        return Request.incr(key, number, ttl=renamed_ttl(None, milliseconds))

    @staticmethod
    def clear() -> "Request[None]":
        """`CLEAR`"""
        return Request((b"CLEAR",), _read_done)

    @staticmethod
    def drop_if(prefix: Text) -> "Request[None]":
        """`DROPIF prefix`"""
        return Request((b"DROPIF", key_bytes(prefix)), _read_done)

    @staticmethod
    def keys() -> "Request[List[bytes]]":
        """`KEYS`"""
        return Request((b"KEYS",), _read_keys, is_read=True)

    @staticmethod
    def sync() -> "Request[Held]":
        """`SYNC`"""
        return Request((b"SYNC",), _read_held)

    @staticmethod
    def ping() -> "Request[bool]":
        """`HAS` of some key, whose reply is True if there is one: the protocol has no `PING`."""
        return Request((b"HAS", b"ping"), _read_answer, is_read=True)


QUIT: Request[None] = Request((b"QUIT",), _read_done)


def _read_any(lines: Sequence[bytes]) -> bytes:
    return lines[0]


def any_request(line: bytes) -> "Request[Any]":
    """A request as someone else wrote it, without its line feed, whose result is the first line of
    its reply; of `KEYS` the keys."""
    return Request((line,), _read_keys if line.rstrip(b"\r") == b"KEYS" else _read_any)


# Calls: requests on their way.


class Call(NamedTuple):
    """A request, the line that is sent for it, and the codec of its value."""

    request: Request[Any]
    line: bytes
    codec: Codec[Any, Any]


def _call_of(request: Request[Any], codec: Codec[Any, Any]) -> Call:
    if not isinstance(request, Request):
        raise TypeError(f"a pipeline is of requests, such as Request.get(key), not {request!r:.40}")
    return Call(request, request.line(codec), codec)


def calls_of(requests: Iterable[Request[Any]], codec: Codec[Any, Any]) -> List[Call]:
    """The calls of requests. If one of them cannot be sent, none is."""
    return [_call_of(request, codec) for request in requests]


def only(results: Sequence[Any]) -> Any:
    """The result of the one request that was sent, which is raised if it is an error."""
    (result,) = results
    if isinstance(result, BivrangError):
        raise result
    return result


def raise_first(results: Iterable[Any]) -> None:
    """Raises the first error among the results."""
    for result in results:
        if isinstance(result, BivrangError):
            raise result


def window(calls: Sequence[Call], start: int) -> Sequence[Call]:
    """The calls from there on that may be sent before their replies are read."""
    size = 0
    for end in range(start, len(calls)):
        size += len(calls[end].line)
        if size > WINDOW:
            return calls[start : max(end, start + 1)]
    return calls[start:]


def may_be_sent_again(calls: Sequence[Call]) -> bool:
    """Whether all of them only read."""
    return all(call.request.is_read for call in calls)


# Many keys.


def several(keys: Iterable[T]) -> List[T]:
    """Keys as a list. A text, whose characters would pass for keys, is one key."""
    if isinstance(keys, (str, bytes, bytearray, memoryview)):
        raise TypeError(f"several keys are a list or the like, and {keys!r:.40} is one")
    return list(keys)


def gets_of(keys: Iterable[Text]) -> Iterator[Request[Any]]:
    """A look-up of each key, whose result is `ABSENT` where it is a miss."""
    return (Request.get(key, ABSENT) for key in keys)


def sets_of(values: Mapping[Key, Any], ttl: Optional[Seconds]) -> Iterator[Request[bool]]:
    """A request that stores each key's value."""
    if not isinstance(values, collections.abc.Mapping):
        raise TypeError(f"values by key are a dictionary or the like, not {values!r:.40}")
    return (Request.set(key, value, ttl=ttl) for key, value in values.items())


def found(keys: Iterable[Key], results: Sequence[Any]) -> Dict[Key, Any]:
    """The values of those keys that have one, from the results of `gets_of`."""
    raise_first(results)
    return {key: value for key, value in zip(keys, results) if value is not ABSENT}


def refused(keys: Iterable[Key], results: Sequence[Any]) -> List[Key]:
    """The keys that were not stored, from the results of `sets_of`."""
    raise_first(results)
    return [key for key, is_stored in zip(keys, results) if not is_stored]
