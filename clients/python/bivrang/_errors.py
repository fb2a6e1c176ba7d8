"""What can go wrong."""
from typing import Dict, Optional, Type


def is_path(host: str) -> bool:
    """Whether a host is the path of a Unix socket."""
    return host.startswith("/")


def place_of(host: str, port: Optional[int]) -> str:
    """How a server is called in texts."""
    if is_path(host):
        return host
    return f"[{host}]:{port}" if ":" in host else f"{host}:{port}"


class BivrangError(Exception):
    """The base class of all exceptions of this package. Their texts name the server and the key,
    where they are known."""

    host: Optional[str] = None
    """The host of the server, or the path of its Unix socket."""
    port: Optional[int] = None
    """The port of the namespace."""
    key: Optional[bytes] = None
    """The key of the request; in a pipeline, of the first request without a reply."""

    def __str__(self) -> str:
        places = []
        if self.key is not None:
            places.append(f"key {self.key.decode('ascii', 'backslashreplace')}")
        if self.host is not None:
            places.append(f"server {place_of(self.host, self.port)}")
        text = super().__str__()
        return f"{text} ({', '.join(places)})" if places else text

    def _place(self, host: str, port: int, key: Optional[bytes]) -> None:
        """Says where it happened, as far as that is not known yet."""
        if self.host is None:
            self.host, self.port = host, port
        if self.key is None:
            self.key = key


class ArgumentError(BivrangError, ValueError):
    """An argument was refused before anything was sent."""


class KeyRefused(ArgumentError):
    """A key or prefix is not 1 to 250 bytes, each from `!` to `~`."""


class ValueRefused(ArgumentError):
    """A value, as its codec writes it, has a line end (byte 10 or 13), or makes its line longer
    than 8192 bytes."""


class DeadlineRefused(ArgumentError):
    """A time to live is not 0 to 999,999,999.999 seconds."""


class NumberRefused(ArgumentError):
    """A number to add is not 0 to 2**64 - 1."""


class LinkError(BivrangError):
    """There was no complete reply."""

    may_have_run: bool = False
    """Whether the request, or with a pipeline some of its requests, may have run all the same."""


class ConnectFailed(LinkError):
    """The connection could not be made. Nothing was sent."""


class ConnectTimeout(ConnectFailed):
    """The connection could not be made within `connect_seconds`. Nothing was sent."""


class PoolTimeout(LinkError):
    """All connections of the pool were in use during `wait_seconds`. Nothing was sent."""


class PoolClosed(LinkError):
    """The pool was closed. Nothing was sent."""


class ConnectionSpent(LinkError):
    """The connection was already closed, by `close`, `quit` or an earlier `LinkError`, or it
    belongs to the parent process. Nothing was sent."""


class ServerAway(LinkError):
    """One of several servers did not answer less than `retry_after` seconds ago. Nothing was
    sent."""


class ConnectionBroken(LinkError):
    """The connection was closed or reset before the reply was complete."""

    may_have_run = True
    has_reply_begun: bool = False
    """Whether a byte of a reply came."""


class ReplyTimeout(LinkError):
    """A line of the reply was not complete within `reply_seconds`."""

    may_have_run = True


class BadReply(LinkError):
    """The bytes received are not a reply to the request."""

    may_have_run = True


class DecodeError(BivrangError):
    """The codec cannot read the value that the server holds. The connection stays open."""


class ServerError(BivrangError):
    """The server replied `ERR ..`. An `ERR` reply with a word that this package does not know is
    of this type itself."""

    reply: bytes = b""
    """The reply."""


class CommandError(ServerError):
    """`ERR command`: the server does not know the command."""


class LineError(ServerError):
    """`ERR syntax`: too few or too many words, or a byte that is not allowed."""


class DeadlineError(ServerError):
    """`ERR deadline`: the namespace does not have `deadlines = true`."""


class NumberError(ServerError):
    """`ERR number`: the key's value is not a number, or the sum is above 2**64 - 1. The value is
    unchanged."""


class IdentifiersError(ServerError):
    """`ERR id`: no identifier was free for the prefix. It hides nothing."""


class LoadFailed(ServerError):
    """`ERR load text`: the server could not find the value elsewhere."""

    @property
    def cause(self) -> bytes:
        """What the server says of it."""
        return self.reply[len(b"ERR load ") :]


class LoadAbandoned(ServerError):
    """`ERR abandoned`: loading the value was given up each time it was tried."""


_OF_REPLIES: Dict[bytes, Type[ServerError]] = {
    b"ERR command": CommandError,
    b"ERR syntax": LineError,
    b"ERR deadline": DeadlineError,
    b"ERR number": NumberError,
    b"ERR id": IdentifiersError,
    b"ERR abandoned": LoadAbandoned,
}


def error_of_reply(line: bytes) -> ServerError:
    """What a line that begins with `ERR ` says."""
    kind: Type[ServerError] = _OF_REPLIES.get(line, ServerError)
    if line.startswith(b"ERR load "):
        kind = LoadFailed
    cure = ": the namespace needs `deadlines = true`" if kind is DeadlineError else ""
    error = kind(line.decode("ascii", "backslashreplace") + cure)
    error.reply = line
    return error
