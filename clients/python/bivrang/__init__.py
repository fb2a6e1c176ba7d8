"""A client of `bivrangd` and `cached`, cache servers with a line protocol (docs/PROTOCOL.md).

It needs only Python's standard library, for Python 3.8 or later.

    import bivrang

    with bivrang.Client(port=7411) as cache:
        cache.set("a", "two words")
        cache.get("a")                                   # b"two words"
        cache.incr("n", 40)                              # 40
        both = [bivrang.Request.set("b", "1"), bivrang.Request.get("b")]
        cache.pipeline(both)                             # [True, b"1"]

`Client` is a pool of connections to one server, for many threads. `Connection` is one connection,
for one thread at a time. `Servers` spreads keys over several servers. All three have a method for
each line of the protocol. `bivrang.aio` has a `Client` and `Servers` for asyncio. A client can be
made from a URL (`Client.from_url`), pickled and copied; `cache["a"]` is its value, or a KeyError.

`python3 -m bivrang` is the command `bivrang`, by which people ask a server.

Keys are text or bytes of the characters `!` to `~`. Values are bytes, or text, which is sent as
UTF-8; they are returned as bytes. With `codec=bivrang.JSON` they are values of JSON, with
`codec=bivrang.BASE64` any bytes. Times are seconds, which may be fractions; a time to live may be a
`timedelta` too.

Each exception of this package is a `BivrangError`, and names server and key. There are four kinds:

    ArgumentError    an argument that the protocol does not allow; nothing was sent
    LinkError        no complete reply; if `may_have_run`, the request may or may not have run
    ServerError      the server replied `ERR ..`; the connection stays open
    DecodeError      the codec cannot read the value; the connection stays open
"""
from ._blocking import Client, Commands, Connection, KeyedCommands, Servers
from ._codecs import BASE64, JSON, RAW, Codec, Text
from ._errors import (
    ArgumentError,
    BadReply,
    BivrangError,
    CommandError,
    ConnectFailed,
    ConnectionBroken,
    ConnectionSpent,
    ConnectTimeout,
    DeadlineError,
    DeadlineRefused,
    DecodeError,
    IdentifiersError,
    KeyRefused,
    LineError,
    LinkError,
    LoadAbandoned,
    LoadFailed,
    NumberError,
    NumberRefused,
    PoolClosed,
    PoolTimeout,
    ReplyTimeout,
    ServerAway,
    ServerError,
    ValueRefused,
)
from ._protocol import (
    GREATEST_NUMBER,
    LONGEST_KEY,
    LONGEST_LIFE,
    LONGEST_LINE,
    Held,
    Request,
    Seconds,
)
from ._spread import Server, hash_bytes, mix

__version__ = "0.2.0"

__all__ = [
    "ArgumentError",
    "BASE64",
    "BadReply",
    "BivrangError",
    "Client",
    "Codec",
    "CommandError",
    "Commands",
    "ConnectFailed",
    "ConnectTimeout",
    "Connection",
    "ConnectionBroken",
    "ConnectionSpent",
    "DeadlineError",
    "DeadlineRefused",
    "DecodeError",
    "GREATEST_NUMBER",
    "Held",
    "IdentifiersError",
    "JSON",
    "KeyRefused",
    "KeyedCommands",
    "LONGEST_KEY",
    "LONGEST_LIFE",
    "LONGEST_LINE",
    "LineError",
    "LinkError",
    "LoadAbandoned",
    "LoadFailed",
    "NumberError",
    "NumberRefused",
    "PoolClosed",
    "PoolTimeout",
    "RAW",
    "ReplyTimeout",
    "Request",
    "Seconds",
    "Server",
    "ServerAway",
    "ServerError",
    "Servers",
    "Text",
    "ValueRefused",
    "hash_bytes",
    "mix",
]
