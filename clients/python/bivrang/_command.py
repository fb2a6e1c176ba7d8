"""Asks a server, from the command line.

    bivrang [--server ADDRESS] [--seconds N] COMMAND

    get KEY                      prints the key's value
    set KEY [VALUE] [--ttl N]    stores a value, which lives N seconds at most; without VALUE that
                                 of standard input, less one line end behind it
    del KEY ..                   deletes the keys' values
    has KEY                      prints whether the key has a value: YES or NO
    touch KEY                    the same, and a use of it
    incr KEY [NUMBER] [--ttl N]  adds a number, by default 1, and prints the sum
    load KEY                     prints the key's value, which the server loads if it has none
    keys [PREFIX]                prints the keys that have a value, and begin so
    clear                        hides all values
    drop PREFIX                  hides all values whose keys begin so
    sync                         runs maintenance; prints how many values are held, and their weight
    check                        prints whether the server answers
    send [FILE]                  sends each line of a file, or of standard input, as a request
    notices [FILE]               prints the notices of a server's output
    watch                        shows what servers hold, and what leaves them

    ADDRESS is HOST:PORT, [IPV6]:PORT, the path of a Unix socket, or a URL as
    bivrang://HOST:PORT?reply_seconds=60; by default the environment's BIVRANG_SERVER, or
    127.0.0.1:7411. --seconds is the time limit of each reply, 5 by default.

    Values are printed as they are; on a terminal what is not printable is escaped.

`bivrang send --help`, `bivrang notices --help` and `bivrang watch --help` say more of these.

The status is 0; 1 if there is no value (of get, has, touch and load), nothing was stored (of set
and incr), or a line was refused (of send); and 2 after any other error.
"""
import argparse
import os
import sys
from typing import (
    IO,
    Any,
    Callable,
    Dict,
    Iterable,
    Iterator,
    List,
    Optional,
    Sequence,
    Tuple,
)

from . import _notices, _watch
from ._blocking import Client
from ._errors import BivrangError, ServerError, place_of
from ._output import printable, write_lines
from ._protocol import LONGEST_LINE, Request, any_request
from ._urls import arguments_of_place

Cache = Client[Any, bytes]
Words = argparse.Namespace

SENT_AT_ONCE = 500
"""So many lines of a file are one pipeline."""


def _print_value(value: Optional[bytes]) -> bool:
    """Prints a value, if there is one. Whether there is."""
    if value is not None:
        write_lines(value)
    return value is not None


def _get(cache: Cache, words: Words) -> bool:
    return _print_value(cache.get(words.key))


def _load(cache: Cache, words: Words) -> bool:
    return _print_value(cache.load(words.key))


def _set(cache: Cache, words: Words) -> bool:
    value = words.value
    if value is None:
        value = sys.stdin.buffer.read()
        value = value[:-1] if value.endswith(b"\n") else value
    return cache.set(words.key, value, ttl=words.ttl)


def _del(cache: Cache, words: Words) -> bool:
    cache.delete_many(words.key)
    return True


def _has(cache: Cache, words: Words) -> bool:
    told = cache.has(words.key)
    write_lines(b"YES" if told else b"NO")
    return told


def _touch(cache: Cache, words: Words) -> bool:
    told = cache.touch(words.key)
    write_lines(b"YES" if told else b"NO")
    return told


def _incr(cache: Cache, words: Words) -> bool:
    told = cache.incr(words.key, words.number, ttl=words.ttl)
    return _print_value(None if told is None else b"%d" % told)


def _keys(cache: Cache, words: Words) -> bool:
    write_lines(*(key for key in cache.keys() if key.startswith(words.prefix)))
    return True


def _clear(cache: Cache, words: Words) -> bool:
    cache.clear()
    return True


def _drop(cache: Cache, words: Words) -> bool:
    cache.drop_if(words.prefix)
    return True


def _sync(cache: Cache, words: Words) -> bool:
    held = cache.sync()
    print(held.values, held.weight)
    return True


def _check(cache: Cache, words: Words) -> bool:
    cache.ping()
    print(f"{place_of(cache.host, cache.port)}: ok")
    return True


# Lines of a file.

Numbered = Tuple[int, bytes]
"""A line, without its line feed, and its number, counted from 1."""


def _in_parts(lines: Iterable[Numbered]) -> Iterator[List[Numbered]]:
    part: List[Numbered] = []
    for line in lines:
        part.append(line)
        if len(part) == SENT_AT_ONCE:
            yield part
            part = []
    if part:
        yield part


def _refusal(line: bytes) -> Optional[str]:
    """Why a line is not sent: it would end the connection."""
    if len(line) > LONGEST_LINE:
        return f"longer than {LONGEST_LINE} bytes"
    return "QUIT is not sent" if line in (b"QUIT", b"QUIT\r") else None


class Sending:
    """Lines on their way, how many were sent, and how many were refused, each of which is told."""

    def __init__(self, cache: Cache, name: str) -> None:
        self.cache, self.name = cache, name
        self.sent = self.refused = 0

    def refuse(self, number: int, why: str) -> None:
        self.refused += 1
        print(f"{self.name}:{number}: {printable(why)}", file=sys.stderr)

    def send(self, part: Sequence[Numbered]) -> None:
        """Sends lines as one pipeline."""
        whole = [(number, line) for number, line in part if _refusal(line) is None]
        for number, line in part:
            why = _refusal(line)
            if why is not None:
                self.refuse(number, why)
        replies = self.cache.pipeline(any_request(line) for _, line in whole)
        self.sent += len(replies)
        for (number, _), reply in zip(whole, replies):
            if isinstance(reply, ServerError):
                self.refuse(number, reply.reply.decode("ascii", "backslashreplace"))
            elif reply == b"OFF":
                self.refuse(number, "OFF: the capacity is 0")


def _send(cache: Cache, words: Words) -> bool:
    with _opened(words.file) as file:
        sending = Sending(cache, words.file)
        numbered = enumerate((line[:-1] if line.endswith(b"\n") else line for line in file), 1)
        for part in _in_parts(numbered):
            sending.send(part)
    print(f"{sending.sent} lines sent, {sending.refused} refused")
    return not sending.refused


def _opened(name: str) -> IO[bytes]:
    return open(name, "rb") if name != "-" else open(0, "rb", closefd=False)


# Words.

SEND = """Sends each line of a file, or of standard input, as a request (`SET key - value`).

Each request that is refused is told on standard error with its line, as FILE:LINE: ERR ...; the
others are sent all the same. Prints how many were sent. A line that would end the connection is not
sent: QUIT, or one of more than 8192 bytes. If the connection breaks, some of 500 lines may have run
or not, and nothing more is sent."""


def _parser() -> argparse.ArgumentParser:
    parser = argparse.ArgumentParser(
        prog="bivrang",
        usage="bivrang [--server ADDRESS] [--seconds N] COMMAND ..",
        description=__doc__,
        formatter_class=argparse.RawDescriptionHelpFormatter,
        add_help=False,
    )
    parser.add_argument("--help", "-h", action="help", help=argparse.SUPPRESS)
    parser.add_argument("--server", help=argparse.SUPPRESS)
    parser.add_argument("--seconds", type=_watch.above_zero, help=argparse.SUPPRESS)
    commands = parser.add_subparsers(
        prog="bivrang", metavar="COMMAND", dest="command", required=True
    )
    commands.help = argparse.SUPPRESS

    def add(name: str, run: Callable[[Cache, Words], bool], text: str = "") -> Any:
        form = argparse.RawDescriptionHelpFormatter
        command = commands.add_parser(name, description=text, formatter_class=form)
        command.set_defaults(run=run)
        return command

    for name, run in {"get": _get, "has": _has, "touch": _touch, "load": _load}.items():
        add(name, run).add_argument("key", type=os.fsencode, metavar="KEY")
    for name, run in {"clear": _clear, "sync": _sync, "check": _check}.items():
        add(name, run)
    add("del", _del).add_argument("key", type=os.fsencode, metavar="KEY", nargs="+")
    add("drop", _drop).add_argument("prefix", type=os.fsencode, metavar="PREFIX")
    keys = add("keys", _keys)
    keys.add_argument("prefix", type=os.fsencode, metavar="PREFIX", nargs="?", default=b"")
    store = add("set", _set)
    store.add_argument("key", type=os.fsencode, metavar="KEY")
    store.add_argument("value", type=os.fsencode, metavar="VALUE", nargs="?")
    incr = add("incr", _incr)
    incr.add_argument("key", type=os.fsencode, metavar="KEY")
    incr.add_argument("number", type=int, metavar="NUMBER", nargs="?", default=1)
    for command in (store, incr):
        command.add_argument("--ttl", type=float, metavar="N")
    add("send", _send, SEND).add_argument("file", metavar="FILE", nargs="?", default="-")
    return parser


ELSEWHERE: Dict[str, Callable[[Optional[Sequence[str]]], None]] = {
    "watch": _watch.main,
    "notices": _notices.main,
}
"""Commands with words of their own, which ask no one server."""


def _client(words: Words) -> Cache:
    """The server that the words name. Raises ValueError."""
    place = words.server or os.environ.get("BIVRANG_SERVER", "127.0.0.1:7411")
    arguments: Dict[str, Any] = {"connections": 1, **arguments_of_place(place)}
    if words.seconds is not None:
        arguments["reply_seconds"] = words.seconds
    return Client(**arguments)


def _run(words: Words) -> int:
    with _client(words) as cache:
        done: bool = words.run(cache, words)
    return 0 if done else 1


def main(words: Optional[Sequence[str]] = None) -> None:
    """Does what the words say, by default those of the command. Ends the program."""
    taken = list(sys.argv[1:] if words is None else words)
    if taken and taken[0] in ELSEWHERE:
        ELSEWHERE[taken[0]](taken[1:])
        return
    try:
        status = _run(_parser().parse_args(taken))
    except BrokenPipeError:
        # Nobody reads the values any more, and Python must not flush again at exit.
        os._exit(2)
    except KeyboardInterrupt:
        status = 130
    except (BivrangError, OSError, ValueError) as error:
        print(f"bivrang: {printable(str(error))}", file=sys.stderr)
        status = 2
    sys.exit(status)
