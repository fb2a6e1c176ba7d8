"""What a type checker is to conclude of the client's types. It is checked, and not run."""
import datetime
from typing import Any, Dict, List, Optional, Union

import bivrang
from bivrang import Request, Server, aio


class Numbers:
    """A codec of whole numbers."""

    def encode(self, value: int) -> bytes:
        return b"%d" % value

    def decode(self, stored: bytes) -> int:
        return int(stored)


def raw() -> None:
    cache = bivrang.Client(port=7411)
    named: bivrang.Client[bivrang.Text, bytes] = cache
    stored: bool = named.set("a", "text", ttl=datetime.timedelta(minutes=1))
    stored = cache.set(b"a", b"bytes", ttl=0.5) and "a" in cache
    value: Optional[bytes] = cache.get("a")
    either: Union[bytes, int] = cache.get("a", 0)
    many: Dict[str, bytes] = cache.get_many(["a", "b"])
    left: List[bytes] = cache.set_many({b"a": "1"})
    total: Optional[int] = cache.incr("n")
    item: bytes = cache["a"]
    cache["a"] = "text"
    cache["a"] = 5  # type: ignore[assignment]
    del cache["a"]
    used: bool = cache.touch("a")
    cache.delete_many(["a", b"b"])
    print(stored, value, either, many, left, total, item, used)


def located() -> None:
    plain: bivrang.Client[bivrang.Text, bytes] = bivrang.Client.from_url("bivrang://h:7411")
    numbers: Optional[int] = bivrang.Client.from_url("bivrang:///s", codec=Numbers()).get("a")
    print(plain, numbers)


def coded() -> None:
    numbers = bivrang.Client(codec=Numbers())
    numbers.set("a", 5)
    numbers.set("a", "5")  # type: ignore[arg-type]
    told: Optional[int] = numbers.get("a")
    anything: Any = bivrang.Client(codec=bivrang.JSON).get("a")
    text: Optional[bytes] = bivrang.Client(codec=bivrang.BASE64).get("a")
    print(told, anything, text)


def spread() -> None:
    servers = bivrang.Servers([Server("127.0.0.1", 7411)], retry_after=2, errors_as_misses=True)
    value: Optional[bytes] = servers.get("a")
    held: Dict[str, bivrang.Held] = servers.sync()
    each: Dict[str, Union[List[bytes], bivrang.BivrangError]] = servers.each(Request.keys())
    number: Optional[int] = bivrang.Servers([Server("h", 1)], codec=Numbers()).get("a")
    print(value, held, each, number)


async def awaited() -> None:
    async with aio.Client(port=7411) as cache:
        value: Optional[bytes] = await cache.get("a")
        value = await cache["a"] if await cache.touch("a") else None
        either: Union[bytes, str] = await cache.get("a", "")
    async with aio.Servers([Server("h", 1)], codec=Numbers()) as servers:
        many: Dict[str, int] = await servers.get_many(["a"])
    print(value, either, many)
