"""Sends the same random requests to memcached and to the memcache service, and compares the replies.

    python3 tools/memcache_beside.py [--requests N] [--seed S] -- COMMAND ..

COMMAND starts the service, as in memcache_clients.py. Requests are those to which both have to reply the same. So numbers are
counted up only from what has as many digits, since memcached keeps the length of a number that gets shorter, and are below 2^63, since
above that memcached looks for a minus sign in the memory behind the item; a `ma` has no `T`, since memcached may give it to an item that
it replaces; and what is appended to is not leased. Uniques are compared
too: both give them one by one, but memcached also to a `flush_all`, which is left out. At the end both have to have counted the same. What else differs is a table in
crates/memcache_model/README.md. It needs `memcached` on the path, uses loopback only, and ends by itself, with status 1 at the first
difference.
"""

import argparse
import math
import random
import re
import socket
import sys
import time

from memcache_clients import service, started

MEMCACHED_PORT = 21311
SERVICE_PORT = 21312
KEYS = [b"a", b"b", b"c", b"key", b"k" * 250, b"\xff\x01", b"x-1"]
# Keys that nobody leases or makes stale: memcached forgets both when it appends.
JOINED = [b"j", b"joined"]
# Expiries in each form: of more than 32 bits the last 32 count, of which the first is a sign.
EXPIRIES = [b"0", b"0", b"0", b"1000", b"-1", b"+1500", b"2592000", b"2147483647", b"2147483648", b"4294967295", b"4294967296", b"-4294966296", b"9223372036854775807"]
# Those that have passed: what is left of them memcached tells modulo 2^32.
PASSED = [b"-1", b"2147483648", b"4294967295", b"9223372036854775807"]
# Flags that the command at hand has no use for.
UNUSED = {b"mg": [b"F3", b"D3", b"J4", b"C5", b"MX", b"I", b"P1", b"L"], b"ms": [b"s", b"t", b"f", b"v", b"N1000", b"R7", b"D3", b"J4"], b"md": [b"s", b"v", b"N1000", b"R7", b"F3", b"MX"], b"ma": [b"s", b"f", b"R7", b"F3", b"I"]}

# Statistics that both count alike. Of a look-up that makes an item memcached says that it found one.
COUNTS = ["cmd_get", "cmd_set", "cmd_touch", "delete_hits", "delete_misses", "incr_hits", "incr_misses", "decr_hits", "decr_misses", "cas_hits", "cas_misses", "cas_badval", "touch_hits", "touch_misses"]


def counted(client):
    """What was counted, by name."""
    lines = [line.split() for line in client.ask(b"stats\r\n").decode().splitlines() if line.startswith("STAT ")]
    figures = {name: figure for _, name, figure in lines}
    return {name: int(figures[name]) for name in COUNTS}


def spiced(draw, verb, flags):
    """The flags with some that the command has no use for, or now and then with one that no command has."""
    if draw.random() < 0.03:
        return flags + [draw.choice([b"Z", b"!"])] if verb == b"mg" else flags
    return flags + draw.sample(UNUSED[verb], draw.choice([0, 0, 0, 1, 2]))


class Client:
    def __init__(self, port):
        self.socket = socket.create_connection(("127.0.0.1", port))
        self.bytes = b""

    def ask(self, requests):
        """The replies up to that of a last `mn`, which nothing else replies."""
        self.socket.sendall(requests + b"mn\r\n")
        while not self.bytes.endswith(b"MN\r\n"):
            piece = self.socket.recv(1 << 16)
            if not piece:
                return self.bytes + b"<closed>"
            self.bytes += piece
        told, self.bytes = self.bytes, b""
        return told


LEFT = re.compile(rb" t(\d+)")


def are_same(said, told, seconds):
    """Whether the replies are the same, but that the seconds that are left may differ by one, since memcached's clock has whole seconds, and
    by those that both took to reply."""
    if said == told:
        return True
    most, theirs, ours = 1 + math.ceil(seconds), LEFT.findall(said), LEFT.findall(told)
    return LEFT.sub(b" t", said) == LEFT.sub(b" t", told) and all(abs(int(a) - int(b)) <= most for a, b in zip(theirs, ours, strict=True))


def block(draw):
    kind = draw.random()
    if kind < 0.3:
        return str(draw.choice([0, 7, 10, 99, 2**63, 2**64 - 1])).encode()
    return bytes(draw.randrange(256) for _ in range(draw.choice([0, 1, 2, 3, 10, 100, 1000])))


def timed_first(flags):
    """The flags with `T` or `N` before all others, and not both: memcached reads them in their order."""
    if any(flag.startswith(b"N") for flag in flags):
        flags = [flag for flag in flags if not flag.startswith(b"T")]
    return sorted(flags, key=lambda flag: not flag.startswith((b"T", b"N")))


def request(draw):
    key = draw.choice(KEYS)
    quiet = draw.choice([b"", b"", b"", b" noreply"])
    exptime = draw.choice(EXPIRIES)
    flags = str(draw.choice([0, 1, 65535, 2**32 - 1])).encode()
    verb = draw.randrange(20)
    if verb < 4:
        keys = b" ".join(draw.choice(KEYS + JOINED) for _ in range(draw.randrange(1, 4)))
        return draw.choice([b"get ", b"gets "]) + keys + b"\r\n"
    if verb < 8:
        body = block(draw)
        word = draw.choice([b"set", b"set", b"add", b"replace", b"append", b"prepend"])
        if word in (b"append", b"prepend") or draw.random() < 0.2:
            key = draw.choice(JOINED)
        return b"%s %s %s %s %d%s\r\n%s\r\n" % (word, key, flags, exptime, len(body), quiet, body)
    if verb == 8:
        body = block(draw)
        unique = draw.randrange(1, 400)
        return b"cas %s %s %s %d %d%s\r\n%s\r\n" % (key, flags, exptime, len(body), unique, quiet, body)
    if verb == 9:
        return b"delete " + key + draw.choice([b"", b" 0", b" noreply", b" 5"]) + b"\r\n"
    if verb == 10:
        number = str(draw.choice([0, 10, 999, 2**63 - 1])).encode()
        return b"set n 0 0 %d\r\n%s\r\nincr n %d%s\r\n" % (len(number), number, draw.choice([0, 0, 1, 5]) if number != b"999" and len(number) < 20 else 0, quiet)
    if verb == 11:
        return b"touch " + key + b" " + exptime + quiet + b"\r\n"
    if verb == 12:
        return draw.choice([b"gat ", b"gats "]) + exptime + b" " + b" ".join(draw.sample(KEYS, 2)) + b"\r\n"
    if verb == 13:
        return draw.choice([b"version\r\n", b"verbosity 1\r\n", b"foo\r\n", b"\r\n", b"get\r\n", b"set a 0 0\r\n", b"incr a x\r\n", b"touch a x\r\n"])
    if verb < 17:
        flags = draw.sample([b"v", b"k", b"q", b"s", b"t", b"c", b"f", b"O12", b"N1000", draw.choice([b"R2000", b"R-1", b"R0"]), b"T" + exptime], draw.randrange(6))
        if b"T" + exptime in flags and exptime in PASSED:
            flags = [flag for flag in flags if flag != b"t"]
        return b" ".join([b"mg", key] + spiced(draw, b"mg", timed_first(flags))) + b"\r\n"
    if verb == 17:
        body = block(draw)
        mode = draw.choice([b"MS", b"MS", b"ME", b"MA", b"MP", b"MR", b"Ms", b"MSS", b"M"])
        flags = draw.sample([b"k", b"q", b"O12", b"T" + exptime, b"F7", b"C%d" % draw.choice([0, 1, draw.randrange(1, 300)]), b"I", mode], draw.randrange(6))
        if b"MA" in flags or b"MP" in flags:
            key = draw.choice(JOINED)
        return b" ".join([b"ms", key, b"%d" % len(body)] + spiced(draw, b"ms", flags)) + b"\r\n" + body + b"\r\n"
    if verb == 18:
        flags = draw.sample([b"k", b"q", b"O12", b"T" + exptime, b"C%d" % draw.randrange(300), b"I"], draw.randrange(4))
        return b" ".join([b"md", key] + spiced(draw, b"md", flags)) + b"\r\n"
    mode = draw.choice([b"MI", b"M+", b"MD", b"M-", b"MX", b"Md"])
    flags = draw.sample([b"v", b"k", b"q", b"t", b"c", b"O12", b"N1000", b"J100", b"D7", b"C%d" % draw.choice([0, 5]), mode], draw.randrange(6))
    return b" ".join([b"ma", b"u"] + spiced(draw, b"ma", timed_first(flags))) + b"\r\n"


def main():
    parser = argparse.ArgumentParser(description=__doc__, formatter_class=argparse.RawDescriptionHelpFormatter)
    parser.add_argument("--requests", type=int, default=10000)
    parser.add_argument("--seed", type=int, default=1)
    parser.add_argument("command", nargs="+")
    wanted = parser.parse_args()
    draw = random.Random(wanted.seed)
    memcached = ["memcached", "-t", "1", "-u", "nobody", "-l", "127.0.0.1", "-p", str(MEMCACHED_PORT)]
    with started(memcached, MEMCACHED_PORT), service(wanted.command, SERVICE_PORT):
        theirs, ours = Client(MEMCACHED_PORT), Client(SERVICE_PORT)
        done = 0
        while done < wanted.requests:
            several = [request(draw) for _ in range(draw.randrange(1, 8))]
            start = time.monotonic()
            said, told = theirs.ask(b"".join(several)), ours.ask(b"".join(several))
            if not are_same(said, told, time.monotonic() - start):
                print(f"behind {done} requests:", several, "memcached:", said, "service:", told, sep="\n")
                return 1
            done += len(several)
        said, told = counted(theirs), counted(ours)
        if said != told:
            print(f"behind {done} requests, by name what memcached and the service counted:", {name: (said[name], told[name]) for name in COUNTS if said[name] != told[name]}, sep="\n")
            return 1
        print(f"{done} requests, each reply and each count the same")
    return 0


if __name__ == "__main__":
    sys.exit(main())
