#!/usr/bin/env python3
"""Counts the calls that one request over a socket makes in the compiled server, by valgrind's callgrind.

    python3 benches/calls.py [LINE]     without a line, GET a

A connection to `cached --config` sends the line, and waits for its reply, 200 times and then 1,200 times; what is called more often the
second time, divided by 1,000, is printed, callers first. What the compiler inlines is no call. The counts do not depend on what else
runs. Build the program first: `rt run` in crates/cached leaves it at out/cached (CACHED names another).
"""
import collections
import os
import pathlib
import socket
import subprocess
import sys
import tempfile

import figures

HERE = pathlib.Path(__file__).resolve().parent
CACHED = os.environ.get("CACHED", HERE.parent / "crates/cached/out/cached")
FEW, MANY = 200, 1_200


def free_port():
    with socket.socket() as it:
        it.bind(("127.0.0.1", 0))
        return it.getsockname()[1]


def ask(port, line, times):
    """Sends the line and waits for its reply, so many times."""
    with socket.create_connection(("127.0.0.1", port)) as link, link.makefile("rb") as replies:
        for text in [b"SET a - 1", *[line] * times, b"QUIT"]:
            link.sendall(text + b"\n")
            replies.readline()


def calls(line, times):
    """How often each function called each other one, while so many requests were answered."""
    with tempfile.TemporaryDirectory() as folder:
        port, config = free_port(), pathlib.Path(folder, "cached.toml")
        config.write_text(f'[[namespace]]\nname = "main"\nport = {port}\ncapacity = 1000\n', encoding="ascii")
        words = ["valgrind", "--tool=callgrind", f"--callgrind-out-file={folder}/profile", "--compress-strings=no", "--compress-pos=no"]
        with subprocess.Popen([*words, CACHED, "--config", config], stdout=subprocess.PIPE, stderr=subprocess.DEVNULL) as server:
            server.stdout.readline()
            ask(port, line, times)
            server.terminate()
        found, caller, callee = collections.Counter(), "", ""
        for text in pathlib.Path(folder, "profile").read_text(encoding="utf-8", errors="replace").split("\n"):
            word, _, rest = text.partition("=")
            if word == "fn":
                caller = rest
            elif word == "cfn":
                callee = rest
            elif word == "calls":
                found[caller, callee] += int(rest.split()[0])
        return found


def main():
    line = " ".join(sys.argv[1:]).encode() or b"GET a"
    before, after = calls(line, FEW), calls(line, MANY)
    counts = {both: (after[both] - before[both]) / (MANY - FEW) for both in after}
    counts = {both: count for both, count in counts.items() if count > 0.5}
    for (caller, callee), count in sorted(counts.items()):
        print(f"{count:6.2f}  {caller.split('<#')[0]} -> {callee.split('<#')[0]}")
    own = sum(count for (_, callee), count in counts.items() if "::" in callee and not callee.startswith(("std", "core")))
    figures.keep("calls_made", {line.decode(): {"all": round(sum(counts.values())), "own": round(own)}})
    print(f"{sum(counts.values()):.0f} calls a request, {own:.0f} of them to functions of this repository or the kit's crates")


if __name__ == "__main__":
    main()
