#!/usr/bin/env python3
"""Times the proved server with keys that were crafted against a hasher without a secret, compared with random ones.

Build the program first: in crates/cached, `rt run` leaves it at out/cached; `cc` has to be on the path. `crafted_keys.c` makes 10,000
keys whose hashes by std's hasher have the same home in the cache's table, and as many against the hasher of `cached --script`, whose
secret comes from the seed 0, so that it can be computed. Each run stores 10,000 values and looks each up ROUNDS times; each reply is compared.

The figures are the processor time per request, medians of SERVER_RUNS runs of the server and SCRIPT_RUNS of the script, in turn:
  server, drawn      `cached --config`, whose secret comes from the machine's random source, with random keys
  server, crafted    the same with keys crafted against std's hasher
  server, script's   the same with keys crafted against the script's secret
  script, drawn      `cached --script` with random keys
  script, crafted    the same with keys crafted against its secret: the cost that the others are spared
The status is 1 if crafted keys cost the server more than 1.3 times as much as random ones, or cost the script less than five times as
much: then they are not what they are meant to be.
"""
import os
import pathlib
import random
import socket
import statistics
import subprocess
import sys
import tempfile

import connections
import figures
import progress

HERE = pathlib.Path(__file__).resolve().parent
KEYS = 10_000
ROUNDS = 20
SERVER_RUNS, SCRIPT_RUNS = 9, 3
BATCH = 100
VALUE = b"v" * 32


def crafted(folder, against):
    """The keys that are crafted against a hasher."""
    program = pathlib.Path(folder, "crafted_keys")
    if not program.exists():
        subprocess.run(["cc", "-O2", "-o", program, HERE / "crafted_keys.c"], check=True)
    keys = subprocess.run([program, against], capture_output=True, check=True).stdout.split()
    assert len(set(keys)) == KEYS and all(len(key) == 16 for key in keys)
    return keys


def drawn():
    """As many that are drawn, of the same letters."""
    draw = random.Random(1)
    keys = set()
    while len(keys) < KEYS:
        keys.add(bytes(draw.choices(b"abcdefghijklmnop", k=16)))
    return sorted(keys)


def requests(keys):
    """All requests, in batches with what is replied to each."""
    draw = random.Random(2)
    lines = [(b"SET " + key + b" - " + VALUE + b"\n", b"OK\n") for key in keys]
    for _ in range(ROUNDS):
        looked_up = list(keys)
        draw.shuffle(looked_up)
        lines += [(b"GET " + key + b"\n", b"VAL " + VALUE + b"\n") for key in looked_up]
    return [tuple(map(b"".join, zip(*lines[first : first + BATCH]))) for first in range(0, len(lines), BATCH)]


def by_server(batches):
    """The server's processor seconds."""
    server = connections.Server(10 * KEYS)
    try:
        with socket.create_connection((connections.HOST, server.port), timeout=connections.ANSWER_SECONDS) as client:
            used = server.processor_seconds()
            for sent, wanted in batches:
                client.sendall(sent)
                got = b""
                while len(got) < len(wanted):
                    piece = client.recv(65536)
                    if not piece:
                        sys.exit("the server closed the connection")
                    got += piece
                if got != wanted:
                    sys.exit("a wrong reply")
            return server.processor_seconds() - used
    finally:
        server.stop()


def by_script(batches):
    """The script's processor seconds."""
    with tempfile.TemporaryFile() as source:
        source.write(b"".join(sent for sent, _ in batches))
        source.seek(0)
        before = os.times()
        written = subprocess.run([connections.Server.row.path, "--script"], stdin=source, capture_output=True, check=True).stdout
        after = os.times()
    if written != b"".join(wanted for _, wanted in batches):
        sys.exit("a wrong reply")
    return after.children_user + after.children_system - before.children_user - before.children_system


def main():
    with tempfile.TemporaryDirectory() as folder:
        known, script = crafted(folder, "known"), crafted(folder, "script")
    plain, known, script = requests(drawn()), requests(known), requests(script)
    runs = {
        "server, drawn": lambda: by_server(plain),
        "server, crafted": lambda: by_server(known),
        "server, script's": lambda: by_server(script),
        "script, drawn": lambda: by_script(plain),
        "script, crafted": lambda: by_script(script),
    }
    seconds = {name: [] for name in runs}
    for number in range(SERVER_RUNS):
        for name, run in runs.items():
            if number < SCRIPT_RUNS or name.startswith("server"):
                progress.show(f"round {number + 1} of {SERVER_RUNS}: {name}")
                seconds[name].append(run())
    progress.clear()
    count = KEYS * (1 + ROUNDS)
    medians = {name: statistics.median(spent) / count * 1e6 for name, spent in seconds.items()}
    for name, spent in seconds.items():
        micros = [one / count * 1e6 for one in spent]
        figures.keep("crafted_keys", {name: {"us": figures.spread(micros, medians[name])}})
        print(f"{name:17} {medians[name]:6.2f} us a request ({min(spent) / count * 1e6:.2f} to {max(spent) / count * 1e6:.2f})")
    dearest = max(medians["server, crafted"], medians["server, script's"])
    sys.exit(dearest > 1.3 * medians["server, drawn"] or medians["script, crafted"] < 5 * medians["script, drawn"])


if __name__ == "__main__":
    main()
