#!/usr/bin/env python3
"""Runs other people's clients against the memcache service.

    python3 tools/memcache_clients.py [--only CASE ..] -- COMMAND ..

COMMAND starts the service; PORT in it stands for its port, CONFIG for a configuration file by which `bivrangd` serves it there. The
cases, each with the Debian package that apt-get installs where it lacks and it can:

    capable     the conformance test of libmemcached, `memccapable -a` (libmemcached-tools)
    load        five seconds of `memcaslap` (libmemcached-tools)
    pymemcache  values with every byte, 1 MiB, many keys, cas, counting, expiry (python3-pymemcache)
    pylibmc     the same in short, by another client (python3-pylibmc)
    leases      the example of docs/MEMCACHE.md, by twelve clients at once: each key is loaded once
    ring        pylibmc's ketama over three services: keys spread, one dies and comes back (python3-pylibmc)
    proxy       nutcracker over three services: keys spread, one dies and comes back (nutcracker)
    page        nginx serves a page from it (nginx-light)

It uses loopback only, and ends by itself, with status 1 if a case fails or its package cannot be had.
"""

import argparse
import contextlib
import os
import pathlib
import shutil
import socket
import subprocess
import sys
import tempfile
import threading
import time
import urllib.error
import urllib.request

ROOT = pathlib.Path(__file__).resolve().parent.parent
PORT = 21313
# The interpreter for which Debian installs packages.
PYTHON = "/usr/bin/python3"

PYMEMCACHE = r"""
import sys, time
from pymemcache.client.base import Client
from pymemcache.exceptions import MemcacheServerError

client = Client(("127.0.0.1", int(sys.argv[1])))
client.flush_all(noreply=False)
every = bytes(range(256)) * 4
assert client.set("every", every, noreply=False) and client.get("every") == every
large = b"x" * (1 << 20)
assert client.set("large", large, noreply=False) and client.get("large") == large
try:
    client.set("large", large + b"y", noreply=False)
    raise AssertionError("a value above 1 MiB is stored")
except MemcacheServerError:
    pass
assert client.get("large") is None, "what a set that is too large was to replace is there"
many = {f"key{n}": str(n).encode() for n in range(1000)}
assert client.set_many(many, noreply=False) == [] and client.get_many(list(many)) == many
assert client.add("key1", b"z", noreply=False) is False and client.replace("none", b"z", noreply=False) is False
value, unique = client.gets("key1")
assert client.cas("key1", b"new", unique, noreply=False) is True
assert client.cas("key1", b"newer", unique, noreply=False) is False
assert client.cas("none", b"new", unique, noreply=False) is None
assert client.append("key1", b">", noreply=False) and client.prepend("key1", b"<", noreply=False) and client.get("key1") == b"<new>"
assert client.set("n", b"10", noreply=False) and client.incr("n", 5, noreply=False) == 15 and client.decr("n", 20, noreply=False) == 0
assert client.incr("none", 1, noreply=False) is None
assert client.set("short", b"x", expire=1, noreply=False) and client.touch("key2", 100, noreply=False) is True
assert client.delete("key3", noreply=False) is True and client.delete("key3", noreply=False) is False
time.sleep(1.1)
assert client.get("short") is None
assert client.version() == b"1.6.18" and client.stats()[b"curr_connections"] >= 1
client.flush_all(noreply=False)
assert client.get_many(list(many)) == {}
client.quit()
"""

PYLIBMC = r"""
import sys
import pylibmc

client = pylibmc.Client(["127.0.0.1:" + sys.argv[1]], binary=False, behaviors={"cas": True})
client["every"] = bytes(range(256))
assert client["every"] == bytes(range(256))
many = {f"m{n}": n for n in range(500)}
assert client.set_multi(many) == [] and client.get_multi(list(many)) == many
value, unique = client.gets("every")
assert client.cas("every", b"new", unique) is True and client.cas("every", b"newer", unique) is False
client["n"] = 5
assert client.incr("n") == 6 and client.decr("n", 2) == 4
assert client.add("every", b"z") is False and client.replace("none", b"z") is False and client.delete("every") is True
client["large"] = b"x" * 1000000
assert client["large"] == b"x" * 1000000
"""

# The first word is the ports of the services, the second what is done: `store` prints how many of 300 values are stored, `find` how many
# are found. (BEHAVIORS stands for what the example has.)
RING = r"""
import sys
import pylibmc

ports, what = sys.argv[1].split(","), sys.argv[2]
servers = ["127.0.0.1:" + port for port in ports]
client = pylibmc.Client(servers, binary=False, behaviors=BEHAVIORS)
done = 0
for number in range(300):
    for _ in range(5):
        try:
            done += client.set(f"key{number}", number) if what == "store" else client.get(f"key{number}") == number
            break
        except pylibmc.Error:
            pass
print(done)
"""

# A client of its own is made for each request, since the proxy closes one whose server is gone. It tries that again now and then.
SPREAD = r"""
import sys
from pymemcache.client.base import Client

done = 0
for number in range(300):
    for _ in range(3):
        try:
            client = Client(("127.0.0.1", int(sys.argv[1])))
            done += bool(client.set(f"key{number}", b"value", noreply=False))
            client.close()
            break
        except Exception:
            pass
print(done)
"""

NGINX = """daemon off;
pid {folder}/pid;
error_log {folder}/error.log;
events {{}}
http {{
  access_log off;
  server {{ listen 127.0.0.1:{port}; location / {{ set $memcached_key $uri; memcached_pass 127.0.0.1:{service}; default_type text/html; }} }}
}}
"""


def wait_for(port):
    for _ in range(300):
        with contextlib.suppress(OSError):
            socket.create_connection(("127.0.0.1", port)).close()
            return
        time.sleep(0.1)
    raise AssertionError(f"nobody listens at port {port}")


@contextlib.contextmanager
def started(command, port):
    """A program that listens at a port, until the block ends."""
    program = subprocess.Popen(command, stdout=subprocess.DEVNULL, stderr=subprocess.DEVNULL)
    try:
        wait_for(port)
        yield program
    finally:
        program.terminate()
        program.wait()


CONFIG = """[[namespace]]
name = "memcache"
port = {port}
protocol = "memcache"
capacity = 67108864
"""


@contextlib.contextmanager
def service(command, port):
    with tempfile.TemporaryDirectory() as folder:
        config = pathlib.Path(folder, "bivrangd.toml")
        config.write_text(CONFIG.format(port=port), encoding="ascii")
        words = [word.replace("PORT", str(port)).replace("CONFIG", str(config)) for word in command]
        with started(words, port) as program:
            yield program


def ask(port, request):
    with socket.create_connection(("127.0.0.1", port)) as server:
        server.sendall(request + b"mn\r\n")
        told = b""
        while not told.endswith(b"MN\r\n"):
            told += server.recv(1 << 16)
        return told


def writes(port):
    return int(ask(port, b"stats\r\n").partition(b"STAT cmd_set ")[2].split()[0])


def run(*words):
    ran = subprocess.run(words, capture_output=True, text=True, timeout=120, check=False)
    assert ran.returncode == 0, ran.stdout + ran.stderr
    return ran.stdout


def capable(command):
    with service(command, PORT):
        assert "All tests passed" in run("memccapable", "-h", "127.0.0.1", "-p", str(PORT), "-a")


def load(command):
    with service(command, PORT):
        assert "Ops:" in run("memcaslap", "-s", f"127.0.0.1:{PORT}", "-T", "2", "-c", "16", "-t", "5s")


def pymemcache(command):
    with service(command, PORT):
        run(PYTHON, "-c", PYMEMCACHE, str(PORT))


def pylibmc(command):
    with service(command, PORT):
        run(PYTHON, "-c", PYLIBMC, str(PORT))


def example(heading, kind):
    """The first example of a kind below a heading of docs/MEMCACHE.md."""
    text = (ROOT / "docs/MEMCACHE.md").read_text(encoding="utf-8")
    return text.partition(f"\n{heading}\n")[2].partition(f"```{kind}\n")[2].partition("```\n")[0]


def leases(command):
    source = example("## Leases", "python").replace("11211", str(PORT))
    with service(command, PORT):
        own = {}
        exec(compile(source, "docs/MEMCACHE.md", "exec"), own)
        assert own["page"] == b"slowly made"
        loads, values = [], []

        def visit(number):
            server = socket.create_connection(("127.0.0.1", PORT), timeout=60).makefile("rwb")
            for key in range(20):

                def load():
                    loads.append(key)
                    time.sleep(0.02)
                    return b"value of %d" % key

                values.append(own["get"](server, b"leased-%d" % key, load) == b"value of %d" % key)

        visits = [threading.Thread(target=visit, args=(number,)) for number in range(12)]
        for thread in visits:
            thread.start()
        for thread in visits:
            thread.join()
        assert len(values) == 12 * 20 and all(values), "a value is another one"
        assert sorted(loads) == list(range(20)), "a key is loaded twice"


def ring(command):
    ports = [PORT + 1, PORT + 2, PORT + 3]
    behaviors = example("## Several servers", "python").partition("behaviors=")[2].rpartition(")")[0]
    words = [PYTHON, "-c", RING.replace("BEHAVIORS", behaviors), ",".join(map(str, ports))]
    with contextlib.ExitStack() as all_of_them:
        first, _, _ = [all_of_them.enter_context(service(command, port)) for port in ports]
        assert int(run(*words, "store")) == 300 and int(run(*words, "find")) == 300
        theirs = [writes(port) for port in ports]
        assert all(count > 30 for count in theirs), "keys do not spread"
        first.kill()
        first.wait()
        assert int(run(*words, "find")) == 300 - theirs[0], "keys of a server that is there are lost"
        assert int(run(*words, "store")) == 300, "a server that is gone is asked on"
        with service(command, ports[0]):
            assert int(run(*words, "store")) == 300 and writes(ports[0]) == theirs[0], "a server that came back is not asked"


def proxy(command):
    ports = [PORT + 1, PORT + 2, PORT + 3]
    with tempfile.TemporaryDirectory() as folder, contextlib.ExitStack() as all_of_them:
        plan = pathlib.Path(folder, "nutcracker.yml")
        text = example("## Several servers", "yaml").replace("127.0.0.1:11211", f"127.0.0.1:{PORT}")
        for number, port in enumerate(ports, 1):
            text = text.replace(f"10.0.0.{number}:11211", f"127.0.0.1:{port}")
        plan.write_text(text, encoding="ascii")
        first, _, _ = [all_of_them.enter_context(service(command, port)) for port in ports]
        all_of_them.enter_context(started(["nutcracker", "-c", str(plan), "-s", str(PORT + 4)], PORT))
        assert int(run(PYTHON, "-c", SPREAD, str(PORT))) == 300
        assert all(writes(port) > 30 for port in ports), "keys do not spread"
        first.kill()
        first.wait()
        run(PYTHON, "-c", SPREAD, str(PORT))
        assert int(run(PYTHON, "-c", SPREAD, str(PORT))) == 300, "a server that is gone is asked on"
        with service(command, ports[0]):
            time.sleep(1.5)
            run(PYTHON, "-c", SPREAD, str(PORT))
            assert writes(ports[0]) > 30, "a server that came back is not asked"


def page(command):
    with tempfile.TemporaryDirectory() as folder, service(command, PORT):
        plan = pathlib.Path(folder, "nginx.conf")
        plan.write_text(NGINX.format(folder=folder, port=PORT + 1, service=PORT), encoding="ascii")
        ask(PORT, b"set /page 0 0 18\r\n<p>from memory</p>\r\n")
        with started(["nginx", "-c", str(plan)], PORT + 1):
            with urllib.request.urlopen(f"http://127.0.0.1:{PORT + 1}/page") as told:
                assert told.read() == b"<p>from memory</p>"
            try:
                urllib.request.urlopen(f"http://127.0.0.1:{PORT + 1}/none").close()
                raise AssertionError("a page that is not there is served")
            except urllib.error.HTTPError as error:
                assert error.code == 404


# Each case with its packages, and what of them has to be there: a program, or a module of Python.
CASES = {
    capable: (["libmemcached-tools"], "memccapable", None),
    load: (["libmemcached-tools"], "memcaslap", None),
    pymemcache: (["python3-pymemcache"], PYTHON, "pymemcache"),
    pylibmc: (["python3-pylibmc"], PYTHON, "pylibmc"),
    leases: ([], PYTHON, None),
    ring: (["python3-pylibmc"], PYTHON, "pylibmc"),
    proxy: (["nutcracker", "python3-pymemcache"], "nutcracker", "pymemcache"),
    page: (["nginx-light"], "nginx", None),
}


def is_there(program, module):
    there = shutil.which(program) is not None
    return there and (module is None or subprocess.run([PYTHON, "-c", f"import {module}"], capture_output=True, check=False).returncode == 0)


def install(packages, program, module):
    """Whether the packages are there, or could be installed."""
    if is_there(program, module):
        return True
    if os.geteuid() != 0 or not shutil.which("apt-get"):
        return False
    how = {"env": {**os.environ, "DEBIAN_FRONTEND": "noninteractive"}, "capture_output": True, "stdin": subprocess.DEVNULL, "check": False}
    get = ["apt-get", "install", "-yq", "--no-install-recommends", *packages]
    if subprocess.run(get, **how).returncode != 0:
        subprocess.run(["apt-get", "update", "-q"], **how)
        subprocess.run(get, **how)
    return is_there(program, module)


def main():
    parser = argparse.ArgumentParser(description=__doc__, formatter_class=argparse.RawDescriptionHelpFormatter)
    parser.add_argument("--only", nargs="+", choices=[case.__name__ for case in CASES], default=[case.__name__ for case in CASES])
    parser.add_argument("command", nargs="+")
    wanted = parser.parse_args()
    failed = 0
    for case, needs in CASES.items():
        if case.__name__ not in wanted.only:
            continue
        start, why = time.time(), None
        try:
            assert install(*needs), f"{' and '.join(needs[0])} cannot be had"
            case(wanted.command)
        except (AssertionError, OSError, ValueError, LookupError, subprocess.TimeoutExpired) as error:
            why = error
        failed += why is not None
        print(f"{case.__name__}: {'passed' if why is None else f'FAILED: {why}'} in {time.time() - start:.0f} s", flush=True)
    return 1 if failed else 0


if __name__ == "__main__":
    sys.exit(main())
