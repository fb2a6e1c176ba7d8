#!/usr/bin/env python3
"""Runs memcached's own tests (t/*.t of Debian's source package, 1.6.18) against the memcache service.

    python3 tools/memcached_suite.py [--source FOLDER] [--only FILE ..] -- COMMAND ..

COMMAND starts the service by the configuration file CONFIG, as `bivrangd --config CONFIG`. Without --source the package is fetched by
apt-get into a folder that is removed at the end. A shell script stands for memcached: of its options it takes -p, -l, -s, -m, -I, -c and
-o idle_timeout, and refuses those that the service has nothing for. Where a test moves memcached's clock, it waits.

Each file of PASS has to pass; one of PARTS has to pass all but so many of its tests, for the reason that stands there; any other is of
what is told as absent in docs/MEMCACHE.md, or of memcached's own memory (slabs, its threads, its log), and is not run. The status is 1 if
a file does not come out so. It takes some three minutes, and uses loopback and Unix sockets only.
"""
import argparse
import os
import pathlib
import re
import shlex
import shutil
import subprocess
import sys
import tempfile

PASS = """binary-get bogus-commands cas evictions expirations flags getandtouch getset incrdecr issue_104 issue_108 issue_14 issue_152
issue_192 issue_3 issue_41 issue_68 issue_70 line-lengths malicious-commands multiversioning noreply quit touch unixsocket""".split()
# How many tests of a file fail at most, and why.
PARTS = {
    "flush-all": (5, "the options -F and -C"),
    "idle-timeout": (1, "each thread's own count of `idle_kicks`"),
    "item_size_max": (1, "-I below 1k, which memcached refuses"),
    "metaget": (7, "`me`, and keys in base64 (`b`)"),
    "strtol-testing": (1, "`slabs`"),
}

SHIM = r"""#!/usr/bin/env python3
import os, re, sys, tempfile
words, keys = sys.argv[1:], {"port": 11211, "capacity": 64 << 20}
sizes = {"k": 1 << 10, "m": 1 << 20, "g": 1 << 30}
size = lambda text: int(text[:-1]) * sizes[text[-1].lower()] if text[-1].lower() in sizes else int(text)
if "-h" in words:
    print("unix-socket")
    sys.exit(0)
while words:
    word = words.pop(0)
    if word == "-p": keys["port"] = int(words.pop(0))
    elif word == "-l": keys["bind"] = '"%s"' % words.pop(0)
    elif word == "-s": keys["bind"] = '"%s"' % words.pop(0)
    elif word == "-m": keys["capacity"] = int(words.pop(0)) << 20
    elif word == "-I": keys["item_size"] = size(words.pop(0))
    elif word == "-c": keys["max_connections"] = int(words.pop(0))
    elif word in ("-U", "-u"): words.pop(0)
    elif word == "-o":
        for option in words.pop(0).split(","):
            name, _, value = option.partition("=")
            if name == "idle_timeout": keys["idle_s"] = int(value)
            elif name not in ("relaxed_privileges", "modern", "no_modern", "slab_chunk_max", "drop_privileges"): sys.exit(64)
    else:
        sys.exit(64)
folder = tempfile.mkdtemp(dir=os.environ["SUITE_ROOM"])
config = os.path.join(folder, "bivrangd.toml")
with open(config, "w", encoding="ascii") as file:
    file.write('[[namespace]]\nname = "suite"\nprotocol = "memcache"\npolicy = "lru"\n')
    file.writelines(f"{name} = {value}\n" for name, value in keys.items())
command = [word.replace("CONFIG", config) for word in COMMAND]
null = os.open(os.devnull, os.O_RDWR)
os.dup2(null, 1)
os.dup2(null, 2)
os.execvp(command[0], command)
"""
LIST = "deb-src [signed-by=/usr/share/keyrings/debian-archive-keyring.gpg] http://deb.debian.org/debian bookworm main\n"


def fetch(room):
    """The package's source, unpacked below a folder."""
    (room / "lists/partial").mkdir(parents=True)
    (room / "source.list").write_text(LIST, encoding="ascii")
    words = ["apt-get", "-q", "-o", f"Dir::Etc::SourceList={room}/source.list", "-o", "Dir::Etc::SourceParts=/dev/null", "-o", f"Dir::State::Lists={room}/lists"]
    for what in (["update"], ["source", "--download-only", "memcached"]):
        ran = subprocess.run([*words, *what], cwd=room, capture_output=True, text=True, check=False)
        if ran.returncode:
            sys.exit(f"memcached_suite: the source cannot be had: {ran.stderr[-400:]}")
    archive = next(room.glob("memcached_*.orig.tar.*"))
    subprocess.run(["tar", "xf", archive], cwd=room, check=True)
    return next(it for it in room.glob("memcached-*") if it.is_dir())


def prepare(source, room, command):
    """A folder in which the tests run."""
    for part in ("t", "doc"):
        shutil.copytree(source / part, room / part)
    shim = SHIM.replace("in COMMAND]", f"in {command!r}]")
    for name, text in (("memcached-debug", shim), ("timedrun", '#!/bin/sh\nshift\nexec "$@"\n')):
        (room / name).write_text(text, encoding="ascii")
        (room / name).chmod(0o755)
    module = room / "t/lib/MemcachedTest.pm"
    text = module.read_text(encoding="utf-8")
    waits = re.sub(r'print \$sock "debugtime \$move\\r\\n";\s*<\$sock>;', "sleep $move;", text)
    assert waits != text, "the function that moves memcached's clock is another one"
    module.write_text(waits, encoding="utf-8")


def run(name, room):
    """How many tests of a file passed, failed, and its last words."""
    environment = {**os.environ, "SUITE_ROOM": str(room), "T_MEMD_INITIAL_MALLOC": "0"}
    try:
        ran = subprocess.run(["perl", "-It/lib", f"t/{name}.t"], cwd=room, env=environment, capture_output=True, text=True, errors="replace", timeout=300, check=False)
        told, last = ran.stdout, ran.stderr[-300:]
    except subprocess.TimeoutExpired as late:
        told, last = (late.stdout or b"").decode(errors="replace"), "it did not end within 300 s"
    planned = re.search(r"^1\.\.(\d+)", told, re.M)
    passed, failed = len(re.findall(r"^ok ", told, re.M)), len(re.findall(r"^not ok ", told, re.M))
    skipped = told.startswith("1..0")
    lacking = 0 if skipped else max(int(planned[1]) - passed, failed) if planned else max(failed, 1)
    return passed, lacking, last


def main():
    parser = argparse.ArgumentParser(description=__doc__, formatter_class=argparse.RawDescriptionHelpFormatter)
    parser.add_argument("--source", type=pathlib.Path)
    parser.add_argument("--only", nargs="*", default=[])
    parser.add_argument("--any", action="store_true", help="run files that are not listed here too, for a look")
    parser.add_argument("command", nargs="+")
    asked = parser.parse_args()
    bad = 0
    with tempfile.TemporaryDirectory() as folder:
        room = pathlib.Path(folder)
        source = asked.source or fetch(room)
        prepare(source, room, [os.path.abspath(it) if os.path.exists(it) else shutil.which(it) or it for it in asked.command])
        names = asked.only or [*PASS, *PARTS]
        if asked.any:
            names = sorted(it.stem for it in (source / "t").glob("*.t"))
        for name in names:
            passed, failed, last = run(name, room)
            most, why = PARTS.get(name, (0, ""))
            wrong = failed > most
            bad += wrong
            print(f"{'FAILED' if wrong else 'ok    '} {name}: {passed} passed, {failed} failed{f' ({why})' if failed and why else ''}", flush=True)
            if wrong:
                print(f"    {shlex.join(last.split())[:300]}")
    print(f"{len(names)} files, {bad} of them not as they have to be")
    sys.exit(bad > 0)


if __name__ == "__main__":
    main()
