#!/usr/bin/env python3
"""Tests of the watcher, `bivrang watch`, on fake servers, and on bivrangd where the gate has left it: `python3 tools/test_watch.py`.
They take seconds."""
import contextlib
import html.parser
import os
import pathlib
import socket
import subprocess
import sys
import tempfile
import threading
import time
import unittest

sys.dont_write_bytecode = True
ROOT = pathlib.Path(__file__).resolve().parent.parent
PACKAGE = ROOT / "clients/python"
sys.path.insert(0, str(PACKAGE))
from bivrang import _watch as watch  # noqa: E402
from bivrang import Client, Held  # noqa: E402
from bivrang._watch import Place  # noqa: E402

BIVRANGD = pathlib.Path(os.environ.get("BIVRANGD", ROOT / "crates/bivrangd/out/bivrangd"))
HOST = "127.0.0.1"
PATIENCE = 60


def counts(**told):
    return {**dict.fromkeys(watch.CAUSES, 0), **told}


class Lines(unittest.TestCase):
    def test_lines(self):
        board = watch.Board()
        board.take(
            b"listening main 127.0.0.1:7411\n"
            b"listening listening 127.0.0.1:65535\n"
            b"main NOTE Replaced a 1\n"
            b"main NOTE Replaced a \n"
            b"main NOTE Size k listening x 127.0.0.1:7\n"
            b"listening NOTE Expired k v\n"
            b"main NOTE Explicit k \xff\x00 NOTE Size\n"
        )
        self.assertEqual(board.look(), [
            ("main", Place(HOST, 7411), counts(Replaced=2, Size=1, Explicit=1)),
            ("listening", Place(HOST, 65535), counts(Expired=1)),
        ])

    def test_addresses(self):
        """What is listened at, where that is asked, and how it is shown."""
        rows = [
            ("127.0.0.1:7411", Place(HOST, 7411), "7411"),
            ("0.0.0.0:7411", Place(HOST, 7411), "7411"),
            ("10.1.2.3:7411", Place("10.1.2.3", 7411), "10.1.2.3:7411"),
            ("[::1]:7411", Place("::1", 7411), "[::1]:7411"),
            ("[::]:7411", Place("::1", 7411), "[::1]:7411"),
            ("[fe80::1:2]:1", Place("fe80::1:2", 1), "[fe80::1:2]:1"),
            ("/run/a b", Place("/run/a b", 7411), "/run/a b"),
        ]
        for address, place, shown in rows:
            board = watch.Board()
            board.take(b"listening a %b\n" % address.encode())
            self.assertEqual(board.look(), [("a", place, counts())])
            self.assertEqual(place.shown(), shown)

    def test_named_servers(self):
        rows = [
            ("main=127.0.0.1:1", ("main", Place(HOST, 1))),
            ("localhost:1", ("", Place("localhost", 1))),
            ("[::1]:1", ("", Place("::1", 1))),
            ("a=/run/x=y", ("a", Place("/run/x=y", 7411))),
            ("/run/x=y", ("", Place("/run/x=y", 7411))),
            ("bivrang://h:5", ("", Place("h", 5))),
        ]
        for text, wanted in rows:
            self.assertEqual(watch.space_of_address(text), wanted)

    def test_lines_that_say_nothing(self):
        board = watch.Board()
        board.take(b"listening a 127.0.0.1:1\n")
        before = board.look()
        for line in [
            b"",
            b"a",
            b"a NOTE",
            b"a NOTE Lost k v",
            b"a note Size k v",
            b"b NOTE Size k v",
            b"A NOTE Size k v",
            b"listening b 127.0.0.2",
            b"listening b ::1:1",
            b"listening b relative/path",
            b"listening b 127.0.0.1:",
            b"listening b 127.0.0.1:1 ",
            b"cached: out of memory",
        ]:
            board.take(line + b"\n")
            self.assertEqual(board.look(), before, line)

    def test_pieces(self):
        text = b"listening a 127.0.0.1:1\na NOTE Size k v\na NOTE Expired k v\na NOTE Size"
        board = watch.Board()
        for place in range(len(text)):
            board.take(text[place : place + 1])
        self.assertEqual(board.look(), [("a", Place(HOST, 1), counts(Size=1, Expired=1))])

    def test_a_server_that_begins_anew_counts_anew(self):
        board = watch.Board()
        for port in (1, 2):
            board.take(b"listening a 127.0.0.1:%d\na NOTE Size k v\n" % port)
        self.assertEqual(board.look(), [("a", Place(HOST, 2), counts(Size=1))])


class Numbers(unittest.TestCase):
    def test_rates(self):
        self.assertIsNone(watch.rates_of(counts(Size=4), None, 2))
        self.assertIsNone(watch.rates_of(counts(Size=4), counts(), 0))
        self.assertEqual(watch.rates_of(counts(Size=9), counts(Size=4), 2), counts(Size=2.5))
        self.assertEqual(watch.rates_of(counts(), counts(Size=4), 2), counts())

    def test_texts(self):
        rates = {None: "-", 0: "0", 0.26: "0.3", 99.94: "99.9", 1234.6: "1,235"}
        self.assertEqual({value: watch.rate(value) for value in rates}, rates)
        numbers = {None: "-", 0: "0", 1234567: "1,234,567"}
        self.assertEqual({value: watch.number(value) for value in numbers}, numbers)

    def test_ceilings(self):
        rows = [(0, 2), (0.5, 2), (2, 2), (3, 4), (5, 10), (10, 10), (11, 20), (401, 1000)]
        for most, wanted in rows:
            self.assertEqual(watch.ceiling(most), wanted)

    def test_gaps(self):
        points = [(0, None), (1, 5), (2, 6), (3, None), (4, None), (5, 7)]
        self.assertEqual(list(watch.runs(points)), [[(1, 5), (2, 6)], [(5, 7)]])

    def test_bars(self):
        self.assertEqual(watch.sparks([9, None, 0, 4, 8], 4), " ▁▅█")
        self.assertEqual(watch.sparks([0, 0], 4), "▁▁")
        self.assertEqual(watch.sparks([], 4), "")


class Screen(unittest.TestCase):
    def test_a_screen_without_notices(self):
        watcher = watch.Watcher(watch.Board([watch.Space(":1", Place(HOST, 1), False)]), 5, 2)
        row = watch.Row(":1", Place(HOST, 1), Held(3, 7), None, None)
        lines = watch.screen_lines(watcher, [row], 80)
        self.assertEqual(lines[3].split(), [":1", "1", "3", "7", "-", "-", "-", "-"])
        self.assertIn("not counted", lines[-1])


class Page(html.parser.HTMLParser):
    """Sees that each tag is closed in its turn, and gathers the lines of pictures."""

    def __init__(self, text):
        super().__init__()
        self.open, self.lines, self.words = [], [], []
        self.feed(text)
        self.close()

    def handle_starttag(self, tag, attributes):
        if tag != "meta":
            self.open.append(tag)

    def handle_startendtag(self, tag, attributes):
        if tag == "polyline":
            self.lines.append(dict(attributes)["points"].split())

    def handle_endtag(self, tag):
        if self.open.pop() != tag:
            raise AssertionError(f"{tag} is closed too early")

    def handle_data(self, data):
        self.words += data.split()


def free_ports(count):
    """Ports that nobody listens on now, all different."""
    with contextlib.ExitStack() as stack:
        probes = [stack.enter_context(socket.create_server((HOST, 0))) for _ in range(count)]
        return [probe.getsockname()[1] for probe in probes]


def has_ipv6():
    """Whether a server can listen at ::1."""
    try:
        socket.create_server(("::1", 0), family=socket.AF_INET6).close()
        return True
    except OSError:
        return False


class FakeServer:
    """Answers each line of one client after another with the same."""

    def __init__(self, reply=b"SYNC 3 7\n"):
        self.reply = reply
        self.listener = socket.create_server((HOST, 0))
        self.listener.settimeout(PATIENCE)
        self.port = self.listener.getsockname()[1]
        threading.Thread(target=self.serve, daemon=True).start()

    def serve(self):
        try:
            while True:
                link, _ = self.listener.accept()
                with link:
                    while link.recv(100):
                        link.sendall(self.reply)
        except OSError:
            pass


def rates(row):
    """The rates of a row, by cause; 0 where none is known."""
    told = [0.0 if text == "-" else float(text.replace(",", "")) for text in row[2:]]
    return dict(zip(watch.CAUSES, told))


class Runs(unittest.TestCase):
    def setUp(self):
        self.server = FakeServer()
        self.addCleanup(self.server.listener.close)
        folder = tempfile.TemporaryDirectory()
        self.addCleanup(folder.cleanup)
        self.folder = pathlib.Path(folder.name)

    def start(self, *words, **options):
        process = subprocess.Popen(
            [sys.executable, "-B", "-m", "bivrang", "watch", "--plain", *map(str, words)],
            cwd=PACKAGE, stdout=subprocess.PIPE, text=True, **options,
        )
        self.addCleanup(process.stdout.close)
        self.addCleanup(process.wait)
        self.addCleanup(process.kill)
        return process

    def next_row(self, process, name):
        """What the next table says of a namespace, behind its port."""
        for line in process.stdout:
            if line.startswith(name + " "):
                return line.split()[2:]
        raise AssertionError("it ended early")

    def sees(self, process, name, cause):
        """Whether all its rows have the server's numbers, to the first with notices of a cause."""
        rows = [self.next_row(process, name)]
        while rates(rows[-1])[cause] <= 5:
            rows.append(self.next_row(process, name))
        return all(row[:2] == ["3", "7"] for row in rows)

    def rows(self, process, name):
        """What each table that is left says of it, to the end."""
        told = process.stdout.read()
        self.assertEqual(process.wait(PATIENCE), 0)
        return [line.split()[2:] for line in told.splitlines() if line.startswith(name + " ")]

    def test_a_pipe(self):
        begins, ends = os.pipe()
        page = self.folder / "page.html"
        process = self.start("--interval", 0.5, "--html", page, stdin=begins)
        os.close(begins)
        os.write(ends, b"listening main 127.0.0.1:%d\nmain NOTE Size" % self.server.port)
        first = self.next_row(process, "main")
        os.write(ends, b" k v\n" + b"main NOTE Expired k v\n" * 900)
        rows = [first, self.next_row(process, "main"), self.next_row(process, "main")]
        os.close(ends)
        rows += self.rows(process, "main")
        self.assertEqual(rows[-1][:2], ["3", "7"])
        self.assertTrue(any(rates(row)["Expired"] > 5 for row in rows), rows)
        read = Page(page.read_text(encoding="utf-8"))
        self.assertEqual(read.open, [])
        self.assertEqual(len(read.lines), 5)
        self.assertTrue(all(len(line) >= 2 for line in read.lines), read.lines)
        self.assertIn("main", read.words)

    def test_a_file_that_grows(self):
        log = self.folder / "log"
        log.write_bytes(b"listening main 127.0.0.1:%d\n" % self.server.port)
        process = self.start("--log", log, "--interval", 0.5, "--seconds", PATIENCE)
        first = self.next_row(process, "main")
        self.assertEqual(first, ["3", "7", "-", "-", "-", "-"])
        with log.open("ab") as file:
            file.write(b"main NOTE Replaced k v\n" * 900)
        self.assertTrue(self.sees(process, "main", "Replaced"))

    def listen(self, log):
        log.write_bytes(b"listening main 127.0.0.1:%d\n" % self.server.port)

    def test_a_file_that_is_cut(self):
        log = self.folder / "log"
        self.listen(log)
        with log.open("ab") as file:
            file.write(b"main NOTE Size k v\n" * 1000 + b"main NOTE Si")
        process = self.start("--log", log, "--interval", 0.5, "--seconds", PATIENCE)
        self.next_row(process, "main")
        # As logrotate's copytruncate does: the server, which appends, continues at the new start.
        os.truncate(log, 0)
        for _ in range(3):
            self.assertEqual(self.next_row(process, "main")[:2], ["3", "7"])
        with log.open("ab") as file:
            # (fewer bytes than were read before)
            file.write(b"main NOTE Expired k v\n" * 500)
        self.assertTrue(self.sees(process, "main", "Expired"))

    def test_a_file_that_was_cut_before(self):
        log = self.folder / "log"
        log.write_bytes(b"main NOTE Size k v\n")
        name = f"main:{self.server.port}"
        process = self.start("--log", log, "--port", name, "--interval", 0.5, "--seconds", PATIENCE)
        self.assertEqual(self.next_row(process, "main")[:2], ["3", "7"])
        with log.open("ab") as file:
            file.write(b"main NOTE Explicit k v\n" * 900)
        self.assertTrue(self.sees(process, "main", "Explicit"))

    def test_a_port(self):
        page = self.folder / "page.html"
        process = self.start(
            "--port", self.server.port, "--html", page, "--interval", 0.5, "--seconds", 0.8
        )
        rows = self.rows(process, f":{self.server.port}")
        self.assertTrue(1 <= len(rows) <= 4, rows)
        self.assertEqual(rows[-1], ["3", "7", "-", "-", "-", "-"])
        self.assertEqual(Page(page.read_text(encoding="utf-8")).open, [])

    def fails(self, text, *words, **options):
        process = self.start(*words, stderr=subprocess.PIPE, **options)
        _, told = process.communicate(timeout=PATIENCE)
        self.assertIn(text, told)
        self.assertNotIn("Traceback", told)
        self.assertNotEqual(process.returncode, 0)

    def test_nothing_to_watch(self):
        log = self.folder / "log"
        log.write_bytes(b"main NOTE Size k v\n")
        self.fails("has no line `listening", "--log", log, "--seconds", 0.5)
        self.fails("has no line `listening", "--log", log)
        self.fails("the input had no line `listening", stdin=subprocess.DEVNULL)
        self.fails("No such file", "--log", self.folder / "other")
        self.fails("a namespace needs its name", "--log", log, "--port", 1)
        for port in ("0", "65536", "a", "Main:7411", ":7411", "1 "):
            self.fails("PORT", "--port", port)
        for server in ("", "a:x", "Main=a:1", "a=", "http://h"):
            self.fails("ADDRESS", "--server", server)

    def test_a_port_without_a_server(self):
        self.server.listener.close()
        self.fails("nothing answers", "--port", self.server.port)

    def test_a_server_of_another_kind(self):
        other = FakeServer(b"HTTP/1.1 400 Bad Request\r\n\r\n")
        self.addCleanup(other.listener.close)
        self.fails("(web) speaks neither lines nor memcache", "--port", f"web:{other.port}")

    @unittest.skipUnless(BIVRANGD.exists(), f"there is no {BIVRANGD}")
    def test_bivrangd_at_each_kind_of_address(self):
        config, log = self.folder / "config", self.folder / "log"
        spaces = {"path": self.folder / "socket", "every": "0.0.0.0", "items": HOST}
        if has_ipv6():
            spaces["six"] = "::1"
        for _ in range(5):
            ports = dict(zip(spaces, free_ports(len(spaces))))
            config.write_text("".join(
                f'[[namespace]]\nname = "{name}"\nport = {ports[name]}\nbind = "{bind}"\n'
                + 'capacity = 1000000\nprotocol = "memcache"\n' * (name == "items") for name, bind in spaces.items()
            ))
            with log.open("wb") as output:
                server = subprocess.Popen([str(BIVRANGD), "--config", str(config)], stdin=subprocess.DEVNULL, stdout=output)
            self.addCleanup(server.wait)
            self.addCleanup(server.kill)
            # (between its choice and the start another process may take a port)
            if self.come_to(server, log, len(spaces)):
                break
        else:
            self.fail("it does not listen")
        with Client(str(spaces["path"])) as cache:
            cache.set_many({"a": "1", "b": "2"})
            cache.delete("a")
        with socket.create_connection((HOST, ports["items"]), PATIENCE) as link:
            link.sendall(b"set a 0 0 1\r\nx\r\nget a\r\n")
            told = b""
            while not told.endswith(b"END\r\n"):
                told += link.recv(100)
        told = self.start("--log", log, "--interval", 0.5, "--seconds", 0.6).communicate(timeout=PATIENCE)[0]
        rows = {line.split()[0]: line.split()[1:4] for line in told.splitlines() if len(line.split()) > 4}
        self.assertEqual(rows["path"], [str(spaces["path"]), "1", "1"])
        self.assertEqual(rows["every"], [str(ports["every"]), "0", "0"])
        if "six" in spaces:
            self.assertEqual(rows["six"], [f"[::1]:{ports['six']}", "0", "0"])
        # (of items it tells what was held at the last maintenance)
        self.assertEqual(rows["items"][0], str(ports["items"]))
        self.assertTrue(rows["items"][1].isdigit() and rows["items"][2].isdigit(), rows["items"])

    def come_to(self, server, log, count):
        """Whether a server comes to listen at so many addresses, before it ends."""
        until = time.monotonic() + PATIENCE
        while log.read_bytes().count(b"\n") < count:
            if server.poll() is not None:
                return False
            self.assertLess(time.monotonic(), until)
            time.sleep(0.01)
        return True

    def test_a_server_that_is_gone(self):
        self.server.listener.close()
        log = self.folder / "log"
        log.write_bytes(b"listening main 127.0.0.1:%d\n" % self.server.port)
        rows = self.rows(self.start("--log", log, "--interval", 0.5, "--seconds", 0.6), "main")
        self.assertEqual(rows[-1][:2], ["-", "-"])


if __name__ == "__main__":
    unittest.main()
