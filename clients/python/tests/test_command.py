"""The command `bivrang`, on the real server."""
import contextlib
import io
import os
import pathlib
import re
import subprocess
import sys
import tempfile
import unittest
from unittest import mock

from support import HOST, PATIENCE, REPOSITORY, Fake, FakeCase, RealCase, free_port, replies
from bivrang import Held, _command, _notices

PACKAGE = pathlib.Path(__file__).resolve().parents[1]


class Stream(io.TextIOWrapper):
    """A stream of the program, with these bytes to read; whether it is a terminal."""

    def __init__(self, given=b"", is_terminal=False):
        super().__init__(io.BytesIO(given))
        self.is_terminal = is_terminal

    def isatty(self):
        return self.is_terminal


def run(main, words, given=b"", is_terminal=False):
    """Calls a `main` with words. Returns the status, the bytes of its output, and its errors."""
    pipes = [Stream(given), Stream(is_terminal=is_terminal), Stream()]
    names = ("stdin", "stdout", "stderr")
    with contextlib.ExitStack() as stack:
        for name, pipe in zip(names, pipes):
            stack.enter_context(mock.patch.object(sys, name, pipe))
        try:
            main(words)
            status = 0
        except SystemExit as end:
            status = end.code
    for pipe in pipes[1:]:
        pipe.flush()
    output, errors = (pipe.buffer.getvalue() for pipe in pipes[1:])
    return status, output, errors.decode()


class Command(RealCase):
    def asks(self, *words, name="main", **streams):
        """The status and output of the command, which tells no error."""
        server = f"{HOST}:{self.server.ports[name]}"
        options = ["--server", server, "--seconds", str(PATIENCE)]
        status, output, errors = run(_command.main, [*options, *words], **streams)
        self.assertEqual(errors, "")
        return status, output

    def test_values(self):
        cache = self.client()
        self.assertEqual(self.asks("set", "a", "two words"), (0, b""))
        self.assertEqual(self.asks("get", "a"), (0, b"two words\n"))
        self.assertEqual(self.asks("get", "b"), (1, b""))
        self.assertEqual(self.asks("set", "b", given=b"\xff\x00 x\n"), (0, b""))
        self.assertEqual(self.asks("get", "b"), (0, b"\xff\x00 x\n"))
        self.assertEqual(self.asks("set", "c", ""), (0, b""))
        self.assertEqual(self.asks("get", "c"), (0, b"\n"))
        self.assertEqual(self.asks("keys"), (0, b"a\nb\nc\n"))
        self.assertEqual(self.asks("del", "a", "b", "nothing"), (0, b""))
        self.assertEqual(cache.keys(), [b"c"])

    def test_a_terminal_gets_nothing_but_letters(self):
        cache = self.client()
        rows = {
            b"two words": b"two words",
            "dürer  ".encode(): "dürer \\u2028".encode(),
            b"\x1b[2J\x07 \x9b\\": b"\\x1b[2J\\x07 \\x9b\\",
            b"\x9b": b"\\x9b",
        }
        for value, shown in rows.items():
            cache.set("a", value)
            self.assertEqual(self.asks("get", "a", is_terminal=True), (0, shown + b"\n"))
            self.assertEqual(self.asks("get", "a"), (0, value + b"\n"))

    def test_presence_and_uses(self):
        self.client().set("a", "1")
        for word in ("has", "touch"):
            self.assertEqual(self.asks(word, "a"), (0, b"YES\n"))
            self.assertEqual(self.asks(word, "b"), (1, b"NO\n"))

    def test_numbers_and_lives(self):
        self.client()
        self.assertEqual(self.asks("incr", "n"), (0, b"1\n"))
        self.assertEqual(self.asks("incr", "n", "41"), (0, b"42\n"))
        timed = self.client("timed")
        self.assertEqual(self.asks("set", "a", "x", "--ttl", "0", name="timed"), (0, b""))
        self.assertEqual(self.asks("incr", "n", "--ttl", "1000", name="timed"), (0, b"1\n"))
        self.assertEqual(timed.keys(), [b"n"])

    def test_capacity_of_none(self):
        self.assertEqual(self.asks("set", "a", "1", name="zero"), (1, b""))
        self.assertEqual(self.asks("incr", "a", name="zero"), (1, b""))

    def test_loads(self):
        self.client("loads")
        self.assertEqual(self.asks("load", "k", name="loads"), (0, b"found elsewhere\n"))
        self.assertEqual(self.asks("load", "none", name="loads"), (1, b""))

    def test_all_values(self):
        cache = self.client()
        cache.set_many({"a1": "x", "a2": "x", "b1": "x"})
        self.assertEqual(self.asks("keys", "a"), (0, b"a1\na2\n"))
        self.assertEqual(self.asks("sync"), (0, b"3 3\n"))
        self.assertEqual(self.asks("drop", "a"), (0, b""))
        self.assertEqual(self.asks("keys"), (0, b"b1\n"))
        self.assertEqual(self.asks("clear"), (0, b""))
        self.assertEqual(cache.sync(), Held(0, 0))

    def test_check(self):
        port = self.server.ports["main"]
        self.assertEqual(self.asks("check"), (0, f"{HOST}:{port}: ok\n".encode()))

    def test_the_environment_names_the_server(self):
        self.client().set("a", "1")
        server = f"bivrang://{HOST}:{self.server.ports['main']}?reply_seconds={PATIENCE}"
        with mock.patch.dict(os.environ, BIVRANG_SERVER=server):
            self.assertEqual(run(_command.main, ["get", "a"]), (0, b"1\n", ""))

    def test_a_process(self):
        cache = self.client()
        server = f"{HOST}:{self.server.ports['main']}"
        told = subprocess.run(
            [sys.executable, "-B", "-m", "bivrang", "--server", server, "set", "a"],
            input="dürer\n".encode(),
            cwd=PACKAGE,
            stdout=subprocess.PIPE,
            timeout=PATIENCE,
            check=True,
        )
        self.assertEqual(told.stdout, b"")
        self.assertEqual(cache.get("a"), "dürer".encode())


class Texts(unittest.TestCase):
    def test_the_page_and_the_help_have_every_command(self):
        parser = _command._parser()
        (choices,) = [it.choices for it in parser._actions if isinstance(it.choices, dict)]
        names = {*choices, *_command.ELSEWHERE}
        helped = re.findall(r"^    ([a-z]+)(?: .*?|)  +[a-z]", _command.__doc__, re.MULTILINE)
        page = (REPOSITORY / "docs/man/bivrang.1").read_text()
        self.assertEqual(set(helped), names)
        self.assertEqual(set(re.findall(r"^\.It Cm ([a-z]+)", page, re.MULTILINE)), names)


class Files(RealCase):
    """Lines of a file as requests."""

    def setUp(self):
        folder = tempfile.TemporaryDirectory()
        self.addCleanup(folder.cleanup)
        self.file = pathlib.Path(folder.name, "lines")

    def send(self, text):
        """Sends a file. Returns the status, the output, and each error behind the file's name."""
        self.file.write_bytes(text)
        server = f"{HOST}:{self.server.ports['main']}"
        words = ["--server", server, "--seconds", str(PATIENCE), "send", str(self.file)]
        status, output, errors = run(_command.main, words)
        head = f"{self.file}:"
        self.assertTrue(all(line.startswith(head) for line in errors.splitlines()), errors)
        return status, output.decode(), [line[len(head) :] for line in errors.splitlines()]

    def test_lines(self):
        cache = self.client()
        told = self.send(b"SET a - 1\r\nSET b - two words\nADD n - 2\nKEYS\nSYNC\nGET b\nLOAD no")
        self.assertEqual(told, (0, "7 lines sent, 0 refused\n", []))
        self.assertEqual(cache.get_many(["a", "b", "n"]), {"a": b"1", "b": b"two words", "n": b"2"})

    def test_none(self):
        self.assertEqual(self.send(b""), (0, "0 lines sent, 0 refused\n", []))

    def test_refused_lines(self):
        cache = self.client()
        long = b"SET b - " + b"x" * 8185
        text = b"SET a 5 x\nQUIT\n%b\n\nSET c - 1\nfoo\xff\n" % long
        status, output, errors = self.send(text)
        self.assertEqual((status, output), (1, "4 lines sent, 5 refused\n"))
        wanted = ["1: ERR deadline", "2: QUIT", "3: longer than 8192 bytes", "4: ERR", "6: ERR"]
        for line, begin in zip(sorted(errors), wanted):
            self.assertTrue(line.startswith(begin), errors)
        self.assertEqual(cache.keys(), [b"c"])

    def test_many_lines(self):
        cache = self.client()
        text = b"".join(b"SET k%d - %s\n" % (number, b"x" * 1000) for number in range(1234))
        self.assertEqual(self.send(text), (0, "1234 lines sent, 0 refused\n", []))
        self.assertEqual(cache.sync().values, 1234)


class Errors(FakeCase):
    def fails(self, text, *words, status=2):
        told = run(_command.main, words)
        self.assertEqual((told[0], told[1]), (status, b""), told)
        self.assertIn(text, told[2])
        self.assertNotIn("Traceback", told[2])

    def test_words(self):
        rows = [
            ("COMMAND", []),
            ("invalid choice", ["fetch", "a"]),
            ("KEY", ["get"]),
            ("invalid int", ["incr", "a", "x"]),
            ("unrecognized", ["get", "a", "b"]),
            ("a number above 0", ["--seconds", "0", "get", "a"]),
            ("neither", ["--server", "redis://h", "get", "a"]),
            ("No such file", ["send", "/nothing/there"]),
        ]
        for text, words in rows:
            self.fails(text, *words)

    def test_a_server_that_is_gone(self):
        server = f"{HOST}:{free_port()}"
        for command in (["get", "a"], ["check"]):
            self.fails(f"server {server})", "--server", server, *command)

    def test_replies(self):
        rows = [
            (b"ERR number\n", ["incr", "a"], "ERR number (key a, server"),
            (b"what\n", ["check"], "b'what' is no reply"),
            (b"ERR load \xff\x1b[m\n", ["load", "a"], "ERR load \\xff\\x1b[m"),
        ]
        for reply, words, text in rows:
            fake = Fake(self, replies(reply))
            self.fails(text, "--server", f"{HOST}:{fake.port}", "--seconds", str(PATIENCE), *words)

    def test_refused_arguments(self):
        self.fails("unlike b'two words'", "get", "two words")
        self.fails("no line end", "set", "a", "1\n2")


class Notices(unittest.TestCase):
    LINES = (
        b"listening main 127.0.0.1:7411\n"
        b"main NOTE Size a 1 NOTE Size\n"
        b"main NOTE Replaced b \xff\xfe\n"
        b"other NOTE Size ab two words\n"
        b"main NOTE Size b \n"
        b"main NOTE Lost a 1\n"
        b"main NOTE Size a"
    )

    def setUp(self):
        folder = tempfile.TemporaryDirectory()
        self.addCleanup(folder.cleanup)
        self.file = pathlib.Path(folder.name, "log")

    def told(self, *words):
        """The places of the lines that are printed."""
        self.file.write_bytes(self.LINES)
        status, output, errors = run(_notices.main, [*words, str(self.file)])
        self.assertEqual((status, errors), (0, ""))
        lines = self.LINES.splitlines(keepends=True)
        return [lines.index(line) for line in output.splitlines(keepends=True)]

    def test_those_that_are_wanted(self):
        self.assertEqual(self.told(), [1, 2, 3, 4])
        self.assertEqual(self.told("--name", "main"), [1, 2, 4])
        self.assertEqual(self.told("--cause", "Size"), [1, 3, 4])
        self.assertEqual(self.told("--prefix", "a"), [1, 3])
        self.assertEqual(self.told("--name", "main", "--cause", "Size", "--prefix", "b"), [4])
        self.assertEqual(self.told("--name", "none"), [])

    def test_a_pipe_and_a_file_that_grows(self):
        words = [sys.executable, "-B", "-m", "bivrang", "notices"]
        ends = {"cwd": PACKAGE, "stdout": subprocess.PIPE}
        told = subprocess.run(words, input=self.LINES, timeout=PATIENCE, check=True, **ends)
        wanted = b"".join(self.LINES.splitlines(keepends=True)[1:5])
        self.assertEqual(told.stdout, wanted)
        self.file.write_bytes(self.LINES)
        with subprocess.Popen([*words, "--follow", str(self.file)], **ends) as process:
            self.addCleanup(process.kill)
            try:
                self.assertEqual(process.stdout.read(len(wanted)), wanted)
                with self.file.open("ab") as file:
                    file.write(b"b c\n")
                self.assertEqual(process.stdout.readline(), b"main NOTE Size ab c\n")
            finally:
                process.kill()

    def test_errors(self):
        for words, text in [
            (["/nothing/there"], "No such file"),
            (["--cause", "Lost"], "invalid choice"),
            (["--follow"], "standard input is read to its end"),
        ]:
            status, output, errors = run(_notices.main, words)
            self.assertEqual((status, output), (2, b""))
            self.assertIn(text, errors)


if __name__ == "__main__":
    unittest.main()
