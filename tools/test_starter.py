#!/usr/bin/env python3
"""Tests tools/bivrangd-run under dash and bash, as far as they are there: `python3 tools/test_starter.py`. They take seconds.

A server of a few lines of shell stands for bivrangd, and says what it reads. bivrangd itself is tried where the gate has left it.
"""
import os
import pathlib
import shutil
import signal
import socket
import subprocess
import sys
import tempfile
import unittest

sys.dont_write_bytecode = True
ROOT = pathlib.Path(__file__).resolve().parent.parent
STARTER = ROOT / "tools/bivrangd-run"
BIVRANGD = pathlib.Path(os.environ.get("BIVRANGD", ROOT / "crates/bivrangd/out/bivrangd"))
SHELLS = [shell for shell in ("dash", "bash") if shutil.which(shell)]
PATIENCE = 60


def with_default_signals():
    """A shell ignores for ever what was ignored when it began, as INT is in a background command of a script."""
    for number in (signal.SIGINT, signal.SIGQUIT, signal.SIGHUP, signal.SIGTERM):
        signal.signal(number, signal.SIG_DFL)


class Starter(unittest.TestCase):
    def setUp(self):
        room = tempfile.TemporaryDirectory()
        self.addCleanup(room.cleanup)
        self.folder = pathlib.Path(room.name)

    def start(self, shell, program, *words):
        """The starter of a program, with a process group of its own."""
        process = subprocess.Popen(
            [shell, str(STARTER), *map(str, words)], env={**os.environ, "BIVRANGD": str(program), "TMPDIR": str(self.folder)},
            stdin=subprocess.DEVNULL, stdout=subprocess.PIPE, text=True, start_new_session=True, preexec_fn=with_default_signals,
        )
        self.addCleanup(self.end, process)
        return process

    def end(self, process):
        """Ends what a failed test has left."""
        try:
            os.killpg(process.pid, signal.SIGKILL)
        except ProcessLookupError:
            pass
        process.wait(PATIENCE)
        process.stdout.close()

    def server(self, *lines):
        """A server of these lines of shell, which has begun once it has printed its arguments."""
        file = self.folder / "server"
        file.write_text("\n".join(["#!/bin/sh", 'echo "$@"', *lines, ""]))
        file.chmod(0o755)
        return file

    def tells(self, process, line):
        self.assertEqual(process.stdout.readline(), line + "\n")

    def ends(self, process, status):
        """It ends so, says nothing more, and leaves no file."""
        self.assertEqual(process.stdout.read(), "")
        self.assertEqual(process.wait(PATIENCE), status)
        self.assertEqual({file.name for file in self.folder.iterdir()} - {"server", "config", "socket"}, set())

    def under_each_shell(self, test):
        for shell in SHELLS:
            with self.subTest(shell=shell):
                test(shell)

    def test_a_status_of_the_servers_own(self):
        def test(shell):
            for status in (0, 3):
                process = self.start(shell, self.server(f"exit {status}"), "--config", "a b")
                self.tells(process, "--config a b")
                self.ends(process, status)

        self.under_each_shell(test)

    def test_a_signal_is_a_line(self):
        def test(shell):
            for number in (signal.SIGTERM, signal.SIGINT):
                process = self.start(shell, self.server("read -r line", 'echo "$line"', "exit 5"), "word")
                self.tells(process, "word")
                process.send_signal(number)
                self.tells(process, "stop")
                self.ends(process, 5)

        self.under_each_shell(test)

    def test_a_signal_of_a_terminal(self):
        """Which all processes of the group get."""
        def test(shell):
            process = self.start(shell, self.server("read -r line", 'echo "$line"', "exit 5"), "word")
            self.tells(process, "word")
            os.killpg(process.pid, signal.SIGINT)
            self.tells(process, "stop")
            self.ends(process, 5)

        self.under_each_shell(test)

    def test_a_second_signal_is_a_second_line(self):
        def test(shell):
            read = ["read -r line", 'echo "$line"']
            process = self.start(shell, self.server(*read, *read, "exit 6"), "word")
            self.tells(process, "word")
            for number in (signal.SIGTERM, signal.SIGINT):
                process.send_signal(number)
                self.tells(process, "stop")
            self.ends(process, 6)

        self.under_each_shell(test)

    def test_no_server(self):
        def test(shell):
            process = subprocess.run(
                [shell, str(STARTER)], env={**os.environ, "BIVRANGD": str(self.folder / "none")}, stdin=subprocess.DEVNULL,
                stderr=subprocess.PIPE, text=True, timeout=PATIENCE, check=False,
            )
            self.assertEqual(process.returncode, 127)
            self.assertIn("none", process.stderr)

        self.under_each_shell(test)

    @unittest.skipUnless(BIVRANGD.exists(), f"there is no {BIVRANGD}")
    def test_bivrangd_answers_what_it_has_read(self):
        def test(shell):
            path = self.folder / "socket"
            config = self.folder / "config"
            config.write_text(f'[[namespace]]\nname = "main"\nport = 1\nbind = "{path}"\n')
            process = self.start(shell, BIVRANGD, "--config", config)
            self.tells(process, f"listening main {path}")
            with socket.socket(socket.AF_UNIX) as link:
                link.settimeout(PATIENCE)
                link.connect(str(path))
                link.sendall(b"SET a - 1\nGET a\n")
                told = b""
                while len(told) < len(b"OK\nVAL 1\n"):
                    told += link.recv(100)
                os.killpg(process.pid, signal.SIGINT)
                self.assertEqual(link.recv(100), b"")
            self.assertEqual(told, b"OK\nVAL 1\n")
            self.ends(process, 0)
            self.assertFalse(path.exists())

        self.under_each_shell(test)


if __name__ == "__main__":
    if not SHELLS:
        print("skipped: there is neither dash nor bash")
        sys.exit()
    unittest.main()
