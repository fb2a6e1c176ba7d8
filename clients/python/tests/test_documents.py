"""The examples of clients/README.md, run against the real server."""
import ast
import contextlib
import io
import os
import re
import shlex
import shutil
import subprocess
import sys
import unittest

from support import HOST, PATIENCE, REPOSITORY, RealCase

README = REPOSITORY / "clients/README.md"
ASSIGNED = re.compile(r"^( *)(\w+) = .* # (.+)$", re.MULTILINE)
PRINTED = re.compile(r"^ *print\(.*\) +# (.+)$", re.MULTILINE)


def checked(text):
    """An example that also compares each value with the comment behind it, where that is one."""

    def with_check(line):
        indent, name, comment = line.groups()
        try:
            value = ast.literal_eval(comment)
        except (SyntaxError, ValueError):
            return line[0]
        return f"{line[0]}\n{indent}assert {name} == {value!r}, {name}"

    return ASSIGNED.sub(with_check, text)


class Readme(RealCase):
    def test_examples(self):
        ports = {"7411": "timed", "7412": "bytes"}
        for name in ports.values():
            self.client(name)
        examples = re.findall(
            r"^```python\n(.*?)^```$", README.read_text(), re.MULTILINE | re.DOTALL
        )
        self.assertEqual(len(examples), 4)
        for text in examples:
            for port, name in ports.items():
                text = text.replace(port, str(self.server.ports[name]))
            output = io.StringIO()
            with contextlib.redirect_stdout(output):
                exec(compile(checked(text), str(README), "exec"), {})
            for printed in PRINTED.findall(text):
                self.assertIn(printed, output.getvalue())

    @unittest.skipUnless(shutil.which("bash"), "there is no bash")
    def test_commands(self):
        """Each command, whose line begins with a dollar sign, prints what stands below it."""
        self.client("main")
        port = self.server.ports["main"]
        (text,) = re.findall(
            r"^```console\n(.*?)^```$", README.read_text(), re.MULTILINE | re.DOTALL
        )
        text = text.replace("7411", str(port))
        script = re.sub(r"^(?!\$ ).*\n", "", text, flags=re.MULTILINE).replace("$ ", "")
        wanted = re.sub(r"^\$ .*\n", "", text, flags=re.MULTILINE)
        command = f"bivrang() {{ {shlex.quote(sys.executable)} -B -m bivrang \"$@\"; }}\n"
        told = subprocess.run(
            ["bash", "-c", command + script],
            cwd=REPOSITORY / "clients/python",
            env={**os.environ, "BIVRANG_SERVER": f"{HOST}:{port}"},
            stdout=subprocess.PIPE,
            timeout=PATIENCE,
            check=True,
        )
        self.assertEqual(told.stdout.decode(), wanted)

    def test_values_are_compared(self):
        with self.assertRaises(AssertionError):
            exec(checked("value = 1 + 1      # 3\n"))
        exec(checked("value = 1 + 1      # two\nvalue = 1 + 1   # 2\n"))


if __name__ == "__main__":
    unittest.main()
