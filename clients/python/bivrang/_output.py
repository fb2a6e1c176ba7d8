"""What the command prints."""
import sys


def printable(text: str) -> str:
    """A text as a terminal may have it: what is not printable, which could be a command to the
    terminal, is escaped."""
    return "".join(it if it.isprintable() else ascii(it)[1:-1] for it in text)


def _escaped(line: bytes) -> bytes:
    return printable(line.decode("utf-8", "backslashreplace")).encode()


def write_lines(*lines: bytes) -> None:
    """Prints lines of any bytes, as they are unless it is to a terminal."""
    is_terminal = sys.stdout.isatty()
    for line in lines:
        sys.stdout.buffer.write((_escaped(line) if is_terminal else line) + b"\n")
    sys.stdout.buffer.flush()
