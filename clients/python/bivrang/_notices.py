"""Prints the notices of a server: the values that left it, and why.

    bivrangd --config FILE | bivrang notices
    bivrang notices --cause Size --name sessions /var/log/bivrangd.log

Each is a line `NAME NOTE cause key value`, as the server writes it to its standard output; other
lines are left out. Of a file what it has is printed, to its end; with --follow also what comes,
until an interrupt, and from its start again when it shrinks.

    --name NAME          those of this namespace
    --cause CAUSE        those with this cause: Expired, Explicit, Replaced or Size
    --prefix PREFIX      those whose keys begin so
    --follow             go on at the end of the file
"""
import argparse
import os
import re
import sys
from typing import Optional, Sequence

from ._output import write_lines
from ._watch import CAUSES, CannotWatch, Source, open_log

NOTICE = re.compile(rb"([^ ]+) NOTE (%s) ([^ ]+) .*" % "|".join(CAUSES).encode(), re.DOTALL)


class Printer:
    """Prints those notices that are wanted, each once its line is complete."""

    def __init__(self, words: argparse.Namespace) -> None:
        self.name: Optional[bytes] = words.name
        self.cause: Optional[bytes] = words.cause and words.cause.encode()
        self.prefix: bytes = words.prefix
        self.rest = b""

    def begin_anew(self) -> None:
        """The next bytes do not continue the line that was begun."""
        self.rest = b""

    def take(self, piece: bytes) -> None:
        """Adds bytes of the output."""
        *lines, self.rest = (self.rest + piece).split(b"\n")
        write_lines(*filter(self.is_wanted, lines))

    def is_wanted(self, line: bytes) -> bool:
        told = NOTICE.fullmatch(line)
        if not told:
            return False
        name, cause, key = told.groups()
        is_named = self.name in (None, name) and self.cause in (None, cause)
        return is_named and key.startswith(self.prefix)


def read_words(words: Optional[Sequence[str]]) -> argparse.Namespace:
    parser = argparse.ArgumentParser(
        prog="bivrang notices",
        usage="bivrang notices [--name NAME] [--cause CAUSE] [--prefix PREFIX] [[--follow] FILE]",
        description=__doc__,
        formatter_class=argparse.RawDescriptionHelpFormatter,
        add_help=False,
    )
    parser.add_argument("--help", "-h", action="help", help=argparse.SUPPRESS)
    parser.add_argument("--name", type=os.fsencode, help=argparse.SUPPRESS)
    parser.add_argument("--cause", choices=CAUSES, help=argparse.SUPPRESS)
    parser.add_argument("--prefix", type=os.fsencode, default=b"", help=argparse.SUPPRESS)
    parser.add_argument("--follow", action="store_true", help=argparse.SUPPRESS)
    parser.add_argument("file", nargs="?", help=argparse.SUPPRESS)
    told = parser.parse_args(words)
    if told.follow and told.file is None:
        parser.error("--follow is of a file: standard input is read to its end")
    return told


def main(words: Optional[Sequence[str]] = None) -> None:
    """Prints the notices that the words name. Ends the program."""
    told = read_words(words)
    try:
        descriptor = 0 if told.file is None else open_log(told.file)
        Source(Printer(told), descriptor, told.follow).run()
    except CannotWatch as why:
        print(f"notices: {why}", file=sys.stderr)
        sys.exit(2)
    except KeyboardInterrupt:
        sys.exit(130)
    except BrokenPipeError:
        # Nobody reads the notices any more, and Python must not flush again at exit.
        os._exit(2)
