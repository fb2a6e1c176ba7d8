#!/usr/bin/env python3
"""The servers of this repository, one row for each protocol that they serve: what is run against one of them is run against all.

    python3 benches/servers.py      prints the path of each server of lines
"""
import os
import pathlib
import sys

CRATES = pathlib.Path(__file__).resolve().parent.parent / "crates"
# An item of the memcache protocol counts so many bytes beside its key and its value; short ones have at most so many in both.
ITEM_COST, SHORT_ITEM = 230, 110


class Row:
    """A program that serves what `--config FILE` says. `rt run` in the crate of its name leaves it at out; the environment variable of its
    name in capitals names another one."""

    def __init__(self, name, keys="", program=None):
        self.name, program = name, program or name
        self.path = pathlib.Path(os.environ.get(program.upper(), CRATES / program / "out" / program)).resolve()
        self.program = program
        # what each namespace's table says in addition, so that it may have as many connections as the tests make
        self.keys = keys

    def capacity(self, count, _size=0):
        """The line of a namespace's table by which it holds so many values, of so many bytes each."""
        return f"capacity = {count}\n"


class ItemRow(Row):
    """One that serves the memcache protocol, whose capacity is in bytes."""

    def capacity(self, count, size=SHORT_ITEM):
        return f"capacity = {count * (ITEM_COST + size)}\n"


LIMIT = "max_connections = 100000\n"
ROWS = {row.name: row for row in (Row("cached"), Row("bivrangd", LIMIT))}
MEMCACHE = ItemRow("memcache", f'protocol = "memcache"\n{LIMIT}', "bivrangd")
ALL = {**ROWS, "memcache": MEMCACHE}


def rows_of(names, of=ROWS):
    """The rows with these names, or all; exits where one of their programs is missing."""
    rows = [of[name] for name in names or of]
    for row in rows:
        if not row.path.exists():
            sys.exit(f"there is no {row.path}: in crates/{row.program} `rt run` leaves it there")
    return rows


if __name__ == "__main__":
    if len(sys.argv) > 1:
        sys.exit(__doc__)
    print(*(row.path for row in ROWS.values()), sep="\n")
