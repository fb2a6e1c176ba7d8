"""Tests of the client, against the real server and against fake ones that break their replies.

    python3 clients/python/tests [PATH_OF_CACHED] [unittest's words, such as test_aio or -v]

The path is crates/cached/out/cached where none is given. Without a module's name all are run. All
is on 127.0.0.1, on free ports, with configurations in a temporary folder, and ends by itself,
mostly within a minute.
"""
import os
import pathlib
import sys
import unittest

FOLDER = pathlib.Path(__file__).resolve().parent
PROGRAM = FOLDER.parents[2] / "crates/cached/out/cached"


def main():
    words = sys.argv[1:]
    program = pathlib.Path(words.pop(0)).resolve() if words and "/" in words[0] else PROGRAM
    if not program.exists():
        sys.exit(f"there is no {program}: name one, or in crates/cached `rt run` leaves it there")
    os.environ["CACHED"] = str(program)
    os.chdir(FOLDER)
    sys.path.insert(0, str(FOLDER))
    from support import TheServer

    try:
        unittest.main(module=None, argv=[sys.argv[0], *words])
    finally:
        TheServer.stop()


if __name__ == "__main__":
    main()
