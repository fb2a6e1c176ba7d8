#!/usr/bin/env python3
"""Copies crates, and all that they stand on, into a repository of your own.

    python3 tools/take_crates.py FOLDER CRATE..

FOLDER is created if it is not there. Its crates.txt gets the crates' lines, and its HANDLES this repository's, if it has none. What is
there already is replaced by what is here, so the same command brings a later version; the lines of other crates stay.
"""
import pathlib
import shutil
import sys

ROOT = pathlib.Path(__file__).resolve().parent.parent


def lines_of(file):
    """The lines of a crates.txt by the names of their crates, lowest first."""
    texts = file.read_text(encoding="utf-8").split("\n") if file.exists() else []
    bare = [text.partition("#")[0].strip() for text in texts]
    return {text.split(":")[0].split()[0]: text for text in bare if ":" in text}


def needed(lines, names):
    """The crates of this repository that some stand on, these included."""
    found = set()
    waiting = list(names)
    while waiting:
        name = waiting.pop()
        if name in lines and name not in found:
            found.add(name)
            waiting += lines[name].split(":")[1].split()
    return [name for name in lines if name in found]


def main():
    lines = lines_of(ROOT / "crates.txt")
    if len(sys.argv) < 3 or any(name not in lines for name in sys.argv[2:]):
        sys.exit(__doc__)
    folder = pathlib.Path(sys.argv[1])
    taken = needed(lines, sys.argv[2:])
    for name in taken:
        target = folder / "crates" / name
        for part in ("src", "specs", "proofs"):
            shutil.rmtree(target / part, ignore_errors=True)
        shutil.copytree(ROOT / "crates" / name, target, ignore=shutil.ignore_patterns("out"), dirs_exist_ok=True)
    others = [text for name, text in lines_of(folder / "crates.txt").items() if name not in taken]
    (folder / "crates.txt").write_text("\n".join([lines[name] for name in taken] + others) + "\n", encoding="utf-8")
    if not (folder / "HANDLES").exists():
        shutil.copy(ROOT / "HANDLES", folder)
    print(f"{len(taken)} crates: {' '.join(taken)}")


if __name__ == "__main__":
    main()
