#!/usr/bin/env python3
"""Checks the links of all documents: each file is there, and each heading. `python3 tools/test_links.py` takes a second.

    python3 tools/test_links.py [FOLDER]      of those in a folder where a package is installed, which is their `/`
"""
import functools
import pathlib
import re
import sys

ROOT = pathlib.Path(sys.argv[1] if len(sys.argv) > 1 else pathlib.Path(__file__).parent.parent).resolve()
LINK = re.compile(r"!?\[[^\]\n]*\]\(([^)\s]+)\)")
FENCED = re.compile(r"^(```|~~~).*?^\1", re.MULTILINE | re.DOTALL)


@functools.cache
def documents():
    """The documents outside folders of what was built."""
    built = {".git", "out", "target"}
    return [file for file in sorted(ROOT.rglob("*.md")) if not built & set(file.relative_to(ROOT).parts)]


def anchors(text):
    """The names by which a document's headings are linked."""
    for heading in re.findall(r"^#+ (.*)$", FENCED.sub("", text), re.MULTILINE):
        yield re.sub(r"[^\w\- ]", "", heading.lower()).replace(" ", "-")


def faults(file):
    text = file.read_text(encoding="utf-8")
    for link in LINK.findall(re.sub(r"`[^`\n]*`", "", FENCED.sub("", text))):
        if re.match(r"[a-z]+:", link):
            continue
        path, _, anchor = link.partition("#")
        target = (ROOT / path[1:] if path.startswith("/") else file.parent / path).resolve() if path else file
        if not target.exists() or ROOT not in [target, *target.parents]:
            yield f"{link} is not there"
        elif anchor and anchor not in anchors(target.read_text(encoding="utf-8")):
            yield f"{link} has no such heading"


def main():
    found = [(file, fault) for file in documents() for fault in faults(file)]
    for file, fault in found:
        print(f"{file.relative_to(ROOT)}: {fault}", file=sys.stderr)
    # A document that no other links is not found by a reader.
    linked = {(file.parent / link.partition("#")[0]).resolve() for file in documents() for link in LINK.findall(file.read_text(encoding="utf-8"))}
    lost = [name for name in (ROOT / "docs").glob("*.md") if name not in linked and name.name != "README.md"]
    for name in lost:
        print(f"{name.relative_to(ROOT)}: no document links it", file=sys.stderr)
    sys.exit(bool(found or lost))


if __name__ == "__main__":
    main()
