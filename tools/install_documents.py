#!/usr/bin/env python3
"""Copies the documents of users into a package's folder, so that their links lead to what is installed: tools/install_documents.py ROOT

What is not installed is named and no longer linked. Pictures that they show are copied too.
"""
import os
import pathlib
import re
import sys

REPOSITORY = pathlib.Path(__file__).resolve().parent.parent
SHARED = pathlib.PurePosixPath("/usr/share/doc/cached")
# Where what stands in the repository is installed.
DOCUMENTS = {f"docs/{name}.md": SHARED / f"{name}.md" for name in ("PROTOCOL", "MEMCACHE", "OPERATING")}
DOCUMENTS["clients/README.md"] = SHARED / "CLIENTS.md"
OTHERS = {f"docs/{name}.service": f"/usr/lib/systemd/system/{name}.service" for name in ("cached", "bivrangd")}
OTHERS.update({f"docs/{name}.toml": f"/etc/{name}.toml" for name in ("cached", "bivrangd")})
LINK = re.compile(r"(!?)\[([^\]\n]*)\]\(([^)\s]+)\)")


def installed(target, document, pictures):
    """Where a link of a document leads to once it is installed; None if to nothing."""
    path, hash_mark, anchor = target.partition("#")
    if re.match(r"[a-z]+:", target) or not path:
        return target
    source = os.path.relpath((REPOSITORY / document).parent / path, REPOSITORY)
    if source.endswith(".svg") and (REPOSITORY / source).exists():
        pictures.add(source)
        return pathlib.PurePosixPath(source).name
    place = DOCUMENTS.get(source, OTHERS.get(source))
    if place is None or not (REPOSITORY / source).exists():
        return None
    return (place.name if source in DOCUMENTS else place) + hash_mark + anchor


def rewritten(document, pictures):
    """A document's text with links of what is installed."""

    def link(found):
        mark, text, target = found.groups()
        place = installed(target, document, pictures)
        return text if place is None else f"{mark}[{text}]({place})"

    return LINK.sub(link, (REPOSITORY / document).read_text(encoding="utf-8"))


def main():
    root = pathlib.Path(sys.argv[1])
    pictures = set()
    for document, place in DOCUMENTS.items():
        # (which there are changes)
        if (REPOSITORY / document).exists():
            file = root / place.relative_to("/")
            file.parent.mkdir(parents=True, exist_ok=True)
            file.write_text(rewritten(document, pictures), encoding="utf-8")
    for picture in pictures:
        copy = root / (SHARED / pathlib.PurePosixPath(picture).name).relative_to("/")
        copy.write_bytes((REPOSITORY / picture).read_bytes())


if __name__ == "__main__":
    if len(sys.argv) != 2:
        sys.exit(__doc__)
    main()
