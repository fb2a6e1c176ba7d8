"""How many words the proofs take: lines, splits by hand, relations of the service, names of specs that stand in several crates; and how
many the documents have.

    python3 tools/words.py            prints the figures
    python3 tools/words.py --check    says which of them are above what they may be, for the gate
    python3 tools/words.py --names    lists the names that stand in several crates, with the crates
    python3 tools/words.py --crates   lists lines of code, specs and proofs by crate
"""
import collections
import pathlib
import re
import sys

ROOT = pathlib.Path(__file__).resolve().parent.parent

# What a figure may be at most. Lower a bound when the figure falls; it is not raised without a reason in the commit.
BOUNDS = {
    # (one tells how a call of a shared cache that makes a value begins)
    "splits by hand": 112,
    # (six tell what becomes of a loop's loads, sixteen what it does for its connections, ten what a connection is owed, eleven of the history
    # of all holds)
    "relations of the service's specs": 560,
    "names of relations in several crates": 0,
    "names of functions in several crates": 0,
}


def files(part, crate="*"):
    return sorted(it for it in (ROOT / "crates").glob(f"{crate}/{part}/**/*") if it.suffix in (".rt", ".antt") and "out" not in it.parts)


def crate_of(path):
    return path.relative_to(ROOT / "crates").parts[0]


def lines_of(paths):
    return sum(len(it.read_text(encoding="utf-8").splitlines()) for it in paths)


def declared(path):
    """The public names that a file of specs declares, each with the text of its declaration up to the body."""
    text = path.read_text(encoding="utf-8").splitlines()
    for at, line in enumerate(text):
        # (a field of a record stands deeper)
        if re.match(r"^(  )?(abbrev pub|pub abbrev|pub record|pub data|record pub|data pub) ", line):
            name = re.sub(r"^(abbrev pub|pub abbrev|pub record|pub data|record pub|data pub) ", "", line.strip()).split()[0].rstrip(":")
            head = [line.strip()]
            while at + 1 < len(text) and text[at + 1].startswith("    ") and not head[-1].endswith(("where", "=")):
                at += 1
                head.append(text[at].strip())
            yield name, " ".join(head)


def words_by_hand():
    """The words of all documents, without code, tables, the targets of links, and what is made from sources."""
    count = 0
    for path in ROOT.rglob("*.md"):
        if not {"out", "target", "promises"} & set(path.relative_to(ROOT).parts):
            text = re.sub(r"<!-- figures:.*?<!-- end of figures -->|```.*?```", "", path.read_text(encoding="utf-8"), flags=re.DOTALL)
            text = re.sub(r"^(    |\|).*$", "", text, flags=re.MULTILINE)
            count += len(re.findall(r"[A-Za-z0-9`][^\s|]*", re.sub(r"\]\([^)]*\)", "]", text)))
    return count


def figures():
    specs = files("specs")
    crates_of = collections.defaultdict(set)
    relations = 0
    for path in specs:
        for name, head in declared(path):
            crates_of[name].add(crate_of(path))
            if crate_of(path).startswith("cache_") and not crate_of(path).endswith("_tests") and re.search(r"Type \d( where)?$", head):
                relations += 1
    several = {name: sorted(of) for name, of in crates_of.items() if len(of) > 1}
    splits = sum(len(re.findall(r"\(b : Bool\)", path.read_text(encoding="utf-8"))) for path in files("proofs") + specs)
    capital = {name: of for name, of in several.items() if name[0].isupper()}
    return {
        "lines of code": lines_of(files("src")),
        "lines of specs": lines_of(specs),
        "lines of proofs": lines_of(files("proofs")),
        "splits by hand": splits,
        "relations of the service's specs": relations,
        "names of relations in several crates": len(capital),
        "names of functions in several crates": len(several) - len(capital),
        "words of documents": words_by_hand(),
    }, several


def main(words):
    found, several = figures()
    if words == ["--names"]:
        for name, of in sorted(several.items()):
            print(f"{name}: {' '.join(of)}")
        return 0
    if words == ["--crates"]:
        print(f"{'crate':24} {'code':>7} {'specs':>7} {'proofs':>7}")
        for crate in sorted(it.name for it in (ROOT / "crates").iterdir() if it.is_dir()):
            print(f"{crate:24} " + " ".join(f"{lines_of(files(part, crate)):>7}" for part in ("src", "specs", "proofs")))
        return 0
    above = [name for name, bound in BOUNDS.items() if found[name] > bound]
    if words == ["--check"]:
        for name in above:
            print(f"tools/words.py: {name}: {found[name]}, above {BOUNDS[name]}")
        return 1 if above else 0
    if words:
        print(__doc__.strip())
        return 0 if words in (["--help"], ["-h"]) else 2
    for name, value in found.items():
        print(f"{value:>8,}  {name}" + (f" (at most {BOUNDS[name]:,})" if name in BOUNDS else ""))
    return 0


if __name__ == "__main__":
    sys.exit(main(sys.argv[1:]))
