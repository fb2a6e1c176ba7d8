"""How many floors a call passes: functions that only forward, functions with many arguments, the longest chain of crates; and what falls.

    python3 tools/floors.py            prints the figures
    python3 tools/floors.py --list     lists the functions that only forward, with their bodies, and those with many arguments
    python3 tools/floors.py --drops LOG
                                       how many proofs of what the gate printed are of a value's fall (`Destruct::drop`), by crate; the
                                       status is 1 if they are more than they may be

A function only forwards if its body is one call whose arguments are names, fields, or calls without arguments. Crates of tests and of
examples are left out.
"""
import collections
import functools
import pathlib
import re
import sys

ROOT = pathlib.Path(__file__).resolve().parent.parent
# As many arguments a function may have, `self` included.
MOST = 7
# As many proofs of a fall the gate may have: those of 2026-11-30. Lower it when they are fewer; it is not raised without a reason in the
# commit. A type's fall is proved again in each crate in which it falls.
MOST_DROPS = 920
DROP = re.compile(r"fn (\w+)::.*Destruct::drop: proved")
HEAD = re.compile(r"( *)(?:pub(?:\([a-z]+\))? )?fn (\w+)")
# What a call that forwards may pass.
PLAIN = re.compile(r"(?:&mut |[&*])*[\w.:]+(?:\(\))?\??")
CALL = re.compile(r"(?:Ok\()?((?:&mut |[&*])*[\w.:<> ,]+?)\(((?:[^(){}]|\(\))*)\)\??\)?;?")
MAKES = re.compile(r"(?:Ok|Err|Some|Vec::|String::)")


def crates():
    """The crates that others stand on, and programs: by name those below."""
    lines = (it.split("#")[0] for it in (ROOT / "crates.txt").read_text(encoding="utf-8").splitlines())
    named = [it.split(":") for it in lines if ":" in it]
    below = {name.split()[0]: those.split() for name, those in named}
    own = {name for name in below if not name.endswith("_tests")}
    return {name: [it for it in those if it in own] for name, those in below.items() if name in own}


def functions(lines):
    """The functions of a file that have a body: of each its name, its head, and the lines of its body."""
    at = 0
    while at < len(lines):
        found = HEAD.match(lines[at])
        if not found:
            at += 1
            continue
        inner, name = found.groups()
        first = at
        one_line, opens = re.compile(inner + r"\{ (.*) \}$"), re.compile(inner + r"(\{|[)>].* \{|(pub.*)?fn .* \{)$")
        while not (opens.match(lines[at]) or lines[at].endswith((";", "{}")) or one_line.match(lines[at])):
            at += 1
        head, short = " ".join(it.strip() for it in lines[first:at + 1]), one_line.match(lines[at])
        body = [short.group(1)] if short else []
        if lines[at].endswith("{"):
            at += 1
            while lines[at] != inner + "}":
                body.append(lines[at].strip())
                at += 1
        at += 1
        if body:
            yield name, head, [it for it in body if not it.startswith("//")]


def arguments(head):
    """How many arguments a function has."""
    inside = re.sub(r"->", "", head)
    depth, start = 0, None
    for at, letter in enumerate(inside):
        depth += (letter == "<") - (letter == ">")
        if letter == "(" and depth == 0 and at > inside.index("fn "):
            start = at
            break
    if start is None:
        return 0
    depth, parts = 0, [""]
    for letter in inside[start:]:
        depth += (letter in "([{<") - (letter in ")]}>")
        if depth == 0:
            break
        if letter == "," and depth == 1:
            parts.append("")
        else:
            parts[-1] += letter
    return len([it for it in parts if it.strip("( ")])


def forwards(body):
    """Whether a body is one call that passes on what is there."""
    found = CALL.fullmatch(" ".join(body))
    if not found or MAKES.match(found.group(1)):
        return False
    return all(PLAIN.fullmatch(it.strip()) for it in found.group(2).split(",") if it.strip())


def chain(below):
    """The longest chain of crates of which each stands on the one before it."""
    @functools.cache
    def to(name):
        return max((to(it) for it in below[name]), key=len, default=()) + (name,)
    return max((to(name) for name in below), key=len)


def drops(log):
    """Prints the proofs of a fall by crate, and answers whether they are as few as they have to be."""
    lines = pathlib.Path(log).read_text(encoding="utf-8", errors="replace").splitlines()
    by_crate = collections.Counter(found[1] for found in map(DROP.match, lines) if found)
    number = sum(by_crate.values())
    if not number:
        sys.exit(f"{log} has no proof of a fall: it is not what the gate printed")
    for crate, those in by_crate.most_common():
        print(f"{those:5} {crate}")
    print(f"{number} proofs of a fall, at most {MOST_DROPS}")
    return number <= MOST_DROPS


def main(words):
    if len(words) == 2 and words[0] == "--drops":
        return 0 if drops(words[1]) else 1
    if words not in ([], ["--list"]):
        print(__doc__.strip())
        return 0 if words in (["--help"], ["-h"]) else 2
    below, number, forwarding, wide = crates(), 0, collections.defaultdict(list), []
    for crate in below:
        for path in sorted((ROOT / "crates" / crate / "src").rglob("*.rt")):
            text = path.read_text(encoding="utf-8").split("#[cfg(test)]")[0]
            for name, head, body in functions(text.splitlines()):
                number += 1
                if forwards(body):
                    forwarding[crate].append(f"{path.stem}::{name}: {' '.join(body)}")
                if arguments(head) > MOST:
                    wide.append(f"{crate}::{name}: {arguments(head)} arguments")
    if words:
        print("\n".join([f"{crate}: {it}" for crate, those in forwarding.items() for it in those] + wide))
        return 0
    print(f"{sum(map(len, forwarding.values()))} of {number:,} functions only forward, most of them in "
          + ", ".join(f"{crate} ({len(those)})" for crate, those in sorted(forwarding.items(), key=lambda it: -len(it[1]))[:4]))
    print(f"{len(wide)} have more than {MOST} arguments")
    longest = chain(below)
    print(f"the longest chain is of {len(longest)} crates: {', '.join(longest)}")
    return 0


if __name__ == "__main__":
    sys.exit(main(sys.argv[1:]))
