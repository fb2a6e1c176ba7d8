#!/usr/bin/env python3
"""Makes docs/promises from the sources: for each public call, the names of its clauses and what the sources say of it; the wrong bodies;
and the crates, by the first lines of their roots. Makes the examples of docs/FROM_MOKA.md from the regions between `// example: NAME` and
`// end` of the modules that crates/sync_tests proves and runs, and that of README.md from crates/cache_service_tests/src/uses/example.rt.

    python3 tools/proved.py            writes the pages, one a house, those of the wrong bodies and the crates, an index, the examples
    python3 tools/proved.py --check    says whether they are up to date; tools/compare_examples.sh runs it

A call's sentence is the first of its doc comment, and a clause's the comment right above it. Neither is proved: the clause is. A call
without clauses is listed as such.
"""
import json
import pathlib
import re
import sys

import api_docs

ROOT = pathlib.Path(__file__).resolve().parent.parent
FOLDER = ROOT / "docs/promises"
FROM_MOKA = ROOT / "docs/FROM_MOKA.md"
README = ROOT / "README.md"
USES = "crates/sync_tests/src/uses"
# A clause without a name is shown by what it states, up to so many letters.
SHORT = 100
# Crates with calls that somebody calls from outside: the public ones, and those behind the programs.
CRATES = [*api_docs.PUBLIC, "cached_server", "cached_config", "cache_loop", "bivrangd_metrics", "bivrangd_server", "transcript", "audit_text", "memcache_lines", "memcache_model", "memcache_service", "memcache_cache"]
MADE = "<!-- Made by tools/proved.py from the sources. Change the doc comments and the comments at clauses there. -->"


def houses():
    """The houses of crates.txt, in order: the name, what it is about, its crates."""
    found = []
    for line in (ROOT / "crates.txt").read_text(encoding="utf-8").split("\n")[1:]:
        head = re.match(r"# ([a-z ]+): (.*)", line)
        if head and head.group(1) != (found[-1][0] if found else ""):
            found.append((head.group(1), head.group(2), []))
        elif ":" in line and not line.startswith("#"):
            found[-1][2].append(re.split(r"[ :]", line)[0])
    return found


def sentence(docs):
    """The first sentence of a documentation, whole: a list or an example that it announces is left out."""
    text = []
    for line in docs:
        if not line and text or line.startswith(("```", "- ")):
            break
        text.append(line)
    text = " ".join(text).removeprefix("Does nothing. ").strip()
    text = re.split(r"(?<=[.!?]) (?=[A-Z`\[])", text)[0]
    return re.sub(r":$", ".", text).replace("|", "\\|")


def clauses_of(item):
    """The clauses of a call: whether it is a premise, its name, what a comment right above it says, and what it states."""
    for text in api_docs.parts_of(item)[1]:
        lines = text.split("\n")
        told = " ".join(line.strip().lstrip("/ ") for line in lines if line.strip().startswith("//"))
        body = " ".join(line.strip() for line in lines if not line.strip().startswith("//"))
        kind, name, rest = re.match(r"(ensures|requires)\*? ?([A-Za-z_0-9]*) *(.*)", body).groups()
        stated = re.sub(r"^\{ ?| ?\}$", "", rest)
        yield kind == "requires", name, told.rstrip("."), stated


def told(item):
    """The clauses of a call, in one cell."""
    needs, gives = [], []
    for is_premise, name, comment, stated in clauses_of(item):
        short = stated if len(stated) <= SHORT else "unnamed"
        word = f"`{name}`" if name else short if short == "unnamed" else "`" + short.replace("|", "\\|") + "`"
        (needs if is_premise else gives).append(word + (f" ({comment})" if comment else ""))
    return (f"*if* {', '.join(needs)}: " if needs else "") + ", ".join(gives)


class Call:
    """A call, by the name under which its house's page lists it."""

    def __init__(self, name, item, trait=None):
        self.name, self.item, self.is_inherited = name, item, trait is not None
        declared = [inner for inner in trait.inner if inner.name == item.name] if isinstance(trait, api_docs.Item) else []
        self.docs = item.docs or (declared[0].docs if declared else [])
        self.has_clauses = any(not clause[0] for clause in clauses_of(item))


def calls_of(item):
    """The calls of a declared item; those of an `impl` of a trait have the trait's contract beside their own."""
    if item.kind == "fn":
        yield Call(item.name, item)
    elif item.kind == "trait":
        yield from (Call(inner.name, inner) for inner in item.inner if inner.kind == "fn")
    elif item.kind in ("struct", "enum"):
        for impl, trait, _ in sorted(api_docs.impls_of(item), key=lambda found: bool(found[1])):
            word = api_docs.WORD.search(trait).group(0) if trait else ""
            of = (api_docs.resolve(impl.module, [word]) or trait) if trait else None
            lead = f"{word}::" if trait else ""
            yield from (Call(lead + inner.name, inner, of) for inner in impl.inner if inner.kind == "fn" and (inner.is_public or trait))


def exported():
    """Each item that one of the crates exports, once, with the names under which they do."""
    found = {}
    for crate in CRATES:
        for one in api_docs.exported(api_docs.crate_of(crate)):
            found.setdefault(id(one.item), (one.item, []))[1].append(f"{crate}::{one.anchor}")
    for one, alias in [(item, item) for item, _ in found.values() if item.kind == "type"]:
        target = re.search(r"= *([A-Za-z_]+)", " ".join(one.text))
        meant = api_docs.resolve(alias.module, [target.group(1)]) if target else None
        if id(meant) in found:
            found[id(meant)][1].extend(found[id(one)][1])
        elif isinstance(meant, api_docs.Item):
            found[id(meant)] = (meant, list(found[id(one)][1]))
    return list(found.values())


def table(calls, first):
    rows = [f"| {first} | What the sources say | Clauses |", "|-|-|-|"]
    rows += [f"| `{call.name}` | {sentence(call.docs)} | {told(call.item)} |" for call in calls if call.has_clauses]
    return rows if len(rows) > 2 else []


def without(calls):
    """The line that names calls of which no clause speaks."""
    names = dict.fromkeys(f"`{call.name}`" for call in calls if not call.has_clauses and not call.is_inherited)
    return [f"Without a clause: {', '.join(names)}."] if names else []


def spaced(parts):
    """Lines of parts that are not empty, with an empty line between them."""
    return "\n\n".join("\n".join(part) for part in parts if part)


def page(house, about, items):
    """A house's page, and its numbers of calls with clauses, of clauses, and of calls without."""
    parts = [[f"# Promises of `{house}`: {about}"], [MADE], ["[How to read this](README.md)."]]
    every, functions = [], {}
    for item, names in sorted(items, key=lambda found: (found[0].kind == "fn", found[0].name)):
        calls = list(calls_of(item))
        every += calls
        if item.kind == "fn":
            functions.setdefault(item.module.crate.name, []).extend(calls)
        elif table(calls, "Call") or without(calls):
            shown = ", ".join(f"`{name}`" for name in sorted(set(names)))
            parts += [[f"## {item.name}"], [f"{sentence(item.docs)} In {shown}.".strip()], table(calls, "Call"), without(calls)]
    for crate, calls in sorted(functions.items()):
        parts += [[f"## Functions of {crate}"], table(calls, "Function"), without(calls)]
    count = [sum(call.has_clauses for call in every), sum(not clause[0] for call in every for clause in clauses_of(call.item)),
             sum(not call.has_clauses and not call.is_inherited for call in every)]
    return spaced(parts) + "\n", count


def crates_page():
    """The page of the crates, house by house."""
    rows = []
    for house, about, names in houses():
        rows.append(f"| **{house}** | *{about}* |")
        for crate in names:
            source = next(file for file in (ROOT / f"crates/{crate}/src/{name}.rt" for name in ("lib", "main")) if file.exists())
            docs = [line[3:].removeprefix(" ") for line in source.read_text(encoding="utf-8").split("\n") if line.startswith("//!")]
            name = f"[`{crate}`](../../crates/{crate}/README.md)" if (source.parent.parent / "README.md").exists() else f"`{crate}`"
            told = " ".join(docs[: docs.index("")] if "" in docs else docs)
            rows.append(f"| {name}{', public' if crate in api_docs.PUBLIC else ''} | {told} |")
    return spaced([
        ["# Crates"],
        ["<!-- Made by tools/proved.py from the first lines of the crates' roots. -->"],
        ["By house, lowest first. [crates.txt](../../crates.txt) lists what each depends on; [ARCHITECTURE.md](../ARCHITECTURE.md) says how the"
         " houses stand on each other."],
        ["| Crate | Contents |", "|-|-|", *rows],
    ]) + "\n"


def with_examples(text):
    """FROM_MOKA.md with its examples. Each region of the uses is shown there, or its file is linked."""
    regions, linked = {}, set()
    for file in sorted((ROOT / USES).glob("*.rt")):
        found = dict(re.findall(r"(?ms)^// example: (\w+)\n(.*?)^// end$", file.read_text(encoding="utf-8")))
        regions.update(found)
        linked |= found.keys() if f"{USES}/{file.name}" in text else set()
    shown = set(re.findall(r"(?m)^<!-- example: (\w+) -->$", text))
    if regions.keys() != shown | linked:
        sys.exit(f"docs/FROM_MOKA.md shows or links other examples than {USES} has: {', '.join(sorted(regions.keys() ^ (shown | linked)))}")
    return re.sub(r"(?ms)^<!-- example: (\w+) -->\n```rust\n.*?^```$", lambda found: f"<!-- example: {found[1]} -->\n```rust\n{regions[found[1]]}```", text)


def with_service(text):
    """README.md with its example, a module without its first line."""
    code = (ROOT / "crates/cache_service_tests/src/uses/example.rt").read_text(encoding="utf-8").split("\n", 1)[1]
    return re.sub(r"(?s)(<!-- example: service -->\n```rust\n).*?```", lambda found: f"{found[1]}{code.strip(chr(10))}\n```", text)


def stand_for(edits, refused):
    """The rows of the wrong programs, each with the bodies that stand for it, or the tests that catch it."""
    there = {f"{crate}/{name}" for crate, names in edits.items() for name in names}
    rows, program = [], ""
    for line in (ROOT / "tools/wrong_bodies/programs.txt").read_text(encoding="utf-8").splitlines():
        words = line.split()
        if not words or line.startswith("#"):
            continue
        if not line.startswith(" "):
            program = line
            rows.append([program, [], []])
        elif words[0] == "test":
            rows[-1][2] += words[1:]
        else:
            rows[-1][1] += words
    for _, bodies, _ in rows:
        if unknown := [it for it in bodies if it not in there]:
            sys.exit(f"tools/wrong_bodies/programs.txt names bodies that are not there: {', '.join(unknown)}")
    by = [", ".join(f"`{it}` ({refused.get(it, 'not tried')})" for it in bodies) + ("; " if bodies and tests else "")
           + (f"the test {' or '.join(f'`{it}`' for it in tests)}" if tests else "") for _, bodies, tests in rows]
    return [f"| {program} | {how} |" for (program, _, _), how in zip(rows, by)]


def wrong_bodies():
    """The page of the edits that the prover has to refuse, with how each was refused when `tools/wrong_bodies.py` last tried it."""
    edits = {}
    for file in ROOT.glob("tools/wrong_bodies/*/*.edit"):
        edits.setdefault(file.parent.name, []).append(file.stem)
    refused = {name: row["word"] for name, row in json.loads((ROOT / "tools/wrong_bodies/results.json").read_text(encoding="utf-8")).items()}
    ways = {True: {}, False: {}}
    for crate, names in edits.items():
        for name in sorted(names):
            word = refused.get(f"{crate}/{name}", "not tried")
            ways[word == "clause"].setdefault(crate, []).append(f"`{name}`" + (f" ({word})" if word != "clause" else ""))
    rows = [f"| `{crate}` | {', '.join(ways[True].get(crate, []))} | {', '.join(ways[False].get(crate, []))} |" for crate in sorted(edits)]
    count = sum(map(len, edits.values()))
    return spaced([
        ["# Wrong bodies"],
        [MADE.replace(" Change the doc comments and the comments at clauses there.", "")],
        [f"The {count} edits that the prover has to refuse: `tools/wrong_bodies/CRATE/NAME.edit`."
         " [PROVED.md](../PROVED.md#wrong-bodies) says what *clause*, *premise*, *answer* and *form* mean."],
        ["## Wrong programs"],
        ["| A wrong program | Refused |", "|-|-|", *stand_for(edits, refused)],
        ["## By crate"],
        ["Beside each edit in the last column stands one of the column before it, of this crate or of one above."],
        ["| Crate | Refused by a clause | Refused otherwise |", "|-|-|-|", *rows],
    ]) + "\n"


def pages():
    """The texts by their files."""
    items, made, rows = exported(), {}, []
    for house, about, crates in houses():
        own = [found for found in items if found[0].module.crate.name in crates]
        if own:
            made[FOLDER / f"{house}.md"], count = page(house, about, own)
            rows.append(f"| [{house}]({house}.md) | {about} | {' | '.join(map(str, count))} |")
    made[FOLDER / "wrong_bodies.md"] = wrong_bodies()
    made[FOLDER / "crates.md"] = crates_page()
    made[FOLDER / "README.md"] = spaced([
        ["# Promises, call by call"],
        [MADE],
        ["Each row is a call of a public crate, or of one behind a program: the first sentence that its source says of it, and the names of"
         " its clauses. **Proved are the clauses**, and not the sentence, which may say more. The text of a clause stands at the call in"
         " `crates/` and, with links to the definitions that it cites, in the pages of the API (`python3 tools/api_docs.py FOLDER`). Behind"
         " *if* stand premises, which a caller shows. A short clause without a name is shown as it stands."],
        ["No contract says what a call without a clause does. A trait's calls at a type that implements it are listed where they have"
         " clauses beside the trait's. [PROVED.md](../PROVED.md) says what clauses mean together, and what is open."],
        ["| House | About | Calls with clauses | Clauses | Calls without |", "|-|-|-|-|-|", *rows],
    ]) + "\n"
    made[FROM_MOKA] = with_examples(FROM_MOKA.read_text(encoding="utf-8"))
    made[README] = with_service(README.read_text(encoding="utf-8"))
    return made


def main():
    made = pages()
    there = {file: file.read_text(encoding="utf-8") for file in [*FOLDER.glob("*.md"), FROM_MOKA, README]}
    old = sorted(str(file.relative_to(ROOT)) for file in {*made, *there} if made.get(file) != there.get(file))
    if sys.argv[1:] == ["--check"]:
        if old:
            sys.exit(f"not up to date: {', '.join(old)}; python3 tools/proved.py makes them anew")
    elif sys.argv[1:]:
        sys.exit(__doc__)
    else:
        FOLDER.mkdir(exist_ok=True)
        for file in there.keys() - made.keys():
            file.unlink()
        for file, text in made.items():
            file.write_text(text, encoding="utf-8")


if __name__ == "__main__":
    main()
