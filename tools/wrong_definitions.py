"""Tries wrong definitions: edits of the definitions on which promises rest, which a worked row or a law has to refuse.

    python3 tools/wrong_definitions.py [--prove] [--laws] [--anew] [--list] [CRATE | CRATE/NAME ..]     without a name, all

An edit is a file of tools/wrong_definitions/CRATE: a line `file: PATH`, pairs of lines `old: TEXT` and `new: TEXT` (TEXT occurs once in
the file), and these:

  definition: NAME    what it changes
  row: FUNCTION ..    the worked rows that are to refuse it; they are tried first, then all the others
  law: CRATE ..       the crates whose laws are to refuse it where no row does, the cheapest first
  passes: REASON      why nothing can refuse it: the definition means the same with it

The worked rows of moka_audit_tests and engine_tests are closed computations that the gate proves. tools/spec_values.py computes each of
them, over the definitions as they are, of which all have to be true, and over the changed ones, of which one has to be false. What no
such row refuses is tried with `--prove` and `rt` on the path: many in one check of a crate that has the definitions with all rows, whose
rows have to be proved, and for each edit copies of the modules that stand on what it changes and the rows over these; so nothing above has
to be built. What still passes is tried with `--laws`: in a copy of the tree, by checks of the crates that it names.

  row       refused by a worked row, which is false of the changed definition
  proof     refused as the prover no longer proves a worked row, of those that are not computed here
  law       refused in a crate of laws. Their proofs are written by hand, so this alone does not show that a law is false
  code      refused in a crate whose code was proved to follow the definition
  same      passes, for the reason that the edit gives
  PASSED    nothing refuses it
  BAD       it cannot be applied or read, or the check ended without a verdict

Results are kept in tools/wrong_definitions/results.json; an edit whose row was made over the same text is not tried again. `--anew` tries all
again, `--list` tries none and lists those that would be tried, `--room N` proves so many in one check. The last line has the sums. The status
is 0 if each was tried, none is BAD, and at least nine of ten are refused.
"""

import argparse
import collections
import dataclasses
import hashlib
import json
import os
import re
import shutil
import subprocess
import sys
import tempfile
import threading

sys.dont_write_bytecode = True
import spec_values  # noqa: E402

ROOT = os.path.dirname(os.path.dirname(os.path.abspath(__file__)))
EDITS = os.path.join(ROOT, "tools", "wrong_definitions")
KEPT = os.path.join(EDITS, "results.json")
SECONDS = 3600


@dataclasses.dataclass
class House:
    """A crate of definitions, the crate of its worked rows, and what its check can do without."""

    rows: str
    functions: tuple
    below: str
    without: tuple = ()


HOUSES = {
    "audit_model": House("moka_audit_tests", ("src/model.rt",), "audit_model: thiserror"),
    "engine_reference": House(
        "engine_tests",
        ("src/laws/reference.rt", "src/laws/runs.rt"),
        "policy_base: slab thiserror\nengine_reference: policy_base rand_core uuid thiserror",
        ("src/identifiers", "src/laws", "src/run_laws", "specs/Identifiers"),
    ),
}


def cut_at(byte, text):
    place = text.index(byte) if byte in text else len(text)
    return text[:place], spec_values.some(text[place + 1:]) if place < len(text) else spec_values.NONE


# Definitions that take long as they are written, and functions that mean the same.
KNOWN = {
    (("Bytewise",), "cut_at"): (2, spec_values.Function(2, cut_at)),
    (("Stream",), "without_return"): (1, spec_values.Function(1, lambda text: text[:-1] if text[-1:] == (13,) else text)),
}


def read(path):
    with open(path, encoding="utf-8") as file:
        return file.read()


def write(path, text):
    os.makedirs(os.path.dirname(path), exist_ok=True)
    with open(path, "w", encoding="utf-8") as file:
        file.write(text)


class Edit:
    """A wrong definition: what is replaced by what in which file, and what is said of it."""

    def __init__(self, crate, name):
        self.crate, self.name, self.pairs, self.path = crate, name, [], ""
        self.said = collections.defaultdict(str)
        self.text = read(os.path.join(EDITS, crate, f"{name}.edit"))
        old = None
        for line in self.text.split("\n"):
            word, _, rest = line.partition(":")
            rest = rest.removeprefix(" ")
            if word == "file":
                self.path = rest.strip()
            elif word == "old":
                old = rest
            elif word == "new":
                self.pairs.append((old, rest))
            elif word in ("definition", "row", "law", "passes"):
                self.said[word] = rest.strip()

    def module(self):
        return tuple(self.path.removeprefix("specs/").removesuffix(".antt").split("/"))

    def applied(self, text):
        """The text with the change. A ValueError says why it can't be made."""
        if not self.pairs:
            raise ValueError("it changes nothing")
        for old, new in self.pairs:
            if text.count(old) != 1:
                raise ValueError(f"an `old:` text stands {text.count(old)} times in {self.path}")
            text = text.replace(old, new)
        return text


def modules_of(folder):
    """The modules of a folder of specs that are more than a list of modules: their texts by their paths."""
    found = {}
    for at, _, files in os.walk(folder):
        for name in files:
            if name.endswith(".antt"):
                text = read(os.path.join(at, name))
                words = tuple(os.path.relpath(os.path.join(at, name), folder).removesuffix(".antt").split("/"))
                if words != ("Lib",) and not all(re.match(r"(pub mod |--|$)", line) for line in text.split("\n")):
                    found[words] = text
    return found


class Rows:
    """The definitions of a crate and the rows over them, as modules of one crate, and what stands on what."""

    def __init__(self, crate):
        self.crate, self.house = crate, HOUSES[crate]
        tests = os.path.join(ROOT, "crates", self.house.rows)
        self.modules = modules_of(os.path.join(ROOT, "crates", crate, "specs"))
        self.own = set(self.modules)
        for words, text in modules_of(os.path.join(tests, "specs")).items():
            self.modules[("Rows", *words)] = self.of_one_crate(text)
        self.uses = {words: self.used_by(text) for words, text in self.modules.items()}
        self.functions, self.heads = {}, {}
        for path in self.house.functions:
            text = read(os.path.join(tests, path))
            for found in re.finditer(r"(?:#\[tactic[^\n]*\n)?pub fn (\w+)\(\)\n(?:    ensures[^\n]*\n)+\{\}", text):
                self.functions[found[1]] = found[0]
                self.heads[found[1]] = self.of_one_crate("\n".join(re.findall(r"ghost use .*;", text)))
        self.answers = {}
        for name in list(self.functions):
            for path in self.house.functions:
                at = os.path.join(tests, path.replace("src/", "proofs/").removesuffix(".rt"), name, "Answers.antt")
                if os.path.exists(at):
                    text = re.sub(rf"Rattle\.{self.house.rows}\.proofs\.[\w.]*?\.?{name}\.Goals", f"Rattle.{crate}.proofs.@.{name}.Goals", read(at))
                    if f"Rattle.{self.house.rows}.proofs." in text:
                        # (it stands on laws, which this crate has not)
                        del self.functions[name]
                    else:
                        self.answers[name] = self.of_one_crate(text)

    def of_one_crate(self, text):
        return text.replace(f"Rattle.{self.house.rows}.specs.", f"Rattle.{self.crate}.specs.Rows.")

    def used_by(self, text):
        """The modules of this crate that a text uses."""
        found = re.findall(rf"Rattle\.{self.crate}\.specs\.([\w.]+?)(?:\.\{{| as |;|$|\.TheVariants)", text, re.M)
        return {words for it in found if (words := tuple(it.split("."))) in self.modules}

    def below(self, words):
        """These modules and all that they stand on."""
        found, left = set(), set(words)
        while left:
            it = left.pop()
            found.add(it)
            left |= self.uses[it] - found
        return found

    def needed(self, names):
        """The modules that these functions of rows need."""
        texts = "\n".join(f"{self.heads_of(it)}\n{self.answers.get(it, '')}" for it in names)
        return self.below(self.used_by(texts))

    def heads_of(self, name):
        """The lines by which a function's file uses the words of its clauses."""
        words = set(re.findall(r"\w+", self.functions[name]))
        lines = []
        for line in self.heads[name].split("\n"):
            head, _, rest = line.partition(".{")
            kept = [it.strip() for it in rest.partition("}")[0].split(",") if it.strip() in words]
            if kept:
                lines.append(f"{head}.{{{', '.join(kept)}}};")
        return "\n".join(lines)

    def records(self, name):
        """The records of rows that a function's clauses name, with their modules."""
        homes = {}
        for path, words in re.findall(rf"Rattle\.{self.crate}\.specs\.([\w.]+)\.\{{([^}}]*)\}}", self.heads_of(name)):
            homes.update({it.strip(): tuple(path.split(".")) for it in words.split(",")})
        return [(homes[it], it) for it in re.findall(r"ensures[^{]*\{ (\w+) \}", self.functions[name])]

    def computed(self, names, edit=None):
        """The rows of these functions, each with whether it is true; None of one that is not computed here."""
        texts, enums = dict(self.modules), {}
        for crate in re.findall(r"^(\w+):", self.house.below, re.M):
            enums.update(spec_values.enums_of(os.path.join(ROOT, "crates", crate, "src")))
            if crate != self.crate:
                below = modules_of(os.path.join(ROOT, "crates", crate, "specs"))
                texts.update({(crate, *words): text for words, text in below.items()})
        if edit:
            texts[edit.module()] = edit.applied(texts[edit.module()])
        known = {key: it for key, it in KNOWN.items() if not edit or key[0] != edit.module()}
        specs = spec_values.Specs(self.crate, texts, enums, known)
        return (((name, row), value) for name in names for home, record in self.records(name) for row, value in specs.rows(home, record))

    def sum_for(self, edit, line):
        """A checksum of all on which it depends that an edit is refused so: of its rows, if rows refuse it."""
        names = [it for it in re.findall(r"\w+", line.partition(":")[0]) if it in self.functions] or sorted(self.functions)
        texts = [f"{it} {self.modules[it]}" for it in sorted(self.needed(names))]
        return sum_of(edit.text, *texts, *(self.functions[it] + self.answers.get(it, "") for it in names))

    def tells(self, edit, names):
        """The rows among these that stand on what an edit changes."""
        return [it for it in names if it in self.functions and edit.module() in self.needed([it])]


class Check:
    """One crate with the definitions, the rows, and a copy for each edit of what stands on it."""

    def __init__(self, room, rows, edits):
        """`edits` gives for each edit the functions of rows that are to be tried."""
        self.rows, self.top = rows, os.path.join(room, "crates", rows.crate)
        self.names = {f"v{n:02}": it for n, it in enumerate(edits)}
        self.functions = dict(zip(self.names, edits.values()))
        for name in ("policy_base", rows.crate) if "policy_base" in rows.house.below else (rows.crate,):
            for part in ("src", "specs", "proofs"):
                source = os.path.join(ROOT, "crates", name, part)
                if os.path.isdir(source) and (part != "proofs" or name != rows.crate):
                    shutil.copytree(source, os.path.join(room, "crates", name, part))
        write(os.path.join(room, "crates.txt"), f"{rows.house.below}\n")
        shutil.copy(os.path.join(ROOT, "HANDLES"), room)
        self.without()
        base = {words for names in edits.values() for words in rows.needed(names) if words not in rows.own}
        tree = {words: rows.modules[words] for words in base}
        lists = [line for line in read(f"{self.top}/specs/Lib.antt").split("\n") if line]
        mods, self.bad = [], {}
        self.write_rows("right", sorted({it for names in edits.values() for it in names}), lambda text: text)
        for name, edit in self.names.items():
            try:
                self.add(tree, name, edit)
                mods.append(name)
            except ValueError as error:
                self.bad[name] = str(error)
        self.put(tree)
        lists += [f"pub mod {it}" for it in sorted({words[0] for words in tree})]
        write(f"{self.top}/specs/Lib.antt", "\n".join(lists) + "\n")
        with open(f"{self.top}/src/lib.rt", "a", encoding="utf-8") as file:
            file.write("".join(f"mod {it};\n" for it in ["right", *mods]))
        write(f"{self.top}/proofs/Lib.antt", "")
        self.mods = mods

    def without(self):
        """Leaves out the modules of the crate that no row needs, and all that stands on them."""
        for name in self.rows.house.without:
            part, word = name.split("/")
            for end in (".rt", ".antt"):
                at = os.path.join(self.top, part, word)
                shutil.rmtree(at, ignore_errors=True)
                if os.path.exists(f"{at}{end}"):
                    os.remove(f"{at}{end}")
            lib = os.path.join(self.top, part, "lib.rt" if part == "src" else "Lib.antt")
            write(lib, "".join(f"{it}\n" for it in read(lib).split("\n") if not re.search(rf"\b(mod {word}\b|{word}::)", it)))

    def add(self, tree, name, edit):
        """Adds to the modules those of an edit, and writes the functions of its rows."""
        rows, folder = self.rows, name.upper()
        needed = rows.needed(self.functions[name])
        if edit.module() not in rows.modules:
            raise ValueError(f"there is no {edit.path}")
        changed = edit.applied(rows.modules[edit.module()])
        moved = {it for it in needed | {edit.module()} if edit.module() in rows.below({it})}

        def of_copy(text):
            # (the longest names first, since one may begin another)
            for it in sorted(moved, key=lambda it: -len(".".join(it))):
                text = re.sub(rf"Rattle\.{rows.crate}\.specs\.{re.escape('.'.join(it))}(?=\.\{{| as |\.\w+\.\{{|;)", f"Rattle.{rows.crate}.specs.{folder}.{'.'.join(it)}", text)
            return text

        for it in moved:
            tree[(folder, *it)] = of_copy(changed if it == edit.module() else rows.modules[it])
        self.write_rows(name, self.functions[name], of_copy)

    def write_rows(self, name, functions, of_copy):
        """Writes functions of rows, each in a file of its own, since the words of two files may be the same."""
        rows = self.rows
        write(f"{self.top}/src/{name}.rt", "//! The rows.\n" + "".join(f"mod {it};\n" for it in functions))
        for it in functions:
            write(f"{self.top}/src/{name}/{it}.rt", f"//! The rows.\n{of_copy(rows.heads_of(it))}\n\n/// The rows.\n{rows.functions[it]}\n")
            if it in rows.answers:
                write(f"{self.top}/proofs/{name}/{it}/{it}/Answers.antt", of_copy(rows.answers[it]).replace(".proofs.@.", f".proofs.{name}.{it}."))

    def put(self, tree):
        """Writes modules, and the lists of those in each folder."""
        lists = collections.defaultdict(set)
        for words, text in tree.items():
            write(f"{self.top}/specs/{'/'.join(words)}.antt", text)
            for n in range(1, len(words)):
                lists[words[:n]].add(words[n])
        for words, names in lists.items():
            write(f"{self.top}/specs/{'/'.join(words)}.antt", "".join(f"pub mod {it}\n" for it in sorted(names)))

    def verdicts(self):
        """Checks, and gives for each edit a word and the line that shows it; no word where each row is proved."""
        only = [word for it in ("right", *self.mods) for word in ("--only", it)]
        said = checked(self.top, ["--jobs", "1", *only]) if self.mods else (0, "")
        found = {self.names[name]: ("BAD", why) for name, why in self.bad.items()}
        for name in self.mods:
            found[self.names[name]] = self.verdict(name, said[1])
        return found

    def told(self, name, said):
        return dict(re.findall(rf"^fn {self.rows.crate}::{name}::\w+::(\w+): (.*)", said, re.M))

    def verdict(self, name, said):
        lines = said.split("\n")
        told = self.told(name, said)
        bad = next((it for it in lines if re.match(rf"(\./)?(specs/{name.upper()}/|src/{name}[/.]).*error", it)), None)
        refused = [it for it, how in told.items() if how != "proved"]
        right = self.told("right", said)
        wrong = [it for it in self.functions[name] if right.get(it) != "proved"]
        if wrong:
            return "BAD", f"{wrong[0]} is not proved of the definitions as they are"
        if bad or not told:
            return "BAD", (bad or next((it for it in lines if "error" in it), lines[-1]))[:200]
        if not refused:
            return None, ""
        for line in lines:
            at = re.match(rf"(?:\./)?proofs/{name}/\w+/(\w+)/Answers\.antt:(\d+):\d+: error", line)
            if at:
                answers = read(f"{self.top}/proofs/{name}/{at[1]}/{at[1]}/Answers.antt").split("\n")[:int(at[2])]
                row = next((it[1] for line in reversed(answers) if (it := re.match(r"(?:pub |  )?(\w[\w-]*) (?=:|= refl;)", line))), at[1])
                return "proof", f"{at[1]}: {row}"
        return "proof", ", ".join(sorted(refused))


def checked(folder, words):
    how = {"stdin": subprocess.DEVNULL, "stdout": subprocess.PIPE, "stderr": subprocess.STDOUT, "text": True, "errors": "replace"}
    try:
        ran = subprocess.run(["nice", "rt", "check", *words], cwd=folder, timeout=SECONDS, check=False, **how)
    except subprocess.TimeoutExpired:
        return 1, f"error: no verdict within {SECONDS} s"
    if os.environ.get("SAID"):
        with open(os.environ["SAID"], "a", encoding="utf-8") as file:
            file.write(f"==== {folder} {' '.join(words)}\n{ran.stdout}")
    return ran.returncode, ran.stdout


def sum_of(*texts):
    return hashlib.sha256("\0".join(texts).encode()).hexdigest()[:16]


class Kept:
    """What earlier runs learned: a row an edit."""

    def __init__(self):
        self.rows = json.loads(read(KEPT)) if os.path.exists(KEPT) else {}

    def of(self, rows, edit):
        row = self.rows.get(f"{edit.crate}/{edit.name}")
        return (row["word"], row["line"]) if row and row["text"] == rows.sum_for(edit, row["line"]) else None

    def add(self, rows, edit, word, line):
        text = rows.sum_for(edit, line)
        self.rows[f"{edit.crate}/{edit.name}"] = {"word": word, "definition": edit.said["definition"], "text": text, "line": line}
        rows = ",\n".join(f"  {json.dumps(it)}: {json.dumps(self.rows[it], ensure_ascii=False)}" for it in sorted(self.rows))
        write(KEPT, f"{{\n{rows}\n}}\n")


def show(edit, word, line):
    print(f"{word or '-':7} {edit.crate}/{edit.name}{': ' + line if line else ''}", flush=True)


def try_rows(rows, edits, learn):
    """Computes the rows over each edit, those that it names first, and gives those that none of them refuses."""
    right = dict(rows.computed(rows.functions))
    for (name, row), value in right.items():
        if value is False:
            sys.exit(f"{rows.crate}: {name}: {row} is not true of the definitions as they are")
    print(f"{rows.crate}: {sum(it is True for it in right.values())} rows, {sum(it is None for it in right.values())} more are not computed", flush=True)
    left = []
    for edit in edits:
        try:
            first = rows.tells(edit, edit.said["row"].split())
            found = refusing(rows, edit, first, right) or refusing(rows, edit, [it for it in rows.tells(edit, rows.functions) if it not in first], right)
        except (ValueError, KeyError) as error:
            learn(edit, "BAD", str(error))
            continue
        if found:
            learn(edit, "row", found)
        else:
            left.append(edit)
    return left


def refusing(rows, edit, names, right):
    """The first row that is false."""
    if edit.module() not in rows.modules:
        raise ValueError(f"there is no {edit.path}")
    return next((": ".join(row) for row, value in rows.computed(names, edit) if value is not True and right[row]), "")


def try_proofs(rows, edits, room, learn):
    """Tries edits by proofs of rows, those that they name first, and then by all."""
    todo = [(it, rows.tells(it, it.said["row"].split()) or rows.tells(it, rows.functions)) for it in edits]
    for at in range(0, len(todo), room):
        with tempfile.TemporaryDirectory(prefix="definitions-") as folder:
            found = Check(folder, rows, dict(todo[at:at + room])).verdicts()
        for it, (word, line) in found.items():
            learn(it, word or "", line)


def try_laws(edit):
    """Tries an edit in a copy of the tree, by a check of each crate that it names."""
    with tempfile.TemporaryDirectory(prefix="definitions-") as room:
        for name in ("crates.txt", "HANDLES"):
            shutil.copy(os.path.join(ROOT, name), room)
        for crate in os.listdir(os.path.join(ROOT, "crates")):
            for part in ("src", "specs", "proofs"):
                source = os.path.join(ROOT, "crates", crate, part)
                if os.path.isdir(source):
                    shutil.copytree(source, os.path.join(room, "crates", crate, part))
        path = os.path.join(room, "crates", edit.crate, edit.path)
        write(path, edit.applied(read(path)))
        for crate in edit.said["law"].split():
            status, said = checked(os.path.join(room, "crates", crate), [])
            line = next((it for it in said.split("\n") if re.match(r"(note: )?\S+:\d+:\d+:.*", it)), "")[:200]
            if status and not line:
                return "BAD", said.rstrip("\n").rpartition("\n")[2][:200]
            if status:
                return ("law" if crate.endswith("_laws") or crate == edit.crate else "code"), f"{crate}: {line}"
    return "", ""


def main():
    words = argparse.ArgumentParser(description=__doc__, formatter_class=argparse.RawDescriptionHelpFormatter, add_help=False)
    words.add_argument("-h", "--help", action="help", help=argparse.SUPPRESS)
    words.add_argument("--room", type=int, default=24, help=argparse.SUPPRESS)
    for it in ("--prove", "--laws", "--anew", "--list"):
        words.add_argument(it, action="store_true", help=argparse.SUPPRESS)
    words.add_argument("names", nargs="*", help=argparse.SUPPRESS)
    words = words.parse_args()
    edits = [Edit(crate, it.removesuffix(".edit")) for crate in HOUSES if os.path.isdir(f"{EDITS}/{crate}")
             for it in sorted(os.listdir(f"{EDITS}/{crate}")) if it.endswith(".edit")]
    edits = [it for it in edits if not words.names or it.crate in words.names or f"{it.crate}/{it.name}" in words.names]
    if not edits:
        sys.exit("no such wrong definition")
    kept, told = Kept(), {}
    for crate in HOUSES:
        of_crate = [it for it in edits if it.crate == crate]
        rows = Rows(crate)

        def learn(edit, word, line):
            word = word or ("same" if edit.said["passes"] else "PASSED")
            line = line or edit.said["passes"]
            told[edit] = word
            if word != "BAD":
                kept.add(rows, edit, word, line)
            show(edit, word, line)

        left = []
        for it in of_crate:
            known = None if words.anew else kept.of(rows, it)
            if known and not (known[0] == "PASSED" and (words.prove or (words.laws and it.said["law"]))):
                told[it] = known[0]
                show(it, *known)
            else:
                left.append(it)
        if words.list or not left:
            for it in left:
                show(it, "to try", "")
            continue
        left = try_rows(rows, left, learn)
        prove = [it for it in left if words.prove and not it.said["passes"]]
        try_proofs(rows, prove, words.room, learn)
        for it in left:
            if it not in prove or (told.get(it) == "PASSED" and words.laws and it.said["law"]):
                learn(it, *(try_laws(it) if words.laws and it.said["law"] else ("", "")))
    if words.list:
        return 0
    counts = collections.Counter(told.values())
    refused = sum(counts[it] for it in ("row", "proof", "law", "code"))
    print(f"{len(edits)} wrong definitions: {counts['row']} refused by a worked row, {counts['proof']} by the proof of one, {counts['law']} by a law, "
          f"{counts['code']} by code; {counts['same']} mean the same; {counts['PASSED']} passed, {counts['BAD']} bad")
    return 0 if len(told) == len(edits) and not counts["BAD"] and 10 * refused >= 9 * len(edits) else 1


def run():
    """Runs with room for deep recursion."""
    status = []
    sys.setrecursionlimit(10 ** 7)
    threading.stack_size(1 << 30)
    lane = threading.Thread(target=lambda: status.append(main()))
    lane.start()
    lane.join()
    return status[0] if status else 1


if __name__ == "__main__":
    sys.exit(run())
