"""Tries wrong bodies: edits of a crate's code that the prover has to refuse.

    python3 tools/wrong_bodies.py [--jobs N] [--anew | --below] [--list] [CRATE | CRATE/NAME ..]     with `rt` on the path; without a name, all

It tries the bodies in tools/wrong_bodies/CRATE. A body is a line `file: PATH`, then pairs of lines `old: TEXT` and `new: TEXT`; TEXT
occurs once in the file.

A body that is refused otherwise than by a clause shows little by itself, since a right body may be refused so too. Another one stands
beside it: the same fault in one case alone, before which the function returns early, so that proofs written by hand still fit. Its file
has a line `beside: NAME` (or `beside: CRATE/NAME`) for each body that it stands beside.

They are tried in a copy of the tree, over the libraries that the crates below have in their out/. Those that change only functions,
each another one, are tried in one check of these functions (`rt check --only`), since a contract is all that one function knows of
another; what such a check does not decide is tried alone. A body that changes more is tried by a check of its whole crate, over what
`rt check` kept. As many crates are tried in parallel as --jobs says, or as there are processors. Each body has a row as soon as it was
tried, with the seconds that it took, or its share of a check:

  clause    refused: a clause of the edited function, or what its type promises, is left open. Only this says by itself that the
            contract rules the body out
  premise   refused: what the body calls, or computes, has a premise that does not hold there
  answer    refused: a proof written by hand no longer fits, as after a harmless change too. If no body stands beside it, it was
            tried again without that proof, and then a goal is left open too, which the row names
  form      refused: a proof names something that the body removed, or the body adds a function without an `ensures`, of which
            a proof knows nothing
  PASSED    the crate is proved with it, or would be without a proof written by hand: the contract is too weak
  BAD       it cannot be applied, or the check ended without a verdict, or not within an hour

Results are kept in tools/wrong_bodies/results.json, which belongs to the repository. A body whose row was made over the same text of its
crate, comments apart, is not tried again, so a run after a change tries the bodies of the crates that changed, and an interrupted run continues where it
stopped. `--below` keeps only rows that were made over the same text of the crates below too, and with the same kit; the table counts
the others. `--anew` tries all again, `--list` tries none and lists those that would be tried. BAD is not kept.

At the end there is a table by crate, those refused otherwise than by a clause beside which no body stands that is, and a last line with
the sums. The status is 0 if each body was tried, and is refused.
"""

import argparse
import collections
import functools
import hashlib
import json
import os
import queue
import re
import shutil
import subprocess
import sys
import tempfile
import threading
import time

ROOT = os.path.dirname(os.path.dirname(os.path.abspath(__file__)))
BODIES = os.path.join(ROOT, "tools", "wrong_bodies")
KEPT = os.path.join(BODIES, "results.json")
WORDS = ("clause", "premise", "answer", "form", "PASSED", "BAD")
# How long a check may take.
SECONDS = 3600
# What a proof says that names something which is gone.
LOST_NAME = re.compile(r"(\./)?proofs/.*(has no field|is not in scope|has no `|was not admitted)")
# What a check says of a goal that is left open in the code, and the goals that are clauses of the function, or promises of its type.
OPEN = re.compile(r"note: (?:\./)?src/\S+:\d+:\d+: .*\(`([^`]+)`\)")
OWN = re.compile(r"(returns|invariant_of)\b")
# What it says of a proof written by hand, which does not fit.
MISFIT = re.compile(r"(?:\./)?(proofs/\S+\.antt):\d+:\d+: error")


@functools.cache
def stands_on():
    """The crates on which each crate of crates.txt stands, and its line."""
    found = {}
    with open(os.path.join(ROOT, "crates.txt"), encoding="utf-8") as file:
        for line in file:
            head, _, below = line.partition("#")[0].partition(":")
            if head.strip():
                found[head.split()[0]] = (below.split(), line)
    return found


@functools.cache
def kit():
    return subprocess.run(["rt", "version"], capture_output=True, check=True).stdout


# A line that is a comment, of which the prover knows nothing.
COMMENT = {".rt": re.compile(rb"^ *//.*\n", re.M), ".antt": re.compile(rb"^ *--.*\n", re.M)}


@functools.cache
def checksum_of_text(crate):
    """A checksum of the text of a crate, without lines that are comments."""
    it = hashlib.sha256()
    for part in ("src", "specs", "proofs"):
        for folder, folders, files in os.walk(os.path.join(ROOT, "crates", crate, part)):
            folders.sort()
            for name in sorted(files):
                path = os.path.join(folder, name)
                with open(path, "rb") as file:
                    text = file.read()
                comment = COMMENT.get(os.path.splitext(name)[1])
                text = comment.sub(b"", text) if comment else text
                it.update(f"{os.path.relpath(path, ROOT)} {len(text)} ".encode() + text)
    return it.hexdigest()


@functools.cache
def checksum_below(crate):
    """A checksum of all that a check of the crate reads beside its text."""
    below, line = stands_on().get(crate, ([], ""))
    it = hashlib.sha256(kit() + line.encode())
    for name in sorted(below):
        if os.path.isdir(os.path.join(ROOT, "crates", name)):
            it.update((checksum_of_text(name) + checksum_below(name)).encode())
    return it.hexdigest()


def checksums_of(crate, body):
    """That of a body and the text of its crate, and that of all else."""
    with open(body, "rb") as file:
        said = b"".join(line for line in file if not line.startswith(b"beside: "))
    return hashlib.sha256(checksum_of_text(crate).encode() + said).hexdigest()[:16], checksum_below(crate)[:16]


class Kept:
    """What earlier runs learned: a row a body, which is written as soon as it is known."""

    def __init__(self):
        self.rows = {}
        if os.path.exists(KEPT):
            with open(KEPT, encoding="utf-8") as file:
                self.rows = json.load(file)

    def of(self, crate, name, body, strictly):
        """The word and the line that an earlier run learned of a body, and whether the crates below and the kit were the same."""
        row = self.rows.get(f"{crate}/{name}")
        text, below = checksums_of(crate, body)
        if row is None or row["text"] != text or (strictly and row["below"] != below):
            return None
        return row["word"], row["line"], row["below"] == below

    def add(self, crate, name, body, word, line):
        if word == "BAD":
            return
        text, below = checksums_of(crate, body)
        self.rows[f"{crate}/{name}"] = {"word": word, "text": text, "below": below, "line": line}
        rows = ",\n".join(f"  {json.dumps(it)}: {json.dumps(self.rows[it], ensure_ascii=False)}" for it in sorted(self.rows))
        with open(f"{KEPT}.new", "w", encoding="utf-8") as file:
            file.write(f"{{\n{rows}\n}}\n")
        os.replace(f"{KEPT}.new", KEPT)


def bodies_of(crate):
    """The bodies of a crate: for each its name and its file."""
    folder = os.path.join(BODIES, crate)
    names = [name for name in os.listdir(folder) if name.endswith(".edit")] if os.path.isdir(folder) else []
    return sorted((name.removesuffix(".edit"), os.path.join(folder, name)) for name in names)


# What a check says where no function has the name that it was given, and where several have.
NONE = re.compile(r"has no function `(\S+)`: help: write the name")
SEVERAL = re.compile(r"several functions are named `\w+`: help: write one of (.*)")
FUNCTION = re.compile(r"^( *)(?:pub(?:\([a-z]+\))? )?(?:const )?fn (\w+)", re.M)


IMPL = re.compile(r"^impl\b([^{;]*)\{", re.M)


class Function:
    """A function of a file whose body, or some of it, is at a place of the text."""

    def __init__(self, text, path, found, ends):
        self.path, self.name, self.start, self.ends = path, found[2], found.start(), ends
        # (the type whose method it is: the last word of the `impl` in which it stands, without what is in angle brackets)
        impls = [it for it in IMPL.finditer(text, 0, found.start()) if text.find("\n}", it.end()) > found.start()] if found[1] else []
        head = impls[-1][1] if impls else ""
        while "<" in head and (bare := re.sub(r"<[^<>]*>", "", head)) != head:
            head = bare
        trait, _, owner = head.split("{")[0].partition(" for ")
        word = (owner or trait).strip().split(" ")[0].rpartition("::")[2]
        self.owner, self.is_of_trait = word, bool(owner)

    @staticmethod
    def module_of(path):
        """The words of the path of a file's module."""
        words = re.sub(r"^src/|(/?\b(mod|lib|main))?\.rt$", "", path).split("/")
        return [it for it in words if it]

    def module(self):
        return self.module_of(self.path)

    def named(self, crate):
        """Its name with its path, if that can be told."""
        if self.is_of_trait:
            return None
        words = home_of(crate, self.owner) if self.owner else None
        return "::".join([crate, *(words or self.module()), *([self.owner] if self.owner else []), self.name])

    def is_called(self, path):
        """Whether a path that a check tells is its. A method has the path of its type, which may stand in another module."""
        words = path.split("::")
        if not self.owner:
            return words[1:-1] == self.module() and words[-1] == self.name
        # (the name of the trait may stand behind that of the type, and what the type is of)
        is_its = len(words) > 2 and (words[-2] == self.owner or words[-2].startswith(self.owner if self.is_of_trait else f"{self.owner}+"))
        return is_its and words[-1] == self.name and (not self.is_of_trait or words[1:-2] == self.module())

    def is_answered_in(self, path):
        """Whether a file of proofs, by its path in the crate's folder, is of it."""
        words = path.split("/")[1:-1]
        return self.is_called("::".join(["", *words]))


@functools.cache
def home_of(crate, owner):
    """The module of a crate's type, as words, if it is found."""
    top = os.path.join(ROOT, "crates", crate)
    for folder, _, files in os.walk(os.path.join(top, "src")):
        for name in files:
            path = os.path.join(folder, name)
            with open(path, encoding="utf-8") as file:
                if re.search(rf"^(?:pub(?:\([a-z]+\))? )?(?:struct|enum) {owner}\b", file.read(), re.M):
                    return Function.module_of(os.path.relpath(path, top))
    return None


def function_at(text, at, path=""):
    """The function whose body has that place of a text, if there is one."""
    found = [it for it in FUNCTION.finditer(text) if it.start() <= at]
    if not found:
        return None
    indent = found[-1][1]
    # (the body begins with a brace that stands alone, or that ends a line of the signature)
    begins = re.compile(rf"^(?:{indent}\{{|.*\) (?:-> .*)?\{{)$", re.M).search(text, found[-1].start())
    ends = text.find(f"\n{indent}}}", begins.end()) if begins else -1
    return Function(text, path, found[-1], ends) if begins and begins.end() <= at < ends else None


def pairs_of(body):
    """What a body replaces by what: for each the path of a file, the old and the new text. A ValueError says why it can't be read."""
    found, path, old = [], "", None
    with open(body, encoding="utf-8") as file:
        lines = file.read().split("\n")
    for line in lines:
        if line.startswith("file: "):
            path = line[len("file: "):].strip()
        elif line.startswith("old: "):
            old = line[len("old: "):]
        elif line.startswith("new:"):
            if not path or old is None:
                raise ValueError("a line `new:` without `file:` and `old:` before it")
            found.append((path, old, line[len("new:"):].removeprefix(" ")))
            old = None
    if not found:
        raise ValueError("it changes nothing")
    return found


def beside(crate, body):
    """The bodies that a body stands beside, as CRATE/NAME."""
    with open(body, encoding="utf-8") as file:
        names = [line.removeprefix("beside: ").strip() for line in file if line.startswith("beside: ")]
    return [name if "/" in name else f"{crate}/{name}" for name in names]


@functools.cache
def stood_beside():
    """The bodies beside which others stand."""
    return {it for crate, bodies in chosen([]) for _, body in bodies for it in beside(crate, body)}


def edited(body, folder, texts=None):
    """What a body changes: the texts of the files, by their path in the crate's folder, and the functions, or None where it changes more
    than functions. `texts` are those that other bodies changed before. A ValueError says why it can't be applied."""
    texts, functions = dict(texts or {}), []
    for path, old, new in pairs_of(body):
        if path not in texts:
            with open(os.path.join(folder, path), encoding="utf-8") as file:
                texts[path] = file.read()
        if texts[path].count(old) != 1:
            raise ValueError(f"an `old:` text stands {texts[path].count(old)} times in {path}")
        functions.append(function_at(texts[path], texts[path].index(old), path) if path.endswith(".rt") else None)
        texts[path] = texts[path].replace(old, new)
    return texts, None if None in functions else functions


def adds_a_helper(body):
    """Whether a body adds a function of which no clause says what it does."""
    with open(body, encoding="utf-8") as file:
        lines = file.read().split("\n")
    old = [len(re.findall(r"\bfn \w+", line)) for line in lines if line.startswith("old: ")]
    new = [line for line in lines if line.startswith("new:")]
    return any(len(re.findall(r"\bfn \w+", it)) > was and it.count("ensures") < len(re.findall(r"\bfn \w+", it)) - was for it, was in zip(new, old))


def part_of(said, functions, texts):
    """What a check of many functions says of these: the lines of theirs, and whether each was proved. None where it was not checked."""
    kept, of_these, refused, proved = [], False, False, False
    for line in said.split("\n"):
        place = re.match(r"(?:note: )?(?:\./)?(src/\S+?):(\d+):\d+: ", line)
        answer = re.match(r"(?:\./)?(proofs/\S+\.antt):\d+:\d+: ", line)
        told = re.match(r"fn (\S+): (.*)", line)
        if place:
            text = texts.get(place[1], "")
            at = sum(len(it) + 1 for it in text.split("\n")[:int(place[2]) - 1])
            of_these = any(it.path == place[1] and is_within(text, it, at) for it in functions)
        elif answer:
            of_these = any(it.is_answered_in(answer[1]) for it in functions)
        elif told:
            of_these = any(it.is_called(told[1]) for it in functions)
            refused |= of_these and told[2] != "proved"
            proved |= of_these and told[2] == "proved"
        elif not line.startswith(" "):
            of_these = False
        if of_these:
            kept.append(line)
    return ("\n".join(kept), refused) if refused or proved else None


def is_within(text, function, at):
    """Whether a place of a text that was changed is in a function, from its head to the brace that ends it."""
    found = [it for it in FUNCTION.finditer(text) if it.start() <= at]
    heads = [it.start() for it in FUNCTION.finditer(text) if it[2] == function.name]
    return bool(found) and found[-1][2] == function.name and (
        len(heads) == 1 or Function(text, function.path, found[-1], 0).owner == function.owner
    )


def misfits(said):
    """The files of proofs written by hand that do not fit."""
    return sorted({it[1] for it in map(MISFIT.match, said.split("\n")) if it})


def verdict(status, said, changed, helper=False):
    """What a check's output says of a body: one of the words, and the line that shows it."""
    lines = said.rstrip("\n").split("\n")
    if status == 0:
        return "PASSED", ""
    # (a check of some functions alone says so many were to be proved, and so many were)
    few = next((it for it in map(re.compile(r"only=(\d+) proved=(\d+)").match, lines) if it), None)
    if not (few and int(few[2]) < int(few[1])) and not any(line.startswith("logic=not-proved") for line in lines):
        return "BAD", next((line for line in lines if "error" in line), lines[-1])[:160]
    told = [line for line in lines if re.match(r"(note: )?\S+:\d+:\d+:.*error|note: \S+:\d+:\d+:", line)]
    for line in told:
        at = re.match(r"(?:\./)?(\S+?):\d+:\d+: error: (?!`)(.*)", line)
        if at and (at[1] in changed or at[1].startswith(("src/", "specs/"))):
            return "BAD", line[:160]
    if helper:
        return "form", next(iter(told), "")[:160]
    goals = [(it[1], line) for line in told if (it := OPEN.match(line))]
    lost = [line for line in told if LOST_NAME.match(line)]
    for word, found in (
        ("clause", [line for goal, line in goals if OWN.match(goal)]),
        ("premise", [line for goal, line in goals if not goal.startswith("loop-")]),
        ("answer", [line for line in told if line not in lost and (MISFIT.match(line) or OPEN.match(line))]),
    ):
        if found:
            return word, found[0][:160]
    return "form", next(iter(told), "")[:160]


def link_or_copy(source, to):
    """Links a file, or copies it where that is on another device."""
    try:
        os.link(source, to)
    except OSError:
        shutil.copy2(source, to)


class Lane:
    """A copy of the tree, in which bodies are tried one after another."""

    def __init__(self, room):
        self.room = room
        self.copied = set()
        for name in ("crates.txt", "HANDLES"):
            shutil.copy(os.path.join(ROOT, name), room)
        for crate in os.listdir(os.path.join(ROOT, "crates")):
            source, to = os.path.join(ROOT, "crates", crate), os.path.join(room, "crates", crate)
            for part in ("src", "specs", "proofs"):
                if os.path.isdir(os.path.join(source, part)):
                    shutil.copytree(os.path.join(source, part), os.path.join(to, part))
            self.give(crate)

    def give(self, crate):
        """Gives a crate of the copy its library, which is read, and not written, as long as its text is the same."""
        source, to = os.path.join(ROOT, "crates", crate, "out", "rlib"), os.path.join(self.room, "crates", crate, "out", "rlib")
        if os.path.isdir(source):
            shutil.copytree(source, to, copy_function=link_or_copy)

    def kept(self, crate):
        """Copies what checks of the crate kept, once."""
        source = os.path.join(ROOT, "crates", crate, "out", "incremental")
        if crate not in self.copied and os.path.isdir(source):
            to = os.path.join(self.room, "crates", crate, "out", "incremental")
            # (a check of one function keeps work too)
            shutil.rmtree(to, ignore_errors=True)
            shutil.copytree(source, to)
        self.copied.add(crate)

    def leave(self, crate):
        """Ends with a crate: it gets its library again, which a check of other text removes."""
        shutil.rmtree(os.path.join(self.room, "crates", crate, "out"), ignore_errors=True)
        self.give(crate)
        self.copied.discard(crate)

    def tried(self, crate, name, body):
        """Tries a body alone."""
        folder = os.path.join(self.room, "crates", crate)
        try:
            texts, functions = edited(body, folder)
        except (ValueError, OSError) as error:
            return "BAD", str(error)
        self.kept(crate)
        before = self.put(folder, texts)
        status, said = self.check_these(crate, folder, functions or ())
        word, line = verdict(status, said, texts, adds_a_helper(body))
        if word == "answer" and f"{crate}/{name}" not in stood_beside():
            word, line = self.tried_without(crate, folder, functions or (), misfits(said), line)
        self.put(folder, before)
        return word, line

    def tried_together(self, crate, bodies):
        """Tries bodies, each of which changes other functions, in one check, and gives what that decides: a word and a line by name."""
        folder = os.path.join(self.room, "crates", crate)
        texts, functions = {}, {}
        for name, body in bodies:
            texts, functions[name] = edited(body, folder, texts)
        self.kept(crate)
        before = self.put(folder, texts)
        told, aside = {}, {}
        status, said = self.check_these(crate, folder, [it for those in functions.values() for it in those])
        if status and re.search(r"^only=\d+ proved=\d+", said, re.M):
            told = self.decided(said, bodies, functions, texts)
            alone = {name for name, (word, _) in told.items() if word == "answer" and f"{crate}/{name}" not in stood_beside()}
            aside = {name: self.answers_of(folder, said, functions[name]) for name in alone}
            aside = {name: files for name, files in aside.items() if files}
        if aside:
            kept = {path: text for files in aside.values() for path, text in files.items()}
            for path in kept:
                os.remove(os.path.join(folder, path))
            status, said = self.check_these(crate, folder, [it for name in aside for it in functions[name]])
            self.put(folder, kept)
            for name in aside:
                found = part_of(said, functions[name], texts) if status else None
                # (what is proved without its answers is tried alone, as is what this check does not tell)
                if found is None or not found[1]:
                    del told[name]
                else:
                    goals = sorted({it[1] for it in map(OPEN.match, found[0].split("\n")) if it})
                    told[name] = ("answer", f"{told[name][1]} (open without it: {', '.join(goals) or 'none is told'})"[:240])
        self.put(folder, before)
        return told

    @staticmethod
    def decided(said, bodies, functions, texts):
        """What a check of many functions says of each body, as far as it tells."""
        told = {}
        for name, body in bodies:
            found = part_of(said, functions[name], texts)
            if found is not None and found[1]:
                word, line = verdict(1, f"{found[0]}\nonly=2 proved=1\n", texts, adds_a_helper(body))
                if word in ("clause", "premise", "answer") or (word == "form" and line):
                    told[name] = (word, line)
        return told

    @staticmethod
    def answers_of(folder, said, functions):
        """The files of answers of these functions that do not fit, with their texts."""
        found = {}
        for path in misfits(said):
            if os.path.basename(path) == "Answers.antt" and any(it.is_answered_in(path) for it in functions):
                with open(os.path.join(folder, path), encoding="utf-8") as file:
                    found[path] = file.read()
        return found

    def put(self, folder, texts):
        """Writes texts of files, and gives those that stood there."""
        before = {}
        for path, text in texts.items():
            if os.path.exists(os.path.join(folder, path)):
                with open(os.path.join(folder, path), encoding="utf-8") as file:
                    before[path] = file.read()
            with open(os.path.join(folder, path), "w", encoding="utf-8") as file:
                file.write(text)
        return before

    def tried_without(self, crate, folder, functions, files, line):
        """Tries a body again without the answers that do not fit: then some goal is left open too, or else the contract lets it through."""
        aside = {}
        for path in files:
            if os.path.basename(path) == "Answers.antt":
                with open(os.path.join(folder, path), encoding="utf-8") as file:
                    aside[path] = file.read()
                os.remove(os.path.join(folder, path))
        if not aside:
            return "answer", line
        status, said = self.check_these(crate, folder, functions)
        self.put(folder, aside)
        if status == 0:
            return "PASSED", f"without {', '.join(aside)}"
        open_goals = sorted({it[1] for it in map(OPEN.match, said.split("\n")) if it})
        return "answer", f"{line} (open without it: {', '.join(open_goals) or 'none is told'})"[:240]

    def check_these(self, crate, folder, functions):
        """Checks these functions, or the whole crate if there are none."""
        names = {}
        for it in functions:
            is_alone = self.count(crate, it.name) == 1 and not self.is_module(crate, it.name)
            names[it.name if is_alone else it.named(crate) or it.name] = it
        for _ in range(1 + 2 * len(names)):
            status, said = self.check(folder, names)
            none, several = NONE.search(said), SEVERAL.search(said)
            if none and none[1] in names and none[1] != names[none[1]].name:
                # (the path of a method tells what its type is of, where that is not any)
                it = names.pop(none[1])
                names[it.name] = it
                continue
            if not several:
                break
            # (of functions that share a name, those that were meant)
            told = re.findall(r"`([^`]+)`", several[1])
            short = told[0].rpartition("::")[2]
            meant = [it for it in functions if it.name == short]
            names.pop(short, None)
            names.update({path: it for it in meant for path in told if it.is_called(path)})
            if short in names or not names:
                break
        return status, said

    @functools.cache
    def is_module(self, crate, name):
        """Whether a crate has a module of that name, which `--only` would take for it."""
        return any(f"{name}.rt" in files for _, _, files in os.walk(os.path.join(ROOT, "crates", crate, "src")))

    @functools.cache
    def count(self, crate, name):
        """How many functions of a crate have a name."""
        found = 0
        for folder, _, files in os.walk(os.path.join(ROOT, "crates", crate, "src")):
            for it in files:
                with open(os.path.join(folder, it), encoding="utf-8") as file:
                    found += len(re.findall(rf"\bfn {name}\b", file.read()))
        return found

    @staticmethod
    def check(folder, names):
        words = [word for name in sorted(names) for word in ("--only", name)]
        how = {"stdin": subprocess.DEVNULL, "stdout": subprocess.PIPE, "stderr": subprocess.STDOUT, "text": True, "errors": "replace"}
        try:
            ran = subprocess.run(["rt", "check", "--jobs", "1", *words], cwd=folder, timeout=SECONDS, check=False, **how)
        except subprocess.TimeoutExpired:
            return 1, f"error: no verdict within {SECONDS} s"
        return ran.returncode, ran.stdout


def show(crate, name, word, line, took):
    print(f"{word:7} {took:>7}  {crate}/{name}{': ' + line if line else ''}", flush=True)


def rounds_of(crate, bodies):
    """Bodies that can be tried together, a list a round, and those that cannot."""
    folder, rounds, alone = os.path.join(ROOT, "crates", crate), [], []
    for name, body in bodies:
        try:
            _, functions = edited(body, folder)
        except (ValueError, OSError):
            functions = None
        if functions is None:
            alone.append((name, body))
            continue
        those = {(it.path, it.owner, it.name) for it in functions}
        for it in rounds:
            try:
                texts, changed = edited(body, folder, it["texts"])
            except ValueError:
                continue
            # (an edit that stands in what another one wrote is of no function of its own)
            if changed and not those & it["functions"] and those == {(one.path, one.owner, one.name) for one in changed}:
                it["bodies"].append((name, body))
                it["functions"] |= those
                it["texts"] = texts
                break
        else:
            rounds.append({"bodies": [(name, body)], "functions": those, "texts": edited(body, folder)[0]})
    alone += [it["bodies"][0] for it in rounds if len(it["bodies"]) == 1]
    return [it["bodies"] for it in rounds if len(it["bodies"]) > 1], alone


def work(wanted, told, lock, kept):
    """Takes crates off a queue, and tries their bodies."""
    with tempfile.TemporaryDirectory(prefix="bodies-") as room:
        lane = Lane(room)

        def learn(crate, name, body, word, line, took):
            with lock:
                told[crate, name] = (word, took, True)
                kept.add(crate, name, body, word, line)
                show(crate, name, word, line, f"{took:.0f} s")

        while True:
            try:
                crate, bodies = wanted.get_nowait()
            except queue.Empty:
                return
            together, alone = rounds_of(crate, bodies)
            for those in together:
                start = time.time()
                found = lane.tried_together(crate, those)
                took = (time.time() - start) / len(those)
                for name, body in those:
                    if name in found:
                        learn(crate, name, body, *found[name], took)
                    else:
                        alone.append((name, body))
            for name, body in alone:
                start = time.time()
                word, line = lane.tried(crate, name, body)
                learn(crate, name, body, word, line, time.time() - start)
            lane.leave(crate)


def chosen(names):
    """The bodies to be tried, by crate."""
    found = []
    for crate in sorted(os.listdir(BODIES)):
        bodies = [it for it in bodies_of(crate) if not names or crate in names or f"{crate}/{it[0]}" in names]
        if bodies:
            found.append((crate, bodies))
    return found


def read_words():
    words = argparse.ArgumentParser(description=__doc__, formatter_class=argparse.RawDescriptionHelpFormatter, add_help=False)
    words.add_argument("-h", "--help", action="help", help=argparse.SUPPRESS)
    words.add_argument("--jobs", type=int, default=os.cpu_count(), help=argparse.SUPPRESS)
    words.add_argument("--anew", action="store_true", help=argparse.SUPPRESS)
    words.add_argument("--below", action="store_true", help=argparse.SUPPRESS)
    words.add_argument("--list", action="store_true", help=argparse.SUPPRESS)
    words.add_argument("names", nargs="*", help=argparse.SUPPRESS)
    return words.parse_args()


def known_of(found, kept, told, strictly):
    """Takes what earlier runs learned, and gives what is left to be tried."""
    left = []
    for crate, bodies in found:
        still = []
        for name, body in bodies:
            known = kept.of(crate, name, body, strictly)
            if known is None:
                still.append((name, body))
            else:
                word, line, is_same = known
                told[crate, name] = (word, 0, is_same)
                show(crate, name, word, line, "kept")
        if still:
            left.append((crate, still))
    return left


def untold(told):
    """The bodies that are refused otherwise than by a clause, and beside which none stands that is."""
    stood = {name for crate, bodies in chosen([]) for one, body in bodies if told.get((crate, one), ("",))[0] == "clause" for name in beside(crate, body)}
    return sorted(f"{crate}/{name}" for (crate, name), (word, _, _) in told.items() if word in ("premise", "answer", "form") and f"{crate}/{name}" not in stood)


def summed(told):
    """Sums by crate, and of all."""
    sums, seconds, other = collections.defaultdict(collections.Counter), collections.Counter(), 0
    for (crate, _), (word, took, is_same) in told.items():
        sums[crate][word] += 1
        seconds[crate] += took
        other += not is_same
    print(f"{'crate':20} {'bodies':>6}" + "".join(f" {word:>7}" for word in WORDS) + "  seconds")
    for crate, counts in sorted(sums.items()):
        print(f"{crate:20} {sum(counts.values()):>6}" + "".join(f" {counts[word]:>7}" for word in WORDS) + f" {seconds[crate]:>8.0f}")
    counts = sum(sums.values(), collections.Counter())
    for name in untold(told):
        print(f"beside {name} stands none that is refused by a clause")
    print(
        f"{len(told)} wrong bodies refused: {counts['clause']} by a clause, {counts['premise']} at a premise, {counts['answer']} at an answer, "
        f"{counts['form']} for their form; {counts['PASSED']} passed, {counts['BAD']} bad"
    )
    if other:
        print(f"{other} of these rows were made over other text of the crates below, or with another kit (--below tries them again)")
    return 1 if counts["PASSED"] or counts["BAD"] else 0


def main():
    words = read_words()
    found = chosen(words.names)
    there = {name for crate, bodies in found for name in (crate, *(f"{crate}/{body}" for body, _ in bodies))}
    if not found or not there.issuperset(words.names):
        sys.exit(f"no such wrong body: {' '.join(it for it in words.names if it not in there)}")
    wanted, told, lock, kept = queue.Queue(), {}, threading.Lock(), Kept()
    count = sum(len(bodies) for _, bodies in found)
    if not words.anew:
        found = known_of(found, kept, told, words.below)
    if words.list:
        for crate, bodies in found:
            for name, _ in bodies:
                show(crate, name, "-", "", "to try")
        return 0
    # (those of the largest crates first, so that none is left alone at the end)
    for crate, bodies in sorted(found, key=lambda it: -len(it[1])):
        wanted.put((crate, bodies))
    lanes = [threading.Thread(target=work, args=(wanted, told, lock, kept)) for _ in range(min(max(1, words.jobs), wanted.qsize()))]
    for lane in lanes:
        lane.start()
    for lane in lanes:
        lane.join()
    status = summed(told)
    if len(told) < count:
        print(f"{count - len(told)} were not tried")
    return 1 if len(told) < count else status


if __name__ == "__main__":
    sys.exit(main())
