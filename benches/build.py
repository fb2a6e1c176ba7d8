#!/usr/bin/env python3
"""Builds a program of text that nobody has proved, to measure it: optimized, and inlined about as the proved one is.

    python3 benches/build.py                 the benchmarks' program, at benches/out/bench
    python3 benches/build.py CRATE PROGRAM   that of a crate, at PROGRAM: to measure a form before it is proved

It takes a minute or two, with `rt` on the path, and writes nothing else in the repository.

The benchmarks' program is a crate that only measures, so the gate does not prove it. A file of its text is a module's, with `.txt` behind
its name, since the gate reads each file that ends in `.rt`; CRATE is what its line in crates.txt would be. A build has to print
benches/work/stdout when it is given the words of benches/work/args. The scripts that run it have it built where its text, or that of a
crate below it, has changed; BENCH in the environment names another program for them.

Only a proved crate is compiled by the kit's compilers, and `rt try` compiles one that is not, with checks and without inlining. So this
runs `rt try` in a copy of the repository and of the kit, in which the compiler only keeps the module that it is given; takes out the
checks, which a proof makes superfluous; and marks the functions as their `#[inline]` and `#[cold]` say. A call of such a program takes 1.0
to 1.15 times the instructions that it takes of the proved one (`instructions.py calls`, 2026-12-01).
"""
import contextlib
import functools
import hashlib
import os
import pathlib
import re
import shutil
import subprocess
import sys
import tempfile

import progress

HERE = pathlib.Path(__file__).resolve().parent
ROOT = HERE.parent
sys.path.insert(0, str(ROOT / "tools"))
import take_crates  # noqa: E402

WORK, BUILT = HERE / "work", HERE / "out/bench"
CRATE = "bench: moka_policy engine_cells moka_engine moka_sync slab lru indexmap circular_buffer crossbeam_utils rand_core rand_xoshiro"

TARGET = "x86_64-unknown-linux-gnu"
# What the kit gives clang for a program.
READS = [f"--target={TARGET}", "-march=x86-64", "--no-default-config", "-fintegrated-cc1", "-x", "ir"]
OPTIONS = "-no-trap-after-noreturn -trap-unreachable -no-x86-call-frame-opt -disable-machine-licm -disable-postra-machine-licm -sink-common-insts=false"
OPTIMIZES = [*(word for option in OPTIONS.split() for word in ("-mllvm", option)), "-ffunction-sections", "-fdata-sections", "-fPIE", "-O2"]

FUNCTION = re.compile(r"\s*(pub(\([a-z ]+\))? )?(const )?(unsafe )?fn (\w+)")
ATTRIBUTE = re.compile(r"\s*#\[(inline|inline\(always\)|inline\(never\)|cold)\]")
MARKS = {"inline": "inlinehint", "inline(always)": "alwaysinline", "inline(never)": "noinline", "cold": "noinline"}
# A check, and what fills memory of which nothing was written.
CHECK = re.compile(r'  call void @("rattle-llvm-checks::|llvm\.(ubsantrap|trap)\(|llvm\.memset\S*\(.* i8 -86,)')
DEFINED = re.compile(r'define .*@"([^"]+)"\(')


def kit():
    """The folder of the kit."""
    found = shutil.which("rt") or sys.exit("there is no `rt` on the path")
    return pathlib.Path(found).resolve().parent.parent


def copy_of_repository(crate, folder):
    """A repository of the crate and all below it, in a folder that is not there yet."""
    lines = take_crates.lines_of(ROOT / "crates.txt")
    if crate == "bench":
        lines["bench"] = CRATE
    names = take_crates.needed(lines, [crate]) or sys.exit(f"crates.txt has no crate {crate}")
    for name in names:
        if name == "bench":
            for file in WORK.rglob("*.rt.txt"):
                to = folder / "crates/bench/src" / file.relative_to(WORK).with_suffix("")
                to.parent.mkdir(parents=True, exist_ok=True)
                shutil.copy(file, to)
        else:
            shutil.copytree(ROOT / "crates" / name, folder / "crates" / name, ignore=shutil.ignore_patterns("out"))
    (folder / "crates.txt").write_text("".join(f"{lines[name]}\n" for name in names), encoding="utf-8")
    shutil.copy(ROOT / "HANDLES", folder)


def copy_of_kit(folder, kept):
    """The kit in a folder that is not there yet, with a compiler that keeps a module in a file, and goes no further."""
    compiler = folder / "toolchain/bin/clang"
    # (`rt` finds the rest of the kit beside its own files)
    copied = [folder / "bin" / name for name in ("rt", "rtlib.py")]
    for part in (folder, folder / "bin", folder / "toolchain", compiler.parent):
        part.mkdir()
        for it in (kit() / part.relative_to(folder)).iterdir():
            to = part / it.name
            if to in copied:
                shutil.copy(it, to)
            elif to not in (folder / "bin", folder / "toolchain", compiler.parent, compiler):
                to.symlink_to(it)
    # (the module that is compiled first is one of `rt try` itself)
    keeps = f"case $* in *-fsanitize=address*) cp module.bc '{kept}'; exit 1 ;; esac"
    compiler.write_text(f"#!/bin/sh\n{keeps}\nexec '{kit()}/toolchain/bin/clang' \"$@\"\n", encoding="ascii")
    compiler.chmod(0o755)


def module_of(crate, room):
    """The module that `rt try` would compile."""
    kept = room / "module.bc"
    copy_of_kit(room / "kit", kept)
    said = {"stdin": subprocess.DEVNULL, "stdout": subprocess.PIPE, "stderr": subprocess.STDOUT, "text": True}
    ran = subprocess.run([sys.executable, room / "kit/bin/rt", "try"], cwd=room / "repository/crates" / crate, **said)
    if not kept.exists():
        sys.exit(f"`rt try` compiles nothing:\n{ran.stdout[-2000:]}")
    return kept


def marks_of(sources):
    """By crate and name the marks of functions; those of one crate with one name share the last."""
    marks = {}
    for source in sources:
        for file in source.rglob("*.rt"):
            lines = file.read_text(encoding="utf-8").split("\n")
            for at, line in enumerate(lines):
                found = ATTRIBUTE.match(line)
                function = found and next(filter(None, map(FUNCTION.match, lines[at + 1 : at + 6])), None)
                if function:
                    marks[source.parent.name, function[5]] = MARKS[found[1]]
    return marks


def marked(line, marks):
    """The line at which a function of a module begins, with its mark."""
    name = re.sub(r"::<.*$", "", re.sub(r"::<#[0-9a-f]+>", "", DEFINED.match(line)[1])).split("::")
    mark = marks.get((name[0], name[-1]))
    return re.sub(r" #(\d+) \{$", rf" {mark} #\1 {{", line) if mark else line


def unchecked(lines, marks):
    """A module without checks, and with the marks of its functions."""
    for line in lines:
        if CHECK.match(line):
            continue
        if DEFINED.match(line):
            line = marked(line, marks)
        elif line.startswith("attributes #"):
            line = line.replace(" sanitize_address", "").replace(' "frame-pointer"="all"', "").replace("{ }", "{ nounwind }")
        yield line


def compile_module(module, marks, room, program):
    """Compiles and links a module."""
    tools = kit() / "toolchain"
    clang = [tools / "bin/clang", f"--sysroot={tools}", *READS]
    text, code = room / "module.ll", room / "module.o"
    subprocess.run([*clang, module, "-S", "-emit-llvm", "-O0", "-Xclang", "-disable-llvm-passes", "-o", text], check=True)
    with open(text, encoding="utf-8") as old, open(room / "unchecked.ll", "w", encoding="utf-8") as new:
        new.writelines(unchecked(old, marks))
    subprocess.run([*clang, room / "unchecked.ll", "-c", *OPTIMIZES, "-o", code], check=True)
    libraries = [kit() / "c" / name for name in ("libos_c.a", "liblibc_c.a")]
    link = [kit() / "bin/rattle-link", "--target", TARGET, "--toolchain", tools, "-o", program, code, *libraries]
    linked = subprocess.run(link, stdout=subprocess.PIPE, stderr=subprocess.STDOUT, text=True)
    if linked.returncode:
        sys.exit(f"it is not linked:\n{linked.stdout[-2000:]}")


def build(crate, program):
    """Builds the program of a crate."""
    progress.show(f"building {crate}")
    with tempfile.TemporaryDirectory() as folder:
        room = pathlib.Path(folder)
        copy_of_repository(crate, room / "repository")
        module = module_of(crate, room)
        marks = marks_of([*(room / "repository/crates").glob("*/src"), *(kit() / "rattle").glob("*/src")])
        compile_module(module, marks, room, pathlib.Path(program).resolve())
    progress.clear()


def checksum():
    """A checksum of all that the benchmarks' program is built of."""
    names = take_crates.needed(take_crates.lines_of(ROOT / "crates.txt"), CRATE.split(":")[1].split())
    folders = [WORK, *(ROOT / "crates" / name / "src" for name in names)]
    files = sorted(file for folder in folders for file in folder.rglob("*.rt*"))
    found = hashlib.sha256((kit() / "KIT-ID").read_bytes())
    for file in [pathlib.Path(__file__), *files]:
        found.update(f"{file.relative_to(ROOT)} ".encode() + hashlib.sha256(file.read_bytes()).digest())
    return found.hexdigest()


def build_bench():
    """Builds the benchmarks' program, and sees that it does what it did."""
    BUILT.parent.mkdir(exist_ok=True)
    build("bench", BUILT)
    words = (WORK / "args").read_text(encoding="ascii").split("\n")
    said = subprocess.run([BUILT, *filter(None, words)], stdout=subprocess.PIPE, text=True, check=True).stdout
    if said != (WORK / "stdout").read_text(encoding="ascii"):
        sys.exit(f"{BUILT} prints other numbers than benches/work/stdout has:\n{said}")


@functools.cache
def bench():
    """The path of the benchmarks' program, which is built anew where what it is built of has changed."""
    if "BENCH" in os.environ:
        return os.environ["BENCH"]
    stamp, current = BUILT.with_suffix(".stamp"), checksum()
    if not BUILT.exists() or not stamp.exists() or stamp.read_text(encoding="ascii") != current:
        with contextlib.suppress(FileNotFoundError):
            stamp.unlink()
        build_bench()
        stamp.write_text(current, encoding="ascii")
    return str(BUILT)


def main(words):
    if len(words) not in (0, 2) or "--help" in words:
        sys.exit(__doc__)
    if words:
        build(*words)
    else:
        print(bench())


if __name__ == "__main__":
    main(sys.argv[1:])
