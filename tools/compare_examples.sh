#!/usr/bin/env bash
# Compares the documents' examples, pictures and tables with their sources, and follows their links, which the gate runs.
set -euo pipefail
cd "$(dirname "$0")/.."

# The text of the first fenced block of this kind after a line.
block() { # file, first line, fence
    awk -v head="$2" -v fence="$3" '
        !seen { seen = ($0 == head); next }
        !open { open = ($0 == fence); next }
        $0 == "```" { exit }
        { print }' "$1"
}

same() { # what, one text, the other
    if [ "$2" != "$3" ]; then
        echo "tools/compare_examples.sh: $1 differ" >&2
        diff <(printf '%s\n' "$2") <(printf '%s\n' "$3") >&2 || true
        exit 1
    fi
}

# The protocol's example is the stored run of the program.
example=$(block docs/PROTOCOL.md '## Example' '```')
same "docs/PROTOCOL.md's example and crates/cached/stdin" \
    "$(sed -n 's/^> //p' <<<"$example")" "$(cat crates/cached/stdin)"
same "docs/PROTOCOL.md's example and crates/cached/stdout" \
    "$(sed -n 's/^< //p' <<<"$example")" "$(cat crates/cached/stdout)"

# That of cached's man page is its sample, but for the comment.
same "docs/man/cached.toml.5's example and docs/cached.toml" \
    "$(sed -n '/^\.Bd -literal/,/^\.Ed/p' docs/man/cached.toml.5 | grep -v '^\.')" "$(grep -v '^#' docs/cached.toml)"

# The man pages have the requests of docs/PROTOCOL.md and the keys of docs/OPERATING.md, in their order.
rows() { # file, heading: the first words of a table's rows
    awk -v head="$2" '!seen { seen = ($0 == head); next } /^#/ { exit } 1' "$1" | sed -n 's/^| `\([A-Za-z_]*\).*/\1/p'
}
same "docs/man/cached.1's requests and docs/PROTOCOL.md's" \
    "$(sed -n 's/^\.It Ic \([A-Z]*\).*/\1/p' docs/man/cached.1)" "$(rows docs/PROTOCOL.md '## Requests and replies')"
same "docs/man/cached.toml.5's keys and docs/OPERATING.md's" \
    "$(sed -n 's/^\.It Va \([a-z_]*\)$/\1/p' docs/man/cached.toml.5)" "$(rows docs/OPERATING.md '### Keys of a namespace')"
same "docs/man/bivrangd.toml.5's keys and docs/OPERATING.md's" \
    "$(sed -n 's/^\.It Va \([a-z_]*\)$/\1/p' docs/man/bivrangd.toml.5)" "$(rows docs/OPERATING.md '### Keys that only `bivrangd` has')"

# The pages of both programs have every key that a namespace may have, in the order of the program's own list.
same "the keys of cached.toml(5) with bivrangd.toml(5) and those that bivrangd knows" \
    "$(sed -n 's/^\.It Va \([a-z_]*\)$/\1/p' docs/man/cached.toml.5 docs/man/bivrangd.toml.5)" \
    "$(sed -n '/^const KEYS: /,/^];/s/^ *"\([a-z_]*\)",$/\1/p' crates/cached_config/src/reading.rt)"

# Programs, package and clients have one version, CHANGELOG.md's last; tools/package.sh adds to it what a tree after that is.
version=$(sed -n 's/^## \([0-9][0-9.]*\).*/\1/p' CHANGELOG.md | head -n 1)
same "the versions of CHANGELOG.md, the programs and the clients" "$(
    grep -rhoE --include='*.rt' --exclude-dir=out '"bivrangd [0-9]+\.[0-9]+\.[0-9]+' crates | sed 's/.* //' | sort -u
    sed -n 's/^__version__ = "\(.*\)"/\1/p' clients/python/bivrang/__init__.py
    sed -n 's/^version = "\(.*\)"/\1/p' clients/rust/Cargo.toml
    grep -A 1 '^name = "bivrang"' clients/rust/Cargo.lock | sed -n 's/^version = "\(.*\)"/\1/p'
)" "$version
$version
$version
$version"

# The pictures and the tables of figures are those that the file of figures gives.
PYTHONDONTWRITEBYTECODE=1 python3 benches/plots.py check

# The pages of promises and of crates, and the examples in Rattle, are those that the sources give.
python3 -B tools/proved.py --check

# The documents' links lead somewhere.
python3 tools/test_links.py

# What FROM_MOKA.md has copied into a repository of one's own.
folder=$(mktemp -d)
trap 'rm -rf "$folder"' EXIT
taken=$(python3 tools/take_crates.py "$folder" moka_sync)
same "how many crates docs/FROM_MOKA.md and tools/take_crates.py take" \
    "$(grep -o 'the [0-9]* crates below it' docs/FROM_MOKA.md | head -n 1)" "the $((${taken%% *} - 1)) crates below it"

# README lists every crate of the kit that crates.txt or the benchmarks' program names, and no other.
lines=$({ cat crates.txt; sed -n 's/^CRATE = "\(.*\)"$/\1/p' benches/build.py; } | sed 's/#.*//' | grep ':')
own=$(sed 's/[ :].*//' <<<"$lines" | sort -u)
same "the kit's crates in README.md and those in crates.txt" \
    "$(sed -n 's/^Crates of the kit: //p' README.md | grep -o '`[a-z_0-9]*`' | tr -d '`' | sort)" \
    "$(sed 's/.*: *//' <<<"$lines" | tr ' ' '\n' | sort -u | comm -23 - <(printf '%s\n' "$own") | sed '/^$/d')"
