#!/usr/bin/env bash
# Checks in seconds that each source, specification and proof is in `rt fmt`'s layout, which the gate would say an hour later, and that no
# line of a clause is longer than 100 columns, which `rt fmt` leaves alone. The benchmarks' program is in that layout too, in a copy.
set -euo pipefail
cd "$(dirname "$0")/.."
rattle=$(dirname "$(readlink -f "$(command -v rt)")")/rattle
find crates -name out -prune -o \( -name '*.rt' -o -name '*.antt' \) -print0 | xargs -0 "$rattle" fmt --check
folder=$(mktemp -d)
trap 'rm -rf "$folder"' EXIT
cp -R benches/work "$folder"
find "$folder" -name '*.rt.txt' -exec sh -c 'mv "$1" "${1%.txt}"' sh {} \;
find "$folder" -name '*.rt' -print0 | xargs -0 "$rattle" fmt --check
export LC_ALL=C.UTF-8
if grep -rnP --include='*.rt' --exclude-dir=out '^(?=.{101}) *(ensures|requires|ghost (?!use )\S+[:=]?) ' crates; then
    echo "these lines of clauses are longer than 100 columns" >&2
    exit 1
fi
