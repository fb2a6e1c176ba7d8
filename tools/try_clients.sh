#!/usr/bin/env bash
# Runs the clients' tests in parallel, against each server of benches/servers.py, as `rt run` or the gate leaves it: in Python, and in Rust
# (cargo without a registry; skipped if there is no cargo); and once their types (mypy, which apt-get installs where it can; skipped
# otherwise), the tests of the watcher, of the starter of bivrangd, and those of the judge of random use. The status is 1 if one fails, or
# if a server is missing.
#
#   tools/try_clients.sh
set -uo pipefail
cd "$(dirname "$0")/.."
seconds=600
export PYTHONDONTWRITEBYTECODE=1
mapfile -t programs < <(python3 benches/servers.py)
for program in "${programs[@]}"; do
    if [ ! -x "$program" ]; then
        echo "clients: FAILED: $program is missing; \`rt run\` in its crate creates it" >&2
        exit 1
    fi
done

folder=$(mktemp -d)
trap 'rm -rf "$folder"' EXIT

# Runs a command; prints its output if it fails.
try() { # name, command
    local name=$1 start=$SECONDS status=0
    shift
    timeout "$seconds" "$@" > "$folder/$name" 2>&1 || status=$?
    if [ "$status" = 0 ]; then
        echo "clients: $name passed in $((SECONDS - start)) s: $(grep -hE '^Ran |^test result|^Success' "$folder/$name" | tr '\n' ' ')"
    else
        { cat "$folder/$name"; echo "clients: FAILED: $name ended with $status"; } >&2
    fi
    return "$status"
}

try_types() {
    if ! command -v mypy > /dev/null && ! tools/install_one.sh mypy; then
        echo "clients: types skipped: there is no mypy, and apt-get cannot install it"
        return
    fi
    cd clients/python && try types mypy --cache-dir "$folder/mypy"
}

try_rust() {
    if ! command -v cargo > /dev/null; then
        echo "clients: rust skipped: there is no cargo on the path"
        return
    fi
    # (one after the other: they share the built tests)
    local program failed=0
    cd clients/rust || return 1
    for program in "${programs[@]}"; do
        CACHED=$program CARGO_TARGET_DIR=$folder/target try "rust-$(basename "$program")" cargo test --offline --quiet || failed=1
    done
    return $failed
}

rest=$(cd clients/python/tests && printf '%s\n' test_*.py | sed 's/\.py$//' | grep -vx test_aio)
running=()
for program in "${programs[@]}"; do
    name=$(basename "$program")
    try "asyncio-$name" python3 clients/python/tests "$program" test_aio & running+=($!)
    try "python-$name" python3 clients/python/tests "$program" $rest & running+=($!)
done
try_types & running+=($!)
try_rust & running+=($!)
try watcher python3 tools/test_watch.py & running+=($!)
try starter python3 tools/test_starter.py & running+=($!)
try judge python3 tools/test_random_use.py Right Wrong Liars & running+=($!)
try rows python3 tools/test_servers.py & running+=($!)
failed=0
for it in "${running[@]}"; do
    wait "$it" || failed=1
done
exit $failed
