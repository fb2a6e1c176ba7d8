#!/usr/bin/env bash
# Tries what the gate has built: the tests that need no memory, with every request for it refused, the notices of the stored run, the
# clients' tests, and the package; then the pages of the API. The status is 1 if one of them fails.
set -uo pipefail
cd "$(dirname "$0")/.."
failed=0
python3 tools/refuse_allocations.py --between || failed=1
# (those of one `SYNC` come in any order)
if ! diff <(crates/cached/out/cached --script <crates/cached/stdin 2>&1 >/dev/null | LC_ALL=C sort) crates/cached/notices; then
    echo "the stored run of cached has other notices than crates/cached/notices"
    failed=1
fi
tools/try_clients.sh || failed=1
tools/test_package.sh || failed=1
PYTHONDONTWRITEBYTECODE=1 python3 tools/api_docs.py --check || failed=1
exit $failed
