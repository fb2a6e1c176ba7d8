#!/usr/bin/env bash
# Runs Bench.java beside Caffeine, on one core, or on all that there are for several threads. It installs nothing: Debian's packages libcaffeine-java and default-jdk-headless are wanted.
#   benches/caffeine/run.sh ratios CAPACITY.. < TRACE   how many keys of a trace are found
#   benches/caffeine/run.sh times EXPONENT SIZE..       processor nanoseconds a call, keys by Zipf's law: median, least and greatest of five rounds
#   benches/caffeine/run.sh memory SIZE..               bytes of heap a value above key and value
#   benches/caffeine/run.sh threads EXPONENT WORK SIZE CALLS THREADS..   processor nanoseconds a call, and million calls a second
# CORE in the environment is the number of the core, 0 where it is not set.
set -euo pipefail
cd "$(dirname "$0")"
jar=/usr/share/java/caffeine.jar
if ! command -v javac > /dev/null || [ ! -e "$jar" ]; then
    echo "$0: install the packages libcaffeine-java and default-jdk-headless first" >&2
    exit 3
fi
classes=$(mktemp -d)
trap 'rm -r "$classes"' EXIT
javac -cp "$jar" -Xlint:-options -d "$classes" Bench.java 2> "$classes/log" || { cat "$classes/log" >&2; exit 1; }
cores="${CORE:-0}"
if [ "${1:-}" = threads ]; then
    cores="0-$(($(nproc) - 1))"
fi
taskset -c "$cores" java -XX:+UseSerialGC -Xms3g -Xmx3g -cp "$jar:$classes" Bench "$@"
