#!/usr/bin/env bash
# Builds the package, installs it in a fresh folder, and runs what is there once: the programs, the server on a free port, the man pages.
# The status is 1 if something is wrong. Without dpkg it is skipped.
#
#   tools/test_package.sh [PROGRAMS]      the folder of the programs, where they are not where the gate leaves them
set -euo pipefail
if ! command -v dpkg-deb > /dev/null; then
    echo "package: skipped: there is no dpkg-deb on the path"
    exit 0
fi
tools=$(realpath "$(dirname "$0")")
folder=$(mktemp -d)
trap 'rm -rf "$folder"' EXIT
fail() {
    echo "package: FAILED: $*" >&2
    exit 1
}
same() { # what, as it is, as it has to be
    [ "$2" = "$3" ] || fail "$1: $2"
}

# What reads the man pages, below.
installing=
command -v mandoc > /dev/null || { "$tools/install_one.sh" mandoc & installing=$!; }

package=$("$tools/package.sh" "$folder" "$@")
root=$folder/root
if [ "$(id -u)" = 0 ]; then
    mkdir -p "$root/var/lib/dpkg/info" "$root/var/lib/dpkg/updates"
    touch "$root/var/lib/dpkg/status"
    if ! dpkg --root="$root" --force-depends --force-script-chrootless --log="$folder/log" -i "$package" > "$folder/told" 2>&1; then
        cat "$folder/told" >&2
        fail "dpkg does not install it"
    fi
    same "what dpkg says of it" "$(dpkg --root="$root" -s cached | sed -n 's/^Status: //p')" "install ok installed"
    same "its configuration files" "$(dpkg --root="$root" -s cached | sed -n 's|^ \(/etc/[a-z.]*\) .*|\1|p' | LC_ALL=C sort | xargs)" "/etc/bivrangd.toml /etc/cached.toml"
else
    dpkg-deb -x "$package" "$root"
fi

# The same tree gives the same package, another one another version.
same "the package of the same tree" "$(sha256sum < "$("$tools/package.sh" "$(mktemp -d -p "$folder")" "$@")")" "$(sha256sum < "$package")"
mkdir "$folder/programs"
for name in bivrangd cached transcript; do
    cp "$root/usr/bin/$name" "$folder/programs"
done
cp "$root/usr/bin/transcript" "$folder/programs/cached"
version=$(dpkg-deb -f "$package" Version)
other=$(dpkg-deb -f "$("$tools/package.sh" "$folder" "$folder/programs")" Version)
[ "$version" != "$other" ] || fail "the package of another tree has the same version, $version"

cd "$root"
same "the check of a file of cached" "$(usr/bin/bivrangd --check etc/cached.toml)" "etc/cached.toml: ok"
same "a script" "$(printf 'SET a - two words\nGET a\nHAS b\n' | usr/bin/cached --script 2> /dev/null)" $'OK\nVAL two words\nNO'
same "the programs of the units" "$(grep -h '^ExecStart.*=' usr/lib/systemd/system/*.service | grep -o '/usr/[a-z/]*bin/[a-z-]*' | xargs)" \
    "/usr/bin/bivrangd /usr/bin/bivrangd-run /usr/bin/cached"
same "the version of bivrangd" "$(usr/bin/bivrangd --version)" "bivrangd ${version%%+*}"
same "the starter" "$(usr/bin/bivrangd-run --version)" "bivrangd ${version%%+*}"
for place in $(grep -v '^#' "$tools/Containerfile" | grep -o '/usr/bin/[a-z-]*\|/etc/bivrangd[a-z.]*'); do
    [ -e ".$place" ] || fail "the image has no $place"
done
printf 'config capacity=- policy=lru parts=1 weight=one live_ms=- idle_ms=- deadlines=0\nmade 0\n' > "$folder/transcript"
same "transcript" "$(usr/bin/transcript audit < "$folder/transcript")" "verdict yes"
same "bivrangd --check" "$(usr/bin/bivrangd --check etc/bivrangd.toml)" "etc/bivrangd.toml: ok"
if command -v systemd-analyze > /dev/null; then
    # What the unit of bivrangd runs of the system; the folder has none of it.
    install -D -m 755 /bin/true bin/sh
    # An older one has not these options, and says nothing of the unit.
    for unit in cached bivrangd; do
        systemd-analyze verify --root="$root" --recursive-errors=no $unit.service > "$folder/told" 2>&1 || ! grep -q $unit.service "$folder/told" || fail "the unit: $(cat "$folder/told")"
    done
fi

# The pages: each program has one, each reference leads to one, and nothing is wrong with their form.
[ -z "$installing" ] || wait "$installing" || echo "package: there is no mandoc, and apt-get cannot install it: its part is skipped"
for program in usr/bin/*; do
    [ -f "usr/share/man/man1/$(basename "$program").1.gz" ] || fail "there is no page of $program"
done
for file in usr/share/man/man*/*; do
    page=$folder/$(basename "$file" .gz)
    gzip -dc "$file" > "$page"
    while read -r name section; do
        [ -f "usr/share/man/man$section/$name.$section.gz" ] || fail "$page refers to $name($section), which is missing"
    done < <(sed -n 's/^\.Xr \([^ ]*\) \([0-9]\).*/\1 \2/p' "$page")
    if command -v mandoc > /dev/null; then
        # (it looks for pages where they are installed)
        same "what is wrong with $page" "$(mandoc -Tlint "$page" | grep -v 'STYLE: referenced manual not found')" ""
    elif command -v man > /dev/null; then
        same "the warnings of $page" "$(man --warnings -l "$page" 2>&1 > /dev/null)" ""
    fi
done

# The example of each configuration's page is right, and bivrangd knows each key of its own.
for name in cached bivrangd; do
    sed -n '/^\.Bd -literal/,/^\.Ed/p' "$folder/$name.toml.5" | grep -v '^\.' > "$folder/$name.toml"
    same "the example of $name.toml(5)" "$(usr/bin/bivrangd --check "$folder/$name.toml")" "$folder/$name.toml: ok"
done
for key in $(sed -n 's/^\.It Va \([a-z_]*\)$/\1/p' "$folder/cached.toml.5" "$folder/bivrangd.toml.5"); do
    printf '[[namespace]]\n%s = []\n' "$key" > "$folder/key.toml"
    told=$(usr/bin/bivrangd --check "$folder/key.toml" 2> /dev/null || true)
    grep -q ":2: " <<< "$told" && ! grep -q "unknown key" <<< "$told" || fail "the key $key of a man page: $told"
done

# The documents' links lead to what is installed.
python3 -B "$tools/test_links.py" "$root" || fail "links of documents"
if command -v lintian > /dev/null; then
    lintian --allow-root --fail-on error "$package" > "$folder/told" 2>&1 || fail "lintian: $(cat "$folder/told")"
else
    echo "package: there is no lintian: its part is skipped"
fi

# The server, with the sample configuration on a free port.
python3 - "$root" "$folder" <<'END'
import pathlib, re, socket, subprocess, sys

root, folder = map(pathlib.Path, sys.argv[1:])
with socket.create_server(("127.0.0.1", 0)) as listener:
    port = listener.getsockname()[1]
sample = (root / "etc/cached.toml").read_text()
config = folder / "cached.toml"
config.write_text(re.sub("port = .*", f"port = {port}", sample))
server = subprocess.Popen([root / "usr/bin/cached", "--config", config], stdout=subprocess.PIPE)
try:
    assert server.stdout.readline() == b"listening sessions 127.0.0.1:%d\n" % port
    # Under LRU the first of 1,001 new keys leaves.
    lines = b"".join(b"SET k%d - v\n" % number for number in range(1001)) + b"SYNC\nHAS k0\nHAS k1\nHAS k1000\nQUIT\n"
    with socket.create_connection(("127.0.0.1", port), timeout=60) as client:
        client.sendall(lines)
        replies = b"".join(iter(lambda: client.recv(65536), b""))
    assert replies == b"OK\n" * 1001 + b"SYNC 1000 1000\nNO\nYES\nYES\nOK\n", replies[-100:]
    assert server.stdout.readline() == b"sessions NOTE Size k0 v\n"
    # The command of the package, by the interpreter alone, which reads no folder but the package's.
    def bivrang(*words):
        words = [sys.executable, "-IB", root / "usr/bin/bivrang", *words]
        return subprocess.run(words, stdout=subprocess.PIPE, stdin=subprocess.DEVNULL, timeout=60, check=True, text=True).stdout

    table = bivrang("watch", "--port", f"sessions:{port}", "--seconds", "1", "--plain")
    assert "sessions" in table and "1000" in table.replace(",", ""), table
    assert bivrang("--server", f"127.0.0.1:{port}", "get", "k1") == "v\n"
finally:
    server.kill()
END
echo "package: $(basename "$package"), $(($(stat -c %s "$package") / 1024)) KiB, was built, installed and run"
