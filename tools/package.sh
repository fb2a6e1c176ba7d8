#!/usr/bin/env bash
# Builds a Debian package of the programs, with the units, the sample configurations, the man pages, the command `bivrang` and the documents
# of users; prints its path. It takes the programs that `rt run` or the gate leaves, or those of a folder.
#
#   tools/package.sh [FOLDER [PROGRAMS]]      FOLDER, where the package goes, is . by default
#
# Its version is CHANGELOG.md's last one. Of a tree after that the time of its commit (without git, that version's day) and a hash of what
# the package has are added, so that packages of different trees have different versions, of which that of the later commit is the newer.
set -euo pipefail
to=$(realpath "${1:-.}")
programs=${2:+$(realpath "$2")}
cd "$(dirname "$0")/.."
folder=$(mktemp -d)
trap 'rm -rf "$folder"' EXIT
root=$folder/root
put() { # mode, file, place
    install -D -m "$1" "$2" "$root/$3"
}

names="cached bivrangd transcript"
for name in $names; do
    program=${programs:-crates/$name/out}/$name
    if [ ! -x "$program" ]; then
        echo "package: $program is missing; \`rt run\` in its crate creates it" >&2
        exit 1
    fi
    put 755 "$program" "usr/bin/$name"
done
put 755 tools/bivrangd-run usr/bin/bivrangd-run
# The newest version of the C library whose symbols the programs name; none if they are linked statically.
libc=$({ cd "$root/usr/bin" && grep -aoh 'GLIBC_2\.[0-9]*' $names || true; } | sed 's/GLIBC_//' | sort -Vu | tail -n 1)
if command -v strip > /dev/null; then
    (cd "$root/usr/bin" && strip $names)
fi
for program in cached bivrangd; do
    put 644 "docs/$program.toml" "etc/$program.toml"
    sed 's|/usr/local/bin|/usr/bin|' "docs/$program.service" > "$folder/$program.service"
    put 644 "$folder/$program.service" "usr/lib/systemd/system/$program.service"
done
for page in docs/man/*; do
    gzip -9n < "$page" > "$folder/page"
    put 644 "$folder/page" "usr/share/man/man${page##*.}/$(basename "$page").gz"
done
python3 tools/install_documents.py "$root"
for module in clients/python/bivrang/*.py; do
    put 644 "$module" "usr/share/cached/bivrang/$(basename "$module")"
done
cat > "$folder/bivrang" <<'END'
#!/usr/bin/python3
import pathlib
import sys

sys.path.insert(0, str(pathlib.Path(__file__).resolve().parents[1] / "share/cached"))
from bivrang._command import main

main()
END
put 755 "$folder/bivrang" usr/bin/bivrang
{ cat NOTICE; printf '\nOn Debian the Apache License, version 2.0, is /usr/share/common-licenses/Apache-2.0.\n'; } > "$folder/copyright"
put 644 "$folder/copyright" usr/share/doc/cached/copyright

read -r version day < <(sed -n 's/^## \([0-9][0-9.]*\), \([0-9-]*\)$/\1 \2/p' CHANGELOG.md)
made=$(git log -1 --format=%ct 2> /dev/null || date -u -d "$day" +%s)
if [ "$(grep -m 1 '^## ' CHANGELOG.md)" = "## Next" ]; then
    contents=$(cd "$root" && find . -type f -print0 | LC_ALL=C sort -z | xargs -0 sha256sum | sha256sum | cut -c 1-8)
    version=$version+$(date -u -d "@$made" +%Y%m%d%H%M%S).$contents
fi
maintainer="Bivrang maintainers <maintainers@users.noreply.bivrang.example>"
cat > "$folder/changelog" <<END
cached ($version) unstable; urgency=medium

  * CHANGELOG.md of the repository says what has changed.

 -- $maintainer  $(LC_ALL=C date -u -R -d "@$made")
END
gzip -9n "$folder/changelog"
put 644 "$folder/changelog.gz" usr/share/doc/cached/changelog.gz

install -d "$root/DEBIAN"
printf '%s\n' /etc/cached.toml /etc/bivrangd.toml > "$root/DEBIAN/conffiles"
machine=$(dpkg --print-architecture)
cat > "$root/DEBIAN/control" <<END
Package: cached
Version: $version
Architecture: $machine
Maintainer: $maintainer
${libc:+Depends: libc6 (>= $libc)
}Recommends: python3
Section: database
Priority: optional
Installed-Size: $(du -sk "$root" | cut -f 1)
Description: server of a bounded cache, whose service is proved
 Holds values by key, evicts by TinyLFU or LRU, reports each value that leaves,
 and answers loads of missing values once per key. What its service replies and
 reports is proved. Without authentication; it stores nothing on disk. bivrangd
 serves many connections, cached scripts and a thread for each connection;
 bivrang asks them from the command line.
END

package=$to/cached_${version}_$machine.deb
SOURCE_DATE_EPOCH=$made dpkg-deb --root-owner-group -Zgzip --build "$root" "$package" > /dev/null
echo "$package"
