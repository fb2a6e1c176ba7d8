#!/usr/bin/env bash
# Installs a Debian package that a test needs, within a minute, where it can: as root, and with apt-get. The status says whether it did.
#
#   tools/install_one.sh NAME
set -uo pipefail
[ "$(id -u)" = 0 ] && command -v apt-get > /dev/null || exit 1
DEBIAN_FRONTEND=noninteractive timeout 60 sh -c 'apt-get install -yq "$0" || { apt-get update -q && apt-get install -yq "$0"; }' "$1" \
    > /dev/null 2>&1 < /dev/null
