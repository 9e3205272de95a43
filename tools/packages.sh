#!/bin/sh
# Installs packages of Debian 12 if they are missing. Only root can do that: others are told which they are, and what needs them.
# Usage: packages.sh 'WHAT NEEDS' PACKAGE...
set -eu
what=$1
shift
log=$(dirname "$0")/../build/apt.log

fail() {
    echo "$what these packages of Debian 12 on this processor: $packages. $1" >&2
    exit 1
}

packages=$*
if ! dpkg -s "$@" >/dev/null 2>&1; then
    [ "$(id -u)" = 0 ] || fail "Install them (dpkg --add-architecture amd64; apt-get update; apt-get install), or run this as root."
    mkdir -p "$(dirname "$log")"
    { dpkg --add-architecture amd64 && apt-get update && apt-get install -y --no-remove --no-install-recommends "$@"; } >"$log" 2>&1 ||
        fail "apt-get could not install them: see $log."
fi
