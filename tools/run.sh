#!/usr/bin/env bash
# Proves what the program `names` stands on, builds it, and runs it on a script.
set -eu
script=$1
cd "$(dirname "$0")/.."
tools/pinned.sh
if ! [ -f "$script" ]; then
    echo "There is no file '$script'." >&2
    exit 1
fi
log=$(mktemp)
trap 'rm -f "$log"' EXIT
# What builds the program also runs it: on no input, to which it answers nothing.
if ! (cd crates/names && rt run </dev/null) >"$log" 2>&1; then
    cat "$log" >&2
    echo "The program is not proved, so it is not run." >&2
    exit 1
fi
tools/x86-64.sh crates/names/out/names <"$script"
