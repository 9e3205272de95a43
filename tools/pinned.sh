#!/usr/bin/env bash
# Refuses any toolchain but the one that the project is pinned to.
set -eu
cd "$(dirname "$0")/.."
pinned=$(cat tools/toolchain)
if ! command -v rt >/dev/null; then
    echo "The Rattle toolchain's command rt is not on this machine. This project needs: $pinned" >&2
    exit 1
fi
found=$(rt version)
if [ "$found" != "$pinned" ]; then
    echo "This project is pinned to the toolchain '$pinned', and this machine has '$found'." >&2
    echo "Use that version, or change tools/toolchain and prove everything again." >&2
    exit 1
fi
