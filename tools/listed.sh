#!/usr/bin/env bash
# Every folder under crates/ stands in crates.txt, and the other way round. `rt ci` refuses such a folder only if a source file lies in it.
set -eu
cd "$(dirname "$0")/.."
status=0
listed=$(sed -n 's/^\([a-z_0-9]*\)\( staticlib\)\{0,1\}:.*/\1/p' crates.txt)
for folder in crates/*/; do
    name=$(basename "$folder")
    if ! grep -qx "$name" <<<"$listed"; then
        echo "The folder crates/$name is not listed in crates.txt." >&2
        status=1
    fi
done
while read -r name; do
    if ! [ -d "crates/$name" ]; then
        echo "crates.txt lists $name, and there is no folder crates/$name." >&2
        status=1
    fi
done <<<"$listed"
exit $status
