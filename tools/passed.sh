#!/usr/bin/env bash
# Holds the closing lines of `rt ci` to the letter: all crates passed, and each must-fail edit of the repository was tried and refused. The prover
# passes where an edit cannot be applied or read, and says so only by a number in its line `rt: ok`; such an edit shows nothing.
# Usage: passed.sh LOG
set -euo pipefail
cd "$(dirname "$0")/.."
log=$1
crates=$(grep -cE '^[a-z]' crates.txt)
edits=$(find crates -name '*.edit' -not -path 'crates/*/out/*' | wc -l)
passed="$((crates + edits)) passed, 0 failed"
refused="^rt: ok; handles allowed: [A-Za-z, ]+; must-fail edits: $edits refused(, [0-9]+ of them only by a limit)?(, 0 bad)?; "

ok=$(grep '^rt: ok' "$log" || true)
if [ "$(grep -cE "$refused" <<<"$ok")" != 1 ] || [ "$(wc -l <<<"$ok")" != 1 ]; then
    echo "The prover has to say, once, that all $edits must-fail edits were refused and none is bad: ${ok:-it says nothing}" >&2
    exit 1
fi
if [ "$(tail -n 1 "$log")" != "$passed" ]; then
    echo "The prover's last line has to be '$passed', for $crates crates and $edits must-fail edits: $(tail -n 1 "$log")" >&2
    exit 1
fi
