#!/usr/bin/env bash
# tools/passed.sh refuses what `rt ci` lets pass: edits that are bad, an edit or a crate too few. Each closing is made up, and has to be refused.
set -euo pipefail
cd "$(dirname "$0")/.."
log=$(mktemp)
trap 'rm -f "$log"' EXIT
crates=$(grep -cE '^[a-z]' crates.txt)
edits=$(find crates -name '*.edit' -not -path 'crates/*/out/*' | wc -l)
tries="every proof and must-fail edit was done in this run"
refused=0

# How many edits are refused, what follows that number, and the last line.
closing() {
    printf 'rt: %s proved\nrt: ok; handles allowed: none; must-fail edits: %s refused%s; %s\n%s\n' wort "$1" "$2" "$tries" "$3" >"$log"
}

accepts() {
    tools/passed.sh "$log" || {
        echo "$1: refused" >&2
        exit 1
    }
}

refuses() {
    if tools/passed.sh "$log" 2>/dev/null; then
        echo "$1: not refused" >&2
        exit 1
    fi
    refused=$((refused + 1))
}

all="$((crates + edits)) passed, 0 failed"
closing "$edits" "" "$all"
accepts "as it has to be"
closing "$edits" ", 1 of them only by a limit" "$all"
accepts "one edit refused by a limit"
closing "$((edits - 1))" ", 1 bad" "$((crates + edits - 1)) passed, 0 failed"
refuses "an edit is bad"
closing "$edits" ", 1 bad" "$all"
refuses "an edit more, that is bad"
closing "$edits" ", 3 of them only by a limit, 10 bad" "$all"
refuses "ten edits more, that are bad"
closing "$((edits - 1))" "" "$((crates + edits - 1)) passed, 0 failed"
refuses "an edit was not tried"
closing "$edits" "" "$((crates + edits - 1)) passed, 0 failed"
refuses "a crate too few"
closing "$edits" "" "$((crates + edits - 1)) passed, 1 failed"
refuses "something failed"
closing "$edits" "" "$all (wort and the crates below alone: not the gate)"
refuses "some crates alone"
echo "$all" >"$log"
refuses "nothing is said of the edits"
printf 'rt: ok; handles allowed: none; %s\n%s\n' "$tries" "$all" >"$log"
refuses "there are no edits"
echo "$refused closings refused"
