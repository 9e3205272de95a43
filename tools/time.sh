#!/usr/bin/env bash
# What the last run of the test command spent, in whole seconds: each part; of the prover's part, at which second each crate was done; and how many crates
# and edits it took from earlier runs of the same files. The prover proves crates side by side and prints no times: what it was spent on cannot be told.
set -eu
cd "$(dirname "$0")/.."
times=build/ci.times
if ! [ -s "$times" ]; then
    echo "There is no run to look at: 'make test' makes one." >&2
    exit 1
fi

# Lines 'second TAB what happened', of the prover's own lines.
happened() {
    sed -nE 's/^([0-9]+\t)rt: (\w+) (proved|NOT PROVED.*)$/\1\2 \3/p
             s/^([0-9]+\t)rt: (\w+): its tests are (proved|NOT PROVED)$/\1\2, its tests: \3/p
             s/^([0-9]+\t)rt: (\w+) is kept: .*$/\1\2 kept from an earlier run/p
             s/^([0-9]+\t)rt: (\w+) ran(.*), and wrote .*$/\1\2 ran\3/p' "$times"
}

[ ! -s build/parts ] || { echo "== parts of the test command"; cat build/parts; }
echo "== crates and programs, each with the second of the prover's part at which it was done"
happened
# The edits' lines come together, behind the last crate.
sed -nE 's/^[0-9]+\trt: ok; (.*)$/all: \1/p' "$times"
tail -n 1 "$times" | sed 's/\t.*/ s/; s/^/the prover: /'
