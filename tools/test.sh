#!/usr/bin/env bash
# The test command. It ends with the prover's own closing line, and fails if any part fails. What it spent: tools/time.sh.
set -euo pipefail
cd "$(dirname "$0")/.."
mkdir -p build
: >build/parts
name=

# Ends the part before, with its seconds, and begins another.
part() {
    [ -z "$name" ] || printf '%s\t%s\n' $((SECONDS - began)) "$name" >>build/parts
    began=$SECONDS
    name=$*
    [ -z "$name" ] || echo "== $name"
}

# Hands on each line, and keeps with it the second of this part in which it came: the prover prints no times.
timed() {
    while IFS= read -r line; do
        printf '%s\t%s\n' $((SECONDS - began)) "$line" >&3
        printf '%s\n' "$line"
    done 3>build/ci.times
}

part "toolchain"
tools/pinned.sh
part "proofs, must-fail edits and programs"
# The prover's own gate: at the top of this checkout, with no names, and with nothing copied, removed or left out before it.
status=0
rt ci 2>&1 | tee build/ci.log | timed || status=$?
if [ "$status" != 0 ]; then
    echo "The prover refused something: see above." >&2
    exit "$status"
fi
tools/passed.sh build/ci.log
part "closing lines of the prover that are refused"
tools/passed-test.sh
part "crates listed"
tools/listed.sh
part "documents"
tools/docs-check.py
part "claims, and mistakes that they refuse"
tools/claims.sh
tools/claims-test.sh
part "gcc, cargo and python3 for x86-64"
tools/for-x86-64.sh true
part "tests from outside, through the C interface"
if ! (cd crates/wort && rt lib) || ! (cd host && ../tools/for-x86-64.sh cargo test --release --locked --offline); then
    echo "The library and the model differ, or the tests do not build: see above." >&2
    exit 1
fi
part "the stack of each call, as compiled"
tools/stack.py --check docs/AUDIT.md
tools/stack.py --below 1024 wort_lookup wort_lookup_quick wort_put wort_delete wort_plan_put wort_plan_delete wort_step wort_finish
part "stores at the machine"
tools/stores.sh
tools/stores.sh --can-fail
part "pictures and the walk-through, as the library does it"
tools/for-x86-64.sh tools/pictures.py --check
part ""
tail -n 1 build/ci.log
