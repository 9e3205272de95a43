#!/usr/bin/env bash
# The claims are there, there is a law of them, and they are what was read. A checker accepts whatever laws it is given, and a weaker statement as gladly as a
# stronger one: that none is missing, or says less, is seen by text.
# The statements and the promises of the C interface are held by tools/statements.sums. A changed sum is what a reviewer reads: `tools/claims.sh --write` renews
# them, on purpose.
set -euo pipefail
cd "$(dirname "$0")/.."

# One line of a file, to the letter, and not in a comment over several lines.
has() {
    local line times=0
    while IFS= read -r line; do
        [ "$line" != "$2" ] || times=$((times + 1))
        if [[ $line == *'{-'* ]]; then
            echo "$1: a comment over several lines could hide a law" >&2
            exit 1
        fi
    done <"$1"
    if [ "$times" != 1 ]; then
        echo "$1 has to have this line, once: $2" >&2
        exit 1
    fi
}

statement=crates/demands/specs/Claims.antt
law=crates/demands/proofs/Claims.antt
has $statement 'use Rattle.demands.specs.Demand1.{Demand1}'
has $statement 'use Rattle.demands.specs.Causes.{Causes}'
has $statement 'use Rattle.demands.specs.Demand2.{Demand2Holds}'
has $statement 'use Rattle.demands.specs.Demand3.{Generation, Demand3, Covers, Begins, AtMostOneStale}'
has $statement 'use Rattle.demands.specs.Question.{ListedIffOpenable}'
has $statement 'use Rattle.demands.specs.ByPlan.{ByPlan}'
has $statement 'use Rattle.demands.specs.FromC.{Returns}'
has $statement 'use Rattle.demands.specs.Opening.{Opens}'
has $statement 'use Rattle.demands.specs.Quick.{AsLookup}'
has $statement 'use Rattle.demands.specs.Unique.{Unique}'
has $statement 'use Rattle.demands.specs.Cases.{every, cases}'
has $statement 'use Rattle.demands.specs.StoreLists.{store_lists}'
has $statement 'use Rattle.demands.specs.Retired.{retired}'
has $statement 'pub record Claims : Type 1 where'
has $statement '  pub demand1 : Demand1'
has $statement '  pub causes : Causes'
has $statement '  pub demand2 : Demand2Holds'
has $statement '  pub demand3 : (g : Generation) → Demand3 g'
has $statement '  pub covers : Covers'
has $statement '  pub one_stale : (g : Generation) → AtMostOneStale g'
has $statement '  pub question : (g : Generation) → ListedIffOpenable g'
has $statement '  pub begins : Begins'
has $statement '  pub by_plan : ByPlan'
has $statement '  pub from_c : Returns'
has $statement '  pub opening : Opens'
has $statement '  pub quick : AsLookup'
has $statement '  pub one_outcome : Unique'
has $statement '  pub examples : every cases ≡ true'
has $statement '  pub store_lists : every store_lists ≡ true'
has $statement '  pub retired_names : every retired ≡ true'
has $law 'use Rattle.demands.specs.Claims.{Claims}'
has $law 'pub claims : Claims'
has crates/demands/specs/Lib.antt 'pub mod Claims'
has crates/demands/proofs/Lib.antt 'pub mod Claims'

# No function of the C interface asks anything of its caller: a contract whose `requires` nobody meets proves anything.
if grep -rn requires crates/wort/src >&2; then
    echo "crates/wort/src: no function may have a requires" >&2
    exit 1
fi
tools/statements.py "$@"
echo "claims : Claims, in $law, and $(wc -l <tools/statements.sums) sums as they were read"
