#!/usr/bin/env bash
# tools/claims.sh refuses what no proof can refuse: a claim that is missing or borrowed, a C function that asks for something or promises
# something else, a statement that says less. Each mistake is made on a copy, and has to be refused for its own reason.
set -euo pipefail
cd "$(dirname "$0")/.."
copy=$(mktemp -d)
trap 'rm -rf "$copy"' EXIT
cp --parents tools/{claims.sh,statements.py,statements.sums} crates/demands/specs/*.antt crates/demands/proofs/{Claims,Lib}.antt crates/wort/src/*.rt \
    crates/{finding,listing,survey,tree}/specs/*.antt "$copy"
"$copy/tools/claims.sh" >/dev/null
mistakes=0

# What is wrong, in which file, what stands there, what stands in its place, and the reason that is to be given.
mistake() {
    local file=$copy/$2 text said
    text=$(<"$file")
    if [[ $text != *"$3"* ]]; then
        echo "$1: $2 does not have: $3" >&2
        exit 1
    fi
    printf '%s\n' "${text//"$3"/"$4"}" >"$file"
    if said=$("$copy/tools/claims.sh" 2>&1); then
        echo "$1: not refused" >&2
        exit 1
    fi
    if [[ $said != *"$5"* ]]; then
        printf '%s: refused, and not because of this: %s\n%s\n' "$1" "$5" "$said" >&2
        exit 1
    fi
    printf '%s\n' "$text" >"$file"
    mistakes=$((mistakes + 1))
}

specs=crates/demands/specs
law=crates/demands/proofs/Claims.antt
wort=crates/wort/src/lib.rt
line='has to have this line, once:'
unread='is not what was read'

# The claims.
mistake "demand 3 is another statement under its name" $specs/Claims.antt \
    'Demand3, Covers, Begins' 'Begins as Demand3, Covers, Begins' "$specs/Claims.antt $line use Rattle.demands.specs.Demand3"
mistake "demand 3 is not claimed" $specs/Claims.antt $'  pub demand3 : (g : Generation) → Demand3 g\n' '' "$specs/Claims.antt $line   pub demand3 : (g : Generation) → Demand3 g"
mistake "the law is of another statement under its name" $law \
    'specs.Claims.{Claims}' 'specs.Opening.{Opens as Claims}' "$law $line use Rattle.demands.specs.Claims.{Claims}"
mistake "the law is of another statement" $law 'pub claims : Claims' 'pub claims : Opens' "$law $line pub claims : Claims"
mistake "the law is in a comment" $law 'pub claims : Claims' $'{-\npub claims : Claims' "$law: a comment over several lines"
mistake "the law is not checked" crates/demands/proofs/Lib.antt $'\npub mod Claims' '' "proofs/Lib.antt $line pub mod Claims"

# The C interface.
mistake "wort_lookup requires what nobody meets" $wort $'nodes: &mut u64) -> u64\n    ensures' \
    $'nodes: &mut u64) -> u64\n    requires { length pool.now ≡ 0 }\n    ensures' "no function may have a requires"
mistake "wort_list lists from 0, as it promises" $wort 'ListGives pool.now from' 'ListGives pool.now 0' "$wort: \`wort_list\` $unread"
mistake "wort_delete promises nothing" $wort \
    'DeleteGives pool.old map.old key (left' 'done result ≡ done result } // (left' "$wort: \`wort_delete\` $unread"
mistake "a promise is another under its name" $wort 'shown, ListGives}' 'shown, list_of as ListGives}' "$wort: \`use\` $unread"
mistake "a C function is new" $wort 'pub extern "C" fn wort_step(' \
    $'pub extern "C" fn wort_skip(pool: &mut [u64]) -> u64\n{\n    0\n}\n\npub extern "C" fn wort_step(' "$wort: \`wort_skip\` is new"

# Statements that say less.
mistake "no cut after the last store" $specs/Demand3.antt '(n : ℕ) → n ≤ length σ' '(n : ℕ) → suc n ≤ length σ' "Demand3.antt: \`InOrder\` $unread"
mistake "a map that marks too little is exact" $specs/Tables.antt $'\n  pub kept : (x : ℕ) → x < bytes_of n → InUse pool n x → word_at bytes x ≡ 0 → ⊥' '' \
    "Tables.antt: \`Exact\` $unread"
mistake "a refusal may change the map" $specs/Demand2.antt $'\n  pub same_map : left.map ≡ map' '' "Demand2.antt: \`Refused\` $unread"
mistake "a listing answers as the table from 0 alone" $specs/Tables.antt \
    'list_of pool from ks vs ≡ shown_rows (up_from from rows) ks vs' 'list_of pool 0 ks vs ≡ shown_rows (up_from 0 rows) ks vs' "Tables.antt: \`Reads\` $unread"
mistake "the quick lookup need not answer as the table" $specs/Tables.antt $'\n  pub quick : (k : ℕ) → Finds (T k) (quick_of pool k)' '' \
    "Tables.antt: \`Reads\` $unread"
mistake "the quick lookup may give another value" $specs/Quick.antt ' × ((quick_of pool k).value ≡ (lookup_of pool k).value)' '' \
    "Quick.antt: \`AsLookup\` $unread"
mistake "names have 32 bits" crates/listing/specs/Rows.antt 'Word x = x < 2 ^ 64' 'Word x = x < 2 ^ 32' "Rows.antt: \`Word\` $unread"
mistake "room for another number of names" $specs/Demand3.antt \
    '(r : Reading pool bytes T) × (r.sound.n ≡ n)' 'Reading pool bytes T' "Demand3.antt: \`Promised\` $unread"
mistake "a case is gone" $specs/Cases.antt $'\n    ∷ eqb (first_diff 7 7) 16' '' "Cases.antt: \`cases\` $unread"
mistake "a list of stores is gone" $specs/StoreLists.antt \
    $'\n    ∷ stores_are (delete_plan three_below 0x202) (11 ∷ 0 ∷ [])' '' "StoreLists.antt: \`store_lists\` $unread"
mistake "what is listed opens, and no more is asked" $specs/Question.antt \
    'InListing s k v ↔ Openable a v' 'InListing s k v → Openable a v' "Question.antt: \`ListedIffOpenable\` $unread"
mistake "a symbol has another meaning" $specs/Tables.antt 'List, ℕ, ◌<◌, eqb' 'List, ℕ, ◌≤◌ as ◌<◌, eqb' "Tables.antt: \`use\` $unread"
mistake "a definition is in a comment" $specs/Demand3.antt 'abbrev pub Cut' $'{-\nabbrev pub Cut' "Demand3.antt: a comment over several lines"
mistake "a definition is gone" $specs/ByPlan.antt \
    $'\nabbrev pub StepByStep : List ℕ → List Store → Planned → Type 0\nStepByStep' $'\nOther' "ByPlan.antt: \`StepByStep\` is gone"
echo "$mistakes mistakes refused, each for its own reason"
