#!/bin/sh
# Times the library beside plain C, JudyL, LMDB and BTreeMap in one run, and writes docs/BENCHMARKS.md and docs/bench.svg.
# WORT_LIB_DIR says where libwort.a stands (crates/wort/out), BENCH_DOCS where the pages go (docs).
set -eu
root=$(cd "$(dirname "$0")/.." && pwd)
lib=${WORT_LIB_DIR:-$root/crates/wort/out}
docs=${BENCH_DOCS:-$root/docs}
work=$root/build/bench

fail() {
    echo "bench: $1" >&2
    exit 1
}

[ "$(uname -m)" = x86_64 ] || fail "the library is for x86-64, and a time taken under an emulator would say nothing."
for tool in gcc rustc python3; do
    command -v "$tool" >/dev/null || fail "the program $tool is missing; install it and run this again."
done

has_header() {
    echo "#include <$1>" | gcc -E - >/dev/null 2>&1
}

if ! has_header Judy.h || ! has_header lmdb.h; then
    if [ "$(id -u)" = 0 ] && command -v apt-get >/dev/null; then
        { apt-get update && apt-get install -y libjudy-dev liblmdb-dev; } >/dev/null ||
            fail "apt-get could not install the Debian packages libjudy-dev and liblmdb-dev."
    else
        fail "the Debian packages libjudy-dev and liblmdb-dev are missing; install them with: sudo apt-get install libjudy-dev liblmdb-dev"
    fi
fi

if [ ! -f "$lib/libwort.a" ]; then
    ("$root/tools/pinned.sh" && cd "$root/crates/wort" && rt lib >/dev/null) || fail "libwort.a could not be built: see 'rt lib' in crates/wort."
fi
[ -f "$lib/libwort.a" ] || fail "libwort.a is not in $lib."

mkdir -p "$work" "$docs"
for call in format open lookup lookup_quick list put delete plan_put plan_delete plan_open step finish; do
    echo "plain_$call again_$call"
done >"$work/again.syms"
gcc -O3 -Wall -Wextra -c "$root/bench/plain.c" -o "$work/plain.o"
# A second copy under other names, for the noise.
objcopy --redefine-syms="$work/again.syms" "$work/plain.o" "$work/again.o"
rustc -O --edition 2021 --crate-type cdylib "$root/bench/btree.rs" -o "$work/libbtree.so"
gcc -O2 -Wall -Wextra -I"$root/include" "$root/bench/bench.c" "$work/plain.o" "$work/again.o" "$lib/libwort.a" \
    -L"$work" -lbtree -lJudy -llmdb -Wl,-rpath,"$work" -o "$work/bench"

# LMDB is given memory, not a disk, where the system has such a place.
shared=/dev/shm
[ -w "$shared" ] || shared=$work
table=$(mktemp -d "$shared/wort-bench.XXXXXX")
trap 'rm -rf "$table"' EXIT
"$work/bench" "$table" >"$work/bench.tsv"
python3 "$root/bench/report.py" "$work/bench.tsv" "$docs"
