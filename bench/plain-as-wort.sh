#!/bin/sh
# Builds the plain C version under the library's names as DIR/libwort.a: with it the tests can be tried on a second
# version of the same rules. With --by-plan the whole calls are by-plan.c's. Extra words are handed to the compiler.
# Usage: plain-as-wort.sh [--by-plan] DIR [FLAG...]
set -eu
here=$(dirname "$0")
sources=plain.c
calls="lookup lookup_quick list plan_put plan_delete plan_open step finish"
if [ "$1" = --by-plan ]; then
    sources="plain.c by-plan.c"
    shift
else
    calls="$calls format open put delete"
fi
dir=$1
shift
mkdir -p "$dir"
names=
for call in $calls; do
    names="$names -Dplain_$call=wort_$call"
done
rm -f "$dir/libwort.a"
for source in $sources; do
    # shellcheck disable=SC2086 # the names are many words
    gcc -O3 -Wall -Wextra -fPIC $names "$@" -c "$here/$source" -o "$dir/$source.o"
    ar rcs "$dir/libwort.a" "$dir/$source.o"
    rm "$dir/$source.o"
done
