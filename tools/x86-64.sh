#!/bin/sh
# Runs an x86-64 program, the only kind that the prover builds: on another processor under an emulator, with the toolchain's C library.
# Usage: x86-64.sh PROGRAM [WORD...]
set -eu
machine=$(uname -m)
[ "$machine" != x86_64 ] || exec "$@"
tools=$(dirname "$(rt doc)")/../on/$machine/toolchain
# Debian's emulator, if it is here: the toolchain's own (8.2.2) ends when a program reads /proc/self/maps, as every one of Rust's does.
emulator=$(command -v qemu-x86_64) || emulator=$tools/bin/qemu-x86_64
exec "$emulator" "$tools/lib/ld-linux-x86-64.so.2" --library-path "$tools/lib" "$@"
