#!/usr/bin/env bash
# Stores at the machine: whole calls under single steps of the processor, by the program host/src/bin/stores.rs. Where this processor
# has no such steps of x86-64, a whole emulated machine has: it runs the program and nothing else. Without either this fails.
# Usage: stores.sh               the library, crates/wort/out/libwort.a
#        stores.sh --can-fail    plain C in its place: as it has to be, and with mistakes that have to be found
set -euo pipefail
cd "$(dirname "$0")/.."
made=$PWD/build/stores
program=$made/target/x86_64-unknown-linux-gnu/release/stores
machine=
[ "$(uname -m)" = x86_64 ] || machine=emulated

fail() {
    echo "$1" >&2
    exit 1
}

# Builds the program with the library of a directory; for an emulated machine such that it needs no other file.
build() {
    local static=()
    [ -z "$machine" ] || static=(-C target-feature=+crt-static -L "native=$PWD/build/x86-64")
    (cd host && WORT_LIB_DIR=$1 ../tools/for-x86-64.sh cargo rustc --quiet --release --locked --offline --bin stores \
        --target x86_64-unknown-linux-gnu --target-dir "$made/target" -- "${static[@]}")
}

# Debian's kernel for such machines; a package with no version in its name says which is the newest.
download_kernel() {
    cd "$made" && apt-get download "$(apt-cache depends linux-image-cloud-amd64:amd64 | sed -n 's/^ *Depends: *//p')"
}

kernel() {
    [ ! -s "$made/vmlinuz" ] || return 0
    rm -f "$made"/*.deb
    (download_kernel || { apt-get update && download_kernel; }) >"$made/apt.log" 2>&1 ||
        fail "Single steps of an x86-64 program need the kernel of Debian's linux-image-cloud-amd64, and apt-get does not give it: see $made/apt.log."
    dpkg-deb --fsys-tarfile "$made"/*.deb | tar -x -O --wildcards './boot/vmlinuz-*' >"$made/vmlinuz.new"
    mv "$made/vmlinuz.new" "$made/vmlinuz"
    rm "$made"/*.deb
}

# The program as the one file of a machine's first file system (cpio, newc).
file_system() {
    python3 - "$program" <<'END'
import sys

def entry(name, mode, content):
    fields = [0, mode, 0, 0, 1, 0, len(content), 0, 0, 0, 0, len(name) + 1, 0]
    head = b"070701" + b"".join(b"%08x" % field for field in fields) + name + b"\0"
    return b"".join(part + b"\0" * (-len(part) % 4) for part in (head, content))

with open(sys.argv[1], "rb") as program:
    sys.stdout.buffer.write(entry(b"init", 0o100755, program.read()) + entry(b"TRAILER!!!", 0, b""))
END
}

# Starts an emulated machine with the program as its first process, which ends the machine.
boot() {
    tools/packages.sh "Single steps of an x86-64 program need" qemu-system-x86
    kernel
    file_system >"$made/initramfs"
    rm -f "$made/console"
    timeout 600 qemu-system-x86_64 -nodefaults -display none -m 256 -no-reboot -serial "file:$made/console" \
        -kernel "$made/vmlinuz" -initrd "$made/initramfs" -append "console=ttyS0 quiet loglevel=0 panic=-1 -- $1" ||
        fail "The emulated machine did not end by itself: see $made/console."
    tr -d '\r' <"$made/console" >"$made/said"
}

# What the program says of the library in a directory, for so many calls of each case.
try() {
    local status=0
    build "$1"
    if [ -z "$machine" ]; then
        "$program" "$2" >"$made/said" || status=$?
        [ "$status" = 3 ] || return 0
        command -v qemu-system-x86_64 >/dev/null ||
            fail "Stores at the machine are not tested: ptrace is refused here, and there is no emulated machine (Debian's package qemu-system-x86)."
        echo "ptrace is refused here: a whole machine is emulated."
        machine=emulated
        build "$1"
    fi
    boot "$2"
}

passes() {
    try "$1" "$2"
    cat "$made/said"
    grep -qE "^[0-9]+ calls, [0-9]+ stores, each an aligned 8-byte store in the plan's order\$" "$made/said" ||
        fail "Some store is not as the plan says."
}

# The mistake of by-plan.c is found, for this reason.
is_refused() {
    tools/for-x86-64.sh bench/plain-as-wort.sh --by-plan "$made/plain" "-D$1"
    try "$made/plain" 2
    echo "$1: $(cat "$made/said")"
    grep -q "$2" "$made/said" || fail "The mistake $1 has to be found: $2."
}

mkdir -p "$made"
case ${1-} in
--can-fail)
    tools/for-x86-64.sh bench/plain-as-wort.sh --by-plan "$made/plain"
    passes "$made/plain" 2
    is_refused EXCHANGED "where the plan has"
    is_refused WIDE "one instruction changes 2 words"
    is_refused REPEATED "is not stored by an 8-byte move"
    ;;
*) passes "$PWD/crates/wort/out" 12 ;;
esac
