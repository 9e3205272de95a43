#!/bin/sh
# Runs a command with a gcc, a cargo and a python3 that are for x86-64, as libwort.a is. On another processor that takes packages of
# Debian 12, which are installed if they are missing; what was built then runs by x86-64.sh.
# Usage: for-x86-64.sh COMMAND [WORD...]
set -eu
[ "$(uname -m)" != x86_64 ] || exec "$@"
root=$(cd "$(dirname "$0")/.." && pwd)
made=$root/build/x86-64
python=libpython3.11
packages="gcc-x86-64-linux-gnu libc6-dev-amd64-cross qemu-user rustc-web libstd-rust-web-dev:amd64 $python:amd64"

mkdir -p "$made"
# shellcheck disable=SC2086 # the packages are many words
"$root/tools/packages.sh" "The library is for x86-64, and its tests need" $packages
ln -sf "$(command -v x86_64-linux-gnu-gcc)" "$made/gcc"
# What Debian's libm.a for this compiler means: it names a file of x86-64's own package. A static program is linked with it.
ln -sf "$("$made/gcc" -print-file-name=libm-2.36.a)" "$made/libm.a"
echo 'int Py_BytesMain(int, char **); int main(int count, char **words) { return Py_BytesMain(count, words); }' |
    "$made/gcc" -x c - -x none "/usr/lib/x86_64-linux-gnu/$python.so.1.0" -o "$made/python"
printf '#!/bin/sh\nexec "%s/tools/x86-64.sh" "%s/python" "$@"\n' "$root" "$made" >"$made/python3"
chmod +x "$made/python3"

export PATH="$made:$PATH" RUSTC=/usr/bin/rustc CARGO_BUILD_TARGET=x86_64-unknown-linux-gnu
export CARGO_TARGET_X86_64_UNKNOWN_LINUX_GNU_LINKER=x86_64-linux-gnu-gcc
export CARGO_TARGET_X86_64_UNKNOWN_LINUX_GNU_RUNNER="$root/tools/x86-64.sh"
exec "$@"
