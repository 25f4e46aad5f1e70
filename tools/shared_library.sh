#!/usr/bin/env bash
# Links the shared library from the proved archive, by the system's gcc: TARGET, whose soname is libdrain.so.0. It shows
# the functions of drain.h and nothing else. The same archive and the same gcc give the same bytes.
# Writes TARGET.linked too: the sums of both, and the linker.
# Usage: tools/shared_library.sh ARCHIVE TARGET    (as build/libdrain.a build/libdrain.so.0)
set -euo pipefail
[ $# -eq 2 ] || {
    echo 'usage: tools/shared_library.sh ARCHIVE TARGET' >&2
    exit 2
}
archive=$1
target=$2
export LC_ALL=C
here=$(dirname "$0")
"$here/is_proved.sh" "$archive"
command -v gcc >/dev/null || {
    echo 'a shared library needs gcc on the PATH' >&2
    exit 1
}
scratch=$(mktemp -d)
trap 'rm -rf "$scratch"' EXIT

names=$(grep -oE '^(uint32_t|size_t) drain_[a-z_]+\(' "$here/../crates/drain_c/include/drain.h" | grep -oE 'drain_[a-z_]+' | sort)
echo "{ global: ${names//$'\n'/; }; local: *; };" >"$scratch/shown"
gcc -shared -o "$scratch/shared" -Wl,--version-script="$scratch/shown" -Wl,-soname,libdrain.so.0 -Wl,-z,defs,-z,noexecstack,-z,relro,-z,now \
    -Wl,--build-id=none -Wl,--whole-archive "$archive" -Wl,--no-whole-archive
strip --strip-unneeded -R .comment "$scratch/shared"
if objdump -p "$scratch/shared" | grep -q TEXTREL; then
    echo "$archive is not position independent" >&2
    exit 1
fi
{
    echo "archive  $(sha256sum <"$archive" | cut -d ' ' -f 1)"
    echo "shared   $(sha256sum <"$scratch/shared" | cut -d ' ' -f 1)"
    echo "linker   $(gcc --version | head -n 1)"
} >"$scratch/linked"
mkdir -p "$(dirname "$target")"
rm -f "$target.linked"
mv "$scratch/shared" "$target"
mv "$scratch/linked" "$target.linked"
