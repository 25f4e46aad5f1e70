#!/usr/bin/env bash
# Packs a release for users without the toolchain: FOLDER/drain-VERSION-linux-x86_64.tar.xz, and its sum beside it.
# It holds the program, the same for x86-64-v3, the static program, the library and its header, drain-gis, man pages, documents, samples, the demo,
# PROVED (what they were made from) and SHA256SUMS. Refuses a program that was not proved and built from these sources.
# The same inputs give the same bytes.
# Usage: tools/dist.sh PROGRAM STATIC SHARED FOLDER
#     STATIC               what tools/static_program.sh linked of PROGRAM and PROGRAM-v3, or - for a release with neither
#     SHARED               what tools/shared_library.sh linked, or - for a release without it
#     SOURCE_DATE_EPOCH    the time of the packed files, in seconds since 1970; else that of the last commit
set -euo pipefail
[ $# -eq 4 ] || {
    echo 'usage: tools/dist.sh PROGRAM STATIC SHARED FOLDER' >&2
    exit 2
}
program=$(realpath -m -- "$1")
static=$2
shared=$3
folder=$(realpath -m -- "$4")
top=$(cd "$(dirname "$0")/.." && pwd)
. "$top/tools/release_parts.sh"
take_program "$program"
[ "$static" = - ] || take_static "$static" "$1"

name=drain-$version-linux-x86_64
root=$room/$name
copy_files "$root" README.md LICENSE CHANGELOG.md CONTRIBUTING.md RELEASING.md SECURITY.md docs samples examples tools/demo.sh tools/demo.txt \
    companion/README.md companion/qgis companion/examples
install -D -m 755 "$room/drain" "$root/bin/drain"
install -d "$root/share/man/man1"
"$top/tools/man_page.py" "$root/bin/drain" >"$root/share/man/man1/drain.1"
"$top/tools/man_page.py" "$top/companion/drain-gis" >"$root/share/man/man1/drain-gis.1"

if [ "$static" != - ]; then
    install -m 755 "$room/drain-v3" "$room/drain-static" "$root/bin/"
    install -D -m 644 "$static.o" "$root/share/relink/drain-static.o"
    cat >"$root/share/relink/README" <<'TEXT'
bin/drain-static has parts of the GNU C library in it, whose licence is the LGPL, version 2.1 or later.
This links the program with another version of that library:

    gcc -static -o drain-static drain-static.o
TEXT
fi
if [ "$shared" != - ]; then
    take_shared "$(realpath -m -- "$shared")"
    install -D -m 644 "$room/libdrain.so.0" "$root/lib/libdrain.so.0"
    ln -s libdrain.so.0 "$root/lib/libdrain.so"
    install -D -m 644 "$top/crates/drain_c/include/drain.h" "$root/include/drain.h"
fi
install -m 644 "$room/PROVED" "$root/PROVED"
"$top/tools/put_companion.sh" "$room" "/$name" "/$name/lib/python3/dist-packages" "$room/PROVED" >/dev/null

(cd "$root" && find . -type f -printf '%P\0' | sort -z | xargs -0 sha256sum >"$room/SHA256SUMS" && mv "$room/SHA256SUMS" .)
tar -C "$room" --format=gnu --sort=name --owner=0 --group=0 --numeric-owner --mtime="@$when" -cf - "$name" |
    xz -9e -T1 >"$room/$name.tar.xz"
(cd "$room" && sha256sum "$name.tar.xz" >"$name.tar.xz.sha256")
put "$room/$name.tar.xz" "$folder"
put "$room/$name.tar.xz.sha256" "$folder"
echo "Packed: $folder/$name.tar.xz"
