#!/usr/bin/env bash
# Links a static program from the objects of two proved ones, PROGRAM and the same for x86-64-v3, PROGRAM-v3, by the system's
# gcc and with the system's C library. At its start it picks one of them by the processor (tools/pick_processor.c). It runs
# where the C library is too old for PROGRAM, or missing. Each object has to be its program's: the toolchain's linker makes
# the same bytes from it, or nothing is written.
# Writes TARGET, TARGET.o (the program without the C library, to be linked again) and TARGET.linked (what was linked by what).
# Usage: tools/static_program.sh PROGRAM TARGET    (PROGRAM.o, PROGRAM-v3 and PROGRAM-v3.o lie beside PROGRAM)
set -euo pipefail
[ $# -eq 2 ] || {
    echo 'usage: tools/static_program.sh PROGRAM TARGET' >&2
    exit 2
}
program=$1
target=$2
export LC_ALL=C
here=$(dirname "$0")
scratch=$(mktemp -d)
trap 'rm -rf "$scratch"' EXIT

refuse() {
    echo "$1" >&2
    exit 1
}
sum_of() { sha256sum <"$1" | cut -d ' ' -f 1; }

for file in "$program" "$program.o" "$program-v3" "$program-v3.o"; do
    [ -f "$file" ] || refuse "$file is not there: tools/build.py build/drain build/drain-v3 makes all that the static program is linked from"
done
for tool in rt gcc objcopy; do
    command -v "$tool" >/dev/null || refuse "a static program needs $tool on the PATH"
done
kit=$(dirname "$(dirname "$(readlink -f "$(command -v rt)")")")
libraries=("$kit/c/libos_c.a" "$kit/c/liblibc_c.a")

# Gives the start of a program's object another name, in $scratch/NAME.o.
# Usage: take_object PROGRAM NAME
take_object() {
    cp "$1.o" "$scratch/drain.o"
    "$kit/bin/rattle-link" --target x86_64-unknown-linux-gnu --toolchain "$kit/toolchain" -o "$scratch/again" \
        "$scratch/drain.o" "${libraries[@]}" >"$scratch/said" 2>&1 || refuse "the toolchain does not link $1.o: $(tail -n 3 "$scratch/said")"
    cmp -s "$scratch/again" "$1" || refuse "$1.o is not the object of $1: linked by the toolchain it gives another program"
    objcopy --redefine-sym "main=$2" "$scratch/drain.o" "$scratch/$2.o"
}
take_object "$program" drain_main_v2
take_object "$program-v3" drain_main_v3

gcc -O2 -Wall -Wextra -c -o "$scratch/pick.o" "$here/pick_processor.c" ||
    refuse "gcc does not compile $here/pick_processor.c: it needs glibc 2.33 or later"
gcc -r -nostdlib -o "$scratch/target.o" "$scratch/pick.o" "$scratch/drain_main_v2.o" "$scratch/drain_main_v3.o" \
    -Wl,--start-group "${libraries[@]}" -Wl,--end-group
gcc -static -o "$scratch/target" "$scratch/target.o" ||
    refuse 'gcc links no static program: it needs the static C library (libc6-dev, glibc-static)'
{
    echo "program  $(sum_of "$program")"
    echo "v3       $(sum_of "$program-v3")"
    echo "static   $(sum_of "$scratch/target")"
    echo "linker   $(gcc --version | head -n 1)"
    echo "libc     $(ldd --version | head -n 1 | sed 's/^ldd //')"
} >"$scratch/target.linked"

mkdir -p "$(dirname "$target")"
rm -f "$target.linked"
mv "$scratch/target" "$target"
mv "$scratch/target.o" "$target.o"
mv "$scratch/target.linked" "$target.linked"
