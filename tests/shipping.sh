#!/usr/bin/env bash
# Tests what users without the toolchain get: the tarball, the package, the wheel, the plugin for QGIS, the static program and
# the shared library. None of them may be made from a program that is not the proved one. Prints the tests that failed, and how many passed and failed. A test that this
# machine can't run is left out, in a line that says so.
# Usage: tests/shipping.sh BUILD_DIR    (drain and drain.proved; for the static program drain.o, and drain-v3, drain-v3.o and drain-v3.proved;
#                                        libdrain.a for the shared library)
set -uo pipefail
[ $# -eq 1 ] || {
    echo 'usage: tests/shipping.sh BUILD_DIR' >&2
    exit 2
}
build=$(realpath "$1")
top=$(cd "$(dirname "$0")/.." && pwd)
scratch=$(mktemp -d)
trap 'rm -rf "$scratch"' EXIT
passed=0
failed=0

# Counts one test: its name, and the command that has to succeed. If it fails, the end of what it printed is shown.
holds() {
    local name=$1
    shift
    if "$@" >"$scratch/said" 2>&1 </dev/null; then
        passed=$((passed + 1))
    else
        failed=$((failed + 1))
        echo "FAILED $name"
        tail -n 20 "$scratch/said"
    fi
}

# Whether a command ends with this status and prints this text (or anything, if the text is empty).
# Usage: ends STATUS TEXT COMMAND...
ends() {
    local status=$1 text=$2 came=0
    shift 2
    "$@" >"$scratch/printed" 2>&1 || came=$?
    cat "$scratch/printed"
    [ "$came" = "$status" ] && { [ -z "$text" ] || grep -qF -- "$text" "$scratch/printed"; }
}
is_empty() { [ ! -e "$1" ] || [ -z "$(ls -A "$1")" ]; }

# Runs a command with other settings of the user, none of which may change what is packed.
otherwise() { (umask 077 && env LANG=de_DE.UTF-8 TZ=Asia/Tokyo XZ_OPT=-0 TAR_OPTIONS=--numeric-owner GZIP=-1 "$@"); }

# The program and its record, in a folder of their own, so that nothing is left in BUILD_DIR.
mkdir "$scratch/build"
cp "$build/drain" "$build/drain.proved" "$scratch/build/"
drain=$scratch/build/drain
holds 'make of a program that is built needs no toolchain' \
    ends 0 'Unchanged since' env PATH=/usr/bin:/bin "$top/tools/build.py" "$drain"
drain_v3=$drain-v3
static=-
if [ -f "$build/drain.o" ] && [ -f "$build/drain-v3.o" ] && command -v gcc >/dev/null; then
    cp "$build/drain.o" "$build"/drain-v3{,.o,.proved} "$scratch/build/"
    static=$scratch/build/drain-static
    holds 'a program for x86-64-v3 that is built needs no toolchain' \
        ends 0 'Unchanged since' env PATH=/usr/bin:/bin "$top/tools/build.py" "$drain_v3"
    holds 'its record has the processor' grep -qx 'cpu      x86-64-v3' "$drain_v3.proved"
    holds 'it was proved of the same sources' cmp <(grep '^sources' "$drain.proved") <(grep '^sources' "$drain_v3.proved")
    holds 'a static program is linked' "$top/tools/static_program.sh" "$drain" "$static"
    holds 'a static program is linked again' "$top/tools/static_program.sh" "$drain" "$scratch/again"
    for part in '' .o .linked; do holds "the same bytes: drain-static$part" cmp "$static$part" "$scratch/again$part"; done
    mkdir "$scratch/mixed"
    mixed=$scratch/mixed/drain
    cp "$scratch"/build/drain{,.o,-v3} "$scratch/mixed/"
    cp "$drain.o" "$mixed-v3.o"
    holds 'an object of another processor is refused' \
        ends 1 "$mixed-v3.o is not the object of $mixed-v3:" "$top/tools/static_program.sh" "$mixed" "$scratch/other"
    cp /bin/true "$mixed"
    holds 'an object of another program is refused' \
        ends 1 "$mixed.o is not the object of $mixed:" "$top/tools/static_program.sh" "$mixed" "$scratch/other"
    holds 'an object of another program: nothing is linked' test ! -e "$scratch/other"
else
    echo "the static program and the one for x86-64-v3 aren't tried: there is no drain.o, no drain-v3.o or no gcc"
fi

shared=-
if [ -f "$build/libdrain.a" ] && command -v gcc >/dev/null; then
    cp "$build/libdrain.a" "$build/libdrain.a.proved" "$scratch/build/"
    shared=$scratch/build/libdrain.so.0
    holds 'a shared library is linked' "$top/tools/shared_library.sh" "$scratch/build/libdrain.a" "$shared"
    holds 'a shared library is linked again' "$top/tools/shared_library.sh" "$scratch/build/libdrain.a" "$scratch/again.so"
    for part in '' .linked; do holds "the same bytes: libdrain.so.0$part" cmp "$shared$part" "$scratch/again.so$part"; done
    holds 'the library has a soname' ends 0 'SONAME               libdrain.so.0' objdump -p "$shared"
    grep -oE '^(uint32_t|size_t) drain_[a-z_]+' "$top/crates/drain_c/include/drain.h" | cut -d ' ' -f 2 | LC_ALL=C sort >"$scratch/declared"
    holds 'the library shows what drain.h declares' diff "$scratch/declared" <(nm -D --defined-only "$shared" | awk '{ print $3 }' | LC_ALL=C sort)
    holds 'an archive that was not proved is refused' ends 1 'has no record' "$top/tools/shared_library.sh" /bin/true "$scratch/other.so"
else
    echo "the shared library and the wheel aren't tried: there is no libdrain.a or no gcc"
fi

# The tarball.
holds 'a tarball is made' "$top/tools/dist.sh" "$drain" $static $shared "$scratch/one"
sleep 1
holds 'a tarball is made again' otherwise "$top/tools/dist.sh" "$drain" $static $shared "$scratch/two"
holds 'tarballs: the same bytes' diff -r "$scratch/one" "$scratch/two"
holds 'tarball: its sum fits' sh -c "cd '$scratch/one' && sha256sum -c *.sha256"
mkdir "$scratch/unpacked"
holds 'tarball: it is unpacked' tar -C "$scratch/unpacked" -xf "$scratch"/one/drain-*-linux-x86_64.tar.xz
release=$(echo "$scratch"/unpacked/drain-*-linux-x86_64)
holds 'tarball: it is one folder' test -d "$release"
holds 'tarball: SHA256SUMS fits' sh -c "cd '$release' && sha256sum --strict -c SHA256SUMS"
(cd "$release" && find . -type f ! -path ./SHA256SUMS -printf '%P\n' | LC_ALL=C sort) >"$scratch/files"
holds 'tarball: SHA256SUMS has each other file' diff "$scratch/files" <(sed 's/^[0-9a-f]*  //' "$release/SHA256SUMS")
tar -tvf "$scratch"/one/*.tar.xz --full-time | awk '{ print $2, $4, $5 }' | sort -u >"$scratch/times"
holds 'tarball: its files have one owner and one time' test "$(wc -l <"$scratch/times")" = 1
holds 'tarball: it has the proved program' cmp "$drain" "$release/bin/drain"
holds 'tarball: PROVED begins with the record of the proof' diff "$drain.proved" <(head -n "$(wc -l <"$drain.proved")" "$release/PROVED")
holds 'tarball: its demo runs' sh -c "cd '$release' && tools/demo.sh"
fixtures=$top/companion/tests/fixtures
# Judges what SAGA made by a command drain-gis, with nothing else on the PATH and no other package: it is accepted without acc and bas.
judges_samples() {
    local words=(judge --from saga --dem "$fixtures/dem.tif" --con "$fixtures/saga-con.tif" --dir "$fixtures/saga-dir.tif")
    ends 0 'accepted rows=47 cols=61 data=2842 raised=35 outlets=17' env -i PATH=/usr/bin:/bin PYTHONDONTWRITEBYTECODE=1 "$1" "${words[@]}" &&
        ends 1 'rejected rule=13 Accumulation row=0 col=1' env -i PATH=/usr/bin:/bin PYTHONDONTWRITEBYTECODE=1 "$1" "${words[@]}" --acc "$fixtures/saga-acc.tif"
}
has_companion() { "${1:-/usr/bin/python3}" -c 'import rasterio, matplotlib, jinja2, click, tqdm' 2>/dev/null; }
if has_companion; then
    holds 'tarball: drain-gis runs the drain beside it' judges_samples "$release/bin/drain-gis"
    mkdir "$scratch/prefix"
    "$top/tools/put_companion.sh" "$scratch" /prefix - "$drain.proved" >/dev/null
    holds 'drain-gis installed beside a program runs that one' sh -c "install -D '$drain' '$scratch/prefix/bin/drain'"
    holds 'drain-gis installed below a prefix' judges_samples "$scratch/prefix/bin/drain-gis"
fi
holds 'tarball: its man page of drain-gis has the commands' grep -q '^.SH "DRAIN.*GIS JUDGE"' "$release/share/man/man1/drain-gis.1"
holds 'tarball: its man page has the commands' grep -q '^.SH "DRAIN AUDIT"' "$release/share/man/man1/drain.1"
for file in README.md LICENSE RELEASING.md samples/README.md samples/LICENSE-matplotlib.txt; do
    holds "tarball: it has $file" cmp "$top/$file" "$release/$file"
done

# The program for x86-64-v3, and the static program in a root that holds only it and samples: as it is, and with AVX2 hidden from it, so that its first
# half runs. All get the same arguments, and have to answer the same.
if [ "$static" != - ]; then
    holds 'the tarball has the program for x86-64-v3' cmp "$drain_v3" "$release/bin/drain-v3"
    holds "PROVED has the sum of the program for x86-64-v3" grep -qx "v3       $(sha256sum <"$drain_v3" | cut -d ' ' -f 1)" "$release/PROVED"
    holds 'the tarball has the static program' cmp "$static" "$release/bin/drain-static"
    holds 'tarball: its demo runs by the static program' sh -c "cd '$release' && tools/demo.sh bin/drain-static"
    holds "PROVED has the static program's sum" grep -qx "static   $(sha256sum <"$static" | cut -d ' ' -f 1)" "$release/PROVED"
    holds 'tarball: its object is linked again' gcc -static -o "$scratch/relinked" "$release/share/relink/drain-static.o"
    holds 'tarball: its object gives the static program' cmp "$static" "$scratch/relinked"
    root=$scratch/root
    mkdir -p "$root/made" "$scratch/plain/made"
    cp -r "$top/samples" "$root/"
    cp -r "$top/samples" "$scratch/plain/"
    cp "$static" "$root/drain"
    # Runs the static program on a processor without some features, as -AVX2: the C library hides them from it.
    # Usage: without FEATURES ARGUMENT...
    if [ "$(id -u)" = 0 ] && chroot "$root" /drain --version >/dev/null 2>&1; then
        without() { env -i ${1:+"GLIBC_TUNABLES=glibc.cpu.hwcaps=$1"} "$(command -v chroot)" "$root" /drain "${@:2}"; }
    else
        echo "the static program isn't run in an empty root, but beside the C library: only root changes the root"
        without() { (cd "$root" && env -i ${1:+"GLIBC_TUNABLES=glibc.cpu.hwcaps=$1"} ./drain "${@:2}"); }
    fi
    by_static() { without '' "$@"; }
    by_first_half() { without -AVX2 "$@"; }
    by_v3() { (cd "$root" && "$drain_v3" "$@"); }
    by_plain() { (cd "$scratch/plain" && "$drain" "$@"); }
    ways=(by_static by_first_half)
    if by_v3 --version >/dev/null 2>&1; then
        ways+=(by_v3)
    else
        echo "this processor isn't one of x86-64-v3: the program for it isn't run, nor the second half of the static one"
    fi
    # Usage: answers_the_same INPUT ARGUMENT...
    answers_the_same() {
        local input=$1 plain=0 way other
        shift
        rm -f "$scratch"/plain/made/*
        by_plain "$@" <"$input" >"$scratch/plain.out" 2>"$scratch/plain.err" || plain=$?
        for way in "${ways[@]}"; do
            rm -f "$root"/made/*
            other=0
            $way "$@" <"$input" >"$scratch/other.out" 2>"$scratch/other.err" || other=$?
            echo "status $plain, $way $other"
            [ "$plain" = "$other" ] && diff "$scratch/plain.out" "$scratch/other.out" && diff "$scratch/plain.err" "$scratch/other.err" &&
                diff -r "$scratch/plain/made" "$root/made" || return 1
        done
    }
    tile=samples/other-tools/N36W085.hgt
    for set in "$top"/samples/other-tools/*/; do
        set=samples/other-tools/$(basename "$set")
        holds "static: audit of $set" answers_the_same /dev/null audit --side 51 --products "$set" $tile
        holds "static: explain $set" answers_the_same /dev/null explain --side 51 --products "$set" $tile
        holds "static: explain $set as JSON" answers_the_same /dev/null explain --json --side 51 --products "$set" $tile
    done
    holds 'static: check' answers_the_same /dev/null check --side 121 --products samples/jacksboro samples/jacksboro/N36W085.hgt
    holds 'static: fill' answers_the_same "$top/samples/jacksboro-121.fill" fill --side 121
    for header in "$top"/samples/headers/*.hdr; do
        holds "static: header $(basename "$header")" answers_the_same /dev/null header "samples/headers/$(basename "$header")"
    done
    holds 'static: make' answers_the_same /dev/null make --side 344 --out made samples/N36W085.hgt
    holds 'static: make has made files' test -s "$root/made/con.bil"
    # Without SSE4.2 each half refuses to start, in a line with its processor.
    refuses() { ends 127 "lacks a feature of $1," without "$2" --version; }
    holds 'static: the first half is picked without AVX2' refuses x86-64-v2 -SSE4_2,-AVX2
    [ ${#ways[@]} = 2 ] || holds 'static: the second half is picked where all of x86-64-v3 is there' refuses x86-64-v3 -SSE4_2
    for feature in AVX AVX2 BMI1 BMI2 F16C FMA LZCNT MOVBE; do
        holds "static: it runs without $feature" ends 0 'drain ' without "-$feature" --version
    done
    # Each half, on random rasters with wide rows.
    printf '#!/bin/sh\nGLIBC_TUNABLES=glibc.cpu.hwcaps=-AVX2 exec %q "$@"\n' "$static" >"$scratch/first-half"
    chmod +x "$scratch/first-half"
    holds 'static: random rasters' "$top/tests/same_answers.py" "$drain" "$scratch/first-half" "$static"
    holds 'static: version' answers_the_same /dev/null --version
    holds 'static: help' answers_the_same /dev/null --help
    holds 'static: no arguments' answers_the_same /dev/null
    holds 'static: a file that is not there' answers_the_same /dev/null audit --side 51 --products samples $tile
fi

# The package.
if command -v dpkg-deb >/dev/null; then
    holds 'a package is made' "$top/tools/deb.sh" "$drain" $shared "$scratch/deb"
    sleep 1
    holds 'a package is made again' otherwise "$top/tools/deb.sh" "$drain" $shared "$scratch/deb2"
    holds 'packages: the same bytes' diff -r "$scratch/deb" "$scratch/deb2"
    deb=$(echo "$scratch"/deb/drain_*-1_amd64.deb)
    dpkg-deb --fsys-tarfile "$deb" | tar -tvf - --full-time | awk '{ print $2, $4, $5 }' | sort -u >"$scratch/times"
    holds 'package: its files have one owner and one time' test "$(wc -l <"$scratch/times")" = 1
    there=$scratch/installed
    mkdir -p "$there/var/lib/dpkg/info" "$there/var/lib/dpkg/updates"
    : >"$there/var/lib/dpkg/status"
    if [ "$(id -u)" = 0 ]; then
        # The root has no C library, so its dependency is passed over.
        holds 'package: it is installed' dpkg --root="$there" --force-depends --install "$deb"
        holds 'package: its sums are looked at' ends 0 '' dpkg --root="$there" --verify drain
        holds 'package: no sum differs' test ! -s "$scratch/printed"
    else
        echo "the package is unpacked, not installed: only root installs"
        holds 'package: it is unpacked' dpkg-deb -x "$deb" "$there"
    fi
    holds 'package: it has the proved program' cmp "$drain" "$there/usr/bin/drain"
    holds 'package: its program runs' "$there/usr/bin/drain" --version
    holds 'package: its doc folder has the record of the proof' \
        diff "$drain.proved" <(head -n "$(wc -l <"$drain.proved")" "$there/usr/share/doc/drain/PROVED")
    if has_companion; then holds 'package: drain-gis runs its drain' judges_samples "$there/usr/bin/drain-gis"; fi
    holds 'package: its demo runs' sh -c "cd '$there/usr/share/doc/drain/examples' && tools/demo.sh '$there/usr/bin/drain'"
    holds 'package: its man page has the commands' sh -c "gzip -dc '$there/usr/share/man/man1/drain.1.gz' | grep -q '^.SH \"DRAIN AUDIT\"'"
    if [ "$(id -u)" = 0 ]; then
        holds 'package: it is removed' dpkg --root="$there" --remove drain
        holds 'package: no file of it is left' test -z "$(find "$there" -type f -not -path '*/var/*')"
    fi
    if command -v lintian >/dev/null; then
        holds 'package: lintian ends well' ends 0 '' lintian --allow-root --display-info --fail-on error,warning,info "$deb"
        holds 'package: lintian has no hint' test -z "$(grep -v '^running with root' "$scratch/printed")"
    else
        echo "the package isn't looked at by lintian: it isn't installed"
    fi
else
    echo "the package isn't tried: there is no dpkg-deb"
fi

# The wheel: built twice, and installed without an index into a fresh environment, whose other packages are the system's.
if [ "$shared" != - ] && has_companion; then
    [ "$static" != - ] || echo "the wheel is tried with the program itself: there is no static program"
    holds 'a wheel is built' "$top/companion/build_wheel.sh" "$drain" $static "$shared" "$scratch/wheel"
    sleep 1
    holds 'a wheel is built again' otherwise "$top/companion/build_wheel.sh" "$drain" $static "$shared" "$scratch/wheel2"
    holds 'wheels: the same bytes' diff -r "$scratch/wheel" "$scratch/wheel2"
    holds 'wheel: it is installed' sh -c "/usr/bin/python3 -m venv --system-site-packages '$scratch/venv' &&
        '$scratch/venv/bin/pip' install --no-index --no-deps '$scratch'/wheel/*.whl"
    inside=$(echo "$scratch"/venv/lib/python3*/site-packages/drain_gis/_drain)
    holds 'wheel: it has the program' cmp "$([ "$static" = - ] && echo "$drain" || echo "$static")" "$inside/drain"
    holds 'wheel: it has the shared library' cmp "$shared" "$inside/libdrain.so"
    holds 'wheel: PROVED begins with the record of the proof' diff "$drain.proved" <(head -n "$(wc -l <"$drain.proved")" "$inside/PROVED")
    [ "$static" = - ] || holds 'wheel: PROVED has the sum of the program for x86-64-v3' grep -q '^v3 ' "$inside/PROVED"
    holds "wheel: PROVED has the library's sum" grep -qx "shared   $(sha256sum <"$shared" | cut -d ' ' -f 1)" "$inside/PROVED"
    holds 'wheel: drain-gis judges samples' judges_samples "$scratch/venv/bin/drain-gis"
    holds 'wheel: its drain runs' cmp <("$scratch/venv/bin/drain" --version) <("$drain" --version)
    holds 'wheel: its own test passes' sh -c "cd '$scratch' && DRAIN= '$scratch/venv/bin/python' -m pytest -q \
        -p no:cacheprovider -c '$top/companion/pyproject.toml' -o pythonpath=tests '$top/companion/tests/test_api.py'"
    holds 'wheel: no test of them was left out' sh -c "! grep -q skipped '$scratch/said'"
fi
holds 'a plugin is packed' "$top/tools/plugin.py" "$scratch/plugin"
holds 'a plugin is packed again' otherwise "$top/tools/plugin.py" "$scratch/plugin2"
holds 'plugins: the same bytes' diff -r "$scratch/plugin" "$scratch/plugin2"

# A program that isn't the proved one: a byte changed, another record, none.
mkdir "$scratch/changed"
cp "$drain" "$drain.proved" "$scratch/changed/"
size=$(stat -c %s "$drain")
byte=$(od -An -tu1 -j $((size / 2)) -N 1 "$drain")
printf "\\x$(printf '%02x' $((byte ^ 1)))" | dd of="$scratch/changed/drain" bs=1 seek=$((size / 2)) conv=notrunc status=none
refused() {
    local name=$1 program=$2
    holds "$name: no tarball" ends 1 "$program" "$top/tools/dist.sh" "$program" - - "$scratch/refused"
    holds "$name: no package" ends 1 "$program" "$top/tools/deb.sh" "$program" - "$scratch/refused"
    holds "$name: no wheel" ends 1 "$program" "$top/companion/build_wheel.sh" "$program" - - "$scratch/refused"
    holds "$name: nothing is written" is_empty "$scratch/refused"
}
refused 'a changed byte of the program' "$scratch/changed/drain"
cp "$drain" "$scratch/changed/drain"
sed -i 's/^sources .*/sources  0000000000000000000000000000000000000000000000000000000000000000/' "$scratch/changed/drain.proved"
refused 'a record of other sources' "$scratch/changed/drain"
rm "$scratch/changed/drain.proved"
refused 'no record' "$scratch/changed/drain"
rm "$scratch/changed/drain"
refused 'no program' "$scratch/changed/drain"
if [ "$static" != - ]; then
    for part in drain-static drain-static.o drain-static.linked; do cp "$scratch/build/$part" "$scratch/changed/"; done
    cp "$drain" "$drain.proved" "$scratch/changed/"
    other_v3=$scratch/changed/drain-v3
    refused_static() {
        holds "$1: no tarball" ends 1 "$2" "$top/tools/dist.sh" "$scratch/changed/drain" "$static" - "$scratch/refused"
        holds "$1: no wheel" ends 1 "$2" "$top/companion/build_wheel.sh" "$scratch/changed/drain" "$static" - "$scratch/refused"
        holds "$1: nothing is written" is_empty "$scratch/refused"
    }
    refused_static 'no program for x86-64-v3' "$other_v3 is not built"
    cp "$drain_v3" "$scratch/changed/"
    refused_static 'a program for x86-64-v3 without a record' "$other_v3 has no record of a proof"
    cp "$drain" "$other_v3"
    cp "$drain.proved" "$other_v3.proved"
    refused_static 'a program for another processor' "$other_v3 was not built for x86-64-v3"
    echo 'cpu      x86-64-v3' >>"$other_v3.proved"
    refused_static 'another program than the static one has' "was not linked from the object of $other_v3:"
    sed -i 's/^kit .*/kit      another/' "$other_v3.proved"
    refused_static 'a program of another toolchain' "$other_v3 was built by another toolchain"
    echo >>"$scratch/changed/drain-static"
    holds 'a changed byte of the static program: no tarball' \
        ends 1 'is not what tools/static_program.sh linked' "$top/tools/dist.sh" "$drain" "$scratch/changed/drain-static" - "$scratch/refused"
    sed -i 's/^program .*/program  0/' "$scratch/changed/drain-static.linked"
    holds 'a static program of another program: no tarball' \
        ends 1 'was not linked from the object of' "$top/tools/dist.sh" "$drain" "$scratch/changed/drain-static" - "$scratch/refused"
    holds 'a wrong static program: nothing is written' is_empty "$scratch/refused"
fi

# A comparison with PROVED. Nothing is proved here: in the copy a stand-in takes the place of the prover, and gives the program of BUILD_DIR.
copy=$scratch/copy
mkdir -p "$copy"
cp -r "$top/tools" "$copy/"
(cd "$top" && find crates.txt HANDLES crates/*/src crates/*/specs crates/*/proofs crates/*/include -type f -print0 | xargs -0 cp --parents -t "$copy")
cat >"$copy/tools/build.py" <<PY
#!/bin/sh
# A stand-in: build.py --anew FOLDER/drain [FOLDER/drain-v3]
[ "\$1" = --anew ] && [ \$# -le 3 ] || exit 1
shift
for target; do cp "$scratch/build/\${target##*/}" "\$target" && cp "$scratch/build/\${target##*/}.proved" "\$target.proved" || exit 1; done
PY
program_line="program  $(printf '0%.0s' {1..64})"
holds 'PROVED of this program' ends 0 'the same bytes: ' "$copy/tools/same.sh" "$release/PROVED"
sed "s/^program .*/$program_line/" "$drain.proved" >"$scratch/PROVED"
holds 'PROVED of another program' ends 1 'not the same' "$copy/tools/same.sh" "$scratch/PROVED"
holds 'PROVED of another program: its sum is shown' grep -q '0000000' "$scratch/printed"
holds 'PROVED of another program: the built sum is shown' grep -q "$(sha256sum <"$drain" | cut -d ' ' -f 1)" "$scratch/printed"
if [ "$static" != - ]; then
    same_v3="the same bytes: $(sha256sum <"$drain_v3" | cut -d ' ' -f 1)"
    holds 'PROVED of this program for x86-64-v3' ends 0 "$same_v3" "$copy/tools/same.sh" "$release/PROVED"
    sed "s/^v3 .*/v3       $(printf '0%.0s' {1..64})/" "$release/PROVED" >"$scratch/PROVED"
    holds 'PROVED of another program for x86-64-v3' ends 1 'not the same' "$copy/tools/same.sh" "$scratch/PROVED"
fi
echo '// a changed source' >>"$copy/crates/drain_grid/src/lib.rt"
holds 'PROVED of other sources' ends 1 'other sources: ' "$copy/tools/same.sh" "$drain.proved"
holds 'no PROVED' ends 2 'is not there' "$copy/tools/same.sh" "$scratch/nothing"
holds 'a file that is no PROVED' ends 2 "has no line 'sources'" "$copy/tools/same.sh" "$top/README.md"
holds 'PROVED is not named' ends 2 'usage: ' "$copy/tools/same.sh" ''

echo "$passed passed, $failed failed"
[ "$failed" -eq 0 ]
