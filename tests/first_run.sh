#!/usr/bin/env bash
# Tests what a newcomer meets in a fresh copy of the repository at another path: make demo with and without a built program, make twice, and programs that
# aren't what was proved. No proof runs here: where one would, a stand-in for rt refuses it.
# Usage: tests/first_run.sh DRAIN    (a proved program, with its record beside it)
set -uo pipefail
drain=$(realpath "$1")
top=$(cd "$(dirname "$0")/.." && pwd)
scratch=$(mktemp -d)
trap 'rm -rf "$scratch"' EXIT
passed=0
failed=0

# Counts one test: its name, and the command that has to succeed.
holds() {
    local name=$1
    shift
    if "$@"; then
        passed=$((passed + 1))
    else
        failed=$((failed + 1))
        echo "FAILED $name"
        tail -n 20 "$scratch/out"
    fi
}
first_line_is() { [ "$(head -n 1 "$scratch/out")" = "$1" ]; }
prints() { grep -qxF -- "$1" "$scratch/out"; }
lacks() { ! grep -q -- "$1" "$scratch/out"; }

# Runs make in the copy, with what it prints in $scratch/out; make's own remarks are left out.
make_there() { make -s --no-print-directory -C "$copy" "$@" >"$scratch/out" 2>&1 </dev/null; }

# A stand-in for the toolchain: it names the kit $kit, and refuses to prove or to run anything.
mkdir -p "$scratch/bin"
cat >"$scratch/bin/rt" <<'RT'
#!/bin/sh
case "$1" in
    version) echo "$kit" ;;
    doc) echo "${0%/bin/rt}/page" ;;
    *) echo "error: the stand-in proves nothing" && exit 1 ;;
esac
RT
printf '%s\n' '#!/bin/sh' 'echo "error: the stand-in proves nothing"' 'exit 1' >"$scratch/bin/rattle"
chmod +x "$scratch/bin/rt" "$scratch/bin/rattle"
without_proofs() { PATH=$scratch/bin:$PATH kit='rattle-kit-0 logic 0' "$@"; }

copy="$scratch/another path/drain"
mkdir -p "$copy"
tar -C "$top" --exclude=./build --exclude=./.git --exclude='./crates/*/out' --exclude='*/__pycache__' -cf - . | tar -C "$copy" -xf -
not_proved='Not proved: these sources are built and run with checks, in a minute or two. `make` proves them and builds the program.'

began=$SECONDS
make_there demo
holds 'a demo of unproved sources ends well' test $? = 0
echo "make demo without a built program: $((SECONDS - began)) s"
holds 'it says first that nothing is proved' first_line_is "$not_proved"
holds 'it calls nothing proved' lacks '^Proved'
holds 'it shows a command' prints '$ drain audit --side 51 --products samples/other-tools/saga-linear samples/other-tools/N36W085.hgt'
holds 'and its answer' prints 'rejected rule=13 Accumulation row=7 col=25'
holds 'it builds no program' test ! -e "$copy/build/drain"

mkdir -p "$copy/build"
cp "$drain" "$drain.proved" "$copy/build/"
find "$copy" -type f -exec touch -d '2001-01-01' {} +
touch "$copy/crates/drain/src/main.rt"
without_proofs make_there demo
holds 'a demo by the built program ends well' test $? = 0
holds 'it says that the program was proved' first_line_is 'Proved: build/drain was built of these very sources.'
holds 'it shows a command that only the built program runs' prints 'rejected rule=13 Accumulation row=172 col=172'
holds 'it expected what came' lacks EXPECTED
began=$SECONDS
without_proofs make_there
holds 'make has nothing to do, whatever the times of files' prints 'Unchanged since it was proved and built: build/drain'
holds 'and says so at once' test $((SECONDS - began)) -le 5

echo '// a changed source' >>"$copy/crates/drain_grid/src/lib.rt"
without_proofs make_there demo
holds 'a demo of changed sources is not by the old program' first_line_is "$not_proved"
without_proofs make_there
holds 'make proves changed sources' prints 'error: the stand-in proves nothing'
holds 'and names the crate that was not proved' grep -qx 'drain_[a-z]*:' "$scratch/out"
holds 'a proof that fails leaves the old program' cmp -s "$drain" "$copy/build/drain"
cp "$top/crates/drain_grid/src/lib.rt" "$copy/crates/drain_grid/src/lib.rt"
without_proofs make_there
holds 'sources that are as they were want no proof' prints 'Unchanged since it was proved and built: build/drain'

cp /bin/true "$copy/build/drain"
without_proofs make_there demo
holds 'a program that is not ours is not run' first_line_is "$not_proved"
without_proofs make_there
holds 'and is built anew' prints 'error: the stand-in proves nothing'
rm "$copy/build/drain.proved"
cp "$drain" "$copy/build/drain"
without_proofs make_there
holds 'a program without a record is built anew' prints 'error: the stand-in proves nothing'

# The kits of one logic are one to us.
logic=$("$drain" --version | tail -n 1)
with_kit() { PATH=$scratch/bin:$PATH kit=$1 "$top/tools/same_logic.sh" "$drain" 2>"$scratch/out"; }
holds 'a kit of this logic' with_kit "rattle-kit-13b $logic"
holds 'another kit of this logic' with_kit "rattle-kit-13f $logic"
with_kit 'rattle-kit-13f logic 0123456789abcdef'
holds 'a kit of another logic' test $? = 1

echo "$passed passed, $failed failed"
[ "$failed" -eq 0 ]
