#!/usr/bin/env bash
# The merge gate: what documents name is there; tests of the gate's scripts; the layout of sources; every proof from nothing and the tests
# (rt ci); then, side by side (tools/gate_steps.py), a part of the wrong bodies (tools/gate_edits.py), libdrain, the program and its own tests, the
# documents' examples, a first run, releases, the companion, windows, and tests with memory refused.
# Each step from the proofs on ends with a line of its seconds: on the clock, and of processors; and it says how long the others take.
# Usage: tools/gate.sh
#     FAST=1    leaves all proofs out, and tests with the build/drain that is there: for changes of Python or documents. It is not the gate.
set -euo pipefail
cd "$(dirname "$0")/.."
TIMEFORMAT='took %0R s, of processors %0U s and %0S s of the system'

fast=
if [ "${FAST:-}" = 1 ]; then
    fast=--fast
    echo 'FAST=1: all proofs are left out, so this is not the merge gate: it tests build/drain as it is there.'
    tools/is_proved.sh build/drain || {
        echo 'FAST=1 needs a program that was proved of these sources: run make, or copy build/drain and build/drain.proved of another checkout' >&2
        exit 1
    }
fi

mkdir -p build
tools/check_readmes.py
tools/library_example.py
tests/documents_are_checked.py
tests/named_edits.py
tests/edits_are_chosen.py
tests/gate_tools.py
tools/check_docs.py
tools/check_layout.sh
[ -z "$fast" ] || exec tools/gate_steps.py --fast

# A check a processor, as many as memory holds at 5 GiB each (those seen took up to 4). Left to itself rt reckons their memory
# by the lines of all crates below, and leaves half of the processors idle.
jobs=$(awk -v most="$(nproc)" '/MemAvailable/ { held = int($2 / 5242880); print held < 1 ? 1 : held < most ? held : most }' /proc/meminfo)
sources=$(tools/sources_sum.sh)
time RT_JOBS=$jobs tools/gate_proofs.py
[ "$(tools/sources_sum.sh)" = "$sources" ] || {
    echo 'the sources changed while they were proved: run this again' >&2
    exit 1
}
cp crates/drain/out/drain build/drain
# The object is there where the program was compiled in this run.
rm -f build/drain.o
[ ! -f crates/drain/out/drain.o ] || cp crates/drain/out/drain.o build/drain.o
tools/record_proof.sh build/drain "$sources"
exec tools/gate_steps.py
