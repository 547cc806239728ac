#!/usr/bin/env bash
# Compares the program with the reference program on many random histories of calls. It is no part of the gate.
#
# usage: tools/histories.sh COUNT [SEED]
#
# The histories come in batches of at most 500, at the seeds SEED, SEED + 1, .. (1, 2, .. where SEED is not given). At the
# first difference it stops with status 1, keeps the script and both outputs, and says where they are.
# PROGRAM is the program to compare, crates/departures/out/departures where it is not given: ./demo --proved builds that.
set -euo pipefail
cd "$(dirname "$0")/.."

batch=500
count=${1:-}
seed=${2:-1}
[[ $# -le 2 && $count =~ ^[1-9][0-9]*$ && $seed =~ ^[0-9]+$ ]] || { echo "usage: tools/histories.sh COUNT [SEED]" >&2; exit 2; }
program=$(realpath -m -- "${PROGRAM:-crates/departures/out/departures}")
[ -x "$program" ] || { echo "$program is not built; ./demo --proved builds it" >&2; exit 2; }

cargo build --release --offline --quiet --manifest-path reference/Cargo.toml
reference=$PWD/reference/target/release/reference

made=$(mktemp -d)
keep=
trap '[ -n "$keep" ] || rm -rf "$made"' EXIT
cd "$made"

histories=0
calls=0
differences=0
tell() { echo "histories $histories, calls $calls, differences $differences, seconds $SECONDS"; }

while [ "$histories" -lt "$count" ]; do
    left=$((count - histories))
    size=$((left < batch ? left : batch))
    script=$seed.calls
    "$reference" generate-histories "$seed" "$size" > "$script"
    "$reference" replay "$script" > expected
    status=0
    "$program" replay "$script" > told || status=$?
    histories=$((histories + size))
    calls=$((calls + $(sed -n 's/^histories [0-9]*, calls \([0-9]*\):.*/\1/p' expected)))
    if [ "$status" -ne 0 ] || ! cmp -- expected told; then
        differences=1
        keep=1
        echo "seed $seed, histories $size: status $status; see $made/$script, $made/expected and $made/told"
        tell
        exit 1
    fi
    rm -- "$script"
    seed=$((seed + 1))
done
tell
