#!/bin/sh
# Runs a model with every tape of a folder, in groups of 64, by GNU parallel, and puts the summaries
# together: sweep.sh MJ MODEL STEPS TAPES OUT [JOBS]
# OUT/all.txt is the same to the byte for every number of jobs. A group that is done isn't run again, so
# a sweep that was stopped goes on where it was. JOBS=1 is one machine's run, one group after another.
set -eu
here=$(cd "$(dirname "$0")" && pwd)
mj=$1 model=$2 steps=$3 tapes=$4 out=$5 jobs=${6:-$(nproc)}
export LC_ALL=C
mkdir -p "$out"
[ -e "$out/group.0000" ] || find "$tapes" -name '*.csv' | sort | split -l 64 -a 4 -d - "$out/group."
for group in "$out"/group.[0-9][0-9][0-9][0-9]; do
    [ -e "$group.out" ] || echo "$group"
done | parallel -j "$jobs" --halt soon,fail=1 "$here/group.sh" "$mj" "$model" "$steps" {}
cat "$out"/group.[0-9][0-9][0-9][0-9].out > "$out/all.txt"
