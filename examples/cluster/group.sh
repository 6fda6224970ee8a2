#!/bin/sh
# Runs one group of tapes, 64 at most, as one batch: group.sh MJ MODEL STEPS GROUP
# GROUP is a file with a tape's name a line; what the batch writes goes into GROUP.out. A run that ends
# out of range (status 3) is a result like any other.
set -eu
mj=$1 model=$2 steps=$3 group=$4
set -- batch --model "$model" --steps "$steps" --workers 1
while IFS= read -r tape; do
    set -- "$@" --tape "$tape"
done < "$group"
status=0
"$mj" "$@" > "$group.part" || status=$?
[ "$status" = 0 ] || [ "$status" = 3 ] || exit "$status"
mv "$group.part" "$group.out"
