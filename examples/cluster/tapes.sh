#!/bin/sh
# Makes tapes for a model of three motors: tapes.sh FOLDER COUNT RECORDS
# Tape k pushes with sines whose phase is k.
set -eu
mkdir -p "$1"
awk -v folder="$1" -v count="$2" -v records="$3" 'BEGIN {
    for (k = 1; k <= count; k++) {
        file = sprintf("%s/tape%05d.csv", folder, k)
        for (i = 1; i <= records; i++)
            printf "%.3f,%.3f,%.3f\n", sin(i / 64 + k), sin(i / 32 + k), sin(i / 16 + k) > file
        close(file)
    }
}'
