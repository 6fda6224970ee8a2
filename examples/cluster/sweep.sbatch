#!/bin/sh
#SBATCH --job-name=mj-sweep
#SBATCH --ntasks=1
#SBATCH --time=00:30:00
# One group of tapes a task. Make the groups once, as sweep.sh does, and submit
#   sbatch --array=0-$(( $(ls OUT/group.[0-9][0-9][0-9][0-9] | wc -l) - 1 )) sweep.sbatch MJ MODEL STEPS OUT
# When all tasks are done: cat OUT/group.[0-9][0-9][0-9][0-9].out > OUT/all.txt
set -eu
group=$(printf '%s/group.%04d' "$4" "$SLURM_ARRAY_TASK_ID")
"$SLURM_SUBMIT_DIR/group.sh" "$1" "$2" "$3" "$group"
