#!/bin/sh
#SBATCH --requeue
#SBATCH --open-mode=append
# One task of an array runs SIZE jobs of a list:
#   sbatch --array=1-20 array.sbatch LIST 10
list=$1
size=$2
first=$(((SLURM_ARRAY_TASK_ID - 1) * size + 1))
sed -n "$first,$((first + size - 1))p" "$list" | {
    failed=0
    while IFS= read -r job; do
        ./run_job "$job" || failed=1
    done
    exit "$failed"
}
