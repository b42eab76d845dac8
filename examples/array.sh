#!/bin/sh
#SBATCH --array=1-2
# One file of a campaign for each task of a Slurm array: the task's number is that of its line in the list of files, and
# its result goes to a file by that number. sbatch examples/array.sh files.txt results
items="--step 500 --ramp 20 --level 40000 --decorrelation 20000"
file=$(sed -n "${SLURM_ARRAY_TASK_ID}p" "$1")
exec chimenickel count $items "$file" >"$2/$SLURM_ARRAY_TASK_ID"
