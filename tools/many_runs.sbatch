#!/usr/bin/env bash
#SBATCH --job-name=many_runs
#SBATCH --array=0-9
#SBATCH --cpus-per-task=1
#SBATCH --mem-per-cpu=256M
#SBATCH --output=many_runs-%A-%a.out
# The runs of tools/many_runs.sh as an array job of Slurm: each task makes its share of the cartridges of a folder.
#
#     sbatch --wait --array=0-99 tools/many_runs.sbatch DIR [RESULTS [FRAMES]]
#     tools/many_runs.sh --manifest --frames FRAMES --results RESULTS DIR
#
# It is sent from the top of the clone, whose path has to be the same on each node, as that of DIR. The program and
# `look` have to be built before (`./snes demo 7 --frames 0` and `./look --help` do it). What a task says is in
# many_runs-JOB-TASK.out in the folder it is sent from: each run that failed, with its status. The task's status is 1 then.
# A task that is sent again makes the runs that are not there yet.
dir=$1
results=${2:-$dir/results}
exec "$SLURM_SUBMIT_DIR/tools/many_runs.sh" --frames "${3:-600}" --results "$results" \
  --share "$SLURM_ARRAY_TASK_ID" "$SLURM_ARRAY_TASK_COUNT" "$dir"
