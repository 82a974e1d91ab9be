#!/bin/bash
# A shard of a study, as a task of a Slurm array. From this repository's top, where all machines have it at the same place:
#
#   sbatch --array=0-63 tools/studies/on_slurm.sh 64 FOLDER examples/study.toml --count 2000
#   cat FOLDER/part.*.csv > rows.csv && tools/study sum --count 2000 rows.csv
#
# The words after FOLDER are those of tools/study run. The number of shards is a word, and not taken from
# SLURM_ARRAY_TASK_COUNT: that is 1 where one task is run again (sbatch --array=17 ..). A part has its name only once it is whole.
#SBATCH --job-name=study --ntasks=1 --cpus-per-task=1 --output=/dev/null
shards=$1 folder=$2 n=$SLURM_ARRAY_TASK_ID
shift 2
part=$folder/part.$(printf %05d "$n")
tools/study run "$@" --shard "$n/$shards" > "$part.$SLURM_JOB_ID.tmp" && mv "$part.$SLURM_JOB_ID.tmp" "$part.csv"
