#!/usr/bin/env bash
# The job of a Slurm array for a store: each task repairs the part of its number, of as many parts as the array has tasks, from 1 on. All
# nodes must have rebuild-store on PATH and the store, whose folder is the first argument; further arguments are options, as --code 12-2-2.
#SBATCH --job-name=rebuild-store
#SBATCH --cpus-per-task=1
#SBATCH --mem=1G
#SBATCH --requeue
set -euo pipefail
store=$1
shift
part=$SLURM_ARRAY_TASK_ID/$SLURM_ARRAY_TASK_COUNT
exec rebuild-store repair "$store" --part "$part" --workers "${SLURM_CPUS_PER_TASK:-1}" "$@"
