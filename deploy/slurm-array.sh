#!/usr/bin/env bash
# The job of a Slurm array: each task serves the folder of its number, of those that `rebuild-lists split` made in the folder
# of the first argument. All nodes must have the program and rebuild-lists on PATH, the store and the split folders.
# docs/SCALE.md says what to ask for as memory.
#SBATCH --job-name=rebuild
#SBATCH --cpus-per-task=1
#SBATCH --mem=1G
#SBATCH --requeue
set -euo pipefail
exec rebuild-lists serve --workers "${SLURM_CPUS_PER_TASK:-1}" "$1" "$SLURM_ARRAY_TASK_ID"
