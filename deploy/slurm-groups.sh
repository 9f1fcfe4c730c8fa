#!/usr/bin/env bash
# The job of a Slurm array for placement groups: each task repairs the group on the line of its number, from 1 on, of what most-lost.sh has
# printed, so that those that have lost most come first. The arguments are the map of on-group.sh, the file of these lines, and options of
# `rebuild-store repair`. All nodes must have rebuild-store and sshfs, and the folder in which sbatch was called, with these scripts in its
# folder deploy.
#SBATCH --job-name=rebuild-groups
#SBATCH --cpus-per-task=1
#SBATCH --mem=1G
#SBATCH --requeue
set -euo pipefail
map=$1
group=$(sed -n "${SLURM_ARRAY_TASK_ID}p" "$2")
shift 2
exec "$SLURM_SUBMIT_DIR/deploy/on-group.sh" "$map" "$group" rebuild-store repair --names '{place}/fragments/{stripe}' \
  --workers "${SLURM_CPUS_PER_TASK:-1}" "$@"
