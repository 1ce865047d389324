#!/bin/bash
#SBATCH --job-name=shard
#SBATCH --requeue
# One shard, named by its place in the array; the array's number is the stamp. Slurm runs it again where its node fails.
workers=${SLURM_CPUS_PER_TASK:-1}
exec "$SHARD" "$LIST" "$SLURM_ARRAY_TASK_ID" "$SHARDS" "$SLURM_ARRAY_JOB_ID" "$PARTS/part-$SLURM_ARRAY_TASK_ID" --workers "$workers" --quiet
