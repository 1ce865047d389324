#!/bin/bash
#SBATCH --job-name=merge
# All parts that are there make the report; a shard without one is named, and the status is 2.
exec "$RVTEST" merge "$PARTS"/part-* --report "$REPORT"
