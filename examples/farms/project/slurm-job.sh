#!/bin/sh
# One index of the array is one test.
set -- split join child wait vendor
shift "$SLURM_ARRAY_TASK_ID"
exec asancol-run -q --timeout 2 --json 'results/%q{SLURM_ARRAY_TASK_ID}.jsonl' -- "./$1"
