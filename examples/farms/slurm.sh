# Slurm: one index of an array job is one test.
make -f simple.mk
sbatch --wait --array=0-4 slurm-job.sh
asancol-report --html report.html results/*.jsonl
