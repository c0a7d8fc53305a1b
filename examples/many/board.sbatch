#!/usr/bin/env bash
# A Slurm job array: each job makes one of the four runs of examples/many/board.par. Submit it, and a job that gathers the runs at the end:
#     id=$(sbatch --parsable examples/many/board.sbatch)
#     sbatch --dependency=afterok:"$id" --wrap='examples/many/gather runs 4 board.tour && tourkit check examples/board.tsp board.tour'
# Submit both in the root directory of the repository, on a file system that all machines share, with tourkit on the path.
#SBATCH --job-name=tourkit
#SBATCH --array=1-4
#SBATCH --ntasks=1
#SBATCH --cpus-per-task=1
#SBATCH --mem=500M
#SBATCH --time=00:10:00
#SBATCH --output=tourkit-%A-%a.log
exec examples/many/one examples/many/board.par "$SLURM_ARRAY_TASK_ID" runs
