#!/bin/bash
#SBATCH --job-name=hhm-sum --ntasks=1 --open-mode=append
# The sum of the snapshots of instances that have stopped, as RUN/sum.mtx: run it behind them all.
#
#     sbatch --dependency=afterok:JOB sum_exports.sh RUN NUMBER_OF_INSTANCES FOLDER_OF_THESE_EXAMPLES
set -eu
run=$1
texts=()
for i in $(seq 0 $(($2 - 1))); do
    hhm export "$run/$i.snap" > "$run/$i.mtx"
    texts+=("$run/$i.mtx")
done
"$3/sum_texts.sh" "${texts[@]}" > "$run/sum.mtx.new"
mv "$run/sum.mtx.new" "$run/sum.mtx"
