#!/bin/bash
#SBATCH --job-name=hhm-slice --requeue --ntasks=1 --open-mode=append
# Without a server: each task of an array sums a slice of the input, RUN/I.slice, into RUN/I.part, and a job behind them
# all adds the parts by sum_texts.sh.
#
#     sbatch --array=0-3 sum_slices.sh RUN
#
# A text that is written whole has its name only then, so a task that was killed begins again and nothing counts twice.
set -u
base=$1/$SLURM_ARRAY_TASK_ID
hhm sum < "$base.slice" > "$base.part.new" &
sum=$!
echo $sum > "$base.pid"
wait $sum
status=$?
[ $status = 0 ] && mv "$base.part.new" "$base.part" && exit 0
[ $status -le 128 ] && exit $status
scontrol requeue "${SLURM_ARRAY_JOB_ID}_$SLURM_ARRAY_TASK_ID"
sleep 60
