#!/bin/bash
#SBATCH --job-name=hhm --requeue --ntasks=1 --open-mode=append --signal=B:USR1@60
# An instance of a cluster as a task of a job array:
#
#     sbatch --array=0-3 instance.sh RUN [WORDS OF hhm serve]
#
# Instance I keeps its files under RUN/I and writes its address into RUN/I.address, where clients look for it each time
# that they connect (`address_in` of hhm_cluster.py): Slurm begins it again wherever there is room. RUN is on a file
# system that all nodes have. The lock of RUN/I.snap.lock keeps a second server away where one lives on, on a node that
# is cut off: that one is told Busy, and is requeued. On a file system without locks use a path of its own for each start
# (RUN/I.$SLURM_RESTART_COUNT), `--fold-above 0` and hhm_mirror.py.
#
# A minute before the time limit, and at `scancel --batch --signal=USR1 JOB`, the server saves and stops, and the task has
# ended well. A plain scancel leaves no time for that: what was accepted is in the log all the same.
set -u
run=$1
shift
base=$run/$SLURM_ARRAY_TASK_ID
host=${HHM_HOST:-$(hostname -i | cut -d ' ' -f 1)}
say() { echo "$(date -u +%T) ${SLURM_ARRAY_JOB_ID}_$SLURM_ARRAY_TASK_ID $*"; }

rm -f "$base.address"
# (a Unix socket's path is short, and the node's own)
sock=/tmp/hhm.$SLURM_JOB_ID.sock
hhm-run --unix "$sock" --tcp "$host:0" --rows 4294967296 --cols 4294967296 --workers 16 --idle 900 --drain 30 \
    --snapshot "$base.snap" --must-save --log "$base.log" "$@" > "$base.said" &
server=$!
echo $server > "$base.pid"
trap 'say told to stop; kill -TERM $server' USR1 TERM
while kill -0 $server 2> /dev/null && ! grep -q "^listening tcp" "$base.said"; do sleep 0.1; done
if kill -0 $server 2> /dev/null; then
    awk '/^listening tcp/ { print $3 }' "$base.said" > "$base.address.new" && mv "$base.address.new" "$base.address"
    say start "${SLURM_RESTART_COUNT:-0} at $(cat "$base.address")"
fi
# (a signal that is trapped ends a wait)
while wait $server; status=$?; kill -0 $server 2> /dev/null; do :; done
rm -f "$base.address" "$sock"
say ended $status
# 0: it was stopped. 2, 3: bad options, or a file that is none of hhm's; starting it again won't mend that.
case $status in 0 | 2 | 3) exit $status ;; esac
scontrol requeue "${SLURM_ARRAY_JOB_ID}_$SLURM_ARRAY_TASK_ID"
sleep 60
exit $status
