#!/usr/bin/env bash
# Tries instances and sums under a Slurm of its own on this machine: try.sh FOLDER-WITH-hhm-AND-hhm-run. As root, with
# Debian's packages slurmctld, slurmd, slurm-client and munge; it changes nothing of a Slurm that is set up here.
# A server and a feeder are killed on the way, and a task of the array of sums.
set -u
here=$(cd "$(dirname "${BASH_SOURCE[0]}")" && pwd)
export PATH=$(cd "$1" && pwd):$PATH
for tool in slurmctld slurmd sbatch munged hhm hhm-run; do
    command -v $tool > /dev/null || { echo "not tried: there is no $tool"; exit 0; }
done
top=$(mktemp -d /tmp/hhm_slurm.XXXXXX) || exit 1
export SLURM_CONF=$top/slurm.conf HHM_HOST=127.0.0.1
mkdir "$top/munge" "$top/state" "$top/spool" "$top/run" "$top/slices"
end() {
    scancel --user root 2> /dev/null
    sleep 2
    for file in "$top"/slurmd.pid "$top"/slurmctld.pid "$top"/munge/pid; do
        [ -s "$file" ] && kill "$(cat "$file")" 2> /dev/null
    done
    sleep 1
    rm -rf "$top"
}
trap end EXIT
say() { echo "$(date -u +%T) $*"; }
# A line holds within a time, or all ends.
until_holds() {
    for _ in $(seq $(($1 * 10))); do eval "$2" && return; sleep 0.1; done
    say "not within $1 s: $2"
    cat "$top"/run/out.* "$top"/*.log | tail -n 40
    exit 1
}

name=$(hostname)
cat > "$top/slurm.conf" <<END
ClusterName=hhm_try
SlurmctldHost=$name(127.0.0.1)
AuthType=auth/munge
AuthInfo=socket=$top/munge/sock,cred_expire=10
CredType=cred/munge
SlurmUser=root
SlurmdUser=root
SlurmctldPort=16817
StateSaveLocation=$top/state
SlurmdSpoolDir=$top/spool
SlurmctldPidFile=$top/slurmctld.pid
SlurmdPidFile=$top/slurmd.pid
SlurmctldLogFile=$top/slurmctld.log
SlurmdLogFile=$top/slurmd.log
ProctrackType=proctrack/linuxproc
TaskPlugin=task/none
SelectType=select/cons_tres
SelectTypeParameters=CR_Core
SwitchType=switch/none
MpiDefault=none
ReturnToService=2
JobRequeue=1
KillWait=5
SlurmdParameters=config_overrides
SchedulerParameters=batch_sched_delay=1,bf_interval=5
NodeName=n1 NodeHostname=$name NodeAddr=127.0.0.1 Port=16818 CPUs=8 State=UNKNOWN
PartitionName=main Nodes=n1 Default=YES MaxTime=INFINITE State=UP OverSubscribe=YES
END
echo CgroupPlugin=cgroup/v1 > "$top/cgroup.conf"
dd if=/dev/urandom of="$top/munge/key" bs=128 count=1 2> /dev/null
chmod 400 "$top/munge/key"
munged --force --socket="$top/munge/sock" --key-file="$top/munge/key" --pid-file="$top/munge/pid" \
    --log-file="$top/munge/log" --seed-file="$top/munge/seed"
slurmctld -f "$top/slurm.conf"
slurmd -f "$top/slurm.conf" -N n1
until_holds 30 '[ "$(sinfo -h -o %T 2> /dev/null)" = idle ]'
say "$(sbatch --version)"

# Instances, two feeders, a server and a feeder killed.
run=$top/run
job=$(sbatch --parsable --array=0-3 -o "$run/out.%a" "$here/instance.sh" "$run")
sum=$(sbatch --parsable --dependency=afterok:$job -o "$run/out.sum" "$here/sum_exports.sh" "$run" 4 "$here/..")
until_holds 60 '[ "$(ls "$run"/[0-3].address 2> /dev/null | wc -l)" = 4 ]'
feed() { python3 "$here/feed.py" "$run" 4 "$1" 100 >> "$run/fed.$1" 2>&1 & }
feed 1; one=$!
feed 2; two=$!
until_holds 60 'grep -qs "accepted 20$" "$run/fed.2"'
old=$(cat "$run/1.address")
say "kills server 1, at $old, and feeder 2"
kill -9 "$(pgrep -x -P "$(cat "$run/1.pid")" hhm)"
kill -9 $two
wait $two 2> /dev/null
feed 2; two=$!
until_holds 300 '[ -e "$run/1.address" ] && [ "$(cat "$run/1.address")" != "$old" ]'
say "server 1 is back at $(cat "$run/1.address")"
wait $one && wait $two || { cat "$run"/fed.* | tail; exit 1; }
say "feeders have ended"
scancel --batch --signal=USR1 "$job"
until_holds 120 '[ -e "$run/sum.mtx" ]'
python3 "$here/feed.py" exact 2 100 > "$top/exact.mtx"
cmp "$run/sum.mtx" "$top/exact.mtx" && say "instances: exact, $(sed -n 2p "$run/sum.mtx")" || exit 1

# The same events as slices of a text, and no server.
cd "$top/slices" || exit 1
head -n 1 "$top/exact.mtx" > banner
for i in 0 1 2 3; do
    tail -n +3 "$top/exact.mtx" | awk "NR % 4 == $i" > entries
    { cat banner; echo "4294967296 4294967296 $(wc -l < entries)"; cat entries; } > $i.slice
done
mkfifo slow
mv 2.slice whole
mv slow 2.slice
job=$(sbatch --parsable --array=0-3 -o "$top/slices/out.%a" "$here/sum_slices.sh" "$top/slices")
until_holds 60 '[ -s 2.pid ]'
kill -9 "$(cat 2.pid)"
rm 2.slice
mv whole 2.slice
until_holds 120 '[ "$(ls [0-3].part 2> /dev/null | wc -l)" = 4 ]'
"$here/../sum_texts.sh" [0-3].part > sum.mtx
cmp sum.mtx "$top/exact.mtx" && say "slices: exact" || exit 1
