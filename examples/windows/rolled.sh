#!/bin/bash
# Starts a server for each hour, and takes the files of hours that are over into days, each hour once.
#
#     rolled.sh [SECONDS]
#
# Call it some minutes before each hour, by hhm-rolled.timer or a line of cron of root:
#
#     55 * * * * root /usr/local/lib/hhm/rolled.sh
#
# SECONDS since 1970 stand for the clock. It starts the servers hhm@YYYYMMDDHH of this hour, of the next and of the two
# before. A sender chooses the server by the hour of a batch's own events: so a batch that comes up to two hours late, or
# is sent again, still finds its server. An hour that is older is over: its server is stopped, and what its snapshot and
# its log have, also after a loss of power, becomes hours/YYYYMMDDHH.snap. That is taken into days/YYYYMMDD.snap, and the
# server's folder goes. At last files of hours and days go that are old.
#
# A further call does what the first one couldn't, and nothing twice: hhm roll knows each hour by its number. A fault ends
# it with 1, and what is there stays. A server that was started again after its hour was closed is told of, and its
# folder stays: what came then is in no day.
#
# SYSTEMCTL, HHM: the programs. STATE: the folder of the servers' folders. WINDOWS: that of what is kept. KEEP_HOURS,
# KEEP_DAYS: how long files of hours and of days stay.
set -euo pipefail
systemctl=${SYSTEMCTL:-systemctl}
hhm=${HHM:-hhm}
state=${STATE:-/var/lib/hhm}
windows=${WINDOWS:-/var/lib/hhm/windows}
now=${1:-$(date +%s)}
hour() { date -u -d "@$((now + 3600 * $1))" +%Y%m%d%H; }

fail() {
    echo "rolled.sh: $1" >&2
    exit 1
}

# How many batches files have, and their total: counts_of SNAPSHOT [--log LOG].
counts_of() {
    local line
    line=$("$hhm" check "$@" | head -n 1)
    line=${line#* batches }
    echo "${line% entries *}"
}

# Closes the hour of a server's folder: close_hour NAME.
close_hour() {
    local name=$1 folder=$state/$1 window=$windows/hours/$1.snap day=$windows/days/${1:0:8}.snap files
    "$systemctl" stop "hhm@$name"
    files=("$folder/sum.snap")
    if [[ -e $folder/sum.hhmlog ]]; then
        files+=(--log "$folder/sum.hhmlog")
    elif [[ ! -e $folder/sum.snap ]]; then
        return 0
    fi
    [[ -e $window ]] || "$hhm" fork "$window" "${files[@]}" >/dev/null || fail "$name isn't closed"
    "$hhm" roll "$day" 1 "$name=$window" >/dev/null || fail "$name isn't taken into its day"
    [[ $(counts_of "${files[@]}") == "$(counts_of "$window")" ]] || fail "$folder has more than $window"
    rm -r "$folder"
}

# Removes files whose names come before a moment: forget FOLDER MOMENT.
forget() {
    local file name
    for file in "$1"/*.snap; do
        name=${file##*/}
        if [[ -e $file && ${name%.snap} < $2 ]]; then rm "$file"; fi
    done
}

mkdir -p "$windows/hours" "$windows/days"
"$systemctl" start "hhm@$(hour -2)" "hhm@$(hour -1)" "hhm@$(hour 0)" "hhm@$(hour 1)"
for folder in "$state"/[0-9][0-9][0-9][0-9][0-9][0-9][0-9][0-9][0-9][0-9]; do
    name=${folder##*/}
    if [[ -e $folder && $name < $(hour -2) ]]; then close_hour "$name"; fi
done
forget "$windows/hours" "$(hour "-${KEEP_HOURS:-168}")"
forget "$windows/days" "$(date -u -d "@$((now - 86400 * ${KEEP_DAYS:-35}))" +%Y%m%d)"
