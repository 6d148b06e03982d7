#!/bin/bash
# Keeps the counts of each hour and of each day of one server, by acceptance: of the batches that came between two saves.
#
#     windows.sh [SECONDS]
#
# Call it once an hour, by hhm-windows.timer or a line of cron:
#
#     1 * * * * hhm /usr/local/lib/hhm/windows.sh
#
# SECONDS since 1970 stand for the clock. The first call of an hour has the server save, and keeps a copy of the snapshot,
# hours/YYYYMMDDTHH.snap; the first of a day keeps it in days/YYYYMMDD.snap too. Then it writes what each of both has more
# than the newest copy before it: hours/FROM-TO.mtx and days/FROM-TO.mtx. So hours in which the machine was off are in the
# next text, whose name says from when it counts. At last it removes what is old; the newest copy stays.
#
# A further call in the same hour does what the first one couldn't, and nothing twice. A fault ends it with 1, and no file
# has its name before it is whole. The copies are hard links where they can be: hhm never changes a snapshot in place.
#
# All copies are of one growing book, so they have the counts of all hours before: no two of them are ever added up. The
# texts are, by `hhm sum`.
#
# HHM, HHMC: the programs. HHM_SERVER: the address of the server. SNAPSHOT: the path of its snapshot. WINDOWS: the folder
# of what is kept, on the snapshot's disk. KEEP_HOURS, KEEP_DAYS: how long copies and texts stay.
set -euo pipefail
hhm=${HHM:-hhm}
hhmc=${HHMC:-hhmc}
export HHM_SERVER=${HHM_SERVER:-unix:/run/hhm/hhm.sock}
snapshot=${SNAPSHOT:-/var/lib/hhm/sum.snap}
windows=${WINDOWS:-/var/lib/hhm/windows}
now=${1:-$(date +%s)}
hour=$(date -u -d "@$now" +%Y%m%dT%H)
day=${hour%T*}

# Gives a file that was made its name, durably: name_file NEW NAME.
name_file() {
    sync "$1"
    mv "$1" "$2"
    sync "$(dirname "$2")"
}

# Keeps a file under another name, too: keep FILE NAME.
keep() {
    [[ ! -e $2 ]] || return 0
    rm -f "$2.new"
    ln "$1" "$2.new" 2>/dev/null || cp "$1" "$2.new"
    name_file "$2.new" "$2"
}

# Writes what a copy has more than the newest one before it in its folder, if there is one: write_more FOLDER NAME.
write_more() {
    local folder=$1 name=$2 before="" copy text
    for copy in "$folder"/*.snap; do
        copy=${copy##*/}
        if [[ ${copy%.snap} < $name ]]; then before=${copy%.snap}; fi
    done
    [[ -n $before ]] || return 0
    text=$folder/$before-$name.mtx
    [[ ! -e $text ]] || return 0
    "$hhm" export "$folder/$name.snap" --minus "$folder/$before.snap" --log - --log - >"$text.new"
    name_file "$text.new" "$text"
}

# Removes copies from before a moment, but for the newest, and the texts that end before it: forget FOLDER NAME MOMENT.
forget() {
    local folder=$1 name=$2 moment=$3 file end
    for file in "$folder"/*.snap "$folder"/*.mtx; do
        end=${file##*/}
        end=${end%.*}
        end=${end##*-}
        if [[ -e $file && $end < $moment && $end != "$name" ]]; then rm "$file"; fi
    done
}

mkdir -p "$windows/hours" "$windows/days"
copy=$windows/hours/$hour.snap
if [[ ! -e $copy ]]; then
    "$hhmc" --attempts 40 save >/dev/null
    keep "$snapshot" "$copy"
fi
[[ -e $windows/days/$day.snap ]] || keep "$copy" "$windows/days/$day.snap"
write_more "$windows/hours" "$hour"
write_more "$windows/days" "$day"
forget "$windows/hours" "$hour" "$(date -u -d "@$((now - 3600 * ${KEEP_HOURS:-48}))" +%Y%m%dT%H)"
forget "$windows/days" "$day" "$(date -u -d "@$((now - 86400 * ${KEEP_DAYS:-35}))" +%Y%m%d)"
