#!/usr/bin/env bash
# Tries the consumers with real brokers, which are killed, as hhm and a consumer are: try.sh [PATH-TO-HHM].
# It needs Debian's packages redis-server and nats-server; one that isn't there is left out. Nothing is left behind.
set -u
here=$(cd "$(dirname "${BASH_SOURCE[0]}")" && pwd)
program=${1:-hhm}
folder=$(mktemp -d) || exit 1
trap 'rm -rf "$folder"' EXIT
status=0
for kind in redis nats; do
    if command -v $kind-server > /dev/null; then
        $kind-server --version | head -n 1
        PYTHONPATH=$here/../../clients/python python3 "$here/try.py" $kind "$program" "$folder/$kind" || status=1
    else
        echo "not tried: there is no $kind-server"
    fi
done
exit $status
