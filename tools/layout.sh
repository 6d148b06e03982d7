#!/usr/bin/env bash
# Lays out the files of hhm in the folder TREE, as they are below a prefix.
#
#     tools/layout.sh PROGRAM BUILD TREE
#
# PROGRAM is an hhm, and BUILD is what tools/build_record.py says of it. Python 3 makes the man pages and completions.
set -euo pipefail
umask 022

[[ $# -eq 3 ]] || { echo "usage: tools/layout.sh PROGRAM BUILD TREE" >&2; exit 2; }
top=$(cd "$(dirname "${BASH_SOURCE[0]}")/.." && pwd)
program=$1
build=$2
tree=$3
# (hhmc is run for its --help, and must leave no __pycache__ in the tree)
export PYTHONDONTWRITEBYTECODE=1

put() {
    install -D -m "$1" "$2" "$tree/$3"
}

# Puts a file of the checkout, which can be run there as it can here.
put_own() {
    local mode=644
    [[ ! -x $top/$1 ]] || mode=755
    put "$mode" "$top/$1" "$2"
}

put 755 "$program" bin/hhm
put 755 "$top/tools/hhm-run" bin/hhm-run
for file in "$top"/clients/python/*.py; do
    put_own "clients/python/${file##*/}" "lib/hhm/${file##*/}"
done
ln -s ../lib/hhm/hhm_client.py "$tree/bin/hhmc"
for name in hhm_client hhm_cluster; do
    put 644 "$top/clients/c/$name.h" "include/$name.h"
    put 644 "$top/clients/c/$name.c" "share/hhm/$name.c"
    put 644 "$top/clients/rust/$name.rs" "share/hhm/$name.rs"
done
put 644 "$top/tools/hhm.service" lib/systemd/system/hhm.service
put 644 "$build" share/hhm/BUILD

python3 "$top/tools/help_files.py" "$tree"

documents=share/doc/hhm
for name in README.md CHANGELOG.md LICENSES clients/README.md; do
    put 644 "$top/$name" "$documents/$name"
done
while IFS= read -r file; do
    put_own "$file" "$documents/$file"
done < <(cd "$top" && find docs examples -type f -not -path '*/__pycache__/*')
ln -s ../../hhm/BUILD "$tree/$documents/BUILD"
