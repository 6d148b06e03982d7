#!/usr/bin/env bash
# Installs hhm with its clients, its unit for systemd, man pages and completions, or removes what was installed.
#
#     tools/install.sh [--unproved | --program FILE | --tarball FILE] [PREFIX]
#     tools/install.sh --uninstall [PREFIX]
#
# PREFIX is ~/.local, or /usr/local for root, where it is left out. What is installed is
#
#     (by default)      built here with all its proofs, in one to two hours where nothing is proved yet
#     --unproved        built here without them, in some two minutes: about as fast, but nothing is proved of it, and it
#                       checks nothing while it runs
#     --program FILE    FILE, an hhm that was built before, as crates/hhm/out/hhm, with the rest of this checkout
#     --tarball FILE    what tools/package.sh packed. In an unpacked tarball call its own install.sh, without an option
#
# --uninstall removes the files that an install has noted below PREFIX, and no snapshot, log or other file.
#
# DESTDIR, where the environment has it, is put before each path that is written, for whoever makes packages.
set -euo pipefail
umask 022

here=$(cd "$(dirname "${BASH_SOURCE[0]}")" && pwd)
# The list of what was installed, below the prefix.
list=share/hhm/FILES

usage() {
    echo "usage: install.sh [--unproved | --program FILE | --tarball FILE | --uninstall] [PREFIX]" >&2
    exit 2
}

fail() {
    echo "install: $1" >&2
    exit 1
}

how=
file=
prefix=
while [[ $# -gt 0 ]]; do
    case $1 in
        --unproved | --uninstall | --program | --tarball)
            [[ -z $how ]] || usage
            how=${1#--}
            if [[ $how == program || $how == tarball ]]; then
                file=${2-}
                [[ -n $file ]] || usage
                shift
            fi
            ;;
        -h | --help)
            sed -n '2,/^set/{/^#/{s/^# \{0,1\}//;p}}' "${BASH_SOURCE[0]}"
            exit 0
            ;;
        -* | '') usage ;;
        *)
            [[ -z $prefix ]] || usage
            prefix=$1
            ;;
    esac
    shift
done
if [[ -z $prefix ]]; then
    [[ $EUID -eq 0 ]] && prefix=/usr/local || prefix=$HOME/.local
fi
[[ $prefix == /* ]] || prefix=$PWD/$prefix
root=${DESTDIR:-}$prefix

# An unpacked tarball has the program beside this script.
[[ -f $here/share/hhm/BUILD ]] && is_package=yes || is_package=
if [[ -n $is_package ]]; then
    [[ -z $how || $how == uninstall ]] || fail "--$how is for a checkout: this is a package, which has its program"
    how=${how:-package}
fi
how=${how:-proved}

need() {
    command -v "$1" >/dev/null || fail "there is no $1 on the path, which is needed $2"
}

# Each step says its number when it begins, and at its end how long it took.
steps=2
[[ $how == uninstall || $how == package ]] && steps=1
step=0
begin_step() {
    step=$((step + 1))
    begun=$SECONDS
    echo "Step $step of $steps: $1"
}

end_step() {
    echo "Step $step took $((SECONDS - begun)) s."
}

# Prints once a minute that a build goes on, or the last line of its log.
tick() {
    local line
    while sleep 60 >/dev/null 2>&1; do
        line=$(tail -n 1 "$made/log" | cut -c 1-100)
        echo "  $((SECONDS - begun)) s: ${line:-the build goes on}"
    done
}

# Runs a command that takes long.
run_long() {
    local ticker status=0
    tick &
    ticker=$!
    "$@" >/dev/null 2>"$made/log" || status=$?
    kill "$ticker" 2>/dev/null
    wait "$ticker" 2>/dev/null || true
    [[ $status -eq 0 ]] || tail -n 20 "$made/log" >&2
    return "$status"
}

# Removes the files of a list below the prefix, what Python made beside them, and hhm's own folders that are empty then.
remove() {
    rm -rf "$root/lib/hhm/__pycache__"
    (cd "$root" && xargs -d '\n' rm -f --) <"$1"
    sed 's|/[^/]*$||' "$1" | grep -E '/hhm(/|$)' | LC_ALL=C sort -ru |
        (cd "$root" && xargs -d '\n' rmdir --ignore-fail-on-non-empty --) 2>/dev/null || true
}

uninstall() {
    [[ -f $root/$list ]] || fail "nothing is removed: there is no $root/$list, which an install writes"
    begin_step "remove hhm from $root: a second"
    { cat "$root/$list" && echo "$list"; } >"$made/list"
    remove "$made/list"
    end_step
    echo "Snapshots, logs and tables of names are still there."
}

# Lays out a program in a folder of its own: lay_out HOW PROGRAM [LOG], as tools/build_record.py has these words.
lay_out() {
    python3 "$here/build_record.py" "$2" "$1" "${@:3}" >"$made/BUILD" || fail "$2 isn't hhm, and nothing is installed"
    "$here/layout.sh" "$2" "$made/BUILD" "$made/tree" || fail "the files weren't made, and nothing is installed"
}

make_tree() {
    local top=$here/.. program
    case $how in
        package) tree=$here ;;
        proved)
            begin_step "build hhm with all its proofs: one to two hours, where nothing was proved here before"
            program=$top/crates/hhm/out/hhm
            (cd "$top/crates/hhm" && run_long rt run -- --version) ||
                fail "hhm wasn't proved, and nothing is installed"
            lay_out rt "$program" "$made/log"
            end_step
            ;;
        unproved)
            begin_step "build hhm without its proofs: some two minutes"
            echo "Nothing is proved of this program, and it checks nothing while it runs. It serves to try hhm: use one"
            echo "that was proved for what has to be right."
            run_long python3 "$here/quick_build.py" "$made/hhm" || fail "hhm wasn't built, and nothing is installed"
            lay_out unproved "$made/hhm"
            end_step
            ;;
        program)
            [[ -f $file && -x $file ]] || fail "$file is no program"
            begin_step "make the man pages and completions of $file: a few seconds"
            use_program
            end_step
            ;;
        tarball)
            [[ -f $file ]] || fail "$file is no file"
            begin_step "unpack $file: a second"
            mkdir "$made/tree"
            tar -xzf "$file" -C "$made/tree" --strip-components=1 ||
                fail "$file is no tarball, and nothing is installed"
            [[ -f $made/tree/share/hhm/BUILD && -x $made/tree/bin/hhm ]] || fail "$file is no package of hhm"
            end_step
            ;;
    esac
}

# A program that a gate built has its record beside it.
use_program() {
    local record
    record=$(dirname "$file")/BUILD
    if [[ -f $record ]] && grep -q "^program: sha256 $(sha256sum <"$file" | cut -d' ' -f1)$" "$record"; then
        "$here/layout.sh" "$file" "$record" "$made/tree" || fail "the files weren't made, and nothing is installed"
    else
        lay_out unknown "$file"
    fi
}

# Copies the tree below the prefix, and says so of each file. What an earlier install had and this one lacks is removed.
copy_tree() {
    local unit=lib/systemd/system/hhm.service text
    (cd "$tree" && find bin include lib share \( -type f -o -type l \) -not -name '*.pyc' -not -path "$list") |
        LC_ALL=C sort >"$made/list"
    # (tar removes what is there first, so a program that runs is replaced)
    tar -C "$tree" -cf - -T "$made/list" | tar -C "$root" -xpf - --no-same-owner
    text=$(<"$tree/$unit")
    printf '%s\n' "${text//\/usr\/local\//"$prefix"/}" >"$root/$unit"
    if [[ -f $root/$list ]]; then
        LC_ALL=C comm -13 "$made/list" "$root/$list" >"$made/old"
        [[ ! -s $made/old ]] || remove "$made/old"
    fi
    install -m 644 "$made/list" "$root/$list"
    while IFS= read -r text; do
        echo "  $root/$text"
    done <"$made/list"
}

made=$(mktemp -d)
trap 'rm -rf "$made"' EXIT
if [[ $how == uninstall ]]; then
    uninstall
    exit 0
fi

need python3 "for the client hhmc"
[[ $how != proved && $how != unproved ]] || need rt "to build: the toolchain of Rattle has it"
mkdir -p "$root/bin" || fail "can't write below $root"
[[ -w $root/bin ]] || fail "can't write into $root/bin"
tree=$made/tree
make_tree
begin_step "copy the files below $root: a second"
copy_tree
end_step
head -n 3 "$tree/share/hhm/BUILD"
[[ :$PATH: == *:$prefix/bin:* ]] || echo "$prefix/bin isn't on your PATH: add it to call hhm and hhmc by their names."
