#!/usr/bin/env bash
# Packs hhm in the folder OUT: a tarball, a Debian package, and SHA256SUMS of both.
#
#     tools/package.sh [--unproved] [--program FILE] [--no-deb] OUT
#
# The program is crates/hhm/out/hhm, or FILE. Beside it the gate (.ci/run) leaves its record, BUILD. Nothing is packed
# where that is no record of this very program, proved by the gate at the commit of this checkout.
#
#     --unproved        needs no record: the program is FILE, or is built here without proofs in two minutes; every
#                       file's name and BUILD say `unproved`
#     --no-deb          no Debian package, which needs dpkg-deb
#
# The same program at the same commit makes the same bytes: every time is SOURCE_DATE_EPOCH, or else the commit's, or,
# outside of a repository of git, the program's.
set -euo pipefail
umask 022

top=$(cd "$(dirname "${BASH_SOURCE[0]}")/.." && pwd)
# (what is run from the tree must leave nothing in it)
export PYTHONDONTWRITEBYTECODE=1 LC_ALL=C TZ=UTC

fail() {
    echo "package: $1" >&2
    exit 1
}

usage() {
    echo "usage: tools/package.sh [--unproved] [--program FILE] [--no-deb] OUT" >&2
    exit 2
}

is_proved=yes
has_deb=yes
program=
out=
while [[ $# -gt 0 ]]; do
    case $1 in
        --unproved) is_proved= ;;
        --no-deb) has_deb= ;;
        --program)
            program=${2-}
            [[ -n $program ]] || usage
            shift
            ;;
        -h | --help)
            sed -n '2,/^set/{/^#/{s/^# \{0,1\}//;p}}' "${BASH_SOURCE[0]}"
            exit 0
            ;;
        -* | '') usage ;;
        *)
            [[ -z $out ]] || usage
            out=$1
            ;;
    esac
    shift
done
[[ -n $out ]] || usage
command -v python3 >/dev/null || fail "there is no python3 on the path"
[[ -z $has_deb ]] || command -v dpkg-deb >/dev/null || fail "there is no dpkg-deb on the path: --no-deb goes without it"

made=$(mktemp -d)
trap 'rm -rf "$made"' EXIT
record=$made/BUILD

# Takes the record beside the program, or fails where it doesn't say that the gate proved this program at this commit.
take_record() {
    local beside sum commit changes why="run .ci/run at this commit, or say --unproved"
    beside=$(dirname "$program")/BUILD
    [[ -f $program ]] || fail "there is no $program: $why"
    [[ -f $beside ]] || fail "there is no record $beside of the gate: $why"
    sum=$(sha256sum <"$program" | cut -d' ' -f1)
    commit=$(git -C "$top" rev-parse HEAD 2>/dev/null) || fail "$top is no repository of git: $why"
    grep -q "^program: sha256 $sum$" "$beside" || fail "$beside is of another program: $why"
    grep -q '^proved: yes, by the gate$' "$beside" || fail "$beside doesn't say that the gate proved it: $why"
    grep -q "^commit: $commit$" "$beside" || fail "$beside is of another commit: $why"
    changes=$(git -C "$top" status --porcelain | head -n 1)
    [[ -z $changes ]] || fail "files of $top differ from their commit, as${changes:2}: $why"
    cp "$beside" "$record"
}

if [[ -n $is_proved ]]; then
    program=${program:-$top/crates/hhm/out/hhm}
    take_record
else
    how=given
    if [[ -z $program ]]; then
        how=unproved
        program=$made/hhm
        echo "Building hhm without proofs, some two minutes"
        python3 "$top/tools/quick_build.py" "$program" || fail "hhm wasn't built"
    fi
    [[ -f $program && -x $program ]] || fail "$program is no program"
    python3 "$top/tools/build_record.py" "$program" "$how" >"$record" || fail "$program isn't hhm"
fi
version=$(head -n 1 "$record" | cut -d' ' -f2)
epoch=${SOURCE_DATE_EPOCH:-$(git -C "$top" log -1 --format=%ct 2>/dev/null || stat -c %Y "$program")}
export SOURCE_DATE_EPOCH=$epoch
[[ -n $is_proved ]] && suffix= || suffix=unproved
name=hhm-$version${suffix:+-$suffix}-x86_64-linux
# (a version with ~ comes before the one without: a proved package takes the place of an unproved one)
deb_version=$version${suffix:+"~$suffix"}
maintainer=$(git -C "$top" log -1 --format='%an <%ae>' 2>/dev/null || echo 'hhm <root@localhost>')
tree=$made/$name

# Gives every file and folder below a folder the time of the package.
set_times() {
    find "$1" -exec touch -h -d "@$epoch" {} +
}

# Writes the tarball: the tree below a prefix, beside its installer and its Dockerfile.
pack_tarball() {
    "$top/tools/layout.sh" "$program" "$record" "$tree"
    python3 "$top/clients/python/packaging/wheel_backend.py" "$tree/share/hhm" >/dev/null
    install -m 755 "$top/tools/install.sh" "$tree/install.sh"
    install -m 644 "$top/tools/Dockerfile" "$tree/Dockerfile"
    ln -s share/doc/hhm/README.md "$tree/README.md"
    ln -s share/hhm/BUILD "$tree/BUILD"
    set_times "$tree"
    tar -C "$made" --sort=name --owner=0 --group=0 --numeric-owner --format=gnu -cf - "$name" |
        gzip -9n >"$out/$name.tar.gz"
}

# Lays out the Debian package's files: the tree below /usr, with what Debian names otherwise.
lay_out_deb() {
    local deb=$1 documents=$1/usr/share/doc/hhm
    mkdir -p "$deb/usr"
    cp -a "$tree"/{bin,include,lib,share} "$deb/usr/"
    sed -i 's|/usr/local/|/usr/|' "$deb/usr/lib/systemd/system/hhm.service"
    mkdir -p "$deb/usr/share/zsh/vendor-completions"
    mv "$deb"/usr/share/zsh/site-functions/* "$deb/usr/share/zsh/vendor-completions/"
    rmdir "$deb/usr/share/zsh/site-functions"
    gzip -9n "$deb"/usr/share/man/man1/*
    install -D -m 644 "$top/tools/debian/default" "$deb/etc/default/hhm"
    install -D -m 644 "$top/tools/debian/lintian-overrides" "$deb/usr/share/lintian/overrides/hhm"
    cat "$top/tools/debian/copyright" "$top/LICENSES" >"$documents/copyright"
    printf 'hhm (%s) unstable; urgency=medium\n\n  * CHANGELOG.md has the changes.\n\n -- %s  %s\n' \
        "$deb_version" "$maintainer" "$(date -R -d "@$epoch")" | gzip -9n >"$documents/changelog.gz"
}

# Writes what dpkg reads of the package, from tools/debian.
write_control() {
    local deb=$1 size control said="The gate has proved this program: /usr/share/doc/hhm/BUILD says what."
    [[ -n $is_proved ]] || said="This is a build WITHOUT PROOFS: nothing is proved of this program."
    size=$(find "$deb" -type f -printf '%s\n' | awk '{ all += int(($1 + 1023) / 1024) } END { print all }')
    mkdir "$deb/DEBIAN"
    control=$(<"$top/tools/debian/control")
    control=${control//@VERSION@/"$deb_version"}
    control=${control//@MAINTAINER@/"$maintainer"}
    control=${control//@PROVED@/"$said"}
    printf '%s\n' "${control//@SIZE@/"$size"}" >"$deb/DEBIAN/control"
    install -m 755 "$top"/tools/debian/{postinst,prerm,postrm} "$deb/DEBIAN/"
    install -m 644 "$top/tools/debian/templates" "$deb/DEBIAN/templates"
    echo /etc/default/hhm >"$deb/DEBIAN/conffiles"
    (cd "$deb" && find usr -type f | sort | xargs md5sum) >"$deb/DEBIAN/md5sums"
}

pack_deb() {
    local deb=$made/deb
    lay_out_deb "$deb"
    write_control "$deb"
    set_times "$deb"
    # (xz makes other bytes with other numbers of threads)
    dpkg-deb --root-owner-group -Zgzip -z9 --build "$deb" "$out/hhm_${deb_version}_amd64.deb" >/dev/null
}

mkdir -p "$out"
out=$(cd "$out" && pwd)
pack_tarball
[[ -z $has_deb ]] || pack_deb
cd "$out"
files=("$name.tar.gz")
[[ -z $has_deb ]] || files+=("hhm_${deb_version}_amd64.deb")
sha256sum "${files[@]}" >SHA256SUMS
printf '%s\n' "${files[@]/#/$out/}" "$out/SHA256SUMS"
