#!/usr/bin/env bash
# Makes a release of the last commit: `tools/release.sh [FOLDER]` prints the names of its files.
#
#     tools/release.sh (--gate LOG | --without-gate) [--program PATH] [--library PATH | --without-library]
#         [--debian-version VERSION] [FOLDER]
#
# They are a tar, the Debian packages wisangub (program, front ends, tester), wisangub-control (control room) and
# libwisangub-dev (library for C, header, examples), README, INSTALL and SHA256SUMS, in FOLDER, out/ where none is
# given. PATH is the built program, crates/signtool/out/signtool where it is not given, and the library that
# tools/static_library.py makes, crates/wisangub_c/out/libwisangub_c.a; both have to be there and of the version of
# tools/version.py, but for a library that --without-library leaves out. Everything else is taken from the last commit,
# whose time is the time of every file, so the same commit, program and library make the same octets. A release is what
# this makes of a commit whose gate passed: LOG is what .ci/run printed for it, whose first line names the commit and
# whose last one counts what passed. A trial has --without-gate, and its README says that no gate was shown.
set -eu
case " $* " in *" --help "*) sed -n '2,/^[^#]/s/^# \{0,1\}//p' "$0"; exit ;; esac
top=$(cd "$(dirname "$0")/.." && pwd)
cd "$top"
program=crates/signtool/out/signtool
library=crates/wisangub_c/out/libwisangub_c.a
debian=
gate=
is_gateless=
while [ $# -gt 0 ] && [ "${1#--}" != "$1" ]; do
    case $1 in
        --without-library) library=; shift; continue ;;
        --without-gate) is_gateless=1; shift; continue ;;
    esac
    [ $# -gt 1 ] || { echo "$1 wants a word: tools/release.sh --help" >&2; exit 2; }
    case $1 in
        --program) program=$2 ;;
        --library) library=$2 ;;
        --debian-version) debian=$2 ;;
        --gate) gate=$2 ;;
        *) echo "no option $1: tools/release.sh --help" >&2; exit 2 ;;
    esac
    shift 2
done
folder=${1:-out}
commit=$(git rev-parse HEAD)
if [ -n "$gate" ]; then
    counted=$(tools/release/gate.sh "$gate" "$commit") || exit 2
    gated="The gate of the commit $commit passed: $counted."
elif [ -n "$is_gateless" ]; then
    gated="The gate of the commit $commit was not shown: this is no release, but a trial."
else
    echo "no gate: --gate LOG has what .ci/run printed for the commit, --without-gate goes without" >&2
    exit 2
fi
[ -x "$program" ] || { echo "no program at $program: tools/build.py builds it" >&2; exit 2; }
if [ -z "$library" ]; then
    echo "without the library for C: no libwisangub-dev is made, and the tar has none" >&2
elif [ ! -f "$library" ]; then
    echo "no library for C at $library: tools/static_library.py wisangub_c makes it, --without-library goes without" >&2
    exit 2
fi

umask 022
export LC_ALL=C
SOURCE_DATE_EPOCH=${SOURCE_DATE_EPOCH:-$(git log -1 --format=%ct)}
export SOURCE_DATE_EPOCH
room=$(mktemp -d)
trap 'rm -rf "$room"' EXIT
mkdir -p "$folder" "$room/source"
folder=$(cd "$folder" && pwd)
git archive HEAD | tar -x -C "$room/source"
source=$room/source
given=$source/tools/release
version=$("$source/tools/version.py")
said=$("$program" --version)
[ "$said" = "signtool $version" ] || { echo "$program is $said, and not $version" >&2; exit 1; }
debian=${debian:-$version-1}
architecture=$(dpkg --print-architecture)
date=$(date -u -d "@$SOURCE_DATE_EPOCH" +%F)
name=wisangub-$version

# filled FILE: the template with its fields
filled() {
    sed -e "s/@VERSION@/$version/g" -e "s/@DATE@/$date/g" -e "s/@DEBIAN_VERSION@/$debian/g" \
        -e "s/@ARCHITECTURE@/$architecture/g" -e "s/@SIZE@/${size:-}/g" -e "s/@LIBC@/${libc:-}/g" \
        -e "s/@RECOMMENDS@/${recommends:-}/g" -e "s/@GATE@/$gated/g" "$1"
}

. "$given/trees.sh"

# tar: everything under one folder
tar_of() {
    usr=$room/$name
    python="/usr/bin/env python3"
    bin=/usr/local/bin
    program_tree
    control_tree
    [ -z "$library" ] || library_tree
    cp "$source/LICENSE" "$source/NOTICE" "$source/CHANGELOG.md" "$folder/README" "$folder/INSTALL" "$usr/"
    mended
    stamped "$usr"
    tar -C "$room" --sort=name --owner=0 --group=0 --numeric-owner -c "$name" |
        gzip -9n > "$folder/$name-$architecture.tar.gz"
    echo "$name-$architecture.tar.gz"
}

# package NAME TREE: the Debian package of this name, whose files TREE puts under $usr
package() {
    local own=$given/debian/$1 root=$room/packages/$1
    usr=$root/usr
    python=/usr/bin/python3
    bin=/usr/bin
    "$2"
    papers "$1"
    mended
    mkdir "$root/DEBIAN"
    [ ! -f "$own/postinst" ] || install -m 755 "$own"/{postinst,prerm,postrm} "$root/DEBIAN/"
    [ ! -d "$root/etc" ] || (cd "$root" && find etc -type f -printf '/%p\n' | sort > DEBIAN/conffiles)
    size=$(du -k -s --apparent-size "$root" | cut -f1)
    recommends=$(recommended "$own/control")
    filled "$own/control" > "$root/DEBIAN/control"
    (cd "$root" && find usr -type f -print0 | sort -z | xargs -0 md5sum) > "$root/DEBIAN/md5sums"
    stamped "$root"
    dpkg-deb --root-owner-group -Zxz --build "$root" "$folder/$1_${debian}_$architecture.deb" > /dev/null
    echo "$1_${debian}_$architecture.deb"
}

libc="libc6 (>= $(objdump -T "$program" | grep -o 'GLIBC_[0-9.]*' | sort -Vu | tail -n 1 | cut -d_ -f2))"
filled "$given/README" > "$folder/README"
filled "$given/INSTALL" > "$folder/INSTALL"
{
    tar_of
    package wisangub program_tree
    package wisangub-control control_tree
    [ -z "$library" ] || package libwisangub-dev library_tree
    printf '%s\n' README INSTALL
} > "$room/made"
(cd "$folder" && xargs sha256sum < "$room/made") > "$folder/SHA256SUMS"
touch -d "@$SOURCE_DATE_EPOCH" "$folder"/{README,INSTALL,SHA256SUMS}
sed "s#^#$folder/#" "$room/made"
echo "$folder/SHA256SUMS"
