#!/usr/bin/env bash
# Tries a release in an empty root of Debian: `trials/release_trial.sh [BASE]` prints `N passed, N failed`.
#
#     trials/release_trial.sh [--program PATH] [--library PATH] [--release FOLDER] [BASE]
#
# BASE is a root that debootstrap made with what the packages want; where it is not there it is made (some minutes, from
# deb.debian.org). The trial works in a copy, in which systemd runs in namespaces of its own, its network among them. A
# release is made twice, or taken from FOLDER, installed over an older one, removed and purged. Its services run as their
# units say; a sign answers, walks, takes publications, is killed, tested and driven; the examples of the manual are
# pasted, those for C are built; and all that was started ends. Where something fails, what publications, services and
# journals have to say is kept, and where is said. It wants root, namespaces, and programs of Debian's debootstrap, dpkg
# and util-linux.
set -u
case " $* " in *" --help "*) sed -n '2,/^[^#]/s/^# \{0,1\}//p' "$0"; exit ;; esac
cd "$(dirname "$0")/.." || exit 2
given=(--without-gate)
release=
while [ $# -gt 1 ]; do
    case $1 in
        --program | --library) given+=("$1" "$2") ;;
        --release) release=$(realpath "$2") ;;
        *) echo "no option $1: trials/release_trial.sh --help" >&2; exit 2 ;;
    esac
    shift 2
done
base=${1:-/var/tmp/wisangub-trial-base}
[ "$(id -u)" = 0 ] || { echo "it wants root, for chroot and namespaces" >&2; exit 2; }
[ -e "$base/usr/bin/systemctl" ] || command -v debootstrap > /dev/null || { echo "it wants debootstrap" >&2; exit 2; }
room=$(mktemp -d)
root=$room/root
own=$root/var/lib/wisangub
signs=/usr/share/wisangub/signs
database=/var/lib/wisangub/room.sqlite
machine=
init=
passed=0
failed=0

# kept: what was said goes where the trial's end does not remove it
kept() {
    local to
    to=$(mktemp -d /var/tmp/wisangub-trial-kept-XXXXXX)
    inside journalctl --no-pager -u 'wisangub*' > "$to/services" 2>&1
    cp -R "$room/published" "$room/pasted" "$room/log" "$room/systemd" "$own"/*.journal "$to/" 2> /dev/null
    echo "what was said is kept in $to"
}

# groups COMMAND: `make` or `remove` of the control group that systemd's are in, $$ in its name
groups() {
    unshare --mount --propagation private bash -c 'mount -t cgroup2 none "$1" || exit
        if [ "$2" = make ]; then mkdir "$1/$3"; else find "$1/$3" -depth -type d -exec rmdir {} + ; fi' \
        groups "$room/groups" "$1" "wisangub-trial-$$"
}

finish() {
    [ "$failed" = 0 ] || kept
    if [ -n "$machine" ]; then
        kill -9 "$machine" "$init"
        wait "$machine"
        for _ in $(seq 50); do groups remove && break; sleep 0.2; done
    fi 2> /dev/null
    rm -rf "$room"
}
trap finish EXIT

# boot: systemd over $root, $init its process
boot() {
    mkdir "$room/groups"
    groups make || { echo "no control group can be made" >&2; exit 2; }
    unshare --mount --propagation private bash -c '
        mount -t cgroup2 none "$2/groups" && echo $$ > "$2/groups/$3/cgroup.procs" || exit
        exec unshare --pid --net --uts --ipc --cgroup --mount --fork --kill-child bash -c "$1" boot "$2/root"' \
        boot "$(declare -f machine_of); machine_of \"\$1\"" "$room" "wisangub-trial-$$" > "$room/systemd" 2>&1 < /dev/null &
    machine=$!
    for _ in $(seq 300); do
        init=$(pgrep -P "$machine")
        case $(inside systemctl is-system-running 2> /dev/null) in running | degraded) return ;; esac
        kill -0 "$machine" 2> /dev/null || break
        sleep 0.5
    done
    echo "systemd did not begin:" && cat "$room/systemd"
    exit 1
}

# machine_of ROOT: becomes systemd over it
machine_of() {
    set -e
    mount -t proc proc "$1/proc"
    mount -t sysfs sysfs "$1/sys"
    mount -t cgroup2 none "$1/sys/fs/cgroup"
    mount -t tmpfs tmpfs "$1/run"
    mount -t tmpfs tmpfs "$1/dev"
    for name in null zero full random urandom tty; do
        touch "$1/dev/$name"
        mount --bind "/dev/$name" "$1/dev/$name"
    done
    mkdir "$1/dev/pts" "$1/dev/shm"
    ln -s /proc/self/fd "$1/dev/fd"
    ln -s pts/ptmx "$1/dev/ptmx" # which PrivateDevices= looks for
    ip link set lo up
    # a service's own view of the files wants a root that is a mount
    mount --rbind "$1" "$1"
    cd "$1"
    pivot_root . .
    umount -l .
    exec chroot . /usr/bin/env -i container=lxc PATH=/usr/sbin:/usr/bin:/sbin:/bin /lib/systemd/systemd --system \
        --log-target=console --show-status=no
}

# inside COMMAND..: in that machine, as root; as_user: as the services' user, in its folder
inside() {
    [ -n "$init" ] || return
    nsenter -t "$init" --all --root --wd /usr/bin/env -i PATH=/usr/sbin:/usr/bin:/sbin:/bin LC_ALL=C.UTF-8 \
        PYTHONDONTWRITEBYTECODE=1 HOME=/tmp SNMP_PERSISTENT_DIR=/tmp "$@"
}
as_user() { inside runuser -u wisangub -- env -C /var/lib/wisangub "$@"; }

# is NAME COMMAND..: whether the command ends with 0; what it says is shown where it does not
is() {
    local name=$1 said
    shift
    if said=$("$@" 2>&1 < /dev/null); then passed=$((passed + 1)); else failed=$((failed + 1)); echo "$name: $said"; fi
}
same() { [ "$1" = "$2" ] || { echo "'$1', wanted '$2'"; return 1; }; }
no() { ! "$@"; }
# soon COMMAND..: whether it ends with 0 within a minute
soon() {
    local said
    for _ in $(seq 120); do said=$("$@" 2>&1) && return; sleep 0.5; done
    echo "$said"
    return 1
}

manager() { local name=$1; shift; inside "$name" -v1 -c public -t 5 "$@" 2>&1; }
get() { manager snmpget -M +/usr/share/wisangub/mibs -m DMS-PROFILE-MIB -Oqv 127.0.0.1:161 "$1"; }
shows() { same "$(get dmsMessageMultiString.5.1)" "\"$1\""; }
walk() { [ "$(manager snmpwalk -On 127.0.0.1:161 1.3.6.1.4.1.1206.4.2.3 | grep -c '^\.1\.3\.6.*1206\.4')" -gt 2300 ]; }
# publish TEXT: whether a centre says that it was accepted; what it said is kept in published, and shown where it was not
publish() {
    echo "publish-text 3 1 \"$1\" \"me\" 0 0 100 65535 255 127.0.0.1" | as_user timeout 180 wisangub-centre \
        --to 127.0.0.1:161 --sign $signs/roadside.sign --journal centre.journal > "$room/publication" 2>&1
    cat "$room/publication" >> "$room/published"
    grep -q '^last accepted$' "$room/publication" || { cat "$room/publication"; return 1; }
}
process_of() { inside systemctl show -P MainPID "$1"; }
active() { inside systemctl list-units --no-legend --state=active 'wisangub-*.service' | grep -o 'wisangub-[^ ]*' | sort | xargs; }

files() {
    (cd "$root" && find . -xdev \( -path ./var/lib/dpkg -o -path ./var/log -o -path ./tmp -o -path ./var/tmp -o \
        -path ./var/lib/systemd -o -path ./new -o -path ./older \) -prune -o -print |
        grep -vE '^\./etc/(passwd|group|g?shadow|subuid|subgid)-?$' | sort)
}
# paste PAGE SECTION: runs what the examples of a manual page show on a terminal; what it begins ends with it
paste() {
    zcat "$root/usr/share/man/man$2/$1.$2.gz" > "$root/tmp/page"
    inside groff -mdoc -Tutf8 -P-c -P-b -P-u -P-o -rLL=200n /tmp/page |
        sed -n '/^EXAMPLES/,/^[F-Z]/s/^ \{9,\}/  /p' > "$room/pasted"
    [ -s "$room/pasted" ] && as_user timeout 180 bash -c \
        "$(cat "$room/pasted")"$'\nended=$?; kill %1 2> /dev/null; exit $ended' 2>&1
}
pasted() {
    local said
    said=$(paste "$@")
    grep -q '^last accepted$' <<< "$said" && grep -q 'LANE CLOSED' <<< "$said" || { cat "$room/pasted"; echo "$said"; return 1; }
}
installed() { inside dpkg -L wisangub wisangub-control libwisangub-dev; }
links() { installed | tools/release/links.py "$root"; }

# --- the release: the same octets twice, nothing missing in silence, no test in it ----------------------------------
version=$(tools/version.py)
if [ -z "$release" ]; then
    release=$room/first
    tools/release.sh "${given[@]}" "$release" > "$room/made" 2> "$room/log" || { cat "$room/log"; exit 1; }
    tools/release.sh "${given[@]}" "$room/second" > "$room/made" 2>> "$room/log"
    is "the same octets twice" diff -r "$release" "$room/second"
fi
is "no release without the library" same "$(tools/release.sh "${given[@]}" --library /none "$room/none" 2>&1)" \
    "no library for C at /none: tools/static_library.py wisangub_c makes it, --without-library goes without"
is "no release without a gate" same "$(tools/release.sh "$room/none" 2>&1)" \
    "no gate: --gate LOG has what .ci/run printed for the commit, --without-gate goes without"
is "its digests" env -C "$release" sha256sum -c --quiet SHA256SUMS
debs=("$release"/{wisangub,wisangub-control,libwisangub-dev}_"$version"-1_*.deb)
tests() { for deb in "${debs[@]}"; do dpkg-deb -c "$deb"; done | grep -E '(^|[/_])(tests?|conftest)([/_.]|$)|/test_'; }
is "no test is in it" no tests
# older: the packages as they were of an older version
older() {
    local deb name
    for deb in "${debs[@]}"; do
        name=$(basename "$deb" | cut -d_ -f1)
        dpkg-deb -R "$deb" "$room/older/$name"
        sed -i -e 's/^Version: .*/Version: 0.0.1-1/' -e "s/(= $version-1)/(= 0.0.1-1)/" "$room/older/$name/DEBIAN/control"
        dpkg-deb -Znone --root-owner-group -b "$room/older/$name" "$root/older/$name.deb" > /dev/null
    done
}

# --- an empty root, with systemd ------------------------------------------------------------------------------------
if [ ! -e "$base/usr/bin/systemctl" ]; then
    packages=python3,snmp,python3-aiohttp,python3-jinja2,python3-psycopg,python3-prometheus-client,adduser,systemd
    packages=$packages,groff-base,gcc,libc6-dev,make,pkg-config
    debootstrap --variant=minbase --include=$packages bookworm "$base" http://deb.debian.org/debian > "$room/log" \
        || { tail -n 3 "$room/log"; exit 1; }
fi
cp -a "$base" "$root"
mkdir "$root/new" "$root/older" "$room/older"
cp "${debs[@]}" "$root/new/"
older
boot
files > "$room/before"

# --- an older one is installed, and nothing runs by itself ----------------------------------------------------------
install_all() { inside sh -c "dpkg -i /$1/*.deb"; }
is "installed" install_all older
is "its dependencies are there" inside dpkg --configure -a
is "the program's version" same "$(inside wisangub-signtool --version)" "signtool $version"
for name in sign centre conform control; do
    is "$name --version" same "$(inside "wisangub-$name" --version)" "wisangub-$name $version"
    is "$name --help" inside "wisangub-$name" --help
done
is "what is installed leads somewhere" links
is "completions" inside bash -c \
    'for f in /usr/share/bash-completion/completions/wisangub-*; do . "$f" && complete -p "${f##*/}"; done'
is "a picture" inside sh -c "wisangub-signtool pages --svg FOG --sign < $signs/roadside.sign"
is "its folders" same "$(inside stat -c '%U %G %a' /etc/wisangub /var/lib/wisangub | xargs)" \
    "root wisangub 750 wisangub wisangub 700"
is "its user logs in nowhere" same "$(inside getent passwd wisangub | cut -d: -f6,7)" /var/lib/wisangub:/usr/sbin/nologin
for unit in wisangub-sign@roadside wisangub-control wisangub-worker; do
    is "$unit is not enabled" same "$(inside systemctl is-enabled "$unit" 2>&1)" disabled
    is "$unit is right" inside systemd-analyze verify --man=no "/usr/lib/systemd/system/$unit.service"
    is "$unit is enclosed" inside systemd-analyze security --no-pager --offline=true --threshold=20 "$unit.service"
done
is "nothing runs" same "$(active)" ""

# --- a sign answers, walks, takes a publication ---------------------------------------------------------------------
echo 'OPTIONS="--listen 127.0.0.1:161"' > "$root/etc/wisangub/roadside.conf"
is "a sign is enabled" inside systemctl enable --now wisangub-sign@roadside
is "a Get" soon eval 'same "$(get vmsSignWidthPixels.0)" 96'
is "a walk" walk
is "a publication" publish "LANE CLOSED"
is "what is shown" shows "LANE CLOSED"

# --- another one over it: journals stay, and what was changed -------------------------------------------------------
before=$(process_of wisangub-sign@roadside)
sum=$(sha256sum "$own/centre.journal")
is "installed over it" install_all new
is "a journal stays" same "$(sha256sum "$own/centre.journal")" "$sum"
is "options stay" grep -q :161 "$root/etc/wisangub/roadside.conf"
is "the sign goes on" soon shows "LANE CLOSED"
is "by the new one" no same "$(process_of wisangub-sign@roadside)" "$before"
is "nothing else runs" same "$(active)" wisangub-sign@roadside.service
is "the central system goes on" publish "ROAD WORK"
is "what is shown then" shows "ROAD WORK"
is "a kill" inside systemctl kill -s KILL wisangub-sign@roadside
is "the sign goes on after it" soon shows "ROAD WORK"
is "a third publication" publish "FOG"
numbers=$(sed -n 's/^ledger \([0-9]*\) .* accepted$/\1/p' "$room/published")
three() { same "$(wc -l <<< "$numbers")" 3 || { cat "$room/published"; return 1; }; }
is "the ledger has three activations" three
is "their numbers rise" same "$(sort -nu <<< "$numbers")" "$numbers"
is "the journal is nobody else's" same "$(inside stat -c '%U %a' /var/lib/wisangub/roadside.journal)" "wisangub 600"

# --- the tester and the control room --------------------------------------------------------------------------------
is "the tester" as_user timeout 300 wisangub-conform --to 127.0.0.1:161 --sign $signs/roadside.sign \
    --only get --only communities --html report.html
printf '[[sign]]\nname = "one"\naddress = "127.0.0.1:161"\ndescription = "roadside.sign"\nfirst = 1000000\n' \
    > "$root/etc/wisangub/fleet.toml"
users() { echo a-long-password | as_user wisangub-control users --database $database --create add someone operator; }
is "a user" eval 'users <<< ""'
is "the control room is enabled" inside systemctl enable --now wisangub-control wisangub-worker
is "its pages" soon inside python3 -c \
    "import urllib.request; assert b'<form' in urllib.request.urlopen('http://127.0.0.1:8080/', timeout=60).read()"
is "the control room" as_user timeout 180 wisangub-control command --database $database one \
    'publish-text 3 1 "SLOW" "me" 0 0 100 65535 255 127.0.0.1'
is "what is shown by it" shows "SLOW"
is "no description is open" no grep 'chmod o-r' <(inside journalctl --no-pager -u wisangub-control)
is "all runs" same "$(active)" "wisangub-control.service wisangub-sign@roadside.service wisangub-worker.service"

# --- the manual's examples, and those for C -------------------------------------------------------------------------
is "the first example" pasted wisangub 7
is "the program's examples" paste wisangub-signtool 1
is "the examples for C" inside make -s -C /usr/share/doc/libwisangub-dev/examples OUT=/tmp
is "one of them" inside sh -c "/tmp/blink FOG < $signs/roadside.sign"
is "the library from Python" inside python3 /usr/share/doc/libwisangub-dev/examples/from_python.py \
    --library /usr/lib/wisangub/libwisangub.so $signs/roadside.sign FOG

# --- removed and purged: journals stay, and nothing else that the packages made -------------------------------------
is "removed" inside dpkg -r wisangub-control libwisangub-dev wisangub
is "nothing runs after it" same "$(active)" ""
is "options stay after it" test -s "$root/etc/wisangub/roadside.conf"
rm "$root/etc/wisangub/fleet.toml"
is "purged" inside dpkg -P wisangub-control libwisangub-dev wisangub
files > "$room/after"
left=$(comm -13 "$room/before" "$room/after" | grep -v '^\./var/lib/wisangub' | head -n 5)
is "nothing else stays" same "$left" ""
is "nothing else is gone" same "$(comm -23 "$room/before" "$room/after" | head -n 5)" ""
is "journals stay after it" test -s "$own/roadside.journal" -a -s "$own/centre.journal" -a -s "$own/room.sqlite"
is "and their owner" inside getent passwd wisangub
rm -r "$own"
is "installed anew" install_all new
is "purged without a journal" inside dpkg -P wisangub-control libwisangub-dev wisangub
is "its user is gone" no inside getent passwd wisangub
is "its folders are gone" no test -e "$own" -o -e "$root/etc/wisangub"

# --- the tar, unpacked and not installed ----------------------------------------------------------------------------
tar -xzf "$release"/*.tar.gz -C "$root/opt"
tar=/opt/wisangub-$version
is "the tar's program" inside "$tar/bin/wisangub-signtool" check A
is "the tar's tester" inside "$tar/bin/wisangub-conform" --help
is "the tar's front ends" eval 'echo status | inside "$tar/bin/wisangub-centre" --to 127.0.0.1:9 | grep "^last none"'
is "the tar's library" inside sh -c "PKG_CONFIG_PATH=$tar/lib/pkgconfig make -s \
    -C $tar/share/doc/libwisangub-dev/examples OUT=/opt && ls $tar/README $tar/INSTALL"

echo "$passed passed, $failed failed"
[ "$failed" = 0 ]
