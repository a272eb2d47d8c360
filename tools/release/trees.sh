# shellcheck shell=bash disable=SC2154
# What of the commit goes into which part of a release, for tools/release.sh: each tree puts a part under $usr, with
# commands for the interpreter $python and units that find them in $bin.

# What of the repository stands where below $usr: mend.py has links lead there.
places=(docs=share/wisangub/docs vectors=share/wisangub/vectors signs=share/wisangub/signs mibs=share/wisangub/mibs
    python=share/wisangub/python licences=share/doc/wisangub/licences licences=share/doc/libwisangub-dev/licences
    include=include docs/C.md=share/doc/libwisangub-dev/C.md examples=share/doc/libwisangub-dev/examples)

# program_tree: the program, its front ends and the tester, with what they read
program_tree() {
    local share=$usr/share/wisangub
    mkdir -p "$share/python" "$usr"/share/{doc/wisangub,man/man7}
    install -D -m 755 "$program" "$usr/bin/wisangub-signtool"
    cp -R "$source"/mibs "$source"/signs "$source"/vectors "$share/"
    rm "$share/signs/fleet.toml"
    cp -R "$source"/python/wisangub "$share/python/"
    rm -r "$share/python/wisangub/room"
    plain
    commands wisangub-signtool wisangub-sign wisangub-centre wisangub-objects wisangub-conform
    filled "$given/man/wisangub.7" | gzip -9n > "$usr/share/man/man7/wisangub.7.gz"
    pages PROFILE COVERAGE JOURNAL OBJECTS CONFORMANCE
    cp "$source/NOTICE" "$usr/share/doc/wisangub/"
    cp -R "$source"/licences "$usr/share/doc/wisangub/"
    samples roadside.sign roadside.conf
    unit wisangub-sign@
}

# control_tree: the control room
control_tree() {
    local share=$usr/share/wisangub
    mkdir -p "$share/python/wisangub" "$share/signs"
    cp -R "$source"/python/wisangub/room "$share/python/wisangub/"
    cp "$source/signs/fleet.toml" "$share/signs/"
    plain
    commands wisangub-control
    pages CONTROL
    samples control.conf
    unit wisangub-control wisangub-worker
}

# library_tree: the library for C, its header, what pkg-config reads, and the examples
library_tree() {
    local docs=$usr/share/doc/libwisangub-dev
    make -s -C "$source/examples" install LIBRARY="$(realpath "$library")" OUT="$room/c" PREFIX="$usr" \
        PC_PREFIX='$${pcfiledir}/../..' VERSION="$version" >&2
    mkdir -p "$docs/examples"
    # the licences that this copied are in share/doc/wisangub where that part is there
    [ -f "$usr/share/doc/wisangub/NOTICE" ] || mv "$usr/share/doc/wisangub/licences" "$docs/"
    rmdir "$usr/share/doc/wisangub" 2> /dev/null || true
    cp "$source/docs/C.md" "$docs/"
    "$given/examples.py" "$source/examples" "$docs/examples"
}

# plain: what is imported is no program
plain() { find "$usr/share/wisangub" -name '*.py' -exec sed -i '1{/^#!/d}' {} + -exec chmod 644 {} +; }

# entry_of NAME: the module that python/pyproject.toml names for a command, none for one that is no Python
entry_of() { sed -n "s/^$1 = \"\([a-z_.]*\):run\"$/\1/p" "$source/python/pyproject.toml"; }

# command_of NAME MODULE: a command in $usr/bin that runs the module, with the release's own folders in its path
command_of() {
    cat > "$usr/bin/$1" <<END
#!$python
"""The command $1; its manual page says what it does."""
import pathlib
import sys

HOME = pathlib.Path(__file__).resolve().parents[1] / "share/wisangub"
sys.path[:1] = [str(HOME / "python")]
from $2 import run  # noqa: E402

sys.exit(run())
END
    chmod 755 "$usr/bin/$1"
}

# commands NAME..: these commands, with their manual pages and completions
commands() {
    local command module
    mkdir -p "$usr/bin" "$usr/share/man/man1" "$usr/share/bash-completion/completions"
    for command; do
        module=$(entry_of "$command")
        [ -z "$module" ] || command_of "$command" "$module"
        filled "$given/man/$command.1" | gzip -9n > "$usr/share/man/man1/$command.1.gz"
        [ -f "$room/completions/$command" ] || completion "$command"
        cp "$room/completions/$command" "$usr/share/bash-completion/completions/"
    done
}

# parts_of FOLDER: the parts of a command whose Python is there
parts_of() { sed -n 's/^    "\([a-z]*\)": "wisangub\..*/\1/p' "$source/python/wisangub/$1/__main__.py"; }

# completion NAME: that of bash, from what the command in $usr prints for --help; the tar, which has all, is made first
completion() {
    local parts=
    case $1 in
        wisangub-conform) parts=$(parts_of tester) ;;
        wisangub-control) parts=$(parts_of room) ;;
    esac
    # shellcheck disable=SC2086
    PYTHONDONTWRITEBYTECODE=1 "$given/completions.py" "$room/completions" "$1" "$usr/bin/$1" $parts
}

# pages NAME..: these pages of docs/, with the pictures that they show
pages() {
    local page docs=$usr/share/wisangub/docs
    mkdir -p "$docs/pictures"
    for page; do
        cp "$source/docs/$page.md" "$docs/"
        grep -o '(pictures/[^)]*)' "$source/docs/$page.md" | tr -d '()' | sed "s#^#$source/docs/#" |
            xargs -r cp -t "$docs/pictures"
    done
    rmdir "$docs/pictures" 2> /dev/null || true
}

# samples NAME..: what an administrator changes, in a package's /etc; in the tar beside the documents
samples() {
    local sample etc=$usr/share/doc/wisangub/etc
    [ "$bin" != /usr/bin ] || etc=${usr%/usr}/etc/wisangub
    mkdir -p "$etc"
    for sample; do
        if [ -f "$given/etc/$sample" ]; then cp "$given/etc/$sample" "$etc/"; else cp "$source/signs/$sample" "$etc/"; fi
    done
}

# unit NAME..: these units of systemd
unit() {
    local name
    mkdir -p "$usr/lib/systemd/system"
    for name; do sed "s#/usr/bin/#$bin/#" "$given/units/$name.service" > "$usr/lib/systemd/system/$name.service"; done
}

# papers PACKAGE: what each package of Debian has under share/doc, and what lintian is told
papers() {
    local docs=$usr/share/doc/$1
    mkdir -p "$docs"
    gzip -9nc "$source/CHANGELOG.md" > "$docs/changelog.gz"
    {
        printf '%s (%s) unstable; urgency=medium\n\n  * See changelog.gz.\n\n' "$1" "$debian"
        printf ' -- the authors of Wisangub <>  %s\n' "$(date -u -R -d "@$SOURCE_DATE_EPOCH")"
    } | gzip -9n > "$docs/changelog.Debian.gz"
    cp "$given/debian/copyright" "$docs/"
    [ "$1" != wisangub ] || cp "$folder/INSTALL" "$docs/README.Debian"
    install -D -m 644 "$given/debian/$1/overrides" "$usr/share/lintian/overrides/$1"
}

# mended: links of the pages under $usr lead to what is installed with them
mended() {
    local beside=()
    case $usr in */wisangub-control/usr) beside=(--beside "$room/packages/wisangub/usr") ;; esac
    "$given/mend.py" "${beside[@]}" "$usr" "${places[@]}"
}

# recommended CONTROL: what the Python under $usr can use, by what it imports, and the package does not depend on
recommended() {
    local pair found=()
    [ ! -x "$usr/bin/wisangub-signtool" ] || found=(snmp)
    for pair in rich:python3-rich aiohttp:python3-aiohttp jinja2:python3-jinja2 markupsafe:python3-markupsafe \
        psycopg:python3-psycopg prometheus_client:python3-prometheus-client; do
        grep -q "^Depends:.* ${pair#*:}" "$1" || ! grep -rqsE "^ *(from|import) ${pair%%:*}\b" "$usr/share/wisangub" ||
            found+=("${pair#*:}")
    done
    pair=$(IFS=,; echo "${found[*]}")
    echo "${pair//,/, }"
}

# stamped FOLDER: each of its files has the commit's time
stamped() { find "$1" -exec touch -hd "@$SOURCE_DATE_EPOCH" {} +; }
