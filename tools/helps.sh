#!/usr/bin/env bash
# Asks each tool for its help: `tools/helps.sh [TOOL..]` prints `N passed, N failed`.
#
# Every file of bin/, tools/, trials/ and of the measures that begins with `#!` has to be executable, and no other;
# `--help` has to print and to end with 0, without input, without errors and without a change to the repository. So for
# each module of the package and of trials/ that has a command line, and the old names conform and control; one whose
# packages are not installed here is skipped, which is said.
set -u
case " $* " in *" --help "*) sed -n '2,/^[^#]/s/^# \{0,1\}//p' "$0"; exit ;; esac
cd "$(dirname "$0")/.." || exit 2
export PYTHONPATH=$PWD/python${PYTHONPATH:+:$PYTHONPATH}
folder=$(mktemp -d)
trap 'rm -rf "$folder"' EXIT
passed=0
failed=0

# what stands in the repository, and when it was last written
standing() {
    find . \( -path ./.git -o -name out -o -name __pycache__ \) -prune -o -type f -printf '%p %s %T@\n' | sort
}

# is NAME FAULT: nothing is wrong where the fault is empty
is() {
    if [ -z "$2" ]; then passed=$((passed + 1)); else failed=$((failed + 1)); echo "$1: $2"; fi
}

# the modules that have a command line, by their names
modules() {
    grep -rl --include='*.py' 'if __name__ == "__main__":' python/wisangub trials conform control |
        sed -e 's#^python/##' -e 's#/__main__\.py$##' -e 's#\.py$##' -e 's#/#.#g' | sort
}

# asks COMMAND..: its help in $folder/out and $folder/err, its status, and what it changed since the one before
asks() {
    timeout 60 "$@" --help < /dev/null > "$folder/out" 2> "$folder/err"
    status=$?
    standing > "$folder/after"
    [ -s "$folder/out" ] || fault="--help prints nothing"
    [ ! -s "$folder/err" ] || fault="--help says '$(head -c 200 "$folder/err")' on standard error"
    [ "$status" = 0 ] || fault="--help ends with $status"
    [ "$status" != 124 ] || fault="--help does not end in a minute"
    changed=$(diff "$folder/before" "$folder/after" | sed -n 2p)
    [ -z "$changed" ] || fault="--help changes $changed"
    mv "$folder/after" "$folder/before"
}

shopt -s nullglob
standing > "$folder/before"
[ $# != 0 ] || set -- bin/* model/signtool tools/*.py tools/*.sh trials/*.sh measures/*.py measures/*.sh $(modules)
for tool in "$@"; do
    fault=
    if [ ! -f "$tool" ]; then
        asks python3 -m "$tool"
        if grep -qE "(No module named '|python3-)(aiohttp|jinja2|psycopg|rich)" "$folder/err"; then
            echo "skipped $tool: $(tail -n 1 "$folder/err" | head -c 200)"
            continue
        fi
    elif [ "$(head -c 2 "$tool")" != '#!' ]; then
        [ ! -x "$tool" ] || fault="executable, and its first line names no program"
    elif [ ! -x "$tool" ]; then
        fault="not executable"
    else
        asks "$tool"
    fi
    is "$tool" "$fault"
done

echo "$passed passed, $failed failed"
[ "$failed" = 0 ]
