#!/usr/bin/env bash
# Refuses each allocation in turn: `trials/refuse_memory.sh` prints `N passed, N failed`.
#
#     trials/refuse_memory.sh [--built] [--short] [CRATE.. | tests | signtool]
#
# Every test whose name ends in _or_out_of_memory is run once for each N, with the N-th call of malloc, calloc or
# realloc refused, until a run makes fewer calls. Each run has to end by the test's own answer. Then the built program
# carries out the calls of trials/memory_cases.py in the same way: it prints what an undisturbed run prints, or lines of
# that and then `memory` with exit 1, or, while it reads its command line, it says `out of memory` on standard error and
# ends with 2. No allocation may be made within a function named receive, neither a sign's nor a centre's.
# The word tests stands for all crates that have such tests. With --built nothing is built anew, and a crate whose tests
# do not stand built, as `rt ci` leaves them, is skipped. With --short each of the first ten allocations of a run is
# refused, and then one in ever more.
set -u
case " $* " in *" --help "*) sed -n '2,/^[^#]/s/^# \{0,1\}//p' "$0"; exit ;; esac
top=$(cd "$(dirname "$0")/.." && pwd)
built=
short=0
while [[ ${1:-} == --* ]]; do
    case $1 in
        --built) built=1 ;;
        --short) short=1 ;;
        *) echo "there is no $1: --help says what there is" >&2; exit 2 ;;
    esac
    shift
done
folder=$(mktemp -d)
trap 'rm -rf "$folder"' EXIT
"${CC:-cc}" -O2 -Wall -shared -fPIC -o "$folder/refuse.so" "$top/trials/refuse_memory.c" || exit 2
passed=0
failed=0

# swept NAME BAD REFUSED: counts the runs and says what they were
swept() {
    if [ "$2" = 0 ]; then passed=$((passed + 1)); else failed=$((failed + 1)); fi
    echo "$1: $3 allocations refused, $2 runs failed"
}

# refusing N PROGRAM WORDS..: one run; its exit in $status, and how many allocations it made in $calls, none if unknown
refusing() {
    rm -f "$folder/count"
    REFUSE=$1 REFUSE_IN=$(basename "$2") REFUSE_COUNT=$folder/count REFUSE_WITHIN=${places:-} \
        LD_PRELOAD=$folder/refuse.so "${@:2}" > "$folder/out" 2> "$folder/err"
    status=$?
    calls= within=0
    [ ! -f "$folder/count" ] || read -r calls within < "$folder/count"
}

# the next number to refuse, $n
next() { refused=$((refused + 1)); n=$((n + 1 + short * n / 10)); }

# built_anew CRATE WORD: builds the tests or the program
built_anew() {
    [ -n "$built" ] || (cd "$top/crates/$1" && "${RT:-rt}" "$2" > "$folder/log" 2>&1) || {
        tail -5 "$folder/log"
        echo "$1 does not build"
        failed=$((failed + 1))
        return 1
    }
}

# test_swept PROGRAM TEST
test_swept() {
    local bad=0
    n=1 refused=0
    while refusing $n "$1" "$2"; [ "$status" != 0 ] || [ "${calls:-0}" -ge $n ]; do
        if [ "$status" != 0 ]; then
            bad=$((bad + 1))
            echo "$(basename "$1") $2, allocation $n: exit $status"
            tail -3 "$folder/err"
        fi
        next
        [ $n -le 2000 ] || break
    done
    swept "$(basename "$1") $2" $bad $refused
}

# well WANTED STATUS: whether the last run ended as it may where memory is refused; an undisturbed one prints WANTED
well() {
    [ "$status" = "$2" ] && cmp -s "$folder/out" "$1" && return
    [ "$status" = 1 ] && [ "$(tail -n 1 "$folder/out")" = memory ] &&
        cmp -s <(head -n -1 "$folder/out") <(head -n $(($(wc -l < "$folder/out") - 1)) "$1") && return
    [ "$status" = 2 ] && [ ! -s "$folder/out" ] && grep -qx "\(.*: \)\?out of memory" "$folder/err"
}

# call_swept NAME: the call of this name in $folder/calls
call_swept() {
    local bad=0 words input=$folder/calls/$1.input wanted=$folder/wanted wanted_status
    mapfile -t words < "$folder/calls/$1.words"
    "$program" "${words[@]}" < "$input" > "$wanted" 2> "$folder/err"
    wanted_status=$?
    n=1 refused=0
    while refusing $n "$program" "${words[@]}" < "$input"; [ "${calls:-0}" -ge $n ] || [ -z "$calls" ]; do
        if ! well "$wanted" $wanted_status; then
            bad=$((bad + 1))
            echo "signtool, $1, allocation $n: exit $status, printed '$(head -c 100 "$folder/out")'"
        fi
        next
        [ $n -le 20000 ] || break
    done
    if [ "$within" != 0 ]; then
        bad=$((bad + 1))
        echo "signtool, $1: $within of $calls allocations are within a function named receive"
    fi
    swept "signtool, $1" $bad $refused
}

asked=" $* "
crates=("$@")
[ $# != 0 ] && [ "$*" != tests ] || mapfile -t crates < <(cd "$top/crates" &&
    grep -rlE 'fn [a-z_]*_or_out_of_memory' --include=*.rt . | cut -d/ -f2 | sort -u)
for crate in "${crates[@]}"; do
    [ "$crate" != signtool ] && built_anew "$crate" test || continue
    tests=$top/crates/$crate/out/${crate}_tests
    [ -x "$tests" ] || { echo "skipped the tests of $crate: $tests is not built"; continue; }
    for test in $("$tests" --list | grep -oE '[A-Za-z_:]*_or_out_of_memory'); do
        test_swept "$tests" "$test"
    done
done

if [ $# = 0 ] || [[ $asked == *" signtool "* ]]; then
    program=$top/crates/signtool/out/signtool
    built_anew signtool run
    [ -x "$program" ] || { echo "no program at $program" >&2; exit 2; }
    places=$(nm -S "$program" 2> /dev/null | awk '/::(Sign|Centre)::receive$/ && NF == 4 {print $1 ":" $2}' | tr '\n' ' ')
    [ -n "$places" ] || echo "skipped allocations within receive: the program's file names no such function"
    mkdir "$folder/calls"
    env -C "$top" python3 -m trials.memory_cases "$folder/calls" || exit 2
    for call in "$folder"/calls/*.words; do
        call_swept "$(basename "$call" .words)"
    done
fi

echo "$passed passed, $failed failed"
[ "$failed" = 0 ]
