#!/usr/bin/env bash
# Runs the built program with input and output that fail: `trials/program_faults.sh [--short] [PROGRAM]` prints `N passed, N failed`.
# Each call ends with its word and exit status: never a crash, and never silence with exit 0. With --short before the program the
# inputs of a megabyte and more are left out.
set -u
case " $* " in *" --help "*) sed -n '2,/^[^#]/s/^# \{0,1\}//p' "$0"; exit ;; esac
top=$(cd "$(dirname "$0")/.." && pwd)
short=
if [ "${1:-}" = --short ]; then short=1; shift; fi
program=${1:-$top/crates/signtool/out/signtool}
[ -x "$program" ] || { echo "no program at $program: tools/build.py builds it" >&2; exit 2; }
folder=$(mktemp -d)
trap 'rm -rf "$folder"' EXIT
passed=0
failed=0

# ended NAME STATUS WORDS: what the last call left in $folder/out, $folder/err and $status
ended() {
    if [ "$status" = "$2" ] && [ "$(head -c 200 "$folder/out")" = "$3" ] && { [ "$2" != 0 ] || [ ! -s "$folder/err" ]; }; then
        passed=$((passed + 1))
    else
        failed=$((failed + 1))
        echo "$1: exit $status (wanted $2), printed '$(head -c 200 "$folder/out")' (wanted '$3'), errors '$(head -c 200 "$folder/err")'"
    fi
}

call() { timeout 60 "$program" "$@" > "$folder/out" 2> "$folder/err"; status=$?; }

get=302e02010004067075626c6963a0210201010201000201003016301406102b0601040189360402030508010903010500

# --- input -----------------------------------------------------------------------------------------------------------
echo bench > "$folder/bench"
head -c 1048576 /dev/zero | tr '\0' '#' > "$folder/longest"
head -c 1048577 /dev/zero | tr '\0' '#' > "$folder/longer"
{ echo bench; head -c 1048569 /dev/zero | tr '\0' '#'; echo; } > "$folder/longest_script"
for words in "replay" "answer $get --sign" "check A --sign" "pages A --sign"; do
    call $words < /dev/null; ended "$words: no input" 1 "line 1"
    call $words < /; ended "$words: a directory" 1 "read"
    call $words <&-; ended "$words: closed input" 1 "read"
    [ -z "$short" ] || continue
    call $words < "$folder/longest"; ended "$words: 1,048,576 octets" 1 "line 2"
    call $words < "$folder/longer"; ended "$words: 1,048,577 octets" 1 "too long"
    yes '#' | { call $words; echo "$status" > "$folder/status"; } 2> /dev/null
    status=$(cat "$folder/status"); ended "$words: input that never ends" 1 "too long"
done
[ -n "$short" ] || { call replay < "$folder/longest_script"
ended "replay: a script of 1,048,576 octets" 0 "events 0
sent 0 0
shown 7 1 0000 mode 10 priority 1 remaining 65535 text -"; }

# --- what is wrong with a line is said on standard error ---------------------------------------------------------------
# said NAME WORDS: the last call said these words
said() {
    if grep -qxF "$2" "$folder/err"; then
        passed=$((passed + 1))
    else
        failed=$((failed + 1))
        echo "$1: said '$(head -c 200 "$folder/err")' (wanted '$2')"
    fi
}
roadside=$top/signs/roadside.sign
end=$(grep -n '^end' "$roadside" | cut -d: -f1)
# refused LINE EDIT WORDS: what is said of the roadside sign's description with this edit of sed
refused() {
    sed "$2" "$roadside" > "$folder/refused"
    for words in "check A --sign" "sign --sign" "replay"; do
        call $words < "$folder/refused"; ended "$words: $2" 1 "line $1"; said "$words: $2" "line $1: $3"
    done
}
refused "$end" 's/^size .*/size 257 64/' "the matrix is wider than 256"
refused "$end" 's/^communities .*/communities same same/' "both communities are the same"
refused "$end" 's/^rows .*/rows 65 1/' "there are more than 64 changeable rows"
refused "$end" 's/^end/stop/' 'a row, a font, a character or `end` is wanted'
for words in "replay" "answer $get --sign" "check A --sign" "pages A --sign" "sign --sign" "centre --sign"; do
    call $words < /dev/null; ended "$words: no input" 1 "line 1"
    said "$words: no input" 'line 1: the text ends before its line `end`'
    said "$words: no input" "the standard input is empty: < FILE gives it one"
done
for words in "answer $get --sign" "check A --sign" "pages A --sign" "sign --sign" "centre --sign"; do
    for named in "$words made.sign" "$words=made.sign"; do
        call $named < /dev/null; ended "$named" 2 ""
        said "$named" "hint: the description is read from standard input: < FILE"
    done
done
printf 'bench\nsign-tick now\n' > "$folder/refused"
call replay < "$folder/refused"; ended "replay: a word too many" 1 "line 2"; said "replay: a word too many" "line 2: word 2: no more words are wanted"

# --- output: a failed write has status 1, whatever was to be printed -------------------------------------------------
printed() { status=$1; : > "$folder/out"; }
for words in "answer $get" "check A" "check [x]" "pages A" "code 3 1 A" "code 3 1 A --address x" "activation 7 1 0000" "activation 3 1 x" "items A" "items --json [x]" "decode 30" "decode --json $get" "replay" "answer 30" "answer x"; do
    timeout 60 "$program" $words < "$folder/bench" > /dev/full 2> "$folder/err"; printed $?
    ended "$words: full output" 1 ""
    timeout 60 "$program" $words < "$folder/bench" >&- 2> "$folder/err"; printed $?
    ended "$words: closed output" 1 ""
    timeout 60 "$program" $words < "$folder/bench" > /dev/full 2>&-; printed $?
    ended "$words: full output, no errors" 1 ""
done

# --- words -----------------------------------------------------------------------------------------------------------
for words in "" "wrong" "answer" "answer --sign" "check" "code 3 1" "code 1 1 A" "code 5 1 A" "code 3 0 A" "code 3 65536 A" "code 3 1 A --duration 65536" \
    "code +3 1 A" "code 3 +1 A" "code 3 1 A --duration +5" "code 3 1 A --duration=-0" "code 3 1 A --priority=+5" "pages --page +1 A" \
    "code 3 1 A --priority 256" "activation 3 1" "activation 6 1 9a66" "activation 7 0 0000" "pages --json A" "check --sign=made.sign A" "replay now" "pages A B" "answer 30 --sing"; do
    call $words < "$folder/bench"; ended "'$words'" 2 ""
done
call answer 3003020100 < /dev/null; ended "answer: octets that spell no message" 1 "dropped"
call answer "" < /dev/null; ended "answer: no octets" 1 "dropped"
call answer 3 < /dev/null; ended "answer: half an octet" 2 "not hex"
call answer "30 00" < /dev/null; ended "answer: a space between octets" 2 "not hex"
call decode 30:00 < /dev/null; ended "decode: a colon between octets" 2 "not hex"
call decode --spaced "30: 0a" < /dev/null; ended "decode --spaced: a message that is cut short" 1 "fault truncated at octet 2"
call code 3 1 A --address 1.2.3 < /dev/null; ended "code: an address of three numbers" 2 "bad address"
call code 3 1 "$(head -c 513 /dev/zero | tr '\0' A)" < /dev/null; ended "code: a text of 513 octets" 1 "text too long"
call activation 3 1 9a6 < /dev/null; ended "activation: three digits" 2 "bad checksum"
call activation 3 1 9a66 --address 1.2.3 < /dev/null; ended "activation: an address of three numbers" 2 "bad address"
call decode --json 3 < /dev/null; ended "decode --json: half an octet" 2 '{"refused":"not hex"}'
call check --json A --sign < /dev/null; ended "check --json: no description" 1 '{"refused":"line 1"}'
call check --json AAAAA < /dev/null; ended "check --json: a line that is too wide" 1 '{"fault":5,"at":4}'
said "check --json: a line that is too wide" "text too big at octet 4: wider than the matrix by 6 columns"
call pages C < /dev/null; ended "pages: a character that is not there" 1 "fault 7 at 0"
said "pages: a character that is not there" "character not defined at octet 0: character 67 is not in font 1"
# words that are no text are named on standard error by their number
call check $'A\xff' < /dev/null; ended "check: a word that is no text" 2 ""
if grep -qx "word 2 of the command line is no text" "$folder/err"; then passed=$((passed + 1)); else failed=$((failed + 1)); cat "$folder/err"; fi

echo "$passed passed, $failed failed"
[ "$failed" = 0 ]
