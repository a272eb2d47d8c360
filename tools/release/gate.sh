#!/usr/bin/env bash
# Whether a gate passed for a commit: `tools/release/gate.sh LOG COMMIT` prints how many of it did.
#
# LOG is what .ci/run printed. Its first line names the commit, `commit HASH`, and `with changes` after it where files
# were not as that commit has them; its last line counts, `N passed, N failed`, and no other does so after it. Where it
# is of another commit or of changed files, where anything failed, or where it has not ended, it is said on standard
# error, with status 1.
set -u
case " $* " in *" --help "*) sed -n '2,/^[^#]/s/^# \{0,1\}//p' "$0"; exit ;; esac
[ $# = 2 ] || { echo "tools/release/gate.sh LOG COMMIT" >&2; exit 2; }
[ -r "$1" ] || { echo "no gate's log at $1" >&2; exit 1; }
first=$(head -n 1 "$1")
last=$(tail -n 1 "$1")
if [ "$first" != "commit $2" ]; then
    echo "$1 is not of the commit $2, since it begins with: ${first:0:80}" >&2
elif [[ $last =~ ^[1-9][0-9]*\ passed,\ 0\ failed$ ]]; then
    echo "$last"
    exit
else
    echo "$1 is of a gate that did not pass, since it ends with: ${last:0:80}" >&2
fi
exit 1
