#!/usr/bin/env bash
# Counts calls of malloc, calloc and realloc over many calls of what takes no memory: `trials/no_memory.sh` prints
# `N passed, N failed`.
#
#     trials/no_memory.sh [--built] [--count 100000]
#
# It builds the library of crates/dms_measures first, by tools/static_library.py, with what is not proved yet below it.
# With --built nothing below it is proved: where a crate lacks, all is skipped.
set -eu
case " $* " in *" --help "*) sed -n '2,/^[^#]/s/^# \{0,1\}//p' "$0"; exit ;; esac
trials=$(cd "$(dirname "$0")" && pwd)
crate=$trials/../crates/dms_measures
build=$crate/out
built=
count=100000
while [ $# != 0 ]; do
    case $1 in
        --built) built=1; shift ;;
        --count) count=$2; shift 2 ;;
        *) echo "there is no $1: --help says what there is" >&2; exit 2 ;;
    esac
done
# What makes no list may name no allocation but where it makes what it measures.
if grep -nE '\bVec::|String::|Box::|vec!|format!|\.to_vec|with_capacity' "$crate/src/still.rt"; then
    echo "still.rt names an allocation" >&2
    exit 1
fi
folder=$(mktemp -d)
trap 'rm -rf "$folder"' EXIT
lacks=0
"$trials/../tools/static_library.py" ${built:+--standing} dms_measures || lacks=$?
[ -z "$built" ] || [ "$lacks" != 3 ] || exit 0
[ "$lacks" = 0 ] || exit 1
kit=$(dirname "$("${RT:-rt}" doc)")
wrapped=-Wl,--wrap=malloc,--wrap=calloc,--wrap=realloc
"${CC:-cc}" -O2 -Wall $wrapped -o "$folder/no_memory" "$trials/no_memory.c" -L "$build" -ldms_measures -L "$kit/c" -llibc_c
"$folder/no_memory" "$count"
