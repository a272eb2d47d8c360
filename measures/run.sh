#!/usr/bin/env bash
# Builds the measures and prints their tables, as Markdown: measures/run.sh [WORDS OF measured.py].
set -eu
folder=$(cd "$(dirname "$0")" && pwd)
case ${1-} in -h | --help) exec "$folder/measured.py" --help ;; esac
crate=$folder/../crates/dms_measures
build=$crate/out

"$folder/../tools/static_library.py" dms_measures >&2
"${CC:-cc}" -O2 -c -o "$build/counted.o" "$folder/counted.c"
ar rcs "$build/libcounted.a" "$build/counted.o"
# The kit's own few lines of C, through which what allocates calls malloc and free.
kit=$(dirname "$("${RT:-rt}" doc)")
flags=(-C opt-level=3 -C codegen-units=1 -C target-cpu=x86-64-v2) # the processor that the library is made for
rustc --edition 2024 "${flags[@]}" -L "$build" -L "$kit/c" -l static=libc_c -o "$build/measure" "$folder/measure.rs"
"$folder/measured.py" "$@"

if "${CC:-cc}" -O2 -o "$build/netsnmp" "$folder/netsnmp.c" -lnetsnmp 2> /dev/null; then
    printf '## Net-SNMP'"'"'s parse\n\n| datagram | ns |\n|---|---|\n'
    for datagram in "$folder"/datagrams/*.hex; do
        printf '| %s | %s |\n' "$(basename "$datagram" .hex)" "$("$build/netsnmp" "$(cat "$datagram")")"
    done
else
    echo "Net-SNMP's parse was not measured: it wants Debian's package libsnmp-dev." >&2
fi
