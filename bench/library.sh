#!/bin/sh
# Counts what a message costs through the library for C, and by liblo's lo_server_dispatch_data, where so many methods stand:
#
#     bench/library.sh [COUNTS]             as bench/library.sh "1 10 1000"
#     bench/library.sh --functions COUNT    what of it each function takes, where COUNT methods stand
#
# It needs cc, liblo-dev and valgrind, and what bin/library needs.
set -eu
here=$(cd "$(dirname "$0")" && pwd)
work=$(mktemp -d)
trap 'rm -rf "$work"' EXIT
"$here/../bin/library" "$work"
cc -O2 -I"$work/include" "$here/library.c" "$work/lib/libvestrulj.a" -o "$work/library"
cc -O2 "$here/lo_dispatch.c" -o "$work/lo_dispatch" -llo

instructions() { # PROGRAM METHODS MESSAGES
    valgrind --tool=callgrind --callgrind-out-file=/dev/null "$work/$1" "$2" "$3" 2>&1 >"$work/$1.$2.$3" |
        sed -n 's/.*Collected : //p'
}

# What one more message costs: so many messages without a third of them, over the rest. liblo takes long where many methods stand.
instructions_per_message() { # PROGRAM METHODS
    most=12288
    [ "$2" -le 1000 ] || most=1536
    [ "$2" -le 10000 ] || most=192
    all=$(instructions "$1" "$2" "$most")
    third=$(instructions "$1" "$2" $((most / 3)))
    echo $(((all - third) / (most - most / 3)))
}

# What a run of the library takes, a function a line: instructions and its name.
functions() { # METHODS MESSAGES
    valgrind --tool=callgrind --callgrind-out-file="$work/profile" "$work/library" "$1" "$2" >"$work/said" 2>&1
    callgrind_annotate --threshold=100 --auto=no "$work/profile" |
        sed -n 's/^ *\([0-9,]*\) ([^)]*) *[^:]*:\([^[]*[^[ ]\).*/\1 \2/p' | tr -d ,
}

if [ "${1:-}" = --functions ]; then
    functions "$2" 4096 >"$work/third"
    functions "$2" 12288 |
        awk 'NR == FNR { third[substr($0, length($1) + 2)] += $1; next }
            { all[substr($0, length($1) + 2)] += $1 }
            END { for (name in all) { each = (all[name] - third[name]) / 8192; if (each >= 1) printf "%6.0f  %s\n", each, name } }' \
            "$work/third" - | sort -rn
    exit
fi

counts=${1:-1 10 100 1000 8000 65000}
echo "Instructions for a message, where so many methods stand:"
echo
echo "| program |$(printf ' %s |' $counts)"
echo "|---|$(printf -- '---|%.0s' $counts)"
for program in lo_dispatch library; do
    row="| $program |"
    for count in $counts; do row="$row $(instructions_per_message "$program" "$count") |"; done
    echo "$row"
done
# Both called the same methods with the same numbers.
for said in "$work"/library.*; do cmp "$said" "$work/lo_dispatch.${said##*/library.}"; done
