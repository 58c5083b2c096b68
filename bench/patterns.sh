#!/bin/sh
# Counts what one message costs by its pattern, in `osc run --bytes` and in a program over liblo, and prints the tables of README.md.
#
#     bench/run.sh patterns [COUNT]      each pattern 200 times, or COUNT times
#
# It needs cc, liblo-dev, valgrind and python3, and what bin/osc needs.
set -eu
here=$(cd "$(dirname "$0")" && pwd)
top=$(dirname "$here")
count=${1:-200}
work=$(mktemp -d)
trap 'rm -rf "$work"' EXIT

cc -O2 "$here/lo_script.c" -o "$work/lo_script" -llo
"$top/bin/osc" run </dev/null >/dev/null # builds it
program=$top/crates/osc/out/osc

instructions() { # SCRIPT and the words of a program
    script=$1
    shift
    valgrind --tool=callgrind --callgrind-out-file=/dev/null "$@" <"$script" 2>&1 >"$work/out" | sed -n 's/.*Collected : //p'
}

# What one more message costs: all of them without the first half, over as many.
cost() { # PATTERN TABLE and the words of a program
    pattern=$1
    table=$2
    shift 2
    python3 "$here/patterns.py" "$pattern" "$count" "$table" >"$work/all"
    python3 "$here/patterns.py" "$pattern" $((count / 2)) "$table" >"$work/half"
    echo $((($(instructions "$work/all" "$@") - $(instructions "$work/half" "$@")) / (count - count / 2)))
}

rows() { # TABLE and patterns
    table=$1
    shift
    echo "| pattern | liblo | osc --bytes |"
    echo "|---|---|---|"
    for pattern in "$@"; do
        echo "| \`$pattern\` | $(cost "$pattern" "$table" "$work/lo_script") | $(cost "$pattern" "$table" "$program" run --bytes) |"
    done
}

echo "Instructions for a message, next to 1,000 methods /gG/nN in ten groups:"
echo
rows groups '/g3/n7' '/*/n5' '/g[0-9]/n5' '/?3/n1' '/{g3,g7}/n1' '/g3/{n1,n2}' '/{g0,g1,g2,g3,g4,g5,g6,g7,g8,g9}/n5' '/g3/n1*' '/g3/*' '/*/*' '/*/x'
echo
echo "Next to a mixer's 960 methods, thirty for each of 32 channels:"
echo
rows mixer '/ch/01/mix/fader' '/ch/*/mix/fader' '/ch/{01,02}/mix/on' '/ch/*/mix/*'
