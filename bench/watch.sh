#!/bin/sh
# Plays four lanes that submit, beside 1,000 methods, with a watcher and without one, and prints the tables of README.md: what a
# read of the list costs, and what the lanes lose by it.
#
#     bench/watch.sh
#
# It needs cc, valgrind and what bin/oscd needs.
set -eu
here=$(cd "$(dirname "$0")" && pwd)
top=$(dirname "$here")
work=$(mktemp -d)
trap 'rm -rf "$work"' EXIT

cc -O2 -Wall -shared -fPIC -o "$work/reads.so" "$here/reads.c"
"$top/bin/oscd" lanes /dev/null < /dev/null > /dev/null # builds it
program="$top/crates/oscd/out/oscd"
methods=1000
around= # what stands in the environment of a run

# Lane 0 adds the methods. Lanes 1 to 4 submit so many messages each, and each pumps after a hundred.
script() { # SENDS
    awk -v methods="$methods" -v sends="$1" 'BEGIN {
        for (k = 0; k < methods; k++) printf "0 add /g%d/n%d\n", k / 100, k % 100
        for (k = 1; k <= sends; k++) for (lane = 1; lane <= 4; lane++) {
            print lane, "send 2f620000"
            if (k % 100 == 0) print lane, "pump"
        }
    }'
}

lanes() { # [--watch]
    env $around "$program" lanes "$@" /dev/null < "$work/input" > "$work/out"
}

least_nanoseconds() { # [--watch]
    least=
    for try in 1 2 3 4 5 6 7 8 9; do
        begin=$(date +%s%N)
        lanes "$@"
        took=$(($(date +%s%N) - begin))
        if [ -z "$least" ] || [ "$took" -lt "$least" ]; then least=$took; fi
    done
    echo "$least"
}

# Counts the instructions of each thread.
count() { # [--watch]
    rm -f "$work"/calls*
    valgrind --tool=callgrind --separate-threads=yes --compress-strings=no --compress-pos=no \
        --callgrind-out-file="$work/calls" "$program" lanes "$@" /dev/null < "$work/input" > "$work/out" 2> "$work/errors"
}

# The instructions of the thread of a lane that submits: the most of those that neither watch nor are the first.
of_lane() {
    grep -L '^fn=osc_watch::' "$work"/calls-* | grep -v 'calls-01$' | xargs sed -n 's/^totals: //p' | sort -n | tail -n 1
}

# The instructions of the last read, which the first thread makes after the lanes.
of_read() {
    awk '
        /^cfn=/ { read = /Watcher::list/ }
        /^calls=/ { split($1, parts, "="); if (read) calls += parts[2]; getline; if (read) all += $2; read = 0 }
        END { if (calls > 0) print int(all / calls) }' "$work/calls-01"
}

lost() { # WITHOUT WITH
    awk -v without="$1" -v with="$2" 'BEGIN { printf "%.1f", (with - without) * 100 / without }'
}

script 50000 > "$work/input"
around="ROWS=$methods TIMED=$work/timed LD_PRELOAD=$work/reads.so"
lanes --watch
around=
read -r reads least mean < "$work/timed"
without=$(least_nanoseconds)
with=$(least_nanoseconds --watch)

script 2000 > "$work/input"
count
without_counted=$(of_lane)
count --watch
with_counted=$(of_lane)

echo "A read of $methods methods, of $reads that a watcher made while four lanes submitted 50,000 messages each; instructions of the last:"
echo
echo "| least ns | mean ns | instructions |"
echo "|---|---|---|"
echo "| $least | $mean | $(of_read) |"
echo
echo "What the lanes take without a watcher and with one, and what they lose by it, in a hundred:"
echo
echo "| of | without | with | lost |"
echo "|---|---|---|---|"
echo "| nanoseconds of the whole run | $without | $with | $(lost "$without" "$with") |"
echo "| instructions of a lane's thread | $without_counted | $with_counted | $(lost "$without_counted" "$with_counted") |"
