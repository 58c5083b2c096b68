#!/bin/sh
# Sends datagrams over loopback to `oscd serve`, to a liblo server and to a loop that only receives, one after another, and
# prints the table of README.md; with --tcp it sends packets over one connection of TCP, each after its size, to the first two.
#
#     bench/datagrams.sh [--tcp] [RATES [SECONDS [PORT]]]        as bench/datagrams.sh "10000 50000" 5 9000
#
# It needs cc, liblo-dev and time, and what bin/oscd and bin/osc need, and at least three processors that are idle.
set -eu
over=udp flag= names="bare liblo osc"
if [ "${1:-}" = --tcp ]; then
    names="liblo osc" over=tcp flag="--tcp --units 65536 --blocks 65536" # what a connection held back comes at once
    shift
fi
rates=${1:-10000 50000 100000}
seconds=${2:-5}
port=${3:-9000}
here=$(cd "$(dirname "$0")" && pwd)
top=$(dirname "$here")
work=$(mktemp -d)
trap 'rm -rf "$work"' EXIT

cc -O2 "$here/send_datagrams.c" -o "$work/send_datagrams"
cc -O2 "$here/lo_server.c" -o "$work/lo_server" -llo
cc -O2 "$here/bare_server.c" -o "$work/bare_server"
"$top/bin/osc" run < /dev/null > /dev/null # builds it
"$top/bin/oscd" lanes /dev/null < /dev/null > /dev/null
osc="$top/crates/osc/out/osc"
oscd="$top/crates/oscd/out/oscd"

awk 'BEGIN { for (k = 0; k < 1000; k++) printf "add /g%d/n%d\n", k / 100, k % 100 }' > "$work/adds"

# Ends once a program has bound the port, and over TCP listens to it.
await_port() {
    digits=$(printf ':%04X 0*:0000 ' "$port")
    until grep -q "$digits" "/proc/net/$over" "/proc/net/${over}6"; do sleep 0.01; done
}

# A server of the port, which ends after so many packets, or two seconds without one, or with the connection; its time goes
# to $work/time.
serve() { # NAME COUNT
    case $1 in
    bare) /usr/bin/time -f '%U %S' -o "$work/time" "$work/bare_server" "$port" "$2" > "$work/out" ;;
    liblo) /usr/bin/time -f '%U %S' -o "$work/time" "$work/lo_server" "$over" "$port" "$2" > "$work/out" ;;
    osc) /usr/bin/time -f '%U %S' -o "$work/time" "$oscd" serve $flag --port "$port" --count "$2" --idle 40 \
        --recording 1073741824 "$work/recording" < "$work/adds" > "$work/out" ;;
    esac
}

calls() { # NAME
    case $1 in
    bare | liblo) cat "$work/out" ;;
    osc) grep -c '^call ' "$work/out" ;;
    esac
}

# The packets that had no place among the units or the blocks.
refusals() { # NAME
    [ "$1" != osc ] && echo 0 && return
    grep -c '^submit [0-9]* [a-z]*-full ' "$work/out" || true
}

# The microseconds of processor time that the last run of a server took.
processor_time() {
    awk '{ printf "%d\n", ($1 + $2) * 1000000 }' "$work/time"
}

# The microseconds that printing the history from the recording takes, which oscd does at its end.
printing() { # NAME
    [ "$1" != osc ] && echo 0 && return
    /usr/bin/time -f '%U %S' -o "$work/time" "$osc" replay < "$work/recording" > "$work/out"
    processor_time
}

echo "Packets that were sent over $over at so many a second, for $seconds seconds, in three runs: how many were called and refused,"
echo "the milliseconds that sending took, and microseconds of processor time for each call, the least of the three:"
echo
echo "| a second | program | sent | called | refused | milliseconds | microseconds | with printing |"
echo "|---|---|---|---|---|---|---|---|"
for rate in $rates; do
    count=$((rate * seconds))
    for name in $names; do
        called= refused= sending= least= whole=
        for try in 1 2 3; do
            serve "$name" "$count" &
            await_port
            "$work/send_datagrams" "$over" "$port" 0 "$count" "$rate" > "$work/sent"
            wait
            got=$(calls "$name")
            refused="$refused $(refusals "$name")"
            took=$(processor_time)
            served=$((took - $(printing "$name")))
            called="$called $got" sending="$sending $(cut -d ' ' -f 1 "$work/sent")"
            least=$(awk -v a="$least" -v b="$served" -v n="$got" 'BEGIN { b /= n; print a == "" || b < a ? b : a }')
            whole=$(awk -v a="$whole" -v b="$took" -v n="$got" 'BEGIN { b /= n; print a == "" || b < a ? b : a }')
        done
        echo "| $rate | $name | $count |$called |$refused |$sending | $(printf %.2f "$least") | $(printf %.2f "$whole") |"
    done
done
