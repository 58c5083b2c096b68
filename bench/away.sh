#!/bin/sh
# Sends 100,000 datagrams a second over loopback to a loop that only receives, to `oscd serve`, and to `oscd serve` whose ticker never
# gives its processor up, and prints of each how many were lost, and how long its receiving thread was in its calls and away from
# them, and its ticker at work between two sleeps.
#
#     bench/away.sh [SECONDS [PORT]]
#
# It needs what bench/datagrams.sh needs, but for liblo.
set -eu
seconds=${1:-2}
port=${2:-9000}
here=$(cd "$(dirname "$0")" && pwd)
top=$(dirname "$here")
work=$(mktemp -d)
trap 'rm -rf "$work"' EXIT

cc -O2 "$here/send_datagrams.c" -o "$work/send_datagrams"
cc -O2 "$here/bare_server.c" -o "$work/bare_server"
cc -O2 -shared -fPIC "$here/away.c" -o "$work/away.so"
"$top/bin/oscd" lanes /dev/null < /dev/null > /dev/null # builds it
oscd=${OSCD:-$top/crates/oscd/out/oscd}
count=$((100000 * seconds))
awk 'BEGIN { for (k = 0; k < 1000; k++) printf "add /g%d/n%d\n", k / 100, k % 100 }' > "$work/adds"

serve() { # NAME
    export LD_PRELOAD="$work/away.so" AWAY="$work/times"
    case $1 in
    loop) exec "$work/bare_server" "$port" "$count" ;;
    'without yields') export NOYIELD=1 ;;
    esac
    exec "$oscd" serve --port "$port" --count "$count" --idle 40 --recording 1073741824 "$work/recording" < "$work/adds"
}

called() { # NAME
    if [ "$1" = loop ]; then cat "$work/out"; else grep -c '^call ' "$work/out"; fi
}

echo "| program | lost | sender's longest delay | thread | below 100 microseconds | 500 | 1,000 | 2,000 | 3,000 | 10,000 | longer | longest |"
echo "|---|---|---|---|---|---|---|---|---|---|---|---|"
for name in loop osc 'without yields'; do
    for try in 1 2 3; do
        serve "$name" > "$work/out" &
        digits=$(printf ':%04X 0*:0000 ' "$port")
        until grep -q "$digits" /proc/net/udp /proc/net/udp6; do sleep 0.01; done
        "$work/send_datagrams" udp "$port" 0 "$count" 100000 > "$work/sent"
        wait
        row="| $name | $((count - $(called "$name"))) | $(cut -d ' ' -f 3 "$work/sent")"
        while read -r thread numbers; do
            [ "$name-$thread" = loop-working ] || echo "$row | $thread |$(printf ' %s |' $numbers)"
        done < "$work/times"
    done
done
