#!/bin/sh
# Lets other programs send to `oscd serve`, one after another, and prints what is printed of each, without the ticks.
#
#     bench/peers/run.sh
#
# It needs cc, liblo-dev, liblo-tools, python3-liblo, puredata-core, pd-osc, pd-mrpeach, port 9000, and what bin/oscd needs.
set -eu
here=$(cd "$(dirname "$0")" && pwd)
top=$(dirname "$(dirname "$here")")
work=$(mktemp -d)
trap 'rm -rf "$work"' EXIT
cc -O2 "$here/liblo_bundles.c" -o "$work/liblo_bundles" -llo
"$top/bin/oscd" lanes /dev/null < /dev/null > /dev/null # builds it
printf 'add %s\n' /1/fader1 /light/dim /cue/name /a /b > "$work/adds"
printf '/1/fader1 f 0.5\n/light/dim i 7\n' > "$work/messages"

# Serves over UDP until nothing came for two seconds, or over TCP until the connection is closed or its stream is broken.
heard() { # udp|tcp NAME COMMAND..
    over=$1
    name=$2
    shift 2
    flag=
    [ "$over" = udp ] || flag=--tcp
    "$top/crates/oscd/out/oscd" serve $flag --idle 40 "$work/recording" < "$work/adds" > "$work/out" &
    until grep -q ':2328 0*:0000 ' "/proc/net/$over"; do sleep 0.01; done
    echo
    echo "$name, $over:"
    "$@" 2> "$work/said" || true
    status=0
    wait $! || status=$?
    grep -v '^tick\|^add\|^enrol' "$work/out" || true
    echo "status $status"
}

pure_data() { # PATCH
    pd -nogui -noaudio -nomidi -path /usr/lib/pd/extra/osc "$here/$1"
}

heard udp oscsend sh "$here/oscsend.sh" osc.udp://127.0.0.1:9000
heard udp liblo "$work/liblo_bundles" osc.udp://127.0.0.1:9000
heard udp python3-liblo /usr/bin/python3 "$here/python_liblo.py" osc.udp://127.0.0.1:9000
heard udp "Pure Data" pure_data pure_data.pd
heard tcp oscsend sh "$here/oscsend.sh" osc.tcp://127.0.0.1:9000
heard tcp oscsendfile oscsendfile osc.tcp://127.0.0.1:9000 "$work/messages"
heard tcp liblo "$work/liblo_bundles" osc.tcp://127.0.0.1:9000
heard tcp "liblo, SLIP" "$work/liblo_bundles" osc.tcp://127.0.0.1:9000 slip
heard tcp python3-liblo /usr/bin/python3 "$here/python_liblo.py" osc.tcp://127.0.0.1:9000
heard tcp "Pure Data" pure_data pure_data_stream.pd
heard tcp "Pure Data, SLIP" pure_data pure_data_slip.pd
