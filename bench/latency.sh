#!/bin/sh
# How long a call takes through oscstage, next to a forwarder over liblo, on loopback, in alternation:
#
#     bench/latency.sh [ROUNDS [COUNT]]
#
# Each round sends COUNT messages, one each 10 milliseconds, through oscstage and then through the forwarder; COUNT bundles 100
# milliseconds ahead through oscstage; and COUNT messages with nothing between, after a sleep of 8 milliseconds: what the
# machine itself does. Then ten chords of 100 messages, 8,000 messages at 2,000 a second, and a minute of silence. It needs cc,
# liblo-dev and what bin/oscstage needs.
set -eu
rounds=${1:-3}
count=${2:-1000}
here=$(cd "$(dirname "$0")" && pwd)
work=$(mktemp -d)
stage= other=
trap 'kill $stage $other 2>/dev/null || :; rm -rf "$work"' EXIT
for program in latency chord; do cc -O2 -o "$work/$program" "$here/$program.c" -lpthread; done
cc -O2 -o "$work/forward" "$here/forward.c" -llo
"$here/../bin/oscstage" --help >/dev/null # builds it
echo 'add /light/dim 127.0.0.1 7771' >"$work/patch.osc"
"$here/../crates/oscstage/out/oscstage" serve --port 7700 "$work/patch.osc" "$work/show.rec" </dev/null >"$work/shown" &
stage=$!
"$work/forward" 7701 /light/dim 127.0.0.1 7771 &
other=$!
sleep 1
for round in $(seq "$rounds"); do
    echo "round $round"
    echo "  oscstage     $("$work/latency" 7700 7771 "$count" 10000 0)"
    echo "  forwarder    $("$work/latency" 7701 7771 "$count" 10000 0)"
    echo "  after a tag  $("$work/latency" 7700 7771 "$count" 10000 100000)"
    echo "  bare sleep   $("$work/latency" 0 7771 "$count" 10000 -8000)"
done
echo "chords of 100:"
"$work/chord" 7700 7771 100 10
echo "2,000 a second: $("$work/latency" 7700 7771 8000 500 0)"
processor() { awk '{ print $14 + $15 }' "/proc/$stage/stat"; }
ticks=$(processor) size=$(wc -c <"$work/show.rec")
sleep 60
echo "a minute of silence: $(($(processor) - ticks)) hundredths of a second of processor, $(($(wc -c <"$work/show.rec") - size)) bytes"
