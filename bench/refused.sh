#!/bin/sh
# Refuses each allocation of a run in turn, one a run, and looks how the run ends: with status 3, or as it ends where nothing is
# refused. Any other end fails.
#
#     bench/refused.sh
#
# The runs are those of `osc` and `oscd` below, so both top calls, and with them Core::open, Live::open and Live::close. It needs
# awk, a C compiler and what bin/osc needs. An allocation is a call of malloc or its like, the system's own among them.
set -eu
top=$(cd "$(dirname "$0")/.." && pwd)
work=$(mktemp -d)
trap 'rm -rf "$work"' EXIT
for program in osc oscd; do
    [ -x "$top/crates/$program/out/$program" ] || "$top/bin/$program" < /dev/null > /dev/null || true # builds it
done
cc -O2 -Wall -shared -fPIC -o "$work/refuse.so" "$top/bench/refuse.c"

# Runs the words with an allocation refused: REFUSED PROGRAM WORDS. The last word `rec` is a file of the work folder.
run() {
    refused=$1
    program=$2
    shift 2
    rm -f "$work/rec"
    status=0
    (cd "$work" && timeout 60 env REFUSE="$refused" COUNTED="$work/counted" LD_PRELOAD="$work/refuse.so" \
        "$top/crates/$program/out/$program" "$@" < "$work/input" > "$work/out" 2> "$work/errors") || status=$?
}

# What a run gave: its text, or where threads print in any order, whether its recording prints the same.
right() {
    case $1 in
    osc) cmp -s "$work/out" "$work/wanted" ;;
    *) "$top/crates/osc/out/osc" replay < "$work/rec" > "$work/printed" && cmp -s "$work/out" "$work/printed" ;;
    esac
}

failed=0
try() { # NAME PROGRAM WORDS
    name=$1
    shift
    run 0 "$@"
    wanted=$status
    cp "$work/out" "$work/wanted"
    count=$(cat "$work/counted")
    threes=0
    rights=0
    at=1
    while [ "$at" -le "$count" ]; do
        run "$at" "$@"
        if [ "$status" = 3 ]; then
            threes=$((threes + 1))
        elif [ "$status" = "$wanted" ] && right "$1"; then
            rights=$((rights + 1))
        else
            echo "bench/refused.sh: $name, allocation $at refused: status $status" >&2
            failed=1
        fi
        at=$((at + 1))
    done
    echo "| $name | $count | $threes | $rights |"
}

echo "| run | allocations | status 3 | as without a refusal |"
echo "|---|---|---|---|"
cp "$top/examples/first-light.osc" "$work/input"
try 'osc run' osc run
try 'osc run --bytes' osc run --bytes
run 0 osc run --bytes
cp "$work/out" "$work/recording"
try 'osc gen' osc gen --lines 64
cp "$work/recording" "$work/input"
try 'osc replay' osc replay
try 'osc dump' osc dump
cp "$top/examples/four-lanes.osc" "$work/input"
try 'oscd lanes' oscd lanes rec
run 0 oscd lanes old
cp "$top/examples/encore.osc" "$work/input"
try 'oscd resume' oscd resume old rec
cp "$top/examples/stage.osc" "$work/input"
try 'oscd serve' oscd serve --port 9471 --idle 1 rec
exit "$failed"
