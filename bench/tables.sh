#!/bin/sh
# Counts what one more add, remove, timed bundle or release costs, by how many methods or units there are, and what a send
# costs in lanes, and prints the tables of README.md.
#
#     bench/tables.sh
#
# It needs what bench/run.sh needs.
set -eu
here=$(cd "$(dirname "$0")" && pwd)
top=$(dirname "$here")
work=$(mktemp -d)
trap 'rm -rf "$work"' EXIT

cc -O2 "$here/make_timed.c" -o "$work/make_timed"
cc -O2 "$here/lo_script.c" -o "$work/lo_script" -llo
cc -O2 "$here/make_script.c" -o "$work/make_script"
"$top/bin/osc" run < /dev/null > /dev/null # builds it
"$top/bin/oscd" lanes /dev/null < /dev/null > /dev/null
program="$top/crates/osc/out/osc"
lanes="$top/crates/oscd/out/oscd"

command_of() { # NAME
    case $1 in
    liblo) echo "$work/lo_script" ;;
    osc) echo "$program run --bytes" ;;
    run) echo "$program run" ;;
    lane) echo "$lanes lanes /dev/null" ;;
    esac
}

instructions() { # NAME SCRIPT
    valgrind --tool=callgrind --callgrind-out-file=/dev/null $(command_of "$1") < "$2" 2>&1 > "$work/out" |
        sed -n 's/.*Collected : //p'
}

# Adds of so many methods, in the order of a table of faders.
methods() { # COUNT
    awk -v count="$1" 'BEGIN { for (k = 0; k < count; k++) printf "add /g%d/n%d\n", k / 100, k % 100 }'
}

# Ten addresses more, beside those that stand.
others() { # WORD
    awk -v word="$1" 'BEGIN { for (k = 0; k < 10; k++) printf "%s /g%d/m%d\n", word, k, k }'
}

# What ten lines more cost, for each of them.
per_line() { # NAME SCRIPT LONGER
    echo $((($(instructions "$1" "$3") - $(instructions "$1" "$2")) / 10))
}

echo "Instructions for one more add and remove, where so many methods stand:"
echo
echo "| event | program | 10 | 100 | 1,000 |"
echo "|---|---|---|---|---|"
for event in add remove; do
    for name in liblo osc; do
        row="| $event | $name |"
        for count in 10 100 1000; do
            methods "$count" > "$work/few"
            { cat "$work/few"; others add; } > "$work/more"
            { cat "$work/more"; others remove; } > "$work/less"
            if [ "$event" = add ]; then cost=$(per_line "$name" "$work/few" "$work/more"); else
                cost=$(per_line "$name" "$work/more" "$work/less")
            fi
            row="$row $cost |"
        done
        echo "$row"
    done
done
echo
echo "Instructions for one more timed bundle, where so many wait, and for its release, of those that wait:"
echo
echo "| order | event | program | 10 | 100 | 1,000 | 4,000 |"
echo "|---|---|---|---|---|---|---|"
for order in falling rising mixed; do
    for event in send release; do
        for name in liblo osc; do
            [ "$event-$name" = release-liblo ] && continue
            row="| $order | $event | $name |"
            for count in 10 100 1000 4000; do
                "$work/make_timed" "$order" "$count" > "$work/whole"
                head -n "$count" "$work/whole" > "$work/sends"
                head -n "$((count - count / 10))" "$work/sends" > "$work/fewer"
                head -n "$((count + 1))" "$work/whole" > "$work/ticked"
                if [ "$event" = send ]; then
                    cost=$((($(instructions "$name" "$work/sends") - $(instructions "$name" "$work/fewer")) / (count / 10)))
                else
                    cost=$((($(instructions "$name" "$work/whole") - $(instructions "$name" "$work/ticked")) / count))
                fi
                row="$row $cost |"
            done
            echo "$row"
        done
    done
done

# A script of one lane.
one_lane() { # SCRIPT
    sed 's/^/0 /' "$1"
}

echo
echo "Instructions for one more send of one int to a plain address, of 2,000 beside 1,000 methods: a script, and the same"
echo "as one lane. Both record it and print it from the recording:"
echo
echo "| osc run | oscd lanes |"
echo "|---|---|"
"$work/make_script" 0 2000 > "$work/long"
"$work/make_script" 0 1000 > "$work/short"
one_lane "$work/long" > "$work/long-lane"
one_lane "$work/short" > "$work/short-lane"
echo "| $((($(instructions run "$work/long") - $(instructions run "$work/short")) / 1000)) | $((($(instructions lane "$work/long-lane") - $(instructions lane "$work/short-lane")) / 1000)) |"

# So many lanes that submit 100,000 messages in all, and each pump after a hundred.
submitters() { # LANES
    awk -v lanes="$1" 'BEGIN {
        print "0 add /a"
        for (k = 0; k < 100000 / lanes; k++) for (lane = 0; lane < lanes; lane++) {
            print lane, "send 2f620000"
            if (k % 100 == 99) print lane, "pump"
        }
    }'
}

least_nanoseconds() { # COMMAND.. with its input in $work/input
    least=
    for try in 1 2 3 4 5; do
        begin=$(date +%s%N)
        "$@" < "$work/input" > "$work/out"
        took=$(($(date +%s%N) - begin))
        if [ -z "$least" ] || [ "$took" -lt "$least" ]; then least=$took; fi
    done
    echo "$least"
}

echo
echo "Answered submits a second, of 100,000, where so many lanes submit: by the time of oscd without that of a replay:"
echo
echo "| 1 | 2 | 4 | 16 |"
echo "|---|---|---|---|"
row="|"
for count in 1 2 4 16; do
    submitters "$count" > "$work/script"
    cp "$work/script" "$work/input"
    whole=$(least_nanoseconds "$lanes" lanes "$work/recording")
    cp "$work/recording" "$work/input"
    replay=$(least_nanoseconds "$program" replay)
    row="$row $((100000 * 1000000000 / (whole - replay))) |"
done
echo "$row"
