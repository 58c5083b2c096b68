#!/bin/sh
# Plays the same scripts on osc and on a program over liblo, one after another, and prints the tables of README.md.
#
#     bench/run.sh [KINDS [LENGTHS]]        as bench/run.sh "0 2" "10 100"; all of them by default
#     bench/run.sh methods [KINDS [COUNTS]] by how many methods stand; as bench/run.sh methods "0 2" "10 1000"
#     bench/run.sh datagrams [..]           datagrams over loopback, or with --tcp a stream: datagrams.sh
#     bench/run.sh watch                    a watcher beside lanes: watch.sh
#     bench/run.sh library [..]             a message through the library for C, next to liblo: library.sh
#     bench/run.sh patterns [COUNT]         a message by its pattern, next to liblo: patterns.sh
#
# It needs cc, liblo-dev, valgrind and time, and what bin/osc needs.
set -eu
if [ "${1:-}" = datagrams ]; then
    shift
    exec "$(dirname "$0")/datagrams.sh" "$@"
fi
[ "${1:-}" != watch ] || exec "$(dirname "$0")/watch.sh"
if [ "${1:-}" = library ]; then
    shift
    exec "$(dirname "$0")/library.sh" "$@"
fi
if [ "${1:-}" = patterns ]; then
    shift
    exec "$(dirname "$0")/patterns.sh" "$@"
fi
table=lengths
if [ "${1:-}" = methods ]; then
    table=methods
    shift
    kinds=${1:-0 2 3}
    counts=${2:-1 10 100 1000 8000}
else
    kinds=${1:-0 1 2 3 4}
    lengths=${2:-10 100 1000 10000}
fi
here=$(cd "$(dirname "$0")" && pwd)
top=$(dirname "$here")
work=$(mktemp -d)
trap 'rm -rf "$work"' EXIT

cc -O2 "$here/make_script.c" -o "$work/make_script"
cc -O2 "$here/lo_script.c" -o "$work/lo_script" -llo
"$top/bin/osc" run < /dev/null > /dev/null # builds it
program="$top/crates/osc/out/osc"

script() { # KIND COUNT [METHODS]
    [ -f "$work/$1-$2-${3:-1000}.osc" ] || "$work/make_script" "$1" "$2" "${3:-1000}" > "$work/$1-$2-${3:-1000}.osc"
    echo "$work/$1-$2-${3:-1000}.osc"
}

# The options with which so many methods have room.
room() { # METHODS
    [ "$1" -le 1000 ] || echo "--methods $1 --nodes $((2 * $1))"
}

play() { # NAME SCRIPT
    case $1 in
    liblo) "$work/lo_script" < "$2" ;;
    osc) "$program" run < "$2" ;;
    bytes) "$program" run --bytes < "$2" ;;
    esac > "$work/out"
}

command_of() { # NAME [METHODS]
    case $1 in
    liblo) echo "$work/lo_script" ;;
    osc) echo "$program run $(room "${2:-1000}")" ;;
    bytes) echo "$program run --bytes $(room "${2:-1000}")" ;;
    esac
}

instructions() { # NAME SCRIPT [METHODS]
    valgrind --tool=callgrind --callgrind-out-file=/dev/null $(command_of "$1" "${3:-1000}") < "$2" 2>&1 > "$work/out" |
        sed -n 's/.*Collected : //p'
}

# The instructions that one more send costs in a script of this length: those of the whole script without those of its
# first half, over as many sends.
instructions_per_send() { # NAME KIND COUNT [METHODS]
    whole=$(instructions "$1" "$(script "$2" "$3" "${4:-1000}")" "${4:-1000}")
    half=$(instructions "$1" "$(script "$2" $(($3 / 2)) "${4:-1000}")" "${4:-1000}")
    echo $(((whole - half) / ($3 - $3 / 2)))
}

row_name() { # NAME
    case $1 in
    bytes) echo 'osc --bytes' ;;
    *) echo "$1" ;;
    esac
}

least_nanoseconds() { # NAME SCRIPT
    least=
    for try in 1 2 3 4 5; do
        begin=$(date +%s%N)
        play "$1" "$2"
        took=$(($(date +%s%N) - begin))
        if [ -z "$least" ] || [ "$took" -lt "$least" ]; then least=$took; fi
    done
    echo "$least"
}

nanoseconds_per_send() { # NAME KIND
    long=$(least_nanoseconds "$1" "$(script "$2" 10000)")
    short=$(least_nanoseconds "$1" "$(script "$2" 1000)")
    echo $(((long - short) / 9000))
}

peak_kilobytes() { # NAME SCRIPT
    /usr/bin/time -f %M -o "$work/peak" $(command_of "$1") < "$2" > "$work/out"
    cat "$work/peak"
}

if [ "$table" = methods ]; then
    echo "Instructions per send, of 1,000, where so many methods stand:"
    echo
    echo "| kind | program |$(printf ' %s |' $counts)"
    echo "|---|---|$(printf -- '---|%.0s' $counts)"
    for kind in $kinds; do
        for name in liblo osc bytes; do
            row="| $kind | $(row_name "$name") |"
            for count in $counts; do row="$row $(instructions_per_send "$name" "$kind" 1000 "$count") |"; done
            echo "$row"
        done
    done
    exit
fi

echo "Instructions per send, in scripts of so many sends:"
echo
echo "| kind | program |$(printf ' %s |' $lengths)"
echo "|---|---|$(printf -- '---|%.0s' $lengths)"
for kind in $kinds; do
    for name in liblo osc bytes; do
        row="| $kind | $(row_name "$name") |"
        for length in $lengths; do row="$row $(instructions_per_send "$name" "$kind" "$length") |"; done
        echo "$row"
    done
done
echo
echo "Nanoseconds per send, and the peak of memory in KiB for 10,000 sends beside the sizes of script and output:"
echo
echo "| kind | program | ns | peak KiB | script KiB | output KiB |"
echo "|---|---|---|---|---|---|"
for kind in $kinds; do
    for name in liblo osc; do
        longest=$(script "$kind" 10000)
        nanoseconds=$(nanoseconds_per_send "$name" "$kind")
        peak=$(peak_kilobytes "$name" "$longest")
        echo "| $kind | $name | $nanoseconds | $peak | $(($(wc -c < "$longest") / 1024)) | $(($(wc -c < "$work/out") / 1024)) |"
    done
done
