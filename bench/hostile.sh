#!/bin/sh
# Sends messages whose patterns are long or ambiguous to 1,000 methods, and prints how many instructions each takes.
#
#     bench/hostile.sh
#
# The methods have names of 63 letters below the root, which is called wide, or stand in ten groups, which is called deep.
# There the pattern's part stands after `/*`. It needs awk, valgrind and what bin/osc needs.
set -eu
top=$(cd "$(dirname "$0")/.." && pwd)
work=$(mktemp -d)
trap 'rm -rf "$work"' EXIT
"$top/bin/osc" run < /dev/null > /dev/null # builds it
program="$top/crates/osc/out/osc"

methods() { # LAYOUT
    awk -v layout="$1" 'BEGIN {
        for (k = 0; k < 60; k++) letters = letters "a"
        for (k = 0; k < 1000; k++)
            if (layout == "wide") printf "add /%s%03d\n", letters, k
            else printf "add /g%d/n%d\n", k / 100, k % 100
    }'
}

# A front, a piece so many times, and an end; `-` stands for nothing. The piece `TEXT,` is another text each time, and `{X,}`
# is `{a,}` or `{b,}` by how many ones its number has in binary (Thue and Morse): nothing stands three times in a row.
part() { # FRONT PIECE COUNT END
    awk -v front="$1" -v piece="$2" -v count="$3" -v end="$4" 'BEGIN {
        letters = "abcdefghijklmnopqrstuvwxyzABCDEFGHIJKLMNOPQRSTUVWXYZ"
        if (front != "-") printf "%s", front
        for (k = 0; k < count; k++)
            if (piece == "TEXT,")
                printf "%s%s%s,", substr(letters, int(k / 2704) + 1, 1), substr(letters, int(k / 52) % 52 + 1, 1), substr(letters, k % 52 + 1, 1)
            else if (piece == "{X,}") {
                ones = 0
                for (left = k; left > 0; left = int(left / 2)) ones += left % 2
                printf "{%s,}", substr(letters, ones % 2 + 1, 1)
            } else printf "%s", piece
        if (end != "-") printf "%s", end
    }'
}

# The hexadecimal digits of a message with the pattern that stands in a file, without arguments.
message() { # FILE
    od -An -v -tx1 < "$1" | tr -d ' \n'
    size=$(wc -c < "$1")
    for zero in $(seq $((4 - size % 4))); do printf 00; done
}

# The digits of a bundle for the clock's moment with the message so many times.
bundle() { # DIGITS COUNT
    printf '2362756e646c65000000000000000001'
    for k in $(seq "$2"); do printf '%08x%s' $((${#1} / 2)) "$1"; done
}

instructions() { # SCRIPT
    valgrind --tool=callgrind --callgrind-out-file=/dev/null "$program" run --bytes < "$1" 2>&1 > "$work/out" |
        sed -n 's/.*Collected : //p'
}

script() { # LAYOUT DIGITS
    methods "$1"
    if [ -n "$2" ]; then echo "send $2"; fi
    echo pump
}

for layout in wide deep; do
    script $layout '' > "$work/script"
    instructions "$work/script" > "$work/none.$layout"
done

# What a send takes: the script with it less the script without it.
send() { # LAYOUT DIGITS
    script "$1" "$2" > "$work/script"
    echo $(($(instructions "$work/script") - $(cat "$work/none.$1")))
}

echo "| part | bytes | wide | deep |"
echo "|---|---|---|---|"
while read -r front piece count end; do
    part "$front" "$piece" "$count" "$end" > "$work/part"
    (printf / && cat "$work/part") > "$work/wide"
    (printf '/*/' && cat "$work/part") > "$work/deep"
    told=
    if [ "$front" != - ]; then told="\`$front\`, "; fi
    told="$told$count times \`$piece\`"
    if [ "$end" != - ]; then told="$told, \`$end\`"; fi
    wide=$(send wide "$(message "$work/wide")")
    deep=$(send deep "$(message "$work/deep")")
    echo "| $told | $(wc -c < "$work/part") | $wide | $deep |"
done <<'PARTS'
- * 64990 b
- ?* 32490 -
- *a 32490 -
- [!b]* 12990 -
- {a,aa} 10830 b
- {} 32490 b
- *{} 21660 b
- [!bcdefghijklmnopqrstuvwxyz]* 63 -
{ , 64980 }b
- {a,} 16240 b
- {X,} 16240 b
- {,a}{,b} 8120 c
*{ a, 32490 a}
*{ TEXT, 16200 b}
*[ b 64980 ]
*[ b-c 21660 ]
[ b 64980 ]
* / 64980 -
*/ * 64980 a
- a 64990 -
PARTS

# The digits of a bundle of so many messages, each with a text of three letters of its own between a front and an end.
others() { # FRONT END COUNT
    awk -v front="$1" -v end="$2" -v count="$3" 'BEGIN {
        for (k = 32; k < 127; k++) code[sprintf("%c", k)] = sprintf("%02x", k)
        letters = "abcdefghijklmnopqrstuvwxyzABCDEFGHIJKLMNOPQRSTUVWXYZ"
        printf "2362756e646c65000000000000000001"
        for (k = 0; k < count; k++) {
            text = front substr(letters, int(k / 2704) + 1, 1) substr(letters, int(k / 52) % 52 + 1, 1) substr(letters, k % 52 + 1, 1) end
            size = length(text) + 4 - length(text) % 4
            printf "%08x", size
            for (at = 1; at <= size; at++) printf "%s", at <= length(text) ? code[substr(text, at, 1)] : "00"
        }
    }'
}

printf '/*/x' > "$work/star"
for layout in wide deep; do
    echo "$layout: a bundle of 5,457 messages /*/x takes $(send $layout "$(bundle "$(message "$work/star")" 5457)")"
    echo "$layout: one of 5,457 messages /*TEXT takes $(send $layout "$(others '/*' '' 5457)")"
    echo "$layout: one of 5,457 messages /*TEXT? takes $(send $layout "$(others '/*' '?' 5457)")"
done
