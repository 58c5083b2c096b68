# Reads files of rows and writes a sh script that lays each row out in a folder of its own: see tests/rows/README.md for the lines,
# and bin/rows, which has the calls that the script makes.

BEGIN {
    for (i = 1; i < 256; i++) code[sprintf("%c", i)] = i
    for (i = 0; i < 16; i++) value[substr("0123456789abcdef", i + 1, 1)] = i
}

function wrong(why) {
    print FILENAME ":" FNR ": " why >"/dev/stderr"
    broken = 1
    exit 2
}

# A format of printf that prints this text, and nothing that a shell reads.
function octal(text,   i, c, done) {
    if (text ~ /^[A-Za-z0-9 \/,.:_-]*$/) return text
    for (i = 1; i <= length(text); i++) {
        c = substr(text, i, 1)
        done = done (c ~ /[A-Za-z0-9 \/,.:_-]/ ? c : sprintf("\\%03o", code[c]))
    }
    return done
}

# Adds bytes that are written as digits: a word N*DIGITS stands for the digits N times.
function bytes(file, text,   i, k, count, words, digits, format, at) {
    count = split(tolower(text), words, " ")
    for (i = 1; i <= count; i++) {
        at = index(words[i], "*")
        digits = substr(words[i], at + 1)
        if (digits !~ /^[0-9a-f]*$/ || length(digits) % 2) wrong("no bytes: " words[i])
        format = ""
        for (k = 1; k < length(digits); k += 2)
            format = format sprintf("\\%03o", 16 * value[substr(digits, k, 1)] + value[substr(digits, k + 1, 1)])
        if (at) many(file, substr(words[i], 1, at - 1), format)
        else print "put " file " '" format "'"
    }
}

function many(file, count, format) {
    if (count !~ /^[0-9]+$/) wrong("no number of times: " count)
    print "many " file " " count " '" format "'"
}

# Adds to a file of the row what one line says, where `how` is the byte after the mark.
function put(file, how, text,   at) {
    if (how == "" || how == " ") print "put " file " '" octal(text) "\\012'"
    else if (how == "~") print "put " file " '" octal(text) "'"
    else if (how == "x") bytes(file, text)
    else if (how == "-") print "whole " file " '" text "'"
    else if (how == "*" && (at = index(text, " "))) many(file, substr(text, 1, at - 1), octal(substr(text, at + 1)))
    else wrong("no line of a row: " $0)
}

# The same where a file's name stands between the mark and the rest.
function named(mark,   rest, name) {
    name = $2
    rest = substr($0, length(name) + 4)
    if (name !~ /^[A-Za-z0-9._-]+$/) wrong("no name of a file: " name)
    put((mark == "file" ? "at/" : "after/") name, substr(rest, 1, 1) == ":" ? "" : substr(rest, 1, 1), substr(rest, 3))
}

/\r$/ { wrong("a carriage return: write it as <x 0d0a") }
/^$/ { inside = 0; next }
/^#/ { next }
/^\$ / {
    name = FILENAME
    sub(/.*\//, "", name)
    if (!inside) print "row '" name ":" FNR "'"
    inside = 1
    if ($0 ~ /'/) wrong("a quote in the words")
    print "step '" substr($0, 3) "'"
    next
}
/^@ / && !inside { wrong("a file before the command that is given it") }
!inside { wrong("a line before a command") }
/^@ / { named("file"); next }
/^= / { named("after"); next }
/^>> / { print "into '" substr($0, 4) "'"; next }
/^\? [0-9]+$/ { print "status " $2; next }
/^<!$/ || /^>!$/ { print "fails " ($0 == "<!" ? "in" : "out"); next }
/^[<>!]/ {
    mark = substr($0, 1, 1)
    how = substr($0, 2, 1)
    put("$step." (mark == "<" ? "in" : mark == ">" ? "out" : "err"), how, substr($0, how ~ /[x~*-]/ ? 4 : 3))
    next
}
{ wrong("no line of a row: " $0) }

