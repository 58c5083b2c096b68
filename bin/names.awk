# Whether the names that a page has in backticks are there: of calls, types, definitions, lemmas, files or crates. Reads the list of
# files first, then the sources, definitions and proofs, then the pages; see bin/quotes.

FILENAME == "-" {
    count = split($0, parts, "/")
    for (i = 1; i <= count; i++) {
        name = parts[i]
        sub(/\..*$/, "", name)
        known[name] = 1
    }
    next
}
FILENAME !~ /\.md$/ {
    gsub(/[^A-Za-z_0-9]+/, " ")
    count = split($0, words, " ")
    for (i = 1; i <= count; i++) known[words[i]] = 1
    next
}
FNR == 1 { inside = 0 }
/^```/ { inside = !inside; next }
inside { next }
{
    rest = $0
    while (match(rest, /`[^`]*`/)) {
        word = substr(rest, RSTART + 1, RLENGTH - 2)
        rest = substr(rest, RSTART + RLENGTH)
        if (word !~ /^[A-Za-z_][A-Za-z_0-9]*(::[A-Za-z_0-9]+)*$/ || word ~ /_$/) continue
        count = split(word, words, "::")
        for (i = 1; i <= count; i++) if (!(words[i] in known)) {
            print "bin/quotes: " FILENAME ":" FNR ": `" word "` is no name" > "/dev/stderr"
            failed = 1
        }
    }
}
END { exit failed }
