# Whether docs/CALLS.md has each public call of the crates, by its name. Pages to copy, laws and tests are left out. Reads the
# sources first, then the page; see bin/quotes.

FNR == 1 {
    source = FILENAME ~ /\.rt$/
    owner = ""
    skipped = FILENAME ~ /crates\/(osc_uses|osc_tests_[a-z]+)\// || FILENAME ~ /\/laws\.rt$/
}

source && /^impl[ <]/ {
    owner = $0
    sub(/^impl */, "", owner)
    if (owner ~ / for /) sub(/^.* for /, "", owner)
    while (owner ~ /^</) sub(/^<[^>]*> */, "", owner)
    sub(/[^A-Za-z_0-9].*$/, "", owner)
}

source && /^}/ { owner = "" }

source && !skipped && match($0, /^ *pub (unsafe )?fn [a-z_0-9]+/) {
    name = substr($0, RSTART, RLENGTH)
    sub(/^.* /, "", name)
    where[name] = FILENAME ":" FNR
    full[name] = owner == "" ? name : owner "::" name
}

!source {
    while (match($0, /`[A-Za-z_:0-9]+`/)) {
        word = substr($0, RSTART + 1, RLENGTH - 2)
        sub(/^.*::/, "", word)
        known[word] = 1
        $0 = substr($0, RSTART + RLENGTH)
    }
}

END {
    for (name in where) if (!(name in known)) {
        print "bin/quotes: " where[name] ": docs/CALLS.md has no line for `" full[name] "`" > "/dev/stderr"
        failed = 1
    }
    exit failed
}
