# Whether the clauses that a page names are there. In "`Call` .. (`name`, and so `other`)" each name is a clause of a call that
# stands before it in its paragraph, or under "Of `Call`, ..:" of that one; where no call does, of any. Definitions and functions may
# stand there too, and the field of a record as "`field` of `Record`". Reads the sources and definitions first, then the pages; see bin/quotes.

function owner_of(line,   name) {
    name = line
    sub(/^ *(pub )?(impl|trait) */, "", name)
    if (line ~ / for /) sub(/^.* for /, "", name)
    while (name ~ /^</) sub(/^<[^>]*> */, "", name)
    sub(/[^A-Za-z_0-9].*$/, "", name)
    return name
}

function add(clause) {
    if (clause == "") return
    clauses[crate, clause] = clauses["", clause] = 1
    if (call != "") named[call, clause] = 1
    if (owner != "") named[owner, clause] = 1
    if (call != "" && owner != "") named[owner "::" call, clause] = 1
}

FNR == 1 {
    page = FILENAME
    source = FILENAME ~ /\.rt$/
    specs = FILENAME ~ /\.antt$/
    split(FILENAME, parts, "/")
    crate = parts[1] == "crates" && parts[3] == "src" ? parts[2] : ""
    owner = call = ""
    text = ""
}

specs {
    if (match($0, /^ *(abbrev |unfoldable |mutual )*(pub )?(record|data|abbrev|unfoldable) (pub )?[A-Za-z_0-9-]+/)) {
        word = substr($0, RSTART, RLENGTH)
        sub(/^.* /, "", word)
        defined[word] = 1
    }
    if ($0 ~ /^ *(pub )?record /) {
        owner = $0
        sub(/^ *(pub )?record (pub )?/, "", owner)
        sub(/[^A-Za-z_0-9].*$/, "", owner)
    }
    while (match($0, /pub [a-z_0-9]+ :/)) {
        word = substr($0, RSTART + 4, RLENGTH - 6)
        if (owner != "") named[owner, word] = 1
        $0 = substr($0, RSTART + RLENGTH)
    }
    next
}

source {
    if ($0 ~ /^(pub )?(impl|trait)[ <]/) owner = owner_of($0)
    if ($0 ~ /^}/) owner = ""
    if (match($0, /^(pub )?(struct|enum) [A-Za-z_]+/)) {
        owner = substr($0, RSTART, RLENGTH)
        sub(/^.* /, "", owner)
        call = ""
        calls[owner] = 1
    }
    if (match($0, /^ *(pub(\([a-z]+\))? )?(unsafe )?(extern "C" )?fn [a-z_0-9]+/)) {
        call = substr($0, RSTART, RLENGTH)
        sub(/^.* /, "", call)
        calls[call] = 1
        if (owner != "") calls[owner "::" call] = calls[owner] = 1
    }
    if (match($0, /^ *(ensures|requires) [a-z_0-9]+/)) {
        word = substr($0, RSTART, RLENGTH)
        sub(/^.* /, "", word)
        add(word)
    }
    if (match($0, /^ *(pub )?ghost [a-z_0-9]+:/)) {
        word = substr($0, RSTART, RLENGTH - 1)
        sub(/^.* /, "", word)
        add(word)
    }
    next
}

# a page: its paragraphs and its items, one after another
/^```/ { inside = !inside; check(); next }
inside { next }
/^ *$/ || /^ *- / || /^#/ || /^\|/ || /^[0-9]+\. / { check() }
{ text = text " " $0; line = FNR; file = FILENAME }
END { check(); exit failed }

# the words in backticks, and the parentheses that begin with a name, in their order
function check(   rest, word) {
    rest = text
    text = ""
    count_of_calls = 0
    if (match(rest, /^ *Of `[A-Za-z_:]+`, .*:$/)) { subject = rest; sub(/^ *Of `/, "", subject); sub(/`.*$/, "", subject) }
    if (rest ~ /^ *#/) subject = ""
    while (match(rest, /`[^`]*`|\(`[a-z_0-9]+`[^()]*\)/)) {
        word = substr(rest, RSTART, RLENGTH)
        rest = substr(rest, RSTART + RLENGTH)
        if (word ~ /^\(/) {
            while (match(word, /`[a-z_0-9]+`( of `[A-Za-z_:]+`)?/)) {
                judge(substr(word, RSTART, RLENGTH))
                word = substr(word, RSTART + RLENGTH)
            }
            continue
        }
        gsub(/[`]/, "", word)
        sub(/\(.*$/, "", word)
        sub(/^laws::/, "", word)
        if (word in calls) said[++count_of_calls] = word
    }
}

function judge(name,   of, all, i) {
    if (name ~ / of /) {
        of = name
        sub(/^.* of /, "", of)
        gsub(/[`]/, "", of)
        said[++count_of_calls] = of
        sub(/ of .*$/, "", name)
    }
    gsub(/[` ]/, "", name)
    if (name ~ /^osc/ || (subject, name) in named) return
    for (i = 1; i <= count_of_calls; i++) {
        if ((said[i], name) in named) return
        all = all " " said[i]
    }
    if (count_of_calls == 0 && (("", name) in clauses || name in calls || name in defined)) return
    if (name in calls || name in defined) return
    complain(name, count_of_calls == 0 ? "any call" : substr(all, 2))
}

function complain(name, of) {
    print "bin/quotes: " file ":" line ": `" name "` is no clause of " of > "/dev/stderr"
    failed = 1
}
