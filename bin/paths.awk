# Whether the files that a page names are there, and the sections of other pages. A name in backticks that ends like a
# file's is one, with or without the folders before it, on a crate's page a file of that crate; and so is a link's target.
# Reads the list of files first, then the pages; see bin/quotes.

function complain(what) {
    print "bin/quotes: " page ":" FNR ": " what > "/dev/stderr"
    failed = 1
}

function check_link(target,   folder, anchor) {
    if (target ~ /^https?:/) return
    if (target ~ /^#/) { links[page, substr(target, 2)] = FNR; return }
    anchor = target
    sub(/#.*$/, "", target)
    folder = page
    if (!sub(/\/[^\/]*$/, "/", folder)) folder = ""
    target = folder target
    while (sub(/[^\/]+\/\.\.\//, "", target)) ;
    sub(/\/$/, "", target)
    if (!(target in paths)) complain("links to " target ", which is not there")
}

FILENAME == "-" {
    path = $0
    while (path != "") {
        paths[path] = 1
        tail = path
        while (tail != "") {
            ends["", tail] = 1
            if (path ~ /^crates\//) { split(path, parts, "/"); ends[parts[2], tail] = 1 }
            if (!sub(/^[^\/]*\//, "", tail)) tail = ""
        }
        if (!sub(/\/[^\/]*$/, "", path)) path = ""
    }
    next
}
FNR == 1 {
    page = FILENAME
    inside = 0
    split(page, parts, "/")
    home = parts[1] == "crates" ? parts[2] : ""
}
/^```/ { inside = !inside; next }
inside { next }
/^#+ / || /^\*\*[^*]+\.\*\*/ {
    heading = $0
    sub(/^(#+ |\*\*)/, "", heading)
    sub(/\.\*\*.*$/, "", heading)
    gsub(/`/, "", heading)
    anchor = tolower(heading)
    gsub(/[^a-z0-9 _-]/, "", anchor)
    gsub(/ /, "-", anchor)
    headings[page, heading] = anchors[page, anchor] = 1
}
{
    rest = $0
    while (match(rest, /`[^`]*`/)) {
        word = substr(rest, RSTART + 1, RLENGTH - 2)
        rest = substr(rest, RSTART + RLENGTH)
        if (word !~ /^[A-Za-z0-9_.\/-]+\.(rt|antt|md|sh|awk|osc|edit|c|pd|py)$/ || word ~ /NAME/) continue
        if (!((word ~ /\// ? "" : home, word) in ends)) complain("`" word "` is no file" (home ? " of " home : ""))
    }
    rest = $0
    while (match(rest, /\]\([^)]*\)/)) {
        check_link(substr(rest, RSTART + 2, RLENGTH - 3))
        rest = substr(rest, RSTART + RLENGTH)
    }
    rest = joined " " $0
    joined = $0
    while (match(rest, /(docs\/[A-Z]+\.md|bench\/README\.md|README\.md)[,)]? \(?"[^"]+"/)) {
        named = substr(rest, RSTART, RLENGTH)
        rest = substr(rest, RSTART + RLENGTH)
        other = named
        sub(/\.md.*$/, ".md", other)
        sub(/^[^"]*"/, "", named)
        gsub(/["`]/, "", named)
        wanted[other, named] = page ":" FNR
    }
}
END {
    for (key in links) {
        split(key, pair, SUBSEP)
        if ((pair[1], pair[2]) in anchors) continue
        page = pair[1]
        FNR = links[key]
        complain("links to #" pair[2] ", which is no section")
    }
    for (key in wanted) {
        split(key, pair, SUBSEP)
        if ((pair[1], pair[2]) in headings) continue
        split(wanted[key], where, ":")
        page = where[1]
        FNR = where[2]
        complain(pair[1] " has no section \"" pair[2] "\"")
    }
    exit failed
}
