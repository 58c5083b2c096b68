# The definitions that a call's contract reaches, in reading order: first those that it names, then those that these name. Called
# by bin/believe, with the definitions of all crates and then the source of the call. Those that `without` names are left out, with
# what they alone reach.

function keep_paragraph(   head, name, line, count, lines, i) {
    if (paragraph == "") return
    if (match(paragraph, /(^|\n) *(abbrev pub|unfoldable pub|pub record|pub data) +[A-Za-z_0-9'-]+/)) {
        head = substr(paragraph, RSTART, RLENGTH)
        name = head
        sub(/^.* /, "", name)
        key = module SUBSEP name
        text[key] = paragraph
        size[key] = height
        place[key] = file ":" first
        shown[key] = name
        if (head ~ /data/) {
            count = split(paragraph, lines, "\n")
            for (i = 1; i <= count; i++) if (match(lines[i], /^ +[a-z_0-9]+ :/)) {
                line = lines[i]
                gsub(/^ +| :.*$/, "", line)
                type_of[module, line] = key
            }
        }
    }
    paragraph = ""
    height = 0
}

# use Rattle.crate.specs.File.{names}, or .. as name
function import(where, line,   path, names, count, list, i, pair, last) {
    sub(/^ *(ghost )?use /, "", line)
    sub(/;.*$/, "", line)
    path = line
    if (line ~ /\{/) {
        sub(/\.\{.*$/, "", path)
        names = line
        sub(/^[^{]*\{/, "", names)
        sub(/\}.*$/, "", names)
        count = split(names, list, /, */)
        for (i = 1; i <= count; i++) {
            gsub(/^ +| +$/, "", list[i])
            if (split(list[i], pair, / as /) == 2) imported[where, pair[2]] = path SUBSEP pair[1]
            else imported[where, list[i]] = path SUBSEP list[i]
        }
        return
    }
    last = path
    if (line ~ / as /) { sub(/ as .*$/, "", path); sub(/^.* as /, "", last) }
    else sub(/^.*\./, "", last)
    alias[where, last] = path
}

function module_of(path,   parts) {
    sub(/^Rattle\./, "", path)
    split(path, parts, ".")
    return parts[2] == "specs" ? parts[1] "." parts[3] : ""
}

# the definition that a word names in a module, if it names one
function resolve(where, word,   parts, count, pair, key) {
    count = split(word, parts, ".")
    if (count > 1 && (where, parts[1]) in alias) key = module_of(alias[where, parts[1]]) SUBSEP parts[2]
    else if ((where, parts[1]) in imported) {
        split(imported[where, parts[1]], pair, SUBSEP)
        key = module_of(pair[1]) SUBSEP pair[2]
    } else key = where SUBSEP parts[1]
    if (key in type_of) key = type_of[key]
    return key in text ? key : ""
}

# Notes the words that a text binds, as parameters of its equations and after a lambda: none of them names a constructor there.
function bind(body,   lines, count, i, rest, names, many, k) {
    split("", bound)
    count = split(body, lines, "\n")
    for (i = 1; i <= count; i++) {
        rest = lines[i]
        if (match(rest, /^ *[A-Za-z_][A-Za-z_0-9'-]*( +[a-z_][A-Za-z_0-9'-]*)+ =/)) {
            many = split(substr(rest, RSTART, RLENGTH - 2), names, / +/)
            for (k = 2; k <= many; k++) bound[names[k]] = 1
        }
        while (match(rest, /λ [a-z_][a-z_0-9' -]*\./)) {
            many = split(substr(rest, RSTART, RLENGTH - 1), names, / +/)
            for (k = 2; k <= many; k++) bound[names[k]] = 1
            rest = substr(rest, RSTART + RLENGTH)
        }
    }
}

# Puts the definitions that a text names after those that are there.
function visit(where, body,   lines, count, i, rest, key, word) {
    bind(body)
    count = split(body, lines, "\n")
    for (i = 1; i <= count; i++) {
        rest = lines[i]
        sub(/(--|\/\/).*$/, "", rest)
        while (match(rest, /[A-Za-z_][A-Za-z_0-9'-]*(\.[A-Za-z_][A-Za-z_0-9'-]*)*/)) {
            word = substr(rest, RSTART, RLENGTH)
            key = word in bound && (where, word) in type_of ? "" : resolve(where, word)
            rest = substr(rest, RSTART + RLENGTH)
            if (key != "" && !(key in seen) && !(shown[key] in left_out)) { seen[key] = 1; order[++last] = key }
        }
    }
}

BEGIN {
    count = split(without, names, " ")
    for (i = 1; i <= count; i++) left_out[names[i]] = 1
}

FNR == 1 {
    keep_paragraph()
    file = FILENAME
    split(FILENAME, parts, "/")
    module = parts[2] "." parts[4]
    sub(/\.antt$|\.rt$/, "", module)
    source = FILENAME ~ /\.rt$/
    if (source) module = module ".rt"
    joined = ""
}

# an import over several lines is one line
joined != "" { joined = joined " " $0; if ($0 ~ /\}/) { import(module, joined); joined = "" } next }
/^ *(ghost )?use Rattle/ {
    if ($0 ~ /\{/ && $0 !~ /\}/) joined = $0
    else import(module, $0)
    next
}
source {
    if ($0 ~ "^pub fn " call "[<(]") inside = 1
    if (inside && $0 ~ /^\{/) inside = 0
    if (inside) contract = contract "\n" $0
    next
}
/^ *$/ { keep_paragraph(); next }
{
    if (paragraph == "") first = FNR
    paragraph = paragraph "\n" $0
    height++
}

END {
    keep_paragraph()
    if (contract == "") { print "bin/believe: no contract of " call > "/dev/stderr"; exit 1 }
    visit(module, contract)
    for (at = 1; at <= last; at++) {
        key = order[at]
        split(key, pair, SUBSEP)
        visit(pair[1], text[key])
        lines += size[key]
        if (!sum) print place[key] ": " shown[key] ", " size[key]
    }
    if (sum) print lines
    else print call ": " last " definitions of " lines " lines"
}
