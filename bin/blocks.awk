# Whether the blocks of a page stand in the files that it names for them; see bin/quotes.

function text_of(file,   line, text) {
    if (file in texts) return texts[file]
    while ((getline line < file) > 0) text = text line "\n"
    close(file)
    if (text == "") complain("names " file ", which is no file")
    return texts[file] = "\n" text
}

# a text without what the layout puts in
function bare(text) {
    gsub(/[ \t\n]/, "", text)
    gsub(/,\)/, ")", text)
    return text
}

function complain(what) {
    print "bin/quotes: " FILENAME ":" FNR ": " what > "/dev/stderr"
    failed = 1
}

function check_signature(   i) {
    if (signature == "") return
    for (i = 4; i < count; i++) {
        if (!(parts[i] in bares)) bares[parts[i]] = bare(text_of(parts[i]))
        if (index(bares[parts[i]], bare(signature))) { signature = ""; return }
    }
    gsub(/\n/, " ", signature)
    complain("has a signature that stands in none of its files:" signature)
    signature = ""
}

# a crate that the gate proves
function check_home(file) {
    if (file ~ /\.rt$/ && file !~ /^crates\/[a-z_0-9]+\/src\/.*\.rt$/) complain("quotes " file ", which is in no crate's src")
}

function end_block() {
    if (how == "signatures") check_signature()
    else if (how == "quoted" && !index(text_of(parts[4]), "\n" block)) complain("quotes what does not stand in " parts[4])
    else if (how == "" && rust) complain("has a block of Rust that is neither quoted nor has signatures")
    how = ""
}

FNR == 1 { inside = 0; how = "" }
/^<!-- (quoted|signatures) from .* -->$/ {
    count = split($0, parts, " ")
    how = parts[2]
    for (i = 4; i < count; i++) check_home(parts[i])
    next
}
/^```/ {
    if (inside) end_block()
    else { rust = /^```rust/; block = signature = "" }
    inside = !inside
    next
}
!inside && how != "" && !/^ *$/ { complain("names files before no block"); how = "" }
inside { block = block $0 "\n" }
inside && how == "signatures" {
    line = $0
    sub(/ *\/\/.*$/, "", line)
    if (line ~ /^ *(pub )?(extern "C" )?(fn|struct|enum|trait|const|impl|type)/ || line ~ /^ *}?$/) check_signature()
    if (line !~ /^ *impl/ && line !~ /^ *}?$/) signature = signature "\n" line
}
END { exit failed }
