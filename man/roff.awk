# What the generators of manual pages share: text for roff, and pages. `out` is the folder of man1, man3 and man7; each page tells `made_from`, `date` and
# `version`.

function fail(why) {
    print "man: " why >"/dev/stderr"
    exit 1
}

function replaced(s, from, to,   r, at) {
    while (at = index(s, from)) {
        r = r substr(s, 1, at - 1) to
        s = substr(s, at + length(from))
    }
    return r s
}
function escaped(s) {
    s = replaced(s, "\\", "\\e")
    s = replaced(s, "'", "\\(aq")
    s = replaced(s, "^", "\\(ha")
    return replaced(s, "~", "\\(ti")
}
# What stands between backquotes is slanted; names of the header are bold.
function marked(s,   parts, n, k, r) {
    n = split(s, parts, "`")
    for (k = 1; k <= n; k++) r = r (k % 2 ? bold_names(escaped(parts[k])) : "\\fI" escaped(parts[k]) "\\fR")
    return r
}
function bold_names(s,   r) {
    while (match(s, /(boe|BOE)_[A-Za-z0-9_]*[A-Za-z0-9_*]/)) {
        r = r substr(s, 1, RSTART - 1) "\\fB" substr(s, RSTART, RLENGTH) "\\fR"
        s = substr(s, RSTART + RLENGTH)
    }
    return r s
}
function put(line,   k) { for (k = 1; k <= pages; k++) print line >page[k] }
function put_text(line) { put(line ~ /^[.']/ ? "\\&" line : line) }
# Filled text, a sentence on lines of its own.
function fill(s,   words, n, k, line) {
    n = split(marked(s), words, " ")
    line = ""
    for (k = 1; k <= n; k++) {
        if (line != "" && length(line) + length(words[k]) > 77) { put_text(line); line = "" }
        line = line (line == "" ? "" : " ") words[k]
        if (words[k] ~ /[.?!]\)?$/) { put_text(line); line = "" }
    }
    if (line != "") put_text(line)
}
function padded(s, width) {
    while (length(s) < width) s = " " s
    return replaced(s, " ", "\\0")
}
function filled_out(s, width) {
    while (length(s) < width) s = s " "
    return s
}

# A page under each of its names.
function begin(names, section,   name, k) {
    pages = split(names, page, ", ")
    name = page[1]
    for (k = 1; k <= pages; k++) page[k] = out "/man" section "/" page[k] "." section
    put(".\\\" made by man/make_pages from " made_from)
    put(".TH " name " " section " " date " \"Eskerlin " version "\" \"The order gateway\\(aqs core\"")
    put(".nh")
    put(".ad l")
}
function end(   k) { for (k = 1; k <= pages; k++) close(page[k]) }
# Groff hyphenates again after it.
function put_example_end() {
    put(".EE")
    put(".nh")
}
