# The manual page of a program, man1/NAME.1, from what it tells with --help.
#   awk -v out=FOLDER -v date=YYYY-MM-DD -v version=N -v name=boe_gateway -f man/roff.awk -f man/program.awk man/programs.txt HELP
# The help is taken as it is written in all of them: lines of usage up to an empty line or a line of text; then text, and between it lines that begin with
# two spaces, each a term, and after two spaces or more, or on deeper lines, what it is; one that has nothing of the kind is an example. The paragraph
# on the exit status has a heading of its own.

FNR == 1 { file++ }
file == 1 && /^#/ { next }
file == 1 { purpose[$1] = substr($0, length($1) + 2); programs[++count] = $1; next }
{ help[++lines] = $0 }

END {
    if (!(name in purpose)) fail("man/programs.txt has no line for " name)
    if (help[1] !~ /^usage: /) fail(name " --help does not begin with its usage")
    made_from = "what the program tells with --help"
    begin(name, 1)
    put(".SH NAME")
    put(name " \\-")
    put(escaped(purpose[name]))
    own = substr(name, 5)
    at = usage()
    put(".SH DESCRIPTION")
    for (k = 1; k <= forms; k++) if (form_text[k] != "") item(form[k], form_text[k])
    body(at)
    put(".SH SEE ALSO")
    for (k = 1; k <= count; k++) if (programs[k] != name) put(".BR " programs[k] " (1),")
    put(".BR boe (7)")
    end()
}

# Where a line's second column begins: after two spaces or more, which follow a word. 0 where it has none.
function second_column(line,   at) {
    at = match(line, /[^ ]   *[^ ]/)
    return at ? at + RLENGTH - 1 : 0
}
function indent_of(line) {
    return match(line, /[^ ]/) - 1
}
function hyphens(s) { return replaced(escaped(s), "-", "\\-") }

# The lines of usage: the forms of the command, and what stands beside them. Answers the line after them.
function usage(   k, line, at) {
    put(".SH SYNOPSIS")
    put(".nf")
    for (k = 1; k <= lines && (k == 1 || help[k] ~ /^       /); k++) {
        line = substr(help[k], 8)
        if (line ~ /^ /) {
            form_text[forms] = form_text[forms] " " substr(line, indent_of(line) + 1)
            continue
        }
        at = second_column(line)
        form[++forms] = at ? substr(line, 1, at - 1) : line
        form_text[forms] = at ? substr(line, at) : ""
        sub(/ +$/, "", form[forms])
        if (substr(form[forms], 1, length(own)) == own) form[forms] = "boe_" form[forms]
        line = form[forms]
        at = index(line, " ")
        put("\\fB" (at ? hyphens(substr(line, 1, at - 1)) "\\fR" hyphens(substr(line, at)) : hyphens(line) "\\fR"))
    }
    put(".fi")
    return k
}

function item(term, what) {
    begun = 1
    put(".TP")
    put("\\fB" hyphens(term) "\\fR")
    if (what == "") put("\\&")
    else fill(what)
}

function body(from,   k, line, paragraph, term, what, deep, at) {
    paragraph = ""
    for (k = from; k <= lines + 1; k++) {
        line = k <= lines ? help[k] : ""
        if (line ~ /^  [^ ]/) {
            end_paragraph(paragraph)
            paragraph = ""
            at = second_column(line)
            deep = k < lines && indent_of(help[k + 1]) > 2
            if (!at && !deep) {
                if (begun) put(".PP")
                begun = 1
                put(".EX")
                put(replaced(line, "\\", "\\e"))
                put_example_end()
                continue
            }
            term = substr(line, 3, at ? at - 3 : length(line))
            sub(/ +$/, "", term)
            what = at ? substr(line, at) : ""
            while (k < lines && indent_of(help[k + 1]) > 2) {
                k++
                what = what (what == "" ? "" : " ") substr(help[k], indent_of(help[k]) + 1)
            }
            item(term, what)
        } else if (line == "" || line ~ /^(The exit|Exit) status/) {
            end_paragraph(paragraph)
            paragraph = line
        } else paragraph = paragraph (paragraph == "" ? "" : " ") line
    }
}
function end_paragraph(paragraph) {
    if (paragraph == "") return
    if (paragraph ~ /^(The exit|Exit) status:? /) {
        put(".SH EXIT STATUS")
        sub(/^(The exit|Exit) status: */, "", paragraph)
    } else if (begun) put(".PP")
    begun = 1
    fill(paragraph)
}
