# The manual pages of the C calls, from the comments and prototypes of the header: man3/CALL.3 of each call, man3/boe_fields.3 and man7/boe.7.
#   awk -v out=FOLDER -v date=YYYY-MM-DD -f man/roff.awk -f man/calls.awk man/names.txt include/boe.h include/boe_fields.h
# The folders are there. A header that is not as it is taken here, or a call that has no line in names.txt, ends it with status 1.

FNR == 1 { file++ }

# ---- the first line of each page
file == 1 && /^#/ { next }
file == 1 { purpose[$1] = substr($0, length($1) + 2); next }

# ---- the headers as items: a comment, and the code that follows it up to the next. A comment that begins with a small letter, or after code without a
# blank line between, is part of the code.
in_comment { comment_line(substr($0, index($0, "*") + 1)); next }
/^\/\*/ && (blank || FNR == 1) {
    items++
    of_file[items] = file
    comment_line(substr($0, 3))
    next
}
# an enum after a call has no comment of its own
blank && /^enum boe_[a-z]* \{/ && codes[items] { items++; of_file[items] = file; lines[items] = 0 }
{ blank = $0 == "" }
items && !blank { code[items, ++codes[items]] = $0 }

function comment_line(line) {
    in_comment = !sub(/ *\*\/$/, "", line)
    sub(/^ /, "", line)
    text[items, ++lines[items]] = line
    blank = 0
}

END {
    if (file != 3) fail("three files are wanted")
    for (i = 1; i <= items; i++) take_apart(i)
    if (!(version = value["BOE_VERSION"])) fail("there is no BOE_VERSION")
    made_from = "include/boe.h and include/boe_fields.h"
    for (i = 1; i <= items; i++) if (of_file[i] == 2 && calls[i]) page_of_call(i)
    overview()
    fields()
    for (name in purpose) if (!(name in known)) fail(name " of names.txt is no call of the header")
}

# ---- what an item has: calls, constants, the cases of an enum, a struct
function take_apart(i,   k, line, open, words, n) {
    for (k = 1; k <= codes[i]; k++) {
        line = code[i, k]
        if (open != "") {
            open = open line
            sub(/ +/, " ", open)
            if (line ~ /;$/) { add_call(i, open); open = "" }
        } else if (line ~ /^(uint32_t|size_t) boe_[a-z_]*\(/) {
            if (line ~ /;$/) add_call(i, line)
            else open = line
        } else if (line ~ /^(BOE_LOOK_AT )?static inline .*boe_[a-z_]*\(.*\{/) {
            sub(/ *\{.*/, ";", line)
            sub(/^.*static inline /, "", line)
            add_call(i, line)
            inlined[i] = 1
        } else if (line ~ /^#define BOE_[A-Z0-9_]* [^ ]/) {
            n = split(line, words, " ")
            defined[i, ++defines[i]] = words[2]
            value[words[2]] = number_of(substr(line, index(line, words[2]) + length(words[2]) + 1))
        } else if (line ~ /^#define BOE_[A-Z]*\(/) {
            macro[i, ++macros[i]] = substr(line, 9, index(line, "(") - 9)
        } else if (line ~ /^(enum|struct) boe_[a-z]* \{/) {
            split(line, words, " ")
            title[i] = words[1] " " words[2]
            if (line ~ /\};$/) add_cases(i, substr(line, index(line, "{") + 1))
        } else if (line ~ /^ +BOE_[A-Z_]* = [0-9]+/) {
            add_case(i, line)
        }
    }
    if (!(i in title) && text[i, 1] ~ /^---- /) title[i] = substr(text[i, 1], 6)
}

# A number, or a sum with a constant that has come before.
function number_of(what,   words) {
    if (what !~ /^\(.*\)$/) return what
    split(substr(what, 2, length(what) - 2), words, " ")
    return value[words[1]] + words[3]
}

function add_call(i, prototype,   head, name) {
    sub(/;$/, "", prototype)
    head = substr(prototype, 1, index(prototype, "(") - 1)
    match(head, /boe_[a-z_]*$/)
    name = substr(head, RSTART)
    call[i, ++calls[i]] = name
    known[name] = i
    result[name] = substr(head, 1, RSTART - 1)
    arguments[name] = substr(prototype, length(head) + 2)
    sub(/\)$/, "", arguments[name])
    if (of_file[i] == 2) listed[++list] = name
}

function add_case(i, line,   words, what) {
    split(line, words, " ")
    what = ""
    if (match(line, /\/\*.*\*\//)) what = substr(line, RSTART + 3, RLENGTH - 6)
    sub(/,$/, "", words[3])
    one_case(i, words[1], words[3], what)
}
function add_cases(i, rest,   parts, n, k, words) {
    n = split(rest, parts, /[,}]/)
    for (k = 1; k <= n; k++) if (split(parts[k], words, " ") == 3) one_case(i, words[1], words[3], "")
}
function one_case(i, name, number, what) {
    case_name[i, ++cases[i]] = name
    case_number[i, cases[i]] = number
    case_text[i, cases[i]] = what
    if (title[i] == "enum boe_refusal") { refusal_name[number] = name; refusal_text[number] = what }
}

# A comment: paragraphs, tables of one or two numbers and a text, lists, and lines of code. `from` is its first line that counts.
function put_comment(i, from,   k, line, paragraph, rows, at) {
    paragraph = ""
    rows = 0
    for (k = from; k <= lines[i]; k++) {
        line = text[i, k]
        if (line !~ /^  / && rows) { end_row(); put(".PD"); rows = 0 }
        if (line == "") {
            fill(paragraph)
            paragraph = ""
            if (k < lines[i] && text[i, k + 1] !~ /^  /) put(".PP")
        } else if (line !~ /^  /) {
            if (paragraph == "" && k > from && text[i, k - 1] ~ /^  /) put(".PP")
            paragraph = paragraph (paragraph == "" ? "" : " ") line
        } else {
            if (paragraph != "") { fill(paragraph); paragraph = "" }
            at = match(line, /[^ ]/)
            if (line ~ /^ +(place|number) +(bytes|place)$/) {
                put(".PP")
                match(line, /[a-z]+ +[a-z]+/)
                put("\\fI" replaced(substr(line, RSTART, RLENGTH), " ", "\\ ") "\\fR")
                put(".PD 0")
                wide = line ~ /bytes$/ ? 16 : 10
                rows = 1
            } else if (line ~ /^ +(bool|void|uint32_t|size_t) boe_.*\);$/) {
                if (text[i, k - 1] !~ /^  /) { put(".PP"); put(".EX") }
                put_code(substr(line, at))
                if (text[i, k + 1] !~ /^  /) put_example_end()
            } else if (rows && line ~ /^ +[0-9]+ +[0-9]+  +[^ ]/) {
                end_row()
                match(line, /[0-9]+ +[0-9]+ +/)
                tag = substr(line, RSTART, RLENGTH)
                row = substr(line, RSTART + RLENGTH)
                split(tag, two, " ")
                tag = padded(two[1], 5) "\\0\\0" padded(two[2], 5)
            } else if (rows && line ~ /^ +[0-9]+  +[^ ]/) {
                end_row()
                match(line, /[0-9]+ +/)
                tag = substr(line, RSTART, RLENGTH)
                row = substr(line, RSTART + RLENGTH)
                split(tag, two, " ")
                tag = padded(two[1], 6)
            } else if (rows) {
                row = row " " substr(line, at)
            } else {
                put(".IP \\(bu 3")
                fill(substr(line, at))
            }
        }
    }
    if (rows) { end_row(); put(".PD") }
    fill(paragraph)
}
function put_code(line,   at) {
    if (length(line) > 72) {
        for (at = 72; substr(line, at, 2) != ", "; at--) ;
        put(substr(line, 1, at))
        line = "        " substr(line, at + 2)
    }
    put(line)
}
function end_row() {
    if (tag == "") return
    put(".TP " wide)
    put(tag)
    fill(row)
    tag = ""
}

# ---- a prototype: types bold, names slanted, over as many lines as it needs
function put_prototype(name,   parts, n, k, line, width, piece, argument, start) {
    put(".PP")
    start = result[name] name "("
    line = ".BI \"" start
    width = length(start)
    n = split(arguments[name], parts, /, */)
    for (k = 1; k <= n; k++) {
        argument = parts[k]
        if (width + length(argument) + 2 > 72 && width > length(start)) {
            put(line "\"")
            line = ".BI \"" sprintf("%" length(start) "s", "")
            width = length(start)
        }
        if (argument == "void") line = line "void"
        else {
            match(argument, /[a-z_]+$/)
            line = line substr(argument, 1, RSTART - 1) "\" " substr(argument, RSTART) " \""
        }
        line = line (k < n ? ", " : ");")
        width += length(argument) + 2
    }
    put(line "\"")
}

# ---- the refusals of a call, in their order, from the sentence of its comment that lists them
function whole_text(i,   k, s) {
    s = ""
    for (k = 1; k <= lines[i]; k++) s = s (k == 1 ? "" : text[i, k] ~ /^  [^ ]/ ? "\001" : text[i, k - 1] ~ /^  [^ ]/ ? "\002" : " ") text[i, k]
    return s
}
function without_brackets(s,   at, depth, r, c) {
    r = ""
    depth = 0
    for (at = 1; at <= length(s); at++) {
        c = substr(s, at, 1)
        if (c == "(") depth++
        if (!depth) r = r c
        if (c == ")") depth--
    }
    gsub(/ +,/, ",", r)
    gsub(/ +;/, ";", r)
    return r
}
function sentence_from(s, at,   rest, dot) {
    rest = substr(s, at)
    dot = match(rest, /\.( |$)/)
    return dot ? substr(rest, 1, dot - 1) : rest
}
function list_of(i,   s, at, clause) {
    s = without_brackets(whole_text(i))
    if (at = index(s, "Otherwise ")) {
        clause = sentence_from(s, at)
        return substr(clause, index(clause, ": ") + 2)
    }
    if (match(s, /(^|\. )13 for /)) return sentence_from(s, RSTART + RLENGTH - 7)
    if (s ~ /^0 where [^;]*, or [0-9]/) return sentence_from(s, index(s, ", or ") + 5)
    return ""
}
# Fills `number`, `last` (of a range) and `why`; answers how many there are.
function refusals_in(clause,   words, n, k, word, bare, count, taken) {
    count = 0
    taken = 0
    n = split(clause, words, " ")
    for (k = 1; k <= n; k++) {
        bare = word = words[k]
        sub(/[,;:]+$/, "", bare)
        if (bare ~ /^[0-9]+$/ && (bare in refusal_name) && words[k - 1] !~ /^(under|outside|past|is|within|byte)$/) {
            if (taken && taken == k - 2 && words[k - 1] == "to") { last[count] = bare; why[count] = "" }
            else { number[++count] = bare; last[count] = bare; why[count] = "" }
            taken = k
        } else if (count) why[count] = why[count] (why[count] == "" ? "" : " ") word
    }
    for (k = 1; k <= count; k++) {
        # what leads on to the next
        sub(/(^|[,;] )(and|then|and then|in this order)$/, "", why[k])
        sub(/(^|[,;] )and then in this order$/, "", why[k])
        if (k < count) sub(/(^|[,;] )(and|then) .*$/, "", why[k])
        sub(/(^| )(and|or|to|the late)$/, "", why[k])
        sub(/[,;:]+$/, "", why[k])
    }
    return count
}
function told(k) { return number[k] == last[k] ? number[k] " " refusal_name[number[k]] : number[k] " to " last[k] }
function put_refusals(clause,   count, k, what, blocks, n, b, at, parts, line) {
    put(".PP")
    put(".PD 0")
    n = split(clause, blocks, "\001")
    for (b = 1; b <= n; b++) {
        line = blocks[b]
        if (b > 1) {
            # a line of a list, and after the last one the rest of the sentence
            split(line, parts, "\002")
            line = parts[1]
            at = match(line, / [0-9]+/)
            put(".TP 28")
            put("\\fI" escaped(replaced(substr(line, 1, at - 1), "  ", "")) "\\fR")
            count = refusals_in(substr(line, at + 1))
            what = ""
            for (k = 1; k <= count; k++) what = what (k == 1 ? "" : ", ") told(k)
            fill(what)
            line = parts[2]
        }
        count = refusals_in(line)
        for (k = 1; k <= count; k++) {
            put(".TP 28")
            put("\\fB" told(k) "\\fR")
            what = number[k] == last[k] ? refusal_text[number[k]] : refusal_name[number[k]] " to " refusal_name[last[k]]
            if (why[k] != "") what = what (number[k] == last[k] ? ": " : ", ") why[k]
            fill(what)
        }
        all += count
    }
    put(".PD")
}

# ---- the page of a call, under the names of the others of its item too
function page_of_call(i,   name, k, names, clause, s, at) {
    name = call[i, 1]
    names = name
    for (k = 2; k <= calls[i]; k++) names = names ", " call[i, k]
    if (!(name in purpose)) fail("man/names.txt has no line for " name)
    begin(names, 3)
    put(".SH NAME")
    put(names " \\-")
    put(escaped(purpose[name]))
    put(".SH SYNOPSIS")
    put(".nf")
    put(".B #include <boe.h>")
    for (k = 1; k <= calls[i]; k++) put_prototype(call[i, k])
    put(".fi")
    put(".PP")
    put("Compile and link with \\fIcc\\fR ... \\fI$(pkg\\-config \\-\\-cflags \\-\\-libs boe)\\fR.")
    put(".SH DESCRIPTION")
    put_comment(i, 1)
    if (cases[i]) put_cases(i)
    put(".PP")
    put("What holds of all calls and their buffers is in")
    put(".BR boe (7).")
    if (result[name] != "void ") put(".SH RETURN VALUE")
    clause = result[name] == "uint32_t " ? list_of(i) : ""
    if (clause == "" && (at = short_state_of(name))) clause = at
    if (clause != "") {
        all = 0
        fill((calls[i] > 1 ? name ": " : "") "0, or the first of these refusals that holds, in this order; then the call has changed nothing." \
            " The number is the answer's low byte, BOE_NUMBER; of 6 to 10 what stands above it is a place, BOE_PLACE.")
        put_refusals(clause)
        if (!all) fail("no refusal is found in the comment of " name)
    } else if (result[name] != "void ") {
        s = whole_text(i)
        gsub(/[\001\002]/, " ", s)
        at = index(s, name " answers ")
        fill(sentence_from(s, at ? at : 1) ".")
        if (!inlined[i]) put("It refuses nothing.")
    }
    put(".SH SEE ALSO")
    see_also(name, i)
    end()
}

# The refusal that the comment above a part of the header says of each call there that changes a state.
function short_state_of(name,   i, s, at) {
    if (arguments[name] !~ /(^|, )struct boe_[a-z]* \*state/) return ""
    for (i = known[name]; i > 0; i--) if (text[i, 1] ~ /^---- /) {
        s = whole_text(i)
        if (at = index(s, "Each call is 13 for a state under")) return sentence_from(s, at + 13)
    }
    return ""
}

function group_of(name) {
    if (name ~ /^boe_venue_/) return 4
    if (name ~ /^boe_(session_|login_|heartbeat_due|peer_silent)/) return 2
    if (name ~ /^boe_(book_|restart|last_|table_)/) return 3
    return 1
}
function see_also(name, i,   k, other) {
    for (k = 1; k <= list; k++) {
        other = listed[k]
        if (known[other] != i && group_of(other) == group_of(name)) put(".BR " other " (3),")
    }
    if (name !~ /^boe_venue_/) put(".BR boe_fields (3),")
    put(".BR boe (7)")
}

function put_cases(i,   k) {
    if (lines[i]) put(".PP")
    put(".PD 0")
    for (k = 1; k <= cases[i]; k++) {
        put(".TP 28")
        put("\\fB" padded(case_number[i, k], 2) "\\ " case_name[i, k] "\\fR")
        if (case_text[i, k] == "") put("\\&")
        else fill(case_text[i, k])
    }
    put(".PD")
}
function put_constants(i,   k) {
    put(".PP")
    put(".EX")
    for (k = 1; k <= defines[i]; k++) put(filled_out(defined[i, k], 42) value[defined[i, k]])
    put_example_end()
}

# ---- boe(7): what the calls have in common, and everything of the header that is no call and no field
function is_message(i) { return whole_text(i) ~ /: place and width in a record/ }
function overview(   i, k, g, from, heading, words, name, shown) {
    begin("boe", 7)
    put(".SH NAME")
    put("boe \\- the proved core of an order gateway for Binary Order Entry")
    put(".SH SYNOPSIS")
    put(".B #include <boe.h>")
    put(".PP")
    put("\\fIcc\\fR ... \\fI$(pkg\\-config \\-\\-cflags \\-\\-libs boe)\\fR")
    put(".SH DESCRIPTION")
    put_comment(1, 1)
    put(".SH CALLS")
    split("Messages|The member\\(aqs session|The day book|The bench venue", words, "|")
    for (g = 1; g <= 4; g++) {
        put(".SS " words[g])
        put(".PD 0")
        for (k = 1; k <= list; k++) {
            name = listed[k]
            if (group_of(name) != g) continue
            put(".TP 26")
            put(".BR " name " (3)")
            fill(name in purpose ? purpose[name] : "with `" call[known[name], 1] "`")
        }
        if (g == 1) {
            put(".TP 26")
            put(".BR boe_fields (3)")
            put("set and get every field of a record by its name")
        }
        put(".PD")
    }
    put(".SH THE HEADER")
    for (i = 2; i <= items; i++) {
        if (of_file[i] != 2 || is_message(i)) continue
        # what a call's page has: its comment, and what it answers
        if (calls[i] && !(inlined[i] && (i in title))) continue
        if (!defines[i] && !macros[i] && !cases[i] && !(i in title)) continue
        from = text[i, 1] ~ /^---- / ? 3 : 1
        heading = i in title ? title[i] : ""
        if (heading == "") for (k = 1; k <= macros[i]; k++) heading = heading (k == 1 ? "" : ", ") macro[i, k]
        if (heading == "") for (k = 1; k <= defines[i] && k <= 3; k++) heading = heading (k == 1 ? "" : ", ") defined[i, k]
        put(".SS " escaped(heading))
        put_comment(i, from)
        if (cases[i]) put_cases(i)
        if (defines[i]) put_constants(i)
    }
    put(".SS The messages")
    put("A message that has fields, by its type in a record; the fields are in")
    put(".BR boe_fields (3).")
    put(".PP")
    put(".PD 0")
    for (i = 2; i <= items; i++) if (of_file[i] == 2 && is_message(i)) {
        put(".TP 32")
        put("\\fB" value[defined[i, 1]] " " defined[i, 1] "\\fR")
        heading = whole_text(i)
        fill(substr(heading, 1, index(heading, ": place and width") - 1))
    }
    put(".PD")
    put(".SH SEE ALSO")
    put(".BR boe_fields (3),")
    put(".BR boe_decode (1),")
    put(".BR boe_gateway (1),")
    put(".BR boe_list_book (1),")
    put(".BR boe_venue (1)")
    end()
}

# ---- boe_fields(3): the setters and getters, and for each message its fields
function fields(   i, k, line, parts, n, kind, type, prefix, first, m) {
    for (i = 1; i <= items && of_file[i] != 3; i++) ;
    first = i
    begin("boe_fields, boe_blank_record", 3)
    put(".SH NAME")
    put("boe_fields, boe_blank_record \\- the fields of a record by name")
    put(".SH SYNOPSIS")
    put(".nf")
    put(".B #include <boe.h>")
    if (!("boe_blank_record" in known)) fail("there is no boe_blank_record")
    put_prototype("boe_blank_record")
    put(".PP")
    put(".BI \"bool boe_\" MESSAGE _set_ FIELD \"(struct boe_record *\" record \", ...);\"")
    put(".BI \"bool boe_\" MESSAGE _get_ FIELD \"(const struct boe_record *\" record \", ...);\"")
    put(".fi")
    put(".SH DESCRIPTION")
    put_comment(first, 1)
    for (i = first + 1; i <= items; i++) for (k = 1; k <= calls[i]; k++) if (call[i, k] ~ /^boe_.*_(set|get)_/) {
        if (k == 1 || call[i, k - 1] !~ /^boe_.*_(set|get)_/) { put(".PP"); put_comment(i, 1) }
        put(".nf")
        put_prototype(call[i, k])
        put(".fi")
    }
    put(".SH FIELDS")
    fill("Of each field its name, the type of its value and, where it is optional, its bitfield byte and its bit." \
        " A text has so many characters, and a NUL after them.")
    for (i = first; i <= items; i++) {
        if (code[i, 1] !~ /^BOE_[A-Z_]*\(.*\)$/) continue
        m = 0
        for (k = 1; k <= codes[i]; k++) {
            line = code[i, k]
            if (line !~ /^BOE_(FIXED|OPTIONAL|READ_ONLY)(_TEXT)?\(.*\)$/) continue
            kind = substr(line, 5, index(line, "(") - 5)
            line = substr(line, index(line, "(") + 1)
            sub(/\)$/, "", line)
            n = split(line, parts, ", ")
            prefix = "BOE_" parts[n - 2] "_" parts[n]
            if (!((prefix "_LEN") in value)) fail(prefix "_LEN is not in the header")
            if (!m++) {
                put(".SS " text[i, 1])
                put("\\fBboe_" parts[n - 3] "_set_\\fR..., \\fBboe_" parts[n - 3] "_get_\\fR...;")
                put("the type is \\fBBOE_" parts[n - 2] "\\fR, " value["BOE_" parts[n - 2]] ".")
                put(".PP")
                put(".EX")
            }
            type = kind ~ /TEXT/ ? "text of " value[prefix "_LEN"] : parts[1]
            line = filled_out(parts[n - 1], 28) filled_out(type, 14)
            if (kind ~ /^OPTIONAL/) line = line "byte " filled_out(value[prefix "_BYTE"], 4) "bit " value[prefix "_BIT"]
            if (kind ~ /^READ_ONLY/) line = line "read only"
            sub(/ +$/, "", line)
            put(line)
        }
        if (m) put_example_end()
    }
    put(".SH SEE ALSO")
    put(".BR boe_read (3),")
    put(".BR boe_write (3),")
    put(".BR boe_session_order (3),")
    put(".BR boe (7)")
    end()
}
