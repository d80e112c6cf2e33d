# Turns docs/COMMANDS.md into a page for man, on standard output: headings, paragraphs, tables and examples as they stand,
# but for the folder before the program's name, since the page is read where the program is installed.
function escaped(text) {
    gsub(/\\/, "\\e", text)
    gsub(/-/, "\\-", text)
    text = bolded(text)
    return text ~ /^[.']/ ? "\\&" text : text
}
# what stands between backquotes, or between pairs of stars, is bold
function bolded(text,   out, part) {
    gsub(/\*\*/, "`", text)
    out = ""
    while (match(text, /`[^`]*`/)) {
        part = substr(text, RSTART + 1, RLENGTH - 2)
        out = out substr(text, 1, RSTART - 1) "\\fB" part "\\fR"
        text = substr(text, RSTART + RLENGTH)
    }
    return out text
}
function trimmed(text) {
    sub(/^ +/, "", text)
    sub(/ +$/, "", text)
    return text
}
{ gsub(/\.\/puckerledge/, "puckerledge") }
BEGIN {
    print ".TH PUCKERLEDGE 1"
    print ".SH NAME"
    print "puckerledge \\- MPEG\\-2 video encoder, decoder and buffer checker, proved"
    print ".SH SYNOPSIS"
    print ".B puckerledge"
    print ".I WORD .."
    print ".SH DESCRIPTION"
}
/^# / { next }
/^## / {
    print ".SH " toupper(escaped(substr($0, 4)))
    next
}
/^    / {
    print ".PP\n.nf\n.RS"
    print escaped(substr($0, 5))
    print ".RE\n.fi"
    next
}
/^\|[-|]+\|$/ { rows = 0; next }
/^\|/ {
    count = split(substr($0, 2, length($0) - 2), cell, / \| /)
    # the line of headings has no row of dashes after it yet
    getline ahead
    if (ahead ~ /^\|[-|]+\|$/) next
    row(cell, count)
    while (ahead ~ /^\|/) {
        count = split(substr(ahead, 2, length(ahead) - 2), cell, / \| /)
        row(cell, count)
        if ((getline ahead) <= 0) exit
    }
    print ".PP"
    $0 = ahead
}
/^$/ { print ".PP"; next }
{ print escaped($0) }
function row(cell, count,   i) {
    print ".TP\n" escaped(trimmed(cell[1]))
    for (i = 2; i <= count; i++) print escaped(trimmed(cell[i])) (i < count ? ":" : "")
}
