# Tells of the commands what docs/COMMANDS.md has of them, as plain text on standard output: with `-v command=NAME` all of one,
# with the statuses that it may give, and status 1 where there is no such command; else one line for each of them.
BEGIN {
    width = 79
    # the column at which begins what is said of a name
    column = 22
    if (command == "") {
        print "puckerledge: an MPEG-2 video encoder, decoder and buffer checker, proved"
        print ""
    }
}
{ gsub(/\.\/puckerledge/, "puckerledge") }
/^## / {
    name = $2 ~ /^[a-z]/ ? $2 : ""
    heading = substr($0, 4)
    statuses = heading ~ /^Statuses/
    settings = heading ~ /^Settings/
    wanted = command != "" && name == command
    first = name != ""
    if (wanted) {
        found = 1
        print "puckerledge " heading
    }
    next
}
# what stands before the first command is said of all: its first sentences
command == "" && name == "" && !statuses && !told && /^`puckerledge/ {
    told = 1
    wrapped(plain(sentence($0)), "", 0)
    print ""
    next
}
# the first sentence of a command is its line
command == "" && first && /^[A-Z]/ {
    first = 0
    pair(heading, plain(sentence($0)), 2)
    next
}
command == "" { next }
# the tables that have a column of the commands
found && statuses && /^\| [0-9]/ {
    if (of_command($0)) {
        if (!rows_told++) print "Statuses, and the line on standard error:\n"
        wrapped(plain(cell[1]) "  " plain(cell[3]), "  ", 6)
        wrapped(plain(cell[4]), spaces(6), 6)
    }
    next
}
found && settings && /^\| [0-9]/ {
    if (of_command($0)) {
        if (!rules_told++) print "\nThe rules of status 3:\n"
        pair(plain(cell[1]), plain(cell[3]), 2)
    }
    next
}
!wanted { next }
/^    / {
    print "    " substr($0, 5)
    next
}
/^\|[-|]+\|$/ {
    rows = 1
    next
}
# of a table the line of headings, which stands before the dashes, isn't told
/^\|/ {
    if (rows) row($0)
    next
}
/^$/ {
    rows = 0
    print ""
    next
}
{ wrapped(plain($0), "", 0) }
END {
    if (command != "" && !found) exit 1
    if (command == "") {
        pair("help COMMAND", "Tells all of a command: its words, options and statuses.", 2)
        pair("--version", "Tells the version.", 2)
    }
}
# A text without the marks of its form.
function plain(text) {
    gsub(/\*\*/, "", text)
    gsub(/`/, "", text)
    return text
}
# The first sentence of a text.
function sentence(text) {
    return match(text, /\.( |$)/) ? substr(text, 1, RSTART) : text
}
function spaces(count) {
    return sprintf("%" count "s", "")
}
# Prints a text in lines; the first begins with what is given, the others with as many spaces as are given.
function wrapped(text, line, indent,   words, count, i, empty) {
    count = split(text, words, " ")
    empty = 1
    for (i = 1; i <= count; i++) {
        if (!empty && length(line) + 1 + length(words[i]) > width) {
            print line
            line = indent > 0 ? spaces(indent) : ""
            empty = 1
        }
        line = line (empty ? "" : " ") words[i]
        empty = 0
    }
    print line
}
# Prints a name, and beside it, or below where it is long, what is said of it.
function pair(name, text, indent) {
    if (length(name) + indent + 2 > column) {
        print spaces(indent) name
        wrapped(text, spaces(column), column)
    } else wrapped(text, spaces(indent) name spaces(column - indent - length(name)), column)
}
# Prints a line of a table: the first cell, and the others beside it.
function row(line,   count, i, text) {
    count = split(substr(line, 3, length(line) - 4), cell, / \| /)
    text = cell[2]
    for (i = 3; i <= count; i++) text = text ": " cell[i]
    pair(plain(cell[1]), plain(text), 2)
}
# Splits a line of a table, and says whether its second cell has the command.
function of_command(line) {
    split(substr(line, 3, length(line) - 4), cell, / \| /)
    return cell[2] == "all" || index(cell[2], "`" command "`")
}
