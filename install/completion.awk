# Makes a completion, on standard output, of the commands and options that docs/COMMANDS.md has: for bash, or for the shell
# that `-v shell=` names, zsh or fish.
/^## [a-z]/ {
    command = $2
    commands = commands " " command
    next
}
/^## / { command = "" }
# a table of options
/^\| `--/ && command != "" {
    split($0, cell, / \| /)
    options[command] = options[command] named(cell[1])
}
# a command that has the options of another one, but for those that are named after it
command != "" && match($0, /options (are those )?of `[a-z0-9-]+`/) {
    split(substr($0, RSTART, RLENGTH), cell, /`/)
    source[command] = cell[2]
    rest = substr($0, RSTART + RLENGTH)
    sub(/[.;:].*/, "", rest)
    without[command] = named(rest) " "
}
# the options that a text names, each after a space
function named(text,   all) {
    while (match(text, /`--[a-z0-9-]+/)) {
        all = all " " substr(text, RSTART + 1, RLENGTH - 1)
        text = substr(text, RSTART + RLENGTH)
    }
    return all
}
END {
    commands = substr(commands, 2)
    # in this order, since that of an array isn't the same by every awk
    command_count = split(commands, named_commands, " ")
    for (name in source) {
        count = split(options[source[name]], words, " ")
        for (i = 1; i <= count; i++)
            if (index(without[name], " " words[i] " ") == 0) options[name] = options[name] " " words[i]
    }
    if (shell == "zsh") zsh()
    else if (shell == "fish") fish()
    else bash()
}
function bash(   i) {
    print "_puckerledge() {"
    print "    local word=${COMP_WORDS[COMP_CWORD]}"
    print "    if [ \"$COMP_CWORD\" = 1 ]; then"
    print "        mapfile -t COMPREPLY < <(compgen -W '" commands " help --version' -- \"$word\")"
    print "        return"
    print "    fi"
    print "    case ${COMP_WORDS[1]} in"
    print "        help) mapfile -t COMPREPLY < <(compgen -W '" commands "' -- \"$word\") ;;"
    for (i = 1; i <= command_count; i++) if ((name = named_commands[i]) in options)
        print "        " name ") mapfile -t COMPREPLY < <(compgen -W '" substr(options[name], 2) "' -- \"$word\") ;;"
    print "    esac"
    print "}"
    print "complete -o default -F _puckerledge puckerledge"
}
function zsh(   i) {
    print "#compdef puckerledge"
    print "if (( CURRENT == 2 )); then"
    print "    compadd -- " commands " help --version"
    print "    return"
    print "fi"
    print "case $words[2] in"
    print "    help) compadd -- " commands "; return ;;"
    for (i = 1; i <= command_count; i++) if ((name = named_commands[i]) in options)
        print "    " name ") compadd --" options[name] " ;;"
    print "esac"
    print "_files"
}
function fish(   i, j, count, words) {
    print "complete -c puckerledge -n __fish_use_subcommand -f -a '" commands " help'"
    print "complete -c puckerledge -n __fish_use_subcommand -l version"
    print "complete -c puckerledge -n '__fish_seen_subcommand_from help' -f -a '" commands "'"
    for (i = 1; i <= command_count; i++) {
        name = named_commands[i]
        count = split(options[name], words, " ")
        for (j = 1; j <= count; j++)
            print "complete -c puckerledge -n '__fish_seen_subcommand_from " name "' -l " substr(words[j], 3)
    }
}
