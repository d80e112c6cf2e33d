# shellcheck shell=sh
# shellcheck disable=SC2154
# What answers to the name puckerledge: help and the version are told here, and every other word goes to the program as it is.
# Sourced by ./puckerledge and by what is installed as bin/puckerledge (install/command.sh), which say in `program` where the
# program is, in `parts` where help.awk and progress.bash are, in `commands` where COMMANDS.md is, and by `version` the version.

# answer WORD ..: tells help or the version where the words ask for it, and ends; else it returns, and has said nothing.
answer() {
    case "$#:${1-}" in
        1:help | 1:--help)
            awk -f "$parts/help.awk" "$commands"
            exit
            ;;
        1:--version)
            echo "puckerledge $(version)"
            exit
            ;;
        2:help)
            # what is no command's name is the program's to refuse
            case $2 in '' | *[!a-z0-9-]*) return ;; esac
            page=$(awk -v command="$2" -f "$parts/help.awk" "$commands") || return 0
            if [ -t 1 ]; then
                printf '%s\n' "$page" | LESS="${LESS-FRX}" sh -c "${PAGER:-$(pager)}"
            else
                printf '%s\n' "$page"
            fi
            exit
            ;;
    esac
}

# What pages where PAGER names nothing.
pager() {
    command -v less || command -v more || echo cat
}

# hand_on WORD ..: becomes the program. Only where standard error is a terminal, and input is a file or a pipe, it is run beside
# a line that shows how far the input is read, unless PUCKERLEDGE_QUIET is 1.
hand_on() {
    if [ -t 2 ] && [ "${PUCKERLEDGE_QUIET-}" != 1 ] && { [ -f /dev/stdin ] || [ -p /dev/stdin ]; } && command -v bash > /dev/null; then
        exec bash "$parts/progress.bash" "$program" "$@"
    fi
    exec "$program" "$@"
}
