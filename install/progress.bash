# shellcheck shell=bash
# progress.bash PROGRAM WORD ..: runs the program, and shows on standard error, a terminal, how far it has read its input, until
# it says its own line. Words, input, output and status are the program's.
set -u
size=""
if [ -f /dev/stdin ]; then size=$(stat -L -c %s /dev/stdin); fi

# The bytes of a number of them.
amount() {
    if [ "$1" -lt 10000000 ]; then echo "$(($1 / 1000)) kB"; else echo "$(($1 / 1000000)) MB"; fi
}

# The line at hand: of a file by the place that is read next, of a pipe by all bytes that the process has read.
line() {
    local read="" key value spent=$((SECONDS - start))
    while read -r key value; do
        case $key in pos: | rchar:) read=$value ;; esac
    done < "/proc/$pid/$([ "$size" ] && echo fdinfo/0 || echo io)"
    [ "$read" ] || return
    if [ "${size:-0}" -gt 0 ] && [ "$read" -lt "$size" ]; then
        printf '%d %% of %s read, %d s' "$((read * 100 / size))" "$(amount "$size")" "$spent"
        if [ "$read" -gt 0 ]; then printf ', about %d s to go' "$((spent * (size - read) / read))"; fi
    else
        printf '%s read, %d s' "$(amount "$read")" "$spent"
    fi
} 2> /dev/null

# Whether the program has the terminal: where it was sent to the background nothing is shown.
in_front() {
    local stat
    read -r stat < "/proc/$pid/stat" || return
    # shellcheck disable=SC2086 # after the name: state, parent, group, session, terminal, the terminal's group
    set -- ${stat##*) }
    [ "$3" = "$6" ]
} 2> /dev/null

# Of several in one pipe one alone shows its line: the one that has the terminal's lock, which those that read a pipe ask for later.
is_ours() {
    [ "$size" ] || [ "$((SECONDS - start))" -gt 1 ] && flock -n 8
} 2> /dev/null

take_away() {
    if [ "$shown" ]; then printf '\r%*s\r' "${#shown}" '' >&2; fi
    shown=""
}

# Before the program's own words: its line goes, or that of another in the pipe, which shows it again after them.
make_room() {
    if [ "$shown" ]; then
        take_away
    elif ! flock -n 8 2> /dev/null; then
        printf '\r%*s\r' "$((columns - 1))" '' >&2
    fi
}

# Shows the line each second until the first byte of the program's own comes, or it ends; that byte and what follows is passed on.
watch() {
    local pid start=$SECONDS shown="" byte="" status columns before far
    # an interrupt ends the program, and by that this too
    trap '' INT
    trap 'take_away; exit' TERM HUP
    read -r pid
    # opened anew, since the lock is one of what is opened
    { exec 8> /proc/self/fd/9; } 9>&2 2> /dev/null || true
    columns=$(stty size <&2 2> /dev/null | cut -d' ' -f2)
    if [ "${columns:-0}" = 0 ]; then columns=80; fi
    while true; do
        IFS= read -r -d '' -N 1 -t 1 byte
        status=$?
        # a byte that comes as the time is up is there all the same
        if [ "$byte" ]; then status=0; fi
        [ "$status" -gt 128 ] || break
        if ! kill -0 "$$" 2> /dev/null; then
            # nobody waits any more
            kill "$pid"
            break
        fi
        if ! in_front; then
            flock -u 8 2> /dev/null
        elif is_ours; then
            # nothing where the program has just ended
            far=$(line)
            [ "$far" ] || continue
            before=${#shown}
            shown="puckerledge: $far"
            shown=${shown:0:columns - 1}
            printf -v shown '%-*s' "$before" "$shown"
            printf '\r%s' "$shown" >&2
        fi
    done
    if [ "$status" = 0 ]; then
        make_room
        printf '%s' "$byte" >&2
        exec cat >&2 8>&-
    fi
    take_away
}

trap : INT
exec 3>&1
{
    echo "$BASHPID"
    exec "$@" >&3 3>&-
} 2>&1 | watch 3>&- > /dev/null
status=${PIPESTATUS[0]}
case $status in
    129 | 130 | 131 | 143)
        # ended by a signal: so is this
        trap - INT
        kill -"$((status - 128))" "$$"
        ;;
esac
exit "$status"
