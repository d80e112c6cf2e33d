# shellcheck shell=bash
# What the scripts that measure have in common; they source it.
bench=$(dirname "$(dirname "$(realpath "${BASH_SOURCE[0]}")")")
# what stands in a cell that isn't measured
none=–

# begin PROGRAM FOLDER: the program's path is kept, and the folder entered in which clips and streams stay.
begin() {
    # shellcheck disable=SC2034
    program=$(realpath "$1")
    mkdir -p "$2"
    cd "$2" || return
}

# Whether a peer is installed.
has() {
    command -v "$1" > /dev/null
}

# Says which peers aren't installed, on standard error: a table is made without them.
tell_missing() {
    local peer
    for peer; do
        has "$peer" || echo "$peer isn't installed: what it gives is left out" >&2
    done
}

# raw WIDTH HEIGHT FRAMES: makes a clip once, and names it in `clip`.
raw() {
    clip=clip$1x$2-$3.yuv
    [ -s "$clip" ] || python3 "$bench/measure/clip.py" "$1" "$2" "$3" > "$clip"
}

# nanoseconds COMMAND ..: how many a command takes, which writes nothing to standard output.
nanoseconds() {
    local start
    start=$(date +%s%N)
    "$@" || return
    echo $(($(date +%s%N) - start))
}

# rate FRAMES NANOSECONDS: frames a second.
rate() {
    awk -v frames="$1" -v took="$2" 'BEGIN { printf "%.1f\n", frames * 1e9 / took }'
}

# cost FRAMES COMMAND ..: frames a second of a command that takes so many, and milliseconds a frame of processor time (user), each
# by the best of three runs, since what else runs on the machine can only slow one down.
cost() {
    local frames=$1 TIMEFORMAT='%R %U'
    shift
    for _ in 1 2 3; do
        { time "$@" 2>&3; } 3>&2 2>> took.runs || return
    done
    awk -v frames="$frames" '
        NR == 1 || $1 < took { took = $1 }
        NR == 1 || $2 < used { used = $2 }
        END { printf "%.1f %.1f\n", frames / took, 1000 * used / frames }' took.runs
    rm took.runs
}

# instructions FRAMES INPUT COMMAND ..: millions a frame of a command that reads a file of so many.
instructions() {
    local frames=$1 input=$2
    shift 2
    if ! has valgrind; then echo "$none"; return; fi
    valgrind --tool=callgrind --callgrind-out-file=/dev/null "$@" 2>&1 > /dev/null < "$input" |
        awk -v frames="$frames" '/Collected :/ { printf "%.1f\n", $NF / frames / 1e6 }'
}

# told FILE: says what stands there, the line of a call that failed, and fails.
told() {
    cat "$1" >&2
    return 1
}

# row CELL ..: a line of a table; cells that are left empty weren't measured.
row() {
    local cell
    for cell; do printf '| %s ' "${cell:-$none}"; done
    echo "|"
}
