#!/usr/bin/env bash
# puckerledge-many [--share I N] FOLDER TABLE [PARALLEL'S OPTIONS ..]: checks every stream (*.m2v) below a folder, several beside
# each other by GNU parallel, and writes a table: film, status and line of `check`, tab-separated, by the films' names.
#
# A film that has a verdict isn't looked at again: a call that was stopped goes on where it was, and one after new films came
# looks at these alone. What says nothing of the film (a failed read, no memory, an unreachable machine) is tried again by the
# next call. Rows are kept in TABLE.rows as they come; to have a film judged anew, delete its row there.
#
# Options of parallel: --jobs 8; --sshlogin for other machines, which need the program under the same path, and the folder
# too, or --wd ... --transferfile {} --cleanup. --share I N takes one film of N, as a task of a batch system does; its rows go
# to TABLE.rows.I, and a call without it joins all. The status is 0 where each film (of the share) has a verdict.
set -u
here=$(dirname "$(readlink -f "$0")")
program=${PUCKERLEDGE:-$here/puckerledge}
if [ -z "${PUCKERLEDGE:-}" ] && [ ! -x "$program" ]; then program=$(dirname "$here")/puckerledge; fi

fail() {
    echo "puckerledge-many: $1" >&2
    exit 1
}

share=""
if [ "${1:-}" = --share ] && [ $# -ge 3 ]; then
    share=$2 shares=$3
    shift 3
    if ! [[ $share =~ ^[0-9]{1,6}$ && $shares =~ ^[1-9][0-9]{0,5}$ && $share -lt $shares ]]; then fail "a share is one of 0 to N - 1, of N"; fi
fi
if [ $# -lt 2 ]; then
    echo "usage: puckerledge-many [--share I N] FOLDER TABLE [PARALLEL'S OPTIONS ..]" >&2
    exit 2
fi
folder=$(readlink -e "$1") || fail "$1 isn't there"
table=$(readlink -f "$2")
shift 2
command -v parallel > /dev/null || fail "there is no parallel (GNU parallel)"
rows=$table.rows${share:+.$share}

# The films of the folder, or of the share, a line each; a share has them by a sum of the name, whatever else is there.
films() {
    find "$folder" -type f -name '*.m2v' -printf '%P\n' | LC_ALL=C sort | LC_ALL=C awk -v share="$share" -v shares="${shares:-1}" '
        BEGIN { for (i = 1; i < 256; i++) value[sprintf("%c", i)] = i }
        {
            sum = 0
            for (i = 1; i <= length($0); i++) sum = (31 * sum + value[substr($0, i, 1)]) % 1000003
            if (share == "" || sum % shares == share + 0) print
        }'
}

# The last row of each film, of those that say something of the film: rows are film, status, line.
verdicts() {
    local files=()
    for file in "$table".rows "$table".rows.*; do [ -f "$file" ] && files+=("$file"); done
    [ "${#files[@]}" = 0 ] || LC_ALL=C awk -F'\t' '
        NF == 3 && $2 ~ /^(0|9|10|11|13|14)$/ { row[$1] = $0 }
        END { for (film in row) print row[film] }' "${files[@]}" | LC_ALL=C sort
}

# The films that have no verdict yet.
left() {
    films | LC_ALL=C awk -F'\t' 'NR == FNR { done[$1] = 1; next } !($1 in done)' <(verdicts; echo) -
}

# Writes the table anew, under another name first.
write_table() {
    { printf 'film\tstatus\tline\n' && verdicts; } > "$table.new" && mv "$table.new" "$table"
}

exec 9>> "$rows" || fail "$rows can't be written"
flock -n 9 || fail "another call writes $rows"
# of a call that was killed a row may have been written in part
if [ -s "$rows" ] && [ -n "$(tail -c 1 "$rows")" ]; then echo >> "$rows"; fi
if [ -n "$(find "$folder" -name '*.m2v' \( -path $'*\t*' -o -path $'*\n*' \) -print -quit)" ]; then fail "a film's name has a tab or a newline"; fi

# What is run for a film, here or on another machine.
# shellcheck disable=SC2016
row='line=$("$1" check < "$2" 2>&1 > /dev/null); status=$?; printf "%s\t%d\t%s\n" "$2" "$status" "$(printf %s "$line" | tr "\n\t" "  ")"'
trap 'write_table; exit 130' INT TERM HUP
left | (cd "$folder" && parallel -q --wd "$folder" "$@" sh -c "$row" sh "$program" {}) 9>&- >> "$rows"
write_table
count=$(films | wc -l)
missing=$(left | wc -l)
echo "puckerledge-many: $((count - missing)) of $count films have a verdict, in $table" >&2
[ "$missing" = 0 ]
