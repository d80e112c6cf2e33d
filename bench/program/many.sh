#!/usr/bin/env bash
# Has install/many.sh judge a folder of streams, on one machine and by two logins.
#
# It is stopped on the way and begun again, and given shares as a batch system gives them. Each film must have one row, with the status and the line of `check`, and none may be judged again
# that has one. It wants GNU parallel and python3; where sshd is installed the logins are two of this machine, by an sshd on
# loopback with keys of its own, which is ended afterwards, else two of parallel's own.
#
#     bench/program/many.sh PROGRAM
#
# PROGRAM is the built program.
set -eu
program=$(realpath "$1")
here=$(dirname "$(realpath "$0")")
many=$(realpath "$here/../../install/many.sh")
room=$(mktemp -d)
ended() {
    if [ -s "$room/sshd.pid" ]; then kill "$(cat "$room/sshd.pid")" || true; fi
    rm -rf "$room"
}
trap ended EXIT
cd "$room"

# the streams: lawful ones, others that break off, one that is none, one that doesn't hold its buffer, names that need quotes
mkdir -p 'films/of two'
"$program" make 1 > films/made.m2v 2> line
head -c 384 /dev/zero | "$program" flat 16 16 3 1 > films/variable.m2v 2> line
echo 'no stream' > "films/of two/it's \"none\".m2v"
for size in 1000 20000 30000 40000 50000 60000 70000 80000; do head -c $size films/made.m2v > "films/of two/first $size.m2v"; done
# shellcheck disable=SC2016
"$program" cut 1 9 < films/made.m2v > 'films/of two/$HOME `id` *.m2v' 2> line
printf 'not looked at' > films/other.txt
count=$(find films -name '*.m2v' | wc -l)

# what each is to have, by calls one after another
printf 'film\tstatus\tline\n' > wanted.tsv
(cd films && find . -name '*.m2v' -printf '%P\n' | LC_ALL=C sort | while IFS= read -r film; do
    status=0
    line=$("$program" check < "$film" 2>&1) || status=$?
    printf '%s\t%d\t%s\n' "$film" "$status" "$line"
done) >> wanted.tsv

# a program that takes its time, and keeps what it was asked
cat > slow << END_OF_SCRIPT
#!/bin/sh
readlink /proc/self/fd/0 >> "$room/asked"
sleep 0.3
exec "$program" "\$@"
END_OF_SCRIPT
chmod +x slow
export PUCKERLEDGE=$room/slow

# asked NAME: each film was asked for once.
asked_once() {
    if [ "$(sort -u asked | wc -l)" != "$count" ] || [ "$(wc -l < asked)" != "$count" ]; then
        echo "$1: asked for" >&2
        sort asked | uniq -c >&2
        exit 1
    fi
    : > asked
    echo "$1: $count films, each once"
}

: > asked
"$many" films one.tsv --jobs 4 2> told
cmp wanted.tsv one.tsv
asked_once 'one machine'
"$many" films one.tsv 2> told
[ ! -s asked ]

# stopped by a signal to all of its processes, as Ctrl-C gives it, and begun again
set -m
"$many" films stopped.tsv --jobs 2 2> told &
set +m
until [ -s stopped.tsv.rows ]; do sleep 0.05; done
kill -INT -- -$!
wait $! || true
judged=$(grep -c . stopped.tsv.rows)
begun=$(wc -l < asked)
[ "$judged" -gt 0 ] && [ "$judged" -lt "$count" ]
: > asked
"$many" films stopped.tsv --jobs 2 2> told
cmp wanted.tsv stopped.tsv
[ -z "$(cut -f1 stopped.tsv.rows | sort | uniq -d)" ]
[ "$(wc -l < asked)" = $((count - judged)) ]
echo "stopped: $judged of $count films judged of $begun begun, the others by the second call"
: > asked

# a new film is looked at alone, and a machine that fails says nothing of a film
cp films/made.m2v films/new.m2v
PUCKERLEDGE=/bin/false "$many" films stopped.tsv 2> told && exit 1
cmp wanted.tsv stopped.tsv
"$many" films stopped.tsv 2> told
[ "$(wc -l < asked)" = 1 ]
rm films/new.m2v
: > asked

# shares, as the tasks of an array have them, beside each other
tasks=()
for SLURM_ARRAY_TASK_ID in 0 1 2; do
    "$many" --share $SLURM_ARRAY_TASK_ID 3 films shares.tsv --jobs 1 2> told.$SLURM_ARRAY_TASK_ID &
    tasks+=($!)
done
wait "${tasks[@]}"
"$many" films shares.tsv 2> told
cmp wanted.tsv shares.tsv
asked_once 'three shares'

# two logins
logins=:,2/:
if [ -x /usr/sbin/sshd ]; then
    mkdir -p /run/sshd
    ssh-keygen -q -t ed25519 -N '' -f host
    ssh-keygen -q -t ed25519 -N '' -f user
    port=$((20000 + RANDOM % 20000))
    /usr/sbin/sshd -f /dev/null -E sshd.log -h "$room/host" -o ListenAddress=127.0.0.1 -p $port -o "PidFile=$room/sshd.pid" \
        -o "AuthorizedKeysFile=$room/user.pub" -o StrictModes=no -o PasswordAuthentication=no -o UsePAM=no -o MaxStartups=100
    ssh="ssh -p $port -i $room/user -o StrictHostKeyChecking=no -o UserKnownHostsFile=/dev/null -o LogLevel=ERROR"
    logins="2/$ssh 127.0.0.1,2/$ssh localhost"
fi
"$many" films logins.tsv --sshlogin "$logins" 2> told || { cat told; exit 1; }
cmp wanted.tsv logins.tsv
asked_once "two logins (${logins%% *})"
if command -v rsync > /dev/null; then
    "$many" films sent.tsv --sshlogin "$logins" --wd ... --transferfile {} --cleanup 2> told || { cat told; exit 1; }
    cmp wanted.tsv sent.tsv
    asked_once 'two logins to which the films are sent'
fi
echo 'the table is the same by each way'
