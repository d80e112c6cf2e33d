#!/usr/bin/env bash
# Prints what `audit` finds in streams of other encoders and of this one, under the sets of rules that they are made for.
#
# It wants ffmpeg, mpeg2enc and python3. The streams are those of bench/program/verdicts.sh, under the rules of the standard,
# and some that are made for discs and broadcasts. Each report is held against that of bench/cases/audited.py, by the rules
# alone: where one differs the status is 1.
#
#     bench/program/audited.sh PROGRAM [FOLDER]
#
# Streams stay in FOLDER, /tmp/verdicts where none is given. bench/program/audited_outside.txt has what was found.
set -eu
here=$(dirname "$(realpath "$0")")
program=$(realpath "$1")
folder=${2:-/tmp/verdicts}
mkdir -p "$folder"
"$here/verdicts.sh" "$folder" > /dev/null
cd "$folder"

# Twelve frames: of a size, at a rate, as a text that encoders read.
pictures() {
    ffmpeg -v fatal -f lavfi -i "testsrc2=size=$1:rate=$2" -frames:v 12 -pix_fmt yuv420p -f yuv4mpegpipe -
}
# A stream of ffmpeg for a disc: its name, size and rate, and the words behind.
disc_by_ffmpeg() {
    local name=$1 size=$2 rate=$3
    shift 3
    [ -s "$name.m2v" ] || pictures "$size" "$rate" | ffmpeg -v fatal -y -i - -threads 1 -an "$@" -f mpeg2video "$name.m2v"
}
disc_by_ffmpeg pal_dvd 720x576 25 -target pal-dvd
disc_by_ffmpeg pal_dvd_wide 720x576 25 -target pal-dvd -aspect 16:9 -flags +ildct+ilme
disc_by_ffmpeg ntsc_dvd 720x480 30000/1001 -target ntsc-dvd -aspect 4:3
disc_by_ffmpeg ntsc_dvd_fields 720x480 30000/1001 -target ntsc-dvd -aspect 4:3 -flags +ildct+ilme
disc_by_ffmpeg pal_svcd 480x576 25 -target pal-svcd
# One of mpeg2enc: its name, size and rate, and the words behind.
disc_by_mpeg2enc() {
    local name=$1 size=$2 rate=$3
    shift 3
    [ -s "$name.m2v" ] || pictures "$size" "$rate" | mpeg2enc -v 0 "$@" -o "$name.m2v" 2>/dev/null
}
disc_by_mpeg2enc disc_pal 720x576 25 -f 8 -n p -a 3
disc_by_mpeg2enc disc_film 720x480 24000/1001 -f 8 -n n -a 2 -p
disc_by_mpeg2enc plain_pal 720x576 25 -f 3 -b 4000 -a 2
# One of this program: its name, size and rate, and the words behind.
disc_by_own() {
    local name=$1 size=$2 rate=$3
    shift 3
    pictures "$size" "$rate" | "$program" encode-y4m --bits 15000 --buffer 112 "$@" > "$name.m2v" 2>/dev/null
}
disc_by_own own_frames 720x576 25 --scan frames --aspect 3
disc_by_own own_fields 720x576 25 --scan fields --aspect 2
disc_by_own own_film 720x480 30000/1001 --scan frames --pulldown --aspect 3
disc_by_own own_progressive 720x576 25 --aspect 3
disc_by_own own_rows 704x484 30000/1001 --scan frames --aspect 2

# What is found in a stream under a set: the status, the line, and how often each rule and warning was told.
found() {
    local status=0 wanted=0 line
    line=$("$program" audit --for "$2" < "$1.m2v" 2>&1 > report.txt) || status=$?
    python3 "$here/../cases/audited.py" --for "$2" < "$1.m2v" > wanted.txt 2> wanted_line.txt || wanted=$?
    if [ "$status" != "$wanted" ] || [ "$line" != "$(cat wanted_line.txt)" ] || ! cmp -s report.txt wanted.txt; then
        echo "$1 $2: the report isn't that of the rules alone"
        return 1
    fi
    echo "$1 $2: status $status $line"
    awk -F'\t' '$1 == "breach" || $1 == "warning" || $1 == "failure" {
        key = $1 == "failure" ? "    failure " $5 : "    " $1 " " $5 " " $6 " have " $7 " need " $8
        if (!n[key]++) keys[++k] = key }
        END { for (i = 1; i <= k; i++) print keys[i] ", " n[keys[i]] " times" }' report.txt | head -12
}

others=$(ls ./*.m2v | sed 's/^..//; s/\.m2v$//' | grep -v -e base_ -e dvd -e svcd -e disc_ -e own_ -e plain_)
wrong=0
for name in $others pal_svcd plain_pal own_rows; do found "$name" main || wrong=1; done
for name in pal_dvd pal_dvd_wide ntsc_dvd ntsc_dvd_fields pal_svcd disc_pal disc_film own_frames own_fields own_film own_progressive; do
    found "$name" dvd || wrong=1
done
for name in pal_dvd_wide pal_svcd disc_pal own_frames own_progressive; do found "$name" dvb || wrong=1; done
for name in ntsc_dvd own_rows; do found "$name" atsc || wrong=1; done
# real discs' streams, which stand in the repository
cp "$here"/../streams/*.m2v .
for name in base_pal base_ntsc_wide; do found "$name" dvd || wrong=1; done
exit "$wrong"
