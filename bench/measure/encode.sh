#!/usr/bin/env bash
# Encodes a clip at two rates, and prints a table of speed and likeness beside other encoders.
#
# The table has frames a second by 1, 2 and 4 workers, the processor's time for a frame by one, the likeness to the clip (PSNR), the bytes, and the instructions a frame of an I, a P and two B pictures by one worker; beside
# ffmpeg's exhaustive search over the same reach, its own choice of a search, and mpeg2enc. Every number of workers must give the
# same bytes, `check` must find them lawful, and ffmpeg and mpeg2dec must read them without a word. It wants python3; ffmpeg,
# mpeg2enc, mpeg2dec and valgrind are left out where they aren't installed.
#
#     bench/measure/encode.sh PROGRAM [FOLDER] [FRAMES]
#
# PROGRAM is the built program (crates/m2v_main/out/m2v_main, after one call of ./puckerledge). The clip and what is
# coded stay in FOLDER, /tmp/coded where none is given. The clip has 25 frames where no number is given.
set -eu
# shellcheck source=bench/measure/measure.sh
. "$(dirname "$(realpath "$0")")/measure.sh"
begin "$1" "${2:-/tmp/coded}"
frames=${3:-25}
raw 720 576 4
four=$clip
raw 720 576 "$frames"
tell_missing ffmpeg mpeg2enc mpeg2dec valgrind

# words WORKERS: those of `encode`, by the rate, the scan, the plan and the reach at hand.
words() {
    echo encode --width 720 --height 576 --rate 3 --bits $((mbits * 2500)) --buffer 112 --search "$reach" --scan "$scan" --plan "$plan" --workers "$1"
}

# ours INPUT STREAM WORKERS
ours() {
    # shellcheck disable=SC2046
    "$program" $(words "$3") < "$1" > "$2" 2> "$2.line" || told "$2.line"
}

# What a stream decodes to, beside the clip: its PSNR and its bytes.
figures() {
    "$program" decode < "$1" > shown.yuv 2> shown.line || told shown.line
    psnr=$(python3 "$bench/measure/distance.py" shown.yuv "$clip")
    psnr="${psnr% *} dB"
    bytes=$(stat -c %s "$1")
}

# by_us REACH SCAN PLAN NAME: the row of vectors of so many samples at most.
by_us() {
    local workers stream reach=$1 scan=$2 plan=$3 one=$2$1-$3-$mbits-1.m2v took used cells=() processor=""
    for workers in 1 2 4; do
        stream=$scan$reach-$plan-$mbits-$workers.m2v
        read -r took used <<< "$(cost "$frames" ours "$clip" "$stream" "$workers")"
        cells+=("$took")
        processor=${processor:-$used}
        cmp "$one" "$stream"
    done
    "$program" check < "$one" 2> check.line || told check.line
    if has ffmpeg; then ffmpeg -v error -i "$one" -f null - < /dev/null; fi
    if has mpeg2dec; then mpeg2dec -o null "$one" > mpeg2dec.log 2>&1; fi
    figures "$one"
    # shellcheck disable=SC2046
    row "\`encode\`, $4, $reach far" "${cells[@]}" "$processor" "$psnr" "$bytes" "$(instructions 4 "$four" "$program" $(words 1))"
}

# ffmpeg by one thread, with the words of its search. Its -me_range counts half samples, and -dia_size has 1,024 and the samples
# of an exhaustive search: so -me_range 30 -dia_size 1039 looks 15 samples far and no farther, as vectors in its streams show.
# Its lanes are what the processor adds for several samples at once.
ffmpeg_codes() {
    ffmpeg -v error -y ${flags:+-cpuflags "$flags"} -threads 1 -f rawvideo -s 720x576 -r 25 -pix_fmt yuv420p -i "$clip" -c:v mpeg2video \
        -b:v "${mbits}M" -minrate "${mbits}M" -maxrate "${mbits}M" -bufsize 1835k -g 12 -bf 2 "$@" "ffmpeg$mbits.m2v" < /dev/null
}

# by_ffmpeg NAME WORD ..: two rows, with lanes and without.
by_ffmpeg() {
    local name=$1 took used flags
    shift
    for flags in "" 0; do
        read -r took used <<< "$(cost "$frames" ffmpeg_codes "$@")"
        figures "ffmpeg$mbits.m2v"
        row "ffmpeg, $name${flags:+, without lanes}" "$took" "" "" "$used" "$psnr" "$bytes" ""
    done
}

by_mpeg2enc() {
    mpeg2enc -v 0 -f 3 -b $((mbits * 1000)) -V 224 -r 15 -g 12 -G 12 -R 2 -M 0 -o "mpeg2enc$mbits.m2v" < clip.y4m > mpeg2enc.log 2>&1
}

for mbits in 4 6; do
    echo "| $mbits Mbit/s | 1 worker | 2 workers | 4 workers | processor, ms a frame | PSNR | bytes | million instructions a frame |"
    echo "|---|---|---|---|---|---|---|---|"
    by_us 15 progressive weights progressive
    by_us 15 progressive even "progressive, \`--plan even\`"
    by_us 7 progressive weights progressive
    by_us 15 frames weights "frames of two fields"
    if has ffmpeg; then
        by_ffmpeg "exhaustive search, 15 far" -me_range 30 -dia_size 1039
        by_ffmpeg "exhaustive search, 7 far" -me_range 14 -dia_size 1031
        by_ffmpeg "its own choice"
    fi
    if has mpeg2enc; then
        "$program" pack 720 576 3 < "$clip" > clip.y4m 2> pack.line
        read -r took used <<< "$(cost "$frames" by_mpeg2enc)"
        figures "mpeg2enc$mbits.m2v"
        row "mpeg2enc" "$took" "" "" "$used" "$psnr" "$bytes" ""
    fi
    echo
done
