#!/usr/bin/env bash
# Decodes and checks clips, and prints a table of the speed beside other decoders.
#
# The table has frames a second of `decode` by 1, 2 and 4 workers and of `check`, how many times the speed of one worker
# that is, and instructions a frame by one worker, beside ffmpeg by 1 and 4 threads and mpeg2dec without lanes, each the
# least and the most over the clips. Every number of workers must give the same frames, and as many as ffmpeg shows;
# standard error has a line a clip, with the largest difference of a sample from ffmpeg's frames. The clips are
# ffmpeg's; where it isn't installed, two that `encode` makes. It wants python3; mpeg2dec and valgrind are left out
# where they aren't installed.
#
#     bench/measure/decode.sh PROGRAM [FOLDER [SECONDS]]
#
# PROGRAM is the built program (crates/m2v_main/out/m2v_main, after one call of ./puckerledge). Clips and outputs stay
# in FOLDER, /tmp/clips where none is given. The clips have 4 seconds, or SECONDS; instructions are counted in those of
# 4 alone.
set -eu
# shellcheck source=bench/measure/measure.sh
. "$(dirname "$(realpath "$0")")/measure.sh"
seconds=${3:-4}
begin "$1" "${2:-/tmp/clips}/$seconds"
tell_missing ffmpeg mpeg2dec valgrind

# A clip of 720 by 576 samples: its name, the source's rate and filter, and the encoder's words. One of less than four seconds
# wouldn't have the bit rate that is asked for: the encoder spends more in its first second, up to its buffer. And what a program
# does once, such as to take its memory, counts in a short one.
names=()
clip() {
    local name=$1 rate=$2 filter=$3
    shift 3
    names+=("$name")
    [ -s "$name.m2v" ] || ffmpeg -v error -y -f lavfi \
        -i "testsrc2=size=720x576:rate=$rate:duration=$seconds,noise=alls=12:allf=t$filter" \
        -pix_fmt yuv420p -c:v mpeg2video -maxrate 15M -bufsize 1835k "$@" "$name.m2v"
}

own() {
    names+=("own_$1")
    [ -s "own_$1.m2v" ] || "$program" encode --width 720 --height 576 --rate 3 --bits 15000 --buffer 112 --scan "$1" \
        < "$clip" > "own_$1.m2v" 2> own.line || told own.line
}

if has ffmpeg; then
    clip progressive 25 "" -b:v 6M -g 12 -bf 2
    clip interlaced 50 ",interlace" -flags +ildct+ilme -b:v 6M -g 12 -bf 2
    clip intra 25 "" -b:v 15M -g 1
    clip tables 25 "" -b:v 6M -g 12 -bf 2 -intra_vlc 1 -alternate_scan 1 -non_linear_quant 1 -qmax 28 -dc 10
    clip bottom 50 ",interlace=scan=bff" -flags +ildct+ilme -top 0 -b:v 6M -g 12 -bf 2
    clip closed 25 "" -flags +cgop -sc_threshold 1000000000 -b:v 6M -g 12 -bf 2
else
    raw 720 576 25
    own progressive
    own frames
fi

# The tools, each on a clip, with frames that go nowhere.
by_decode() { "$program" decode < "$1.m2v" > /dev/null 2> "$1.line"; }
by_decode2() { "$program" decode --workers 2 < "$1.m2v" > /dev/null 2> "$1.line"; }
by_decode4() { "$program" decode --workers 4 < "$1.m2v" > /dev/null 2> "$1.line"; }
by_ffmpeg() { ffmpeg -v error -y -threads 1 -i "$1.m2v" -f rawvideo -pix_fmt yuv420p /dev/null < /dev/null; }
by_ffmpeg4() { ffmpeg -v error -y -threads 4 -i "$1.m2v" -f rawvideo -pix_fmt yuv420p /dev/null < /dev/null; }
by_mpeg2dec() { mpeg2dec -c -o null "$1.m2v" > mpeg2dec.log 2>&1; }
# another encoder's clip may break a rule or the buffer
by_check() {
    local status=0
    "$program" check < "$1.m2v" 2> "$1.verdict" || status=$?
    case $status in 0 | 10 | 11) ;; *) told "$1.verdict" ;; esac
}

# Nanoseconds that each tool takes for a clip: the least of five, turn by turn, since what else runs on the machine can only
# slow one down, and for a while at a time.
declare -A least
turns() {
    local tool took turn
    least=()
    for turn in 1 2 3 4 5; do
        for tool in decode decode2 decode4 check ffmpeg ffmpeg4 mpeg2dec; do
            has_tool $tool || continue
            took=$(nanoseconds "by_$tool" "$1")
            if [ "$turn" = 1 ] || [ "$took" -lt "${least[$tool]}" ]; then least[$tool]=$took; fi
        done
    done
}
has_tool() {
    case $1 in decode* | check) ;; ffmpeg*) has ffmpeg ;; *) has "$1" ;; esac
}

declare -A speeds times counts
for name in "${names[@]}"; do
    "$program" decode < "$name.m2v" > "$name.yuv" 2> "$name.line" || told "$name.line"
    for workers in 2 4; do
        "$program" decode --workers $workers < "$name.m2v" 2> "$name.line" | cmp - "$name.yuv"
    done
    frames=$(cut -d' ' -f2 "$name.line")
    said="$name: $(cat "$name.line")"
    turns "$name"
    for tool in "${!least[@]}"; do
        speeds[$tool]+=" $(rate "$frames" "${least[$tool]}")"
    done
    for tool in decode2 decode4; do
        times[$tool]+=" $(awk -v a="${least[decode]}" -v t="${least[$tool]}" 'BEGIN { printf "%.2f", a / t }')"
    done
    if has ffmpeg; then
        ffmpeg -v error -y -i "$name.m2v" -f rawvideo -pix_fmt yuv420p "$name.ref" < /dev/null
        apart=$(python3 "$bench/measure/distance.py" "$name.yuv" "$name.ref")
        said+=", largest difference from ffmpeg ${apart#* }"
    fi
    echo "$said, check: $(cat "$name.verdict")" >&2
    [ "$seconds" = 4 ] || continue
    counts[decode]+=" $(instructions "$frames" "$name.m2v" "$program" decode)"
    counts[check]+=" $(instructions "$frames" "$name.m2v" "$program" check)"
    if has mpeg2dec; then counts[mpeg2dec]+=" $(instructions "$frames" "$name.m2v" mpeg2dec -c -o null "$name.m2v")"; fi
done

# The least and the most of some numbers.
range() {
    tr ' ' '\n' <<< "$1" | sed "/^$none*$/d" | sort -g | sed -n '1p;$p' | uniq | paste -s -d- | sed 's/-/ to /'
}

echo "| | frames a second | times one worker | million instructions a frame |"
echo "|---|---|---|---|"
row "\`decode\`" "$(range "${speeds[decode]}")" "" "$(range "${counts[decode]-}")"
row "\`decode\`, 2 workers" "$(range "${speeds[decode2]}")" "$(range "${times[decode2]}")" ""
row "\`decode\`, 4 workers" "$(range "${speeds[decode4]}")" "$(range "${times[decode4]}")" ""
row "\`check\`" "$(range "${speeds[check]}")" "" "$(range "${counts[check]-}")"
if has ffmpeg; then
    row "ffmpeg, one thread" "$(range "${speeds[ffmpeg]}")" "" ""
    row "ffmpeg, 4 threads" "$(range "${speeds[ffmpeg4]}")" "" ""
fi
if has mpeg2dec; then row "\`mpeg2dec -c\`" "$(range "${speeds[mpeg2dec]}")" "" "$(range "${counts[mpeg2dec]-}")"; fi
