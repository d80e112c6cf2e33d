#!/usr/bin/env bash
# Hands raw video on as YUV4MPEG2, from ffmpeg and to it.
#
# `unpack` of what ffmpeg writes must be ffmpeg's own raw frames, and ffmpeg must read what `pack` writes as the frames
# that were packed, progressive and interlaced. What `encode-y4m` makes of what ffmpeg writes into a pipe must be what
# `encode` makes of the raw frames; `decode` must give the frames that were kept; ffmpeg must play it without a word,
# and how far its frames are from those is printed, since it rounds transforms in its own way; and ffmpeg must read what
# `decode` and `pack` hand on as the frames that were kept. It wants ffmpeg and python3.
#
#     bench/program/y4m.sh PROGRAM [FOLDER]
#
# PROGRAM is the built program. The clips stay in FOLDER, /tmp/y4m where none is given.
set -eu -o pipefail
# shellcheck source=bench/measure/measure.sh
. "$(dirname "$(realpath "$0")")/../measure/measure.sh"
for tool in ffmpeg python3; do
    has "$tool" || { echo "bench/program/y4m.sh: there is no $tool" >&2; exit 1; }
done
begin "$1" "${2:-/tmp/y4m}"

# the clip of which the last call of clip spoke, by ffmpeg: its words on the output
source_to() {
    ffmpeg -v error -y -f lavfi -i "testsrc=size=$size:rate=$rate:duration=1,$filter" -pix_fmt yuv420p "$@"
}

# the same as YUV4MPEG2
text_to() {
    # shellcheck disable=SC2086
    source_to $order -strict -1 -f yuv4mpegpipe "$1"
}

# name, size, rate, its code, ffmpeg's filter, the flag of pack, ffmpeg's words on the order of fields
clip() {
    name=$1 size=$2 rate=$3 code=$4 filter=$5 flag=${6:-} order=${7:-}
    width=${size%x*} height=${size#*x}
    source_to -f rawvideo "$name.yuv"
    text_to "$name.y4m"
    echo "$name: $(head -n 1 "$name.y4m")"
    "$program" unpack < "$name.y4m" > "$name.unpacked" 2> "$name.line"
    cmp "$name.yuv" "$name.unpacked"
    echo "  unpack: $(cat "$name.line"), ffmpeg's own frames"
    # shellcheck disable=SC2086
    "$program" pack "$width" "$height" "$code" $flag < "$name.yuv" 2> "$name.line" | ffmpeg -v error -y -i - -f rawvideo "$name.back"
    cmp "$name.yuv" "$name.back"
    echo "  pack: $(cat "$name.line"), read by ffmpeg as the same frames"
}

# Codes the clip with these options.
coded() {
    local apart
    "$program" encode --width "$width" --height "$height" --rate "$code" "$@" --recon "$name.kept" < "$name.yuv" > "$name.m2v" 2> "$name.line"
    text_to - | "$program" encode-y4m "$@" --recon "$name.text.kept" > "$name.text.m2v" 2> "$name.text.line"
    cmp "$name.m2v" "$name.text.m2v"
    cmp "$name.line" "$name.text.line"
    cmp "$name.kept" "$name.text.kept"
    echo "  encode-y4m $*: $(cat "$name.text.line"), as encode"
    "$program" decode < "$name.text.m2v" 2> "$name.decoded" | cmp - "$name.kept"
    ffmpeg -v error -y -i "$name.text.m2v" -f rawvideo -pix_fmt yuv420p "$name.played" 2> "$name.words"
    cat "$name.words"
    [ ! -s "$name.words" ]
    apart=$(python3 "$bench/measure/distance.py" "$name.kept" "$name.played")
    echo "  ffmpeg plays it, the largest difference of a sample is ${apart#* }"
    # shellcheck disable=SC2086
    "$program" decode < "$name.text.m2v" 2> "$name.decoded" | "$program" pack "$width" "$height" "$code" $flag 2> "$name.line" \
        | ffmpeg -v error -y -i - -f rawvideo "$name.back"
    cmp "$name.kept" "$name.back"
    echo "  decode and pack: $(cat "$name.line"), read by ffmpeg as the same frames"
}

# The clip has a size that `encode` doesn't take: the line and the status are the same, and nothing is written.
refused() {
    local status=0 text_status=0
    "$program" encode --width "$width" --height "$height" --rate "$code" "$@" < "$name.yuv" > "$name.m2v" 2> "$name.line" || status=$?
    "$program" encode-y4m "$@" < "$name.y4m" > "$name.text.m2v" 2> "$name.text.line" || text_status=$?
    [ "$status" -eq 3 ]
    [ "$text_status" -eq 3 ]
    cmp "$name.line" "$name.text.line"
    [ ! -s "$name.text.m2v" ]
    echo "  encode-y4m $*: $(cat "$name.text.line"), as encode"
}

clip progressive 720x576 25 3 null
coded --bits 10000 --buffer 112 --search 3 --workers 2
coded --bits 4000 --buffer 70 --search 0 --group 4 --step 2 --closed
clip interlaced 720x576 25 3 setfield=tff --top '-field_order tt'
coded --bits 15000 --buffer 112 --search 3 --scan frames
coded --bits 15000 --buffer 112 --search 3 --scan fields --workers 4
clip film 720x480 24000/1001 1 null
coded --bits 10000 --buffer 112 --search 3
clip even 34x18 30 5 null
coded --bits 1000 --buffer 10
clip odd 33x17 30 5 null
refused --bits 1000 --buffer 10
