#!/usr/bin/env bash
# Cuts groups out of clips of other encoders, and has the cuts played by other decoders.
#
# ffmpeg and mpeg2dec must play each cut without a word, and what `decode` shows of a cut must be frames that it shows
# of the whole clip, one behind another. It wants ffmpeg, mpeg2dec and python3, and mpeg2enc for one more clip.
#
#     bench/program/cut.sh PROGRAM [FOLDER]
#
# PROGRAM is the built program. Clips and cuts stay in FOLDER, /tmp/cuts where none is given.
set -eu
program=$(realpath "$1")
folder=${2:-/tmp/cuts}
mkdir -p "$folder"
cd "$folder"

# A clip of two seconds of 720 by 576 samples: its name, the source's rate and filter, and ffmpeg's words.
clip() {
    local name=$1 rate=$2 filter=$3
    shift 3
    [ -s "$name.m2v" ] || ffmpeg -v error -y -f lavfi \
        -i "testsrc2=size=720x576:rate=$rate:duration=2,noise=alls=12:allf=t$filter" \
        -pix_fmt yuv420p -c:v mpeg2video -b:v 6M -maxrate 15M -bufsize 1835k -g 12 -bf 2 "$@" "$name.m2v"
}

# Where the frames of a cut stand among those of the whole: each follows the one before, but where B frames that were left
# out stood between.
compare='
import sys
whole, cut = (open(name, "rb").read() for name in sys.argv[1:3])
size = 720 * 576 * 3 // 2
whole, cut = ([text[k : k + size] for k in range(0, len(text), size)] for text in (whole, cut))
places, at = [], 0
for frame in cut:
    at = whole.index(frame, at)
    places.append(at)
    at += 1
print("  frames", " ".join(map(str, places)), "of", len(whole))
'

clip progressive 25 ""
clip interlaced 50 ",interlace" -flags +ildct+ilme
clip closed 25 "" -flags +cgop -sc_threshold 1000000000
names="progressive interlaced closed"
if command -v mpeg2enc > /dev/null; then
    [ -s other.m2v ] || ffmpeg -v error -y -f lavfi -i "testsrc2=size=720x576:rate=25:duration=2,noise=alls=12:allf=t" \
        -pix_fmt yuv420p -f yuv4mpegpipe - | mpeg2enc -v 0 -f 8 -b 6000 -R 2 -g 9 -G 12 -o other.m2v
    names="$names other"
fi
for name in $names; do
    "$program" decode < "$name.m2v" > "$name.yuv" 2> "$name.line"
    echo "$name: $(cat "$name.line")"
    for words in "0 1" "1 1" "1 2" "2 9"; do
        # shellcheck disable=SC2086
        "$program" cut $words < "$name.m2v" > cut.m2v 2> cut.line
        "$program" decode < cut.m2v > cut.yuv 2> shown.line
        echo "cut $words: $(cat cut.line); decode: $(cat shown.line)"
        python3 -c "$compare" "$name.yuv" cut.yuv
        ffmpeg -v warning -y -i cut.m2v -f rawvideo -pix_fmt yuv420p ffmpeg.yuv
        mpeg2dec -o null cut.m2v > /dev/null
    done
done
