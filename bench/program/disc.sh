#!/usr/bin/env bash
# Makes DVDs out of what `encode-y4m` writes, by mplex and dvdauthor, and reads them back.
#
# They are PAL and NTSC, 4:3 and 16:9, and film with pulldown. Of each the title must have its chapters, its video must come back from the disc byte for byte and be lawful, and ffmpeg must show the
# frames that `decode` shows, as many as were coded. It wants ffmpeg, mplex, dvdauthor and python3.
#
#     bench/program/disc.sh PROGRAM [FOLDER]
#
# PROGRAM is the built program. Clips, streams and discs stay in FOLDER, /tmp/discs where none is given.
set -eu
# shellcheck source=bench/measure/measure.sh
. "$(dirname "$(dirname "$(realpath "$0")")")/measure/measure.sh"
begin "$1" "${2:-/tmp/discs}"

# sound NAME SECONDS CODER: a tone of 48 kHz, as PAL players take it by mp2, and all by AC-3.
sound() {
    [ -s "$1" ] || ffmpeg -v error -y -f lavfi -i "sine=frequency=440:sample_rate=48000:duration=$2" -ac 2 -c:a "$3" -b:a 224k "$1" < /dev/null
}

# What the disc's tables say: the chapters of its one title, and the shape of its video. By the format of the IFO files: the
# sector of the table of chapters stands at byte C8, each chapter has 4 bytes there; the video's attributes stand at byte 200.
tables='
import sys
text = open(sys.argv[1], "rb").read()
number = lambda at, size: int.from_bytes(text[at:at + size], "big")
table = 2048 * number(0xC8, 4)
first, last = number(table + 8, 4), number(table + 4, 4)
print((last + 1 - first) // 4, "chapters", ("ntsc", "pal")[text[0x200] >> 4 & 3], {0: "4:3", 3: "16:9"}[text[0x200] >> 2 & 3])
'

# disc NAME STANDARD HEIGHT CODE SHAPE ASPECT FRAMES SOUND OPTION ..: a disc of so many frames with a chapter a second.
disc() {
    local name=$1 standard=$2 height=$3 code=$4 shape=$5 aspect=$6 frames=$7 sound=$8 said line
    shift 8
    raw 720 "$height" "$frames"
    "$program" pack 720 "$height" "$code" --top < "$clip" 2> pack.line |
        "$program" encode-y4m --bits 15000 --buffer 112 --scan frames --aspect "$aspect" --workers 4 "$@" > "$name.m2v" 2> encode.line || told encode.line
    mplex -v 0 -f 8 -o "$name.mpg" "$name.m2v" "$sound" > mplex.log 2>&1 || told mplex.log
    rm -rf "$name"
    cat > "$name.xml" << END_OF_XML
<dvdauthor dest="$name">
  <vmgm />
  <titleset>
    <titles>
      <video format="$standard" aspect="$shape" />
      <pgc><vob file="$name.mpg" chapters="0,0:01,0:02" /></pgc>
    </titles>
  </titleset>
</dvdauthor>
END_OF_XML
    VIDEO_FORMAT=${standard^^} dvdauthor -x "$name.xml" > dvdauthor.log 2>&1 || told dvdauthor.log
    said=$(python3 -c "$tables" "$name/VIDEO_TS/VTS_01_0.IFO")
    [ "$said" = "3 chapters $standard $shape" ] || { echo "$name: $said" >&2; return 1; }
    # the video as it lies on the disc
    ffmpeg -v error -y -i "$name/VIDEO_TS/VTS_01_1.VOB" -map 0:v:0 -c copy -f mpeg2video "$name.back" < /dev/null
    cmp "$name.m2v" "$name.back"
    line=$("$program" check < "$name.back" 2>&1) || true
    [[ $line == lawful* ]] || { echo "$name: $line" >&2; return 1; }
    # its frames, each once
    "$program" decode --workers 4 < "$name.back" > shown.yuv 2> decode.line || told decode.line
    ffmpeg -v error -y -i "$name/VIDEO_TS/VTS_01_1.VOB" -map 0:v:0 -fps_mode passthrough -f rawvideo -pix_fmt yuv420p shown.ref < /dev/null
    echo "$name: $said; ffmpeg's frames differ by $(python3 "$bench/measure/distance.py" shown.yuv shown.ref | cut -d' ' -f2) at most; $line"
    grep -q "^frames $frames " decode.line || told decode.line
}

sound sound.mp2 3 mp2
sound sound.ac3 3 ac3
disc pal pal 576 3 4:3 2 75 sound.mp2
disc pal_wide pal 576 3 16:9 3 75 sound.ac3
disc ntsc ntsc 480 4 4:3 2 90 sound.ac3
disc ntsc_wide ntsc 480 4 16:9 3 90 sound.ac3
disc film ntsc 480 4 16:9 3 72 sound.ac3 --pulldown
