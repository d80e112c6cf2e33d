#!/usr/bin/env bash
# Prints the verdicts on streams of other encoders, and holds `check` against them.
#
# The streams are of Main level, most of them at constant rate; the verdicts are those of bench/cases/verdicts.py. It
# wants ffmpeg, mpeg2enc and python3.
#
#     bench/program/verdicts.sh [FOLDER [PROGRAM]]
#
# Streams stay in FOLDER, /tmp/verdicts where none is given. With PROGRAM, the built program, its check is held against
# what is said.
set -eu
cases=$(dirname "$(dirname "$(realpath "$0")")")/cases
folder=${1:-/tmp/verdicts}
program=${2:+$(realpath "$2")}
mkdir -p "$folder"
cd "$folder"

# A stream of ffmpeg: its name, the source, how many frames, and the encoder's words.
by_ffmpeg() {
    local name=$1 source=$2 frames=$3
    shift 3
    [ -s "$name.m2v" ] || ffmpeg -v fatal -y -f lavfi -i "$source" -frames:v "$frames" -pix_fmt yuv420p -threads 1 \
        -c:v mpeg2video "$@" -f mpeg2video "$name.m2v"
}
constant=(-b:v 4M -minrate 4M -maxrate 4M -bufsize 1835008)
by_ffmpeg ip testsrc=size=352x288:rate=25 26 "${constant[@]}"
by_ffmpeg ibp testsrc=size=352x240:rate=30000/1001 31 "${constant[@]}" -bf 2 -g 15
by_ffmpeg large testsrc2=size=720x576:rate=25 15 "${constant[@]}"
by_ffmpeg large_b testsrc2=size=720x576:rate=25 15 "${constant[@]}" -bf 2 -g 12
by_ffmpeg interlaced testsrc2=size=352x288:rate=25 26 "${constant[@]}" -flags +ildct+ilme -top 1 -bf 2
by_ffmpeg low_delay testsrc2=size=352x288:rate=25 26 "${constant[@]}" -flags +low_delay
by_ffmpeg closed testsrc2=size=352x288:rate=25 26 "${constant[@]}" -flags +cgop -sc_threshold 1000000000 -bf 2
by_ffmpeg dc_10 testsrc=size=352x288:rate=25 14 "${constant[@]}" -dc 10
by_ffmpeg too_much "nullsrc=size=352x288:rate=25,geq=random(1)*255:128:128" 14 "${constant[@]}" -bf 2
by_ffmpeg no_rate testsrc2=size=352x288:rate=25 14 -q:v 4
by_ffmpeg wider_level testsrc=size=736x288:rate=25 8 "${constant[@]}"
by_ffmpeg fast testsrc=size=352x288:rate=50 8 "${constant[@]}"

# A stream of mpeg2enc: its name, the source, and the encoder's words.
by_mpeg2enc() {
    local name=$1 source=$2
    shift 2
    [ -s "$name.m2v" ] || ffmpeg -v fatal -f lavfi -i "$source" -frames:v 16 -pix_fmt yuv420p -f yuv4mpegpipe - |
        mpeg2enc -v 0 -f 3 -b 4000 "$@" -o "$name.m2v" 2>/dev/null
}
by_mpeg2enc enc testsrc2=size=352x288:rate=25 -I 0
by_mpeg2enc enc_b testsrc2=size=352x288:rate=25 -I 0 -R 2 -g 6 -G 9
by_mpeg2enc enc_large testsrc2=size=720x576:rate=25 -I 0
by_mpeg2enc enc_interlaced testsrc2=size=352x288:rate=25 -I 1 -R 2
by_mpeg2enc enc_closed testsrc2=size=352x288:rate=25 -c -R 2 -V 224
by_mpeg2enc enc_film testsrc2=size=352x288:rate=24000/1001 -p -R 2
by_mpeg2enc enc_forced testsrc2=size=352x240:rate=30000/1001 -I 1

# mpeg2enc writes 65535 as each vbv_delay: so that its buffer is judged, the first one is set to 20000 and to 4000 here.
for name in enc enc_b enc_film; do
    for delay in 20000 4000; do
        python3 - "$cases" "$name.m2v" "${name}_$delay.m2v" "$delay" <<'END'
import sys
sys.path.insert(0, sys.argv[1])
from verdicts_cases import with_delay
data = open(sys.argv[2], 'rb').read()
open(sys.argv[3], 'wb').write(with_delay(data, 0, int(sys.argv[4])))
END
    done
done

for stream in *.m2v; do
    wanted=$(python3 "$cases/verdicts.py" "$stream")
    echo "$wanted"
    if [ -n "$program" ]; then
        status=0
        line=$("$program" check <"$stream" 2>&1 >/dev/null) || status=$?
        [ "$wanted" = "$stream: status $status $line" ] || echo "    but the program says: status $status $line"
    fi
done
