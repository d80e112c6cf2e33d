#!/usr/bin/env bash
# Draws the pictures of the decoder's buffer that the documents show.
#
# One is of a stream as `encode` writes it, one of the same with a first delay that is too short, and one of film with
# pulldown; two are of a clip with a cut, by each plan; one is of a disc's video at variable rate, as ffmpeg codes it. Of each the
# figures that `audit` reports, its first failure too, must be those of the line that `check` gives. It wants python3, and
# for the last one ffmpeg.
#
#     bench/draw/buffer.sh PROGRAM [PICTURES [FOLDER]]
#
# PROGRAM is the built program. The pictures go to PICTURES, docs/pictures where none is given; report.png there is what a browser
# shows of the page that bench/draw/report.sh makes of the late one. Clips and streams stay in FOLDER, /tmp/buffer where none is
# given.
set -eu
# shellcheck source=bench/measure/measure.sh
. "$(dirname "$(realpath "$0")")/../measure/measure.sh"
pictures=$(realpath "${2:-$bench/../docs/pictures}")
begin "$1" "${3:-/tmp/buffer}"
tell_missing ffmpeg

# said REPORT: the line of check, by what a report tells of sequence 0, in which no rule is broken.
said() {
    awk -F'\t' '
        function cell(name) { return $at[$1, name] }
        $1 == "columns" { for (i = 3; i <= NF; i++) at[$2, $i] = i - 1; next }
        !(($1, "sequence") in at) || cell("sequence") != 0 { next }
        $1 == "sequence" { rate = cell("rate") }
        $1 == "failure" && failure == "" {
            kind = cell("kind") == "over" ? "over" : "under"
            failure = "buffer " kind " picture " cell("picture") " have " cell("have") " need " cell("need")
        }
        $1 == "end" {
            counts = "frames " cell("frames") " pictures " cell("pictures") " bytes " cell("bytes")
            figures = "low " cell("low") " high " cell("high") " delays " cell("delays")
        }
        END { print rate == "variable" ? "variable " counts : failure != "" ? failure : "lawful " counts " " figures }' "$1"
}

# draw STREAM PICTURE TITLE
draw() {
    local line
    # what a stream breaks has statuses of its own
    "$program" audit --pictures < "$1.m2v" > "$1.report" 2> "$1.line" || true
    python3 "$bench/draw/buffer.py" 0 "$3" < "$1.report" > "$pictures/$2.svg"
    line=$("$program" check < "$1.m2v" 2>&1) || true
    echo "$2: $line; $(cat "$1.line")"
    [ "$(said "$1.report")" = "$line" ] || { echo "but by the report: $(said "$1.report")" >&2; return 1; }
}

# coded STREAM OPTION ..: two seconds at 600 kbit/s, with a buffer of 327,680 bits.
coded() {
    local stream=$1
    shift
    "$program" encode --width 176 --height 144 --bits 1500 --buffer 20 "$@" < "$clip" > "$stream.m2v" 2> "$stream.line" || told "$stream.line"
}

raw 176 144 50
coded plain --rate 3
draw plain buffer "Two seconds at 600 kbit/s, as encode codes them"

python3 - "$bench/cases" <<'END_OF_CHANGE'
import sys
sys.path.insert(0, sys.argv[1])
from verdicts import Parser
from verdicts_cases import with_delay
data = open('plain.m2v', 'rb').read()
open('late.m2v', 'wb').write(with_delay(data, 0, Parser(data).coded[0].delay // 4))
END_OF_CHANGE
draw late buffer_under "The same with a quarter of the first delay: the buffer runs under"

coded film --rate 5 --scan frames --pulldown
draw film buffer_film "Film at 24 frames a second, shown as 30 by pulldown"

# the clip, whose second half is its negative
python3 - "$clip" > cut.yuv <<'END_OF_CUT'
import sys
data = open(sys.argv[1], 'rb').read()
half = len(data) // 2
sys.stdout.buffer.write(data[:half] + data[half:].translate(bytes(range(255, -1, -1))))
END_OF_CUT
clip=cut.yuv
for plan in weights even; do
    coded $plan --rate 3 --plan $plan
    draw $plan buffer_$plan "A pan that turns to its negative, --plan $plan"
done

if has ffmpeg; then
    raw 720 576 75
    for _ in {1..25}; do head -c $((720 * 576 * 3 / 2)) "$clip"; done > still.yuv
    cat still.yuv "$clip" |
        ffmpeg -v error -y -f rawvideo -pix_fmt yuv420p -s 720x576 -r 25 -i - -target pal-dvd -aspect 4:3 -bf 2 -threads 1 disc.vob
    ffmpeg -v error -nostdin -y -i disc.vob -map 0:v:0 -c copy -f mpeg2video disc.m2v
    draw disc buffer_variable "A disc's video at variable rate, as ffmpeg codes it: a still for a second, then a pan"
fi
