#!/usr/bin/env bash
# Prints what the README says of speed and of how good pictures are, as it stands there.
#
# That is the table of coding by encode.sh, that of decoding and checking by decode.sh, and that of both plans at equal bytes
# by quality.py, beside the peers that are installed. Standard error says which of these aren't, and has a line a clip.
#
#     bench/measure/table.sh PROGRAM [FOLDER]
#
# PROGRAM is the built program (crates/m2v_main/out/m2v_main, after one call of ./puckerledge). Clips and streams stay
# in FOLDER, /tmp/table where none is given.
set -eu
program=$(realpath "$1")
folder=${2:-/tmp/table}
here=$(dirname "$(realpath "$0")")

speed=$(awk '/^cpu MHz/ { printf " at %.1f GHz", $NF / 1000; exit }' /proc/cpuinfo)
echo "On $(nproc) processors$speed. Coding 25 frames of 720 by 576 samples, a pan with moving parts and noise, in frames a second; vectors are looked for so many samples far:"
echo
"$here/encode.sh" "$program" "$folder"
if command -v ffmpeg > /dev/null; then
    echo
    echo "How good pictures are at equal bytes, by both plans, and by others with such groups and such a buffer: the likeness of luma to the source (PSNR, dB), over the 60 frames of a clip in the mean, and of its worst frame; each the mean over four sizes between what all wrote at 2, 4, 6 and 8 Mbit/s:"
    echo
    "$here/quality.py" "$program" "$folder/quality"
fi
echo
echo "Decoding and checking clips of that size, four seconds each, five of them at 6 Mbit/s and one of I pictures at 15, the least and the most over the clips:"
echo
"$here/decode.sh" "$program" "$folder"
