#!/usr/bin/env bash
# Runs the built program from outside, each command and each status that can be reached so; the gate runs it.
#
#     bench/program/end_to_end.sh [PROGRAM]
#
# It compares status, the line on standard error, standard output and the files of --recon and --list with stated values:
# streams that were worked out by hand, and what docs/COMMANDS.md says. The last line is `N passed, M failed`; it fails
# where one failed.
set -u
top=$(dirname "$(dirname "$(dirname "$(readlink -f "$0")")")")
program=$(readlink -f "${1:-$top/crates/m2v_main/out/m2v_main}")
room=$(mktemp -d)
trap 'rm -rf "$room"' EXIT
cd "$room" || exit 1
passed=0
failed=0

# bytes HEX..: the bytes of hexadecimal numbers.
bytes() { printf "$(printf '\\x%s' $*)"; }
# clip WIDTH HEIGHT FRAMES LUMA: raw frames, their luma by frame t, line y and column c, with grey chroma. A draw is that of
# `make 1`: its state has four parts of 16 bits, the lowest first.
clip() {
  printf "$(awk -v w="$1" -v h="$2" -v n="$3" "
    function draw(  i, j, next_state) {
      for (i = 0; i < 4; i++) {
        next_state[i] += add[i]
        for (j = 0; i + j < 4; j++) next_state[i + j] += state[i] * times[j]
      }
      for (i = 0; i < 4; i++) {
        next_state[i + 1] += int(next_state[i] / 65536)
        state[i] = next_state[i] % 65536
      }
      return int(state[3] / 256)
    }
    BEGIN {
      state[0] = 1; state[1] = state[2] = state[3] = 0
      times[0] = 32557; times[1] = 19605; times[2] = 62509; times[3] = 22609
      add[0] = 33103; add[1] = 63335; add[2] = 31614; add[3] = 5125
      for (t = 0; t < n; t++) {
        for (y = 0; y < h; y++) for (c = 0; c < w; c++) printf \"\\\\x%02x\", $4
        for (i = 0; i < w * h / 2; i++) printf \"\\\\x80\"
      }
    }")"
}
# grey N: N bytes of value 128.
grey() { head -c "$1" /dev/zero | tr '\0' '\200'; }

# what is told goes here also where a case has another standard output
exec 3>&1
# tell NAME FAULT: one case more, passed where there is no fault.
tell() {
  if [ -z "$2" ]; then passed=$((passed + 1)); else failed=$((failed + 1)); echo "FAILED: $1: $2" >&3; fi
}

# holds NAME STATUS LINE OUTPUT WORD..: runs the program on the file `in`; LINE is what stands on standard error without its
# newline, OUTPUT the file with what is to stand on standard output.
holds() {
  local name=$1 status=$2 line=$3 output=$4 fault="" ended
  shift 4
  timeout 60 "$program" "$@" < in > out 2> err
  ended=$?
  if [ "$line" ]; then printf '%s\n' "$line" > line; else : > line; fi
  [ "$ended" = "$status" ] || fault="status $ended, not $status"
  cmp -s line err || fault="$fault; the line is '$(head -c 200 err)', not '$line'"
  cmp -s "$output" out || fault="$fault; the output isn't what it should be"
  tell "$name" "${fault#; }"
}

# ends NAME STATUS LINE WORD..: the same where output isn't looked at, with the program's standard input and output as they
# are given.
ends() {
  local name=$1 status=$2 line=$3 fault="" ended
  shift 3
  timeout 60 "$program" "$@" 2> err
  ended=$?
  if [ "$line" ]; then printf '%s\n' "$line" > line; else : > line; fi
  [ "$ended" = "$status" ] || fault="status $ended, not $status"
  cmp -s line err || fault="$fault; the line is '$(head -c 200 err)', not '$line'"
  tell "$name" "${fault#; }"
}

# reports NAME STATUS LINE RECORDS WORD..: runs `audit` on the file `in`. RECORDS are those of the report but for the lines that
# name columns, `/` for a tab.
reports() {
  local name=$1 status=$2 line=$3 records=$4 fault="" ended
  shift 4
  timeout 60 "$program" audit "$@" < in > out 2> err
  ended=$?
  [ "$ended" = "$status" ] || fault="status $ended, not $status"
  [ "$(cat err)" = "$line" ] || fault="$fault; the line is '$(head -c 200 err)', not '$line'"
  [ "$(grep -v '^columns' out | tr '\t' /)" = "$records" ] || fault="$fault; the report isn't what it should be"
  tell "$name" "${fault#; }"
}

: > none
grey 384 > frame
grey 768 > frames
sequence='00 00 01 B3 01 00 10 13 24 9F 23 80'
extension='00 00 01 B5 14 8A 00 01 00 00'
picture='00 00 01 00 00 0F FF F8 00 00 01 B5 8F FF F3 41 80'
slice='00 00 01 01 0B 94 A5 22 20'
end='00 00 01 B7'
bytes $sequence $extension $picture $slice $end > flat.m2v
bytes $sequence $extension $picture $slice > begun.m2v
# encode --width 16 --height 16 --rate 3 --bits 100 --buffer 1 of one grey frame, and of two
coded='00 00 01 B3 01 00 10 23 00 19 20 08 00 00 01 B5 14 8A 00 01 00 00 00 00 01 B8 00 08 00 40'
first='00 00 01 00 00 0B 51 A8 00 00 01 B5 8F FF F3 41 80 00 00 01 01 43 94 A5 22 20'
second='00 00 01 00 00 53 B3 8B 80 00 00 01 B5 82 2F F3 41 80 00 00 01 01 42 70'
bytes $coded $first $end > one.m2v
bytes $coded $first $second $end > two.m2v
small=(--width 16 --height 16 --rate 3 --bits 100 --buffer 1)
{ printf 'YUV4MPEG2 W16 H16 F25:1 Ip A0:0 C420mpeg2\nFRAME\n'; cat frame; } > frame.y4m

# ---- what succeeds
cp frame in
holds 'flat: a grey frame' 0 'frames 1 pictures 1 bytes 52 stuffing 0' flat.m2v flat 16 16 3 1
holds 'encode: a grey frame' 0 'frames 1 pictures 1 bytes 60 stuffing 0' one.m2v encode "${small[@]}"
holds 'encode by four workers' 0 'frames 1 pictures 1 bytes 60 stuffing 0' one.m2v encode "${small[@]}" --workers 4
holds 'pack: a frame' 0 'frames 1 bytes 432' frame.y4m pack 16 16 3
cp frames in
holds 'encode with --recon' 0 'frames 2 pictures 2 bytes 84 stuffing 0' two.m2v encode "${small[@]}" --recon shown
tell 'the file of --recon has the frames' "$(cmp frames shown 2>&1)"
printf 'more than before' > shown
holds 'encode over a file' 0 'frames 2 pictures 2 bytes 84 stuffing 0' two.m2v encode "${small[@]}" --recon shown
tell 'a file that was there is emptied first' "$(cmp frames shown 2>&1)"
cp frame.y4m in
holds 'unpack: a frame' 0 'frames 1 bytes 384' frame unpack
holds 'encode-y4m: a frame' 0 'frames 1 pictures 1 bytes 60 stuffing 0' one.m2v encode-y4m --bits 100 --buffer 1
cp flat.m2v in
holds 'decode: a grey frame' 0 'frames 1 pictures 1 dropped 0' frame decode
holds 'decode by three workers' 0 'frames 1 pictures 1 dropped 0' frame decode --workers 3
holds 'check: variable rate' 0 'variable frames 1 pictures 1 bytes 52' none check
cp two.m2v in
holds 'decode: two frames' 0 'frames 2 pictures 2 dropped 0' frames decode
holds 'check: lawful' 0 'lawful frames 2 pictures 2 bytes 84 low 0 high 672 delays 0' none check
holds 'cut: the one group' 0 'groups 1 bytes 84' two.m2v cut 0 1
holds 'mend: a stream without a fault' 0 'groups 1 pictures 2 bytes 84' two.m2v mend
# the link of the second group, whose header stands 22 bytes behind its beginning, is marked as broken: byte 29 is 20 then
cat two.m2v two.m2v > in
{ head -c 80 two.m2v; head -c 29 two.m2v; bytes 20; tail -c +31 two.m2v; } > joined.m2v
holds 'mend: two streams' 0 'groups 2 pictures 4 bytes 164' joined.m2v mend
# the second picture begins at byte 56
head -c 70 two.m2v > in
{ head -c 56 two.m2v; bytes $end; } > begun_two.m2v
holds 'mend: a stream that breaks off' 18 'groups 1 of 1 pictures 1 of 2 bytes 60' begun_two.m2v mend
tail -c +57 two.m2v > in
holds 'mend: a stream without its beginning' 19 'nothing kept stream NoSequence at bit 0' none mend
# of the second picture's extension 8 bits are left, its identifier and an f_code; the fifth picture follows an end code, and what
# it refers to stands before that
{ head -c 70 two.m2v; cat two.m2v; tail -c +57 two.m2v; cat two.m2v; } > torn.m2v
cp torn.m2v in
seam() { head -c 29 two.m2v; bytes 20; tail -c +31 two.m2v | head -c 50; }
{ head -c 56 two.m2v; seam; seam; bytes $end; } > torn_mended.m2v
printf '%s\n' 'frame 1 from 56 bytes 14 pictures 1 stream Truncated at bit 560' \
  'frame 3 from 154 bytes 24 pictures 1 stream MissingReference at bit 1232' > torn_gaps
printf '%300s' before > gaps
holds 'mend with --list' 18 'groups 3 of 3 pictures 5 of 7 bytes 220' torn_mended.m2v mend --list gaps
tell 'the list has a line for each gap, and nothing of before' "$(cmp torn_gaps gaps 2>&1)"
cp two.m2v in
holds 'mend with --list, where all is kept' 0 'groups 1 pictures 2 bytes 84' two.m2v mend --list gaps
tell 'the list is empty' "$(cmp none gaps 2>&1)"
cp two.m2v in
# its pieces have 56, 24 and 4 bytes; 672 bits are the whole stream, and are there when the first picture is removed
reports 'audit: nothing found' 0 'clean sequences 1 pictures 2 bytes 84 warnings 0' 'audit/1/main
sequence/0/0/16/16/3/2/72/1/0/100/1/constant
end/0/2/2/1/84/0/0/0/0/672/0/28800
total/1/2/84/0/0/0'
reports 'audit: each picture' 0 'clean sequences 1 pictures 2 bytes 84 warnings 0' 'audit/1/main
sequence/0/0/16/16/3/2/72/1/0/100/1/constant
group/0/0/176/0/0/0/0/0/0/1/0
picture/0/0/240/I/frame/0/448/0/27189/2/0
picture/0/1/448/P/frame/1/192/0/30321/2/0
held/0/0/0/672/448/224/27189/0
held/0/1/28800/224/224/0/30321/0
end/0/2/2/1/84/0/0/0/0/672/0/28800
total/1/2/84/0/0/0' --pictures
cat two.m2v flat.m2v > in
reports 'audit: another sequence, of variable rate' 0 'clean sequences 2 pictures 3 bytes 136 warnings 0' 'audit/1/main
sequence/0/0/16/16/3/2/72/1/0/100/1/constant
end/0/2/2/1/84/0/0/0/0/672/0/28800
sequence/1/672/16/16/3/1/72/1/0/37500/112/variable
end/1/1/1/0/52/0/0/0/0/416/0/0
total/2/3/136/0/0/0' --for main
cp two.m2v in
cp none in
# the stream of seed 1 is what bench/cases/made.py makes of it: its bytes and their sum
"$program" make 1 > made 2> err < none
tell 'make: the stream of seed 1' "$(
  [ "$(sha256sum < made)" = '95ee6065ce9496f08d7b97eea8e184502c0b3c478a8ea0b7cf89d75a50263d17  -' ] || echo 'the stream is another one')"
tell 'make: its figures are those of check' "$(
  told=$(sed -n 's/^make seed 1 frames 48 bytes 95118 stuffing 0 \(low .*\)/\1/p' err)
  found=$("$program" check < made 2>&1 | sed -n 's/^lawful frames 48 .* \(low .*\)/\1/p')
  [ "$told" ] && [ "$told" = "$found" ] || echo "make: $(cat err); check: $found")"

# streams by --plan even are what bench/cases/encoded.py makes of the frames: their lines and their sums
even() {
  local name=$1 line=$2 sum=$3
  shift 3
  "$program" encode "$@" --plan even < in > out 2> err
  tell "encode by the source: $name" "$(
    [ "$(cat err)" = "$line" ] || echo "the line is '$(head -c 200 err)'"
    [ "$(sha256sum < out)" = "$sum  -" ] || echo 'the stream is another one')"
}
clip 48 48 14 '(t < 5 ? (c + y + 2 * t) % 64 + 64 : (29 * c + 41 * y + 13 * t) % 256)' > in
for workers in 1 4; do
  even "a cut, workers: $workers" 'frames 14 pictures 14 bytes 14806 stuffing 1397' \
    9acc070acc7a873eec035d66ba0cdcc4d4017f73d5be0789c4e0ed50143008b5 \
    --width 48 --height 48 --rate 3 --bits 500 --buffer 3 --group 6 --step 3 --search 2 --workers $workers
done
cp out in
holds 'check: a cut by the source' 0 'lawful frames 14 pictures 14 bytes 14806 low 0 high 49148 delays 0' none check
noisy='(3 * c + 2 * y + 5 * t) % 128 + 32 + int(draw() / 16)'
# its sixth picture is the worked plan of docs/ENCODER.md
clip 48 32 14 "$noisy" > in
even 'noise in two groups' 'frames 14 pictures 14 bytes 9076 stuffing 0' \
  996f058685299e3d373aa6781182af02dce96ace27f3061f56ffb339dc57fc05 \
  --width 48 --height 32 --rate 3 --bits 300 --buffer 2 --search 3
clip 32 32 9 "$noisy" > in
even 'closed groups of 4' 'frames 9 pictures 9 bytes 3956 stuffing 0' \
  72b23daf6d1b1306c51fba0b23216c90c71c1849fc7420000c54599edfafaec2 \
  --width 32 --height 32 --rate 3 --bits 200 --buffer 2 --group 4 --step 2 --closed --search 2
clip 64 32 4 "$noisy" > in
even 'High level' 'frames 4 pictures 4 bytes 5258 stuffing 0' 33973de1e13acaa479a24a56ef785f61fc92ab08165064306f1257c1f7d0a544 \
  --width 64 --height 32 --rate 8 --bits 4000 --buffer 20 --level high --search 2
clip 32 32 6 '(7 * c + 11 * y + 5 * t) % 256' > in
even 'vectors 15 samples far' 'frames 6 pictures 6 bytes 1718 stuffing 20' \
  c2c9acc6e693a8a318d6a5d91bc6d59fdff571220ef93149b6fb212a005aa8c9 --width 32 --height 32 --rate 3 --bits 300 --buffer 3
clip 32 32 7 '(t < 5 ? (c + y + 2 * t) % 64 + 64 : (29 * c + 41 * y + 13 * t) % 256)' > in
even 'groups of one frame' 'frames 7 pictures 7 bytes 4185 stuffing 1068' \
  65ac87774c829a8f8cb5fa0e2719f0951f124c0514ab04a7e705885f74a2d5f0 \
  --width 32 --height 32 --rate 3 --bits 300 --buffer 2 --group 1 --step 1
clip 32 64 5 '(5 * c + 3 * y + 40 * (y % 2) + 8 * t) % 256' > in
even fields 'frames 5 pictures 10 bytes 3218 stuffing 0' 60022bece0da715f4aa55cec296c0dc0a854fcc2290dd89f20a28d84043067e8 \
  --width 32 --height 64 --rate 3 --bits 400 --buffer 3 --scan fields --group 4 --step 2 --search 3
clip 32 32 9 '(t < 5 ? (c + y + 2 * t) % 64 + 64 : (29 * c + 41 * y + 13 * t) % 256)' > in
even film 'frames 9 pictures 9 bytes 5862 stuffing 1460' 9d4f4da26a91306b10a727f5dd95d3195ea369d1caa356d1dfa3c8b269b2f115 \
  --width 32 --height 32 --rate 4 --bits 300 --buffer 2 --scan frames --pulldown --group 4 --step 2 --search 2
cp frame in
holds 'encode by weights' 0 'frames 1 pictures 1 bytes 60 stuffing 0' one.m2v encode "${small[@]}" --plan weights
bytes $coded ${first/43 94/0B 94} $end > even.m2v
holds 'encode by the source: a grey frame' 0 'frames 1 pictures 1 bytes 60 stuffing 0' even.m2v encode "${small[@]}" --plan even
cp frame.y4m in
holds 'encode-y4m by the source' 0 'frames 1 pictures 1 bytes 60 stuffing 0' even.m2v encode-y4m --bits 100 --buffer 1 --plan even
cp none in

# ---- words and settings
holds 'no words' 2 usage none
holds 'no such command' 2 usage none frobnicate
holds 'no help' 2 usage none --help
holds 'a word too few' 2 usage none flat 16 16 3
holds 'a word of byte FF' 2 usage none flat 16 16 3 "$(printf '\377')"
holds 'a command of byte FF' 2 usage none "$(printf '\377')"
holds 'flat: quantiser 32' 3 'unfit rule 7 have 32 need 31' none flat 16 16 3 32
holds 'encode: another plan' 2 usage none encode "${small[@]}" --plan odd
holds 'mend: a list without a name' 2 usage none mend --list
holds 'encode: group 10 by 3' 3 'unfit rule 6 have 1 need 0' none encode "${small[@]}" --group 10 --step 3
holds 'decode: no workers' 3 'unfit rule 6 have 0 need 1' none decode --workers 0
holds 'cut: no groups' 3 'unfit rule 9 have 0 need 1' none cut 0 0

# ---- what the input is refused for
holds 'flat: no frames' 5 'no frames' none flat 16 16 3 1
holds 'encode: no frames' 5 'no frames' none encode "${small[@]}"
holds 'decode: nothing' 9 'stream NoSequence at bit 0' none decode
holds 'mend: nothing' 19 'nothing kept stream NoSequence at bit 0' none mend
grey 767 > in
holds 'flat: a short frame' 4 'short frame extra 383' begun.m2v flat 16 16 3 1
holds 'encode: a short frame' 4 'short frame extra 383' none encode "${small[@]}"
head -c 3000000 /dev/zero > in
holds 'unpack: no text' 15 'y4m fault Magic at byte 0' none unpack
ends 'pack: a frame too many' 6 'too many frames' pack 1 1 3 < in > out
bytes $sequence > in
holds 'decode: no extension' 9 'stream NotMpeg2 at bit 96' none decode
holds 'check: no extension' 9 'stream NotMpeg2 at bit 96' none check
bytes $sequence $extension $picture 00 00 01 01 03 94 A5 22 20 $end > in
holds 'decode: quantiser 0' 9 'stream Forbidden at bit 344' none decode
bytes $sequence 00 00 01 B5 14 9A 00 01 00 00 $picture $slice $end > in
holds 'check: another profile' 10 'unlawful rule 1 picture 0 have 73 need 72' none check
# profile_and_level 73 is rule 1; the one picture is what is left of a stream of variable rate
reports 'audit: another profile' 18 'found sequences 1 pictures 1 bytes 52 breaches 1 failures 0 warnings 0' 'audit/1/main
sequence/0/0/16/16/3/1/73/1/0/37500/112/variable
breach/0/0/0/1/level/73/72
count/0/1/1/0
end/0/1/1/0/52/1/0/0/0/416/0/0
total/1/1/52/1/0/0'
bytes $coded ${first/0B 51 A8/08 00 00} $end > in
holds 'check: a delay of 0' 11 'buffer under picture 0 have 489600 need 864000' none check
{ bytes $sequence $extension 00 00 01 B2; grey 2097152; bytes $picture $slice $end; } > in
holds 'decode: a piece too large' 14 'picture too large' none decode
holds 'check: a piece too large' 14 'picture too large' none check
holds 'mend: a piece too large' 14 'picture too large' none mend
{ head -c 70 two.m2v; head -c 80 two.m2v; cat in; } > torn_large.m2v
ends 'mend with --list: a piece too large after a fault' 14 'picture too large' mend --list gaps < torn_large.m2v > out
tell 'the list holds a prefix then' "$(head -c "$(wc -c < gaps)" torn_gaps | cmp - gaps 2>&1)"
cp two.m2v in
holds 'cut: no second group' 16 'no group have 1 need 2' none cut 1 1
bytes $coded $first 00 00 01 B8 00 08 00 40 $first $end > in
holds 'cut: no sequence header before the group' 17 'not cuttable at bit 448' none cut 1 1

# ---- endpoints that fail
for words in 'flat 16 16 3 1' "encode ${small[*]}" 'encode-y4m --bits 100 --buffer 1' decode check mend 'cut 0 1' 'pack 16 16 3' unpack; do
  ends "${words%% *}: an input that can't be read" 7 'read fault' $words < / > out
  if [ "${words%% *}" = pack ]; then head -n 1 frame.y4m > wanted; else : > wanted; fi
  tell "${words%% *}: no frame was written then" "$(cmp wanted out 2>&1)"
done
ends 'flat: a full disc' 8 'write fault' flat 16 16 3 1 < frame > /dev/full
ends 'encode: a full disc' 8 'write fault' encode "${small[@]}" < frame > /dev/full
ends 'encode-y4m: a full disc' 8 'write fault' encode-y4m --bits 100 --buffer 1 < frame.y4m > /dev/full
ends 'decode: a full disc' 8 'write fault' decode < flat.m2v > /dev/full
ends 'mend: a full disc' 8 'write fault' mend < two.m2v > /dev/full
ends 'cut: a full disc' 8 'write fault' cut 0 1 < two.m2v > /dev/full
ends 'pack: a full disc' 8 'write fault' pack 16 16 3 < frame > /dev/full
ends 'unpack: a full disc' 8 'write fault' unpack < frame.y4m > /dev/full
ends 'make: a full disc' 8 'write fault' make 1 < none > /dev/full
ends 'encode: a directory for --recon' 8 'write fault' encode "${small[@]}" --recon . < frame > out
tell 'nothing was written then' "$(cmp none out 2>&1)"
ends 'encode: a full disc for --recon' 8 'write fault' encode "${small[@]}" --recon /dev/full < frame > out
ends 'mend: a folder that is not there for --list' 8 'write fault' mend --list nowhere/gaps < two.m2v > out
tell 'nothing was written then either' "$(cmp none out 2>&1)"
ends 'mend: a full disc for --list' 8 'write fault' mend --list /dev/full < torn.m2v > out
printf 'before' > gaps
ends "mend with --list: an input that can't be read" 7 'read fault' mend --list gaps < / > out
tell 'the list was opened before' "$(cmp none gaps 2>&1)"
mkfifo pipe
# the stream comes once nobody reads the pipe any more
{ sleep 0.5; cat flat.m2v; } | "$program" decode > pipe 2> err &
: < pipe
wait $!
tell 'decode into a closed pipe' "$([ $? = 8 ] && [ "$(cat err)" = 'write fault' ] || echo "$(cat err)")"
"$program" flat 16 16 3 1 < frame > out 2> /dev/full
tell 'a report that fails behind success is told by the status' "$([ $? = 8 ] && cmp flat.m2v out || echo 'status or output')"
"$program" flat 16 16 3 32 < frame > out 2> /dev/full
tell 'a report that fails behind a refusal leaves the status' "$([ $? = 3 ] && cmp none out || echo 'status or output')"

echo "$passed passed, $failed failed"
[ "$failed" = 0 ]
