#!/usr/bin/env bash
# Writes a page on a stream, as quality control hands it on, into a file.
#
# It has the program's verdict, what `audit` found, the buffer, bits and quantisers over time, and the worst groups with a small
# picture of each, in one HTML file that needs no other. It wants python3.
#
#     bench/draw/report.sh PROGRAM STREAM [PAGE.html]
#
# PROGRAM is the built program, or ./puckerledge. The page is STREAM.html where none is named.
set -eu
here=$(dirname "$(realpath "$0")")
page=${3:-$2.html}
python3 "$here/report.py" "$(realpath "$1")" "$2" > "$page.new"
mv "$page.new" "$page"
echo "$page"
