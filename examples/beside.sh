#!/bin/sh
# Makes a PNG of two P6 files side by side, each in a grey margin and twice as large, or half as large, by Netpbm:
#     beside.sh LEFT RIGHT PNG [half]
set -e
folder=$(mktemp -d)
trap 'rm -r "$folder"' EXIT
pnmmargin -color gray50 2 "$1" >"$folder/left.ppm"
pnmmargin -color gray50 2 "$2" >"$folder/right.ppm"
pnmcat -quiet -lr "$folder/left.ppm" "$folder/right.ppm" >"$folder/both.ppm"
if [ "${4-}" = half ]; then
    pamscale -quiet -reduce 2 "$folder/both.ppm" >"$folder/scaled.ppm"
else
    pamenlarge -quiet 2 "$folder/both.ppm" >"$folder/scaled.ppm"
fi
pnmtopng -quiet -compression=9 "$folder/scaled.ppm" >"$folder/both.png"
cp "$folder/both.png" "$3"
