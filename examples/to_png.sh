#!/bin/sh
# Makes a PNG beside each P6 file of a folder where Netpbm or ImageMagick is installed.
set -e
for picture in "$1"/*.ppm; do
    if command -v pnmtopng >/dev/null; then
        pnmtopng -quiet "$picture" >"${picture%.ppm}.png"
    elif command -v convert >/dev/null; then
        convert "$picture" "${picture%.ppm}.png"
    else
        echo "no PNG: neither Netpbm nor ImageMagick is installed"
        exit 0
    fi
done
