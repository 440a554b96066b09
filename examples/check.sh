#!/bin/sh
# Tries the examples on good and bad input and compares all that they print, their status, and pictures of `rotation` with what is
# expected:
#     check.sh BUILD SAMPLES LARGE
# where BUILD has the programs and the sanitized ones, and LARGE larger samples. Ends with the number of trials.
set -u
build=$(cd "$1" && pwd)
samples=$(cd "$2" && pwd)
large=$(cd "$3" && pwd)
rm -rf "$build/check"
mkdir -p "$build/check"
cd "$build/check" || exit 1
cp "$samples"/*.ppm .
bin=$build/sanitized
trials=0
failures=0

# expect STATUS TEXT COMMAND...
expect() {
    status=$1 text=$2
    shift 2
    printed=$("$@" 2>&1)
    got=$?
    trials=$((trials + 1))
    if [ "$got" != "$status" ] || [ "$printed" != "$text" ]; then
        failures=$((failures + 1))
        printf 'FAILED: %s\nexpected (%s): %s\ngot (%s): %s\n' "$*" "$status" "$text" "$got" "$printed"
    fi
}

align() { "$bin/align_series" "$@"; }
pictures() { "$bin/pictures" "$@"; }
rotation() { "$bin/rotation" "$@"; }
live() { "$bin/live" "$@"; }

# A flat frame: flat W H FILE
flat() {
    printf 'P6\n%d %d\n255\n' "$1" "$2" >"$3"
    head -c $((3 * $1 * $2)) /dev/zero >>"$3"
}
flat 16 16 flat.ppm
flat 200 200 larger.ppm
flat 160 119 lower.ppm
flat 120 160 upright.ppm
flat 3 3 tiny.ppm
flat 17 33 odd.ppm
flat 5000 1 wide.ppm
# 32 rows of the first frame: strip ROW FILE
strip() {
    printf 'P6\n160 32\n255\n' >"$2"
    tail -c +$((16 + 480 * $1)) first.ppm | head -c $((480 * 32)) >>"$2"
}
strip 0 strip0.ppm
strip 11 strip1.ppm
strip 22 strip2.ppm
strip 33 strip3.ppm
# A header that capture software signed, and one cut off in a comment.
(printf 'P6\n# gain 120\n160 120\n255\n' && tail -c +16 second.ppm) >signed.ppm
printf 'P6\n160 120\n# gain 120' >unfinished.ppm
printf 'P5\n1 1\n255\n0' >grey.ppm
printf 'P6\n1 1\n65535\n000000' >deep.ppm
head -c 1000 first.ppm >cut.ppm
(cat first.ppm && printf 0) >longer.ppm
: >empty.ppm

expect 0 '160 by 120 pixels, s = 3, T = 0, P = 50, r = 0
   dx    dy  compared
    0     0         -  first.ppm
    5    -3    92.8 %  second.ppm
   -4     6    86.0 %  third.ppm
common area: 151 by 111, columns 5 to 155, rows 6 to 116' align first.ppm second.ppm third.ppm
expect 0 '160 by 120 pixels, s = 4, T = 2, P = 83, r = 1
   dx    dy  compared
   -5     3         -  first.ppm
    0     0    90.3 %  second.ppm
   -9     9    68.6 %  third.ppm
common area: 151 by 111, columns 0 to 150, rows 9 to 119' align -s 4 -t 2 -p 83 -r 1 first.ppm second.ppm third.ppm
expect 0 '160 by 120 pixels, s = 3, T = 0, P = 50, r = 0
   dx    dy  compared
    0     0         -  first.ppm
    5    -3    92.8 %  signed.ppm
common area: 155 by 117, columns 5 to 159, rows 0 to 116' align first.ppm signed.ppm
expect 0 '16 by 16 pixels, s = 1, T = 0, P = 50, r = 0
   dx    dy  compared
    0     0         -  flat.ppm
common area: 16 by 16, columns 0 to 15, rows 0 to 15' align flat.ppm
expect 0 '200 by 200 pixels, s = 4, T = 0, P = 50, r = 0
   dx    dy  compared
    0     0         -  larger.ppm
common area: 200 by 200, columns 0 to 199, rows 0 to 199' align larger.ppm

usage='usage: align_series [-s HALVINGS] [-t TOLERANCE] [-p PERCENTILE] [-r REFERENCE] FILE...'
expect 2 "$usage" align
expect 2 "$usage" align -s 1
expect 2 "$usage" align -s
expect 2 "$usage" align - flat.ppm
expect 2 "$usage" align -x 1 flat.ppm
expect 2 "$usage" align -st 1 flat.ppm
expect 2 "$usage" align -s '' flat.ppm
expect 2 "$usage" align -s -1 flat.ppm
expect 2 "$usage" align -s 1x flat.ppm
expect 2 "$usage" align -s 1234567890 flat.ppm

expect 1 'none.ppm: No such file or directory' align none.ppm
expect 1 '.: Is a directory' align .
expect 1 'lower.ppm: not of the first frame'\''s size' align first.ppm lower.ppm
expect 1 'upright.ppm: not of the first frame'\''s size' align first.ppm upright.ppm
expect 1 'standard output: No space left on device' sh -c "'$bin/align_series' flat.ppm >/dev/full"

header='refused (1): no P6 header, or its largest value is not 255'
length='refused (9): the bytes are not as many as the size asks for'
expect 1 "empty.ppm: $header" align empty.ppm
expect 1 "grey.ppm: $header" align grey.ppm
expect 1 "unfinished.ppm: $header" align first.ppm unfinished.ppm
expect 1 "deep.ppm: $header" align first.ppm deep.ppm
expect 1 'wide.ppm: refused (2): a width or height is 0 or above 4096' align wide.ppm
expect 1 "cut.ppm: $length" align cut.ppm
expect 1 "longer.ppm: $length" align longer.ppm
expect 1 'the series: refused (3): there are more than 8 halvings' align -s 999999999 flat.ppm
expect 1 'the series: refused (4): a side is too short for this many halvings' align -s 3 flat.ppm
expect 1 'the series: refused (4): a side is too short for this many halvings' align tiny.ppm
expect 1 'the series: refused (5): the tolerance is above 64' align -t 65 flat.ppm
set -- flat.ppm flat.ppm flat.ppm flat.ppm
expect 1 'the series: refused (6): there are more than 16 frames' align "$@" "$@" "$@" "$@" flat.ppm
expect 1 'the series: refused (7): the reference is none of the frames' align -r 4 "$@"
expect 1 'the series: refused (8): the percentile is not 17, 50 or 83' align -p 51 "$@"
# Flat frames stay where they are, and nothing of them was compared.
expect 0 '16 by 16 pixels, s = 2, T = 0, P = 50, r = 0
   dx    dy  compared
    0     0         -  flat.ppm
    0     0     0.0 %  flat.ppm
    0     0     0.0 %  flat.ppm
    0     0     0.0 %  flat.ppm
common area: 16 by 16, columns 0 to 15, rows 0 to 15' align -s 2 -r 0 "$@"
expect 1 '160 by 32 pixels, s = 3, T = 0, P = 50, r = 0
   dx    dy  compared
    0     0         -  strip0.ppm
    0    11    64.5 %  strip1.ppm
    0    22    64.3 %  strip2.ppm
    0    33    64.0 %  strip3.ppm
the common area: refused (13): the frames show no area in common' align -s 3 strip0.ppm strip1.ppm strip2.ppm strip3.ppm

# Memory runs out; not under the sanitizers, which need much of it themselves.
flat 4096 4096 large.ppm
expect 1 'memory: Cannot allocate memory' sh -c "ulimit -v 60000; '$build/align_series' large.ppm"
rm large.ppm

mkdir pictures full
expect 0 'offset 5 -3
difference-before: 4803 of 18839 compared pixels
difference-after: 186 of 17820 compared pixels' pictures first.ppm second.ppm pictures
expect 0 'offset 5 -3
difference-before: 3543 of 16115 compared pixels
difference-after: 0 of 16268 compared pixels' pictures -s 4 -t 4 -p 50 first.ppm second.ppm pictures
expect 0 'difference-after.ppm
difference-before.ppm
first-bits.ppm
over-after.ppm
over-before.ppm
second-bits.ppm' ls pictures
# The difference picture has as many white pixels as differ, and the library reads what it wrote.
white() { tail -c 57600 "$1" | od -An -v -tu1 -w3 | grep -c '255 255 255'; }
expect 0 3543 white pictures/difference-before.ppm
expect 0 '160 by 120 pixels, s = 3, T = 0, P = 50, r = 0
   dx    dy  compared
    0     0         -  pictures/over-after.ppm
    0     0    99.0 %  pictures/over-after.ppm
common area: 160 by 120, columns 0 to 159, rows 0 to 119' align pictures/over-after.ppm pictures/over-after.ppm

usage='usage: pictures [-s HALVINGS] [-t TOLERANCE] [-p PERCENTILE] FIRST SECOND FOLDER'
expect 2 "$usage" pictures
expect 2 "$usage" pictures first.ppm second.ppm
expect 2 "$usage" pictures -r 1 first.ppm second.ppm pictures
expect 1 "grey.ppm: $header" pictures grey.ppm second.ppm pictures
expect 1 "cut.ppm: $length" pictures first.ppm cut.ppm pictures
expect 1 'upright.ppm: not of the first frame'\''s size' pictures first.ppm upright.ppm pictures
expect 1 'the pair: refused (5): the tolerance is above 64' pictures -t 65 first.ppm second.ppm pictures
expect 1 'offset 5 -3
none/first-bits.ppm: No such file or directory' pictures first.ppm second.ppm none
ln -s /dev/full full/first-bits.ppm
expect 1 'offset 5 -3
full/first-bits.ppm: No space left on device' pictures first.ppm second.ppm full

# Frames of 640 by 480: the second slid by (5, -3), and turned by half a degree besides.
expect 0 'quadrants of 320 by 240 pixels, s = 4, T = 0, P = 50
   dx    dy
    5    -3  upper left
    5    -3  upper right
    5    -3  lower left
    5    -3  lower right
not turned
slid.ppm: yellow arrows 18 times as long, red ones 54 times' rotation "$large/first.ppm" "$large/second.ppm" slid.ppm
expect 0 'quadrants of 320 by 240 pixels, s = 4, T = 0, P = 50
   dx    dy
    4    -2  upper left
    4    -4  upper right
    6    -1  lower left
    6    -4  lower right
turned
turned.ppm: yellow arrows 15 times as long, red ones 45 times' rotation -a 5 "$large/first.ppm" "$large/second.ppm" turned.ppm
# A frame against itself: nothing but the turn.
expect 0 'quadrants of 320 by 240 pixels, s = 3, T = 1, P = 83
   dx    dy
   -1     1  upper left
   -1    -1  upper right
    1     1  lower left
    1    -1  lower right
turned
turned.ppm: yellow arrows 90 times as long, red ones 90 times' rotation -s 3 -t 1 -p 83 -a 5 "$large/first.ppm" "$large/first.ppm" turned.ppm
# On the samples half a degree is too little to be told; two degrees are enough. These pictures are the same on every machine.
quarters='quadrants of 80 by 60 pixels, s = 2, T = 0, P = 50
   dx    dy'
expect 0 "$quarters
    5    -3  upper left
    5    -3  upper right
    5    -2  lower left
    5    -3  lower right
not turned
slid.ppm: yellow arrows 4 times as long, red ones 12 times" rotation -a 5 first.ppm second.ppm slid.ppm
expect 0 '102203265 57615 slid.ppm' cksum slid.ppm
expect 0 "$quarters
    4    -2  upper left
    4    -4  upper right
    6    -1  lower left
    6    -4  lower right
turned
turned.ppm: yellow arrows 3 times as long, red ones 9 times" rotation -a 20 first.ppm second.ppm turned.ppm
expect 0 '566417216 57615 turned.ppm' cksum turned.ppm
# Once round is not at all.
expect 0 "$quarters
    5    -3  upper left
    5    -3  upper right
    5    -3  lower left
    5    -3  lower right
not turned
slid.ppm: yellow arrows 4 times as long, red ones 12 times" rotation -a 3600 first.ppm second.ppm slid.ppm
expect 0 '4054882523 57615 slid.ppm' cksum slid.ppm
# The library reads the picture, which has the first frame's size; upside down is a turn too, whatever it finds.
expect 0 '160 by 120 pixels, s = 3, T = 0, P = 50, r = 0
   dx    dy  compared
    0     0         -  slid.ppm
common area: 160 by 120, columns 0 to 159, rows 0 to 119' align slid.ppm
expect 0 turned sh -c "'$bin/rotation' -a 1800 first.ppm second.ppm turned.ppm | sed -n 7p"
# Flat frames do not move; an odd middle column and row are left out; arrows of no length are dots.
expect 0 'quadrants of 8 by 16 pixels, s = 0, T = 0, P = 50
   dx    dy
    0     0  upper left
    0     0  upper right
    0     0  lower left
    0     0  lower right
not turned
slid.ppm: yellow arrows 12 times as long, red ones 12 times' rotation -a 7 odd.ppm odd.ppm slid.ppm
expect 0 '3280458374 1696 slid.ppm' cksum slid.ppm

usage='usage: rotation [-s HALVINGS] [-t TOLERANCE] [-p PERCENTILE] [-a TENTHS] FIRST SECOND PICTURE'
expect 2 "$usage" rotation
expect 2 "$usage" rotation first.ppm second.ppm
expect 2 "$usage" rotation -a first.ppm second.ppm slid.ppm
expect 2 "$usage" rotation -a -5 first.ppm second.ppm slid.ppm
expect 2 "$usage" rotation -r 1 first.ppm second.ppm slid.ppm
expect 1 'none.ppm: No such file or directory' rotation first.ppm none.ppm slid.ppm
expect 1 "grey.ppm: $header" rotation grey.ppm second.ppm slid.ppm
expect 1 "longer.ppm: $length" rotation first.ppm longer.ppm slid.ppm
expect 1 'lower.ppm: not of the first frame'\''s size' rotation first.ppm lower.ppm slid.ppm
expect 1 'the quadrants: refused (3): there are more than 8 halvings' rotation -s 9 first.ppm second.ppm slid.ppm
# A pair of this size goes down to s = 4; a quadrant does not.
expect 1 'the quadrants: refused (4): a side is too short for this many halvings' rotation -s 4 first.ppm second.ppm slid.ppm
expect 1 'the quadrants: refused (4): a side is too short for this many halvings' rotation tiny.ppm tiny.ppm slid.ppm
expect 1 'the quadrants: refused (5): the tolerance is above 64' rotation -t 65 first.ppm second.ppm slid.ppm
expect 1 'the quadrants: refused (8): the percentile is not 17, 50 or 83' rotation -p 51 first.ppm second.ppm slid.ppm
still='quadrants of 8 by 8 pixels, s = 0, T = 0, P = 50
   dx    dy
    0     0  upper left
    0     0  upper right
    0     0  lower left
    0     0  lower right
not turned'
expect 1 "$still
none/slid.ppm: yellow arrows 12 times as long, red ones 12 times
none/slid.ppm: No such file or directory" rotation flat.ppm flat.ppm none/slid.ppm
expect 1 "$still
/dev/full: yellow arrows 12 times as long, red ones 12 times
/dev/full: No space left on device" rotation flat.ppm flat.ppm /dev/full

# Frames come and go; the offsets of two neighbours stay, whichever is the oldest.
settings='160 by 120 pixels, s = 3, T = 0, P = 50'
expect 0 "$settings
first.ppm: (0, 0)
second.ppm: (0, 0) (5, -3)
third.ppm: (0, 0) (5, -3) (-4, 6)
drop: (0, 0) (-9, 9)
first.ppm: (0, 0) (-9, 9) (-5, 3)
drop: (0, 0) (4, -6)" live first.ppm second.ppm third.ppm drop first.ppm drop
# Refused calls change nothing, and the session goes on.
expect 0 "$settings
drop: refused (16): the held numbers are damaged, or there is nothing to drop
    still no frames
second.ppm: (0, 0)
drop: no frames
drop: refused (16): the held numbers are damaged, or there is nothing to drop
    still no frames
third.ppm: (0, 0)
signed.ppm: (0, 0) (9, -9)
start: no frames
first.ppm: (0, 0)" live drop second.ppm drop drop third.ppm signed.ppm start first.ppm
set -- flat.ppm flat.ppm flat.ppm flat.ppm
expect 0 'flat.ppm: (0, 0) (0, 0) (0, 0) (0, 0) (0, 0) (0, 0) (0, 0) (0, 0) (0, 0) (0, 0) (0, 0) (0, 0) (0, 0) (0, 0) (0, 0) (0, 0)
flat.ppm: refused (6): there are more than 16 frames
    still (0, 0) (0, 0) (0, 0) (0, 0) (0, 0) (0, 0) (0, 0) (0, 0) (0, 0) (0, 0) (0, 0) (0, 0) (0, 0) (0, 0) (0, 0) (0, 0)' \
    sh -c '"$@" | tail -n 3' sh "$bin/live" "$@" "$@" "$@" "$@" flat.ppm
expect 0 '160 by 120 pixels, s = 4, T = 2, P = 83
first.ppm: (0, 0)
second.ppm: (0, 0) (5, -3)' live -s 4 -t 2 -p 83 first.ppm second.ppm

usage='usage: live [-s HALVINGS] [-t TOLERANCE] [-p PERCENTILE] STEP...    a STEP is a FILE, drop or start'
expect 2 "$usage" live
expect 2 "$usage" live -s 3
expect 2 "$usage" live -r 1 first.ppm
expect 1 'the steps: there is no file among them' live start drop
expect 1 'none.ppm: No such file or directory' live none.ppm
expect 1 "grey.ppm: $header" live grey.ppm
expect 1 "$settings
first.ppm: (0, 0)
cut.ppm: $length" live first.ppm cut.ppm
expect 1 "$settings
first.ppm: (0, 0)
upright.ppm: not of the first frame's size" live first.ppm upright.ppm
expect 1 'the bracket: refused (3): there are more than 8 halvings' live -s 9 first.ppm
expect 1 'the bracket: refused (4): a side is too short for this many halvings' live -s 5 first.ppm
expect 1 'the bracket: refused (4): a side is too short for this many halvings' live tiny.ppm
expect 1 'the bracket: refused (5): the tolerance is above 64' live -t 65 first.ppm
expect 1 'the bracket: refused (8): the percentile is not 17, 50 or 83' live -p 51 first.ppm

echo "$trials tried, $failures failed"
[ "$failures" = 0 ]
