// The two aligners that are measured: the library, and OpenCV's AlignMTB where it is installed.
#pragma once

#include <array>
#include <cstdint>
#include <vector>

#include "scenes.hpp"

struct Move {
    int dx, dy;
    bool operator==(const Move &other) const { return dx == other.dx && dy == other.dy; }
};

struct Settings {
    int w, h;
    int s, tolerance, percentile;
};

// What the library writes for a pair: the offset, and nine counts a level, coarsest first, each with its compared number.
struct Answer {
    Move offset;
    std::vector<uint32_t> counts, compared;
    size_t finest; // where the candidate that the offset is stands in both, on the finest level
    bool operator==(const Answer &other) const
    {
        return offset == other.offset && counts == other.counts && compared == other.compared;
    }
};

// The library's two pair calls. Among a level's equal counts mtb_pair_ward takes the first in Ward's order, mtb_pair the
// least move. They end the program with a message when the library refuses: every pair here is meant to be accepted.
Answer ward_pair(const Settings &settings, const Raster &first, const Raster &second);
Answer least_move_pair(const Settings &settings, const Raster &first, const Raster &second);

// By mtb_pair_band, with that band in place of the settings' tolerance; it prefers the least move too.
Answer band_pair(Settings settings, int band, const Raster &first, const Raster &second);

// What the library tells of the four quadrants: upper left, upper right, lower left, lower right.
struct Warning {
    std::array<Move, 4> offsets;
    bool turned;
    bool operator==(const Warning &other) const { return offsets == other.offsets && turned == other.turned; }
};

// By mtb_quadrants. It ends the program when an offset is not that of mtb_pair on the quadrants cut out, or when the warning
// does not follow from the four.
Warning quadrants(const Settings &settings, const Raster &first, const Raster &second);

// Null when the program was built without OpenCV.
const char *opencv_version();
// The same frames' grey values, max_bits = s + 1, exclude_range = tolerance. The percentile is always the median.
Move opencv_pair(const Settings &settings, const Raster &first, const Raster &second);
