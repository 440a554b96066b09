// What the measurements share.
#pragma once

#include <string>

#include "aligners.hpp"
#include "scenes.hpp"

struct Size {
    int w, h;
};
constexpr Size sizes[] = {{640, 480}, {320, 240}};

constexpr int all_tolerances[] = {0, 1, 2, 4, 8};
constexpr int all_bands[] = {1, 2, 4, 8, 12, 16}; // 0 is tolerance 0: it is tested, not told
constexpr int all_percentiles[] = {17, 50, 83};

// Two frames of a scene, and the offset that moves the second onto the first.
struct Pair {
    Move truth;
    Raster first, second;
};

// The first frame leaves that margin of the scene on each side; the second looks at it from truth further on.
Pair take_pair(const Scene &scene, int margin, int w, int h, Move truth, const Tone &tone, double noise, Random &random);

// Every band and percentile on a pair that look names, and the same frames by several cameras (bands.cpp).
void try_bands(const std::string &look, Settings settings, const Pair &pair);
void try_cameras(uint64_t seed);

// Whether the answer stays as it was when frames are re-exposed (reexposure.cpp).
void try_reexposure(uint64_t seed);

// Whether the four quadrants tell that a frame has turned (rotation.cpp).
void try_rotation(uint64_t seed);
