// How often the offset found is the true one, on generated scenes: one line a measurement on standard output, fields
// parted by tabs; report.py makes the tables.
//   measure SEED          all measurements
//   measure SEED scenes   a look at the scenes, as a P5 picture
#include <algorithm>
#include <cstdio>
#include <cstdlib>
#include <cstring>

#include "aligners.hpp"
#include "measure.hpp"
#include "scenes.hpp"

namespace {

constexpr int repeats = 2;
constexpr int largest_move = 30;
constexpr int margin = largest_move + 2;
constexpr int all_noises[] = {0, 1, 2, 4};
constexpr int least_halvings = 1, most_halvings = 6;

// What was looked at: the fields that name it in a line.
std::string look(const SceneKind &kind, const Tone &tone, int noise)
{
    return kind.name + "\t" + tone.name + "\t" + std::to_string(noise);
}

// Aligns a pair by both of the library's calls. A line has the offsets (the true one, Ward's order, the least move,
// OpenCV), the count and the compared number at Ward's and at the least move's, and all counts by Ward's order.
void try_pair(const char *experiment, const std::string &look, const Settings &settings, const Pair &pair, Move theirs)
{
    Answer ward = ward_pair(settings, pair.first, pair.second);
    Answer least_move = least_move_pair(settings, pair.first, pair.second);
    std::printf("%s\t%d\t%d\t%s\t%d\t%d\t%d\t", experiment, settings.w, settings.h, look.c_str(), settings.s,
                settings.tolerance, settings.percentile);
    for (Move move : {pair.truth, ward.offset, least_move.offset, theirs})
        std::printf("%d\t%d\t", move.dx, move.dy);
    for (const Answer *answer : {&ward, &least_move})
        std::printf("%u\t%u\t", answer->counts[answer->finest], answer->compared[answer->finest]);
    for (uint32_t count : ward.counts)
        std::printf("%u ", count);
    std::printf("\n");
}

// Every tolerance, band and percentile on one pair. OpenCV has no percentile: its answer stands beside each of the three.
void try_settings(const std::string &look, Settings settings, const Pair &pair)
{
    for (int tolerance : all_tolerances) {
        settings.tolerance = tolerance;
        Move theirs = opencv_pair(settings, pair.first, pair.second);
        for (int percentile : all_percentiles) {
            settings.percentile = percentile;
            try_pair("pair", look, settings, pair, theirs);
        }
    }
    try_bands(look, settings, pair);
}

// One scene under one pair of tone curves: each noise and each number of halvings has a move of its own, within reach.
void try_scene(Size size, const SceneKind &kind, const Tone &tone, Random random)
{
    Scene scene = kind.make(size.w + 2 * margin, size.h + 2 * margin, random);
    for (int noise : all_noises)
        for (int s = least_halvings; s <= most_halvings && std::min(size.w, size.h) >= 4 << s; s++) {
            int reach = std::min(largest_move, (2 << s) - 1);
            Move truth = {random.whole(-reach, reach), random.whole(-reach, reach)};
            Pair pair = take_pair(scene, margin, size.w, size.h, truth, tone, noise, random);
            try_settings(look(kind, tone, noise), {size.w, size.h, s, 0, 50}, pair);
        }
}

// Pairs that have no right answer: the move is out of reach, or the second frame shows another scene of the kind.
void try_hopeless(const SceneKind &kind, const Tone &tone, Random random)
{
    constexpr int w = 640, h = 480;
    Scene scene = kind.make(w + 2 * margin, h + 2 * margin, random);
    Scene other = kind.make(w + 2 * margin, h + 2 * margin, random);
    for (int noise : {0, 2})
        for (int s : {2, 3}) {
            int reach = (2 << s) - 1;
            Settings settings = {w, h, s, 0, 50};
            Move truth = {random.whole(reach + 1, largest_move), random.whole(-largest_move, largest_move)};
            Pair pair = take_pair(scene, margin, w, h, truth, tone, noise, random);
            try_pair("beyond", look(kind, tone, noise), settings, pair,
                     opencv_pair(settings, pair.first, pair.second));
            Pair stranger = take_pair(other, margin, w, h, truth, tone, noise, random);
            stranger.first = pair.first;
            try_pair("unrelated", look(kind, tone, noise), settings, stranger,
                     opencv_pair(settings, stranger.first, stranger.second));
        }
}

void try_all(uint64_t seed)
{
    for (int repeat = 0; repeat < repeats; repeat++)
        for (const Size &size : sizes)
            for (size_t k = 0; k < scene_kinds.size(); k++) {
                std::fprintf(stderr, "\raccuracy: run %d of %d, %d by %d, %-20s", repeat + 1, repeats, size.w, size.h,
                             scene_kinds[k].name.c_str());
                for (size_t t = 0; t < tones.size(); t++)
                    try_scene(size, scene_kinds[k], tones[t], Random({seed, uint64_t(repeat), uint64_t(size.w), k, t}));
            }
    std::fprintf(stderr, "\raccuracy: hopeless pairs, cameras, re-exposure, rotation%40s\n", "");
    for (size_t k = 0; k < scene_kinds.size(); k++)
        for (size_t t = 0; t < tones.size(); t++)
            try_hopeless(scene_kinds[k], tones[t], Random({seed, k, t}));
    try_cameras(seed);
    try_reexposure(seed);
    try_rotation(seed);
}

// The scenes side by side as the plain exposure shows them, white lines between.
void show_scenes(uint64_t seed)
{
    constexpr int w = 160, h = 120, gap = 4;
    int number = int(scene_kinds.size()), whole = number * (w + gap) - gap;
    std::vector<uint8_t> picture(size_t(whole) * h, 255);
    for (int k = 0; k < number; k++) {
        Random random({seed, uint64_t(k)});
        Raster raster = expose(scene_kinds[k].make(w, h, random), 0, 0, w, h, tones[0].first, 0, random);
        for (int y = 0; y < h; y++)
            for (int x = 0; x < w; x++)
                picture[size_t(y) * whole + k * (w + gap) + x] = raster[3 * (size_t(y) * w + x)];
    }
    std::printf("P5\n%d %d\n255\n", whole, h);
    std::fwrite(picture.data(), 1, picture.size(), stdout);
}

}

Pair take_pair(const Scene &scene, int margin, int w, int h, Move truth, const Tone &tone, double noise, Random &random)
{
    Raster first = expose(scene, margin, margin, w, h, tone.first, noise, random);
    Raster second = expose(scene, margin + truth.dx, margin + truth.dy, w, h, tone.second, noise, random);
    return {truth, std::move(first), std::move(second)};
}

int main(int argc, char **argv)
{
    if (argc < 2) {
        std::fprintf(stderr, "measure SEED [scenes]\n");
        return 2;
    }
    uint64_t seed = std::strtoull(argv[1], nullptr, 10);
    if (argc > 2 && std::strcmp(argv[2], "scenes") == 0) {
        show_scenes(seed);
        return 0;
    }
    std::printf("opencv\t%s\n", opencv_version() ? opencv_version() : "");
    try_all(seed);
}
