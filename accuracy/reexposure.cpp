// Re-exposure: frames of at most 128 grey values, so that a rising curve has room to keep them apart, aligned before and
// after a curve was laid over the finished frames.
#include <algorithm>
#include <array>
#include <cmath>
#include <cstdio>
#include <string>

#include "measure.hpp"

namespace {

constexpr int values = 128;     // grey values of the frames before: 0 to 127
constexpr int repeats = 3;
constexpr int w = 320, h = 240, s = 3, largest_move = 15, margin = largest_move + 1;

using Map = std::array<uint8_t, 256>;

uint8_t clip(double v) { return uint8_t(std::clamp(v + 0.5, 0.0, 255.0)); }

Map rounded(Curve curve)
{
    Map map{};
    for (int v = 0; v < values; v++)
        map[v] = clip(curve(v));
    return map;
}

// The curve, but each value at least one above the one before: it merges nothing.
Map kept_apart(Curve curve)
{
    Map map = rounded(curve);
    for (int v = 1; v < values; v++)
        map[v] = uint8_t(std::min(std::max(map[v - 1] + 1, int(map[v])), 256 - values + v));
    return map;
}

// Any rising curve: 128 of the 256 grey values, each choice as likely as another.
Map any_rising(Random &random)
{
    Map map{};
    for (int v = 0, grey = 0; v < values; grey++)
        if (random.unit() * (256 - grey) < values - v)
            map[v++] = uint8_t(grey);
    return map;
}

double bright(double v) { return 255 * std::pow(v / (values - 1), 0.45); }
double dark(double v) { return 255 * std::pow(v / (values - 1), 2.2); }
double s_curve(double v)
{
    double u = v / (values - 1);
    return 255 * u * u * (3 - 2 * u);
}

bool merges(const Map &map)
{
    for (int v = 1; v < values; v++)
        if (map[v] == map[v - 1])
            return true;
    return false;
}

struct Reexposure {
    std::string name;
    Map first, second;
};

std::vector<Reexposure> reexposures(Random &random)
{
    Map as_before = rounded([](double v) { return v; });
    return {
        {"twice as bright", as_before, rounded([](double v) { return 2 * v; })},
        {"gamma 0.45, kept apart", as_before, kept_apart(bright)},
        {"gamma 2.2, kept apart", as_before, kept_apart(dark)},
        {"S curve, kept apart", as_before, kept_apart(s_curve)},
        {"any rising curve, each frame its own", any_rising(random), any_rising(random)},
        {"gamma 0.45, rounded", as_before, rounded(bright)},
        {"gamma 2.2, rounded", as_before, rounded(dark)},
        {"half as bright", as_before, rounded([](double v) { return std::floor(v / 2); })},
        {"a quarter as bright", as_before, rounded([](double v) { return std::floor(v / 4); })},
        {"over: 4 times, clipped at 255", as_before, rounded([](double v) { return 4 * v; })},
        {"under: half less 10, clipped at 0", as_before, rounded([](double v) { return v / 2 - 10; })},
        {"both ends clipped", as_before, rounded([](double v) { return 8 * (v - 40); })},
    };
}

Raster mapped(const Map &map, const Raster &raster)
{
    Raster out(raster.size());
    std::transform(raster.begin(), raster.end(), out.begin(), [&](uint8_t v) { return map[v]; });
    return out;
}

// A line for each band and percentile: whether the answer stayed, and the offset.
void compare_bands(const std::string &scene, int noise, const Pair &pair, const Reexposure &reexposure, const Pair &after)
{
    for (int band : all_bands)
        for (int percentile : all_percentiles) {
            Settings settings = {w, h, s, 0, percentile};
            Answer answer = band_pair(settings, band, pair.first, pair.second);
            Answer again = band_pair(settings, band, after.first, after.second);
            std::printf("reexposed by band\t%s\t%s\t%d\t%d\t%d\t%d\t%d\t%d\n", scene.c_str(), reexposure.name.c_str(),
                        merges(reexposure.first) || merges(reexposure.second), noise, band, percentile, answer == again,
                        answer.offset == again.offset);
        }
}

void compare(const std::string &scene, int noise, const Pair &pair, const std::vector<Reexposure> &all)
{
    for (const Reexposure &reexposure : all) {
        Pair after = {pair.truth, mapped(reexposure.first, pair.first), mapped(reexposure.second, pair.second)};
        compare_bands(scene, noise, pair, reexposure, after);
        for (int tolerance : {0, 1, 4})
            for (int percentile : all_percentiles) {
                Settings settings = {w, h, s, tolerance, percentile};
                Answer ward = ward_pair(settings, pair.first, pair.second);
                Answer ward_again = ward_pair(settings, after.first, after.second);
                Answer least_move = least_move_pair(settings, pair.first, pair.second);
                Answer least_move_again = least_move_pair(settings, after.first, after.second);
                Warning warning = quadrants(settings, pair.first, pair.second);
                Warning warning_again = quadrants(settings, after.first, after.second);
                Move theirs = opencv_pair(settings, pair.first, pair.second);
                Move theirs_again = opencv_pair(settings, after.first, after.second);
                std::printf("reexposed\t%s\t%s\t%d\t%d\t%d\t%d\t%d\t%d\t%d\t%d\t%d\t%d\t%d\t%d\n", scene.c_str(),
                            reexposure.name.c_str(), merges(reexposure.first) || merges(reexposure.second), noise,
                            tolerance, percentile, ward == ward_again, least_move == least_move_again,
                            warning == warning_again, ward.offset == ward_again.offset, ward.offset == pair.truth,
                            ward_again.offset == pair.truth, theirs == theirs_again,
                            least_move.offset == least_move_again.offset);
            }
    }
}

}

void try_reexposure(uint64_t seed)
{
    const Tone half = {"half", [](double v) { return v / 2; }, [](double v) { return v / 2; }};
    for (size_t k = 0; k < scene_kinds.size(); k++)
        for (int repeat = 0; repeat < repeats; repeat++) {
            Random random({seed, uint64_t(repeat), k});
            Scene scene = scene_kinds[k].make(w + 2 * margin, h + 2 * margin, random);
            for (int noise : {0, 2}) {
                Move truth = {random.whole(-largest_move, largest_move), random.whole(-largest_move, largest_move)};
                Pair pair = take_pair(scene, margin, w, h, truth, half, noise, random);
                for (Raster *raster : {&pair.first, &pair.second})
                    for (uint8_t &v : *raster)
                        v = std::min<uint8_t>(v, values - 1);
                compare(scene_kinds[k].name, noise, pair, reexposures(random));
            }
        }
}
