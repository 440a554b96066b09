// The noise band by rank beside the tolerance: on the pairs of measure.cpp, and on frames of several cameras, whose curves lie
// over the noise too.
#include <algorithm>
#include <cmath>
#include <cstdio>
#include <cstdlib>
#include <string>
#include <vector>

#include "measure.hpp"

namespace {

constexpr int least_halvings = 2, most_halvings = 4;
constexpr int largest_move = 30, margin = largest_move + 1;

// A line has the rule that left pixels out, T (a tolerance) or b (a band), with its number, the true offset and the one found,
// the count and the compared number of that one, and all counts.
void tell(const char *experiment, const std::string &look, const Settings &settings, char rule, int number, Move truth,
          const Answer &answer)
{
    std::printf("%s\t%d\t%d\t%s\t%d\t%c\t%d\t%d\t%d\t%d\t%d\t%d\t%u\t%u\t", experiment, settings.w, settings.h, look.c_str(),
                settings.s, rule, number, settings.percentile, truth.dx, truth.dy, answer.offset.dx, answer.offset.dy,
                answer.counts[answer.finest], answer.compared[answer.finest]);
    for (uint32_t count : answer.counts)
        std::printf("%u ", count);
    std::printf("\n");
}

void insist_same(const char *why, bool same)
{
    if (same)
        return;
    std::fprintf(stderr, "accuracy: answers by a band differ, but the theorem says that they cannot: %s\n", why);
    std::exit(1);
}

// A frame of n grey values, one step apart, and the same frame with these spread over all 256.
template <int n> double few_values(double v) { return std::floor(std::min(v, 255.0) * n / 256); }
template <int n> double few_spread(double v) { return 256 / n * few_values<n>(v); }

// What takes both frames of a pair.
struct Camera {
    std::string name;
    Curve curve;
    bool spreads; // the grey values of the camera before, in their order
};

std::vector<Camera> cameras()
{
    size_t single = tones.size() - 2; // "both ends", which leaves nothing of a dark sky, and a tone of two curves stand last
    std::vector<Camera> all = {{"plain", tones[0].second, false}};
    for (size_t t = 1; t < single; t++)
        all.push_back({tones[t].name, tones[t].second, false});
    all.push_back({"64 grey values", few_values<64>, false});
    all.push_back({"64, 4 steps apart", few_spread<64>, true});
    all.push_back({"16 grey values", few_values<16>, false});
    all.push_back({"16, 16 steps apart", few_spread<16>, true});
    return all;
}

// The light with noise in it, so that a curve lies over both.
Scene grainy(Scene scene, double noise, Random &random)
{
    for (float &v : scene.light)
        v = float(std::max(0.0, v + noise * random.bell()));
    return scene;
}

// Every tolerance and every band; gives the answers by the bands.
std::vector<Answer> try_rules(const std::string &look, Settings settings, const Pair &pair)
{
    for (int tolerance : all_tolerances) {
        settings.tolerance = tolerance;
        tell("camera", look, settings, 'T', tolerance, pair.truth, least_move_pair(settings, pair.first, pair.second));
    }
    std::vector<Answer> by_band;
    for (int band : all_bands) {
        by_band.push_back(band_pair(settings, band, pair.first, pair.second));
        tell("camera", look, settings, 'b', band, pair.truth, by_band.back());
    }
    return by_band;
}

// One pair of shots by every camera: the same light, the same noise, the same move.
void try_shots(Size size, const SceneKind &kind, const Scene &scene, int noise, int s, Random &random)
{
    int reach = std::min(largest_move, (2 << s) - 1);
    Move truth = {random.whole(-reach, reach), random.whole(-reach, reach)};
    Scene first = grainy(scene, noise, random), second = grainy(scene, noise, random);
    std::vector<Answer> before;
    for (const Camera &camera : cameras()) {
        Pair pair = {truth, expose(first, margin, margin, size.w, size.h, camera.curve, 0, random),
                     expose(second, margin + truth.dx, margin + truth.dy, size.w, size.h, camera.curve, 0, random)};
        std::string look = kind.name + "\t" + camera.name + "\t" + std::to_string(noise);
        std::vector<Answer> by_band = try_rules(look, {size.w, size.h, s, 0, 50}, pair);
        insist_same("grey values spread apart", !camera.spreads || by_band == before);
        before = by_band;
    }
}

}

void try_bands(const std::string &look, Settings settings, const Pair &pair)
{
    if (settings.s < least_halvings || settings.s > most_halvings)
        return;
    settings.tolerance = 0;
    for (int percentile : all_percentiles) {
        settings.percentile = percentile;
        insist_same("band 0 and tolerance 0",
                    band_pair(settings, 0, pair.first, pair.second) == least_move_pair(settings, pair.first, pair.second));
        for (int band : all_bands)
            tell("band", look, settings, 'b', band, pair.truth, band_pair(settings, band, pair.first, pair.second));
    }
}

void try_cameras(uint64_t seed)
{
    constexpr uint64_t runs = 2;
    size_t scenes = scene_kinds.size() - 1; // flat haze, the last, shows nothing to find
    for (uint64_t run = 0; run < runs; run++)
        for (Size size : sizes)
            for (size_t k = 0; k < scenes; k++) {
                Random random({seed, 6, run, uint64_t(size.w), k}); // told from other streams by the paper's number
                Scene scene = scene_kinds[k].make(size.w + 2 * margin, size.h + 2 * margin, random);
                for (int noise : {1, 2, 4})
                    for (int s = least_halvings; s <= most_halvings; s++)
                        try_shots(size, scene_kinds[k], scene, noise, s, random);
            }
}
