// Field rotation: what mtb_quadrants tells of frames that have turned, and of frames that have only slid.
#include <cmath>
#include <cstdio>
#include <string>
#include <utility>
#include <vector>

#include "measure.hpp"

namespace {

constexpr int largest_slide = 4, s = 3;
constexpr int noises[] = {0, 1, 2, 4};
constexpr double degree = 0.017453292519943295;

// How the second frame was taken: turned about its centre, by tenths of a degree, and from so far on.
struct Pose {
    double tenths, dx, dy;
};

Pose slide_by_parts(double tenths, Random &random)
{
    double dx = random.between(-largest_slide, largest_slide), dy = random.between(-largest_slide, largest_slide);
    return {random.whole(0, 1) ? tenths : -tenths, dx, dy};
}

Pose slide_by_pixels(Random &random)
{
    int dx = random.whole(-largest_slide, largest_slide), dy = random.whole(-largest_slide, largest_slide);
    return {0, double(dx), double(dy)};
}

// The light at a place between the pixels: the four around it, blended. At a pixel it is that pixel's.
float light_at(const Scene &scene, double x, double y)
{
    int left = int(x), top = int(y);
    double u = x - left, v = y - top;
    double upper = scene.at(left, top) + u * (scene.at(left + 1, top) - scene.at(left, top));
    double lower = scene.at(left, top + 1) + u * (scene.at(left + 1, top + 1) - scene.at(left, top + 1));
    return float(upper + v * (lower - upper));
}

// What the turned camera looks at, as a scene without a margin.
Scene seen(const Scene &scene, int margin, Size size, const Pose &pose)
{
    double cosine = std::cos(pose.tenths / 10 * degree), sine = std::sin(pose.tenths / 10 * degree);
    double middle_x = (size.w - 1) / 2.0, middle_y = (size.h - 1) / 2.0;
    Scene out(size.w, size.h, 0);
    for (int y = 0; y < size.h; y++)
        for (int x = 0; x < size.w; x++) {
            double u = x - middle_x, v = y - middle_y;
            out.at(x, y) = light_at(scene, margin + middle_x + cosine * u - sine * v + pose.dx,
                                    margin + middle_y + sine * u + cosine * v + pose.dy);
        }
    return out;
}

// Scene that a corner sees beyond the frame: it moves by the slide and, turned, by half a diagonal times the angle.
int margin_for(Size size, double most_tenths)
{
    return largest_slide + 2 + int(std::hypot(size.w, size.h) / 2 * most_tenths / 10 * degree);
}

// A first frame, and what a second one is taken of.
struct Shot {
    std::string look; // the fields that name scene and tone in a line
    const Scene &scene;
    int margin;
    Size size;
    Curve curve;
    int noise;
    Raster first;
};

// One pair: a line has how it was taken, the four offsets, the warning, and the counts of the whole frames by mtb_pair.
void try_pose(const char *experiment, const Shot &at, const Pose &pose, Random &random)
{
    Size size = at.size;
    Raster second = expose(seen(at.scene, at.margin, size, pose), 0, 0, size.w, size.h, at.curve, at.noise, random);
    Settings settings = {size.w, size.h, s, 0, 50};
    Warning warning = quadrants(settings, at.first, second);
    Answer whole = least_move_pair(settings, at.first, second);
    std::printf("%s\t%d\t%d\t%s\t%d\t%g\t%.6f\t%.6f\t", experiment, size.w, size.h, at.look.c_str(), at.noise, pose.tenths,
                pose.dx, pose.dy);
    for (const Move &move : warning.offsets)
        std::printf("%d\t%d\t", move.dx, move.dy);
    std::printf("%d\t", warning.turned);
    for (uint32_t count : whole.counts)
        std::printf("%u ", count);
    std::printf("\n");
}

Shot take_first(const Scene &scene, int margin, Size size, const SceneKind &kind, const Tone &tone, int noise, Random &random)
{
    Raster first = expose(scene, margin, margin, size.w, size.h, tone.first, noise, random);
    return {kind.name + "\t" + tone.name, scene, margin, size, tone.second, noise, std::move(first)};
}

// One scene under one pair of tone curves, turned by each angle, with each noise; every pair has a slide of its own.
void try_angles(Size size, const SceneKind &kind, const Tone &tone, const std::vector<double> &tenths, Random random)
{
    int margin = margin_for(size, tenths.back());
    Scene scene = kind.make(size.w + 2 * margin, size.h + 2 * margin, random);
    for (int noise : noises) {
        Shot at = take_first(scene, margin, size, kind, tone, noise, random);
        for (double angle : tenths)
            try_pose("turned", at, slide_by_parts(angle, random), random);
    }
}

// One that has only slid, by whole pixels and by parts of one.
void try_slides(Size size, const SceneKind &kind, const Tone &tone, Random random)
{
    int margin = margin_for(size, 0);
    Scene scene = kind.make(size.w + 2 * margin, size.h + 2 * margin, random);
    for (int noise : noises) {
        Shot at = take_first(scene, margin, size, kind, tone, noise, random);
        try_pose("slid", at, slide_by_pixels(random), random);
        try_pose("slid by parts", at, slide_by_parts(0, random), random);
    }
}

enum What { slides, angles };

// A stream of its own for each scene, told from the other streams of a seed by the paper's number.
Random stream(uint64_t seed, uint64_t run, Size size, size_t k, size_t t, What what)
{
    return Random({seed, 4, run, uint64_t(size.w), k, t, what});
}

}

void try_rotation(uint64_t seed)
{
    constexpr uint64_t runs = 2;
    constexpr size_t unclipped = 6; // tones that clip nothing stand first
    constexpr Size large = {1920, 1080};
    for (uint64_t run = 0; run < runs; run++)
        for (size_t k = 0; k < scene_kinds.size(); k++)
            for (size_t t = 0; t < tones.size(); t++)
                for (Size size : sizes) {
                    try_slides(size, scene_kinds[k], tones[t], stream(seed, run, size, k, t, slides));
                    if (t < unclipped)
                        try_angles(size, scene_kinds[k], tones[t], {0, 1, 2, 3, 4, 5, 6, 8, 10, 15, 20},
                                   stream(seed, run, size, k, t, angles));
                }
    for (size_t t = 0; t < unclipped; t++)
        try_angles(large, scene_kinds[0], tones[t], {0, 0.5, 1, 1.5, 2, 3, 5}, stream(seed, 0, large, 0, t, angles));
}
