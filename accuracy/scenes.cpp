#include "scenes.hpp"

#include <algorithm>
#include <cmath>

Random::Random(std::initializer_list<uint64_t> seeds)
{
    for (uint64_t seed : seeds)
        state ^= seed, state = next();
}

uint64_t Random::next()
{
    uint64_t z = state += 0x9e3779b97f4a7c15;
    z = (z ^ (z >> 30)) * 0xbf58476d1ce4e5b9;
    z = (z ^ (z >> 27)) * 0x94d049bb133111eb;
    return z ^ (z >> 31);
}

double Random::unit() { return double(next() >> 11) / 9007199254740992.0; }

double Random::between(double low, double high) { return low + (high - low) * unit(); }

int Random::whole(int low, int high) { return low + int(next() % uint64_t(high - low + 1)); }

double Random::bell()
{
    uint64_t z = next();
    double sum = double(z & 0xffff) + double(z >> 16 & 0xffff) + double(z >> 32 & 0xffff) + double(z >> 48);
    return (sum / 65536.0 - 2.0) * 1.7320508075688772;
}

namespace {

// Adds smooth noise: values at the corners of cells that wide, blended between them.
void add_cells(Scene &scene, int cell, double strength, Random &random)
{
    int columns = scene.w / cell + 2, rows = scene.h / cell + 2;
    std::vector<double> corners(size_t(columns) * rows);
    for (double &corner : corners)
        corner = strength * random.between(-1, 1);
    auto ease = [](double u) { return u * u * (3 - 2 * u); };
    for (int y = 0; y < scene.h; y++)
        for (int x = 0; x < scene.w; x++) {
            const double *c = &corners[size_t(y / cell) * columns + x / cell];
            double u = ease(double(x % cell) / cell), v = ease(double(y % cell) / cell);
            double top = c[0] + u * (c[1] - c[0]), bottom = c[columns] + u * (c[columns + 1] - c[columns]);
            scene.at(x, y) += float(top + v * (bottom - top));
        }
}

// Moves and stretches the values to this mean and deviation, none below 0.
void normalise(Scene &scene, double mean, double deviation)
{
    double sum = 0, squares = 0, n = double(scene.light.size());
    for (float v : scene.light)
        sum += v, squares += double(v) * v;
    double old_mean = sum / n, gain = deviation / std::sqrt(squares / n - old_mean * old_mean);
    for (float &v : scene.light)
        v = float(std::max(0.0, mean + gain * (v - old_mean)));
}

// Leaves of 2 to 80 pixels, many small ones, each over those before it.
Scene leaves(int w, int h, Random &random)
{
    Scene scene(w, h, 60);
    int number = w * h / 20;
    for (int k = 0; k < number; k++) {
        double radius = 2 / std::sqrt(1 - random.unit() * (1 - 1.0 / 1600)), narrow = random.between(0.4, 1);
        double ux = random.between(-1, 1), uy = random.between(-1, 1), length = std::sqrt(ux * ux + uy * uy) + 1e-9;
        double cx = random.between(0, w), cy = random.between(0, h), value = random.between(20, 235);
        ux /= length, uy /= length;
        int r = int(radius) + 1;
        for (int y = std::max(0, int(cy) - r); y <= std::min(h - 1, int(cy) + r); y++)
            for (int x = std::max(0, int(cx) - r); x <= std::min(w - 1, int(cx) + r); x++) {
                double along = (x - cx) * ux + (y - cy) * uy, across = ((y - cy) * ux - (x - cx) * uy) / narrow;
                if (along * along + across * across <= radius * radius)
                    scene.at(x, y) = float(value + 15 * along / radius);
            }
    }
    return scene;
}

Scene hills(int w, int h, Random &random)
{
    Scene scene(w, h, 0);
    for (int cell = 256; cell >= 2; cell /= 2)
        add_cells(scene, cell, std::pow(cell, 0.7), random);
    normalise(scene, 110, 35);
    return scene;
}

Scene nebula(int w, int h, Random &random)
{
    Scene scene(w, h, 0);
    for (int cell = 128; cell >= 8; cell /= 2)
        add_cells(scene, cell, cell, random);
    normalise(scene, 60, 10);
    return scene;
}

// Adds a star for each so many pixels: few bright ones, many faint ones, all as wide as the air makes them.
void add_stars(Scene &scene, int pixels_a_star, Random &random)
{
    const double width = 1.5;
    const int r = 7;
    int number = scene.w * scene.h / pixels_a_star;
    for (int k = 0; k < number; k++) {
        double cx = random.between(0, scene.w), cy = random.between(0, scene.h), peak = 16 / (random.unit() + 0.004);
        for (int y = std::max(0, int(cy) - r); y <= std::min(scene.h - 1, int(cy) + r); y++)
            for (int x = std::max(0, int(cx) - r); x <= std::min(scene.w - 1, int(cx) + r); x++) {
                double d = (x - cx) * (x - cx) + (y - cy) * (y - cy);
                scene.at(x, y) += float(peak * std::exp(-d / (2 * width * width)));
            }
    }
}

// A sky that glows a little more on one side.
Scene sky(int w, int h, Random &random)
{
    Scene scene(w, h, 0);
    double right = random.between(-3, 3), down = random.between(-3, 3);
    for (int y = 0; y < h; y++)
        for (int x = 0; x < w; x++)
            scene.at(x, y) = float(14 + right * x / w + down * y / h);
    return scene;
}

Scene sparse_stars(int w, int h, Random &random)
{
    Scene scene = sky(w, h, random);
    add_stars(scene, 2000, random);
    return scene;
}

Scene dense_stars(int w, int h, Random &random)
{
    Scene scene = sky(w, h, random);
    add_stars(scene, 100, random);
    return scene;
}

Scene nebula_with_stars(int w, int h, Random &random)
{
    Scene scene = nebula(w, h, random);
    add_stars(scene, 1000, random);
    return scene;
}

Scene haze(int w, int h, Random &) { return Scene(w, h, 128); }

double power(double v, double gamma) { return 255 * std::pow(std::min(v, 255.0) / 255, gamma); }
double plain(double v) { return v; }
double s_curve(double v)
{
    double u = std::min(v, 255.0) / 255;
    return 255 * u * u * (3 - 2 * u);
}
double over(double v) { return 3 * v; }
double under(double v) { return v / 4 - 3; }
double both_ends(double v) { return 128 + 3 * (v - 128); }

}

const std::vector<SceneKind> scene_kinds = {
    {"leaves", leaves},
    {"soft hills", hills},
    {"nebula", nebula},
    {"nebula with stars", nebula_with_stars},
    {"dense stars", dense_stars},
    {"sparse stars", sparse_stars},
    {"flat haze", haze},
};

const std::vector<Tone> tones = {
    {"same", plain, plain},
    {"gamma 0.45", plain, [](double v) { return power(v, 0.45); }},
    {"gamma 0.7", plain, [](double v) { return power(v, 0.7); }},
    {"gamma 1.5", plain, [](double v) { return power(v, 1.5); }},
    {"gamma 2.2", plain, [](double v) { return power(v, 2.2); }},
    {"S curve", plain, s_curve},
    {"over", plain, over},
    {"under", plain, under},
    {"both ends", plain, both_ends},
    {"under, over", under, over},
};

Raster expose(const Scene &scene, int left, int top, int w, int h, Curve curve, double noise, Random &random)
{
    Raster raster(size_t(3) * w * h);
    uint8_t *out = raster.data();
    for (int y = 0; y < h; y++)
        for (int x = 0; x < w; x++) {
            double v = curve(scene.at(left + x, top + y));
            if (noise > 0)
                v += noise * random.bell();
            uint8_t grey = uint8_t(std::clamp(v + 0.5, 0.0, 255.0));
            *out++ = grey, *out++ = grey, *out++ = grey;
        }
    return raster;
}
