// Generated scenes and the frames that a camera takes of them. The same seed gives the same frames.
#pragma once

#include <cstdint>
#include <initializer_list>
#include <string>
#include <vector>

// Numbers from a seed alone (splitmix64).
class Random {
public:
    explicit Random(std::initializer_list<uint64_t> seeds);
    uint64_t next();
    double unit();                         // 0 up to, not including, 1
    double between(double low, double high);
    int whole(int low, int high);          // both included
    double bell();                         // mean 0, deviation 1, within 3.5: the sum of four parts of one number

private:
    uint64_t state = 0;
};

// What the camera looks at: a grey value under the plain exposure for each place, 0 and up, not clipped.
struct Scene {
    int w, h;
    std::vector<float> light;

    Scene(int w, int h, float value) : w(w), h(h), light(size_t(w) * h, value) {}
    float &at(int x, int y) { return light[size_t(y) * w + x]; }
    float at(int x, int y) const { return light[size_t(y) * w + x]; }
};

struct SceneKind {
    std::string name;
    Scene (*make)(int w, int h, Random &random);
};
extern const std::vector<SceneKind> scene_kinds;

// A tone curve: grey value under the plain exposure to grey value of the frame, before noise, rounding and clipping.
using Curve = double (*)(double);

// The two frames of a pair: each has its own curve.
struct Tone {
    std::string name;
    Curve first, second;
};
extern const std::vector<Tone> tones;

// R, G, B bytes, rows from the top.
using Raster = std::vector<uint8_t>;

// A frame of the w by h places from (left, top) on, R = G = B, with noise of that many grey steps.
Raster expose(const Scene &scene, int left, int top, int w, int h, Curve curve, double noise, Random &random);
