// The library's offsets beside those of OpenCV's AlignMTB on the same frames, as a section of docs/PEERS.md on standard output. The
// library is asked by mtb_series_ward: of equal counts OpenCV too takes the first in Ward's order. Agreement is reported, not asserted:
// the two methods differ.
#include "mtb.h"

extern "C" {
#include "../scenes.h"
}

#include <opencv2/core.hpp>
#include <opencv2/photo.hpp>

#include <algorithm>
#include <cstdio>
#include <cstdlib>
#include <cstring>
#include <set>
#include <utility>
#include <vector>

namespace {

constexpr uint64_t seed = 1;
constexpr uint32_t median = 50;
constexpr int32_t margin = 15; // the farthest that an ordinary frame stands off its canvas' middle, each way

using Move = std::pair<int32_t, int32_t>;
using Grey = std::vector<uint8_t>; // rows from the top, a byte a pixel

struct Settings {
    uint32_t w, h, s, tolerance;
};

// ---- The two aligners ----

std::vector<uint8_t> rasters_of(const std::vector<Grey> &frames)
{
    std::vector<uint8_t> rasters;
    for (const Grey &frame : frames)
        for (uint8_t value : frame)
            rasters.insert(rasters.end(), 3, value);
    return rasters;
}

// Each frame's move onto frame r, in Ward's order.
std::vector<Move> library_moves(const Settings &set, const std::vector<Grey> &frames, uint32_t r)
{
    uint32_t n = (uint32_t)frames.size();
    std::vector<uint8_t> rasters = rasters_of(frames), grey(mtb_grey_needed(set.w, set.h, set.s));
    std::vector<uint64_t> words(mtb_words_needed(set.w, set.h, set.s));
    std::vector<uint32_t> percentiles(n - 1, median), counts(9 * (set.s + 1) * (n - 1)), compared(counts.size());
    std::vector<int32_t> offsets(2 * n);
    uint32_t refusal = mtb_series_ward(set.w, set.h, set.s, set.tolerance, n, r, percentiles.data(), percentiles.size(),
                                       rasters.data(), rasters.size(), offsets.data(), offsets.size(), counts.data(), counts.size(),
                                       compared.data(), compared.size(), grey.data(), grey.size(), words.data(), words.size());
    if (refusal) {
        std::fprintf(stderr, "opencv: refused %u\n", refusal);
        std::exit(1);
    }
    std::vector<Move> moves;
    for (uint32_t k = 0; k < n; k++)
        moves.push_back({ offsets[2 * k], offsets[2 * k + 1] });
    return moves;
}

cv::Mat mat_of(const Settings &set, const Grey &frame)
{
    return cv::Mat((int)set.h, (int)set.w, CV_8UC1, const_cast<uint8_t *>(frame.data()));
}

// The same by OpenCV: every frame directly against frame r, as AlignMTB::process does with the middle one.
std::vector<Move> opencv_moves(const Settings &set, const std::vector<Grey> &frames, uint32_t r)
{
    cv::Ptr<cv::AlignMTB> aligner = cv::createAlignMTB((int)set.s + 1, (int)set.tolerance);
    std::vector<Move> moves;
    for (uint32_t k = 0; k < frames.size(); k++) {
        cv::Point shift = k == r ? cv::Point() : aligner->calculateShift(mat_of(set, frames[r]), mat_of(set, frames[k]));
        moves.push_back({ shift.x, shift.y });
    }
    return moves;
}

// ---- Conditioned frames ----

// Grey in multiples of 4, constant on aligned blocks of 2^s by 2^s, an even number of pixels on every level: with a tolerance of 1 the
// two methods then give the same bits.
struct Cells {
    uint32_t w, h;
    std::vector<uint8_t> values;
};

Cells random_cells(uint32_t w, uint32_t h)
{
    Cells cells { w, h, std::vector<uint8_t>((size_t)w * h) };
    uint32_t kinds = 2 + random_below(63);
    for (uint8_t &value : cells.values)
        value = (uint8_t)(4 * random_below(kinds));
    return cells;
}

// The cells moved, each replaced by chance `changed` in 100 by another value.
Cells seen_again(const Cells &cells, int32_t dx, int32_t dy, uint32_t changed)
{
    Cells seen = cells;
    for (uint32_t y = 0; y < cells.h; y++)
        for (uint32_t x = 0; x < cells.w; x++) {
            uint32_t from_x = (x + cells.w + (uint32_t)dx) % cells.w, from_y = (y + cells.h + (uint32_t)dy) % cells.h;
            bool other = random_below(100) < changed;
            seen.values[y * cells.w + x] = other ? (uint8_t)(4 * random_below(64)) : cells.values[from_y * cells.w + from_x];
        }
    return seen;
}

Grey enlarged(const Cells &cells, uint32_t s)
{
    uint32_t w = cells.w << s, h = cells.h << s;
    Grey frame((size_t)w * h);
    for (uint32_t y = 0; y < h; y++)
        for (uint32_t x = 0; x < w; x++)
            frame[(size_t)y * w + x] = cells.values[(y >> s) * cells.w + (x >> s)];
    return frame;
}

struct Count {
    uint32_t asked = 0, same = 0, library_true = 0, opencv_true = 0;
    std::set<Move> seen;
};

void count_same(Count &count, const std::vector<Move> &ours, const std::vector<Move> &theirs, uint32_t r)
{
    for (uint32_t k = 0; k < ours.size(); k++)
        if (k != r) {
            count.asked++;
            count.same += ours[k] == theirs[k];
            count.seen.insert(ours[k]);
        }
}

Count conditioned(uint32_t s, uint32_t pairs)
{
    Count count;
    for (uint32_t i = 0; i < pairs; i++) {
        Cells cells = random_cells(2 * (uint32_t)random_between(2, 12), 2 * (uint32_t)random_between(2, 12));
        Cells again = seen_again(cells, random_between(-1, 1), random_between(-1, 1), random_below(101));
        std::vector<Grey> frames { enlarged(cells, s), enlarged(again, s) };
        Settings set { cells.w << s, cells.h << s, s, 1 };
        count_same(count, library_moves(set, frames, 0), opencv_moves(set, frames, 0), 0);
    }
    return count;
}

void print_conditioned()
{
    std::puts("\n| s | pairs | same offset | different offsets among them |\n|---|---|---|---|");
    Count all;
    for (uint32_t s = 0; s <= 6; s++) {
        Count count = conditioned(s, s < 5 ? 600 : 200);
        std::printf("| %u | %u | %u | %zu |\n", s, count.asked, count.same, count.seen.size());
        all.asked += count.asked;
        all.same += count.same;
    }
    std::printf("\nIn all the same offset for %u of %u pairs.\n", all.same, all.asked);
    std::fprintf(stderr, "opencv: conditioned frames: same offset for %u of %u pairs\n", all.same, all.asked);
}

// ---- Ordinary frames ----

// A picture larger than a frame by the margin on each side, on which frames look.
struct Canvas {
    uint32_t w, h;
    Grey light;
};

using Painter = void (*)(Canvas &);

void paint_blobs(Canvas &canvas)
{
    struct scene scene = random_scene(canvas.w, canvas.h);
    std::vector<uint8_t> raster(3 * canvas.light.size());
    expose(&scene, { 0, 0, 64, 0, 0 }, canvas.w, canvas.h, raster.data());
    for (size_t i = 0; i < canvas.light.size(); i++)
        canvas.light[i] = raster[3 * i + 1];
}

// Squares of 160, 40, 9 and single pixels.
void paint_mosaic(Canvas &canvas)
{
    std::vector<uint8_t> raster(3 * canvas.light.size());
    make_frames({ random_below(1000), canvas.w, canvas.h }, raster.size(), raster.data());
    for (size_t i = 0; i < canvas.light.size(); i++)
        canvas.light[i] = raster[3 * i];
}

void paint_star(Canvas &canvas, uint32_t x, uint32_t y, int32_t height)
{
    for (int32_t j = -2; j <= 2; j++)
        for (int32_t i = -2; i <= 2; i++) {
            uint8_t &light = canvas.light[(size_t)((int32_t)y + j) * canvas.w + (size_t)((int32_t)x + i)];
            light = (uint8_t)std::min(255, light + height / (1 + i * i + j * j));
        }
}

void paint_stars(Canvas &canvas)
{
    std::fill(canvas.light.begin(), canvas.light.end(), 12);
    for (size_t star = 0; star < canvas.light.size() / 1500; star++)
        paint_star(canvas, 2 + random_below(canvas.w - 4), 2 + random_below(canvas.h - 4), random_between(20, 255));
}

void paint_haze(Canvas &canvas)
{
    std::fill(canvas.light.begin(), canvas.light.end(), 120);
}

// What a frame sees that begins (x, y) off the canvas' middle, with a gain in 64ths and noise of so much each way.
Grey look(const Canvas &canvas, int32_t x, int32_t y, int32_t gain, int32_t noise)
{
    uint32_t w = canvas.w - 2 * margin, h = canvas.h - 2 * margin;
    Grey frame((size_t)w * h);
    for (uint32_t row = 0; row < h; row++)
        for (uint32_t column = 0; column < w; column++) {
            size_t from = (size_t)((int32_t)row + y + margin) * canvas.w + (size_t)((int32_t)column + x + margin);
            int32_t light = canvas.light[from] * gain / 64 + random_between(-noise, noise);
            frame[(size_t)row * w + column] = (uint8_t)std::clamp(light, 0, 255);
        }
    return frame;
}

struct Bracket {
    std::vector<Grey> frames;
    std::vector<Move> moves; // the true ones, onto frame r
};

// Any two frames stand so close that s halvings can find their move.
Bracket take(Painter paint, const Settings &set, uint32_t n, uint32_t r)
{
    static const int32_t gains[] = { 32, 45, 64, 90, 128 };
    int32_t far = std::min(margin, (1 << set.s) - 1);
    Canvas canvas { set.w + 2 * margin, set.h + 2 * margin, Grey((size_t)(set.w + 2 * margin) * (set.h + 2 * margin)) };
    paint(canvas);
    Bracket bracket;
    std::vector<Move> places;
    for (uint32_t k = 0; k < n; k++) {
        places.push_back({ random_between(-far, far), random_between(-far, far) });
        bracket.frames.push_back(look(canvas, places[k].first, places[k].second, gains[random_below(5)], (int32_t)random_below(3)));
    }
    for (const Move &place : places)
        bracket.moves.push_back({ place.first - places[r].first, place.second - places[r].second });
    return bracket;
}

void count_true(Count &count, const std::vector<Move> &ours, const std::vector<Move> &theirs, const Bracket &bracket, uint32_t r)
{
    for (uint32_t k = 0; k < ours.size(); k++)
        if (k != r) {
            count.library_true += ours[k] == bracket.moves[k];
            count.opencv_true += theirs[k] == bracket.moves[k];
        }
}

struct Scene {
    const char *name;
    Painter paint;
};

const Scene scenes[] = { { "blobs and edges", paint_blobs }, { "mosaic", paint_mosaic }, { "star field", paint_stars }, { "haze", paint_haze } };

Count ordinary(const Scene &scene, Settings set, uint32_t brackets, uint32_t n)
{
    Count count;
    uint32_t r = n / 2;
    random_begin(seed, scene.name); // the same brackets for every tolerance
    for (uint32_t i = 0; i < brackets; i++) {
        Bracket bracket = take(scene.paint, set, n, r);
        std::vector<Move> ours = library_moves(set, bracket.frames, r), theirs = opencv_moves(set, bracket.frames, r);
        count_same(count, ours, theirs, r);
        count_true(count, ours, theirs, bracket, r);
    }
    return count;
}

void print_ordinary(const char *what, uint32_t brackets, uint32_t n)
{
    static const Settings settings[] = { { 320, 240, 5, 4 }, { 320, 240, 5, 0 }, { 320, 240, 4, 1 }, { 320, 240, 2, 0 } };
    std::printf("\n| scene | s | T | %s | same offset | true by the library | true by OpenCV |\n|---|---|---|---|---|---|---|\n", what);
    for (const Scene &scene : scenes)
        for (const Settings &set : settings) {
            Count count = ordinary(scene, set, brackets, n);
            std::printf("| %s | %u | %u | %u | %u | %u | %u |\n", scene.name, set.s, set.tolerance, count.asked, count.same,
                        count.library_true, count.opencv_true);
        }
}

} // namespace

int main()
{
    cv::setNumThreads(1);
    std::printf("## OpenCV's AlignMTB\n\n"
                "OpenCV %s, `calculateShift` with `max_bits` = s + 1, on the same frames; grey frames (R = G = B), so that the two grey conversions do not\n"
                "enter. The library is asked by `mtb_series_ward`, which of equal counts takes the first in Ward's order, as OpenCV does. Reported, not\n"
                "asserted. The two methods differ by design: OpenCV's median is one past document 01's threshold, its pyramid keeps every second\n"
                "pixel, and it measures every frame of a bracket directly against the middle one.\n\n"
                "Frames on which none of this matters (grey in multiples of 4, T = 1, constant on aligned blocks of 2^s by 2^s pixels, even numbers of\n"
                "pixels, pairs): there it is an outside check of the pair's offset.\n",
                CV_VERSION);
    random_begin(seed, "conditioned");
    print_conditioned();
    std::printf("\nOrdinary frames, 320 by 240, gains from 1/2 to 2, noise of up to 2 each way, moves within reach of s. `true` counts the\n"
                "offsets that are the move with which the frames were made. Pairs:\n");
    print_ordinary("pairs", 40, 2);
    std::printf("\nBrackets of five, offsets of the other four onto the middle one:\n");
    print_ordinary("frames", 10, 5);
    return 0;
}
