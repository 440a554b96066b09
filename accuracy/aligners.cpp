#include "aligners.hpp"

#include <algorithm>
#include <array>
#include <cstdio>
#include <cstdlib>

#include "mtb.h"

#ifdef WITH_OPENCV
#include <opencv2/core.hpp>
#include <opencv2/photo.hpp>
#endif

namespace {

// A level's nine candidates, as places in the row that is written, in the order in which equal counts are preferred.
using Order = std::array<size_t, 9>;
constexpr Order wards_order = {0, 1, 2, 3, 4, 5, 6, 7, 8};
constexpr Order least_move_order = {4, 1, 7, 3, 5, 0, 2, 6, 8};

size_t first_least(const uint32_t *counts, const Order &order)
{
    return *std::min_element(order.begin(), order.end(), [&](size_t a, size_t b) { return counts[a] < counts[b]; });
}

// The candidate that the offset is, on the finest level: the counts lead there from the coarsest one, or the program ends.
size_t follow_counts(const Answer &answer, const Order &order)
{
    Move at = {0, 0};
    size_t place = 0;
    for (size_t row = 0; row < answer.counts.size(); row += order.size()) {
        size_t step = first_least(&answer.counts[row], order);
        at = {2 * at.dx + int(step / 3) - 1, 2 * at.dy + int(step % 3) - 1};
        place = row + step;
    }
    if (!(at == answer.offset)) {
        std::fprintf(stderr, "accuracy: offset %d %d, but the counts lead to %d %d\n", answer.offset.dx, answer.offset.dy,
                     at.dx, at.dy);
        std::exit(1);
    }
    return place;
}

// The work memory of the library's calls on frames of that size, which is kept for the next call.
struct Memory {
    std::vector<uint8_t> &grey;
    std::vector<uint64_t> &words;
};

Memory memory_for(uint32_t w, uint32_t h, uint32_t s)
{
    static std::vector<uint8_t> grey;
    static std::vector<uint64_t> words;
    grey.resize(mtb_grey_needed(w, h, s));
    words.resize(mtb_words_needed(w, h, s));
    return {grey, words};
}

void insist(const Settings &settings, uint32_t refusal)
{
    if (refusal == 0)
        return;
    std::fprintf(stderr, "accuracy: %d by %d, s = %d refused by %u\n", settings.w, settings.h, settings.s, refusal);
    std::exit(1);
}

Answer library_pair(decltype(mtb_pair) *call, const Order &order, const Settings &settings, const Raster &first,
                    const Raster &second)
{
    uint32_t w = settings.w, h = settings.h, s = settings.s;
    Memory memory = memory_for(w, h, s);
    Answer answer;
    answer.counts.resize(order.size() * (s + 1));
    answer.compared.resize(answer.counts.size());
    int32_t dx = 0, dy = 0;
    insist(settings, call(w, h, s, settings.tolerance, settings.percentile, first.data(), first.size(), second.data(),
                          second.size(), &dx, &dy, answer.counts.data(), answer.counts.size(), answer.compared.data(),
                          answer.compared.size(), memory.grey.data(), memory.grey.size(), memory.words.data(),
                          memory.words.size()));
    answer.offset = {dx, dy};
    answer.finest = follow_counts(answer, order);
    return answer;
}

// A quadrant cut out, 0 to 3; the right and the lower ones end where the frame does.
Raster quadrant_of(const Settings &settings, const Raster &raster, size_t k)
{
    size_t w = settings.w, h = settings.h, left = k % 2 ? w - w / 2 : 0, top = k / 2 ? h - h / 2 : 0;
    Raster out;
    for (size_t y = top; y < top + h / 2; y++)
        out.insert(out.end(), &raster[3 * (y * w + left)], &raster[3 * (y * w + left)] + 3 * (w / 2));
    return out;
}

bool far_apart(const std::array<Move, 4> &moves)
{
    auto [left, right] = std::minmax_element(moves.begin(), moves.end(), [](Move a, Move b) { return a.dx < b.dx; });
    auto [top, bottom] = std::minmax_element(moves.begin(), moves.end(), [](Move a, Move b) { return a.dy < b.dy; });
    return right->dx - left->dx > 1 || bottom->dy - top->dy > 1;
}

}

Answer ward_pair(const Settings &settings, const Raster &first, const Raster &second)
{
    return library_pair(mtb_pair_ward, wards_order, settings, first, second);
}

Answer least_move_pair(const Settings &settings, const Raster &first, const Raster &second)
{
    return library_pair(mtb_pair, least_move_order, settings, first, second);
}

Answer band_pair(Settings settings, int band, const Raster &first, const Raster &second)
{
    settings.tolerance = band; // it stands in the same place of the call
    return library_pair(mtb_pair_band, least_move_order, settings, first, second);
}

Warning quadrants(const Settings &settings, const Raster &first, const Raster &second)
{
    uint32_t w = settings.w, h = settings.h, s = settings.s;
    Memory memory = memory_for(w / 2, h / 2, s);
    std::array<int32_t, 8> offsets{};
    Warning warning{};
    insist(settings, mtb_quadrants(w, h, s, settings.tolerance, settings.percentile, first.data(), first.size(),
                                   second.data(), second.size(), offsets.data(), offsets.size(), &warning.turned,
                                   memory.grey.data(), memory.grey.size(), memory.words.data(), memory.words.size()));
    Settings of_quadrant = {settings.w / 2, settings.h / 2, settings.s, settings.tolerance, settings.percentile};
    for (size_t k = 0; k < warning.offsets.size(); k++) {
        warning.offsets[k] = {offsets[2 * k], offsets[2 * k + 1]};
        Answer pair = least_move_pair(of_quadrant, quadrant_of(settings, first, k), quadrant_of(settings, second, k));
        if (!(pair.offset == warning.offsets[k])) {
            std::fprintf(stderr, "accuracy: quadrant %zu: %d %d, but %d %d cut out and aligned as a pair\n", k,
                         warning.offsets[k].dx, warning.offsets[k].dy, pair.offset.dx, pair.offset.dy);
            std::exit(1);
        }
    }
    if (warning.turned != far_apart(warning.offsets)) {
        std::fprintf(stderr, "accuracy: the warning does not follow from the four offsets\n");
        std::exit(1);
    }
    return warning;
}

#ifdef WITH_OPENCV

const char *opencv_version() { return CV_VERSION; }

static cv::Mat grey_of(const Settings &settings, const Raster &raster)
{
    cv::Mat grey(settings.h, settings.w, CV_8UC1);
    for (size_t i = 0; i < raster.size() / 3; i++)
        grey.data[i] = raster[3 * i];
    return grey;
}

Move opencv_pair(const Settings &settings, const Raster &first, const Raster &second)
{
    cv::setNumThreads(1);
    cv::Ptr<cv::AlignMTB> aligner = cv::createAlignMTB(settings.s + 1, settings.tolerance);
    cv::Point shift = aligner->calculateShift(grey_of(settings, first), grey_of(settings, second));
    return {shift.x, shift.y};
}

#else

const char *opencv_version() { return nullptr; }
Move opencv_pair(const Settings &, const Raster &, const Raster &) { return {0, 0}; }

#endif
