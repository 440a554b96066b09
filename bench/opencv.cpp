// OpenCV's AlignMTB on the same rasters, on one thread: grey conversion of each frame once, then the shift of each
// neighbouring pair. Its max_bits is the number of levels.
#include "contest.h"

#include <string>
#include <vector>

#include <opencv2/core.hpp>
#include <opencv2/core/utility.hpp>
#include <opencv2/imgproc.hpp>
#include <opencv2/photo.hpp>

const char *opencv_about(void)
{
    static const std::string text = std::string(CV_VERSION ", takes code for ") + cv::getCPUFeaturesLine();
    return text.c_str();
}

void opencv_align(const struct job *j, const struct memory *, struct answer *a)
{
    cv::setNumThreads(1);
    cv::Ptr<cv::AlignMTB> mtb = cv::createAlignMTB((int)j->s + 1, (int)j->tolerance);
    std::vector<cv::Mat> grey(j->n);
    a->offsets[0] = a->offsets[1] = 0;
    for (uint32_t k = 0; k < j->n; k++) {
        uint8_t *raster = const_cast<uint8_t *>(j->rasters) + (size_t)k * 3 * j->w * j->h;
        cv::cvtColor(cv::Mat((int)j->h, (int)j->w, CV_8UC3, raster), grey[k], cv::COLOR_RGB2GRAY);
        if (k == 0)
            continue;
        cv::Point d = mtb->calculateShift(grey[k - 1], grey[k]);
        a->offsets[2 * k] = a->offsets[2 * k - 2] + d.x;
        a->offsets[2 * k + 1] = a->offsets[2 * k - 1] + d.y;
    }
}
