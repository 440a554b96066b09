/* Writes the test vectors: make_vectors CRATES [SEED], a data file a program, CRATES/NAME/data/vectors.bin. The committed data has the
 * default seed. */
#include "groups.h"

#include <stdio.h>
#include <stdlib.h>

enum { DEFAULT_SEED = 20030601 };

int main(int argc, char **argv)
{
    if (argc < 2 || argc > 3) {
        fprintf(stderr, "usage: make_vectors CRATES [SEED]\n");
        return EXIT_FAILURE;
    }
    const char *crates = argv[1];
    uint64_t seed = argc == 3 ? strtoull(argv[2], NULL, 10) : DEFAULT_SEED;
    make_noise(seed);
    frame_groups(seed);
    end_file(crates, "vectors_frames");
    bitmap_groups(seed);
    end_file(crates, "vectors_bitmaps");
    pair_groups(seed);
    end_file(crates, "vectors_pair");
    series_groups(seed);
    end_file(crates, "vectors_series");
    quadrant_groups(seed);
    end_file(crates, "vectors_quadrants");
    live_groups(seed);
    end_file(crates, "vectors_live");
    p6_groups(seed);
    view_groups(seed);
    end_file(crates, "vectors_files");
    bracket_groups(seed);
    end_file(crates, "vectors_bracket");
    return EXIT_SUCCESS;
}
