/* P6 files through the library, for a shell beside Netpbm:
 *   p6 write W H    a file with a random raster, by mtb_p6_write, to standard output
 *   p6 size FILE    "W by H" by mtb_p6_size, or "refused N"
 *   p6 raster FILE  the raster's bytes by mtb_p6_raster, to standard output; none when refused */
#include "mtb.h"

#include "../scenes.h"

#include <inttypes.h>
#include <stdio.h>
#include <stdlib.h>
#include <string.h>

enum { LONGEST_HEADER = 17, FILE_ROOM = 3 * 4097 * 4097 };

static uint8_t *memory(size_t bytes)
{
    uint8_t *block = malloc(bytes ? bytes : 1);
    if (!block) {
        fprintf(stderr, "p6: no memory\n");
        exit(2);
    }
    return block;
}

static int write_file(uint32_t w, uint32_t h)
{
    size_t raster_len = 3 * (size_t)w * h, written = 0;
    uint8_t *raster = memory(raster_len), *out = memory(LONGEST_HEADER + raster_len);
    random_begin(((uint64_t)w << 32) + h, "netpbm");
    random_bytes(raster, raster_len);
    uint32_t refusal = mtb_p6_write(w, h, raster, raster_len, out, LONGEST_HEADER + raster_len, &written);
    fwrite(out, 1, written, stdout);
    free(raster);
    free(out);
    return refusal != 0;
}

static uint8_t *read_bytes(const char *name, size_t *length)
{
    FILE *from = fopen(name, "rb");
    uint8_t *bytes = memory(FILE_ROOM);
    if (!from) {
        perror(name);
        exit(2);
    }
    *length = fread(bytes, 1, FILE_ROOM, from);
    fclose(from);
    return bytes;
}

static int tell_size(const uint8_t *file, size_t length)
{
    uint32_t w = 0, h = 0, refusal = mtb_p6_size(file, length, &w, &h);
    if (refusal)
        printf("refused %" PRIu32 "\n", refusal);
    else
        printf("%" PRIu32 " by %" PRIu32 "\n", w, h);
    return 0;
}

static int copy_raster(const uint8_t *file, size_t file_len)
{
    size_t start = 0, length = 0;
    uint32_t refusal = mtb_p6_raster(file, file_len, &start, &length);
    fwrite(file + start, 1, length, stdout);
    return refusal != 0;
}

static int read_file(const char *what, const char *name)
{
    size_t length;
    uint8_t *file = read_bytes(name, &length);
    int status = strcmp(what, "size") == 0 ? tell_size(file, length) : copy_raster(file, length);
    free(file);
    return status;
}

int main(int words, char **word)
{
    if (words == 4 && strcmp(word[1], "write") == 0)
        return write_file((uint32_t)atol(word[2]), (uint32_t)atol(word[3]));
    if (words == 3 && (strcmp(word[1], "size") == 0 || strcmp(word[1], "raster") == 0))
        return read_file(word[1], word[2]);
    fprintf(stderr, "usage: p6 write W H | size FILE | raster FILE\n");
    return 2;
}
