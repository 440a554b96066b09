#include "desktop.h"

#include <errno.h>
#include <stdio.h>
#include <stdlib.h>
#include <string.h>

#include "mtb.h"

enum { MOST_HALVINGS = 5, MOST_DIGITS = 9, LONGEST_HEADER = 17 };

static const char *const meanings[] = {
    [MTB_BAD_HEADER] = "no P6 header, or its largest value is not 255",
    [MTB_BAD_SIZE] = "a width or height is 0 or above 4096",
    [MTB_BAD_HALVINGS] = "there are more than 8 halvings",
    [MTB_TOO_SMALL] = "a side is too short for this many halvings",
    [MTB_BAD_TOLERANCE] = "the tolerance is above 64",
    [MTB_BAD_FRAMES] = "there are more than 16 frames",
    [MTB_BAD_REFERENCE] = "the reference is none of the frames",
    [MTB_BAD_PERCENTILE] = "the percentile is not 17, 50 or 83",
    [MTB_WRONG_LENGTH] = "the bytes are not as many as the size asks for",
    [MTB_SHORT_OUTPUT] = "an output is too short",
    [MTB_SHORT_MEMORY] = "the work memory is too short",
    [MTB_FAR_OFFSET] = "an offset is outside -32768 to 32767",
    [MTB_NOTHING_COMMON] = "the frames show no area in common",
    [MTB_BAD_ROW] = "there is no such row",
    [MTB_BAD_BAND] = "the band is above 16",
    [MTB_BAD_HELD] = "the held numbers are damaged, or there is nothing to drop",
};

void fail(const char *what, const char *why)
{
    fflush(stdout);
    fprintf(stderr, "%s: %s\n", what, why);
    exit(EXIT_FAILURE);
}

const char *meaning_of(uint32_t refusal)
{
    return meanings[refusal];
}

void insist(const char *what, uint32_t refusal)
{
    if (refusal != MTB_ACCEPTED) {
        char why[80];
        snprintf(why, sizeof why, "refused (%d): %s", (int)refusal, meaning_of(refusal));
        fail(what, why);
    }
}

int finish(void)
{
    if (fflush(stdout) != 0 || ferror(stdout)) {
        fail("standard output", strerror(errno));
    }
    return EXIT_SUCCESS;
}

int read_options(int argc, char **argv, const char *known, uint32_t *settings)
{
    static const char letters[] = "stpra";    /* in the order of enum setting */
    int place = 1;
    for (; place < argc && argv[place][0] == '-'; place += 2) {
        const char *number = place + 1 < argc ? argv[place + 1] : "";
        size_t digits = strspn(number, "0123456789");
        if (strlen(argv[place]) != 2 || strchr(known, argv[place][1]) == NULL || digits == 0 || digits > MOST_DIGITS
            || number[digits] != '\0') {
            return 0;
        }
        settings[strchr(letters, argv[place][1]) - letters] = (uint32_t)strtoul(number, NULL, 10);
    }
    return place;
}

uint32_t fitting_halvings(uint32_t w, uint32_t h)
{
    uint32_t s = MOST_HALVINGS;
    while (s > 0 && mtb_grey_needed(w, h, s + 1) == 0) {
        s--;
    }
    return s;
}

void *lend(size_t count, size_t size)
{
    void *memory = calloc(count == 0 ? 1 : count, size);
    if (memory == NULL) {
        fail("memory", strerror(ENOMEM));
    }
    return memory;
}

struct file read_file(const char *name)
{
    FILE *stream = fopen(name, "rb");
    if (stream == NULL) {
        fail(name, strerror(errno));
    }
    size_t room = 1 << 16;
    struct file file = {lend(room, 1), 0};
    while (!feof(stream)) {
        if (file.length == room) {
            uint8_t *larger = lend(2 * room, 1);
            memcpy(larger, file.bytes, room);
            free(file.bytes);
            file.bytes = larger;
            room *= 2;
        }
        file.length += fread(file.bytes + file.length, 1, room - file.length, stream);
        if (ferror(stream)) {
            fail(name, strerror(errno));
        }
    }
    fclose(stream);
    return file;
}

void write_file(const char *name, const uint8_t *bytes, size_t length)
{
    FILE *stream = fopen(name, "wb");
    if (stream == NULL) {
        fail(name, strerror(errno));
    }
    size_t written = fwrite(bytes, 1, length, stream);
    if (fclose(stream) != 0 || written != length) {
        fail(name, strerror(errno));
    }
}

void write_p6(const char *name, uint32_t w, uint32_t h, const uint8_t *raster)
{
    size_t bytes = (size_t)3 * w * h, written;
    uint8_t *file = lend(LONGEST_HEADER + bytes, 1);
    insist(name, mtb_p6_write(w, h, raster, bytes, file, LONGEST_HEADER + bytes, &written));
    write_file(name, file, written);
    free(file);
}
