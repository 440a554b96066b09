/* The cases on which the program `bracket` is run. */
#ifndef BRACKET_CASES_H
#define BRACKET_CASES_H

#include <stdbool.h>
#include <stddef.h>
#include <stdint.h>

/* What stands in the place of first.ppm or second.ppm: a header with so many bytes after it; a flat frame; one whose pixels are given
 * by letters; a view of a scene; random pixels; a copy of a sample; or something that cannot be read. */
enum kind { BYTES, EVEN, LETTERS, VIEW, NOISE, SAMPLE, MISSING, DIRECTORY, LOOP };

struct file {
    enum kind kind;
    const char *header; /* NULL: as document 01's writer spells it */
    size_t follow;      /* BYTES: how many follow the header */
    const char *text;   /* LETTERS: one a pixel, a to c; SAMPLE: the file's name */
    uint8_t tones[3];   /* LETTERS: the grey values of a, b and c */
    uint32_t w, h;
    int32_t x, y;       /* VIEW: its place; NOISE: x is a seed */
    size_t length;      /* of the whole file, by blanks after "P6"; 0: no such blanks */
    bool comment;       /* a comment in the place of these blanks */
};

struct run {
    const char *name;
    struct {
        const char *bytes;
        size_t length;
    } input;
    size_t piece;       /* bytes of input that come at once, the next when these were read; 0: all */
    bool from_file;     /* input from a file in place of a pipe */
    bool left_open;     /* the pipe stays open until the program has ended, as a terminal does */
    const struct file *first, *second;
    const char *prints; /* all that has to be printed, where document 01 tells it */
    const char *begins; /* else the first line, with the offset that the frames were made with */
};

extern const struct run runs[];
extern const size_t run_count;

/* The bytes of such a file, a heap block of just their number; none where it cannot be read. */
uint8_t *file_bytes(const struct file *file, size_t *length);

#endif
