/* What the examples need on a desktop around the library: options, memory, files, and words for a refusal. */
#ifndef DESKTOP_H
#define DESKTOP_H

#include <stddef.h>
#include <stdint.h>

enum setting { HALVINGS, TOLERANCE, PERCENTILE, REFERENCE, ANGLE };    /* options -s, -t, -p, -r, -a */

/* A setting that no option gives: an option's number has nine digits at most. */
#define NOT_GIVEN UINT32_MAX

/* Reads options such as "-t 4", of those whose letters are known. Gives the place of the first argument that is no option, or 0
 * when an option is unknown or its number is none. */
int read_options(int argc, char **argv, const char *known, uint32_t *settings);

/* Five halvings, for moves of up to 63 pixels each way, or as many as leave sides of 8 pixels: fewer decide by chance. */
uint32_t fitting_halvings(uint32_t w, uint32_t h);

/* A refusal in words. */
const char *meaning_of(uint32_t refusal);

/* The functions below that cannot do their work say why on standard error and end the program with status 1. */

/* Memory for `count` things of `size` bytes each, never NULL. */
void *lend(size_t count, size_t size);

struct file {
    uint8_t *bytes;
    size_t length;
};

struct file read_file(const char *name);
void write_file(const char *name, const uint8_t *bytes, size_t length);
void write_p6(const char *name, uint32_t w, uint32_t h, const uint8_t *raster);

/* Ends the program, with the refusal in words, unless the library accepted `what`. */
void insist(const char *what, uint32_t refusal);
void fail(const char *what, const char *why);

/* The program's status once all is printed. */
int finish(void);

#endif
