/* The reference as a program in the place of `bracket`: `run mutants` makes wrong ones of it. */
#include "reference.h"

#include <fcntl.h>
#include <unistd.h>

enum { MOST_INPUT = 4096, MOST_FILE = 65536, FILE_ROOM = MOST_FILE + 1 };

/* Reads until the end, or until the room is full; no bytes where it cannot be read. */
static size_t read_from(int from, uint8_t *bytes, size_t room)
{
    size_t length = 0;
    ssize_t got;
    while ((got = read(from, bytes + length, room - length)) > 0)
        length += (size_t)got;
    return got < 0 ? 0 : length;
}

/* Reads a line, or until the end. */
static size_t read_line(int from, uint8_t *bytes, size_t room)
{
    size_t length = 0;
    while (length < room && read(from, bytes + length, 1) == 1)
        if (bytes[length++] == '\n')
            break;
    return length;
}

int main(void)
{
    static uint8_t input[MOST_INPUT], first[FILE_ROOM], second[FILE_ROOM], out[REF_BRACKET_ROOM];
    size_t input_len = read_line(STDIN_FILENO, input, sizeof input);
    size_t first_len = read_from(open("first.ppm", O_RDONLY), first, sizeof first);
    size_t second_len = read_from(open("second.ppm", O_RDONLY), second, sizeof second);
    size_t length = ref_bracket(input, input_len, first, first_len, second, second_len, out);
    return write(STDOUT_FILENO, out, length) != (ssize_t)length;
}
