/* Runs the program `bracket` as its user does, two files in its working directory and a line on its standard input, and compares
 * what it prints with the reference: `bracket PROGRAM`, in this directory. */
#define _GNU_SOURCE

#include "bracket_cases.h"

#include "../reference.h"

#include <fcntl.h>
#include <limits.h>
#include <poll.h>
#include <signal.h>
#include <stdio.h>
#include <stdlib.h>
#include <string.h>
#include <sys/ioctl.h>
#include <sys/stat.h>
#include <sys/wait.h>
#include <unistd.h>

#define SCRATCH "../../target/outside/bracket-run"

enum { SHOWN = 10, PATIENCE = 10 /* seconds */, PRINTED_ROOM = 4096 };

struct printed {
    uint8_t bytes[PRINTED_ROOM];
    size_t length;
};

/* What one run of the program leaves. */
struct outcome {
    int status; /* as wait tells it */
    struct printed output, errors;
};

static void fail(const char *what)
{
    perror(what);
    exit(2);
}

/* ---- Files ---- */

static void put_bytes(const char *path, const void *bytes, size_t length)
{
    FILE *to = fopen(path, "wb");
    if (!to || fwrite(bytes, 1, length, to) != length || fclose(to))
        fail(path);
}

/* Puts the file in its place, and hands back the bytes that the reference is to see. */
static uint8_t *put_file(const char *path, const struct file *file, size_t *length)
{
    uint8_t *bytes = file_bytes(file, length);
    remove(path);
    if (file->kind == DIRECTORY) {
        if (mkdir(path, 0777))
            fail(path);
    } else if (file->kind == LOOP) {
        if (symlink(strrchr(path, '/') + 1, path))
            fail(path);
    } else if (file->kind != MISSING)
        put_bytes(path, bytes, *length);
    return bytes;
}

static void get_printed(const char *path, struct printed *printed)
{
    FILE *from = fopen(path, "rb");
    if (!from)
        fail(path);
    printed->length = fread(printed->bytes, 1, sizeof printed->bytes, from);
    fclose(from);
}

/* ---- The program ---- */

static void redirect(int from, int to)
{
    if (from < 0 || dup2(from, to) < 0)
        _exit(127);
}

/* Output goes to files: nobody has to read while the program runs, and what a killed one leaves running holds nobody up. */
static void become(const char *program, int input)
{
    signal(SIGPIPE, SIG_DFL);
    alarm(PATIENCE);
    redirect(input, STDIN_FILENO);
    if (chdir(SCRATCH))
        _exit(127);
    redirect(open("output", O_WRONLY | O_CREAT | O_TRUNC, 0666), STDOUT_FILENO);
    redirect(open("errors", O_WRONLY | O_CREAT | O_TRUNC, 0666), STDERR_FILENO);
    execl(program, program, (char *)NULL);
    _exit(127);
}

static pid_t start(const char *program, int input)
{
    pid_t child = fork();
    if (child < 0)
        fail("fork");
    if (child == 0)
        become(program, input);
    close(input);
    return child;
}

static int end_of(pid_t child)
{
    int status;
    if (waitpid(child, &status, 0) != child)
        fail("waitpid");
    return status;
}

/* Waits until the program has read all that the pipe holds. False: it has left the pipe, or does not read. */
static bool taken(int to)
{
    for (int left = PATIENCE * 1000; left > 0; left--) {
        int unread = 0;
        struct pollfd pipe = { .fd = to };
        if (poll(&pipe, 1, 0) < 0 || pipe.revents & POLLERR || ioctl(to, FIONREAD, &unread))
            return false;
        if (unread == 0)
            return true;
        usleep(1000);
    }
    return false;
}

/* That not all is taken is no error here: a program may stop reading when it has seen enough. */
static void feed(const struct run *run, int to)
{
    size_t piece = run->piece ? run->piece : run->input.length;
    for (size_t at = 0; at < run->input.length; at += piece) {
        size_t left = run->input.length - at;
        if (write(to, run->input.bytes + at, left < piece ? left : piece) < 0 || !taken(to))
            break;
    }
}

static int run_with_pipe(const struct run *run, const char *program)
{
    int ends[2];
    if (pipe2(ends, O_CLOEXEC))
        fail("pipe");
    pid_t child = start(program, ends[0]);
    feed(run, ends[1]);
    if (!run->left_open)
        close(ends[1]);
    int status = end_of(child);
    if (run->left_open)
        close(ends[1]);
    return status;
}

static int run_with_file(const struct run *run, const char *program)
{
    put_bytes(SCRATCH "/input", run->input.bytes, run->input.length);
    int input = open(SCRATCH "/input", O_RDONLY | O_CLOEXEC);
    if (input < 0)
        fail("input");
    return end_of(start(program, input));
}

static void run_program(const struct run *run, const char *program, struct outcome *outcome)
{
    outcome->status = run->from_file ? run_with_file(run, program) : run_with_pipe(run, program);
    get_printed(SCRATCH "/output", &outcome->output);
    get_printed(SCRATCH "/errors", &outcome->errors);
}

/* ---- Comparing ---- */

static bool same(const struct printed *one, const struct printed *other)
{
    return one->length == other->length && memcmp(one->bytes, other->bytes, one->length) == 0;
}

/* Whether the reference gives what document 01, or the way the frames were made, tells: so that a slip which both share is found. */
static bool as_wanted(const struct run *run, const struct printed *printed)
{
    const char *want = run->prints ? run->prints : run->begins ? run->begins : "";
    size_t length = strlen(want);
    return printed->length >= length && memcmp(printed->bytes, want, length) == 0 && (!run->prints || printed->length == length);
}

/* What is wrong, or NULL. */
static const char *mismatch(const struct run *run, const struct outcome *outcome, const struct printed *reference)
{
    if (WIFSIGNALED(outcome->status))
        return WTERMSIG(outcome->status) == SIGALRM ? "did not end" : "broke off";
    if (WEXITSTATUS(outcome->status) != 0)
        return "its exit status is not 0";
    if (outcome->errors.length > 0)
        return "prints to standard error";
    if (!same(&outcome->output, reference))
        return "prints something else than the reference";
    if (!as_wanted(run, reference))
        return "both print something else than is wanted";
    return NULL;
}

static void print_bytes(const char *whose, const struct printed *printed)
{
    printf("  %s:\n", whose);
    fwrite(printed->bytes, 1, printed->length, stdout);
    if (printed->length == 0 || printed->bytes[printed->length - 1] != '\n')
        printf("(no line end)\n");
}

static void tell(const struct run *run, const struct outcome *outcome, const struct printed *reference, const char *what)
{
    printf("bracket: %s: %s\n", run->name, what);
    print_bytes("the program", &outcome->output);
    if (outcome->errors.length > 0)
        print_bytes("its standard error", &outcome->errors);
    print_bytes("the reference", reference);
}

static bool differs(const struct run *run, const char *program, bool told)
{
    static struct outcome outcome;
    static struct printed reference;
    const uint8_t *input = (const uint8_t *)run->input.bytes;
    size_t first_len, second_len;
    uint8_t *first = put_file(SCRATCH "/first.ppm", run->first, &first_len);
    uint8_t *second = put_file(SCRATCH "/second.ppm", run->second, &second_len);
    run_program(run, program, &outcome);
    reference.length = ref_bracket(input, run->input.length, first, first_len, second, second_len, reference.bytes);
    free(first);
    free(second);
    const char *what = mismatch(run, &outcome, &reference);
    if (what && told)
        tell(run, &outcome, &reference, what);
    return what != NULL;
}

int main(int words, char **word)
{
    char program[PATH_MAX];
    size_t differ = 0;
    if (words != 2) {
        fprintf(stderr, "usage: bracket PROGRAM\n");
        return 2;
    }
    if (!realpath(word[1], program) || access(program, X_OK))
        fail(word[1]);
    signal(SIGPIPE, SIG_IGN);
    if (mkdir(SCRATCH, 0777) && access(SCRATCH, W_OK))
        fail(SCRATCH);
    for (size_t i = 0; i < run_count; i++)
        differ += differs(&runs[i], program, differ < SHOWN);
    printf("bracket: %zu compared, %zu differ\n", run_count, differ);
    return differ > 0;
}
