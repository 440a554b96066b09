/* Asks the library and the reference the same random calls; tells each difference, and at the end how many there were. */
#include "compare.h"
#include "fences.h"
#include "session.h"

#include "../scenes.h"

#include <inttypes.h>
#include <signal.h>
#include <stdio.h>
#include <stdlib.h>
#include <string.h>
#include <unistd.h>

enum { SHOWN = 10, PROGRESS_STEPS = 20, ROUNDS_FOR_ALL = 1000, MAX_CALLS = 32, NAME_ROOM = 64 };
enum { QUICK_CASES = 5, ORDER_CASES = 4, SESSION_ROUNDS = 2 };
enum { PATIENCE = 300 /* seconds */ };

#define COUNT_OF(list) (sizeof list / sizeof *list)

/* Ordinary trials; those of a given shape, at even numbers accepted, at odd ones refused; those with a slice longer than 2^32; those
 * with each two of the call's refusals; of calls with a band those with a band of 0, and those with re-exposed frames. Of a live
 * bracket lists of calls, each call against the reference, and lists of which the library alone is asked. */
enum family { CASE, LARGE, WIDE, ORDER, ZERO, EXPOSED, SESSION, LAW, FAMILIES };
static const char *const family_names[FAMILIES] = { "case", "large", "wide", "order", "zero", "exposed", "session", "law" };

static const struct shape plain_shapes[] = {
    { 4096, 4096, 0, 2 }, { 4096, 1, 0, 16 }, { 1, 4096, 0, 3 }, { 4095, 130, 0, 2 }, { 257, 4093, 0, 5 }, { 2049, 1025, 0, 1 },
};
static const struct shape aligned_shapes[] = {
    { 4096, 4096, 8, 2 }, { 1024, 1024, 8, 3 }, { 1030, 1501, 8, 2 }, { 513, 640, 7, 2 }, { 4096, 16, 2, 2 }, { 19, 4096, 2, 2 },
    { 300, 257, 6, 5 },   { 256, 258, 6, 16 },
};
static const struct shape quartered_shapes[] = {
    { 4096, 4096, 8, 2 }, { 2048, 2049, 8, 2 }, { 2051, 3001, 8, 2 }, { 1025, 1281, 7, 2 }, { 4096, 33, 2, 2 }, { 35, 4095, 2, 2 },
    { 601, 515, 6, 2 },   { 512, 514, 6, 2 },
};

static struct {
    uint64_t seed, rounds, most; /* it stops at so many differences */
    const char *only;   /* the function to test, NULL for all */
    bool without[FAMILIES];
    enum family family; /* with `single`: the one trial to make */
    bool single;
    uint64_t index;
} options = { .seed = 1, .rounds = 3000, .most = UINT64_MAX };

static struct {
    uint64_t planned, done, calls, bytes, differ;
    uint64_t answers[MAX_CALLS][REFUSALS];
} tally;

/* The trial that is under way: whose it is, and which call is made. In a session that is one after another. */
static struct {
    const struct call *of, *call;
    enum family family;
    uint64_t index;
} now;

/* ---- Words ---- */

static void print_reproduction(void)
{
    printf("  reproduce: tests/outside/run compare --seed %" PRIu64 " --only %s --%s %" PRIu64 "\n", options.seed, now.of->name,
           family_names[now.family], now.index);
}

/* The handler of a fault; nothing can go on after one. */
static void stopped(int signal)
{
    bool memory = signal == SIGSEGV || signal == SIGBUS;
    printf("\n%s: %s\n", now.call->name,
           memory ? "touched memory that was not lent to it" : signal == SIGALRM ? "did not end" : "broke off");
    print_reproduction();
    printf("stopped: %" PRIu64 " compared, %" PRIu64 " differ\n", tally.calls + 1, tally.differ + 1);
    fflush(stdout);
    _exit(1);
}

static void print_held(const struct slice *held)
{
    printf("  held:");
    for (size_t i = 0; i < held->length && i < HELD_NUMBERS; i++)
        printf(" %" PRId32, ((const int32_t *)held->before)[i]);
    printf("\n");
}

static void print_trial(const struct trial *t)
{
    const struct numbers *n = &t->told;
    printf("  w %" PRIu32 " h %" PRIu32 " s %" PRIu32 " tolerance %" PRIu32 " band %" PRIu32 " percentile %" PRIu32 " n %" PRIu32
           " r %" PRIu32 " y %" PRIu32 " dx %" PRId32 " dy %" PRId32 " threshold %u second %d\n  lengths:",
           n->w, n->h, n->s, n->tolerance, n->band, n->percentile, n->n, n->r, n->y, n->dx, n->dy, n->threshold, n->second);
    for (int i = 0; i < t->slices; i++)
        if (t->slice[i].role != RESULT)
            printf(" %s %zu", t->slice[i].name, t->slice[i].length + t->slice[i].unseen);
    printf("\n");
    for (int i = 0; i < t->slices; i++)
        if (strcmp(t->slice[i].name, "held") == 0)
            print_held(&t->slice[i]);
}

static void print_difference(const struct trial *t, const char *mismatch)
{
    printf("\n%s: %s\n", now.call->name, mismatch);
    print_trial(t);
    print_reproduction();
}

static void print_progress(void)
{
    static uint64_t step;
    bool terminal = isatty(STDERR_FILENO);
    if (tally.done * PROGRESS_STEPS / tally.planned == step)
        return;
    step = tally.done * PROGRESS_STEPS / tally.planned;
    fprintf(stderr, "%s%3" PRIu64 "%%  %-16s %" PRIu64 " compared, %" PRIu64 " differ%s", terminal ? "\r" : "",
            100 * step / PROGRESS_STEPS, now.call->name, tally.calls, tally.differ, terminal && step < PROGRESS_STEPS ? "" : "\n");
}

/* ---- Trials ---- */

static bool aligns(const struct call *call)
{
    return tests_refusal(call, 11);
}

static bool has_band(const struct call *call)
{
    return tests_refusal(call, 15);
}

/* The call whose trials sessions are. */
static bool has_sessions(const struct call *call)
{
    return call == live_call(LIVE_OFFSETS);
}

static const struct shape *shapes_of(const struct call *call, uint64_t *count)
{
    *count = quartered(call) ? COUNT_OF(quartered_shapes) : aligns(call) ? COUNT_OF(aligned_shapes) : COUNT_OF(plain_shapes);
    return quartered(call) ? quartered_shapes : aligns(call) ? aligned_shapes : plain_shapes;
}

static uint64_t planned(const struct call *call, enum family family)
{
    uint64_t shapes;
    if (options.without[family])
        return 0;
    switch (family) {
    case CASE:
        return options.rounds * (aligns(call) ? 1 : QUICK_CASES);
    case LARGE:
        shapes_of(call, &shapes);
        return 2 * shapes;
    case WIDE:
        return MAX_SLICES;
    case ORDER:
        return call->plan == WANTED ? ORDER_CASES * refusal_pairs(call) : 0;
    case SESSION:
    case LAW:
        return has_sessions(call) ? options.rounds / SESSION_ROUNDS : 0;
    default:
        return has_band(call) ? options.rounds : 0;
    }
}

/* Whether there is a trial of this number. Of the families that go by rounds there are as many as one likes. */
static bool exists(const struct call *call, enum family family, uint64_t index)
{
    if (family == ZERO || family == EXPOSED)
        return has_band(call);
    if (family == SESSION || family == LAW)
        return has_sessions(call);
    return family == CASE || index < planned(call, family);
}

/* What follows depends on the seed and the number of the trial alone. */
static void begin_random(void)
{
    char name[NAME_ROOM];
    snprintf(name, sizeof name, "%s/%s/%" PRIu64, now.of->name, family_names[now.family], now.index);
    random_begin(options.seed, name);
}

/* Makes the trial that is under way. False: there is none of this number. */
static bool make(struct trial *t)
{
    uint64_t count;
    const struct shape *shapes = shapes_of(now.call, &count);
    switch (now.family) {
    case WIDE:
        return make_wide_trial(t, now.call, (int)now.index);
    case LARGE:
        make_trial(t, now.call, &shapes[now.index / 2], now.index % 2 == 1);
        break;
    case ORDER:
        make_order_trial(t, now.call, now.index % refusal_pairs(now.call));
        break;
    case ZERO:
        make_zero_trial(t, now.call, random_below(4) == 0);
        break;
    case EXPOSED:
        make_exposed_trial(t, now.call);
        break;
    default:
        make_trial(t, now.call, NULL, random_below(9) < 5);
    }
    return true;
}

static void count(const struct trial *t, const struct comparison *comparison)
{
    tally.calls++;
    tally.bytes += comparison->bytes;
    if (comparison->answer < REFUSALS)
        tally.answers[now.call - calls][comparison->answer]++;
    if (comparison->differs && tally.differ++ < SHOWN)
        print_difference(t, comparison->mismatch);
}

static void try_call(void)
{
    struct trial trial;
    if (make(&trial)) {
        struct comparison comparison = compare(now.call, &trial);
        count(&trial, &comparison);
    }
    free_trial(&trial);
}

/* Call after call, up to the first difference. */
static void try_session(void)
{
    struct session session;
    bool differs = false;
    begin_session(&session, now.family == LAW);
    for (int step = 0; step < session.calls && !differs; step++) {
        struct trial trial;
        now.call = make_step(&session, step == 0, &trial);
        struct comparison comparison = session.alone ? compare_alone(&session, now.call, &trial) : compare(now.call, &trial);
        count(&trial, &comparison);
        take_step(&session, now.call, &trial, comparison.answer);
        free_trial(&trial);
        differs = comparison.differs;
    }
    end_session(&session);
}

static void try(const struct call *call, enum family family, uint64_t index)
{
    now.of = now.call = call;
    now.family = family;
    now.index = index;
    alarm(PATIENCE);
    begin_random();
    if (family == SESSION || family == LAW)
        try_session();
    else
        try_call();
    tally.done++;
    print_progress();
}

static bool chosen(const struct call *call)
{
    return !options.only || strcmp(options.only, call->name) == 0;
}

static void try_families(const struct call *call)
{
    for (enum family family = CASE; family < FAMILIES; family++)
        for (uint64_t index = 0; index < planned(call, family) && tally.differ < options.most; index++)
            try(call, family, index);
}

/* Those that align last: they take the longest. */
static void try_chosen(void)
{
    for (int last = 0; last < 2; last++)
        for (int i = 0; i < call_count; i++)
            if (chosen(&calls[i]) && aligns(&calls[i]) == last)
                try_families(&calls[i]);
}

static void try_single(void)
{
    for (int i = 0; i < call_count; i++)
        if (chosen(&calls[i]) && exists(&calls[i], options.family, options.index))
            try(&calls[i], options.family, options.index);
}

static void plan(void)
{
    for (int i = 0; i < call_count; i++)
        for (enum family family = CASE; family < FAMILIES; family++)
            tally.planned += chosen(&calls[i]) ? planned(&calls[i], family) : 0;
}

/* ---- Summary ---- */

static bool tells(const struct call *call, uint32_t number)
{
    return tests_refusal(call, number) && call->plan != UNTOLD;
}

static void print_answers_of(const struct call *call, const uint64_t answers[REFUSALS])
{
    printf("%-17s%9" PRIu64, call->name, answers[0]);
    for (uint32_t number = 1; number < REFUSALS; number++)
        if (tells(call, number))
            printf("%6" PRIu64, answers[number]);
        else
            printf("%6s", "");
    printf("\n");
}

static void print_answers(void)
{
    printf("%-17s%9s", "answers", "accepted");
    for (int number = 1; number < REFUSALS; number++)
        printf("%6d", number);
    printf("\n");
    for (int i = 0; i < call_count; i++)
        if (chosen(&calls[i]))
            print_answers_of(&calls[i], tally.answers[i]);
}

/* Whether some function never gave a refusal that it tests. */
static bool some_refusal_missing(void)
{
    bool missing = false;
    for (int i = 0; i < call_count; i++)
        for (uint32_t number = 1; number < REFUSALS; number++)
            if (chosen(&calls[i]) && tells(&calls[i], number) && tally.answers[i][number] == 0) {
                printf("%s never gave %" PRIu32 "\n", calls[i].name, number);
                missing = true;
            }
    return missing;
}

static int summary(void)
{
    print_answers();
    bool long_run = !options.single && options.rounds >= ROUNDS_FOR_ALL, missing = long_run && some_refusal_missing();
    printf("seed %" PRIu64 ", %" PRIu64 " rounds. Compared are calls: each with its answer, every buffer whole (%" PRIu64
           " MB in all) and the guard bytes.\n%" PRIu64 " compared, %" PRIu64 " differ\n",
           options.seed, options.rounds, tally.bytes >> 20, tally.calls, tally.differ);
    return tally.differ > 0 || missing;
}

/* ---- Options ---- */

static void usage(void)
{
    fprintf(stderr, "options: [--seed N] [--rounds N] [--most DIFFERENCES] [--only FUNCTION] [--without FAMILY] [--FAMILY N]\n"
                    "families: case, large, wide, order, zero, exposed, session, law\n");
    exit(2);
}

static uint64_t number(const char *text)
{
    char *end;
    uint64_t value = strtoull(text, &end, 10);
    if (*text < '0' || *text > '9' || *end)
        usage();
    return value;
}

static enum family family_named(const char *name)
{
    for (int i = 0; i < FAMILIES; i++)
        if (strcmp(name, family_names[i]) == 0)
            return (enum family)i;
    usage();
    return CASE;
}

static void choose_single(const char *family, uint64_t index)
{
    options.family = family_named(family);
    options.index = index;
    options.single = true;
}

static void read_option(const char *name, const char *value)
{
    if (strcmp(name, "--seed") == 0)
        options.seed = number(value);
    else if (strcmp(name, "--rounds") == 0)
        options.rounds = number(value);
    else if (strcmp(name, "--most") == 0)
        options.most = number(value);
    else if (strcmp(name, "--only") == 0)
        options.only = value;
    else if (strcmp(name, "--without") == 0)
        options.without[family_named(value)] = true;
    else if (strncmp(name, "--", 2) == 0)
        choose_single(name + 2, number(value));
    else
        usage();
}

/* The fences tell by themselves what the address sanitizer would take for a fault of the program's own. */
const char *__asan_default_options(void);
const char *__asan_default_options(void)
{
    return "handle_segv=0:handle_sigbus=0";
}

int main(int words, char **word)
{
    if (words % 2 == 0)
        usage();
    for (int i = 1; i < words; i += 2)
        read_option(word[i], word[i + 1]);
    plan();
    if (tally.planned == 0)
        usage();
    fences_open(stopped);
    if (options.single)
        try_single();
    else
        try_chosen();
    return summary();
}
