// driver run WHICH FOLDER LENGTH     one run over the first LENGTH bytes of a journal, for its instructions to be counted
// driver idle WHICH FOLDER LENGTH    all but the run, to be taken off
// driver ends WHICH FOLDER LENGTH    writes the ends in these bytes, one to a line
// driver speed FOLDER                how fast the proved library is beside C, and beside Hyperscan or why not: more than 1 is faster
//
// WHICH is proved (match), step (a watch begun, and the journal as one stretch) or c. FOLDER has the files image, text and rule (its plain writing) that
// tests/src/bin/speed.rs writes. The proved library's time is that of the whole call, the check of the image included.
#define _POSIX_C_SOURCE 199309L
#include "lavumbishe.h"
#include "load.h"
#include <stdio.h>
#include <string.h>
#include <time.h>

uint64_t baseline_run(const uint64_t *image, uint64_t words, const uint8_t *text, uint64_t length, uint32_t *places, uint64_t room);

static uint64_t image[LAVUMBISHE_IMAGE_WORDS];
static size_t words, length;
static uint8_t text[LAVUMBISHE_TEXT_BYTES];
static uint32_t ends[LAVUMBISHE_ENDS];
static char rule[1 << 16];

#ifdef HYPERSCAN
#include "hyperscan.h"
#else
static const char *hyperscan_ready(void) { return "absent"; }

static size_t hyperscan_run(void) { return 0; }
#endif

enum { PROVED, C, HYPERSCAN_ITSELF, STEP };

static int which_of(const char *name) { return strcmp(name, "proved") == 0 ? PROVED : strcmp(name, "step") == 0 ? STEP : C; }

static size_t watch(void) {
    uint64_t mask[LAVUMBISHE_MASK_WORDS], place;
    size_t mask_len = lavumbishe_mask_len(image, words);
    size_t first = lavumbishe_count(lavumbishe_begin(image, words, mask, mask_len, &place, ends, LAVUMBISHE_ENDS));
    uint32_t *rest = ends + first;
    return first + lavumbishe_count(lavumbishe_step(image, words, mask, mask_len, &place, text, length, rest, LAVUMBISHE_ENDS - first));
}

static size_t run(int which) {
    if (which == STEP)
        return watch();
    if (which == PROVED)
        return lavumbishe_count(lavumbishe_match(image, words, text, length, ends, LAVUMBISHE_ENDS));
    return which == C ? (size_t)baseline_run(image, words, text, length, ends, LAVUMBISHE_ENDS) : hyperscan_run();
}

static void load_all(const char *folder) {
    words = load(folder, "image", image, sizeof image) / 8;
    length = load(folder, "text", text, sizeof text);
    rule[load(folder, "rule", rule, sizeof rule - 1)] = 0;
}

static void show_ends(int which) {
    size_t total = run(which);
    for (size_t i = 0; i < total; i++)
        printf("%u\n", (unsigned)ends[i]);
}

static double seconds(int which) {
    struct timespec start, stop;
    clock_gettime(CLOCK_MONOTONIC, &start);
    run(which);
    clock_gettime(CLOCK_MONOTONIC, &stop);
    return (double)(stop.tv_sec - start.tv_sec) + 1e-9 * (double)(stop.tv_nsec - start.tv_nsec);
}

// Why Hyperscan is not measured, or 0: it must find the ends that the proved library finds.
static const char *hyperscan_unlike(void) {
    static uint32_t first[LAVUMBISHE_ENDS];
    const char *why = hyperscan_ready();
    if (why)
        return why;
    size_t total = run(PROVED);
    memcpy(first, ends, total * sizeof first[0]);
    return run(HYPERSCAN_ITSELF) == total && memcmp(first, ends, total * sizeof first[0]) == 0 ? 0 : "other-ends";
}

// The best of 15 rounds of each, in turn, so that what slows the machine slows all of them.
static void show_speed(void) {
    double best[3] = {1e9, 1e9, 1e9};
    const char *why = hyperscan_unlike();
    for (int round = 0; round < 15; round++)
        for (int which = PROVED; which <= (why ? C : HYPERSCAN_ITSELF); which++) {
            double taken = seconds(which);
            best[which] = taken < best[which] ? taken : best[which];
        }
    printf("%.2f", best[C] / best[PROVED]);
    if (why)
        printf(" %s\n", why);
    else
        printf(" %.3f\n", best[HYPERSCAN_ITSELF] / best[PROVED]);
}

int main(int count, char **arguments) {
    if (count < 3)
        return 2;
    load_all(arguments[strcmp(arguments[1], "speed") == 0 ? 2 : 3]);
    if (strcmp(arguments[1], "speed") == 0)
        return show_speed(), 0;
    length = 0;
    for (const char *digit = count > 4 ? arguments[4] : ""; *digit; digit++)
        length = 10 * length + (size_t)(*digit - '0');
    if (strcmp(arguments[1], "ends") == 0)
        return show_ends(which_of(arguments[2])), 0;
    if (strcmp(arguments[1], "idle") == 0)
        return 0;
    return run(which_of(arguments[2])) > LAVUMBISHE_ENDS;
}
