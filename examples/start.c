/* A start from C: planned, made over a register file, cut after every store and made again over what was left, and refused. It
 * ends with 1 if something is not as it says. */
#include <stdio.h>
#include <stdlib.h>
#include <string.h>
#include "woolturret.h"

enum { HSION = 0, PLLON = 3, SW = 6, LATENCY = 33, PLACES = WOOLTURRET_PLACES };
enum { NEVER = 255, LIMIT = 1000 };
enum { M = 2 }; /* M's byte in a record */

/* The Rust's defaults with a crystal of 25,000,000 Hz (flag 0) and SYSCLK 216,000,000 Hz (flag 3). */
static const uint8_t record[WOOLTURRET_RECORD] = {
    [0] = 0x09, [2] = 2, [4] = 2, [6] = 2, [7] = 2, [8] = 2, [14] = 50, [16] = 192, [18] = 192,
    [20] = 0x40, [21] = 0x78, [22] = 0x7d, [23] = 0x01, [28] = 0x00, [29] = 0xe6, [30] = 0xdf, [31] = 0x0c,
};

/* As a bootloader may leave it: running from a PLL, with 5 wait states. */
static const uint32_t before[PLACES] = {[HSION] = 1, [PLLON] = 1, [SW] = 2, [LATENCY] = 5};

/* Every wait, of which there are at most eight, is answered at its first poll. */
static const uint8_t ready[WOOLTURRET_WAITS] = {1, 1, 1, 1, 1, 1, 1, 1};

struct attempt {
    struct woolturret_started came;
    uint32_t file[PLACES];
    uint32_t clocks[WOOLTURRET_CLOCKS];
};

static void hold(bool is, const char *what)
{
    if (is)
        return;
    fprintf(stderr, "not so: %s\n", what);
    exit(1);
}

static bool same_file(const uint32_t *a, const uint32_t *b)
{
    return memcmp(a, b, PLACES * sizeof *a) == 0;
}

static struct attempt start(const uint32_t *file, const uint8_t *answers, size_t answered, uint8_t cut)
{
    struct attempt a = {.clocks = {0}};
    memcpy(a.file, file, sizeof a.file);
    a.came = woolturret_start(record, sizeof record, a.file, PLACES, answers, answered, LIMIT, cut, a.clocks);
    return a;
}

/* The source that SW names, and the wait states. */
static void show_file(const uint32_t *file)
{
    static const char *const sources[] = {"HSI", "HSE", "PLL"};
    hold(file[SW] < 3, "SW names a source");
    printf("SW %s, %u wait states\n", sources[file[SW]], file[LATENCY]);
}

static struct attempt show_start(void)
{
    uint32_t config[WOOLTURRET_CONFIG], clocks[WOOLTURRET_CLOCKS], passes;
    hold(woolturret_plan(record, sizeof record, config, clocks, &passes) == 0, "it is planned");
    printf("the plan: SYSCLK %u Hz, HCLK %u Hz, %u wait states, over-drive %u\n", clocks[0], clocks[1], clocks[9], clocks[11]);
    struct attempt done = start(before, ready, sizeof ready, NEVER);
    hold(done.came.refusal == 0 && done.came.cut == 0, "it is started");
    hold(memcmp(done.clocks, clocks, sizeof clocks) == 0, "its clocks are the plan's");
    hold(done.file[SW] == 2 && done.file[LATENCY] == clocks[9], "it ends on the PLL with the plan's wait states");
    printf("before it: ");
    show_file(before);
    printf("started with every wait answered, %u polls: ", done.came.polls);
    show_file(done.file);
    return done;
}

/* Cut after each store: SW names what it named before, or HSI, or at last the PLL, and then the wait states are the plan's. */
static void show_cuts(const struct attempt *done)
{
    for (uint8_t stores = 0;; stores++) {
        struct attempt cut = start(before, ready, sizeof ready, stores);
        hold(cut.came.refusal == 0, "a cut is no refusal");
        if (cut.came.cut == 0) {
            hold(same_file(cut.file, done->file), "above the last store nothing is cut");
            printf("%u cuts nothing\n", stores);
            return;
        }
        hold(stores < 2 || cut.file[SW] == 0 || same_file(cut.file, done->file), "SW is HSI until all is stored");
        printf("cut after %u stores, %u polls: ", stores, cut.came.polls);
        show_file(cut.file);
    }
}

/* Made again over the file that was left, with every wait answered. */
static void show_again(const uint32_t *left, const struct attempt *done)
{
    struct attempt again = start(left, ready, sizeof ready, NEVER);
    hold(again.came.refusal == 0 && same_file(again.file, done->file), "made again it ends the same");
    printf("  made again over that file: the file of the start never cut\n");
}

/* HSI answers at once, the crystal never. */
static void show_silence(const struct attempt *done)
{
    struct attempt silent = start(before, ready, 1, NEVER);
    hold(silent.came.refusal == 12 && silent.came.wait == 2 && silent.came.polls == 1 + LIMIT, "the crystal is waited for");
    hold(silent.clocks[0] == 0, "no clocks are handed back");
    printf("a crystal that does not answer: refused %u, wait %u, %u polls: ", silent.came.refusal, silent.came.wait,
           silent.came.polls);
    show_file(silent.file);
    show_again(silent.file, done);
}

/* Refused before anything is stored: length bytes of the record, M as given. */
static void show_refused(const char *what, size_t length, uint8_t m, size_t places, uint32_t limit)
{
    uint8_t asked[sizeof record];
    uint32_t file[PLACES], clocks[WOOLTURRET_CLOCKS] = {0};
    memcpy(asked, record, sizeof asked);
    asked[M] = m;
    memcpy(file, before, sizeof file);
    struct woolturret_started came = woolturret_start(asked, length, file, places, ready, sizeof ready, limit, NEVER, clocks);
    hold(came.refusal != 0 && came.cut == 0 && came.wait == 0 && came.polls == 0, "it is refused with no poll");
    hold(same_file(file, before) && clocks[0] == 0, "nothing is written");
    printf("%s: refused %u, nothing written\n", what, came.refusal);
}

int main(void)
{
    struct attempt done = show_start();
    show_cuts(&done);
    struct attempt cut = start(before, ready, sizeof ready, 9);
    printf("cut after 9 stores\n");
    show_again(cut.file, &done);
    show_silence(&done);
    show_refused("a limit of 0", sizeof record, record[M], PLACES, 0);
    show_refused("a limit of 65536", sizeof record, record[M], PLACES, 65536);
    show_refused("a file of 34 numbers", sizeof record, record[M], PLACES - 1, LIMIT);
    show_refused("a record of 63 bytes", sizeof record - 1, record[M], PLACES, LIMIT);
    show_refused("a record of 63 bytes and a limit of 0", sizeof record - 1, record[M], PLACES, 0);
    show_refused("a plan that is refused, M 64", sizeof record, 64, PLACES, LIMIT);
    return 0;
}
