/*
 * Speed of the board library beside plain C, in one process and by turns, so that both meet the same machine in the same minute.
 *
 *     bench MODEL...
 *
 * Times are the processor's, so that other programs on the machine count little. Every contender starts from the file's bytes and an area that is not cleared. A run is, for the library, a start and one advance
 * (each of which reads the file); for plain C, reading the file, the leaves and all joins.
 */
#define _POSIX_C_SOURCE 199309L
#include "fenmantle.h"
#include "plain.h"

#include <inttypes.h>
#include <stdio.h>
#include <stdlib.h>
#include <string.h>
#include <time.h>

enum { LIBRARY, VERSION_1, VERSION_2, CONTENDERS, ROUNDS = 15 };

static const double least_ns = 2e6; /* of one measured stretch: far above what the clock and one interrupt cost */

static uint8_t file[716];
static size_t file_len;
static uint64_t area[FENMANTLE_ROOM];
static uint64_t pairs, half; /* of the model: all its pairs, and half of them */

static void fail(const char *what)
{
    fprintf(stderr, "%s\n", what);
    exit(1);
}

static double now(void)
{
    struct timespec t;

    clock_gettime(CLOCK_PROCESS_CPUTIME_ID, &t);
    return t.tv_sec * 1e9 + t.tv_nsec;
}

/* ---- what is measured; each returns a number that all contenders share */

static uint64_t run(int who)
{
    uint64_t value;

    if (who == LIBRARY) {
        if (fenmantle_start(file, file_len, 0, area, FENMANTLE_ROOM).refusal != 0)
            fail("start refused");
        return fenmantle_advance(file, file_len, 0, 0, pairs, area, FENMANTLE_ROOM).value;
    }
    if (plain_run(who == VERSION_1 ? 1 : 2, file, file_len, area, &value) != 0)
        fail("plain run refused");
    return value;
}

static uint64_t sheet(int who)
{
    uint64_t sum = 0;

    if (who == LIBRARY) {
        fenmantle_sheet_answer s = fenmantle_sheet(file, file_len, area, FENMANTLE_ROOM);
        for (int k = 0; k < 8; k++)
            sum = sum * 3 + s.numerators[k];
        return ((sum * 3 + s.value) * 3 + s.pairs) * 3 + s.cells * 17 + s.busiest;
    } else {
        plain_sheet_answer s;
        if (plain_sheet(who == VERSION_1 ? 1 : 2, file, file_len, area, &s) != 0)
            fail("plain sheet refused");
        for (int k = 0; k < 8; k++)
            sum = sum * 3 + s.numerators[k];
        return ((sum * 3 + s.value) * 3 + s.pairs) * 3 + s.cells * 17 + s.busiest;
    }
}

static uint64_t idle_at_0(int who)
{
    (void)who;
    return fenmantle_advance(file, file_len, 0, 0, 0, area, FENMANTLE_ROOM).done;
}

static uint64_t idle_at_half(int who)
{
    (void)who;
    return fenmantle_advance(file, file_len, 0, half, 0, area, FENMANTLE_ROOM).done;
}

/* Best time in ns of one call of `work` by each contender, who take turns. */
static void measure(uint64_t (*work)(int), int contenders, double *best)
{
    long times[CONTENDERS];
    uint64_t due = work(0);

    for (int who = 0; who < contenders; who++) {
        double from = now(), spent;
        if (work(who) != due)
            fail("the contenders differ");
        for (times[who] = 0; (spent = now() - from) < least_ns; times[who]++)
            work(who);
        best[who] = spent;
        times[who] += times[who] == 0;
    }
    for (int round = 0; round < ROUNDS; round++) {
        for (int who = 0; who < contenders; who++) {
            double from = now(), each;
            for (long t = 0; t < times[who]; t++)
                work(who);
            each = (now() - from) / times[who];
            if (each < best[who])
                best[who] = each;
        }
    }
}

static void one_model(const char *path)
{
    double of_run[CONTENDERS], of_sheet[CONTENDERS], at_0[CONTENDERS], at_half[CONTENDERS], pair;
    const char *name = strrchr(path, '/') ? strrchr(path, '/') + 1 : path;
    fenmantle_plan_answer plan;
    FILE *in = fopen(path, "rb");

    if (!in)
        fail(path);
    file_len = fread(file, 1, sizeof file, in);
    fclose(in);
    plan = fenmantle_plan(file, file_len, 0);
    if (plan.refusal != 0)
        fail("plan refused");
    if (plan.pairs == 0)
        fail("a model of one centre has no pairs to measure");
    pairs = plan.pairs;
    half = pairs / 2;

    measure(run, CONTENDERS, of_run);
    measure(sheet, CONTENDERS, of_sheet);
    measure(idle_at_0, 1, at_0);
    measure(idle_at_half, 1, at_half);
    pair = of_run[LIBRARY] / pairs;
    printf("%-25s %5" PRIu64 " %7" PRIu64 "  %6.2f %6.2f %6.2f  %5.2f %5.2f  %10.1f %10.1f %10.1f  %5.2f %5.2f  %7.0f %7.0f %6.0f\n", name,
           plan.cells, pairs, pair, of_run[VERSION_1] / pairs, of_run[VERSION_2] / pairs, of_run[LIBRARY] / of_run[VERSION_1],
           of_run[LIBRARY] / of_run[VERSION_2], of_sheet[LIBRARY] / 1e3, of_sheet[VERSION_1] / 1e3, of_sheet[VERSION_2] / 1e3,
           of_sheet[LIBRARY] / of_sheet[VERSION_1], of_sheet[LIBRARY] / of_sheet[VERSION_2], at_0[0], at_half[0], at_half[0] / pair);
    fflush(stdout);
}

int main(int argc, char **argv)
{
    plain_prepare();
    printf("%-25s %5s %7s  %-20s  %-11s  %-32s  %-11s  %-22s\n", "", "", "", "run, ns per pair", "library to", "sheet, us", "library to",
           "advance, budget 0");
    printf("%-25s %5s %7s  %6s %6s %6s  %5s %5s  %10s %10s %10s  %5s %5s  %7s %7s %6s\n", "model", "cells", "pairs", "lib", "v1", "v2", "v1",
           "v2", "lib", "v1", "v2", "v1", "v2", "ns at 0", "at half", "=pairs");
    for (int i = 1; i < argc; i++)
        one_model(argv[i]);
    printf("\nBest of %d, by turns. lib: the board library; v1, v2: plain C, straightforward and optimised. A ratio above 1 says that the\n"
           "library takes longer. Last columns: what an advance with budget 0 takes, with no pair done and with half of them, and how many\n"
           "pairs of a run take as long as the latter. Only ratios mean anything on another machine.\n",
           ROUNDS);
    return 0;
}
