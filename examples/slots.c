/*
 * Works a model out in idle slots, a few pairs in each, and prints its rates.
 *
 *     slots MODEL BUDGET
 *
 * Between two slots a board keeps the area and the number of pairs done, and nothing else.
 */
#include "fenmantle.h"

#include <inttypes.h>
#include <stdio.h>
#include <stdlib.h>

static uint8_t file[716]; /* one more than the longest file: a longer one is refused as on a computer that holds it whole */
static size_t file_len;
static uint64_t area[FENMANTLE_ROOM];

static void refused(uint64_t refusal, uint64_t place)
{
    printf("refused %" PRIu64 " at %" PRIu64 "\n", refusal, place);
    exit(1);
}

/* The board's other work would stand here. */
static void wait_for_idle_slot(void)
{
}

/* One whole run, with the window of chain `lower` one less (0: as it stands); returns its value. */
static uint64_t in_slots(uint64_t lower, uint64_t budget, uint64_t *slots)
{
    fenmantle_plan_answer plan = fenmantle_plan(file, file_len, lower);
    fenmantle_start_answer start;
    fenmantle_advance_answer now;

    if (plan.refusal != 0)
        refused(plan.refusal, plan.place);
    start = fenmantle_start(file, file_len, lower, area, FENMANTLE_ROOM);
    if (start.refusal != 0)
        refused(start.refusal, start.place);
    /* A model of one centre has no pairs: a budget of 0 tells its value at once. */
    now = fenmantle_advance(file, file_len, lower, 0, 0, area, FENMANTLE_ROOM);
    for (*slots = 0; now.refusal == 0 && now.done < plan.pairs; ++*slots) {
        wait_for_idle_slot();
        now = fenmantle_advance(file, file_len, lower, now.done, budget, area, FENMANTLE_ROOM);
    }
    if (now.refusal != 0)
        refused(now.refusal, now.place);
    return now.value;
}

int main(int argc, char **argv)
{
    uint64_t budget, value, chain, slots, numerators[8];
    fenmantle_plan_answer plan;
    fenmantle_sheet_answer sheet;
    FILE *in;

    if (argc != 3 || (budget = strtoull(argv[2], NULL, 10)) == 0 || (in = fopen(argv[1], "rb")) == NULL) {
        fprintf(stderr, "usage: slots MODEL BUDGET, with a model file that can be read and a budget above 0\n");
        return 2;
    }
    file_len = fread(file, 1, sizeof file, in);
    fclose(in);

    plan = fenmantle_plan(file, file_len, 0);
    if (plan.refusal != 0)
        refused(plan.refusal, plan.place);
    printf("%" PRIu64 " pairs in %" PRIu64 " cells, %" PRIu64 " pairs a slot\n", plan.pairs, plan.cells, budget);

    value = in_slots(0, budget, &slots);
    printf("value %" PRIu64 " after %" PRIu64 " slots\n", value, slots);
    for (chain = 1; chain <= 8; ++chain) {
        plan = fenmantle_plan(file, file_len, chain);
        if (plan.refusal == FENMANTLE_NO_SUCH_CHAIN)
            break;
        /* A chain with window 0 is not run: its rate is 0. */
        slots = 0;
        numerators[chain - 1] = plan.refusal == FENMANTLE_WINDOW_ZERO ? 0 : in_slots(chain, budget, &slots);
        printf("chain %" PRIu64 " %" PRIu64 "/%" PRIu64 " after %" PRIu64 " slots\n", chain, numerators[chain - 1], value, slots);
    }

    /* The same in one call, for a board that has the time. */
    sheet = fenmantle_sheet(file, file_len, area, FENMANTLE_ROOM);
    if (sheet.refusal != 0)
        refused(sheet.refusal, sheet.place);
    if (sheet.value != value || sheet.chains != chain - 1) {
        printf("the sheet differs\n");
        return 1;
    }
    for (chain = 1; chain <= sheet.chains; ++chain) {
        if (sheet.numerators[chain - 1] != numerators[chain - 1]) {
            printf("the sheet differs\n");
            return 1;
        }
    }
    printf("busiest %" PRIu64 "; the sheet has the same rates\n", sheet.busiest);
    return 0;
}
