/*
 * Fenmantle: exact channel rates of a closed queueing network, for boards.
 *
 * Link crates/board/out/libboard.a (rt lib in crates/board). The library needs no heap, no operating system and no C library beyond
 * memcpy, memset and the like; it keeps nothing between calls. All state is the caller's: the model file, the work area, and the
 * number of pairs done.
 *
 * Slices. A slice is a pointer and a length counted in its elements. Any valid pointer will do, also with length 0: pass the address of
 * anything there, not NULL. File and area must not overlap. The area must be aligned for uint64_t. Calls on different areas may run at
 * the same time.
 *
 * Every call ends with an answer, whatever the bytes, the numbers and the area's contents are.
 */
#ifndef FENMANTLE_H
#define FENMANTLE_H

#include <stddef.h>
#include <stdint.h>

#ifdef __cplusplus
extern "C" {
#endif

/*
 * The most cells that any accepted run has: an area of this many is always enough room. A smaller one will do for a model whose plan
 * tells fewer cells.
 */
#define FENMANTLE_ROOM 8192

/*
 * What the field `refusal` of an answer says. The field `place` beside it is an offset into the file, counted from 0, for 1 to 9; it is
 * 0 for all others and where nothing is refused.
 *
 * 1 to 9 are judged record by record from the left; within a record the kind comes first, then completeness, then its fields from left
 * to right, then 4 to 8. Then 10 to 15 are judged in order. Only the first refusal is told.
 *
 * A refusal returns 0 in every field other than `refusal` and `place`, and leaves the area as it was. There are two exceptions:
 * fenmantle_advance at 14, and fenmantle_sheet at 14 and 15; see there.
 */
enum fenmantle_refusal {
    /* Nothing is refused. */
    FENMANTLE_ACCEPTED = 0,
    /* The bytes end before the due record does. Place: the file's length. */
    FENMANTLE_CUT_SHORT = 1,
    /* A kind that is not due. Place: the kind byte. */
    FENMANTLE_KIND_NOT_DUE = 2,
    /* A field outside its range, or a window for another chain than the one that is due. Place: the first byte of the field. */
    FENMANTLE_OUT_OF_RANGE = 3,
    /* A load that does not come after the one before it, by centre and then by chain. Place: its kind byte. */
    FENMANTLE_LOAD_ORDER = 4,
    /* At the first leaf some chain has no centre. Place: that leaf's kind byte. */
    FENMANTLE_NO_CENTRE = 5,
    /* A leaf whose centre is in the tree already. Place: the centre's number. */
    FENMANTLE_LEAF_TWICE = 6,
    /* A join with fewer than two subtrees before it. Place: its kind byte. */
    FENMANTLE_NOTHING_TO_JOIN = 7,
    /* At the end record there is not exactly one subtree, or a centre is missing. Place: its kind byte. */
    FENMANTLE_TREE_UNFINISHED = 8,
    /* There are bytes after the end record. Place: the first of them. */
    FENMANTLE_BYTES_AFTER_END = 9,
    /* `lower` is above the number of chains. */
    FENMANTLE_NO_SUCH_CHAIN = 10,
    /* The chain to lower has window 0. */
    FENMANTLE_WINDOW_ZERO = 11,
    /* The run's cells are more than 8192, or more than the area has. */
    FENMANTLE_NO_ROOM = 12,
    /* `done` is above the run's pairs. */
    FENMANTLE_DONE_ABOVE_TOTAL = 13,
    /* A cell would reach 2^64. In a whole run this comes exactly if the value is 2^64 or more, whatever the tree is. */
    FENMANTLE_TOO_LARGE = 14,
    /* The sheet only: the value is below 2^64, but that of some lowered run is not. */
    FENMANTLE_LOWERED_TOO_LARGE = 15
};

/*
 * In all calls:
 *   file, file_len   the model file. What is told depends on its first 716 bytes alone (a file of more than 715 is refused), so that
 *                    a reader with a buffer of 716 bytes gets the answer for the whole file.
 *   lower            the chain whose window counts one less in this run: 0 for none, else its number.
 *   area, area_len   the work area. Cells past the run's own are never written, and no answer depends on
 *                    them.
 */

typedef struct {
    uint64_t refusal; /* 0, or 1 to 11 */
    uint64_t place;
    uint64_t cells;   /* how many cells of the area the run needs; may be above 8192, and is then refused as 12 by the other calls */
    uint64_t pairs;   /* how many pairs the run has; 0 for a model of one centre */
} fenmantle_plan_answer;

/* What a run will take, from routes, windows and tree alone; no area is needed and no load matters. */
fenmantle_plan_answer fenmantle_plan(const uint8_t *file, size_t file_len, uint64_t lower);

typedef struct {
    uint64_t refusal; /* 0, 1 to 12, or 14: a leaf's cell is 2^64 or more */
    uint64_t place;
} fenmantle_start_answer;

/*
 * Begins a run: writes every leaf's weights to its cells and 0 to every join's. What the area held does not matter. The area is then
 * where advances begin, with 0 pairs done.
 */
fenmantle_start_answer fenmantle_start(const uint8_t *file, size_t file_len, uint64_t lower, uint64_t *area, size_t area_len);

typedef struct {
    uint64_t refusal; /* 0, or 1 to 14 */
    uint64_t place;
    uint64_t done;    /* the new number of pairs done, those of earlier calls included; at 14 too; 0 at the other refusals */
    uint64_t value;   /* once `done` is the plan's `pairs`: the run's last cell, which is then its value; before that, and at a refusal, 0 */
} fenmantle_advance_answer;

/*
 * Spends a budget: adds the next pairs of the run's fixed order to the area, `budget` of them, or all that are left if these are fewer.
 * Hand back `done` as the last call told it (0 after a start), with the same file, lowered chain and untouched area. How the budgets are
 * cut up then makes no difference, and a whole run's value is the exact sum over all states. It is at least 1, so that in such a run a
 * value other than 0 says that the run is finished.
 *
 * A budget of 0 adds nothing; refusals are judged all the same. With all pairs done already, the value is told again.
 *
 * At 14 the pairs before the failing one are kept in the area, and `done` counts them. The failing pair adds nothing.
 *
 * On an area with other contents the call adds its pairs to what is there, and means nothing more than that.
 */
fenmantle_advance_answer fenmantle_advance(const uint8_t *file, size_t file_len, uint64_t lower, uint64_t done, uint64_t budget,
                                           uint64_t *area, size_t area_len);

typedef struct {
    uint64_t refusal;       /* 0, 1 to 9, 12, 14 or 15 */
    uint64_t place;
    uint64_t value;         /* of the model as it stands in the file: at least 1 */
    uint64_t pairs;         /* of that model's run */
    uint64_t cells;         /* of that model's run */
    uint64_t chains;        /* 1 to 8 */
    uint64_t numerators[8]; /* chain k's rate is numerators[k - 1] / value: the value with its window one less, over the value; the
                               numerator is 0 where the window is 0, and past the last chain */
    uint64_t busiest;       /* the centre with the largest sum of loads; of several, the lowest number */
} fenmantle_sheet_answer;

/*
 * The whole sheet in one call: the model's run, then one with each chain lowered. Room is judged by the model as it stands; lowered
 * runs need no more. What the area held does not matter. Afterwards the model's cells are all 0, also where 14 or 15 is refused.
 */
fenmantle_sheet_answer fenmantle_sheet(const uint8_t *file, size_t file_len, uint64_t *area, size_t area_len);

typedef struct {
    uint64_t from;   /* offset of the first leaf's kind byte in the file */
    uint64_t length; /* up to but without the end record */
} fenmantle_tree_part_answer;

/*
 * The tree part of a file: the `length` bytes at file + from, which are the caller's own. Both are 0 exactly where fenmantle_plan with
 * lower 0 refuses; that call names the refusal.
 */
fenmantle_tree_part_answer fenmantle_tree_part(const uint8_t *file, size_t file_len);

#ifdef __cplusplus
}
#endif

#endif
