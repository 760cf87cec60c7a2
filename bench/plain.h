/* The yardstick of the bench: see plain.c. */
#ifndef PLAIN_H
#define PLAIN_H

#include <stddef.h>
#include <stdint.h>

typedef struct {
    uint64_t value, pairs, cells, chains, numerators[8], busiest;
} plain_sheet_answer;

/* Fills the table of binomials; once, before all else. */
void plain_prepare(void);

/* From a model file to its value, by version 1 or 2. Returns 0; 12, 14 or 15 as the scope document has them; or -1 for a bad file. */
int plain_run(int version, const uint8_t *file, size_t file_len, uint64_t *area, uint64_t *value);

/* From a model file to its whole sheet. */
int plain_sheet(int version, const uint8_t *file, size_t file_len, uint64_t *area, plain_sheet_answer *answer);

#endif
