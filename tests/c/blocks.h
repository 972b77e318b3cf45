/* The blocks of an adapter's file, for the programs that alter it: their places in the samples' files, and their checks. */
#ifndef BLOCKS_H
#define BLOCKS_H

#include "lent.h"

/* Block 0, one for each phy, one for the rows, one for the controller, and one for each phy's connector. */
enum { BLOCK = 512, CHECK_AT = 508, ROWS_BLOCK = 1 + PHYS, CONTROLLER_BLOCK = ROWS_BLOCK + 1, CONNECTOR_BLOCK = CONTROLLER_BLOCK + 1 };
enum { BLOCKS = CONNECTOR_BLOCK + PHYS, STATUS_AT = ASCHEKNOPF_CONTROLLER_SIZE, CONTROLLER_END = STATUS_AT + ASCHEKNOPF_STATUS_SIZE };

/* Makes the check of every block good. */
static inline void seal(void)
{
    for (size_t k = 0; k < lent.file_len / BLOCK; k++) {
        uint8_t *block = lent.file + k * BLOCK;
        put_word(block + CHECK_AT, block_check(block, (uint32_t)k));
    }
}

/* A part of the state is a table of the file, whose entries have a size and stand in blocks so far apart; it is zero from a count on. */
static inline int table_is(size_t at, size_t size, size_t most, const uint8_t *in_file, size_t apart, size_t count)
{
    int same = 1;
    for (size_t n = 0; n < most; n++) {
        const uint8_t *entry = lent.state + at + n * size;
        same = same && (n < count ? memcmp(entry, in_file + n * apart, size) == 0 : all(entry, size, 0));
    }
    return same;
}

/* Every byte of the state, by the file, whose rows all stand in one block. Nothing is staged. */
static inline int state_is_the_files(uint8_t level)
{
    const uint8_t *controller = lent.file + CONTROLLER_BLOCK * BLOCK;
    return lent.state[ASCHEKNOPF_LEVEL] == level && lent.state[ASCHEKNOPF_PHY_COUNT] == PHYS
        && lent.state[ASCHEKNOPF_ROW_COUNT] == lent.file[1]
        && memcmp(lent.state + ASCHEKNOPF_DRIVER_INFO, lent.file + 4, ASCHEKNOPF_DRIVER_INFO_SIZE) == 0
        && table_is(ASCHEKNOPF_PHY(0), ASCHEKNOPF_PHY_SIZE, 32, lent.file + BLOCK, BLOCK, PHYS)
        && table_is(ASCHEKNOPF_ROW(0), ASCHEKNOPF_ROW_SIZE, 64, lent.file + ROWS_BLOCK * BLOCK, ASCHEKNOPF_ROW_SIZE, lent.file[1])
        && memcmp(lent.state + ASCHEKNOPF_CONTROLLER, controller, ASCHEKNOPF_CONTROLLER_SIZE) == 0
        && memcmp(lent.state + ASCHEKNOPF_STATUS, controller + STATUS_AT, ASCHEKNOPF_STATUS_SIZE) == 0
        && table_is(ASCHEKNOPF_CONNECTOR(0), ASCHEKNOPF_CONNECTOR_SIZE, 32, lent.file + CONNECTOR_BLOCK * BLOCK, BLOCK, PHYS)
        && all(lent.state + ASCHEKNOPF_STAGED, 1 + ASCHEKNOPF_STAGED_REVISIONS_SIZE, 0);
}

/* The opening at Full has this number: accepted, the state is what the file holds; refused, it is zero. Nothing else is touched. */
static inline int opens_with(uint32_t number)
{
    uint32_t given = opened(FULL);
    int right = given == number && (number == 0 ? state_is_the_files(3) : all(lent.state, ASCHEKNOPF_STATE_SIZE, 0));
    memcpy(lent.state, before.state, ASCHEKNOPF_STATE_SIZE);
    return right && untouched();
}

#endif
