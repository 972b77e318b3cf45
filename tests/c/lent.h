/* What the calls get, for the programs that test them one at a time: an adapter's file, a medium, a stage, a state and a buffer. State,
   medium, stage and buffer are then what the calls left. */
#ifndef LENT_H
#define LENT_H

#include "ascheknopf.h"
#include "check.h"

/* The samples' files have 11 blocks, with the one for their rows; there is room for another one of rows. The longest buffer has a code 4
   with an image of 33 blocks, which is one too many. */
enum { PHYS = 4, FILE_SIZE = 12 * 512, DISK = 8192, SECTOR = 512, STAGE = 16384, MOST = 28 + 44 + 33 * 512 + 8 };

/* By the level's number. */
static const char *const TEXTS[4] = {"CSMI=None;", "CSMI=Restricted;", "CSMI=Limited;", "CSMI=Full;"};
static const char FULL[] = "CSMI=Full;";

/* One byte more of the medium, of the stage and of the state is there to be lent too. */
static struct lent {
    uint8_t file[FILE_SIZE], medium[PHYS * DISK + 1], stage[STAGE + 1], state[ASCHEKNOPF_STATE_SIZE + 1], buffer[MOST];
    size_t file_len, medium_len, stage_len, state_len, buffer_len;
} lent, before;

/* A sample's adapter and a medium of zeros; a state and a stage of other bytes. */
static inline void start(const char *sample)
{
    memset(&lent, 0, sizeof lent);
    lent.file_len = read_file(sample, "adapter.bin", lent.file, sizeof lent.file);
    lent.medium_len = PHYS * DISK;
    lent.state_len = ASCHEKNOPF_STATE_SIZE;
    lent.stage_len = STAGE;
    memset(lent.state, 0x5A, sizeof lent.state);
    memset(lent.stage, 0xC3, sizeof lent.stage);
}

static inline uint32_t opened(const char *text)
{
    before = lent;
    return ascheknopf_open((const uint8_t *)text, strlen(text), lent.file, lent.file_len, lent.medium, lent.medium_len,
                           lent.state, lent.state_len);
}

static inline int untouched(void)
{
    return memcmp(&lent, &before, sizeof lent) == 0;
}

static inline int state_stays(void)
{
    return memcmp(lent.state, before.state, sizeof lent.state) == 0;
}

static inline int medium_stays(void)
{
    return memcmp(lent.medium, before.medium, sizeof lent.medium) == 0;
}

static inline int stage_stays(void)
{
    return memcmp(lent.stage, before.stage, sizeof lent.stage) == 0;
}

/* Medium and stage. */
static inline int store_stays(void)
{
    return medium_stays() && stage_stays();
}

/* The state but for these bytes, which are expected to change, is as it was. */
static inline int state_but(size_t at, size_t length)
{
    return memcmp(lent.state, before.state, at) == 0
        && memcmp(lent.state + at + length, before.state + at + length, sizeof lent.state - at - length) == 0;
}

#endif
