/* What a run of a whole session gets, for the programs that test it. Medium, stage, session and record are then what it left. */
#ifndef RUN_H
#define RUN_H

#include "ascheknopf.h"
#include "check.h"

enum { PHYS = 4, FILE_SIZE = 11 * 512, DISK = 8192, SECTOR = 512, STAGE = 16384, LINE = 8, LONG = 100000 };

static const char RESTRICTED[] = "CSMI=Restricted;", FULL[] = "CSMI=Full;";
static const uint32_t NONE = ASCHEKNOPF_NO_CODE;

/* One byte more of the stage is there to be lent too. */
static struct run {
    uint8_t file[FILE_SIZE], medium[PHYS * DISK], stage[STAGE + 1], session[4 + LONG], record[24 * LINE];
    size_t file_len, medium_len, stage_len, session_len, record_len;
} run, before;

/* A sample, a medium of zeros, a stage of C3h and a record of 5Ah. */
static inline void start(const char *sample)
{
    memset(&run, 0, sizeof run);
    memset(run.record, 0x5A, sizeof run.record);
    run.file_len = read_file(sample, "adapter.bin", run.file, sizeof run.file);
    run.session_len = read_file(sample, "session", run.session, sizeof run.session);
    run.medium_len = sizeof run.medium;
    run.stage_len = STAGE;
    memset(run.stage, 0xC3, sizeof run.stage);
    run.record_len = sizeof run.record;
}

/* Line n of the record, from 1. */
static inline int line_is(size_t n, uint32_t call, uint32_t code)
{
    return word(run.record + (n - 1) * LINE) == call && word(run.record + (n - 1) * LINE + 4) == code;
}

static inline int session_stays(size_t from)
{
    return memcmp(run.session + from, before.session + from, sizeof run.session - from) == 0;
}

static inline int stage_stays(void)
{
    return memcmp(run.stage, before.stage, sizeof run.stage) == 0;
}

#endif
