/* The samples and damaged input through ascheknopf_run. What is expected was written down from document 01, W-202, W-204 and the
   samples' descriptions, the return codes by section 10 of 001. Runs in the repository's root. */
#define PROGRAM "session.c"
#include "run.h"

/* The requests of samples/good, and of samples/writes. */
enum { HEADER = 28, GOOD = 15, WRITES = 12 };

/* The number that an opening by call has, which the run's opening is to have too. */
static uint32_t opened(const char *text)
{
    static uint8_t state[ASCHEKNOPF_STATE_SIZE];
    return ascheknopf_open((const uint8_t *)text, strlen(text), run.file, run.file_len, run.medium, run.medium_len,
                           state, sizeof state);
}

static size_t handled(const char *text)
{
    before = run;
    return ascheknopf_run((const uint8_t *)text, strlen(text), run.file, run.file_len, run.medium, run.medium_len,
                          run.stage, run.stage_len, run.session, run.session_len, run.record, run.record_len);
}

/* Where request n stands in the session, from 1; its length comes first. */
static size_t place(size_t n)
{
    return n == 1 ? 0 : place(n - 1) + 4 + word(run.session + place(n - 1));
}

static const uint8_t *body(size_t n)
{
    return run.session + place(n) + 4 + HEADER;
}

/* Status of code 25: OPEN_ACCEPT, the status FIS, uSCR and uDataBytes. */
static int status_is(const uint8_t *b, uint8_t count, uint32_t moved)
{
    const uint8_t begin[8] = {0, 0, 0, 0, 0x34, 0, 0x50, 0};
    return memcmp(b + 44, begin, 8) == 0 && memcmp(b + 52, b + 20, 8) == 0 && b[60] == count && b[61] == b[29]
        && all(b + 62, 6 + 64, 0) && word(b + 132) == moved;
}

/* A sample at a level: the return code of each request, NONE for the one under 28 bytes; and the byte that fills sector 3 of phy 0. */
static void sample(const char *name, const char *text, size_t count, const uint32_t *codes, uint8_t sector)
{
    int same = 1;
    start(name);
    check("sample: opening", opened(text) == 0);
    check("sample: requests handled", handled(text) == count);
    for (size_t n = 1; n <= count; n++)
        same = same && line_is(n, codes[n - 1] == NONE ? 100 : 0, codes[n - 1]);
    check("sample: lines of the record", same);
    check("sample: the record's rest", all(run.record + count * LINE, sizeof run.record - count * LINE, 0x5A));
    check("sample: the stage", stage_stays());
    check("sample: sector 3", all(run.medium + 3 * SECTOR, SECTOR, sector));
    check("sample: the other sectors", all(run.medium, 3 * SECTOR, 0) && all(run.medium + 4 * SECTOR, sizeof run.medium - 4 * SECTOR, 0));
}

/* The first replies of samples/good: configuration, status and connectors. */
static void front_page(void)
{
    const uint8_t revisions[16] = {1, 0, 26, 0, 0, 0, 0, 0, 6, 0, 14};
    int same = 1;
    check("controller", word(body(1) + 12) == 0x30201000 && body(1)[16] == 3 && memcmp(body(1) + 52, "CL-0007423", 11) == 0
                        && memcmp(body(1) + 133, revisions, 16) == 0);
    check("status", word(body(2)) == 1 && all(body(2) + 4, 32, 0));
    for (int n = 0; n < PHYS; n++) {
        const uint8_t *connector = body(3) + 36 * n;
        same = same && word(connector) == 0x10000u << n && memcmp(connector + 4, "J1", 3) == 0 && connector[20] == 2;
    }
    check("connectors", same && all(body(3) + 36 * PHYS, 36 * (32 - PHYS), 0));
}

/* Those behind them. */
static void replies(void)
{
    const uint8_t address[16] = {0x50, 0x00, 0xC5, 0, 0, 0, 0, 2}, os[4] = {0, 0, 1, 0}, phys[4] = {4, 0, 0, 0};
    check("driver info", memcmp(body(4), "csmilab", 8) == 0 && body(4)[162] == 1 && body(4)[164] == 4 && body(4)[172] == 81);
    check("phy info", memcmp(body(5), phys, 4) == 0 && all(body(5) + 4 + 64 * PHYS, 64 * (32 - PHYS), 0));
    check("negotiated rates", body(5)[33] == 9 && body(5)[97] == 8 && body(5)[161] == 9 && body(5)[225] == 0);
    check("link errors", word(body(6) + 4) == 3 && word(body(6) + 8) == 0 && word(body(6) + 12) == 1 && word(body(6) + 16) == 0);
    check("SCSI address", memcmp(body(10) + 16, os, 4) == 0);
    check("device address", memcmp(body(11) + 4, address, 16) == 0);
    check("identify", status_is(body(12), 0, 512) && body(12)[136 + 99] == 0x02 && body(12)[136 + 120] == 16);
    check("power mode", status_is(body(15), 0xFF, 0));
}

/* An opening that is refused: its number, 107 for each request, and all bytes but the record's lines stay. */
static void refused(const char *what, const char *text, uint32_t number)
{
    int same = opened(text) == number && handled(text) == GOOD && session_stays(0);
    for (size_t n = 1; n <= GOOD; n++)
        same = same && line_is(n, 107, NONE);
    check(what, same && all(run.medium, sizeof run.medium, 0) && stage_stays());
}

static void damaged_openings(void)
{
    start("good");
    refused("a wrong text", "CSMI=full;", 101);
    refused("an unclosed text", "CSMI=Full", 101);
    run.medium_len--;
    refused("a short medium", FULL, 106);
    run.file[600] ^= 1;
    refused("a damaged block", FULL, 103);
    run.file_len--;
    refused("a short file", FULL, 102);
    run.file_len = 0;
    refused("no file", "", 102);
}

static void damaged_sessions(void)
{
    start("good");
    run.session_len--;
    check("a cut request", handled(FULL) == GOOD - 1 && session_stays(place(GOOD)));
    run.session_len = 3;
    check("a cut length", handled(FULL) == 0);
    /* The controller's configuration in a longer buffer. */
    start("good");
    run.session_len = 4 + 32769;
    memcpy(run.session, "\x01\x80\0\0", 4);
    check("a request of 32,769 bytes", handled(FULL) == 1 && line_is(1, 0, 0) && memcmp(body(1) + 52, "CL-", 3) == 0);
    run.session[0] = 2;
    check("a request of 32,770 bytes, one missing", handled(FULL) == 0 && session_stays(0));
    run.session_len = 4 + LONG;
    memcpy(run.session, "\xA0\x86\x01\0", 4);
    check("a request of 100,000 bytes", handled(FULL) == 1 && line_is(1, 0, 0));
    start("good");
    run.record_len = 5 * LINE + 7;
    check("a short record", handled(FULL) == 5 && session_stays(place(6)) && all(run.record + 5 * LINE, 7, 0x5A));
    run.record_len = 0;
    check("no record", handled(FULL) == 0 && session_stays(0));
}

/* A null pointer with length 0, for each argument and for all. */
static void null_pointers(void)
{
    const uint8_t *text = (const uint8_t *)FULL, *file = run.file;
    uint8_t *medium = run.medium, *stage = run.stage, *session = run.session, *record = run.record;
    start("good");
    const size_t size = run.file_len, disks = run.medium_len, bytes = run.session_len, room = run.record_len;
    check("null: all", ascheknopf_run(NULL, 0, NULL, 0, NULL, 0, NULL, 0, NULL, 0, NULL, 0) == 0);
    check("null: session", ascheknopf_run(text, 10, file, size, medium, disks, stage, STAGE, NULL, 0, record, room) == 0);
    check("null: record", ascheknopf_run(text, 10, file, size, medium, disks, stage, STAGE, session, bytes, NULL, 0) == 0);
    check("null: nothing is written", all(record, room, 0x5A) && all(medium, disks, 0) && all(stage, sizeof run.stage, 0xC3));
    check("null: file", ascheknopf_run(text, 10, NULL, 0, medium, disks, stage, STAGE, session, bytes, record, room) == GOOD
                        && line_is(1, 107, NONE) && line_is(GOOD, 107, NONE));
    check("null: medium", ascheknopf_run(text, 10, file, size, NULL, 0, stage, STAGE, session, bytes, record, room) == GOOD
                          && line_is(1, 107, NONE) && line_is(GOOD, 107, NONE));
    check("null: stage", ascheknopf_run(text, 10, file, size, medium, disks, NULL, 0, session, bytes, record, room) == GOOD
                         && line_is(1, 106, NONE) && line_is(GOOD, 106, NONE));
    check("null: text", ascheknopf_run(NULL, 0, file, size, medium, disks, stage, STAGE, session, bytes, record, room) == GOOD
                        && line_is(1, 0, 0) && line_is(GOOD, 0, 0));
}

int main(void)
{
    const uint32_t good[GOOD] = {0};
    const uint32_t low[WRITES] = {0, 0, 4, 4, 0, 0, 4, 4, 0, 4, 2002, 4};
    const uint32_t high[WRITES] = {0, 0, 0, 0, 0, 2008, 0, 0, 2008, 2002, 2002, 0};
    /* Document 01's example is in it: a sound code 1, a 5-byte buffer, and as the sixth a sound code 21. */
    const uint32_t refusals[17] = {0, NONE, 4, 2, 3, 4, 4, 4, 2002, 2003, 2005, 2006, 2008, 2009, 2010, 2013, 2014};

    sample("good", RESTRICTED, GOOD, good, 0);
    front_page();
    replies();
    sample("writes", RESTRICTED, WRITES, low, 0);
    check("a read after a denied write", status_is(body(5), 1, SECTOR) && all(body(5) + 136, SECTOR, 0));
    check("a denied reset of counters", all(body(12) + 4, 16, 0));
    sample("writes", FULL, WRITES, high, 0x5A);
    check("a read after a write", status_is(body(5), 1, SECTOR) && all(body(5) + 136, SECTOR, 0x5A));
    check("a reset of counters", word(body(12) + 4) == 3 && word(body(12) + 12) == 1);
    sample("refusals", RESTRICTED, 17, refusals, 0);
    damaged_openings();
    damaged_sessions();
    null_pointers();
    return finish();
}
