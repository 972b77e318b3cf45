/* Sessions with requests under both headers, ascheknopf_run_both: lines and replies, the same as by calls one by one, and the same as by
   ascheknopf_run where all have the first header. What is expected was written down from W-201, W-202, W-204, document 01, the header file
   and the descriptions of the samples. Runs in the repository's root. */
#define PROGRAM "both.c"
#include "both.h"

static const uint8_t *reply(size_t n)
{
    return run.session + place(n) + BEFORE;
}

/* At a level: the return codes of all requests. NONE is for the two buffers under the size of their header, which get 100. */
static void lines(const char *text, const uint32_t codes[REQUESTS])
{
    int same = 1;
    run = mixed;
    check("requests handled", handled(text) == REQUESTS);
    for (size_t n = 1; n <= REQUESTS; n++)
        same = same && line_is(n, codes[n - 1] == NONE ? 100 : 0, codes[n - 1]);
    check("lines of the record", same);
    check("the record's rest", all(run.record + REQUESTS * LINE, sizeof run.record - REQUESTS * LINE, 0x5A));
    check("behind the session", session_stays(run.session_len));
    check("the stage", stage_stays());
    same = 1;
    for (size_t n = 1; n <= REQUESTS; n++)
        same = same && memcmp(run.session + place(n), before.session + place(n), BEFORE) == 0;
    check("the three numbers stay", same);
    check("short requests stay", memcmp(reply(14), before.session + place(14) + BEFORE, place(16) - place(14) - BEFORE) == 0);
    check("the sector", all(run.medium + 5 * SECTOR, SECTOR, FILL) && all(run.medium, 5 * SECTOR, 0)
                        && all(run.medium + 6 * SECTOR, sizeof run.medium - 6 * SECTOR, 0));
}

/* The state is one: what a request under the Linux header changed, those under the first find. Of the run at Restricted. */
static void replies(void)
{
    check("driver info under both", memcmp(reply(1) + FIRST, run.file + 4, 174) == 0 && memcmp(reply(2) + LINUX, run.file + 4, 174) == 0);
    check("phy info, the change denied", memcmp(reply(4) + FIRST + 4, run.file + 512, 64) == 0);
    const uint8_t *entity = reply(6) + FIRST + 4;
    check("phy info, changed", entity[21] == 2 && entity[29] == 8 && entity[30] == 0x88 && entity[31] == 0x89);
    check("link errors, the reset denied", memcmp(reply(7) + FIRST, before.session + place(7) + BEFORE + FIRST, 20) == 0);
    check("link errors, not yet cleared", word(reply(8) + LINUX + 4) == 3 && word(reply(8) + LINUX + 12) == 1);
    check("link errors, none left", all(reply(9) + FIRST + 4, 16, 0));
    check("a read, the write denied", word(reply(11) + FIRST + 132) == SECTOR && all(reply(11) + FIRST + 136, SECTOR, 0));
    check("a read, written", word(reply(13) + FIRST + 132) == SECTOR && all(reply(13) + FIRST + 136, SECTOR, FILL));
    /* behind block 0, the phys' and the rows' come the controller's and the connectors' */
    const uint8_t *controller = run.file + (2 + PHYS) * 512;
    check("the controller", memcmp(reply(20) + FIRST, controller, 176) == 0 && memcmp(reply(21) + LINUX, controller + 176, 36) == 0);
    check("the connectors", memcmp(reply(22) + FIRST + 3 * 36, controller + 4 * 512, 36) == 0
                            && all(reply(22) + FIRST + PHYS * 36, (32 - PHYS) * 36, 0));
}

/* Request n by the call of its header, in place, and its line. */
static void one_call(struct run *by, uint8_t *state, size_t n)
{
    uint8_t *at = by->session + place(n), *buffer = at + BEFORE, *line = by->record + (n - 1) * LINE;
    const size_t length = word(at + 8), size = ASCHEKNOPF_STATE_SIZE;
    const int first = word(at) == UNDER_FIRST;
    uint32_t call = first ? ascheknopf_request(state, size, by->medium, by->medium_len, by->stage, by->stage_len, buffer, length)
                          : ascheknopf_request_linux(state, size, by->medium, by->medium_len, by->stage, by->stage_len, word(at + 4),
                                                     buffer, length);
    put_word(line, call);
    put_word(line + 4, call != 0 ? NONE : word(buffer + (first ? FIRST_CODE : LINUX_CODE)));
}

static void one_by_one(const char *text)
{
    static uint8_t state[ASCHEKNOPF_STATE_SIZE];
    static struct run by;
    run = mixed;
    by = run;
    ascheknopf_open((const uint8_t *)text, strlen(text), by.file, by.file_len, by.medium, by.medium_len, state, sizeof state);
    for (size_t n = 1; n <= REQUESTS; n++)
        one_call(&by, state, n);
    check("as by calls one by one", handled(text) == REQUESTS && memcmp(&run, &by, sizeof run) == 0);
}

/* A session of the first header alone, with the three numbers in the place of its lengths; the last request may be cut short. */
static void add_plain(const struct run *plain)
{
    no_session();
    for (size_t at = 0; plain->session_len - at >= 4;) {
        const size_t rest = plain->session_len - at - 4, size = word(plain->session + at), there = rest < size ? rest : size;
        memcpy(add(UNDER_FIRST, 0, size), plain->session + at + 4, there);
        run.session_len -= size - there;
        at += 4 + there;
    }
}

static void first_alone(const char *sample, const char *text)
{
    static struct run plain, both;
    start(sample);
    plain = run;
    add_plain(&plain);
    size_t count = ascheknopf_run((const uint8_t *)text, strlen(text), plain.file, plain.file_len, plain.medium, plain.medium_len,
                                  plain.stage, plain.stage_len, plain.session, plain.session_len, plain.record, plain.record_len);
    int same = count >= 12 && handled(text) == count && memcmp(run.record, plain.record, sizeof run.record) == 0
        && memcmp(run.medium, plain.medium, sizeof run.medium) == 0 && memcmp(run.stage, plain.stage, sizeof run.stage) == 0;
    both = run;
    add_plain(&plain);
    check("as by ascheknopf_run", same && memcmp(run.session, both.session, sizeof run.session) == 0);
}

/* An opening that is refused: 107 for each request of both kinds, and all bytes but the record's lines stay. */
static void refused(const char *what, const char *text)
{
    int same = handled(text) == REQUESTS && session_stays(0) && all(run.medium, sizeof run.medium, 0) && stage_stays();
    for (size_t n = 1; n <= REQUESTS; n++)
        same = same && line_is(n, 107, NONE);
    check(what, same);
}

static void refused_openings(void)
{
    run = mixed;
    refused("a wrong text", "CSMI=full;");
    put_word(run.session + place(5), 2);
    check("a wrong text, another header", handled("CSMI=full;") == 4 && session_stays(0));
    run = mixed;
    run.medium_len--;
    refused("a short medium", FULL);
    run.file[600] ^= 1;
    refused("a damaged block", FULL);
    run.file_len = 0;
    refused("no file", "");
}

/* A request may have any length; Length is held against it. */
static void long_request(uint32_t length, uint32_t code)
{
    const size_t size = LONG - 100, behind = LINUX + 174;
    run = mixed;
    no_session();
    uint8_t *buffer = add(UNDER_LINUX, 1, size);
    put_linux(&GRANTED[DRIVER_INFO], size - behind, buffer);
    put_word(buffer + LINUX_LENGTH, length);
    check_at("a long request", length, handled("CSMI=None;") == 1 && line_is(1, 0, code) && all(buffer + behind, size - behind, FILL)
                                       && (memcmp(buffer + LINUX, run.file + 4, 174) == 0) == (code == 0));
}

/* What the header file calls the three numbers. */
static void places(void)
{
    check("their places", ASCHEKNOPF_PREFIX_SIZE == BEFORE && ASCHEKNOPF_PREFIX_HEADER == 0 && ASCHEKNOPF_PREFIX_CONTROL == 4
                          && ASCHEKNOPF_PREFIX_LENGTH == 8);
    check("the headers", ASCHEKNOPF_FIRST_HEADER == UNDER_FIRST && ASCHEKNOPF_LINUX_HEADER == UNDER_LINUX);
}

/* A null pointer with length 0, for each argument and for all. */
static void null_pointers(void)
{
    const uint8_t *text = (const uint8_t *)FULL, *file = run.file;
    uint8_t *medium = run.medium, *stage = run.stage, *session = run.session, *record = run.record;
    run = mixed;
    const size_t size = run.file_len, disks = run.medium_len, bytes = run.session_len, room = run.record_len;
    check("null: all", ascheknopf_run_both(NULL, 0, NULL, 0, NULL, 0, NULL, 0, NULL, 0, NULL, 0) == 0);
    check("null: session", ascheknopf_run_both(text, 10, file, size, medium, disks, stage, STAGE, NULL, 0, record, room) == 0);
    check("null: record", ascheknopf_run_both(text, 10, file, size, medium, disks, stage, STAGE, session, bytes, NULL, 0) == 0);
    check("null: nothing is written", all(record, room, 0x5A) && all(medium, disks, 0) && all(stage, sizeof run.stage, 0xC3));
    check("null: file", ascheknopf_run_both(text, 10, NULL, 0, medium, disks, stage, STAGE, session, bytes, record, room) == REQUESTS
                        && line_is(1, 107, NONE) && line_is(2, 107, NONE));
    check("null: medium", ascheknopf_run_both(text, 10, file, size, NULL, 0, stage, STAGE, session, bytes, record, room) == REQUESTS
                          && line_is(1, 107, NONE) && line_is(2, 107, NONE));
    check("null: stage", ascheknopf_run_both(text, 10, file, size, medium, disks, NULL, 0, session, bytes, record, room) == REQUESTS
                         && line_is(1, 106, NONE) && line_is(2, 106, NONE));
    /* Limited */
    check("null: text", ascheknopf_run_both(NULL, 0, file, size, medium, disks, stage, STAGE, session, bytes, record, room) == REQUESTS
                        && line_is(3, 0, 4) && line_is(5, 0, 0));
}

int main(void)
{
    const char *texts[6] = {"CSMI=None;", RESTRICTED, "CSMI=Limited;", FULL, "", "CSMI=full;"};
    const char *samples[3] = {"good", "writes", "refusals"};
    /* requests 2, 5, 8, 12, 14, 16, 17, 19 and 21 have the Linux header */
    const uint32_t none[REQUESTS] = {4, 0, 4, 4, 0, 4, 4, 0, 4, 4, 4, 0, 4, NONE, NONE, 3, 2, 3, 3, 4, 0, 4};
    const uint32_t low[REQUESTS] = {0, 0, 4, 0, 0, 0, 4, 0, 0, 4, 0, 0, 0, NONE, NONE, 3, 2, 3, 3, 0, 0, 0};
    const uint32_t full[REQUESTS] = {0, 0, 0, 0, 0, 0, 0, 0, 0, 0, 0, 0, 0, NONE, NONE, 3, 2, 3, 3, 0, 0, 0};

    make_mixed();
    places();
    lines("CSMI=None;", none);
    lines("", low);
    lines(FULL, full);
    lines(RESTRICTED, low);
    replies();
    for (int i = 0; i < 6; i++) {
        one_by_one(texts[i]);
        for (int j = 0; j < 3; j++)
            first_alone(samples[j], texts[i]);
    }
    refused_openings();
    long_request(LINUX + 174, 0);
    long_request(LONG - 100, 0);
    long_request(LONG - 99, 3);
    long_request(LINUX + 173, 3);
    null_pointers();
    return finish();
}
