/* Firmware in whole sessions, ascheknopf_run and ascheknopf_run_both: the stage is handed on from request to request, and is left. What is
   expected was written down from W-207, document 01 and the header file. Runs in the repository's root. */
#define PROGRAM "firmware_runs.c"
#include "both.h"
#include "image.h"

enum { RUNNING = ASCHEKNOPF_CONTROLLER_FIRMWARE, STEPS = 9, AT_CONTROLLER = (2 + PHYS) * 512 };

/* A session of code 2 and code 4 in turn: an image of two blocks, one with a wrong check, one of a block; a commit, and another one. */
enum { SHOW, TWO_BLOCKS, DAMAGED, ONE_BLOCK, COMMIT };
static const uint8_t SESSION[STEPS] = {SHOW, TWO_BLOCKS, SHOW, DAMAGED, ONE_BLOCK, SHOW, COMMIT, SHOW, COMMIT};

/* The image of two blocks and that of one, which the stage is to hold. */
static uint8_t larger[2 * IMAGE_BLOCK], smaller[IMAGE_BLOCK];

static void make_images(void)
{
    make_image(TWO_BLOCKS);
    memcpy(larger, image, sizeof larger);
    make_image(ONE_BLOCK);
    memcpy(smaller, image, sizeof smaller);
}

/* How many bytes the body of a step has, and what they are; that of code 2 is FILL. */
static size_t step_size(uint8_t step)
{
    return step == SHOW ? ASCHEKNOPF_CONTROLLER_SIZE : step == COMMIT ? STRUCTURE : STRUCTURE + (step == TWO_BLOCKS ? 2 : 1) * IMAGE_BLOCK;
}

static void put_step(uint8_t step, uint8_t *body)
{
    if (step == SHOW)
        return;
    const uint32_t length = (uint32_t)step_size(step) - STRUCTURE;
    make_image(step);
    image[100] ^= step == DAMAGED;
    put_download(body, step == COMMIT ? 0 : VALIDATE_FLAG, length, length);
}

/* A step at the end of a session of one header or of both. */
static void add_first_step(uint8_t step, int prefixed)
{
    const struct asked a = {"step", step == SHOW ? 2 : DOWNLOAD, 2, (uint16_t)step_size(step), 1, {0}};
    uint8_t *at = run.session + run.session_len;
    if (prefixed)
        at = add(UNDER_FIRST, 0, FIRST + a.size);
    else {
        put_word(at, FIRST + (uint32_t)a.size);
        run.session_len += 4 + FIRST + a.size;
        at += 4;
    }
    put_first(&a, 0, at);
    put_step(step, at + FIRST);
}

static void add_linux_step(uint8_t step)
{
    const struct asked a = {"step", step == SHOW ? 2 : DOWNLOAD, 2, (uint16_t)step_size(step), 1, {0}};
    uint8_t *at = add(UNDER_LINUX, a.control, LINUX + a.size);
    put_linux(&a, 0, at);
    put_step(step, at + LINUX);
}

static size_t handled_plain(const char *text)
{
    before = run;
    return ascheknopf_run((const uint8_t *)text, strlen(text), run.file, run.file_len, run.medium, run.medium_len,
                          run.stage, run.stage_len, run.session, run.session_len, run.record, run.record_len);
}

/* The session of these steps: under the first header with a length before each; and with three numbers, under it, the other, or in turn. */
enum { PLAIN, ALL_FIRST, ALL_LINUX, IN_TURN, KINDS };

/* Request n, from 0, has the Linux header. */
static int is_linux(int kind, size_t n)
{
    return kind == ALL_LINUX || (kind == IN_TURN && n % 2 == 1);
}

static void make_session(int kind)
{
    start("good");
    no_session();
    for (size_t n = 0; n < STEPS; n++)
        if (is_linux(kind, n))
            add_linux_step(SESSION[n]);
        else
            add_first_step(SESSION[n], kind != PLAIN);
}

static size_t ran(int kind, const char *text)
{
    return kind == PLAIN ? handled_plain(text) : handled(text);
}

/* Where the body of request n is, from 0. */
static const uint8_t *body(int kind, size_t n)
{
    size_t at = 0;
    for (size_t i = 0; i < n; i++)
        at += kind == PLAIN ? 4 + word(run.session + at) : BEFORE + word(run.session + at + 8);
    return run.session + at + (kind == PLAIN ? 4 : BEFORE) + (is_linux(kind, n) ? LINUX : FIRST);
}

/* The return codes at Limited and Full, and under the Linux header at any level. */
static const uint32_t CODES[STEPS] = {0, 0, 0, 1, 0, 0, 0, 0, 1};

/* Codes, what code 2 shows, and the stage: the smaller image over the larger one, and what was behind them. */
static void granted(int kind, const char *text)
{
    const uint8_t *of_file = run.file + AT_CONTROLLER + RUNNING;
    make_session(kind);
    int right = ran(kind, text) == STEPS;
    for (size_t n = 0; n < STEPS; n++)
        right = right && line_is(n + 1, 0, CODES[n]);
    check_at("lines", (uint32_t)kind, right && all(run.record + STEPS * LINE, sizeof run.record - STEPS * LINE, 0x5A));
    check_at("shown before the commit", (uint32_t)kind, memcmp(body(kind, 0) + RUNNING, of_file, REVISIONS) == 0
                                                        && memcmp(body(kind, 2) + RUNNING, of_file, REVISIONS) == 0
                                                        && memcmp(body(kind, 5) + RUNNING, of_file, REVISIONS) == 0);
    check_at("shown after it", (uint32_t)kind, memcmp(body(kind, 7) + RUNNING, smaller, REVISIONS) == 0);
    check_at("the stage", (uint32_t)kind, memcmp(run.stage, smaller, IMAGE_BLOCK) == 0
                                          && memcmp(run.stage + IMAGE_BLOCK, larger + IMAGE_BLOCK, IMAGE_BLOCK) == 0
                                          && all(run.stage + 2 * IMAGE_BLOCK, sizeof run.stage - 2 * IMAGE_BLOCK, 0xC3));
    for (size_t n = 1; n < STEPS; n++)
        if (SESSION[n] != SHOW)
            check_at("status and severity", (uint32_t)n, all(body(kind, n) + ANSWER_AT, ANSWER, CODES[n] == 0 ? 0 : FILL));
    check_at("medium", (uint32_t)kind, all(run.medium, sizeof run.medium, 0));
}

/* Below Limited the first header stages nothing: each code 4 is 4, and the stage stays. */
static void denied(int kind, const char *text, uint32_t shown)
{
    make_session(kind);
    int right = ran(kind, text) == STEPS && stage_stays();
    for (size_t n = 0; n < STEPS; n++)
        right = right && line_is(n + 1, 0, SESSION[n] == SHOW ? shown : 4);
    check_at("denied", (uint32_t)kind, right);
}

/* In turn, below Limited: the odd ones, a validation, a damaged one and code 2 twice, have the Linux header; the commits do not. */
static void denied_in_turn(void)
{
    const uint32_t codes[STEPS] = {0, 0, 0, 1, 4, 0, 4, 0, 4};
    make_session(IN_TURN);
    int right = handled(RESTRICTED) == STEPS && memcmp(run.stage, larger, sizeof larger) == 0
        && all(run.stage + sizeof larger, sizeof run.stage - sizeof larger, 0xC3);
    for (size_t n = 0; n < STEPS; n++)
        right = right && line_is(n + 1, 0, codes[n]);
    check("denied in turn", right && memcmp(body(IN_TURN, 7) + RUNNING, run.file + AT_CONTROLLER + RUNNING, REVISIONS) == 0);
}

/* All requests get this number, and neither they nor medium and stage are touched; a record of others than these lines stays. */
static int all_get(int kind, const char *text, uint32_t number)
{
    int right = ran(kind, text) == STEPS && session_stays(0) && stage_stays() && all(run.medium, sizeof run.medium, 0);
    for (size_t n = 1; n <= STEPS; n++)
        right = right && line_is(n, number, NONE);
    return right && all(run.record + STEPS * LINE, sizeof run.record - STEPS * LINE, 0x5A);
}

/* A refused opening: 107 before the length of the stage. */
static void refused(int kind)
{
    make_session(kind);
    check_at("a wrong text", (uint32_t)kind, all_get(kind, "CSMI=full;", 107));
    run.stage_len--;
    check_at("a wrong text and stage", (uint32_t)kind, all_get(kind, "CSMI=full;", 107));
    run.stage_len = STAGE;
    run.file[600] ^= 1;
    check_at("a damaged file", (uint32_t)kind, all_get(kind, FULL, 107));
    run.file_len = 0;
    check_at("no file", (uint32_t)kind, all_get(kind, FULL, 107));
}

/* A stage of another length: 106 for every request, and for one that is short too. */
static void stage_lengths(int kind)
{
    const size_t lengths[5] = {0, 1, 512, STAGE - 1, STAGE + 1};
    for (int i = 0; i < 5; i++) {
        make_session(kind);
        run.stage_len = lengths[i];
        check_at("a stage of another length", (uint32_t)lengths[i], all_get(kind, FULL, 106));
        if (kind == PLAIN)
            continue;
        no_session();
        add(UNDER_FIRST, 0, FIRST - 1);
        add(UNDER_LINUX, DOWNLOAD, 0);
        check_at("short requests, another stage", (uint32_t)lengths[i], handled(FULL) == 2 && line_is(1, 106, NONE) && line_is(2, 106, NONE)
                                                                        && stage_stays() && session_stays(0));
    }
}

/* A run begins with nothing staged, whatever an earlier one left in the stage; a commit is refused and leaves it. */
static void run_again(int kind)
{
    make_session(kind);
    run.session_len = (size_t)(body(kind, 6) - run.session) - (is_linux(kind, 6) ? LINUX : FIRST) - (kind == PLAIN ? 4 : BEFORE);
    check_at("a run that stages", (uint32_t)kind, ran(kind, FULL) == 6 && memcmp(run.stage, smaller, IMAGE_BLOCK) == 0);
    no_session();
    add_first_step(COMMIT, kind != PLAIN);
    check_at("a run that commits", (uint32_t)kind, ran(kind, FULL) == 1 && line_is(1, 0, 1) && stage_stays());
}

/* One by one, by the calls: the same record, replies and stage. */
static void one_by_one(int kind, const char *text)
{
    static uint8_t state[ASCHEKNOPF_STATE_SIZE];
    static struct run by;
    make_session(kind);
    by = run;
    ascheknopf_open((const uint8_t *)text, strlen(text), by.file, by.file_len, by.medium, by.medium_len, state, sizeof state);
    for (size_t n = 0; n < STEPS; n++) {
        const size_t header = is_linux(kind, n) ? LINUX : FIRST, length = header + step_size(SESSION[n]);
        const uint32_t code = SESSION[n] == SHOW ? 2 : DOWNLOAD;
        uint8_t *buffer = by.session + (body(kind, n) - run.session) - header;
        uint32_t call = is_linux(kind, n)
            ? ascheknopf_request_linux(state, sizeof state, by.medium, by.medium_len, by.stage, STAGE, code, buffer, length)
            : ascheknopf_request(state, sizeof state, by.medium, by.medium_len, by.stage, STAGE, buffer, length);
        put_word(by.record + n * LINE, call);
        put_word(by.record + n * LINE + 4, call != 0 ? NONE : word(buffer + (is_linux(kind, n) ? LINUX_CODE : FIRST_CODE)));
    }
    check_at("as by calls one by one", (uint32_t)kind, ran(kind, text) == STEPS && memcmp(&run, &by, sizeof run) == 0);
}

int main(void)
{
    const char *texts[5] = {"CSMI=None;", RESTRICTED, "CSMI=Limited;", FULL, "CSMI=full;"};
    make_images();
    for (int kind = 0; kind < KINDS; kind++) {
        granted(kind, FULL);
        granted(kind, "");
        refused(kind);
        stage_lengths(kind);
        run_again(kind);
        for (int i = 0; i < 5; i++)
            one_by_one(kind, texts[i]);
    }
    granted(ALL_LINUX, "CSMI=None;");
    for (int kind = PLAIN; kind <= ALL_FIRST; kind++) {
        denied(kind, RESTRICTED, 0);
        denied(kind, "CSMI=None;", 4);
    }
    denied_in_turn();
    return finish();
}
