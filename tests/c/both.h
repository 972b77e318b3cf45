/* A session with requests under both headers, for the programs that test ascheknopf_run_both. */
#ifndef BOTH_H
#define BOTH_H

#include "asked.h"
#include "run.h"

/* Before each request stand three numbers: its header, its control code, which is 0 under the first header, and its length. */
enum { BEFORE = 12, UNDER_FIRST = 0, UNDER_LINUX = 1 };

static inline size_t handled(const char *text)
{
    before = run;
    return ascheknopf_run_both((const uint8_t *)text, strlen(text), run.file, run.file_len, run.medium, run.medium_len,
                               run.stage, run.stage_len, run.session, run.session_len, run.record, run.record_len);
}

/* Where request n begins, from 1, with the three numbers. */
static inline size_t place(size_t n)
{
    size_t at = 0;
    for (; n > 1; n--)
        at += BEFORE + word(run.session + at + 8);
    return at;
}

static inline void no_session(void)
{
    memset(run.session, 0, sizeof run.session);
    run.session_len = 0;
}

/* Adds the three numbers and so many zeros at the session's end: where the request's bytes go. */
static inline uint8_t *add(uint32_t header, uint32_t control, size_t length)
{
    uint8_t *at = run.session + run.session_len;
    put_word(at, header);
    put_word(at + 4, control);
    put_word(at + 8, (uint32_t)length);
    run.session_len += BEFORE + length;
    return at + BEFORE;
}

static inline void add_first(int i)
{
    put_first(&GRANTED[i], 0, add(UNDER_FIRST, 0, FIRST + GRANTED[i].size));
}

static inline uint8_t *add_linux(int i)
{
    uint8_t *buffer = add(UNDER_LINUX, GRANTED[i].control, LINUX + GRANTED[i].size);
    put_linux(&GRANTED[i], 0, buffer);
    return buffer;
}

/* Both kinds in turn, on the adapter of samples/good. */
enum { REQUESTS = 22 };
static struct run mixed;

static inline void make_mixed(void)
{
    start("good");
    no_session();
    add_first(DRIVER_INFO);
    add_linux(DRIVER_INFO);
    add_first(SET_PHY_INFO);
    add_first(PHY_INFO);
    add_linux(SET_PHY_INFO);
    add_first(PHY_INFO);
    add_first(CLEAR);
    add_linux(CLEAR);
    add_first(LINK_ERRORS);
    add_first(WRITE);
    add_first(READ);
    add_linux(WRITE);
    add_first(READ);
    add(UNDER_LINUX, 1, LINUX - 1);
    add(UNDER_FIRST, 0, FIRST - 1);
    add(UNDER_LINUX, 1, LINUX);
    add(UNDER_LINUX, 0xCC770001, LINUX);
    add(UNDER_FIRST, 0, FIRST);
    add_linux(PACKET)[LINUX_DIRECTION] = 2;
    add_first(CONTROLLER);
    add_linux(STATUS);
    add_first(CONNECTORS);
    mixed = run;
}

#endif
