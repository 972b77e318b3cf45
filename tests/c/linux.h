/* One request under the Linux header, for the programs that test it; and the same under the first header beside it. */
#ifndef LINUX_H
#define LINUX_H

#include "asked.h"
#include "lent.h"

/* Some buffers are longer by this than the structure. */
enum { MORE = 7 };

/* An adapter as it is opened at a level, to begin again from. */
static struct lent sound;

static inline void open_sample(const char *sample, int level)
{
    start(sample);
    check("the opening", opened(TEXTS[level]) == 0);
    sound = lent;
}

/* The control code, which is handed in beside the buffer. */
static uint32_t control;

/* A sound request to it, with so many bytes more behind its structure: where the body is. */
static inline uint8_t *ask(const struct asked *a, size_t more)
{
    memset(lent.buffer, 0, sizeof lent.buffer);
    control = a->control;
    lent.buffer_len = put_linux(a, more, lent.buffer);
    return lent.buffer + LINUX;
}

static inline uint32_t handled(void)
{
    before = lent;
    return ascheknopf_request_linux(lent.state, lent.state_len, lent.medium, lent.medium_len, lent.stage, lent.stage_len,
                                    control, lent.buffer, lent.buffer_len);
}

/* The same request under the first header. */
static inline uint32_t handled_first(const struct asked *a)
{
    lent.buffer_len = put_first(a, 0, lent.buffer);
    before = lent;
    return ascheknopf_request(lent.state, lent.state_len, lent.medium, lent.medium_len, lent.stage, lent.stage_len,
                              lent.buffer, lent.buffer_len);
}

/* The call's number is this one, and nothing is touched. */
static inline int number_alone(uint32_t number)
{
    return handled() == number && untouched();
}

/* The call's number is 0 and the return code is this one; of the header nothing else changed, and the level did not. */
static inline int answered(uint32_t code)
{
    return handled() == 0 && word(lent.buffer + LINUX_CODE) == code && memcmp(lent.buffer, before.buffer, LINUX_CODE) == 0
        && memcmp(lent.buffer + LINUX_CODE + 4, before.buffer + LINUX_CODE + 4, LINUX - LINUX_CODE - 4) == 0
        && lent.state[ASCHEKNOPF_LEVEL] == before.state[ASCHEKNOPF_LEVEL];
}

/* The same, and its four bytes are all that changed. */
static inline int code_alone(uint32_t code)
{
    int right = answered(code);
    memcpy(lent.buffer + LINUX_CODE, before.buffer + LINUX_CODE, 4);
    return right && untouched();
}

/* Set phy info left phy 0 with its class, and with its negotiated, minimum and maximum rate; all else is as it was. */
static inline int phy_is_set(void)
{
    const uint8_t *entity = lent.state + ASCHEKNOPF_PHY(0) + ASCHEKNOPF_PHY_ENTITY;
    return entity[21] == 2 && entity[29] == 8 && entity[30] == 0x88 && entity[31] == 0x89 && store_stays()
        && state_but(ASCHEKNOPF_PHY(0) + 21, 11) && memcmp(entity + 22, before.state + ASCHEKNOPF_PHY(0) + 22, 7) == 0;
}

#endif
