/* A request under either header, for the programs that test both alike. */
#ifndef HEADERS_H
#define HEADERS_H

#include "linux.h"

/* Its size, and where it has the return code and Length, which counts so many bytes of it. */
struct header {
    const char *what;
    size_t size, code, length, counted;
};

static const struct header FIRST_HEADER = {"the first header", FIRST, FIRST_CODE, FIRST_LENGTH, 0};
static const struct header LINUX_HEADER = {"the Linux header", LINUX, LINUX_CODE, LINUX_LENGTH, LINUX};
static const struct header *const HEADERS[2] = {&FIRST_HEADER, &LINUX_HEADER};

/* A sound request, with so many bytes more behind its structure: where the body is. */
static inline uint8_t *ask_under(const struct header *h, const struct asked *a, size_t more)
{
    ask(a, more);
    if (h == &FIRST_HEADER) {
        memset(lent.buffer, 0, sizeof lent.buffer);
        lent.buffer_len = put_first(a, more, lent.buffer);
    }
    return lent.buffer + h->size;
}

/* The call on what stands in the buffer. */
static inline uint32_t handled_under(const struct header *h)
{
    if (h == &LINUX_HEADER)
        return handled();
    before = lent;
    return ascheknopf_request(lent.state, lent.state_len, lent.medium, lent.medium_len, lent.stage, lent.stage_len,
                              lent.buffer, lent.buffer_len);
}

/* The call's number is this one, and nothing is touched. */
static inline int number_under(const struct header *h, uint32_t number)
{
    return handled_under(h) == number && untouched();
}

/* The call's number is 0 and the return code is this one, and its four bytes are all that changed. */
static inline int code_under(const struct header *h, uint32_t code)
{
    uint32_t number = handled_under(h);
    int right = number == 0 && word(lent.buffer + h->code) == code;
    memcpy(lent.buffer + h->code, before.buffer + h->code, 4);
    return right && untouched();
}

/* The same with 0, and these bytes at the body's begin. */
static inline int shown_under(const struct header *h, const uint8_t *body, size_t size)
{
    int right = handled_under(h) == 0 && word(lent.buffer + h->code) == 0 && memcmp(lent.buffer + h->size, body, size) == 0;
    memcpy(lent.buffer + h->code, before.buffer + h->code, 4);
    memcpy(lent.buffer + h->size, before.buffer + h->size, size);
    return right && untouched();
}

/* The same test under both headers and at every level; the two are the vector. */
static inline uint32_t vector_of(const struct header *h, int level)
{
    return (uint32_t)level + (h == &LINUX_HEADER ? 0x10 : 0);
}

#endif
