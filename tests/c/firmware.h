/* One code 4 under either header, for the programs that test firmware, W-207: what a validation and a commit leave, byte by byte. */
#ifndef FIRMWARE_H
#define FIRMWARE_H

#include "headers.h"
#include "image.h"

enum { RUNNING = ASCHEKNOPF_CONTROLLER + ASCHEKNOPF_CONTROLLER_FIRMWARE, FLAG = ASCHEKNOPF_STAGED, STAGED = ASCHEKNOPF_STAGED_REVISIONS };

/* A request with these flags and this uBufferLength, and so many bytes of the image, which Length counts: where the body is. */
static inline uint8_t *ask_download(const struct header *h, uint32_t flags, uint32_t length, size_t there)
{
    struct asked a = {"firmware", DOWNLOAD, 2, (uint16_t)(STRUCTURE + there), 1, {0}};
    uint8_t *body = ask_under(h, &a, 0);
    put_download(body, flags, length, there);
    return body;
}

/* What stands in the buffer is granted, and these are all bytes that are left. */
static inline int leaves_all(const struct header *h, struct lent *expected)
{
    put_word(expected->buffer + h->code, 0);
    memset(expected->buffer + h->size + ANSWER_AT, 0, ANSWER);
    return memcmp(&lent, expected, sizeof lent) == 0;
}

/* It stages an image of so many blocks: this at the start of the stage, the rest of which stays, and its revisions in the state. */
static inline int stages(const struct header *h, size_t blocks)
{
    uint32_t number = handled_under(h);
    struct lent expected = before;
    memcpy(expected.stage, image, blocks * IMAGE_BLOCK);
    expected.state[FLAG] = 1;
    memcpy(expected.state + STAGED, image, REVISIONS);
    return number == 0 && leaves_all(h, &expected);
}

/* It makes the staged revisions those of the running firmware, and nothing is staged. */
static inline int makes_current(const struct header *h, const uint8_t *revisions)
{
    uint32_t number = handled_under(h);
    struct lent expected = before;
    memcpy(expected.state + RUNNING, revisions, REVISIONS);
    memset(expected.state + FLAG, 0, 1 + REVISIONS);
    return number == 0 && leaves_all(h, &expected);
}

/* The image in so many blocks is validated. */
static inline int validates(const struct header *h, size_t blocks)
{
    ask_download(h, VALIDATE_FLAG, (uint32_t)(blocks * IMAGE_BLOCK), blocks * IMAGE_BLOCK);
    return stages(h, blocks);
}

/* The same gets this return code, and nothing else is touched: status, severity, the stage and what was staged are as they were. */
static inline int is_refused(const struct header *h, size_t blocks, uint32_t code)
{
    ask_download(h, VALIDATE_FLAG, (uint32_t)(blocks * IMAGE_BLOCK), blocks * IMAGE_BLOCK);
    return code_under(h, code);
}

static inline int commits(const struct header *h, const uint8_t *revisions)
{
    ask_download(h, 0, 0, 0);
    return makes_current(h, revisions);
}

static inline int commit_is_refused(const struct header *h, uint32_t code)
{
    ask_download(h, 0, 0, 0);
    return code_under(h, code);
}

/* Code 2, under the Linux header, which no level denies, shows these revisions, and the rest as the file has it. */
static inline int shows(const uint8_t *revisions)
{
    uint8_t body[ASCHEKNOPF_CONTROLLER_SIZE];
    memcpy(body, sound.state + ASCHEKNOPF_CONTROLLER, sizeof body);
    memcpy(body + ASCHEKNOPF_CONTROLLER_FIRMWARE, revisions, REVISIONS);
    ask_under(&LINUX_HEADER, &GRANTED[CONTROLLER], 0);
    return shown_under(&LINUX_HEADER, body, sizeof body);
}

/* The level lets code 4 pass under this header. */
static inline int may(const struct header *h, int level)
{
    return h == &LINUX_HEADER || level >= 2;
}

#endif
