/* Code 4, firmware download, refused: damaged images, lengths, and a Length that is too short. Nothing but the return code is touched, and
   what was staged stays staged, under both headers and at every level. What is expected was written down from W-207, document 01 and 6.4.
   Runs in the repository's root. */
#define PROGRAM "firmware_refused.c"
#include "firmware.h"

/* What is staged before each refusal, in two blocks; and the same adapter to begin again from. */
static uint8_t staged[REVISIONS];
static struct lent with_image;

static void stage_one(int level)
{
    open_sample("good", level);
    make_image(5);
    memcpy(staged, image, REVISIONS);
    check_at("an image before", (uint32_t)level, validates(&LINUX_HEADER, 2));
    with_image = lent;
    make_image(6);
}

/* The number of the refusal by the code's own checks, or that the level is too low. */
static uint32_t own(const struct header *h, int level, uint32_t code)
{
    return may(h, level) ? code : 4;
}

/* Each block damaged once, in its data and in its check. */
static void damaged(const struct header *h, int level, size_t blocks)
{
    for (size_t k = 0; k < blocks; k++) {
        const size_t places[4] = {0, (k * 37 + 9) % IMAGE_CHECK, IMAGE_CHECK - 1, IMAGE_CHECK + k % 4};
        for (int i = 0; i < 4; i++) {
            uint8_t *byte = image + k * IMAGE_BLOCK + places[i], was = *byte;
            *byte ^= (uint8_t)(1u << k % 8);
            check_at("a damaged block", (uint32_t)(blocks << 16 | k << 8 | (size_t)i), is_refused(h, blocks, own(h, level, 1)));
            *byte = was;
        }
    }
}

/* Every byte of an image of one block. */
static void every_byte(const struct header *h, int level)
{
    for (uint32_t at = 0; at < IMAGE_BLOCK; at++) {
        image[at] ^= 0x80;
        check_at("a damaged byte", at, is_refused(h, 1, own(h, level, 1)));
        image[at] ^= 0x80;
    }
}

/* Numbered from 1, not at all, and two blocks in the other order. */
static void numbers(const struct header *h, int level, size_t blocks)
{
    uint8_t first[IMAGE_BLOCK];
    seal_image(1);
    check_at("numbered from 1", (uint32_t)blocks, is_refused(h, blocks, own(h, level, 1)));
    seal_image(0xFFFFFFFF);
    check_at("numbered from -1", (uint32_t)blocks, is_refused(h, blocks, own(h, level, 1)));
    if (blocks > 1) {
        for (size_t k = 0; k < blocks; k++)
            put_word(image + k * IMAGE_BLOCK + IMAGE_CHECK, block_check(image + k * IMAGE_BLOCK, 0));
        check_at("not numbered", (uint32_t)blocks, is_refused(h, blocks, own(h, level, 1)));
        seal_image(0);
        memcpy(first, image, IMAGE_BLOCK);
        memcpy(image, image + IMAGE_BLOCK, IMAGE_BLOCK);
        memcpy(image + IMAGE_BLOCK, first, IMAGE_BLOCK);
        check_at("in another order", (uint32_t)blocks, is_refused(h, blocks, own(h, level, 1)));
    }
    make_image(6);
}

/* A length with the flag and without, in a buffer of 33 blocks with good checks: granted with 1 to 32 blocks alone. */
static void length_is(const struct header *h, int level, uint32_t length)
{
    const int good = length % IMAGE_BLOCK == 0 && length >= IMAGE_BLOCK && length <= MOST_BLOCKS * IMAGE_BLOCK;
    lent = with_image;
    ask_download(h, VALIDATE_FLAG, length, sizeof image);
    check_at("a length to validate", length, good && may(h, level) ? stages(h, length / IMAGE_BLOCK) : code_under(h, own(h, level, 3)));
    lent = with_image;
    ask_download(h, 0, length, sizeof image);
    check_at("a length to commit", length, length == 0 && may(h, level) ? makes_current(h, staged) : code_under(h, own(h, level, 3)));
    lent = sound;
    ask_download(h, 0, length, sizeof image);
    check_at("a length to commit, nothing staged", length, code_under(h, own(h, level, length == 0 ? 1 : 3)));
}

static void lengths(const struct header *h, int level)
{
    const uint32_t others[9] = {1, 44, 511, 513, 1023, 16383, 16385, 16895, 508};
    for (uint32_t blocks = 0; blocks <= TOO_MANY; blocks++)
        length_is(h, level, blocks * IMAGE_BLOCK);
    for (int i = 0; i < 9; i++)
        length_is(h, level, others[i]);
}

/* One of 33 blocks in a buffer of its own size: the stage has no room for it, and stays. */
static void too_many(const struct header *h, int level)
{
    lent = with_image;
    check_at("33 blocks", vector_of(h, level), is_refused(h, TOO_MANY, own(h, level, 3)));
    image[TOO_MANY * IMAGE_BLOCK - 1] ^= 1;
    check_at("33 blocks, a wrong check", vector_of(h, level), is_refused(h, TOO_MANY, own(h, level, 3)));
    make_image(6);
}

/* Length, or the buffer, or both one byte too short: 3 before the level, whatever flags and length. */
static void one_short(const struct header *h, int level, uint32_t flags, uint32_t length)
{
    const uint32_t vector = length << 8 | flags << 6 | vector_of(h, level), counts = (uint32_t)(h->counted + STRUCTURE) + length;
    lent = with_image;
    ask_download(h, flags, length, length + MORE);
    put_word(lent.buffer + h->length, counts - 1);
    check_at("Length one short", vector, code_under(h, 3));
    ask_download(h, flags, length, length);
    lent.buffer_len--;
    check_at("a buffer one short", vector, code_under(h, 3));
    put_word(lent.buffer + h->length, counts - 1);
    check_at("both one short", vector, code_under(h, 3));
}

static void short_ones(const struct header *h, int level)
{
    const uint32_t all_lengths[7] = {0, 1, 512, 513, 1024, 16384, 16385};
    for (uint32_t flags = 0; flags < 4; flags++)
        for (int i = 0; i < 7; i++)
            one_short(h, level, flags, all_lengths[i]);
    for (uint32_t there = 0; there < STRUCTURE; there++) {
        lent = with_image;
        ask_download(h, 0, 0, 0);
        put_word(lent.buffer + h->length, (uint32_t)h->counted + there);
        int right = code_under(h, 3);
        lent.buffer_len = h->size + there;
        check_at("part of the structure", there, right && code_under(h, 3));
    }
}

/* Lengths whose sum with the structure and the header wraps around, or ends in a good one. */
static void large(const struct header *h, int level)
{
    const uint32_t sizes[12] = {0xFFFFFFFF, 0x80000000, 0x10200, 0x1000200, 0x80000200, 0u - 28, 0u - 20, 0u - 44, 0u - 43, 0u - 64,
                                0u - 72, 0u - 512};
    for (int i = 0; i < 24; i++) {
        lent = with_image;
        ask_download(h, (uint32_t)i % 2, sizes[i / 2], IMAGE_BLOCK);
        int right = code_under(h, 3);
        put_word(lent.buffer + h->length, 0xFFFFFFFF);
        check_at("a large length", sizes[i / 2], right && code_under(h, 3) && level == lent.state[ASCHEKNOPF_LEVEL]);
    }
}

/* Other signatures are 2 and a wrong Direction or HeaderLength 3, at every level. */
static void headers(int level)
{
    const char *others[3] = {"CSMISAS", "CSMIPHY", "CSMIALl"};
    lent = with_image;
    for (int i = 0; i < 3; i++) {
        ask_download(&FIRST_HEADER, VALIDATE_FLAG, IMAGE_BLOCK, IMAGE_BLOCK);
        memcpy(lent.buffer + 4, others[i], 8);
        check_at(others[i], (uint32_t)level, code_under(&FIRST_HEADER, 2));
    }
    ask_download(&FIRST_HEADER, VALIDATE_FLAG, IMAGE_BLOCK, IMAGE_BLOCK)[-FIRST]++;
    check_at("HeaderLength", (uint32_t)level, code_under(&FIRST_HEADER, 3));
    ask_download(&LINUX_HEADER, VALIDATE_FLAG, IMAGE_BLOCK, IMAGE_BLOCK)[LINUX_DIRECTION - LINUX] = 2;
    check_at("Direction", (uint32_t)level, code_under(&LINUX_HEADER, 3));
    ask_download(&LINUX_HEADER, VALIDATE_FLAG, IMAGE_BLOCK, IMAGE_BLOCK);
    control = 0xCC770004;
    check_at("the number of an ioctl", (uint32_t)level, code_under(&LINUX_HEADER, 2));
}

/* After all that was refused the image before is the one that is committed, and once. */
static void kept(const struct header *h, int level)
{
    lent = with_image;
    const size_t blocks[3] = {1, 2, MOST_BLOCKS};
    for (int i = 0; i < 3; i++) {
        damaged(h, level, blocks[i]);
        numbers(h, level, blocks[i]);
    }
    every_byte(h, level);
    check_at("what was staged", vector_of(h, level), may(h, level) ? commits(h, staged) && shows(staged) && commit_is_refused(h, 1)
                                                                   : commit_is_refused(h, 4));
}

int main(void)
{
    for (int level = 0; level < 4; level++) {
        stage_one(level);
        for (int i = 0; i < 2; i++) {
            kept(HEADERS[i], level);
            lengths(HEADERS[i], level);
            too_many(HEADERS[i], level);
            short_ones(HEADERS[i], level);
            large(HEADERS[i], level);
        }
        headers(level);
    }
    return finish();
}
