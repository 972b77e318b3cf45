/* Images of firmware, as code 4 has them: blocks of 512 bytes, each with its check, and four revisions at the start. For the programs that
   validate them. */
#ifndef IMAGE_H
#define IMAGE_H

#include "asked.h"

enum { IMAGE_BLOCK = 512, IMAGE_CHECK = 508, MOST_BLOCKS = 32, TOO_MANY = 33, REVISIONS = 8, STRUCTURE = 44 };

/* Where a body of code 4 has its length and its flags, and status and severity, which are answered, by 6.4.4.1. */
enum { LENGTH_AT = 0, FLAGS_AT = 4, ANSWER_AT = 40, ANSWER = 4, VALIDATE_FLAG = 1 };

/* The image that is asked with; there is room for one block too many. */
static uint8_t image[TOO_MANY * IMAGE_BLOCK];

/* Makes the check of each block good, numbered from this number on. */
static inline void seal_image(uint32_t first)
{
    for (uint32_t k = 0; k < TOO_MANY; k++) {
        uint8_t *block = image + k * IMAGE_BLOCK;
        put_word(block + IMAGE_CHECK, block_check(block, first + k));
    }
}

/* The image of a mark from 0 to 15: no two of its blocks are the same, and no two bytes of its revisions, which no other mark has. */
static inline void make_image(uint8_t mark)
{
    uint32_t seed = mark;
    for (size_t i = 0; i < sizeof image; i++) {
        seed = seed * 1664525 + 1013904223;
        image[i] = i < REVISIONS ? (uint8_t)(0x10 * (i + 1) + mark) : (uint8_t)(seed >> 24);
    }
    seal_image(0);
}

/* A body of code 4: reserved bytes, status and severity are FILL, and the image stands behind, in so many bytes. */
static inline void put_download(uint8_t *body, uint32_t flags, uint32_t length, size_t there)
{
    memset(body, FILL, STRUCTURE);
    put_word(body + LENGTH_AT, length);
    put_word(body + FLAGS_AT, flags);
    memcpy(body + STRUCTURE, image, there);
}

#endif
