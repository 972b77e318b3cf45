/* What the test programs share: a count of what holds, little-endian numbers, the check of a block, and the samples' files. */
#ifndef CHECK_H
#define CHECK_H

#include <stdint.h>
#include <stdio.h>
#include <string.h>

static int passed, failed;

static inline void check(const char *what, int holds)
{
    if (holds)
        passed++;
    else
        printf("FAIL " PROGRAM ": %s\n", what), failed++;
}

/* The same of one vector of many. */
static inline void check_at(const char *what, uint32_t vector, int holds)
{
    char name[96];
    snprintf(name, sizeof name, "%s, %lX", what, (unsigned long)vector);
    check(name, holds);
}

/* The last line, and the program's status. */
static inline int finish(void)
{
    printf("%d passed, %d failed\n", passed, failed);
    return failed > 0;
}

static inline uint32_t word(const uint8_t *at)
{
    return at[0] | (uint32_t)at[1] << 8 | (uint32_t)at[2] << 16 | (uint32_t)at[3] << 24;
}

static inline void put_word(uint8_t *at, uint32_t number)
{
    for (int i = 0; i < 4; i++)
        at[i] = number >> 8 * i & 0xFF;
}

/* The check of a block of 512 bytes with this number. */
static inline uint32_t block_check(const uint8_t *block, uint32_t number)
{
    uint32_t sum = number + 1;
    for (size_t at = 0; at < 508; at += 4)
        sum += word(block + at);
    return sum;
}

static inline int all(const uint8_t *at, size_t length, uint8_t value)
{
    while (length > 0 && at[length - 1] == value)
        length--;
    return length == 0;
}

static inline size_t read_file(const char *sample, const char *name, uint8_t *bytes, size_t room)
{
    char path[64];
    snprintf(path, sizeof path, "samples/%s/%s", sample, name);
    FILE *file = fopen(path, "rb");
    size_t length = file ? fread(bytes, 1, room, file) : 0;
    if (file)
        fclose(file);
    check(path, length > 0);
    return length;
}

#endif
