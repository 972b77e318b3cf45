/* The blocks of the controller and of the connectors in an adapter's file, and their tables in a state: what is free and carried, what has
   to be zero, the bits of a pinout, and the file's length. What is expected was written down from W-204 and document 01. Runs in the
   repository's root. */
#define PROGRAM "front_file.c"
#include "blocks.h"
#include "headers.h"

enum { PINOUTS = 0x000F0F03 };

/* The adapter as it is before it is opened. */
static struct lent whole;

/* A byte of the file altered, with the block's check left and then made good. */
static void byte_gives(const char *what, size_t at, uint8_t change, uint32_t number)
{
    lent = whole;
    lent.file[at] ^= change;
    int right = opens_with(103);
    seal();
    check_at(what, (uint32_t)at, right && opens_with(number));
}

/* Every byte of a block: those of its structures are free, and the others are zero. A pinout's bits come below. */
static void block_bytes(size_t block, size_t from, size_t end)
{
    const uint8_t changes[3] = {0x01, 0x80, 0xFF};
    for (size_t at = from; at < CHECK_AT; at++)
        for (int i = 0; i < 3; i++)
            byte_gives(at < end ? "a free byte" : "an unnamed byte", block * BLOCK + at, changes[i], at < end ? 0 : 104);
}

/* Every bit of a pinout alone, and with all that may be set. */
static void pinouts_in_the_file(size_t n)
{
    uint8_t *pinout = lent.file + (CONNECTOR_BLOCK + n) * BLOCK + ASCHEKNOPF_CONNECTOR_PINOUT;
    for (uint32_t bit = 0; bit < 32; bit++)
        for (uint32_t others = 0; others <= PINOUTS; others += PINOUTS) {
            lent = whole;
            put_word(pinout, others | 1u << bit);
            seal();
            check_at("a pinout bit in the file", 0x100 * (uint32_t)n + bit, opens_with((PINOUTS >> bit & 1) != 0 ? 0 : 104));
        }
}

/* A pinout is a field: later than the checks of blocks, earlier than rows that share an address and the medium. */
static void order(void)
{
    lent = whole;
    memcpy(lent.file + ROWS_BLOCK * BLOCK + 20, lent.file + ROWS_BLOCK * BLOCK, 16);
    seal();
    check("shared rows", opens_with(105));
    lent.medium_len--;
    lent.file[(CONNECTOR_BLOCK + 3) * BLOCK + 3] = 0x80;
    seal();
    check("a pinout before the rows", opens_with(104));
    lent.file[(CONNECTOR_BLOCK + 3) * BLOCK + CHECK_AT] ^= 1;
    check("a check before a pinout", opens_with(103));
    lent.file_len -= BLOCK;
    check("the length before a check", opens_with(102));
}

/* The blocks as the file had them before W-204, one less and one more. */
static void lengths(void)
{
    for (size_t blocks = 1; blocks <= BLOCKS + 1; blocks++) {
        lent = whole;
        lent.file_len = blocks * BLOCK;
        seal();
        check_at("blocks", (uint32_t)blocks, opens_with(blocks == BLOCKS ? 0 : 102));
    }
}

/* With 25 rows the file has 5,632 bytes, and with 26 one block more, which moves what stands behind. */
static void starred(uint8_t rows, size_t length)
{
    const size_t moved = (rows + 24) / 25 - 1;
    lent = whole;
    lent.file[1] = rows;
    memmove(lent.file + (CONTROLLER_BLOCK + moved) * BLOCK, whole.file + CONTROLLER_BLOCK * BLOCK, (1 + PHYS) * BLOCK);
    memset(lent.file + ROWS_BLOCK * BLOCK, 0, (1 + moved) * BLOCK);
    for (size_t i = 0; i < rows; i++) {
        uint8_t *row = lent.file + (ROWS_BLOCK + i / 25) * BLOCK + i % 25 * 20;
        row[7] = row[18] = (uint8_t)i;
    }
    lent.file_len = length;
    seal();
    check_at("the starred length", rows, opened(FULL) == 0 && lent.state[ASCHEKNOPF_ROW_COUNT] == rows
                                         && memcmp(lent.state + ASCHEKNOPF_CONTROLLER, whole.file + CONTROLLER_BLOCK * BLOCK,
                                                   CONTROLLER_END) == 0
                                         && memcmp(lent.state + ASCHEKNOPF_CONNECTOR(3), whole.file + (CONNECTOR_BLOCK + 3) * BLOCK,
                                                   ASCHEKNOPF_CONNECTOR_SIZE) == 0);
    lent.file_len -= BLOCK;
    check_at("a block less", rows, opens_with(102));
}

/* A request of each code, under a header, to the state that is lent: all get this number; with 0 they show the state as it is. */
static int answered_all(const struct header *h, uint32_t number)
{
    const int pages[3] = {CONTROLLER, STATUS, CONNECTORS};
    const size_t at[3] = {ASCHEKNOPF_CONTROLLER, ASCHEKNOPF_STATUS, ASCHEKNOPF_CONNECTOR(0)};
    int right = 1;
    for (int i = 0; i < 3; i++) {
        ask_under(h, &GRANTED[pages[i]], 0);
        right = right && (number != 0 ? number_under(h, number) : shown_under(h, lent.state + at[i], GRANTED[pages[i]].size));
    }
    return right;
}

static void state_gives(const char *what, uint32_t vector, uint32_t number)
{
    check_at(what, vector, answered_all(&FIRST_HEADER, number) && answered_all(&LINUX_HEADER, number));
}

/* Every byte of these tables: free below p, but for pinouts; zero from p on. */
static void state_bytes(void)
{
    const uint8_t changes[3] = {0x01, 0x80, 0xFF};
    for (size_t at = ASCHEKNOPF_CONTROLLER; at < ASCHEKNOPF_CONNECTOR(32); at++) {
        const int pinout = at >= ASCHEKNOPF_CONNECTOR(0) && (at - ASCHEKNOPF_CONNECTOR(0)) % ASCHEKNOPF_CONNECTOR_SIZE < 4;
        const int there = at < ASCHEKNOPF_CONNECTOR(PHYS);
        for (int i = 0; i < 3 && !(there && pinout); i++) {
            lent = sound;
            lent.state[at] ^= changes[i];
            state_gives(there ? "a free byte of a state" : "a byte past p", (uint32_t)at, there ? 0 : 107);
        }
    }
}

static void pinouts_in_a_state(size_t n)
{
    for (uint32_t bit = 0; bit < 32; bit++)
        for (uint32_t others = 0; others <= PINOUTS; others += PINOUTS) {
            lent = sound;
            put_word(lent.state + ASCHEKNOPF_CONNECTOR(n) + ASCHEKNOPF_CONNECTOR_PINOUT, others | 1u << bit);
            const int sound_bit = n < PHYS && (PINOUTS >> bit & 1) != 0;
            state_gives("a pinout bit in a state", 0x100 * (uint32_t)n + bit, sound_bit ? 0 : 107);
        }
}

/* As long as it was before W-204, before W-205 and before W-207, and as it ends behind each table. */
static void state_sizes(void)
{
    const size_t sizes[8] = {4785, 6149, 6181, 4817, 4993, 5029, ASCHEKNOPF_CONNECTOR(PHYS), ASCHEKNOPF_STATE_SIZE - 1};
    for (int i = 0; i < 8; i++) {
        lent = sound;
        lent.state_len = sizes[i];
        state_gives("a shorter state", (uint32_t)sizes[i], 107);
        check_at("an opening over a shorter state", (uint32_t)sizes[i], opened(FULL) == 107 && untouched());
    }
}

int main(void)
{
    start("good");
    check("the file's length", lent.file_len == BLOCKS * BLOCK);
    whole = lent;
    block_bytes(CONTROLLER_BLOCK, 0, CONTROLLER_END);
    for (size_t n = 0; n < PHYS; n++) {
        block_bytes(CONNECTOR_BLOCK + n, 4, ASCHEKNOPF_CONNECTOR_SIZE);
        pinouts_in_the_file(n);
    }
    order();
    lengths();
    starred(25, 5632);
    starred(26, 6144);

    open_sample("good", 1);
    state_bytes();
    for (size_t n = 0; n < 32; n++)
        pinouts_in_a_state(n);
    state_sizes();
    return finish();
}
