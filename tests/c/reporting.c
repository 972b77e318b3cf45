/* W-204's one statement: codes 1, 2, 3, 20, 22, 26, 27, 28 and 30 alter neither the state nor the medium nor the stage, refused or granted,
   under either header and at every level, but for the four counters of the phy that a granted code 22 with reset byte 1 names. Runs in the
   repository's root. */
#define PROGRAM "reporting.c"
#include "headers.h"

enum { CODES = 9, ALTERED = 20000 };

static const uint8_t REPORTING[CODES] = {1, 2, 3, 20, 22, 26, 27, 28, 30};

/* How often each code was granted under each header, and how often counters were cleared. */
static uint32_t grants[2][CODES], resets[2];

static int place_of(uint8_t code)
{
    int place = 0;
    while (place < CODES && REPORTING[place] != code)
        place++;
    return place;
}

/* Sends what stands in the buffer: state, medium and stage are as before, but for what a granted reset clears. */
static int leaves(const struct header *h, uint8_t code)
{
    const int linux_too = h == &LINUX_HEADER;
    uint32_t number = handled_under(h);
    const uint8_t *body = before.buffer + h->size;
    const int granted = number == 0 && word(lent.buffer + h->code) == 0;
    grants[linux_too][place_of(code)] += (uint32_t)granted;
    if (granted && code == 22 && body[1] == 1) {
        resets[linux_too]++;
        memset(before.state + ASCHEKNOPF_PHY(body[0]) + ASCHEKNOPF_PHY_COUNTERS, 0, 16);
    }
    return state_stays() && store_stays();
}

/* No counter of the phys is 0, and no sector is empty. */
static void fill(void)
{
    memset(lent.medium, 0x3C, sizeof lent.medium);
    for (size_t n = 0; n < PHYS; n++)
        memset(lent.state + ASCHEKNOPF_PHY(n) + ASCHEKNOPF_PHY_COUNTERS, (int)n + 1, 16);
}

static void table(const struct asked *asked, int count, int level)
{
    for (int i = 0; i < 2 * count; i++) {
        const struct header *h = HEADERS[i % 2];
        const struct asked *a = &asked[i / 2];
        if (place_of(a->control) == CODES)
            continue;
        fill();
        ask_under(h, a, 0);
        check_asked("nothing is written", a, vector_of(h, level), leaves(h, a->control));
    }
}

static uint32_t drawn(void)
{
    static uint32_t seed = 204;
    seed = seed * 1664525 + 1013904223;
    return seed >> 8;
}

/* A request of one of the codes with some bytes of its header, body or lengths altered, but not its control code. */
static uint8_t ask_altered(const struct header *h)
{
    const uint8_t values[12] = {0, 1, 2, 3, 4, 8, 20, 28, 30, 0x40, 0x80, 0xFF};
    const struct asked *a;
    do
        a = &GRANTED[drawn() % GRANTS];
    while (place_of(a->control) == CODES);
    ask_under(h, a, drawn() % (MORE + 1));
    for (uint32_t n = drawn() % 4; n > 0; n--)
        lent.buffer[drawn() % 4 ? h->size + drawn() % 20 : drawn() % h->size] = values[drawn() % 12];
    if (h == &FIRST_HEADER)
        put_word(lent.buffer + FIRST_CONTROL, a->control);
    if (drawn() % 16 == 0)
        lent.buffer_len = drawn() % lent.buffer_len;
    return a->control;
}

static void altered(const struct header *h, int level)
{
    int right = 1;
    for (int i = 0; i < ALTERED; i++) {
        if (i % 16 == 0)
            fill();
        right = leaves(h, ask_altered(h)) && right;
    }
    check_at("altered requests", vector_of(h, level), right);
}

int main(void)
{
    for (int level = 0; level < 4; level++) {
        open_sample("good", level);
        table(GRANTED, GRANTS, level);
        altered(&FIRST_HEADER, level);
        altered(&LINUX_HEADER, level);
        open_sample("refusals", level);
        table(REFUSED, REFUSALS, level);
    }
    for (int i = 0; i < 2 * CODES; i++)
        check_at("granted at times", REPORTING[i / 2], grants[i % 2][i / 2] > 100);
    check("resets under both headers", resets[0] > 100 && resets[1] > 100);
    return finish();
}
