/* Code 22 with every reset byte at every level, under both headers: which requests are denied, and what becomes of the counters. What is
   expected was written down from W-201, W-202, document 01 and the description of samples/good. Runs in the repository's root. */
#define PROGRAM "link_errors.c"
#include "headers.h"

/* Where phy 0 has its counters in the state, and a body the reported ones. */
enum { HELD = ASCHEKNOPF_PHY(0) + ASCHEKNOPF_PHY_COUNTERS, SHOWN = 4, COUNTERS = 16 };

static const uint8_t STANDING[COUNTERS] = {[0] = 3, [8] = 1}, CLEARED[COUNTERS] = {0};

/* Under the first header at None, Restricted, Limited and Full: for reset byte 0, 1 and any other, of a phy that is there and of one that
   is not. Under the Linux header it is the last at every level. */
static const uint32_t CODES[3][2][4] = {
    {{4, 0, 0, 0}, {4, 2002, 2002, 2002}},
    {{4, 4, 4, 0}, {4, 4, 4, 2002}},
    {{4, 3, 3, 3}, {4, 3, 3, 3}},
};

/* The return code is this one. With 0 the counters that the phy had are shown, and cleared by reset byte 1; else all bytes stay. */
static int answered_with(const struct header *h, uint8_t phy, uint8_t reset, uint32_t code)
{
    struct asked a = GRANTED[LINK_ERRORS];
    a.begin[0] = phy, a.begin[1] = reset;
    ask_under(h, &a, 0);
    uint32_t number = handled_under(h);
    struct lent expected = before;
    put_word(expected.buffer + h->code, code);
    if (code == 0)
        memcpy(expected.buffer + h->size + SHOWN, before.state + HELD, COUNTERS);
    if (code == 0 && reset == 1)
        memset(expected.state + HELD, 0, COUNTERS);
    return number == 0 && memcmp(&lent, &expected, sizeof lent) == 0;
}

/* Phy 0 is asked again, without a reset and under the Linux header, which no level denies: these are its counters. */
static int counters_are(const uint8_t *counters)
{
    return answered_with(&LINUX_HEADER, 0, 0, 0) && memcmp(lent.buffer + LINUX + SHOWN, counters, COUNTERS) == 0;
}

static void reset_bytes(const struct header *h, int level, uint8_t phy)
{
    char name[64];
    snprintf(name, sizeof name, "%s at level %d, phy %d, reset byte", h->what, level, phy);
    for (uint32_t reset = 0; reset < 256; reset++) {
        const uint32_t *codes = CODES[reset < 2 ? reset : 2][phy >= PHYS];
        const uint32_t code = codes[h == &LINUX_HEADER ? 3 : level];
        lent = sound;
        int right = answered_with(h, phy, (uint8_t)reset, code);
        check_at(name, reset, right && counters_are(code == 0 && reset == 1 ? CLEARED : STANDING));
    }
}

int main(void)
{
    for (int level = 0; level < 4; level++) {
        open_sample("good", level);
        reset_bytes(&FIRST_HEADER, level, 0);
        reset_bytes(&FIRST_HEADER, level, PHYS);
        reset_bytes(&LINUX_HEADER, level, 0);
        reset_bytes(&LINUX_HEADER, level, PHYS);
    }
    return finish();
}
