/* Code 21 refused to a disk that is held at spin-up: its hold stays, and every byte of the state, under both headers. What is expected was
   written down from W-205, document 01 and the description of samples/good. Runs in the repository's root. */
#define PROGRAM "spinup_refused.c"
#include "spinup.h"

static void fixed(uint8_t *phy)
{
    phy[ASCHEKNOPF_PHY_FIXED] = 1;
}

/* Its hardware has the lower rate alone, and the higher. */
static void low_hardware(uint8_t *phy)
{
    phy[MINIMUM] = phy[MAXIMUM] = 0x88;
}

static void high_hardware(uint8_t *phy)
{
    phy[MINIMUM] = phy[MAXIMUM] = 0x99;
}

/* Each code 21 that is refused, by its own checks and before, leaves every byte of the state. */
static void refused(const struct header *h)
{
    const struct { const char *what; uint32_t code; uint8_t body[5]; } own[] = {
        {"no such phy", 2002, {PHYS}}, {"no such phy, 255", 2002, {255}},
        {"negotiated byte 2", 3, {0, 2}}, {"negotiated byte 3", 3, {0, 3}}, {"negotiated byte 9", 3, {0, 9}},
        {"class 4", 3, {0, 0, 0, 0, 4}}, {"class 4, disabling", 3, {0, 1, 0, 0, 4}},
        {"minimum 7", 2001, {0, 0, 7}}, {"maximum 3", 2001, {0, 0, 0, 3}}, {"inverted", 2001, {0, 0, 9, 8}},
        {"inverted, disabling", 2001, {0, 1, 9, 8}},
    };
    for (size_t i = 0; i < sizeof own / sizeof own[0]; i++) {
        struct asked a = GRANTED[SET_PHY_INFO];
        memcpy(a.begin, own[i].body, sizeof own[i].body);
        lent = sound;
        check(own[i].what, gets_code(h, &a, own[i].code) && not_connected(h));
    }
}

/* By its header: too short by Length, by the buffer and by both; another signature, or Direction; and a wrong medium. */
static void refused_before(const struct header *h)
{
    const struct asked a = set(0, 0, 0, 0);
    for (size_t less = 1; less <= a.size; less++) {
        lent = sound;
        ask_under(h, &a, 0);
        put_word(lent.buffer + h->length, (uint32_t)(h->counted + a.size - less));
        int right = code_under(h, 3);
        lent.buffer_len -= less;
        right = right && code_under(h, 3);
        ask_under(h, &a, 0);
        lent.buffer_len -= less;
        check_at("short", (uint32_t)less, right && code_under(h, 3));
    }
    lent.buffer_len = h->size - 1;
    check("less than a header", number_under(h, 100));
    ask_under(h, &a, 0)[(h == &LINUX_HEADER ? LINUX_DIRECTION : 4) - (int)h->size] ^= 2;
    check("signature or Direction", code_under(h, h == &LINUX_HEADER ? 3 : 2));
    ask_under(h, &a, 0);
    lent.medium_len--;
    check("medium", number_under(h, 106));
}

/* Denied by the level under the first header, and granted under the other. */
static void levels(int level)
{
    const struct asked on = set(0, 0, 0, 0), off = set(1, 0, 0, 0), fault = set(2, 7, 7, 9);
    const uint8_t up[3] = {HIGH, 0x88, 0x99};
    open_with_holds(level, as_it_is);
    check_at("denied", (uint32_t)level, gets_code(&FIRST_HEADER, &on, 4) && gets_code(&FIRST_HEADER, &off, 4)
                                        && gets_code(&FIRST_HEADER, &fault, 4));
    check_at("the Linux header", (uint32_t)level, not_connected(&LINUX_HEADER) && sets(&LINUX_HEADER, &on, up, 0)
                                                  && reads(&LINUX_HEADER));
}

/* Fixed: no code 21 releases it. */
static void fixed_at_hold(const struct header *h)
{
    const struct asked on = set(0, 0, 0, 0), off = set(1, 0, 0, 0), fault = set(2, 7, 7, 9);
    open_with_holds(3, fixed);
    check("fixed, with a hold", gets_code(h, &on, 2000) && gets_code(h, &off, 2000) && gets_code(h, &fault, 2000) && not_connected(h));
}

/* The hardware's range: a refusal leaves the hold, and the one rate that it has releases it. */
static void hardware(const struct header *h)
{
    const struct asked low = set(0, 8, 8, 0), high = set(0, 9, 9, 0);
    const uint8_t at_low[3] = {LOW, 0x88, 0x88}, at_high[3] = {HIGH, 0x99, 0x99};
    open_with_holds(3, low_hardware);
    check("above the hardware", gets_code(h, &high, 2001) && not_connected(h) && sets(h, &low, at_low, 0) && reads(h));
    open_with_holds(3, high_hardware);
    check("below the hardware", gets_code(h, &low, 2001) && not_connected(h) && sets(h, &high, at_high, 0) && reads(h));
}

int main(void)
{
    for (int i = 0; i < 2; i++) {
        const struct header *h = HEADERS[i];
        open_with_holds(3, as_it_is);
        refused(h);
        refused_before(h);
        fixed_at_hold(h);
        hardware(h);
    }
    for (int level = 0; level < 3; level++)
        levels(level);
    return finish();
}
