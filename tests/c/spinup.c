/* Disks held at spin-up: that none is reached, what a granted code 21 makes of them, and what is shown of them, under both headers. What is
   expected was written down from W-205, document 01 and the description of samples/good. Runs in the repository's root. */
#define PROGRAM "spinup.c"
#include "spinup.h"

/* The disk is of the higher rate, so that the lower one alone does not reach it. */
static void high_disk(uint8_t *phy)
{
    phy[ASCHEKNOPF_PHY_LOWEST] = HIGH;
}

static void disabled(uint8_t *phy)
{
    phy[NEGOTIATED] = DISABLED;
}

static void failed_one(uint8_t *phy)
{
    high_disk(phy);
    phy[MAXIMUM] = 0x89, phy[NEGOTIATED] = FAILED;
}

static void worn_out(uint8_t *phy)
{
    failed_one(phy);
    memset(phy + ASCHEKNOPF_PHY_COUNTERS, 0xFF, 16);
}

/* Every command, by phy, by port and by both, at each connection rate. */
static void unreached(const struct header *h)
{
    const uint8_t selections[3][2] = {{0, 0xFF}, {0xFF, 0}, {0, 0}}, rates[3] = {0, LOW, HIGH};
    for (uint32_t ata = 0; ata < 256; ata++) {
        int right = 1;
        for (int i = 0; i < 9; i++) {
            struct asked a = GRANTED[READ];
            a.begin[0] = selections[i / 3][0], a.begin[1] = selections[i / 3][1], a.begin[2] = rates[i % 3], a.begin[18] = (uint8_t)ata;
            lent = sound;
            right = right && gets_code(h, &a, 2008);
        }
        check_at(h->what, ata, right);
    }
}

/* Which rates code 21 asks for, and which it leaves to a disk of both rates that is held at spin-up. */
static const struct { uint8_t minimum, maximum, left[3]; } RANGES[] = {
    {0, 0, {9, 0x88, 0x99}}, {8, 9, {9, 0x88, 0x99}}, {0, 9, {9, 0x88, 0x99}}, {8, 0, {9, 0x88, 0x99}}, {9, 0, {9, 0x98, 0x99}},
    {9, 9, {9, 0x98, 0x99}}, {0, 8, {8, 0x88, 0x89}}, {8, 8, {8, 0x88, 0x89}},
};

/* Read, released, read. The hold of the second disk stays. */
static void released(const struct header *h)
{
    for (uint32_t i = 0; i < sizeof RANGES / sizeof RANGES[0]; i++) {
        const struct asked a = set(0, RANGES[i].minimum, RANGES[i].maximum, (uint8_t)(i % 4));
        lent = sound;
        check_at("spin-up hold", i, not_connected(h));
        check_at("released", i, sets(h, &a, RANGES[i].left, 0));
        check_at("reached", i, reads(h) && in_state(1)[HOLD] == 1 && in_state(1)[NEGOTIATED] == SATA_SPINUP_HOLD);
        check_at("released twice", i, sets(h, &a, RANGES[i].left, 0) && reads(h));
    }
}

/* Disabled while it has its hold, whatever the rates, and enabled again: the hold is gone. */
static void disabled_at_hold(const struct header *h)
{
    for (uint32_t i = 0; i < sizeof RANGES / sizeof RANGES[0]; i++) {
        const struct asked off = set(1, RANGES[i].minimum, RANGES[i].maximum, 3), on = set(0, 0, 0, 3);
        uint8_t left[3];
        memcpy(left, RANGES[i].left, 3);
        left[0] = DISABLED;
        lent = sound;
        check_at("disabled", i, sets(h, &off, left, 0) && not_connected(h));
        check_at("enabled again", i, sets(h, &on, RANGES[i].left, 0) && reads(h));
    }
}

/* A link reset that fails: it clears the hold, and counts one; so do those that follow, which have no hold to clear. */
static void fails(const struct header *h)
{
    const struct asked low = set(0, 0, 8, 1), high = set(0, 0, 9, 1);
    const uint8_t left[3] = {FAILED, 0x88, 0x89}, up[3] = {HIGH, 0x88, 0x99};
    open_with_holds(3, high_disk);
    check("failed at release", sets(h, &low, left, 1) && not_connected(h));
    check("failed again", sets(h, &low, left, 1) && word(in_state(0) + PROBLEM) == 2);
    check("up at last", sets(h, &high, up, 0) && reads(h));
}

/* A phy that is disabled or failed besides its hold. */
static void down_at_hold(const struct header *h)
{
    const struct asked on = set(0, 0, 0, 2), off = set(1, 0, 0, 2), high = set(0, 0, 9, 2);
    const uint8_t left[3] = {FAILED, 0x88, 0x89}, still[3] = {DISABLED, 0x88, 0x89}, up[3] = {HIGH, 0x88, 0x99};
    const uint8_t was[3] = {DISABLED, 0x88, 0x99};
    open_with_holds(3, disabled);
    check("disabled, with a hold", not_connected(h) && sets(h, &off, was, 0) && sets(h, &on, up, 0) && reads(h));
    lent = sound;
    check("disabled, with a hold, enabled", sets(h, &on, up, 0) && reads(h));
    open_with_holds(3, failed_one);
    check("failed, with a hold", not_connected(h) && sets(h, &on, left, 1));
    lent = sound;
    check("failed, with a hold, disabled", sets(h, &off, still, 0));
    lent = sound;
    check("failed, with a hold, at its rate", sets(h, &high, up, 0) && reads(h));
    open_with_holds(3, worn_out);
    check("the counter at its end", sets(h, &on, left, 0));
}

/* Code 20 shows the rate 3 of both disks, and the file's bytes of all; after a release what code 21 left. */
static void shown(const struct header *h)
{
    const struct asked on = set(0, 0, 0, 0);
    uint8_t body[2052] = {PHYS};
    lent = sound;
    for (size_t n = 0; n < PHYS; n++)
        memcpy(body + 4 + n * ENTITY, in_file(n), ENTITY);
    ask_under(h, &GRANTED[PHY_INFO], 0);
    check("rate 3", body[4 + NEGOTIATED] == 3 && body[4 + ENTITY + NEGOTIATED] == 3 && shown_under(h, body, sizeof body));
    check("released", sets(h, &on, RANGES[0].left, 0));
    body[4 + NEGOTIATED] = HIGH;
    ask_under(h, &GRANTED[PHY_INFO], 0);
    check("rate 9 and rate 3", shown_under(h, body, sizeof body));
}

/* Codes 22 and 26 answer on a phy with a hold: its counters, which a reset clears and nothing else, and its signature. */
static void answers(const struct header *h)
{
    uint8_t errors[20] = {0}, signature_of[24] = {0};
    memcpy(errors + 4, sound.file + BLOCK + ASCHEKNOPF_PHY_COUNTERS, 16);
    memcpy(signature_of + 4, sound.file + BLOCK + ASCHEKNOPF_PHY_SIGNATURE, ASCHEKNOPF_PHY_SIGNATURE_SIZE);
    lent = sound;
    memset(ask_under(h, &GRANTED[LINK_ERRORS], 0), 0, 4);
    check("link errors", shown_under(h, errors, sizeof errors));
    memset(ask_under(h, &GRANTED[SIGNATURE], 0), 0, 4);
    check("the signature", shown_under(h, signature_of, sizeof signature_of));
    ask_under(h, &GRANTED[CLEAR], 0);
    uint32_t number = handled_under(h);
    memset(before.state + ASCHEKNOPF_PHY(0) + ASCHEKNOPF_PHY_COUNTERS, 0, 16);
    check("counters cleared", number == 0 && word(lent.buffer + h->code) == 0 && state_stays() && store_stays() && not_connected(h));
}

int main(void)
{
    for (int i = 0; i < 2; i++) {
        const struct header *h = HEADERS[i];
        open_with_holds(3, as_it_is);
        unreached(h);
        released(h);
        disabled_at_hold(h);
        shown(h);
        answers(h);
        fails(h);
        down_at_hold(h);
    }
    return finish();
}
