/* Byte 104 of a phy, its hold at spin-up, in an adapter's file and in a state: on which phys it may be 1, with which negotiated rate, and
   that the bytes behind it have to be zero. What is expected was written down from W-205 and document 01. Runs in the repository's root. */
#define PROGRAM "spinup_file.c"
#include "phys.h"

/* What is attached; only a SATA phy may have the hold. */
static const struct device {
    const char *what;
    uint8_t type, protocols;
    int sata;
} DEVICES[] = {
    {"no device", 0x00, 0x00, 0},
    {"SAS device", 0x10, 0x08, 0},
    {"SAS device, every other protocol", 0x10, 0xFE, 0},
    {"edge expander", 0x20, 0x01, 0},
    {"fanout expander", 0x30, 0xFF, 0},
    {"SATA disk", 0x10, 0x01, 1},
    {"SATA disk, every protocol", 0x10, 0xFF, 1},
};

enum { NONE = 0, SATA = 5, ANY = sizeof DEVICES / sizeof DEVICES[0] };

/* A phy's rate bytes, a device's lowest and highest rate, and what the link rule gives with a device and no hold. */
static const struct rates {
    uint8_t minimum, maximum, lowest, highest, rule;
} RATES[] = {
    {0x88, 0x99, 8, 9, HIGH}, {0x88, 0x99, 9, 9, HIGH}, {0x98, 0x99, 8, 9, HIGH}, {0x99, 0x99, 8, 9, HIGH}, {0x88, 0x99, 8, 8, LOW},
    {0x88, 0x89, 8, 9, LOW}, {0x88, 0x88, 8, 9, LOW}, {0x88, 0x89, 9, 9, FAILED}, {0x98, 0x99, 8, 8, FAILED}, {0x99, 0x99, 8, 8, FAILED},
};

enum { RANGES = sizeof RATES / sizeof RATES[0] };

/* A device in a phy's bytes, which keep their identifiers and counters; it has no signature. */
static void attach(uint8_t *phy, const struct device *d, const struct rates *r)
{
    memset(phy + ATTACHED, 0, ENTITY - ATTACHED);
    memset(phy + ASCHEKNOPF_PHY_SIGNATURE, 0, HOLD + 1 - ASCHEKNOPF_PHY_SIGNATURE);
    phy[ATTACHED] = d->type, phy[PROTOCOLS] = d->protocols;
    phy[MINIMUM] = r->minimum, phy[MAXIMUM] = r->maximum;
    if (d != &DEVICES[NONE])
        phy[ASCHEKNOPF_PHY_LOWEST] = r->lowest, phy[ASCHEKNOPF_PHY_HIGHEST] = r->highest;
}

/* The rule of the byte, and that of the negotiated rate, which goes by it. */
static int may_be(const struct device *d, const struct rates *r, uint8_t hold, uint8_t negotiated)
{
    const uint8_t rule = d == &DEVICES[NONE] ? UNKNOWN : hold == 1 && r->rule != FAILED ? SATA_SPINUP_HOLD : r->rule;
    return (hold == 0 || (hold == 1 && d->sata)) && (negotiated == DISABLED || negotiated == rule);
}

/* Code 20 under both headers: 107 and nothing touched, or the phys as the state has them. */
static int state_answers(int sound_one)
{
    uint8_t body[2052] = {PHYS};
    int right = 1;
    for (size_t n = 0; n < PHYS; n++)
        memcpy(body + 4 + n * ENTITY, in_state(n), ENTITY);
    for (int i = 0; i < 2; i++) {
        ask_under(HEADERS[i], &GRANTED[PHY_INFO], 0);
        right = right && (sound_one ? shown_under(HEADERS[i], body, sizeof body) : number_under(HEADERS[i], 107));
    }
    return right;
}

/* Phy n so in the file, its block's check wrong and then made good, and so in the state of an adapter that was opened. */
static void phy_is(size_t n, const struct device *d, const struct rates *r, uint8_t hold, uint8_t negotiated)
{
    const int sound_one = may_be(d, r, hold, negotiated);
    const uint32_t vector = (uint32_t)n << 24 | (uint32_t)(r - RATES) << 16 | (uint32_t)hold << 8 | negotiated;
    char name[64];
    lent = sound;
    attach(in_file(n), d, r);
    in_file(n)[HOLD] = hold, in_file(n)[NEGOTIATED] = negotiated;
    seal();
    in_file(n)[CHECK_AT + 3] ^= 0x80;
    int right = opens_with(103);
    seal();
    snprintf(name, sizeof name, "in a file, %s", d->what);
    check_at(name, vector, right && opens_with(sound_one ? 0 : 104));

    attach(in_state(n), d, r);
    in_state(n)[HOLD] = hold, in_state(n)[NEGOTIATED] = negotiated;
    snprintf(name, sizeof name, "in a state, %s", d->what);
    check_at(name, vector, state_answers(sound_one));
}

/* Every device, with each rate that the rules tell from others. */
static void devices(size_t n)
{
    const uint8_t holds[5] = {0, 1, 2, 3, 255}, rates[7] = {UNKNOWN, DISABLED, FAILED, SATA_SPINUP_HOLD, 4, LOW, HIGH};
    for (int d = 0; d < ANY; d++)
        for (int r = 0; r < RANGES; r++)
            for (int i = 0; i < 5 * 7; i++)
                phy_is(n, &DEVICES[d], &RATES[r], holds[i / 7], rates[i % 7]);
}

/* Every negotiated rate of a SATA phy, with a hold and without, and every value of the byte. */
static void values(size_t n)
{
    for (int value = 0; value < 256; value++) {
        for (int r = 0; r < RANGES; r += 3) {
            phy_is(n, &DEVICES[SATA], &RATES[r], 0, (uint8_t)value);
            phy_is(n, &DEVICES[SATA], &RATES[r], 1, (uint8_t)value);
        }
        phy_is(n, &DEVICES[SATA], &RATES[0], (uint8_t)value, DISABLED);
        phy_is(n, &DEVICES[SATA], &RATES[0], (uint8_t)value, SATA_SPINUP_HOLD);
    }
}

/* A disk with a hold and a signature, on a phy that is fixed. */
static void fixed(size_t n)
{
    const uint8_t rates[3] = {DISABLED, SATA_SPINUP_HOLD, HIGH};
    for (int i = 0; i < 3; i++) {
        lent = sound;
        attach(in_file(n), &DEVICES[SATA], &RATES[0]);
        memset(in_file(n) + ASCHEKNOPF_PHY_SIGNATURE, 0x34, ASCHEKNOPF_PHY_SIGNATURE_SIZE);
        in_file(n)[ASCHEKNOPF_PHY_HELD] = in_file(n)[ASCHEKNOPF_PHY_FIXED] = in_file(n)[HOLD] = 1;
        in_file(n)[NEGOTIATED] = rates[i];
        seal();
        check_at("fixed, with a hold, in a file", rates[i], opens_with(rates[i] == HIGH ? 104 : 0));
        memcpy(in_state(n), in_file(n), ASCHEKNOPF_PHY_SIZE);
        check_at("fixed, with a hold, in a state", rates[i], state_answers(rates[i] != HIGH));
    }
}

/* The bytes behind it in a block, which no line names. */
static void unnamed(size_t n)
{
    const uint8_t values[3] = {0x01, 0x80, 0xFF};
    for (size_t i = 0; i < 3 * (CHECK_AT - HOLD - 1); i++) {
        lent = sound;
        in_file(n)[HOLD + 1 + i / 3] = values[i % 3];
        int right = opens_with(103);
        seal();
        check_at("an unnamed byte", (uint32_t)(n << 16 | (HOLD + 1 + i / 3)), right && opens_with(104));
    }
}

/* The phys from p on are zero. */
static void past(size_t n)
{
    for (int value = 1; value < 256; value += 127) {
        lent = sound;
        in_state(n)[HOLD] = (uint8_t)value;
        check_at("past p", (uint32_t)n, state_answers(0));
    }
}

/* It is a field: later than the checks of blocks, earlier than rows that share an address and the medium. */
static void order(void)
{
    lent = sound;
    memcpy(lent.file + ROWS_BLOCK * BLOCK + 20, lent.file + ROWS_BLOCK * BLOCK, 16);
    lent.medium_len--;
    seal();
    check("shared rows", opens_with(105));
    in_file(3)[HOLD] = 1;
    seal();
    check("a hold before the rows", opens_with(104));
    lent.file[(BLOCKS - 1) * BLOCK + CHECK_AT] ^= 1;
    check("a check before a hold", opens_with(103));
}

int main(void)
{
    open_sample("good", 3);
    check("the byte behind the highest rate", HOLD == 104 && HOLD == ASCHEKNOPF_PHY_HIGHEST + 1 && ASCHEKNOPF_PHY_SIZE == HOLD + 1);
    check("phy 1 and the rows", ASCHEKNOPF_PHY(1) == 177 + 105 && ASCHEKNOPF_ROW(0) == 3537 && ASCHEKNOPF_STATE_SIZE == 6190);
    for (size_t n = 0; n < PHYS; n++) {
        unnamed(n);
        fixed(n);
    }
    devices(0);
    devices(PHYS - 1);
    values(1);
    for (size_t n = PHYS; n < 32; n++)
        past(n);
    order();
    return finish();
}
