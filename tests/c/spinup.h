/* Disks held at spin-up, for the programs that send requests to them: the adapter of samples/good with its two disks held. */
#ifndef SPINUP_H
#define SPINUP_H

#include "phys.h"

enum { PROBLEM = ASCHEKNOPF_PHY_COUNTERS + 12, OTHER = 0x3C };

/* It is opened at a level, phy 0 altered before, to begin again from. No sector is empty. */
static inline void open_with_holds(int level, void (*alter)(uint8_t *phy))
{
    start("good");
    for (size_t n = 0; n < 2; n++)
        in_file(n)[HOLD] = 1, in_file(n)[NEGOTIATED] = SATA_SPINUP_HOLD;
    alter(in_file(0));
    seal();
    memset(lent.medium, OTHER, PHYS * DISK);
    check("the opening", opened(TEXTS[level]) == 0 && state_is_the_files((uint8_t)level));
    sound = lent;
}

static inline void as_it_is(uint8_t *phy)
{
    (void)phy;
}

/* A code 21 to phy 0. */
static inline struct asked set(uint8_t negotiated, uint8_t minimum, uint8_t maximum, uint8_t class)
{
    struct asked a = GRANTED[SET_PHY_INFO];
    const uint8_t body[5] = {0, negotiated, minimum, maximum, class};
    memcpy(a.begin, body, sizeof body);
    return a;
}

/* It is granted: phy 0 has this class, these rates and no hold, its last counter has so many more, and no other byte changed. */
static inline int sets(const struct header *h, const struct asked *a, const uint8_t rates[3], uint32_t counted)
{
    ask_under(h, a, 0);
    uint32_t number = handled_under(h);
    struct lent expected = before;
    uint8_t *phy = expected.state + ASCHEKNOPF_PHY(0);
    put_word(expected.buffer + h->code, 0);
    phy[CLASS] = a->begin[4];
    memcpy(phy + NEGOTIATED, rates, 3);
    phy[HOLD] = 0;
    put_word(phy + PROBLEM, word(phy + PROBLEM) + counted);
    return number == 0 && memcmp(&lent, &expected, sizeof lent) == 0;
}

/* A request to phy 0 gets this return code, and no other byte changes. */
static inline int gets_code(const struct header *h, const struct asked *a, uint32_t code)
{
    ask_under(h, a, 0);
    return code_under(h, code);
}

/* Sector 5 of phy 0 is read: the data is in the reply, and state and medium stay. */
static inline int reads(const struct header *h)
{
    const uint8_t *body = ask_under(h, &GRANTED[READ], 0);
    return handled_under(h) == 0 && word(lent.buffer + h->code) == 0 && body[50] == 0x50 && word(body + 132) == SECTOR
        && all(body + 136, SECTOR, OTHER) && state_stays() && store_stays();
}

static inline int not_connected(const struct header *h)
{
    return gets_code(h, &GRANTED[READ], 2008) && gets_code(h, &GRANTED[WRITE], 2008) && gets_code(h, &GRANTED[IDENTIFY], 2008);
}

#endif
