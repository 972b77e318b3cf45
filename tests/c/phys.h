/* A phy's bytes, for the programs that alter one in a file or in a state: their places in its entity, which comes first, by 6.7.4.2,
   the place of its hold, and what the negotiated rate says besides a rate. */
#ifndef PHYS_H
#define PHYS_H

#include "blocks.h"
#include "headers.h"

enum { CLASS = 21, NEGOTIATED = 29, MINIMUM = 30, MAXIMUM = 31, ATTACHED = 36, PROTOCOLS = 39, ENTITY = ASCHEKNOPF_PHY_ENTITY_SIZE };
enum { HOLD = ASCHEKNOPF_PHY_SPINUP_HOLD };
enum { UNKNOWN = 0, DISABLED = 1, FAILED = 2, SATA_SPINUP_HOLD = 3, LOW = 8, HIGH = 9 };

/* Phy n in the file and in the state that are lent. */
static inline uint8_t *in_file(size_t n)
{
    return lent.file + (1 + n) * BLOCK;
}

static inline uint8_t *in_state(size_t n)
{
    return lent.state + ASCHEKNOPF_PHY(n);
}

#endif
