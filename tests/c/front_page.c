/* Codes 2, 3 and 30, with which a console begins: whole replies under both headers and at every level, and what is refused before. What is
   expected was written down from W-204, document 01 and the blocks of the samples' files. Runs in the repository's root. */
#define PROGRAM "front_page.c"
#include "blocks.h"
#include "headers.h"

enum { REFERENCES = 32, REFERENCE = ASCHEKNOPF_CONNECTOR_SIZE, PAGES = 3 };

static const int PAGE[PAGES] = {CONTROLLER, STATUS, CONNECTORS};

/* What each shows, by the file: 176, 36 and 1,152 bytes; the references from p on are zero. */
static uint8_t shown[PAGES][REFERENCES * REFERENCE];

static void read_shown(void)
{
    memset(shown, 0, sizeof shown);
    memcpy(shown[0], lent.file + CONTROLLER_BLOCK * BLOCK, 176);
    memcpy(shown[1], lent.file + CONTROLLER_BLOCK * BLOCK + 176, 36);
    for (int n = 0; n < PHYS; n++)
        memcpy(shown[2] + n * REFERENCE, lent.file + (CONNECTOR_BLOCK + n) * BLOCK, REFERENCE);
}

/* Denied at None under the first header; else whatever the body was it is filled, and what stands behind it stays. */
static void replies(const struct header *h, int level, int page)
{
    const struct asked *a = &GRANTED[PAGE[page]];
    const uint8_t bodies[3] = {0, FILL, 0xFF};
    for (uint32_t i = 0; i < 6; i++) {
        lent = sound;
        memset(ask_under(h, a, i % 2 * MORE), bodies[i / 2], a->size + i % 2 * MORE);
        int right = h == &FIRST_HEADER && level == 0 ? code_under(h, 4) : shown_under(h, shown[page], a->size);
        check_asked(h->what, a, 0x100 * i + (uint32_t)level, right);
    }
}

/* One byte too short: the buffer, Length or both; and Length one over the buffer. The level is not yet asked for. */
static void lengths(const struct header *h, int level, const struct asked *a)
{
    const int vectors[6][2] = {{-1, 0}, {0, -1}, {-1, -1}, {0, 1}, {MORE, MORE + 1}, {MORE, -1}};
    for (uint32_t i = 0; i < 6; i++) {
        lent = sound;
        ask_under(h, a, MORE);
        lent.buffer_len = h->size + a->size + vectors[i][0];
        put_word(lent.buffer + h->length, (uint32_t)(h->counted + a->size + vectors[i][1]));
        check_asked("too short", a, 0x100 * i + vector_of(h, level), code_under(h, 3));
    }
    lent = sound;
    ask_under(h, a, 0);
    lent.buffer_len = h->size;
    check_asked("a header alone", a, vector_of(h, level), code_under(h, 3));
    lent.buffer_len--;
    check_asked("less than a header", a, vector_of(h, level), number_under(h, 100));
}

/* The other signature, that of code 60, and each byte of its own altered. */
static void signatures(int level, const struct asked *a)
{
    const char *others[3] = {a->control == 30 ? "CSMIALL" : "CSMISAS", "CSMIPHY", "CSMI\0\0\0"};
    for (uint32_t i = 0; i < 3 + 8; i++) {
        lent = sound;
        ask_under(&FIRST_HEADER, a, 0);
        if (i < 3)
            memcpy(lent.buffer + 4, others[i], 8);
        else
            lent.buffer[4 + i - 3] ^= 0x20;
        int right = code_under(&FIRST_HEADER, 2);
        put_word(lent.buffer + FIRST_LENGTH, 0);
        check_asked("signature", a, 0x100 * i + (uint32_t)level, right && code_under(&FIRST_HEADER, 2));
    }
    lent = sound;
    ask_under(&FIRST_HEADER, a, 0)[-FIRST]--;
    check_asked("HeaderLength", a, (uint32_t)level, code_under(&FIRST_HEADER, 3));
    lent = sound;
    ask_under(&LINUX_HEADER, a, 0)[LINUX_DIRECTION - LINUX] = 2;
    check_asked("Direction", a, (uint32_t)level, code_under(&LINUX_HEADER, 3));
}

/* Codes beside them, with either signature, in a buffer that is long enough for any. */
static void neighbours(const struct header *h, int level)
{
    const uint8_t codes[7] = {0, 5, 19, 23, 24, 29, 31};
    for (int i = 0; i < 14; i++) {
        struct asked a = GRANTED[PHY_INFO];
        a.control = codes[i / 2];
        lent = sound;
        ask_under(h, &a, 0);
        if (h == &FIRST_HEADER)
            memcpy(lent.buffer + 4, i % 2 ? "CSMIALL" : "CSMISAS", 8);
        check_at("unknown code", 0x100u * a.control + vector_of(h, level), code_under(h, 2));
    }
}

/* The state's own bytes. */
static void in_the_state(void)
{
    check("in the state", memcmp(lent.state + ASCHEKNOPF_CONTROLLER, shown[0], 176) == 0
                          && memcmp(lent.state + ASCHEKNOPF_STATUS, shown[1], 36) == 0
                          && memcmp(lent.state + ASCHEKNOPF_CONNECTOR(0), shown[2], sizeof shown[2]) == 0);
    check("a pinout", (word(lent.state + ASCHEKNOPF_CONNECTOR(1)) & ~0x000F0F03u) == 0);
}

/* Every place that the header file names in what the pages show, where it is by 6.2.4.3, 6.3.4.1 and 6.18.4.1, packed, and the number that
   samples/good has there in so many bytes. */
static const struct place {
    const char *what;
    int page;
    size_t named, at, bytes;
    uint32_t number;
} PLACES[] = {
    {"base I/O", 0, ASCHEKNOPF_CONTROLLER_BASE_IO, 0, 4, 0xD000},
    {"base memory", 0, ASCHEKNOPF_CONTROLLER_BASE_MEMORY, 4, 4, 0xFE8C0000},
    {"board", 0, ASCHEKNOPF_CONTROLLER_BOARD, 12, 4, 0x30201000},
    {"slot", 0, ASCHEKNOPF_CONTROLLER_SLOT, 16, 2, 3},
    {"class", 0, ASCHEKNOPF_CONTROLLER_CLASS, 18, 1, 5},
    {"bus type", 0, ASCHEKNOPF_CONTROLLER_BUS_TYPE, 19, 1, 3},
    {"bus address", 0, ASCHEKNOPF_CONTROLLER_BUS_ADDRESS, 20, 4, 4},
    {"serial number, CL-0", 0, ASCHEKNOPF_CONTROLLER_SERIAL, 52, 4, 0x302D4C43},
    {"firmware, 1.26", 0, ASCHEKNOPF_CONTROLLER_FIRMWARE, 133, 4, 0x001A0001},
    {"BIOS, 6.14", 0, ASCHEKNOPF_CONTROLLER_BIOS, 141, 4, 0x000E0006},
    {"flags", 0, ASCHEKNOPF_CONTROLLER_FLAGS, 149, 4, 5},
    {"redundant firmware", 0, ASCHEKNOPF_CONTROLLER_RROM_FIRMWARE, 153, 4, 0},
    {"redundant BIOS", 0, ASCHEKNOPF_CONTROLLER_RROM_BIOS, 161, 4, 0},
    {"reserved", 0, ASCHEKNOPF_CONTROLLER_RESERVED, 169, 4, 0},
    {"status", 1, ASCHEKNOPF_STATUS_STATUS, 0, 4, 1},
    {"offline reason", 1, ASCHEKNOPF_STATUS_OFFLINE_REASON, 4, 4, 0},
    {"pinout", 2, ASCHEKNOPF_CONNECTOR_PINOUT, 0, 4, 0x00010000},
    {"connector, J1", 2, ASCHEKNOPF_CONNECTOR_NAME, 4, 4, 0x0000314A},
    {"location", 2, ASCHEKNOPF_CONNECTOR_LOCATION, 20, 1, 2},
};

/* Each by its number, and in the reply under either header. */
static void places(void)
{
    for (size_t i = 0; i < sizeof PLACES / sizeof PLACES[0]; i++) {
        const struct place *p = &PLACES[i];
        check(p->what, p->named == p->at);
        for (int n = 0; n < 2; n++) {
            const uint8_t *body = ask_under(HEADERS[n], &GRANTED[PAGE[p->page]], 0);
            uint32_t number = handled_under(HEADERS[n]);
            check_at(p->what, (uint32_t)n, number == 0 && (word(body + p->named) & (0xFFFFFFFFu >> (32 - 8 * p->bytes))) == p->number);
        }
    }
}

/* An adapter of every number of phys, made in the state: a reference for each, which are all different, and zeros behind them. */
static void phy_counts(void)
{
    static uint8_t state[ASCHEKNOPF_STATE_SIZE], medium[REFERENCES * DISK], buffer[LINUX + REFERENCES * REFERENCE];
    uint8_t expected[REFERENCES * REFERENCE] = {0};
    memcpy(state, sound.state, sizeof state);
    memset(state + ASCHEKNOPF_PHY(0), 0, 32 * ASCHEKNOPF_PHY_SIZE);
    memset(state + ASCHEKNOPF_CONNECTOR(0), 0, sizeof expected);
    for (size_t n = 0; n < REFERENCES; n++) {
        /* an empty phy, which is its own port */
        uint8_t *phy = state + ASCHEKNOPF_PHY(n), *reference = expected + n * REFERENCE;
        memcpy(phy, sound.state + ASCHEKNOPF_PHY(3), ASCHEKNOPF_PHY_SIZE);
        phy[20] = phy[28] = (uint8_t)n;
        for (size_t i = 0; i < REFERENCE; i++)
            reference[i] = (uint8_t)(n * 7 + i);
        put_word(reference, 0x000F0F03u & (0x01010101u * (uint32_t)n));
        memcpy(state + ASCHEKNOPF_CONNECTOR(n), reference, REFERENCE);
        state[ASCHEKNOPF_PHY_COUNT] = (uint8_t)(n + 1);
        memset(buffer, FILL, sizeof buffer);
        put_linux(&GRANTED[CONNECTORS], 0, buffer);
        uint32_t number = ascheknopf_request_linux(state, sizeof state, medium, (n + 1) * DISK, lent.stage, STAGE, 30,
                                                   buffer, sizeof buffer);
        check_at("references", (uint32_t)n + 1, number == 0 && word(buffer + LINUX_CODE) == 0
                                                && memcmp(buffer + LINUX, expected, sizeof expected) == 0);
    }
}

int main(void)
{
    const char *samples[3] = {"good", "writes", "refusals"};
    for (int level = 0; level < 4; level++) {
        for (int s = 0; s < 3; s++) {
            open_sample(samples[s], level);
            memset(sound.medium, 0x3C, sizeof sound.medium);
            read_shown();
            in_the_state();
            for (int i = 0; i < 2 * PAGES; i++)
                replies(HEADERS[i % 2], level, i / 2);
        }
        for (int i = 0; i < 2 * PAGES; i++)
            lengths(HEADERS[i % 2], level, &GRANTED[PAGE[i / 2]]);
        for (int i = 0; i < PAGES; i++)
            signatures(level, &GRANTED[PAGE[i]]);
        neighbours(&FIRST_HEADER, level);
        neighbours(&LINUX_HEADER, level);
    }
    open_sample("good", 1);
    places();
    open_sample("good", 0);
    phy_counts();
    return finish();
}
