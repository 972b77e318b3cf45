/* Requests under the Linux header that pass its checks: every code at every level, beside what the first header denies there; and that they
   get what the first header gets at Full. What is expected was written down from W-201, W-202, W-207, document 01 and the descriptions of
   the samples. Runs in the repository's root. */
#define PROGRAM "linux_served.c"
#include "linux.h"

/* Status of code 25: OPEN_ACCEPT, the status FIS, uSCR and uDataBytes. */
static int status_is(const uint8_t *b, uint8_t status, uint8_t error, uint8_t count, uint32_t moved)
{
    const uint8_t begin[8] = {0, 0, 0, 0, 0x34, 0, status, error};
    return memcmp(b + 44, begin, 8) == 0 && memcmp(b + 52, b + 20, 8) == 0 && b[60] == count && b[61] == b[29]
        && all(b + 62, 6 + 64, 0) && word(b + 132) == moved;
}

/* These bytes of the body are as they were sent. */
static int body_stays(size_t from, size_t to)
{
    return memcmp(lent.buffer + LINUX + from, before.buffer + LINUX + from, to - from) == 0;
}

static int reads_only(void)
{
    return answered(0) && state_stays() && store_stays();
}

static void reports(void)
{
    const uint8_t address[16] = {0x50, 0x00, 0xC5, 0, 0, 0, 0, 2};
    const uint8_t *body = ask(&GRANTED[DRIVER_INFO], 0);
    check("driver info", reads_only() && memcmp(body, lent.file + 4, 174) == 0);

    body = ask(&GRANTED[PHY_INFO], 0);
    int same = reads_only() && body[0] == PHYS && all(body + 1, 3, 0) && all(body + 4 + 64 * PHYS, 64 * (32 - PHYS), 0);
    for (int n = 0; n < PHYS; n++)
        same = same && memcmp(body + 4 + 64 * n, lent.file + 512 * (1 + n), 64) == 0;
    check("phy info", same);

    body = ask(&GRANTED[SIGNATURE], 0);
    check("the signature", reads_only() && memcmp(body + 4, lent.file + 512 + 80, 20) == 0 && body_stays(0, 4));
    body = ask(&GRANTED[SCSI_ADDRESS], 0);
    check("the SCSI address", reads_only() && body[16] == 0 && body[17] == 0 && body[18] == 2 && body[19] == 0 && body_stays(0, 16));
    body = ask(&GRANTED[DEVICE_ADDRESS], 0);
    check("the device address", reads_only() && memcmp(body + 4, address, 16) == 0 && body_stays(0, 4));
}

static void counters(void)
{
    const uint8_t *body = ask(&GRANTED[LINK_ERRORS], 0);
    check("link errors", reads_only() && word(body + 4) == 3 && word(body + 8) == 0 && word(body + 12) == 1 && word(body + 16) == 0);
    ask(&GRANTED[CLEAR], 0);
    check("link errors, cleared", answered(0) && word(body + 4) == 3 && word(body + 12) == 1 && body_stays(0, 4) && store_stays());
    check("the counters are cleared", all(lent.state + ASCHEKNOPF_PHY(0) + ASCHEKNOPF_PHY_COUNTERS, 16, 0)
                                      && state_but(ASCHEKNOPF_PHY(0) + ASCHEKNOPF_PHY_COUNTERS, 16));
}

static void writes(void)
{
    ask(&GRANTED[SET_PHY_INFO], 0);
    check("set phy info", answered(0) && body_stays(0, 8));
    check("the phy is set", phy_is_set());
    const uint8_t *body = ask(&GRANTED[WRITE], 0);
    check("a write", answered(0) && status_is(body, 0x50, 0, 1, SECTOR) && body_stays(0, 44) && body_stays(136, STP_SIZE)
                     && state_stays() && stage_stays());
    check("the sector is written", all(lent.medium + 5 * SECTOR, SECTOR, FILL) && all(lent.medium, 5 * SECTOR, 0)
                                   && all(lent.medium + 6 * SECTOR, sizeof lent.medium - 6 * SECTOR, 0));
}

static void disk_reads(void)
{
    memset(lent.medium + 5 * SECTOR, 0x3C, SECTOR);
    const uint8_t *body = ask(&GRANTED[READ], 0);
    check("a read", reads_only() && status_is(body, 0x50, 0, 1, SECTOR) && body_stays(0, 44) && all(body + 136, SECTOR, 0x3C));
    ask(&GRANTED[IDENTIFY], 0);
    check("identify", reads_only() && status_is(body, 0x50, 0, 1, SECTOR) && all(body + 136, 99, 0) && body[136 + 99] == 2
                      && all(body + 136 + 100, 20, 0) && body[136 + 120] == 16 && all(body + 136 + 121, SECTOR - 121, 0));
    ask(&GRANTED[POWER_MODE], MORE);
    check("power mode", reads_only() && status_is(body, 0x50, 0, 0xFF, 0) && body_stays(136, 136 + MORE));
}

/* Every command reaches the disk, whatever its need: 20h, 30h, ECh and E5h succeed, and the others get 51h, 04h. */
static void commands(void)
{
    for (uint32_t ata = 0; ata < 256; ata++) {
        struct asked a = GRANTED[WRITE];
        a.begin[18] = (uint8_t)ata;
        const uint8_t *body = ask(&a, 0);
        const int moves = ata == 0x20 || ata == 0x30 || ata == 0xEC, succeeds = moves || ata == 0xE5;
        check_at("command", ata, answered(0) && state_stays() && body_stays(0, 44)
                                 && status_is(body, succeeds ? 0x50 : 0x51, succeeds ? 0 : 4, ata == 0xE5 ? 0xFF : 1, moves ? SECTOR : 0)
                                 && (moves || body_stays(136, STP_SIZE)) && (ata == 0x30 || medium_stays()) && stage_stays());
    }
}

/* The first header's call at this level: 4 and nothing else where the need is above it, and else what the Linux header gets. */
static void first_header(const struct asked *a, int level)
{
    lent = sound;
    uint32_t number = handled_first(a);
    uint32_t code = word(lent.buffer + FIRST_CODE);
    memcpy(lent.buffer + FIRST_CODE, before.buffer + FIRST_CODE, 4);
    int right = level < a->need ? code == 4 && untouched() : code == a->code;
    check_asked("the first header", a, (uint32_t)level, number == 0 && right);
}

/* What the codes' own checks refuse changes the return code and nothing else; what they grant is granted at every level. */
static void levels(const char *sample, const struct asked *table, int count)
{
    for (int level = 0; level < 4; level++) {
        open_sample(sample, level);
        for (int i = 0; i < count; i++) {
            first_header(&table[i], level);
            lent = sound;
            ask(&table[i], 0);
            check_asked("the Linux header", &table[i], (uint32_t)level, table[i].code == 0 ? answered(0) : code_alone(table[i].code));
        }
    }
}

/* A second adapter from the same file and medium, at Full, which is asked the same under the first header. */
static struct lent full;

/* Both are asked: return code, body, medium, stage and state but the level are the same. The two Lengths need not agree. */
static int same(const struct asked *a, uint32_t first_more, uint32_t linux_more)
{
    ask(a, MORE);
    put_word(lent.buffer + LINUX_LENGTH, LINUX + a->size + linux_more);
    full.buffer_len = put_first(a, MORE, full.buffer);
    put_word(full.buffer + FIRST_LENGTH, a->size + first_more);
    return handled() == 0
        && ascheknopf_request(full.state, full.state_len, full.medium, full.medium_len, full.stage, full.stage_len,
                              full.buffer, full.buffer_len) == 0
        && word(lent.buffer + LINUX_CODE) == word(full.buffer + FIRST_CODE)
        && memcmp(lent.buffer + LINUX, full.buffer + FIRST, a->size + MORE) == 0
        && memcmp(lent.medium, full.medium, sizeof lent.medium) == 0 && memcmp(lent.stage, full.stage, sizeof lent.stage) == 0
        && lent.state[ASCHEKNOPF_LEVEL] == before.state[ASCHEKNOPF_LEVEL] && full.state[ASCHEKNOPF_LEVEL] == 3
        && memcmp(lent.state + 1, full.state + 1, sizeof lent.state - 1) == 0;
}

static uint32_t drawn(void)
{
    static uint32_t seed = 201;
    seed = seed * 1664525 + 1013904223;
    return seed >> 8;
}

/* A request of the tables with some bytes of its body altered, but neither uDataLength nor uBufferLength: it goes on passing both headers'
   checks. */
static struct asked altered(void)
{
    const uint8_t values[16] = {0, 1, 2, 3, 4, 5, 8, 9, 15, 16, 0x20, 0x30, 0x40, 0xE5, 0xEC, 0xFF};
    uint32_t row = drawn() % (GRANTS + REFUSALS);
    const struct asked of = row < GRANTS ? GRANTED[row] : REFUSED[row - GRANTS];
    struct asked a = of;
    for (uint32_t n = drawn() % 4; n > 0; n--)
        a.begin[drawn() % 40] = values[drawn() % 16];
    if (a.control == DOWNLOAD)
        memcpy(a.begin, of.begin, 4);
    return a;
}

/* One request after the other, so that what the earlier ones changed is compared too. */
static void sameness(const char *sample, int level)
{
    const uint32_t more[3][2] = {{0, 0}, {MORE, 0}, {0, MORE}};
    open_sample(sample, 3);
    full = lent;
    open_sample(sample, level);
    for (int n = 0; n < 3; n++) {
        for (int i = 0; i < GRANTS; i++)
            check_asked("the same at Full", &GRANTED[i], (uint32_t)level, same(&GRANTED[i], more[n][0], more[n][1]));
        for (int i = 0; i < REFUSALS; i++)
            check_asked("the same at Full", &REFUSED[i], (uint32_t)level, same(&REFUSED[i], more[n][0], more[n][1]));
    }
    int all_same = 1;
    for (int i = 0; i < 4000; i++) {
        const struct asked a = altered();
        all_same = all_same && same(&a, 0, MORE);
    }
    check("altered requests, the same at Full", all_same);
}

int main(void)
{
    for (int level = 0; level < 4; level++) {
        open_sample("good", level);
        reports();
        counters();
        writes();
        disk_reads();
        commands();
        sameness("good", level);
        sameness("refusals", level);
    }
    levels("good", GRANTED, GRANTS);
    levels("refusals", REFUSED, REFUSALS);
    return finish();
}
