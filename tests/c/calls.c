/* The two calls of include/ascheknopf.h: an opening, requests one at a time, and refusals that touch nothing. What is expected was written
   down from document 01, W-202, W-204, W-207 and the description of samples/good. Runs in the repository's root. */
#define PROGRAM "calls.c"
#include "blocks.h"

enum { HEADER = 28, CODE = 20 };

static uint32_t handled(void)
{
    before = lent;
    return ascheknopf_request(lent.state, lent.state_len, lent.medium, lent.medium_len, lent.stage, lent.stage_len,
                              lent.buffer, lent.buffer_len);
}

/* A sound request; its body is zeros, to be filled in. */
static uint8_t *request(uint8_t code, size_t size)
{
    memset(lent.buffer, 0, sizeof lent.buffer);
    lent.buffer[0] = HEADER;
    memcpy(lent.buffer + 4, code <= 4 ? "CSMIALL" : "CSMISAS", 8);
    lent.buffer[16] = code;
    lent.buffer[24] = size & 0xFF;
    lent.buffer[25] = size >> 8 & 0xFF;
    lent.buffer_len = HEADER + size;
    return lent.buffer + HEADER;
}

/* A command for sector 5 of phy 0, one sector. */
static uint8_t *command(uint8_t ata)
{
    const uint8_t address[8] = {0x50, 0x00, 0xC5, 0, 0, 0, 0, 1};
    uint8_t *body = request(25, 136 + SECTOR);
    body[1] = 0xFF;
    memcpy(body + 4, address, 8);
    body[16] = 0x27, body[18] = ata, body[20] = 5, body[23] = 0x40, body[28] = 1;
    body[41] = SECTOR >> 8;
    return body;
}

/* The call's number is 0, and the return code is this one. */
static int answered(uint32_t code)
{
    return handled() == 0 && word(lent.buffer + CODE) == code;
}

/* Where the tables of the state begin and end, one behind the other. */
static void places(void)
{
    check("phys and rows", ASCHEKNOPF_PHY(0) == ASCHEKNOPF_DRIVER_INFO + ASCHEKNOPF_DRIVER_INFO_SIZE
                           && ASCHEKNOPF_ROW(0) == ASCHEKNOPF_PHY(32) && ASCHEKNOPF_CONTROLLER == ASCHEKNOPF_ROW(64));
    check("the controller", ASCHEKNOPF_STATUS == ASCHEKNOPF_CONTROLLER + ASCHEKNOPF_CONTROLLER_SIZE
                            && ASCHEKNOPF_CONNECTOR(0) == ASCHEKNOPF_STATUS + ASCHEKNOPF_STATUS_SIZE);
    check("the connectors", ASCHEKNOPF_STAGED == ASCHEKNOPF_CONNECTOR(32));
    check("what is staged", ASCHEKNOPF_STAGED_REVISIONS == ASCHEKNOPF_STAGED + 1
                            && ASCHEKNOPF_STATE_SIZE == ASCHEKNOPF_STAGED_REVISIONS + ASCHEKNOPF_STAGED_REVISIONS_SIZE);
    check("the stage", ASCHEKNOPF_STAGE_SIZE == STAGE);
}

static void openings(void)
{
    const char *texts[4] = {"CSMI=None;", "CSMI=Restricted;", "", FULL};
    for (uint8_t level = 0; level < 4; level++) {
        start("good");
        check("an opening", opened(texts[level]) == 0 && state_is_the_files(level));
        check("an opening leaves the rest", store_stays() && lent.state[ASCHEKNOPF_STATE_SIZE] == 0x5A);
    }
    /* by the sample's description */
    const uint8_t *phy = lent.state + ASCHEKNOPF_PHY(0), *row = lent.state + ASCHEKNOPF_ROW(2);
    check("the driver's name", memcmp(lent.state + ASCHEKNOPF_DRIVER_INFO, "csmilab", 8) == 0);
    check("phy 0", word(phy + ASCHEKNOPF_PHY_COUNTERS) == 3 && word(phy + ASCHEKNOPF_PHY_COUNTERS + 8) == 1
                   && phy[ASCHEKNOPF_PHY_HELD] == 1 && phy[ASCHEKNOPF_PHY_FIXED] == 0
                   && phy[ASCHEKNOPF_PHY_LOWEST] == 8 && phy[ASCHEKNOPF_PHY_HIGHEST] == 9 && phy[ASCHEKNOPF_PHY_SPINUP_HOLD] == 0);
    check("row 2", row[ASCHEKNOPF_ROW_SAS_ADDRESS] == 0x50 && row[ASCHEKNOPF_ROW_SAS_ADDRESS + 7] == 3
                   && row[ASCHEKNOPF_ROW_HOST] == 0 && row[ASCHEKNOPF_ROW_TARGET] == 3);
}

/* A refused opening leaves the zero state, whatever it was. */
static void refused(const char *what, const char *text, uint32_t number)
{
    memset(lent.state, 0x5A, sizeof lent.state);
    check(what, opened(text) == number && all(lent.state, ASCHEKNOPF_STATE_SIZE, 0) && lent.state[ASCHEKNOPF_STATE_SIZE] == 0x5A
                && store_stays());
    request(1, 174);
    check("a request to the zero state", handled() == 107 && untouched());
}

static void refused_openings(void)
{
    start("good");
    refused("a wrong text", "CSMI=full;", 101);
    lent.medium_len--;
    refused("a short medium", FULL, 106);
    lent.file[600] ^= 1;
    refused("a damaged block", FULL, 103);
    lent.file_len--;
    refused("a short file", FULL, 102);
    lent.file_len = CONTROLLER_BLOCK * BLOCK;
    refused("a file that ends behind its rows", FULL, 102);
    lent.file_len = 0;
    refused("no file", FULL, 102);
}

static void granted(void)
{
    const uint8_t address[16] = {0x50, 0x00, 0xC5, 0, 0, 0, 0, 2}, set[5] = {0, 0, 0, 8, 2};
    uint8_t *body;
    start("good");
    check("the opening", opened(FULL) == 0);

    body = request(1, 174);
    check("driver info", answered(0) && memcmp(body, lent.file + 4, 174) == 0 && state_stays() && store_stays());

    body = request(20, 2052);
    check("phy info", answered(0) && body[0] == PHYS && all(body + 1, 3, 0) && memcmp(body + 4, lent.file + 512, 64) == 0
                      && all(body + 4 + 64 * PHYS, 64 * (32 - PHYS), 0) && state_stays());

    body = request(22, 20);
    body[1] = 1;
    check("link errors", answered(0) && word(body + 4) == 3 && word(body + 8) == 0 && word(body + 12) == 1 && word(body + 16) == 0);
    check("the counters are cleared", all(lent.state + ASCHEKNOPF_PHY(0) + ASCHEKNOPF_PHY_COUNTERS, 16, 0)
                                      && state_but(ASCHEKNOPF_PHY(0) + ASCHEKNOPF_PHY_COUNTERS, 16) && store_stays());

    memcpy(request(21, 8), set, sizeof set);
    check("set phy info", answered(0));
    /* the class; the negotiated rate, the minimum and the maximum */
    const uint8_t *entity = lent.state + ASCHEKNOPF_PHY(0) + ASCHEKNOPF_PHY_ENTITY;
    check("the phy is changed", entity[21] == 2 && entity[29] == 8 && entity[30] == 0x88 && entity[31] == 0x89
                                && state_but(ASCHEKNOPF_PHY(0) + 21, 11) && memcmp(entity + 22, lent.file + 512 + 22, 7) == 0);

    memset(command(0x30) + 136, 0xA7, SECTOR);
    check("a write", answered(0) && all(lent.medium + 5 * SECTOR, SECTOR, 0xA7) && all(lent.medium, 5 * SECTOR, 0)
                     && all(lent.medium + 6 * SECTOR, sizeof lent.medium - 6 * SECTOR, 0) && state_stays() && stage_stays());
    body = command(0x20);
    check("a read", answered(0) && body[50] == 0x50 && word(body + 132) == SECTOR && all(body + 136, SECTOR, 0xA7) && store_stays());

    body = request(26, 24);
    check("the signature", answered(0) && memcmp(body + 4, lent.file + 512 + 80, 20) == 0);
    body = request(27, 20);
    memcpy(body, address, 16);
    check("the SCSI address", answered(0) && body[16] == 0 && body[17] == 0 && body[18] == 2 && body[19] == 0);
    body = request(28, 20);
    body[2] = 2;
    check("the device address", answered(0) && memcmp(body + 4, address, 16) == 0 && state_stays());
}

/* With a return code other than 0 its four bytes change, and nothing else. */
static void denied(uint8_t level)
{
    lent.state[ASCHEKNOPF_LEVEL] = level;
    int right = answered(4) && state_stays() && store_stays();
    memcpy(lent.buffer + CODE, before.buffer + CODE, 4);
    check("a denied request", right && memcmp(lent.buffer, before.buffer, sizeof lent.buffer) == 0);
}

/* The level is a byte of the state: a caller's own copy at a lower level denies what the other grants. */
static void levels(void)
{
    start("good");
    check("the opening", opened(FULL) == 0);
    for (uint8_t level = 0; level < 3; level++) {
        request(21, 8)[4] = 1;
        denied(level);
        command(0x30);
        denied(level);
        request(22, 20)[1] = 1;
        denied(level);
    }
    request(1, 174);
    denied(0);
    lent.state[ASCHEKNOPF_LEVEL] = 3;
    request(21, 8)[4] = 1;
    check("the same request, granted", answered(0) && lent.state[ASCHEKNOPF_PHY(0) + 21] == 1);
}

static void number_is(const char *what, uint32_t number)
{
    check(what, handled() == number && untouched());
}

static void refusals(void)
{
    start("good");
    check("the opening", opened(FULL) == 0);
    const struct lent sound = lent;
    const size_t places[9] = {ASCHEKNOPF_LEVEL, ASCHEKNOPF_PHY(1) + 20, ASCHEKNOPF_PHY(2) + ASCHEKNOPF_PHY_FIXED,
                              ASCHEKNOPF_PHY(31) + ASCHEKNOPF_PHY_SIZE - 1, ASCHEKNOPF_ROW(63) + ASCHEKNOPF_ROW_LUN,
                              ASCHEKNOPF_CONNECTOR(3) + ASCHEKNOPF_CONNECTOR_PINOUT, ASCHEKNOPF_CONNECTOR(32) - 1, ASCHEKNOPF_STAGED,
                              ASCHEKNOPF_STATE_SIZE - 1};
    for (int i = 0; i < 9; i++) {
        lent = sound;
        lent.state[places[i]] = 0x77;
        request(1, 174);
        number_is("a broken rule", 107);
        lent.medium_len--;
        lent.stage_len--;
        lent.buffer_len = 27;
        number_is("a broken rule before all else", 107);
    }
    lent = sound;
    memcpy(lent.state + ASCHEKNOPF_ROW(1), lent.state + ASCHEKNOPF_ROW(0), 16);
    number_is("rows that share an address", 107);
    lent = sound;
    lent.buffer_len = 27;
    number_is("a buffer of 27 bytes", 100);
    lent.medium_len--;
    number_is("a medium that is one byte short", 106);
    lent.medium_len = 0;
    number_is("no medium", 106);
    lent = sound;
    lent.buffer_len = 27;
    lent.stage_len--;
    number_is("a stage that is one byte short", 106);
    lent.stage_len = 0;
    number_is("no stage", 106);
}

static void state_lengths(void)
{
    const size_t lengths[6] = {0, 1, 3, ASCHEKNOPF_CONTROLLER, ASCHEKNOPF_STATE_SIZE - 1, ASCHEKNOPF_STATE_SIZE + 1};
    start("good");
    check("the opening", opened(FULL) == 0);
    const struct lent sound = lent;
    for (int i = 0; i < 6; i++) {
        lent = sound;
        lent.state_len = lengths[i];
        check("another length: an opening", opened(FULL) == 107 && untouched());
        check("another length: a wrong opening", opened("CSMI=full;") == 107 && untouched());
        lent = sound;
        lent.state_len = lengths[i];
        request(1, 174);
        number_is("another length: a request", 107);
        lent.buffer_len = 0;
        number_is("another length: no buffer", 107);
    }
}

/* A null pointer with length 0, for each argument and for all. */
static void null_pointers(void)
{
    const uint8_t *full = (const uint8_t *)FULL;
    uint8_t *file = lent.file, *medium = lent.medium, *stage = lent.stage, *state = lent.state, *buffer = lent.buffer;
    const size_t size = ASCHEKNOPF_STATE_SIZE;
    start("good");
    check("null: text", ascheknopf_open(NULL, 0, file, lent.file_len, medium, lent.medium_len, state, size) == 0
                        && state_is_the_files(2));
    check("null: file", ascheknopf_open(full, 10, NULL, 0, medium, lent.medium_len, state, size) == 102 && all(state, size, 0));
    check("null: medium", ascheknopf_open(full, 10, file, lent.file_len, NULL, 0, state, size) == 106 && all(state, size, 0));
    check("null: state", ascheknopf_open(full, 10, file, lent.file_len, medium, lent.medium_len, NULL, 0) == 107);
    check("null: all of an opening", ascheknopf_open(NULL, 0, NULL, 0, NULL, 0, NULL, 0) == 107);
    check("null: all but the state", ascheknopf_open(NULL, 0, NULL, 0, NULL, 0, state, size) == 102);

    check("the opening", opened(FULL) == 0);
    request(1, 174);
    before = lent;
    check("null: state", ascheknopf_request(NULL, 0, medium, lent.medium_len, stage, STAGE, buffer, lent.buffer_len) == 107 && untouched());
    check("null: medium", ascheknopf_request(state, size, NULL, 0, stage, STAGE, buffer, lent.buffer_len) == 106 && untouched());
    check("null: stage", ascheknopf_request(state, size, medium, lent.medium_len, NULL, 0, buffer, lent.buffer_len) == 106 && untouched());
    check("null: buffer", ascheknopf_request(state, size, medium, lent.medium_len, stage, STAGE, NULL, 0) == 100 && untouched());
    check("null: all of a request", ascheknopf_request(NULL, 0, NULL, 0, NULL, 0, NULL, 0) == 107);
}

int main(void)
{
    places();
    openings();
    refused_openings();
    granted();
    levels();
    refusals();
    state_lengths();
    null_pointers();
    return finish();
}
