/* A request under the Linux header, ascheknopf_request_linux: the order of its checks, the buffer's length, and what is refused by the
   call's own number. What is expected was written down from W-201, document 01 and section 10 of 001. Runs in the repository's root. */
#define PROGRAM "linux.c"
#include "linux.h"

/* The checks in their order, each with what makes it fail. */
enum { STATE = 1, MEDIUM = 2, STAGE_LENGTH = 4, SHORT = 8, DIRECTION = 16, CONTROL = 32, LENGTH = 64, OWN = 128, CHECKS = 8 };

static void break_checks(unsigned faults)
{
    if (faults & STATE)
        lent.state[ASCHEKNOPF_PHY(1) + 20] = 0x77;
    if (faults & MEDIUM)
        lent.medium_len--;
    if (faults & STAGE_LENGTH)
        lent.stage_len--;
    if (faults & SHORT)
        lent.buffer_len = LINUX - 1;
    if (faults & DIRECTION)
        lent.buffer[LINUX_DIRECTION] = 2;
    if (faults & CONTROL)
        control = 24;
    if (faults & LENGTH)
        lent.buffer[LINUX_LENGTH]--;
    if (faults & OWN)
        lent.buffer[LINUX] = PHYS;
}

/* 0 is granted, from 100 to 107 is the call's own number, and all others are return codes. */
static int answer_is(uint32_t answer)
{
    return answer == 0 ? answered(0) && phy_is_set() : answer >= 100 && answer <= 107 ? number_alone(answer) : code_alone(answer);
}

/* Of the checks that fail the first one decides; where none does, the request is granted at every level. */
static void order(int level)
{
    const uint32_t answers[CHECKS + 1] = {107, 106, 106, 100, 3, 2, 3, 2002, 0};
    open_sample("good", level);
    for (unsigned faults = 0; faults < 1 << CHECKS; faults++) {
        int first = 0;
        while (first < CHECKS && !(faults >> first & 1))
            first++;
        lent = sound;
        ask(&GRANTED[SET_PHY_INFO], 0);
        break_checks(faults);
        check_at("checks that fail", faults, answer_is(answers[first]));
    }
}

/* Buffers around the sizes of the headers; the structure of code 21 ends at 28. */
static void buffers(void)
{
    const struct { size_t buffer; uint8_t length; uint32_t answer; } vectors[16] = {
        {0, 28, 100}, {1, 28, 100}, {11, 28, 100}, {12, 28, 100}, {18, 28, 100}, {19, 28, 100}, {19, 19, 100},
        {20, 20, 3}, {20, 28, 3}, {27, 27, 3}, {27, 28, 3}, {28, 27, 3}, {28, 28, 0}, {28, 29, 3}, {29, 28, 0}, {29, 29, 0},
    };
    open_sample("good", 0);
    for (unsigned i = 0; i < 16; i++) {
        lent = sound;
        ask(&GRANTED[SET_PHY_INFO], 0);
        lent.buffer_len = vectors[i].buffer;
        lent.buffer[LINUX_LENGTH] = vectors[i].length;
        check_at("buffer", i, answer_is(vectors[i].answer));
    }
    lent = sound;
    ask(&GRANTED[SET_PHY_INFO], 0);
    lent.buffer_len = LINUX;
    control = 24;
    check("a header alone: unknown code", code_alone(2));
    lent.buffer[LINUX_DIRECTION] = 2;
    check("a header alone: Direction", code_alone(3));
}

/* Every request, to a state that is refused: the sound one, one with no buffer, and one with a wrong medium and stage. */
static void state_is_refused(const char *what, const struct lent *refused)
{
    for (uint32_t i = 0; i < GRANTS; i++) {
        lent = *refused;
        ask(&GRANTED[i], 0);
        int right = number_alone(107);
        lent.buffer_len = 0;
        right = right && number_alone(107);
        lent.medium_len = 0;
        lent.stage_len = 0;
        check_asked(what, &GRANTED[i], i, right && number_alone(107));
    }
}

static void states(int level)
{
    const size_t places[9] = {ASCHEKNOPF_LEVEL, ASCHEKNOPF_PHY_COUNT, ASCHEKNOPF_PHY(1) + 20, ASCHEKNOPF_PHY(2) + ASCHEKNOPF_PHY_FIXED,
                              ASCHEKNOPF_PHY(31) + ASCHEKNOPF_PHY_SIZE - 1, ASCHEKNOPF_ROW(63) + ASCHEKNOPF_ROW_LUN,
                              ASCHEKNOPF_CONNECTOR(3) + ASCHEKNOPF_CONNECTOR_PINOUT, ASCHEKNOPF_CONNECTOR(32) - 1,
                              ASCHEKNOPF_STATE_SIZE - 1};
    const size_t lengths[9] = {0, 1, 3, 4096, ASCHEKNOPF_CONTROLLER, ASCHEKNOPF_STATUS, ASCHEKNOPF_STAGED, ASCHEKNOPF_STATE_SIZE - 1,
                               ASCHEKNOPF_STATE_SIZE + 1};
    open_sample("good", level);
    for (int i = 0; i < 9; i++) {
        struct lent broken = sound, other = sound;
        broken.state[places[i]] = 0x77;
        state_is_refused("a broken rule", &broken);
        other.state_len = lengths[i];
        state_is_refused("a state of another length", &other);
    }
    struct lent broken = sound;
    broken.state[ASCHEKNOPF_LEVEL] = 4;
    state_is_refused("a level over Full", &broken);
    broken = sound;
    memcpy(broken.state + ASCHEKNOPF_ROW(1), broken.state + ASCHEKNOPF_ROW(0), 16);
    state_is_refused("rows that share an address", &broken);
}

/* A text gives no protection under this header, but a refused opening leaves no adapter. */
static void refused_openings(void)
{
    const char *texts[4] = {"CSMI=full;", "CSMI=Full", "CSMI=Full;CSMI=Full;", "CSMI=None;CSMI=Full;"};
    for (int i = 0; i < 4; i++) {
        start("good");
        check("a refused text", opened(texts[i]) == 101);
        const struct lent refused = lent;
        state_is_refused("after a refused text", &refused);
    }
    start("good");
    lent.file[600] ^= 1;
    check("a refused file", opened(FULL) == 103);
    const struct lent refused = lent;
    state_is_refused("after a refused file", &refused);
}

static void media(void)
{
    const size_t lengths[6] = {0, 1, DISK, PHYS * DISK - DISK, PHYS * DISK - 1, PHYS * DISK + 1};
    open_sample("good", 0);
    for (uint32_t n = 0; n < 6 * GRANTS; n++) {
        lent = sound;
        lent.medium_len = lengths[n / GRANTS];
        ask(&GRANTED[n % GRANTS], 0);
        int right = number_alone(106);
        lent.buffer_len = 0;
        check_asked("a medium of another length", &GRANTED[n % GRANTS], (uint32_t)lent.medium_len, right && number_alone(106));
    }
}

/* A null pointer with length 0, for each argument and for all. */
static void null_pointers(void)
{
    uint8_t *medium = lent.medium, *stage = lent.stage, *state = lent.state, *buffer = lent.buffer;
    const size_t size = ASCHEKNOPF_STATE_SIZE, disks = PHYS * DISK;
    open_sample("good", 3);
    ask(&GRANTED[DRIVER_INFO], 0);
    before = lent;
    const size_t length = lent.buffer_len;
    check("null: state", ascheknopf_request_linux(NULL, 0, medium, disks, stage, STAGE, 1, buffer, length) == 107 && untouched());
    check("null: medium", ascheknopf_request_linux(state, size, NULL, 0, stage, STAGE, 1, buffer, length) == 106 && untouched());
    check("null: stage", ascheknopf_request_linux(state, size, medium, disks, NULL, 0, 1, buffer, length) == 106 && untouched());
    check("null: buffer", ascheknopf_request_linux(state, size, medium, disks, stage, STAGE, 1, NULL, 0) == 100 && untouched());
    check("null: medium and buffer", ascheknopf_request_linux(state, size, NULL, 0, stage, STAGE, 1, NULL, 0) == 106 && untouched());
    check("null: stage and buffer", ascheknopf_request_linux(state, size, medium, disks, NULL, 0, 1, NULL, 0) == 106 && untouched());
    check("null: all", ascheknopf_request_linux(NULL, 0, NULL, 0, NULL, 0, 1, NULL, 0) == 107);
}

/* What the header file calls the places of 4.2.3.1. */
static void places(void)
{
    check("size", ASCHEKNOPF_LINUX_SIZE == 20);
    check("controller and timeout", ASCHEKNOPF_LINUX_CONTROLLER == 0 && ASCHEKNOPF_LINUX_TIMEOUT == 12);
    check("Length", ASCHEKNOPF_LINUX_LENGTH == 4);
    check("return code", ASCHEKNOPF_LINUX_RETURN_CODE == 8);
    check("Direction", ASCHEKNOPF_LINUX_DIRECTION == 16);
}

int main(void)
{
    places();
    for (int level = 0; level < 4; level++) {
        order(level);
        states(level);
    }
    buffers();
    refused_openings();
    media();
    null_pointers();
    return finish();
}
