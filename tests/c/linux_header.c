/* The bytes of the Linux header: Direction, Length and the control code beside it, on every code that is served, at None; and the bytes
   that are not read. What is expected was written down from W-201, document 01 and section 10 of 001. Runs in the repository's root. */
#define PROGRAM "linux_header.c"
#include "linux.h"

static void put_direction(unsigned direction)
{
    lent.buffer[LINUX_DIRECTION] = direction & 0xFF;
    lent.buffer[LINUX_DIRECTION + 1] = direction >> 8;
}

/* The two constants are good for every code and make no difference; all 16 bits are read. */
static void directions(const struct asked *a)
{
    const uint16_t wrong[8] = {2, 3, 0xFF, 0x100, 0x101, 0x8000, 0xFFFE, 0xFFFF};
    lent = sound;
    ask(a, 0);
    check_asked("Direction", a, 0, answered(0));
    const struct lent read = lent;
    lent = sound;
    ask(a, 0);
    put_direction(1);
    int written = answered(0);
    put_direction(0);
    check_asked("Direction", a, 1, written && memcmp(&lent, &read, sizeof lent) == 0);
    for (int i = 0; i < 8; i++) {
        lent = sound;
        ask(a, 0);
        put_direction(wrong[i]);
        check_asked("Direction", a, wrong[i], code_alone(3));
    }
}

static void length_is(const struct asked *a, uint32_t length, int good)
{
    lent = sound;
    ask(a, MORE);
    put_word(lent.buffer + LINUX_LENGTH, length);
    check_asked("Length", a, length, good ? answered(0) : code_alone(3));
}

/* Length counts the header, and all its 32 bits are read; the return code is written even where it is under 12. */
static void lengths(const struct asked *a)
{
    const uint32_t least = LINUX + (uint32_t)a->size, most = least + MORE;
    const uint32_t wrong[15] = {0, 8, 11, 12, 19, a->size, least - 1, most + 1, least + 0x100, least + 0x10000, least + 0x1000000,
                                0x80000000, 0x80000000 + least, 0xFFFFFFFF - LINUX, 0xFFFFFFFF};
    for (int i = 0; i < 15; i++)
        length_is(a, wrong[i], 0);
    for (uint32_t length = least; length <= most; length++)
        length_is(a, length, 1);
    lent = sound;
    ask(a, 0);
    lent.buffer_len--;
    check_asked("a buffer one byte short", a, least, code_alone(3));
    lent.buffer_len++;
    check_asked("a buffer just long enough", a, least, answered(0));
}

/* The data of code 25 counts too, and no sum wraps around. The command moves none, so its own checks let any uDataLength pass. */
static void data_lengths(void)
{
    const struct { uint32_t data, length; int good; } vectors[15] = {
        {0, 156, 1}, {1, 156, 0}, {1, 157, 1}, {MORE, 163, 1}, {MORE + 1, 163, 0}, {0x10000, 163, 0}, {0x1000000, 163, 0},
        {0x80000000, 163, 0}, {0xFFFFFFFF, 163, 0}, {0xFFFFFFFF, 0xFFFFFFFF, 0}, {0u - 156, 163, 0}, {0u - 155, 163, 0},
        {0u - 136, 163, 0}, {0u - 135, 163, 0}, {0u - 20, 163, 0},
    };
    for (uint32_t i = 0; i < 15; i++) {
        lent = sound;
        uint8_t *body = ask(&GRANTED[POWER_MODE], MORE);
        put_word(body + 40, vectors[i].data);
        put_word(lent.buffer + LINUX_LENGTH, vectors[i].length);
        check_at("uDataLength", i, vectors[i].good ? answered(0) : code_alone(3));
    }
    /* the buffer ends in the structure: before uDataLength, in it and behind it */
    for (uint32_t length = LINUX; length < LINUX + 136; length++) {
        lent = sound;
        ask(&GRANTED[POWER_MODE], 0);
        lent.buffer_len = length;
        put_word(lent.buffer + LINUX_LENGTH, length);
        check_at("code 25 in a short buffer", length, code_alone(3));
    }
}

/* Document 01's numbers are known, and no others: not those that later requests will serve, and not Linux's own of section 10. */
static void controls(void)
{
    const uint32_t unknown[38] = {0, 5, 10, 11, 19, 23, 24, 29, 31, 60, 61, 0x101, 0x102, 0x103, 0x115, 0x11E, 0x10019, 0x1000019,
        0x80000015, 0xFFFFFFFF, 0xCC770001, 0xCC770002, 0xCC770003, 0xCC770004, 0xCC77000A, 0xCC77000B, 0xCC770014, 0xCC770015, 0xCC770016,
        0xCC770017, 0xCC770018, 0xCC770019, 0xCC770020, 0xCC770021, 0xCC770022, 0xCC770023, 0xCC770024, 0xCC77003C};
    for (int i = 0; i < 38; i++) {
        lent = sound;
        ask(&GRANTED[PHY_INFO], 0);
        control = unknown[i];
        int right = code_alone(2);
        put_word(lent.buffer + LINUX_LENGTH, 0);
        check_at("unknown code", unknown[i], right && code_alone(2));
    }
}

/* No signature is looked for. Where the first header has it, there are a Length, here one over the buffer, and the old return code. */
static void signatures(const struct asked *a)
{
    lent = sound;
    ask(a, 0);
    memcpy(lent.buffer + 4, signature(a->control), 8);
    int right = code_alone(3);
    control = 24;
    check_asked("a signature", a, 4, right && code_alone(2));
    lent = sound;
    ask(a, 0);
    memcpy(lent.buffer + LINUX_CODE, "SAS", 4);
    check_asked("the end of a signature", a, 8, answered(0));
    /* a sound request under the first header, which has its control code where the Direction is */
    lent = sound;
    memset(lent.buffer, 0, sizeof lent.buffer);
    lent.buffer_len = put_first(a, 0, lent.buffer);
    control = a->control;
    check_asked("the first header", a, 0, code_alone(3));
}

/* The controller's number, the old return code, Timeout and the last two bytes make no difference; `answered` holds that they stay. */
static void unread(const struct asked *a, uint8_t value)
{
    lent = sound;
    ask(a, 0);
    int same = answered(0);
    const struct lent plain = lent;
    lent = sound;
    ask(a, 0);
    memset(lent.buffer, value, 4);
    memset(lent.buffer + LINUX_CODE, value, 8);
    memset(lent.buffer + LINUX_DIRECTION + 2, value, 2);
    same = same && answered(0);
    memcpy(lent.buffer, plain.buffer, LINUX);
    check_asked("bytes that are not read", a, value, same && memcmp(&lent, &plain, sizeof lent) == 0);
}

int main(void)
{
    open_sample("good", 0);
    for (int i = 0; i < GRANTS; i++) {
        directions(&GRANTED[i]);
        lengths(&GRANTED[i]);
        signatures(&GRANTED[i]);
        unread(&GRANTED[i], 0xFF);
        unread(&GRANTED[i], 0x5A);
    }
    data_lengths();
    controls();
    return finish();
}
