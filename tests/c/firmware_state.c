/* What is staged, in a state, and the stage that is lent: which bytes 107 refuses, that every request wants a stage of its size, and what an
   opening leaves. Every byte that is lent is compared. What is expected was written down from W-207 and document 01. Runs in the
   repository's root. */
#define PROGRAM "firmware_state.c"
#include "blocks.h"
#include "firmware.h"

/* Every request of the tables, and codes that are not served. */
enum { UNKNOWN_CODES = 4, ANY = GRANTS + REFUSALS + UNKNOWN_CODES };

static struct asked any(int i)
{
    const uint8_t unknown[UNKNOWN_CODES] = {0, 5, 23, 0xFF};
    struct asked a = GRANTED[PHY_INFO];
    if (i < GRANTS)
        return GRANTED[i];
    if (i < GRANTS + REFUSALS)
        return REFUSED[i - GRANTS];
    a.control = unknown[i - GRANTS - REFUSALS];
    return a;
}

/* Of the tests of state, stage and buffer the first that fails decides; nothing is touched. */
static void stage_length(const struct header *h, const struct asked *a, size_t length)
{
    lent = sound;
    lent.stage_len = length;
    ask_under(h, a, 0);
    int right = number_under(h, 106);
    lent.buffer_len = h->size - 1;
    right = right && number_under(h, 106);
    lent.buffer_len = 0;
    right = right && number_under(h, 106);
    lent.medium_len--;
    right = right && number_under(h, 106);
    lent.state[ASCHEKNOPF_PHY(1) + 20] = 0x77;
    right = right && number_under(h, 107);
    check_asked("a stage of another length", a, (uint32_t)length, right);
}

static void stage_lengths(const struct header *h)
{
    const size_t lengths[7] = {0, 1, 512, 8192, STAGE - 512, STAGE - 1, STAGE + 1};
    for (int i = 0; i < 7 * ANY; i++) {
        const struct asked a = any(i / 7);
        stage_length(h, &a, lengths[i % 7]);
    }
}

/* The same with an image staged: neither a validation nor a commit is made. */
static void staged_and_short(const struct header *h)
{
    make_image(2);
    lent = sound;
    check("staged", validates(&LINUX_HEADER, 2));
    lent.stage_len--;
    ask_download(h, 0, 0, 0);
    check("a commit with a short stage", number_under(h, 106));
    ask_download(h, VALIDATE_FLAG, IMAGE_BLOCK, IMAGE_BLOCK);
    check("a validation with a short stage", number_under(h, 106));
    lent.stage_len++;
    check("with the whole stage", shows(sound.state + RUNNING) && commits(&LINUX_HEADER, image));
}

/* Code 2 under both headers: 107 and nothing touched, or the configuration. The level is Restricted or more. */
static int state_answers(int sound_one)
{
    int right = 1;
    for (int i = 0; i < 2; i++) {
        ask_under(HEADERS[i], &GRANTED[CONTROLLER], 0);
        right = right && (sound_one ? shown_under(HEADERS[i], sound.state + ASCHEKNOPF_CONTROLLER, ASCHEKNOPF_CONTROLLER_SIZE)
                                    : number_under(HEADERS[i], 107));
    }
    return right;
}

/* Every flag, with revisions of 0 and with one byte of them that is not. */
static void staged_bytes(void)
{
    const uint8_t values[4] = {0, 1, 0x80, 0xFF};
    for (uint32_t flag = 0; flag < 256; flag++)
        for (uint32_t i = 0; i < 4 * REVISIONS; i++) {
            lent = sound;
            lent.state[FLAG] = (uint8_t)flag;
            lent.state[STAGED + i / 4] = values[i % 4];
            check_at("staged bytes", flag << 8 | i, state_answers(flag == 1 || (flag == 0 && i % 4 == 0)));
        }
}

/* To a state with wrong ones every request gets 107, before the lengths of medium, stage and buffer. */
static void before_all_else(const struct header *h, uint8_t flag, uint8_t revision)
{
    for (int i = 0; i < ANY; i++) {
        const struct asked a = any(i);
        lent = sound;
        lent.state[FLAG] = flag, lent.state[STAGED + 5] = revision;
        ask_under(h, &a, 0);
        int right = number_under(h, 107);
        lent.stage_len = 0;
        right = right && number_under(h, 107);
        lent.medium_len = 0;
        lent.buffer_len = 0;
        check_asked("staged bytes, before all else", &a, (uint32_t)flag << 8 | revision, right && number_under(h, 107));
    }
}

/* A state that a caller made: its revisions are committed, whatever they are and whatever the stage holds. */
static void made(const struct header *h, uint8_t first)
{
    uint8_t revisions[REVISIONS];
    for (uint8_t i = 0; i < REVISIONS; i++)
        revisions[i] = (uint8_t)(first + i * 0x31);
    lent = sound;
    lent.state[FLAG] = 1;
    memcpy(lent.state + STAGED, revisions, REVISIONS);
    check_at("a state that was made", first, commits(h, revisions) && shows(revisions) && commit_is_refused(h, 1));
}

/* An opening over a state with an image staged, and over other bytes in its place: it leaves nothing staged, and the file's revisions. */
static void opened_again(int level)
{
    const uint8_t flags[4] = {0, 1, 2, 0xFF};
    make_image(3);
    lent = sound;
    check_at("staged and committed", (uint32_t)level, validates(&LINUX_HEADER, 1) && commits(&LINUX_HEADER, image)
                                                      && validates(&LINUX_HEADER, 2));
    check_at("opened again", (uint32_t)level, opened(TEXTS[level]) == 0 && state_is_the_files((uint8_t)level) && store_stays());
    check_at("nothing to commit", (uint32_t)level, commit_is_refused(&LINUX_HEADER, 1) && shows(sound.state + RUNNING));
    for (int i = 0; i < 4; i++) {
        memset(lent.state, 0xFF, ASCHEKNOPF_STATE_SIZE);
        lent.state[FLAG] = flags[i];
        check_at("opened over other bytes", flags[i], opened(TEXTS[level]) == 0 && state_is_the_files((uint8_t)level) && store_stays());
    }
}

/* A refused opening leaves the zero state, in which nothing is staged and which every request refuses; the stage stays. */
static void opening_refused(void)
{
    make_image(4);
    lent = sound;
    check("staged before a refused opening", validates(&LINUX_HEADER, 2));
    check("a refused opening", opened("CSMI=full;") == 101 && all(lent.state, ASCHEKNOPF_STATE_SIZE, 0) && store_stays());
    for (int i = 0; i < 2; i++) {
        ask_download(HEADERS[i], 0, 0, 0);
        check_at("a commit after it", (uint32_t)i, number_under(HEADERS[i], 107));
        ask_download(HEADERS[i], VALIDATE_FLAG, IMAGE_BLOCK, IMAGE_BLOCK);
        check_at("a validation after it", (uint32_t)i, number_under(HEADERS[i], 107));
    }
}

int main(void)
{
    for (int level = 0; level < 4; level++) {
        open_sample(level % 2 ? "good" : "refusals", level);
        for (int i = 0; i < 2; i++) {
            stage_lengths(HEADERS[i]);
            staged_and_short(HEADERS[i]);
            before_all_else(HEADERS[i], 0, 1);
            before_all_else(HEADERS[i], 2, 0);
            before_all_else(HEADERS[i], 0xFF, 0xFF);
            if (may(HEADERS[i], level))
                for (int first = 0; first < 256; first += 15)
                    made(HEADERS[i], (uint8_t)first);
        }
        opened_again(level);
        opening_refused();
    }
    open_sample("good", 1);
    staged_bytes();
    return finish();
}
