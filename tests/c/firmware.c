/* Code 4, firmware download, granted and denied: images that are validated and made current, in what order, and what code 2 shows of them,
   under both headers and at every level. Every byte that is lent is compared. What is expected was written down from W-207, document 01 and
   6.4. Runs in the repository's root. */
#define PROGRAM "firmware.c"
#include "firmware.h"

/* The revisions that the file has. */
static const uint8_t *files(void)
{
    return sound.state + RUNNING;
}

/* What the header file calls the places. */
static void places(void)
{
    check("the structure", ASCHEKNOPF_DOWNLOAD_BUFFER_LENGTH == LENGTH_AT && ASCHEKNOPF_DOWNLOAD_FLAGS == FLAGS_AT
                           && ASCHEKNOPF_DOWNLOAD_STATUS == ANSWER_AT && ASCHEKNOPF_DOWNLOAD_SEVERITY == ANSWER_AT + 2
                           && ASCHEKNOPF_DOWNLOAD_DATA == STRUCTURE && ASCHEKNOPF_DOWNLOAD_VALIDATE == VALIDATE_FLAG);
    check("the state", FLAG == 6181 && STAGED == 6182 && ASCHEKNOPF_STAGED_REVISIONS_SIZE == REVISIONS && ASCHEKNOPF_STATE_SIZE == 6190);
    check("the stage", ASCHEKNOPF_STAGE_SIZE == MOST_BLOCKS * IMAGE_BLOCK && STAGE == ASCHEKNOPF_STAGE_SIZE);
}

/* Validated, committed, and committed once more; code 2 shows the image's revisions after the commit and not before. */
static void update(const struct header *h, int level, size_t blocks)
{
    const uint32_t vector = (uint32_t)blocks << 8 | vector_of(h, level);
    make_image(1);
    lent = sound;
    check_at("validated", vector, validates(h, blocks));
    check_at("not yet current", vector, shows(files()));
    check_at("committed", vector, commits(h, image));
    check_at("current", vector, shows(image));
    check_at("committed twice", vector, commit_is_refused(h, 1) && shows(image));
}

/* Denied: nothing is touched, whether an image is sound, and whether one is staged. */
static void denied(int level)
{
    make_image(1);
    lent = sound;
    check_at("denied", (uint32_t)level, is_refused(&FIRST_HEADER, 1, 4) && is_refused(&FIRST_HEADER, MOST_BLOCKS, 4)
                                        && commit_is_refused(&FIRST_HEADER, 4));
    image[9] ^= 1;
    check_at("denied, a wrong check", (uint32_t)level, is_refused(&FIRST_HEADER, 1, 4));
    make_image(1);
    check_at("denied, staged by the Linux header", (uint32_t)level, validates(&LINUX_HEADER, 2) && is_refused(&FIRST_HEADER, 1, 4)
                                                                    && commit_is_refused(&FIRST_HEADER, 4) && shows(files()));
    check_at("current by the Linux header", (uint32_t)level, commits(&LINUX_HEADER, image) && shows(image));
}

/* One image after the other, the later one shorter and longer: the stage keeps what stands behind it, and the last revisions are
   committed. */
static void one_after_the_other(const struct header *h)
{
    const size_t blocks[5] = {MOST_BLOCKS, 1, 2, MOST_BLOCKS, 1};
    lent = sound;
    for (uint8_t i = 0; i < 5; i++) {
        make_image(i);
        check_at("another image", i, validates(h, blocks[i]) && shows(files()));
    }
    check("the last of them", commits(h, image) && shows(image));
    check("the same image twice", validates(h, 2) && validates(h, 2) && commits(h, image) && commit_is_refused(h, 1) && shows(image));
}

/* Validated under one header and committed under the other. */
static void both_headers(int level)
{
    for (int i = 0; i < 2; i++) {
        lent = sound;
        make_image(6);
        check_at("under one header and the other", vector_of(HEADERS[i], level), validates(HEADERS[i], 2) && commits(HEADERS[1 - i], image)
                                                                                 && shows(image));
    }
}

/* Revisions of 0 are revisions: such an image is staged, and committed once. And each byte of them alone. */
static void revisions(const struct header *h)
{
    for (uint32_t i = 0; i <= REVISIONS; i++) {
        make_image(7);
        memset(image, 0, REVISIONS);
        if (i < REVISIONS)
            image[i] = 0xFF;
        seal_image(0);
        lent = sound;
        check_at("revisions staged", i, validates(h, 1) && lent.state[FLAG] == 1 && shows(files()));
        check_at("revisions committed", i, commits(h, image) && shows(image) && commit_is_refused(h, 1));
    }
}

/* Reserved bytes, status and severity as sent: the last two are 0 afterwards, and the others stay. */
static void answers(const struct header *h)
{
    const uint8_t values[5] = {0, 1, 4, 0x80, 0xFF};
    make_image(8);
    for (int i = 0; i < 5; i++) {
        lent = sound;
        memset(ask_download(h, VALIDATE_FLAG, IMAGE_BLOCK, IMAGE_BLOCK) + FLAGS_AT + 4, values[i], STRUCTURE - FLAGS_AT - 4);
        check_at("answered, validated", values[i], stages(h, 1));
        memset(ask_download(h, 0, 0, 0) + FLAGS_AT + 4, values[i], STRUCTURE - FLAGS_AT - 4);
        check_at("answered, committed", values[i], makes_current(h, image));
        memset(ask_download(h, 0, 0, 0) + FLAGS_AT + 4, values[i], STRUCTURE - FLAGS_AT - 4);
        check_at("answered, refused", values[i], code_under(h, 1));
    }
}

/* Every flag, with the one that is read and without it. */
static void flags(const struct header *h, uint32_t flag)
{
    make_image(9);
    lent = sound;
    ask_download(h, flag | VALIDATE_FLAG, 2 * IMAGE_BLOCK, 2 * IMAGE_BLOCK);
    check_at("validated with a flag", flag, stages(h, 2));
    ask_download(h, flag | VALIDATE_FLAG, 0, 0);
    check_at("no commit with the flag", flag, code_under(h, 3));
    ask_download(h, flag & ~1u, IMAGE_BLOCK, IMAGE_BLOCK);
    check_at("an image without the flag", flag, code_under(h, 3));
    ask_download(h, flag & ~1u, 0, 0);
    check_at("committed with a flag", flag, makes_current(h, image));
    ask_download(h, flag & ~1u, 0, 0);
    check_at("nothing staged, with a flag", flag, code_under(h, 1));
}

/* Bytes behind the image, and behind a commit: Length and the buffer may count them, and they are not looked at. */
static void behind(const struct header *h)
{
    make_image(10);
    image[IMAGE_BLOCK + 3] ^= 1;
    for (size_t more = 0; more <= IMAGE_BLOCK; more += more < MORE ? 1 : IMAGE_BLOCK - MORE) {
        lent = sound;
        ask_download(h, VALIDATE_FLAG, IMAGE_BLOCK, IMAGE_BLOCK + more);
        check_at("bytes behind the image", (uint32_t)more, stages(h, 1));
        ask_download(h, 0, 0, more);
        check_at("bytes behind a commit", (uint32_t)more, makes_current(h, image));
        lent = sound;
        ask_download(h, VALIDATE_FLAG, IMAGE_BLOCK, IMAGE_BLOCK + more);
        put_word(lent.buffer + h->length, (uint32_t)(h->counted + STRUCTURE + IMAGE_BLOCK));
        check_at("bytes behind Length", (uint32_t)more, stages(h, 1));
    }
}

/* What the stage holds makes no difference to a commit. */
static void stage_is_not_read(const struct header *h)
{
    const uint8_t values[3] = {0, 0x5A, 0xFF};
    make_image(11);
    for (int i = 0; i < 3; i++) {
        lent = sound;
        int right = validates(h, MOST_BLOCKS);
        memset(lent.stage, values[i], STAGE);
        check_at("another stage", values[i], right && commits(h, image) && shows(image));
    }
}

/* Between validation and commit every other request leaves stage and staged revisions. */
static void between(const struct header *h, int level)
{
    make_image(12);
    lent = sound;
    check_at("staged", vector_of(h, level), validates(&LINUX_HEADER, 2));
    for (int i = 0; i < GRANTS; i++) {
        if (i == VALIDATE)
            continue;
        ask_under(h, &GRANTED[i], 0);
        check_asked("in between", &GRANTED[i], vector_of(h, level), handled_under(h) == 0 && stage_stays()
                                                                   && memcmp(lent.state + FLAG, before.state + FLAG, 1 + REVISIONS) == 0
                                                                   && memcmp(lent.state + RUNNING, files(), REVISIONS) == 0);
    }
    check_at("committed after them", vector_of(h, level), commits(&LINUX_HEADER, image));
}

static void granted(const struct header *h, int level)
{
    update(h, level, 1);
    update(h, level, 2);
    update(h, level, MOST_BLOCKS);
    one_after_the_other(h);
    revisions(h);
    answers(h);
    for (int bit = 0; bit < 32; bit++)
        flags(h, 1u << bit);
    flags(h, 0);
    flags(h, 0xFFFFFFFF);
    behind(h);
    stage_is_not_read(h);
}

int main(void)
{
    places();
    for (int level = 0; level < 4; level++) {
        open_sample("good", level);
        for (int i = 0; i < 2; i++) {
            if (may(HEADERS[i], level))
                granted(HEADERS[i], level);
            between(HEADERS[i], level);
        }
        if (may(&FIRST_HEADER, level))
            both_headers(level);
        else
            denied(level);
    }
    return finish();
}
