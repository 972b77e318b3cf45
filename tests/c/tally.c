/* The tally of a record, ascheknopf_tally: the kinds of its lines, rests, the bytes lent for the totals, and the records of runs under both
   framings. What is expected was written down from W-206, the header file and the descriptions of the samples. Runs in the repository's
   root. */
#define PROGRAM "tally.c"
#include "both.h"

enum { TOTALS = 40, GUARD = 16, MOST_LENT = 48, MOST_LINES = 8 };
static const uint64_t NO_TOTALS[5];

/* Lines to be tallied, and the bytes lent for the totals with others on both sides. */
static struct tallied {
    uint8_t record[MOST_LINES * LINE + 1], bytes[GUARD + MOST_LENT + GUARD];
} tallied, was;

static void put_line(size_t n, uint32_t call, uint32_t code)
{
    put_word(tallied.record + n * LINE, call);
    put_word(tallied.record + n * LINE + 4, code);
}

/* The call's number; so many bytes are lent for the totals. */
static uint32_t tally(const uint8_t *record, size_t record_len, size_t lent)
{
    memset(tallied.bytes, 0x5A, sizeof tallied.bytes);
    was = tallied;
    return ascheknopf_tally(record, record_len, tallied.bytes + GUARD, lent);
}

/* The five numbers are these, and nothing else is written. */
static int totals_are(const uint64_t expected[5])
{
    int same = 1;
    for (int i = 0; i < 5; i++) {
        const uint8_t *at = tallied.bytes + GUARD + 8 * i;
        same = same && (word(at) | (uint64_t)word(at + 4) << 32) == expected[i];
    }
    memcpy(was.bytes + GUARD, tallied.bytes + GUARD, TOTALS);
    return same && memcmp(&tallied, &was, sizeof tallied) == 0;
}

static int tallied_as(const uint8_t *record, size_t record_len, const uint64_t expected[5])
{
    return tally(record, record_len, TOTALS) == 0 && totals_are(expected);
}

/* What the header file calls them. */
static void places(void)
{
    check("the places", ASCHEKNOPF_TOTALS_SIZE == TOTALS && ASCHEKNOPF_TOTALS_REQUESTS == 0 && ASCHEKNOPF_TOTALS_GRANTED == 8
                        && ASCHEKNOPF_TOTALS_DENIED == 16 && ASCHEKNOPF_TOTALS_OTHERWISE_REFUSED == 24 && ASCHEKNOPF_TOTALS_SHORT == 32);
}

/* A line by itself is of this kind, by its place behind the requests. */
static void kind_is(uint32_t call, uint32_t code, size_t kind)
{
    uint64_t expected[5] = {1};
    char name[64];
    expected[kind] = 1;
    put_line(0, call, code);
    snprintf(name, sizeof name, "the kind of a line, %lX %lX", (unsigned long)call, (unsigned long)code);
    check(name, tallied_as(tallied.record, LINE, expected));
}

enum { GRANTED_LINE = 1, DENIED_LINE, OTHER_LINE, SHORT_LINE };

/* Numbers that are 0, 4 or 100 but for one bit or in another byte are others. */
static void kinds(void)
{
    const uint32_t codes[] = {0, 4, 2000, 0xFFFFFFFF, 1, 2, 3, 5, 100, 2002, 0x100, 0x104, 0x4000000, 0x80000000, 0x80000004};
    const uint32_t calls[] = {1, 4, 99, 101, 106, 107, 108, 2000, 0x100, 0x164, 0x6400, 0x64000000, 0x80000000, 0x80000064, 0xFFFFFFFF};
    enum { CODES = sizeof codes / sizeof codes[0], CALLS = sizeof calls / sizeof calls[0] };
    for (int i = 0; i < CODES; i++) {
        kind_is(0, codes[i], codes[i] == 0 ? GRANTED_LINE : codes[i] == 4 ? DENIED_LINE : OTHER_LINE);
        kind_is(100, codes[i], SHORT_LINE);
        for (int j = 0; j < CALLS; j++)
            kind_is(calls[j], codes[i], OTHER_LINE);
    }
}

/* One granted, two denied, three otherwise refused and two 100s. */
static void put_lines(void)
{
    put_line(0, 0, 4);
    put_line(1, 100, NONE);
    put_line(2, 0, 2000);
    put_line(3, 0, 0);
    put_line(4, 107, 0);
    put_line(5, 0, 4);
    put_line(6, 100, 0);
    put_line(7, 106, 4);
}

/* Every length of the record, whatever the rest is: it counts nowhere. */
static void rests(void)
{
    const uint64_t expected[MOST_LINES + 1][5] = {{0},          {1, 0, 1, 0, 0}, {2, 0, 1, 0, 1}, {3, 0, 1, 1, 1}, {4, 1, 1, 1, 1},
                                                  {5, 1, 1, 2, 1}, {6, 1, 2, 2, 1}, {7, 1, 2, 2, 2}, {8, 1, 2, 3, 2}};
    put_lines();
    for (size_t length = 0; length <= MOST_LINES * LINE; length++)
        check_at("a record of this length", (uint32_t)length, tallied_as(tallied.record, length, expected[length / LINE]));
    memset(tallied.record, 0, sizeof tallied.record);
    for (size_t length = 0; length <= MOST_LINES * LINE; length++) {
        const uint64_t granted[5] = {length / LINE, length / LINE};
        check_at("zeros of this length", (uint32_t)length, tallied_as(tallied.record, length, granted));
    }
}

/* It need not stand at a multiple of 4. */
static void unaligned(void)
{
    const uint64_t expected[5] = {8, 1, 2, 3, 2};
    put_lines();
    memmove(tallied.record + 1, tallied.record, MOST_LINES * LINE);
    check("a record at an odd place", tallied_as(tallied.record + 1, MOST_LINES * LINE, expected));
}

/* Under 40 bytes nothing is written, and past them nothing either. */
static void lengths_of_totals(void)
{
    const uint64_t expected[5] = {8, 1, 2, 3, 2};
    put_lines();
    for (size_t lent = 0; lent <= MOST_LENT; lent++) {
        uint32_t number = tally(tallied.record, MOST_LINES * LINE, lent);
        int right = lent < TOTALS ? number == 100 && memcmp(&tallied, &was, sizeof tallied) == 0 : number == 0 && totals_are(expected);
        check_at("totals of this length", (uint32_t)lent, right);
    }
}

/* A null pointer with length 0. */
static void null_pointers(void)
{
    put_lines();
    check("null: record", tallied_as(NULL, 0, NO_TOTALS));
    check("null: record, totals too short", tally(NULL, 0, TOTALS - 1) == 100 && memcmp(&tallied, &was, sizeof tallied) == 0);
    check("null: totals", ascheknopf_tally(tallied.record, MOST_LINES * LINE, NULL, 0) == 100);
    check("null: both", ascheknopf_tally(NULL, 0, NULL, 0) == 100);
}

static size_t handled_first(const char *text)
{
    return ascheknopf_run((const uint8_t *)text, strlen(text), run.file, run.file_len, run.medium, run.medium_len,
                          run.stage, run.stage_len, run.session, run.session_len, run.record, run.record_len);
}

/* The first lines of the record, as many as the run gave; the rest, 5Ah, is otherwise refused if it is tallied too. The record stays. */
static void run_is(const char *what, size_t count, const uint64_t expected[5])
{
    const uint64_t more = sizeof run.record / LINE - count;
    const uint64_t all_lines[5] = {expected[0] + more, expected[1], expected[2], expected[3] + more, expected[4]};
    before = run;
    check(what, count == expected[0] && tallied_as(run.record, count * LINE, expected)
                && tallied_as(run.record, sizeof run.record, all_lines) && memcmp(&run, &before, sizeof run) == 0);
}

static void runs_of_the_first_header(void)
{
    const uint64_t good[5] = {15, 15}, low[5] = {12, 5, 6, 1, 0}, high[5] = {12, 8, 0, 4, 0}, refusals[5] = {17, 1, 4, 11, 1};
    const uint64_t cut[5] = {14, 14}, refused[5] = {15, 0, 0, 15, 0};
    start("good");
    run_is("good", handled_first(RESTRICTED), good);
    start("writes");
    run_is("writes, low", handled_first(RESTRICTED), low);
    start("writes");
    run_is("writes, high", handled_first(FULL), high);
    start("refusals");
    run_is("refusals", handled_first(RESTRICTED), refusals);
    start("good");
    run.session_len--;
    run_is("a cut request", handled_first(FULL), cut);
    start("good");
    run_is("a refused opening", handled_first("CSMI=full;"), refused);
    start("good");
    run.session_len = 0;
    run_is("no request", handled_first(FULL), NO_TOTALS);
}

static void runs_of_both_headers(void)
{
    const uint64_t none[5] = {REQUESTS, 5, 11, 4, 2}, low[5] = {REQUESTS, 13, 3, 4, 2}, full[5] = {REQUESTS, 16, 0, 4, 2};
    const uint64_t refused[5] = {REQUESTS, 0, 0, REQUESTS, 0}, cut[5] = {4, 3, 1, 0, 0};
    make_mixed();
    run_is("both, None", handled("CSMI=None;"), none);
    run = mixed;
    run_is("both, Restricted", handled(RESTRICTED), low);
    run = mixed;
    run_is("both, Full", handled(FULL), full);
    run = mixed;
    run_is("both, a refused opening", handled("CSMI=full;"), refused);
    run = mixed;
    put_word(run.session + place(5), 2);
    run_is("both, another header", handled(RESTRICTED), cut);
}

/* A change of a fixed phy is told 2000, which section 10 has as a refusal. */
static void fixed_phy(void)
{
    const struct asked *fixed = &REFUSED[1];
    const uint64_t expected[5] = {2, 0, 0, 2, 0};
    start("refusals");
    no_session();
    put_first(fixed, 0, add(UNDER_FIRST, 0, FIRST + fixed->size));
    put_linux(fixed, 0, add(UNDER_LINUX, fixed->control, LINUX + fixed->size));
    run_is("a fixed phy", handled(FULL), expected);
    check("a fixed phy: its lines", line_is(1, 0, 2000) && line_is(2, 0, 2000));
}

int main(void)
{
    places();
    kinds();
    rests();
    unaligned();
    lengths_of_totals();
    null_pointers();
    runs_of_the_first_header();
    runs_of_both_headers();
    fixed_phy();
    return finish();
}
