/* Where ascheknopf_run_both ends: at the session's end, at a request that is cut short or has wrong numbers before it, or where the record is
   full. That request is not handled, and nothing of it is touched. What is expected was written down from W-201 and the header file. Runs
   in the repository's root. */
#define PROGRAM "both_ends.c"
#include "both.h"

/* What stands in the session ends before request n: those before it are done as if it ended there, and the rest is not touched. */
static void ends_before(const char *what, size_t n)
{
    static struct run damaged, shorter;
    const size_t at = place(n);
    damaged = run;
    run = mixed;
    run.session_len = at;
    int right = handled(RESTRICTED) == n - 1;
    shorter = run;
    run = damaged;
    right = right && handled(RESTRICTED) == n - 1 && session_stays(at) && memcmp(run.session, shorter.session, at) == 0
        && memcmp(run.medium, shorter.medium, sizeof run.medium) == 0 && memcmp(run.record, shorter.record, sizeof run.record) == 0
        && stage_stays();
    check_at(what, (uint32_t)n, right);
}

/* In the three numbers, between them and the request, and in its last byte. */
static void cut_requests(size_t n)
{
    run = mixed;
    const size_t at = place(n), cuts[6] = {1, 4, 8, BEFORE - 1, BEFORE, place(n + 1) - at - 1};
    for (int i = 0; i < 6; i++) {
        run = mixed;
        run.session_len = at + cuts[i];
        ends_before("a request cut short", n);
    }
}

/* One byte over what stands behind it; and where 12 more are none, or one. */
static void long_requests(size_t n)
{
    run = mixed;
    const uint32_t rest = (uint32_t)(run.session_len - place(n) - BEFORE);
    const uint32_t lengths[5] = {rest + 1, 0x7FFFFFFF, 0xFFFFFFF4, 0xFFFFFFF5, 0xFFFFFFFF};
    for (int i = 0; i < 5; i++) {
        run = mixed;
        put_word(run.session + place(n) + 8, lengths[i]);
        ends_before("a length over the session", n);
    }
}

static void numbers_end(const char *what, size_t n, uint32_t header, uint32_t control)
{
    run = mixed;
    put_word(run.session + place(n), header);
    put_word(run.session + place(n) + 4, control);
    ends_before(what, n);
}

static void other_numbers(size_t n)
{
    const uint32_t headers[6] = {2, 3, 0x100, 0x1000000, 0x80000001, 0xFFFFFFFF}, controls[5] = {1, 21, 0x100, 0x1000000, 0xFFFFFFFF};
    for (int i = 0; i < 6; i++) {
        numbers_end("another header", n, headers[i], 0);
        numbers_end("another header, with a control code", n, headers[i], 20);
    }
    for (int i = 0; i < 5; i++)
        numbers_end("a control code beside the first header", n, UNDER_FIRST, controls[i]);
}

static void short_records(size_t n)
{
    for (size_t more = 0; more < LINE; more++) {
        run = mixed;
        run.record_len = (n - 1) * LINE + more;
        ends_before("a record that is full", n);
    }
}

/* Under 12 bytes are no request, whatever they are; the three numbers alone are one of no bytes. */
static void small_sessions(void)
{
    for (size_t length = 0; length < BEFORE; length++) {
        run = mixed;
        run.session_len = length;
        check_at("a small session", (uint32_t)length, handled(FULL) == 0 && memcmp(&run, &before, sizeof run) == 0);
    }
    run = mixed;
    no_session();
    add(UNDER_FIRST, 0, 0);
    add(UNDER_LINUX, 1, 0);
    check("requests of no bytes", handled(FULL) == 2 && line_is(1, 100, NONE) && line_is(2, 100, NONE)
                                  && session_stays(0) && all(run.record + 2 * LINE, sizeof run.record - 2 * LINE, 0x5A));
}

/* Under the Linux header every control code is taken: 0 is an unknown one. */
static void control_zero(void)
{
    run = mixed;
    put_word(run.session + place(2) + 4, 0);
    check("control code 0 under the Linux header", handled(FULL) == REQUESTS && line_is(2, 0, 2) && line_is(3, 0, 0));
}

int main(void)
{
    make_mixed();
    for (size_t n = 1; n <= REQUESTS; n++) {
        cut_requests(n);
        long_requests(n);
        other_numbers(n);
        short_records(n);
    }
    small_sessions();
    control_zero();
    return finish();
}
