/*
 * Calls the functions of include/sip_dialog.h on runs of verdicts, accepted and refused: what each returns, and what every lent
 * number, every byte of the run and the bytes around it then hold. Expected bytes come from docs/LAYOUTS.md, expected answers
 * from change request 10, not from the code.
 */
#include "c_face.h"

enum { ENTRY = SIP_DIALOG_ENTRY_SIZE, FULL = SIP_DIALOG_RUN_SIZE, MOST = FULL / ENTRY };

#define MINUTE UINT64_C(60000000000)

struct verdict {
    uint64_t time;
    uint8_t number;
};

/* ---- Calls */

/* An add in so much room, on a content of which `used` bytes are said to be used: the number, the used length afterwards, and that
   the front of the lent bytes is then `after`. */
static bool adds_in(struct area run, size_t used, struct verdict v, uint8_t number, size_t left, const uint8_t *after, size_t length)
{
    size_t n[3] = {KEPT, KEPT, KEPT};
    uint8_t returned;
    n[1] = used;
    returned = sip_dialog_add_verdict(v.time, v.number, run.bytes, run.room, &n[1]);
    return front_became(run, after, length) && returned == number && n[0] == KEPT && n[1] == left && n[2] == KEPT;
}

/* The same of the worst minute, whose numbers are kept where it is refused. */
static bool worst_in(struct area run, size_t used, uint8_t number, size_t refusals, uint8_t found, uint64_t start)
{
    size_t r[3] = {KEPT, KEPT, KEPT};
    uint8_t f[3] = {KEPT, KEPT, KEPT};
    uint64_t s[3] = {KEPT, KEPT, KEPT};
    uint8_t returned = sip_dialog_worst_minute(run.bytes, run.room, used, &r[1], &f[1], &s[1]);
    bool kept = r[0] == KEPT && r[2] == KEPT && f[0] == KEPT && f[2] == KEPT && s[0] == KEPT && s[2] == KEPT;
    return front_became(run, NULL, 0) && returned == number && kept && r[1] == refusals && f[1] == found && s[1] == start;
}

/* ---- Runs, by docs/LAYOUTS.md */

static size_t write_run(uint8_t *out, const struct verdict *verdicts, size_t count)
{
    size_t i;
    int byte;
    for (i = 0; i < count; i++) {
        for (byte = 0; byte < 8; byte++) {
            out[i * ENTRY + (size_t)byte] = (uint8_t)(verdicts[i].time >> (56 - 8 * byte));
        }
        out[i * ENTRY + 8] = verdicts[i].number;
    }
    return count * ENTRY;
}

/* A run of these verdicts has this worst minute, in room enough and in no more than is used. */
static bool worst_is(const struct verdict *verdicts, size_t count, size_t refusals, uint64_t start)
{
    static uint8_t run[FULL];
    size_t used = write_run(run, verdicts, count);
    return worst_in(lend_area(run, used, used + 20), used, 0, refusals, 1, start) && worst_in(lend_area(run, used, used), used, 0, refusals, 1, start);
}

/* Both calls refuse these bytes with 3. */
static bool no_run(const uint8_t *bytes, size_t length, size_t room, size_t used)
{
    struct verdict v = {5, 11};
    return adds_in(lend_area(bytes, length, room), used, v, 3, used, NULL, 0) && worst_in(lend_area(bytes, length, room), used, 3, KEPT, KEPT, KEPT);
}

/* ---- Tests */

/* The two entries of docs/LAYOUTS.md, one after the other; 18 with a byte less, and 3 where fewer bytes are lent than are used. */
static void test_entries(void)
{
    static const uint8_t two[] = "\0\0\0\x0D\xF8\x47\x58\0" "\0" "\0\0\0\x0D\xF8\x47\x58\0" "\x0B";
    struct verdict taken = {MINUTE, 0}, refused = {MINUTE, 11}, earlier = {1, 11};
    CHECK(adds_in(lend_area(two, 0, 100), 0, taken, 0, ENTRY, two, ENTRY));
    CHECK(adds_in(lend_area(two, 0, ENTRY), 0, taken, 0, ENTRY, two, ENTRY));
    CHECK(adds_in(lend_area(two, 0, ENTRY - 1), 0, taken, 18, 0, NULL, 0));
    CHECK(adds_in(lend_area(two, 0, 0), 0, taken, 18, 0, NULL, 0));
    CHECK(adds_in(lend_area(two, ENTRY, 2 * ENTRY), ENTRY, refused, 0, 2 * ENTRY, two, 2 * ENTRY));
    CHECK(adds_in(lend_area(two, ENTRY, 2 * ENTRY + 1), ENTRY, refused, 0, 2 * ENTRY, two, 2 * ENTRY));
    CHECK(adds_in(lend_area(two, ENTRY, 2 * ENTRY - 1), ENTRY, refused, 18, ENTRY, NULL, 0));
    CHECK(adds_in(lend_area(two, ENTRY, ENTRY), ENTRY, refused, 18, ENTRY, NULL, 0));
    CHECK(adds_in(lend_area(two, ENTRY, ENTRY - 1), ENTRY, refused, 3, ENTRY, NULL, 0));
    /* a time below the last one is taken as that one */
    CHECK(adds_in(lend_area(two, ENTRY, 30), ENTRY, earlier, 0, 2 * ENTRY, two, 2 * ENTRY));
}

static void test_no_run(void)
{
    static uint8_t run[FULL + ENTRY];
    struct verdict three[] = {{7, 0}, {7, 11}, {8, 12}};
    size_t used = write_run(run, three, 3), cut;
    CHECK(no_run(run, used, used - 1, used));
    CHECK(no_run(run, used, used, used + 1));
    CHECK(no_run(run, used, used, SIZE_MAX));
    CHECK(no_run(run, used, 0, 1));
    for (cut = 1; cut < used; cut++) {
        CHECK(cut % ENTRY == 0 || no_run(run, used, used + 20, cut));
    }
    run[2 * ENTRY + 7] = 6;
    CHECK(no_run(run, used, used + 20, used));
    memset(run, 0, sizeof run);
    CHECK(no_run(run, sizeof run, sizeof run, FULL + ENTRY));
    CHECK(worst_in(lend_area(run, sizeof run, sizeof run), FULL, 0, 0, 1, 0));
}

/* "An empty run gives 0 and no start". */
static void test_empty(void)
{
    CHECK(worst_in(lend_area(NULL, 0, 0), 0, 0, 0, 0, KEPT));
    CHECK(worst_in(lend_area(NULL, 0, 30), 0, 0, 0, 0, KEPT));
}

#define WORST(refusals, start, ...)                                                                                    \
    do {                                                                                                               \
        struct verdict given[] = {__VA_ARGS__};                                                                        \
        CHECK(worst_is(given, sizeof given / sizeof given[0], (refusals), (start)));                                   \
    } while (0)

static void test_worst(void)
{
    WORST(1, 5, {5, 11});
    WORST(0, 5, {5, 0});
    WORST(0, 5, {5, 0}, {6, 0});
    /* a minute starts at an accepted verdict too */
    WORST(1, 0, {0, 0}, {1, 11});
    WORST(1, 1, {0, 0}, {1, 0}, {MINUTE, 255});
    /* the start included, the end excluded */
    WORST(2, 0, {0, 1}, {MINUTE - 1, 1});
    WORST(1, 0, {0, 1}, {MINUTE, 1});
    WORST(2, 0, {0, 1}, {1, 1}, {MINUTE, 1});
    WORST(2, 1, {0, 0}, {1, 1}, {MINUTE, 1});
    /* the earliest of equals, and the later one with more */
    WORST(2, 10, {10, 9}, {20, 9}, {2 * MINUTE, 9}, {2 * MINUTE + 1, 9});
    WORST(3, 2 * MINUTE, {10, 9}, {20, 9}, {2 * MINUTE, 9}, {2 * MINUTE + 1, 9}, {2 * MINUTE + 1, 9});
    WORST(2, 5, {5, 0}, {5, 9}, {5, 9});
    /* the largest times */
    WORST(2, UINT64_MAX - MINUTE + 1, {0, 1}, {UINT64_MAX - MINUTE, 1}, {UINT64_MAX - MINUTE + 1, 0}, {UINT64_MAX, 1}, {UINT64_MAX, 1});
    WORST(1, 0, {0, 1}, {UINT64_MAX, 1});
}

/* 4,096 verdicts, and what a 4,097th drops: bytes past the used ones stay. */
static void test_full(void)
{
    static struct verdict verdicts[MOST + 1];
    static uint8_t run[FULL], after[FULL];
    struct verdict next = {3, 13};
    size_t i;
    for (i = 0; i < MOST; i++) {
        verdicts[i].time = i;
        verdicts[i].number = (uint8_t)(i % 2 == 0 ? 11 : 0);
    }
    CHECK(write_run(run, verdicts, MOST) == FULL);
    CHECK(worst_in(lend_area(run, FULL, FULL), FULL, 0, MOST / 2, 1, 0));
    /* the time of the last is kept for the new one, which comes later in the run */
    verdicts[MOST].time = MOST - 1;
    verdicts[MOST].number = next.number;
    CHECK(write_run(after, verdicts + 1, MOST) == FULL);
    CHECK(adds_in(lend_area(run, FULL, FULL), FULL, next, 0, FULL, after, FULL));
    CHECK(adds_in(lend_area(run, FULL, FULL + 50), FULL, next, 0, FULL, after, FULL));
    CHECK(adds_in(lend_area(run, FULL, FULL - 1), FULL, next, 3, FULL, NULL, 0));
    CHECK(worst_in(lend_area(after, FULL, FULL), FULL, 0, MOST / 2, 1, 1));
}

/* 10^12, then 4,096 times 0, all refused, call after call: the first is dropped, and its time stays that of the others. */
static void test_back(void)
{
    static uint8_t run[FULL];
    size_t used = 0, refusals = 0;
    uint8_t found = 0;
    uint64_t start = 0;
    int i;
    CHECK(sip_dialog_add_verdict(UINT64_C(1000000000000), 11, run, sizeof run, &used) == 0);
    for (i = 0; i < MOST; i++) {
        CHECK(sip_dialog_add_verdict(0, 11, run, sizeof run, &used) == 0);
    }
    CHECK(used == FULL);
    CHECK(sip_dialog_worst_minute(run, sizeof run, used, &refusals, &found, &start) == 0);
    CHECK(refusals == MOST && found == 1 && start == UINT64_C(1000000000000));
}

void test_verdicts(void)
{
    static void (*const tests[])(void) = {test_entries, test_no_run, test_empty, test_worst, test_full};
    run_guarded(tests, sizeof tests / sizeof tests[0]);
    test_back();
}
