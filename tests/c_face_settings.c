/*
 * Calls every function that is given a site's settings with others than the Rust's: 30 on both sides of each bound, before every other
 * cause and with everything kept, and what the five figures do. Expected answers come from change request 7, not from the code.
 */
#include "c_face.h"

#define SECOND UINT64_C(1000000000)
#define TEXT(t) (const uint8_t *)(t), sizeof(t) - 1

enum { FIGURES = 5, ROOM = 1200, OUT = 300, TOO_LONG = LONGEST + 1 };

static const uint32_t least_of[FIGURES] = {1, 1, 1, 1, 1};
static const uint32_t most_of[FIGURES] = {65535, 32, 3600, 3600, 100};

/* The Rust's settings with one figure changed. */
static sip_dialog_settings with(size_t figure, uint32_t value)
{
    sip_dialog_settings s = RUST;
    uint32_t *const figures[FIGURES] = {&s.cseq_jump, &s.pending, &s.cleanup_seconds, &s.timeout_seconds, &s.early_cap};
    *figures[figure] = value;
    return s;
}

/* ---- One call of each function */

/* All that a call is lent: a text that is only read, bytes with their used length, output and numbers. */
struct lent {
    const uint8_t *text;
    size_t text_len;
    size_t room;
    size_t used;
    uint8_t bytes[ROOM];
    uint8_t out[OUT];
    uint8_t small[3];
    uint32_t middle[3];
    size_t length[6];
    uint64_t large;
};

#define L (*l)
#define CHANGED_OF(l) (l).bytes, (l).room, &(l).used
#define ID TEXT_OF, TEXT("L"), TEXT("R")
#define TEXT_OF l->text, l->text_len
#define BLOCK TEXT("CSeq:8 A\r\nCall-ID:c1\r\nFrom:;tag=R\r\nTo:;tag=L\r\nRAck:1 1 INVITE\r\n")
#define CHANGED l->bytes, l->room, &l->used
#define READ l->bytes, l->room, l->used
#define IMAGE_READ l->bytes, l->used

typedef uint8_t call_function(sip_dialog_settings s, struct lent *l);

/* A function that makes the call of this name. */
#define CALL(name, ...)                                                                                                \
    static uint8_t call_##name(sip_dialog_settings s, struct lent *l)                                              \
    {                                                                                                                  \
        return sip_dialog_##name(s, __VA_ARGS__);                                                                      \
    }

CALL(image_id, IMAGE_READ, &L.length[0], &L.length[1], &L.length[2], &L.length[3], &L.length[4], &L.length[5])
CALL(image_state, IMAGE_READ, &L.small[0], &L.small[1], &L.small[2])
CALL(image_uris, IMAGE_READ, &L.length[0], &L.length[1], &L.length[2], &L.length[3], &L.length[4], &L.length[5])
static uint8_t call_image_numbers(sip_dialog_settings s, struct lent *l)
{
    uint32_t last_ack = KEPT;
    uint8_t number = sip_dialog_image_numbers(s, IMAGE_READ, &L.middle[0], &L.middle[1], &L.small[0], &last_ack, &L.small[1],
                                              &L.middle[2], &L.small[2]);
    CHECK(last_ack == KEPT); /* the record has none */
    return number;
}
CALL(image_route_count, IMAGE_READ, &L.length[0])
CALL(image_route, IMAGE_READ, 0, &L.small[0], &L.length[0], &L.length[1])
CALL(image_matches_request, TEXT_OF, IMAGE_READ, &L.small[0])
CALL(image_needs_refresh, IMAGE_READ, 0, &L.small[0])
CALL(image_confirm, CHANGED)
CALL(image_terminate, CHANGED)
CALL(image_next_local_cseq, CHANGED, &L.middle[0])
CALL(image_set_session_expires, CHANGED, 90, &L.large)
CALL(image_update_from_request, TEXT_OF, BLOCK, CHANGED)
CALL(image_update_from_response, 200, TEXT_OF, CHANGED)
static uint8_t call_put(sip_dialog_settings s, struct lent *l)
{
    struct image record = sheet_image();
    return sip_dialog_put(s, record.bytes, record.length, CHANGED, &L.large);
}
CALL(request, TEXT_OF, BLOCK, CHANGED)
CALL(response, ID, 200, NULL, 0, CHANGED)
CALL(terminate, ID, CHANGED)
CALL(next_local_cseq, ID, CHANGED, &L.middle[0])
CALL(set_session_expires, ID, 90, CHANGED, &L.large)
CALL(remove, ID, CHANGED, &L.large)
CALL(sweep, CHANGED)
CALL(get, ID, READ, &L.length[0], &L.length[1])
CALL(find_by_call_id, TEXT_OF, READ, &L.length[0], &L.length[1])
CALL(find_by_request, TEXT_OF, READ, &L.length[0], &L.length[1])
CALL(count, READ, &L.length[0])
CALL(all_ids, READ, L.out, OUT, &L.length[0])
CALL(listing, IMAGE_READ, L.out, OUT, &L.length[0])
CALL(prack_register, TEXT_OF, 2, 1, 1, 180, SECOND, CHANGED)
CALL(prack_validate, TEXT_OF, BLOCK, SECOND, CHANGED, &L.middle[0], &L.middle[1], &L.small[0])
CALL(prack_is_pracked, TEXT_OF, 1, READ, &L.small[0])
CALL(prack_get_pending, TEXT_OF, SECOND, CHANGED, L.out, OUT, &L.length[0])
CALL(prack_remove_dialog, TEXT_OF, CHANGED)
CALL(prack_remove_pracked, TEXT_OF, 1, CHANGED)

/* Each with the text that it is given: a Call-ID or a method; a block; a dialog's text of a PRACK store; or none. */
enum given { CALL_ID, A_BLOCK, DIALOG, NO_TEXT };

static const struct {
    call_function *call;
    enum given given;
} functions[] = {
    {call_image_id, NO_TEXT}, {call_image_state, NO_TEXT}, {call_image_uris, NO_TEXT}, {call_image_numbers, NO_TEXT}, {call_image_route_count, NO_TEXT},
    {call_image_route, NO_TEXT}, {call_image_matches_request, A_BLOCK}, {call_image_needs_refresh, NO_TEXT}, {call_image_confirm, NO_TEXT},
    {call_image_terminate, NO_TEXT}, {call_image_next_local_cseq, NO_TEXT}, {call_image_set_session_expires, NO_TEXT},
    {call_image_update_from_request, CALL_ID}, {call_image_update_from_response, A_BLOCK}, {call_put, NO_TEXT}, {call_request, CALL_ID},
    {call_response, CALL_ID}, {call_terminate, CALL_ID}, {call_next_local_cseq, CALL_ID}, {call_set_session_expires, CALL_ID}, {call_remove, CALL_ID},
    {call_sweep, NO_TEXT}, {call_get, CALL_ID}, {call_find_by_call_id, CALL_ID}, {call_find_by_request, A_BLOCK}, {call_count, NO_TEXT},
    {call_all_ids, NO_TEXT}, {call_listing, NO_TEXT}, {call_prack_register, DIALOG}, {call_prack_validate, DIALOG}, {call_prack_is_pracked, DIALOG},
    {call_prack_get_pending, DIALOG}, {call_prack_remove_dialog, DIALOG}, {call_prack_remove_pracked, DIALOG},
};

enum { FUNCTIONS = sizeof functions / sizeof functions[0] };

/* ---- Bounds */

static uint8_t too_long[TOO_LONG];

/* Something of each kind that is taken: the record of document 01's example; a dialog with one response that waits. */
static void make(struct lent *l, enum given given)
{
    struct image record = sheet_image();
    memset(l, KEPT, sizeof *l);
    l->room = ROOM;
    l->text = (const uint8_t *)"";
    l->text_len = 0;
    l->used = given == DIALOG ? 0 : record.length;
    memcpy(l->bytes, record.bytes, record.length);
    if (given == CALL_ID) {
        l->text = (const uint8_t *)"c1";
        l->text_len = 2;
    } else if (given == A_BLOCK) {
        static const char block[] = "Call-ID:c1\r\nFrom:;tag=R\r\nTo:;tag=L\r\n";
        l->text = (const uint8_t *)block;
        l->text_len = sizeof block - 1;
    } else if (given == DIALOG) {
        l->text = (const uint8_t *)"d";
        l->text_len = 1;
        CHECK(sip_dialog_prack_register(with(1, 1), TEXT("d"), 1, 1, 1, 180, SECOND, CHANGED) == 0);
    }
}

/* The same with another cause to be refused: a text over 8,192 bytes, bytes of no layout, or a used length over the lent one. */
static void spoil(struct lent *l, unsigned causes)
{
    if (causes & 1) {
        l->text = too_long;
        l->text_len = TOO_LONG;
    }
    if (causes & 2) {
        l->bytes[0] = 0xFF;
    }
    if (causes & 4) {
        l->room = l->used - 1;
    }
}

/* 30 with everything kept, whatever other causes there are. */
static bool refused(size_t f, sip_dialog_settings s)
{
    static struct lent l, before;
    unsigned causes;
    bool holds = true;
    for (causes = 0; causes < 8; causes++) {
        make(&l, functions[f].given);
        spoil(&l, causes);
        before = l;
        holds = functions[f].call(s, &l) == 30 && memcmp(&l, &before, sizeof l) == 0 && holds;
    }
    return holds;
}

/* Taken, with all that the Rust's settings give. The PRACK list has one response, and a register drops it where one may wait. */
static bool taken(size_t f, sip_dialog_settings s)
{
    static struct lent l, rust;
    bool holds;
    make(&rust, functions[f].given);
    holds = functions[f].call(RUST, &rust) == 0;
    make(&l, functions[f].given);
    holds = functions[f].call(s, &l) == 0 && holds;
    return holds && ((s.pending == 1 && functions[f].call == call_prack_register) || memcmp(&l, &rust, sizeof l) == 0);
}

static void test_bounds(void)
{
    size_t f, figure;
    for (f = 0; f < FUNCTIONS; f++) {
        CHECK(taken(f, RUST));
        for (figure = 0; figure < FIGURES; figure++) {
            CHECK(taken(f, with(figure, least_of[figure])));
            CHECK(taken(f, with(figure, most_of[figure])));
            CHECK(refused(f, with(figure, least_of[figure] - 1)));
            CHECK(refused(f, with(figure, most_of[figure] + 1)));
            CHECK(refused(f, with(figure, UINT32_MAX)));
        }
    }
    CHECK(SIP_DIALOG_SETTING_OUT_OF_BOUNDS == 30);
}

/* ---- The five figures */

/* A site of a small jump, two pending and two Early; and one of the largest figures. */
static const sip_dialog_settings small = {.cseq_jump = 5, .pending = 2, .cleanup_seconds = 10, .timeout_seconds = 20, .early_cap = 2};
static const sip_dialog_settings large = {.cseq_jump = 65535, .pending = 32, .cleanup_seconds = 20, .timeout_seconds = 10, .early_cap = 100};

/* A request of this CSeq on the example's record, whose remote number is 7: as an image, and in a store. */
static uint8_t request_of(sip_dialog_settings s, uint32_t cseq)
{
    static struct lent l;
    char block[100];
    uint8_t of_image, of_store;
    int length = snprintf(block, sizeof block, "CSeq:%u A\r\nCall-ID:c1\r\nFrom:;tag=R\r\nTo:;tag=L\r\n", (unsigned)cseq);
    make(&l, NO_TEXT);
    of_image = sip_dialog_image_update_from_request(s, TEXT("BYE"), (const uint8_t *)block, (size_t)length, CHANGED_OF(l));
    make(&l, NO_TEXT);
    of_store = sip_dialog_request(s, TEXT("BYE"), (const uint8_t *)block, (size_t)length, CHANGED_OF(l));
    CHECK(of_image == of_store);
    return of_store;
}

static void test_jump(void)
{
    CHECK(request_of(small, 7 + 5) == 0 && request_of(small, 7 + 6) == 12 && request_of(small, 7) == 11);
    CHECK(request_of(with(0, 1), 8) == 0 && request_of(with(0, 1), 9) == 12);
    CHECK(request_of(large, 7 + 65535) == 0 && request_of(large, 7 + 65536) == 12);
    CHECK(request_of(RUST, 7 + 1000) == 0 && request_of(RUST, 7 + 1001) == 12);
}

/* Puts an Early record of the example's Call-ID with this local tag. */
static uint8_t put_early(sip_dialog_settings s, struct lent *l, uint8_t tag)
{
    struct image early = with_byte(with_byte(sheet_image(), SHEET_STATE, 1), 8, tag);
    return sip_dialog_put(s, early.bytes, early.length, CHANGED, &l->large);
}

static void test_early(void)
{
    static struct lent l;
    size_t count = 0;
    make(&l, NO_TEXT);
    l.used = 0;
    l.large = 0;
    CHECK(put_early(small, &l, 'A') == 0 && put_early(small, &l, 'B') == 0 && put_early(small, &l, 'C') == 17);
    CHECK(put_early(small, &l, 'A') == 0 && l.large == 3);
    CHECK(put_early(large, &l, 'C') == 0);
    /* more Early ones than the cap can be read; one of them is put no more */
    CHECK(sip_dialog_count(small, l.bytes, l.room, l.used, &count) == 0 && count == 3);
    CHECK(put_early(small, &l, 'A') == 17 && put_early(with(4, 1), &l, 'A') == 17 && put_early(with(4, 3), &l, 'A') == 0);
}

/* Registers a response of the dialog. */
static uint8_t send(sip_dialog_settings s, struct lent *l, uint32_t rseq, uint64_t seconds)
{
    return sip_dialog_prack_register(s, TEXT("d"), rseq, 1, 1, 180, seconds * SECOND, CHANGED);
}

/* How many responses wait, and the RSeq of the first, in its lowest byte; 0 where none waits. */
static size_t waiting(sip_dialog_settings s, struct lent *l, uint64_t seconds, uint8_t first)
{
    size_t written = 0;
    CHECK(sip_dialog_prack_get_pending(s, TEXT("d"), seconds * SECOND, CHANGED, l->out, OUT, &written) == 0);
    CHECK(written == 0 ? first == 0 : l->out[3] == first);
    return written / 6;
}

static void test_pending(void)
{
    static struct lent l;
    uint32_t rseq;
    size_t f;
    make(&l, NO_TEXT);
    l.used = 0;
    CHECK(send(small, &l, 1, 1) == 0 && send(small, &l, 2, 1) == 0 && waiting(small, &l, 1, 1) == 2);
    CHECK(send(small, &l, 3, 1) == 0 && waiting(small, &l, 1, 2) == 2);
    CHECK(send(with(1, 1), &l, 4, 1) == 3);
    l.used = 0;
    for (rseq = 1; rseq <= 33; rseq++) {
        CHECK(send(large, &l, rseq, 1) == 0);
        CHECK(waiting(large, &l, 1, rseq < 33 ? 1 : 2) == (rseq < 33 ? rseq : 32));
    }
    /* a list longer than the site allows, that of the call's dialog or another's */
    for (f = 0; f < FUNCTIONS; f++) {
        static struct lent given, before;
        if (functions[f].given != DIALOG) {
            continue;
        }
        given = l;
        given.text = (const uint8_t *)"d";
        given.text_len = 1;
        before = given;
        CHECK(functions[f].call(with(1, 31), &given) == 3 && memcmp(&given, &before, sizeof given) == 0);
        given.text = before.text = (const uint8_t *)"e";
        CHECK(functions[f].call(with(1, 31), &given) == 3 && memcmp(&given, &before, sizeof given) == 0);
        given.text = (const uint8_t *)"d";
        /* RSeq 1 has been dropped */
        CHECK(functions[f].call(with(1, 32), &given) == (functions[f].call == call_prack_validate ? 21 : 0));
    }
}

/* A cleanup is due after so many seconds, and a response goes that is older than the timeout: each by itself. */
static void test_times(void)
{
    static struct lent l;
    make(&l, NO_TEXT);
    l.used = 0;
    /* cleanups every 10 s, and 20 s to wait */
    CHECK(send(small, &l, 1, 0) == 0 && waiting(small, &l, 10, 1) == 1 && waiting(small, &l, 20, 1) == 1);
    CHECK(waiting(small, &l, 29, 1) == 1 && waiting(small, &l, 30, 0) == 0);
    l.used = 0;
    /* cleanups every 20 s, and 10 s to wait: nothing goes in between */
    CHECK(send(large, &l, 1, 0) == 0 && send(large, &l, 2, 10) == 0 && waiting(large, &l, 19, 1) == 2);
    CHECK(waiting(large, &l, 20, 2) == 1 && waiting(large, &l, 39, 2) == 1 && waiting(large, &l, 40, 0) == 0);
}

void test_settings(void)
{
    memset(too_long, 'x', sizeof too_long);
    test_bounds();
    test_jump();
    test_early();
    test_pending();
    test_times();
}
