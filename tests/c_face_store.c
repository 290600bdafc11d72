/*
 * Calls the functions of include/sip_dialog.h on stores of records, accepted and refused: what each returns, and what every
 * lent number, every byte of the store and the bytes around it then hold. Expected bytes come from document 01 and
 * docs/LAYOUTS.md, not from the code.
 */
#include "c_face.h"

/* ---- Calls */

enum function {
    PUT,
    REQUEST,
    RESPONSE,
    TERMINATE,
    NEXT_LOCAL_CSEQ,
    SET_SESSION_EXPIRES,
    REMOVE,
    SWEEP,
    GET,
    FIND_BY_CALL_ID,
    FIND_BY_REQUEST,
    COUNT,
    ALL_IDS,
    FUNCTIONS /* how many there are */
};

/* What a call is given beside the store; a function takes what it knows of. */
struct call {
    enum function function;
    const char *call_id;
    const char *local_tag;
    const char *remote_tag;
    const char *method;
    const char *block;
    uint16_t status;
    uint64_t seconds;
    uint64_t count;  /* created or terminated before the call */
    size_t out_room; /* for identifiers */
    struct image image;
};

/* The same as byte runs. */
struct runs {
    struct run call_id;
    struct run local_tag;
    struct run remote_tag;
    struct run method;
    struct run block;
    struct run image;
};

/* Lent numbers: the middle one is lent, and stands between two that must stay KEPT. */
struct numbers {
    size_t used[3];
    uint64_t count[3];
    uint64_t least[3];
    uint32_t next[3];
    size_t place[3];
    size_t length[3]; /* of what is found or written; or how many records */
};

static struct numbers fresh_numbers(size_t used, uint64_t count)
{
    struct numbers n = {{KEPT, KEPT, KEPT}, {KEPT, KEPT, KEPT}, {KEPT, KEPT, KEPT},
                        {KEPT, KEPT, KEPT}, {KEPT, KEPT, KEPT}, {KEPT, KEPT, KEPT}};
    n.used[1] = used;
    n.count[1] = count;
    return n;
}

#define TEXT(text) (const uint8_t *)(text), strlen(text)
#define IDENTIFIER(t) RUN((t)->call_id), RUN((t)->local_tag), RUN((t)->remote_tag)

/* The functions that change a store. */
static uint8_t change(const struct call *c, const struct runs *t, struct area s, struct numbers *n)
{
    switch (c->function) {
    case PUT:
        return sip_dialog_put(RUST, RUN(t->image), s.bytes, s.room, &n->used[1], &n->count[1]);
    case REQUEST:
        return sip_dialog_request(RUST, RUN(t->method), RUN(t->block), s.bytes, s.room, &n->used[1]);
    case RESPONSE:
        return sip_dialog_response(RUST, IDENTIFIER(t), c->status, RUN(t->block), s.bytes, s.room, &n->used[1]);
    case TERMINATE:
        return sip_dialog_terminate(RUST, IDENTIFIER(t), s.bytes, s.room, &n->used[1]);
    case NEXT_LOCAL_CSEQ:
        return sip_dialog_next_local_cseq(RUST, IDENTIFIER(t), s.bytes, s.room, &n->used[1], &n->next[1]);
    case SET_SESSION_EXPIRES:
        return sip_dialog_set_session_expires(RUST, IDENTIFIER(t), c->seconds, s.bytes, s.room, &n->used[1], &n->least[1]);
    case REMOVE:
        return sip_dialog_remove(RUST, IDENTIFIER(t), s.bytes, s.room, &n->used[1], &n->count[1]);
    default:
        return sip_dialog_sweep(RUST, s.bytes, s.room, &n->used[1]);
    }
}

/* The functions that only read one. */
static uint8_t reading(const struct call *c, const struct runs *t, struct area s, struct area out, struct numbers *n)
{
    switch (c->function) {
    case GET:
        return sip_dialog_get(RUST, IDENTIFIER(t), s.bytes, s.room, n->used[1], &n->place[1], &n->length[1]);
    case FIND_BY_CALL_ID:
        return sip_dialog_find_by_call_id(RUST, RUN(t->call_id), s.bytes, s.room, n->used[1], &n->place[1], &n->length[1]);
    case FIND_BY_REQUEST:
        return sip_dialog_find_by_request(RUST, RUN(t->block), s.bytes, s.room, n->used[1], &n->place[1], &n->length[1]);
    case COUNT:
        return sip_dialog_count(RUST, s.bytes, s.room, n->used[1], &n->length[1]);
    default:
        return sip_dialog_all_ids(RUST, s.bytes, s.room, n->used[1], out.bytes, out.room, &n->length[1]);
    }
}

static struct runs lend_runs(const struct call *c)
{
    struct runs t = {lend(c->call_id), lend(c->local_tag), lend(c->remote_tag),
                     lend(c->method),  lend(c->block),     lend_bytes(c->image.bytes, c->image.length)};
    return t;
}

static void take_runs_back(const struct runs *t)
{
    take_back(t->call_id);
    take_back(t->local_tag);
    take_back(t->remote_tag);
    take_back(t->method);
    take_back(t->block);
    take_back(t->image);
}

/* A store as it is lent: what is in it, how many bytes are lent, and how many are said to be used. */
struct lent {
    const uint8_t *content;
    size_t length;
    size_t room;
    size_t used;
};

/* What is to be returned, what the lent numbers are to hold, and what the fronts of store and output are to be. */
struct outcome {
    uint8_t returned;
    size_t used;
    uint64_t count;
    uint64_t least;
    uint32_t next;
    size_t place;
    size_t length;
    const uint8_t *store;
    size_t store_length;
    const uint8_t *out;
    size_t out_length;
};

/* A number is returned, and all is kept. */
static struct outcome all_kept(const struct call *c, size_t used, uint8_t returned)
{
    struct outcome o = {0, 0, 0, KEPT, KEPT, KEPT, KEPT, NULL, 0, NULL, 0};
    o.returned = returned;
    o.used = used;
    o.count = c->count;
    return o;
}

static bool numbers_are(const struct numbers *n, const struct outcome *o)
{
    return IS(n, o, used) && IS(n, o, count) && IS(n, o, least) && IS(n, o, next) && IS(n, o, place) && IS(n, o, length);
}

static bool gives(const struct call *c, struct lent l, const struct outcome *o)
{
    struct runs t = lend_runs(c);
    struct area s = lend_area(l.content, l.length, l.room);
    struct area out = lend_area(NULL, 0, c->out_room);
    struct numbers n = fresh_numbers(l.used, c->count);
    uint8_t returned = c->function < GET ? change(c, &t, s, &n) : reading(c, &t, s, out, &n);
    bool store_is = front_became(s, o->store, o->store_length);
    bool out_is = front_became(out, o->out, o->out_length);
    take_runs_back(&t);
    return returned == o->returned && numbers_are(&n, o) && store_is && out_is;
}

/* ---- What is expected of a call */

/* Refused in so much room: all is kept, but 13 answers 90 s. */
static bool refuses_in(struct call c, struct image before, size_t room, size_t used, uint8_t number)
{
    struct lent l = {before.bytes, before.length, room, used};
    struct outcome o = all_kept(&c, used, number);
    o.least = number == 13 ? 90 : KEPT;
    return gives(&c, l, &o);
}

/* Refused in room enough, and in no more than is used. */
static bool refuses(struct call c, struct image before, uint8_t number)
{
    bool with_room = refuses_in(c, before, before.length + 200, before.length, number);
    return with_room && refuses_in(c, before, before.length, before.length, number);
}

/* A count with one more, of a put or a removal. */
static uint64_t counted(const struct call *c)
{
    bool counts = c->function == PUT || c->function == REMOVE;
    return counts && c->count < UINT64_MAX ? c->count + 1 : c->count;
}

static bool changes_in(struct call c, struct image before, size_t room, struct image after, uint32_t next)
{
    struct lent l = {before.bytes, before.length, room, before.length};
    struct outcome o = all_kept(&c, after.length, 0);
    o.count = counted(&c);
    o.next = next;
    o.store = after.bytes;
    o.store_length = after.length;
    return gives(&c, l, &o);
}

/* Accepted in room enough and in no more than is needed; with a byte less 18, and with less than is used 3. */
static bool answers(struct call c, struct image before, struct image after, uint32_t next)
{
    bool grows = after.length > before.length;
    size_t needed = grows ? after.length : before.length;
    bool holds = changes_in(c, before, needed, after, next) && changes_in(c, before, needed + 1, after, next);
    holds = holds && changes_in(c, before, needed + 200, after, next);
    if (grows) {
        holds = holds && refuses_in(c, before, needed - 1, before.length, 18);
        holds = holds && refuses_in(c, before, before.length, before.length, 18);
    }
    return holds && (before.length == 0 || refuses_in(c, before, before.length - 1, before.length, 3));
}

static bool changes(struct call c, struct image before, struct image after)
{
    return answers(c, before, after, KEPT);
}

static bool finds(struct call c, struct image store, size_t place, size_t length)
{
    struct lent l = {store.bytes, store.length, store.length, store.length};
    struct outcome o = all_kept(&c, store.length, 0);
    bool holds;
    o.place = place;
    o.length = length;
    holds = gives(&c, l, &o);
    l.room = store.length + 200;
    return holds && gives(&c, l, &o);
}

/* ---- Calls by their names */

static struct call call_of(enum function function)
{
    struct call c = {PUT, NULL, NULL, NULL, NULL, NULL, 0, 0, 41, 0, {0, {0}}};
    c.function = function;
    return c;
}

static struct call by_id(enum function function, const char *call_id, const char *local_tag, const char *remote_tag)
{
    struct call c = call_of(function);
    c.call_id = call_id;
    c.local_tag = local_tag;
    c.remote_tag = remote_tag;
    return c;
}

static struct call put(struct image image)
{
    struct call c = call_of(PUT);
    c.image = image;
    return c;
}

static struct call request(const char *method, const char *block)
{
    struct call c = call_of(REQUEST);
    c.method = method;
    c.block = block;
    return c;
}

static struct call find_by_request(const char *block)
{
    struct call c = call_of(FIND_BY_REQUEST);
    c.block = block;
    return c;
}

static struct call with_response(struct call c, uint16_t status, const char *block)
{
    c.function = RESPONSE;
    c.status = status;
    c.block = block;
    return c;
}

static struct call with_seconds(struct call c, uint64_t seconds)
{
    c.function = SET_SESSION_EXPIRES;
    c.seconds = seconds;
    return c;
}

static struct call with_count(struct call c, uint64_t count)
{
    c.count = count;
    return c;
}

static struct call with_output(struct call c, size_t room)
{
    c.out_room = room;
    return c;
}

/* By the identifiers of the three records; the last one's parts are empty. */
static struct call of_sheet(enum function function)
{
    return by_id(function, "c1", "L", "R");
}

static struct call of_full(enum function function)
{
    return by_id(function, "id@x", "a", "bc");
}

static struct call of_least(enum function function)
{
    return by_id(function, "", NULL, "");
}

#define FROM_SHEET "Call-ID:c1\r\nFrom:<sip:r@h>;tag=R\r\nTo:<sip:l@h>;tag=L\r\n"
#define FROM_FULL "Call-ID:id@x\r\nFrom:;tag=bc\r\nTo:;tag=a\r\n"
#define FROM_LEAST "Call-ID:\r\nFrom:;tag=\r\nTo:;tag=\r\n"

/* ---- Stores */

static struct image three(struct image first, struct image second, struct image third)
{
    return join(first, join(second, third));
}

/* The record with every field, this one, and the record with no other field: places 0, 88 and, for the example, 132. */
static struct image around(struct image middle)
{
    return three(full_image(), middle, least_image());
}

static struct image held(void)
{
    return around(sheet_image());
}

enum { HELD_SHEET = 88, HELD_LEAST = 132, HELD_LENGTH = 162 };

static struct image first_changed(struct image first)
{
    return three(first, sheet_image(), least_image());
}

static struct image last_changed(struct image last)
{
    return three(full_image(), sheet_image(), last);
}

/* The example's record with another remote number, another Call-ID, another state. */
static struct image remote_is(uint32_t number)
{
    return with_number(sheet_image(), SHEET_REMOTE, number);
}

static struct image called(const char *call_id)
{
    return with_text(sheet_image(), SHEET_CALL_ID, call_id);
}

static struct image state_is(uint8_t state)
{
    return with_byte(sheet_image(), SHEET_STATE, state);
}

/* ---- What all functions have in common */

/* A call of each function that is accepted on `held`. */
static struct call accepted(enum function function)
{
    switch (function) {
    case PUT:
        return put(sheet_image());
    case REQUEST:
        return request("BYE", FROM_SHEET "CSeq:8 BYE\r\n");
    case RESPONSE:
        return with_response(of_sheet(RESPONSE), 200, "Contact:sip:n@h\r\n");
    case SET_SESSION_EXPIRES:
        return with_seconds(of_full(SET_SESSION_EXPIRES), 90);
    case FIND_BY_REQUEST:
        return find_by_request(FROM_SHEET);
    case ALL_IDS:
        return with_output(call_of(ALL_IDS), 200);
    default:
        return of_sheet(function);
    }
}

/* A call of each function that would be refused for what it names or brings. */
static struct call unknown(enum function function)
{
    struct call c = accepted(function);
    c.call_id = "c2";
    c.seconds = 89;
    c.image = state_is(0);
    if (c.block != NULL) {
        c.block = "Call-ID:c2\r\n";
    }
    return c;
}

/* 3 for both, whatever else is wrong. */
static bool no_store(enum function function, struct image store, size_t room, size_t used)
{
    bool known = refuses_in(accepted(function), store, room, used, 3);
    return known && refuses_in(unknown(function), store, room, used, 3);
}

static void test_used_length(void)
{
    struct image store = held();
    unsigned f;
    CHECK(store.length == HELD_LENGTH);
    for (f = 0; f < FUNCTIONS; f++) {
        enum function function = (enum function)f;
        CHECK(no_store(function, store, HELD_LENGTH - 1, HELD_LENGTH));
        CHECK(no_store(function, store, HELD_SHEET, HELD_LENGTH));
        CHECK(no_store(function, store, HELD_LENGTH, HELD_LENGTH + 1));
        CHECK(no_store(function, store, HELD_LENGTH, SIZE_MAX));
        CHECK(no_store(function, store, 0, 1));
        CHECK(no_store(function, store, 0, SIZE_MAX));
        CHECK(no_store(function, store, HELD_LENGTH, HELD_LENGTH - 1));
        CHECK(no_store(function, store, HELD_LENGTH + 1, HELD_LENGTH + 1));
        CHECK(no_store(function, store, HELD_LENGTH + 200, HELD_SHEET + 1));
        CHECK(no_store(function, store, HELD_LENGTH, 1));
    }
}

/* Bytes that aren't images, and identifiers twice. */
static void test_damaged_stores(void)
{
    struct image store = held();
    struct image other = with_byte(sheet_image(), SHEET_TARGET + 8, 'x');
    unsigned f;
    for (f = 0; f < FUNCTIONS; f++) {
        enum function function = (enum function)f;
        /* the first, the middle and the last record */
        CHECK(no_store(function, with_byte(store, FULL_STATE, 0), 400, HELD_LENGTH));
        CHECK(no_store(function, with_byte(store, HELD_SHEET, 0x21), 400, HELD_LENGTH));
        CHECK(no_store(function, with_byte(store, HELD_SHEET + SHEET_STATE, 10), 400, HELD_LENGTH));
        CHECK(no_store(function, with_byte(store, HELD_LEAST + LEAST_TARGET + 2, 'x'), 400, HELD_LENGTH));
        /* one identifier twice: the first and the last, neighbours, with other fields, empty */
        CHECK(no_store(function, join(store, full_image()), 400, HELD_LENGTH + FULL_LENGTH));
        CHECK(no_store(function, join(sheet_image(), store), 400, HELD_LENGTH + SHEET_LENGTH));
        CHECK(no_store(function, join(store, other), 400, HELD_LENGTH + SHEET_LENGTH));
        CHECK(no_store(function, join(store, with_byte(least_image(), LEAST_STATE, 3)), 400, HELD_LENGTH + LEAST_LENGTH));
        CHECK(no_store(function, join(sheet_image(), sheet_image()), 2 * SHEET_LENGTH, 2 * SHEET_LENGTH));
    }
}

/* The functions that take an identifier. */
static const enum function by_identifier[] = {RESPONSE, TERMINATE, NEXT_LOCAL_CSEQ, SET_SESSION_EXPIRES, REMOVE, GET};

enum { BY_IDENTIFIER = sizeof by_identifier / sizeof by_identifier[0] };

/* Refused with 1, also where the store is none. */
static bool too_long(struct call c)
{
    return refuses(c, held(), 1) && refuses_in(c, held(), HELD_LENGTH, HELD_LENGTH - 1, 1) && refuses_in(c, held(), 0, 1, 1);
}

static void test_long_identifiers(void)
{
    char longest[LONGEST + 2];
    char longer[LONGEST + 2];
    size_t k;
    filled(longest, "c1", '1', "", LONGEST);
    filled(longer, "c1", '1', "", LONGEST + 1);
    for (k = 0; k < BY_IDENTIFIER; k++) {
        struct call c = accepted(by_identifier[k]);
        CHECK(too_long(by_id(c.function, longer, "L", "R")));
        CHECK(too_long(by_id(c.function, "c1", longer, "R")));
        CHECK(too_long(by_id(c.function, "c1", "L", longer)));
        CHECK(refuses(by_id(c.function, longest, "L", "R"), held(), 15));
        CHECK(refuses(by_id(c.function, "c1", longest, "R"), held(), 15));
        CHECK(refuses(by_id(c.function, "c1", "L", longest), held(), 15));
        CHECK(refuses(by_id(c.function, longest, longest, longest), held(), 15));
    }
    CHECK(too_long(by_id(FIND_BY_CALL_ID, longer, NULL, NULL)));
    CHECK(refuses(by_id(FIND_BY_CALL_ID, longest, NULL, NULL), held(), 15));
}

/* A text that names no record: another, with other tags, with the tags of another record, with parts in another place. */
static void test_unknown_identifiers(void)
{
    static const char *const others[][3] = {
        {"c2", "L", "R"}, {"C1", "L", "R"}, {"c1", "l", "R"}, {"c1", "L", "r"}, {"c1", "R", "L"}, {"L", "c1", "R"},
        {"c", "1L", "R"}, {"c1L", "", "R"}, {"c1", "LR", ""}, {"c1", "L", ""}, {"c1", "", "R"}, {"", "L", "R"},
        {"c1", "L", NULL}, {"id@x", "L", "R"}, {"c1", "a", "bc"}, {"c1 ", "L", "R"}, {"\xff", "\r\n", "\x01"},
    };
    size_t k;
    size_t i;
    for (k = 0; k < BY_IDENTIFIER; k++) {
        enum function function = by_identifier[k];
        for (i = 0; i < sizeof others / sizeof others[0]; i++) {
            CHECK(refuses(by_id(function, others[i][0], others[i][1], others[i][2]), held(), 15));
        }
        CHECK(refuses(by_id(function, NULL, NULL, NULL), sheet_image(), 15));
        CHECK(refuses(of_sheet(function), nothing(), 15));
        CHECK(refuses(of_least(function), nothing(), 15));
    }
}

/* A zero byte is a byte of a text like any other. */
static void test_zero_byte(void)
{
    const uint8_t call_id[3] = {'c', '1', 0};
    struct image store = held();
    size_t place = KEPT;
    size_t length = KEPT;
    uint8_t number = sip_dialog_find_by_call_id(RUST, call_id, 3, store.bytes, store.length, store.length, &place, &length);
    CHECK(number == 15 && place == KEPT && length == KEPT);
    number = sip_dialog_find_by_call_id(RUST, call_id, 2, store.bytes, store.length, store.length, &place, &length);
    CHECK(number == 0 && place == HELD_SHEET && length == SHEET_LENGTH);
}

/* ---- put */

static void test_put_behind(void)
{
    struct image fresh = called("c2");
    struct image wide = with_text(sheet_image(), SHEET_TARGET, "sip:wide@host.example");
    char text[LARGEST];
    CHECK(changes(put(sheet_image()), nothing(), sheet_image()));
    CHECK(changes(put(full_image()), nothing(), full_image()));
    CHECK(changes(put(least_image()), nothing(), least_image()));
    CHECK(changes(put(least_image()), sheet_image(), join(sheet_image(), least_image())));
    CHECK(changes(put(fresh), held(), join(held(), fresh)));
    CHECK(changes(put(called("c")), held(), join(held(), called("c"))));
    CHECK(changes(put(with_byte(sheet_image(), 8, 'l')), held(), join(held(), with_byte(sheet_image(), 8, 'l'))));
    CHECK(changes(put(with_byte(sheet_image(), 11, 'r')), held(), join(held(), with_byte(sheet_image(), 11, 'r'))));
    CHECK(changes(put(with_text(wide, SHEET_CALL_ID, "c3")), held(), join(held(), with_text(wide, SHEET_CALL_ID, "c3"))));
    /* a record is of any state, and of any length */
    CHECK(changes(put(with_byte(fresh, SHEET_STATE, 3)), held(), join(held(), with_byte(fresh, SHEET_STATE, 3))));
    filled(text, "sip:", 'h', "", 9000);
    CHECK(changes(put(with_text(fresh, SHEET_TARGET, text)), held(), join(held(), with_text(fresh, SHEET_TARGET, text))));
    filled(text, "", 'c', "", LONGEST + 1);
    CHECK(changes(put(called(text)), held(), join(held(), called(text))));
}

/* In the place of the record of its identifier. */
static void test_put_instead(void)
{
    struct image more = with_text(remote_is(9), SHEET_TARGET, "sip:more@host.example");
    struct image less = with_text(state_is(3), SHEET_TARGET, "sip:h");
    struct image small = with_text(full_image(), FULL_TARGET, "sip:h");
    struct image numbered = with_more(least_image(), 0x0178, LEAST_LENGTH, 5);
    CHECK(changes(put(sheet_image()), held(), held()));
    CHECK(changes(put(remote_is(9)), held(), around(remote_is(9))));
    CHECK(changes(put(more), held(), around(more)));
    CHECK(changes(put(less), held(), around(less)));
    CHECK(changes(put(sheet_image()), around(more), held()));
    CHECK(changes(put(small), held(), first_changed(small)));
    CHECK(changes(put(full_image()), first_changed(small), held()));
    CHECK(changes(put(numbered), held(), last_changed(numbered)));
    CHECK(changes(put(least_image()), last_changed(numbered), held()));
    CHECK(changes(put(more), sheet_image(), more));
    CHECK(changes(put(less), sheet_image(), less));
}

static void test_put_refused(void)
{
    struct image sheet = sheet_image();
    struct image fresh = called("c2");
    /* not exactly one image */
    CHECK(refuses(put(nothing()), held(), 3));
    CHECK(refuses(put(nothing()), nothing(), 3));
    CHECK(refuses(put(with_length(fresh, SHEET_LENGTH - 1)), held(), 3));
    CHECK(refuses(put(with_length(fresh, SHEET_LENGTH + 1)), held(), 3));
    CHECK(refuses(put(with_length(fresh, 1)), held(), 3));
    CHECK(refuses(put(join(fresh, called("c3"))), held(), 3));
    CHECK(refuses(put(join(sheet, sheet)), held(), 3));
    CHECK(refuses(put(state_is(0)), held(), 3));
    CHECK(refuses(put(state_is(10)), held(), 3));
    CHECK(refuses(put(with_byte(sheet, SHEET_TARGET + 2, 'x')), held(), 3));
    CHECK(refuses(put(with_byte(sheet, 4, 127)), held(), 3));
    CHECK(refuses(put(with_number(sheet, SHEET_REMOTE, 0)), held(), 3));
    /* no room at all */
    CHECK(refuses_in(put(sheet), nothing(), 0, 0, 18));
    CHECK(refuses_in(put(least_image()), nothing(), 1, 0, 18));
    CHECK(refuses_in(put(fresh), held(), HELD_LENGTH, HELD_LENGTH, 18));
}

/* The created count, accepted and refused. */
static void test_put_count(void)
{
    struct image two = join(sheet_image(), called("c2"));
    CHECK(changes(with_count(put(called("c2")), 0), sheet_image(), two));
    CHECK(changes(with_count(put(sheet_image()), 0), sheet_image(), sheet_image()));
    CHECK(changes(with_count(put(called("c2")), UINT32_MAX), sheet_image(), two));
    CHECK(changes(with_count(put(called("c2")), UINT64_MAX - 1), sheet_image(), two));
    CHECK(changes(with_count(put(called("c2")), UINT64_MAX), sheet_image(), two));
    CHECK(changes(with_count(put(sheet_image()), UINT64_MAX), sheet_image(), sheet_image()));
    CHECK(refuses(with_count(put(state_is(0)), 0), sheet_image(), 3));
    CHECK(refuses(with_count(put(state_is(0)), UINT64_MAX), sheet_image(), 3));
    CHECK(refuses_in(with_count(put(called("c2")), 0), sheet_image(), SHEET_LENGTH, SHEET_LENGTH, 18));
}

/* Records of the Call-ID "c1", Early, each with tags of its own; there are 110 such. */
static struct image early(size_t index)
{
    struct image i = with_byte(state_is(1), 8, (uint8_t)('0' + index / 11));
    return with_byte(i, 11, (uint8_t)('a' + index % 11));
}

static struct image early_records(size_t count)
{
    struct image i = nothing();
    size_t k;
    for (k = 0; k < count; k++) {
        i = join(i, early(k));
    }
    return i;
}

/* The same store with another image for the record at an index; all have the same length. */
static struct image early_with(struct image store, size_t index, struct image record)
{
    memcpy(store.bytes + index * SHEET_LENGTH, record.bytes, record.length);
    return store;
}

static void test_put_early(void)
{
    struct image hundred = early_records(100);
    struct image last = early(100);
    struct image terminated = with_byte(early(7), SHEET_STATE, 3);
    struct image fewer = early_with(hundred, 7, terminated);
    CHECK(changes(put(early(99)), early_records(99), hundred));
    CHECK(refuses(put(last), hundred, 17));
    CHECK(refuses(with_count(put(last), UINT64_MAX), hundred, 17));
    CHECK(refuses(put(last), join(full_image(), join(hundred, least_image())), 17));
    /* Confirmed or Terminated, or of another Call-ID */
    CHECK(changes(put(with_byte(last, SHEET_STATE, 2)), hundred, join(hundred, with_byte(last, SHEET_STATE, 2))));
    CHECK(changes(put(with_byte(last, SHEET_STATE, 3)), hundred, join(hundred, with_byte(last, SHEET_STATE, 3))));
    CHECK(changes(put(with_byte(last, 5, '2')), hundred, join(hundred, with_byte(last, 5, '2'))));
    CHECK(changes(put(with_text(last, SHEET_CALL_ID, "c")), hundred, join(hundred, with_text(last, SHEET_CALL_ID, "c"))));
    CHECK(changes(put(with_text(last, SHEET_CALL_ID, "c11")), hundred, join(hundred, with_text(last, SHEET_CALL_ID, "c11"))));
    CHECK(changes(put(least_image()), hundred, join(hundred, least_image())));
    /* only Early ones count, whichever side we are */
    CHECK(changes(put(last), fewer, join(fewer, last)));
    CHECK(refuses(put(with_byte(last, SHEET_STATE, 5)), hundred, 17));
    CHECK(refuses(put(last), early_with(hundred, 7, with_byte(early(7), SHEET_STATE, 5)), 17));
    /* what isn't one image is refused first */
    CHECK(refuses(put(with_length(last, SHEET_LENGTH - 1)), hundred, 3));
}

/* A record that is held isn't another one. */
static void test_put_early_instead(void)
{
    static const size_t places[] = {0, 50, 99};
    struct image hundred = early_records(100);
    struct image confirmed = with_byte(early(100), SHEET_STATE, 2);
    struct image more = early_records(101);
    size_t k;
    for (k = 0; k < sizeof places / sizeof places[0]; k++) {
        struct image moved = with_number(early(places[k]), SHEET_REMOTE, 8);
        struct image ended = with_byte(moved, SHEET_STATE, 3);
        CHECK(changes(put(early(places[k])), hundred, hundred));
        CHECK(changes(put(moved), hundred, early_with(hundred, places[k], moved)));
        CHECK(changes(put(ended), hundred, early_with(hundred, places[k], ended)));
        CHECK(refuses(put(moved), more, 17));
        CHECK(changes(put(ended), more, early_with(more, places[k], ended)));
    }
    CHECK(refuses(put(early(100)), join(hundred, confirmed), 17));
    CHECK(changes(put(confirmed), join(hundred, confirmed), join(hundred, confirmed)));
    CHECK(changes(put(confirmed), more, join(hundred, confirmed)));
}

/* Records without a Call-ID have the same one. */
static void test_put_early_unnamed(void)
{
    struct image unnamed = IMAGE("\x01\x7E" "\0\1" "0" "\0\1" "a" "\1" "\0\7" "sip:r@h" "\0\7" "sip:l@h" "\0\7" "sip:r@h"
                                 "\0\0\0\7");
    struct image store = nothing();
    size_t k;
    for (k = 0; k < 99; k++) {
        unnamed = with_byte(with_byte(unnamed, 4, (uint8_t)('0' + k / 11)), 7, (uint8_t)('a' + k % 11));
        store = join(store, unnamed);
    }
    CHECK(changes(put(least_image()), store, join(store, least_image())));
    store = join(store, least_image());
    CHECK(refuses(put(with_byte(unnamed, 7, 'z')), store, 17));
    CHECK(changes(put(unnamed), store, store));
    CHECK(changes(put(early(0)), store, join(store, early(0))));
}

/* ---- 10,000 records */

enum { MOST = 10000, MANY_LENGTH = 47, MANY_ROOM = (MOST + 2) * MANY_LENGTH };

static uint8_t many[MANY_ROOM];
static uint8_t many_after[MANY_ROOM];

/* The example's record with the Call-ID "00000", "00001", .. */
static struct image numbered(unsigned index)
{
    char text[16];
    sprintf(text, "%05u", index);
    return called(text);
}

static void fill_many(unsigned count)
{
    unsigned k;
    for (k = 0; k < count; k++) {
        memcpy(many + (size_t)k * MANY_LENGTH, numbered(k).bytes, MANY_LENGTH);
    }
    memcpy(many_after, many, MANY_ROOM);
}

static struct lent lend_many(unsigned count, size_t room)
{
    struct lent l = {many, 0, room, 0};
    l.length = l.used = (size_t)count * MANY_LENGTH;
    return l;
}

static bool many_refuse(struct call c, unsigned count, uint8_t number)
{
    struct lent l = lend_many(count, MANY_ROOM);
    struct outcome o = all_kept(&c, l.used, number);
    bool holds = gives(&c, l, &o);
    l.room = l.used;
    return holds && gives(&c, l, &o);
}

/* Accepted: `many_after` has what is then in the store. */
static bool many_change(struct call c, unsigned count, size_t used)
{
    struct lent l = lend_many(count, MANY_ROOM);
    struct outcome o = all_kept(&c, used, 0);
    o.count = counted(&c);
    o.store = many_after;
    o.store_length = used;
    return gives(&c, l, &o);
}

static void test_most_records(void)
{
    struct image moved = with_number(numbered(5000), SHEET_REMOTE + 3, 8);
    fill_many(MOST + 1);
    CHECK(numbered(0).length == MANY_LENGTH);
    /* 9,999 held: one more, and a replacement */
    CHECK(many_change(put(numbered(MOST - 1)), MOST - 1, (size_t)MOST * MANY_LENGTH));
    memcpy(many_after + (size_t)5000 * MANY_LENGTH, moved.bytes, MANY_LENGTH);
    CHECK(many_change(put(moved), MOST - 1, (size_t)(MOST - 1) * MANY_LENGTH));
    /* 10,000 and 10,001 held: neither */
    CHECK(many_refuse(put(numbered(MOST)), MOST, 16));
    CHECK(many_refuse(put(moved), MOST, 16));
    CHECK(many_refuse(put(numbered(MOST + 1)), MOST + 1, 16));
    CHECK(many_refuse(put(moved), MOST + 1, 16));
    CHECK(many_refuse(put(with_byte(moved, SHEET_STATE + 3, 0)), MOST, 3));
    /* the request entry takes its requests all the same, and no other call minds */
    CHECK(many_change(request("BYE", "Call-ID:05000\r\nFrom:;tag=R\r\nTo:;tag=L\r\nCSeq:8 BYE\r\n"), MOST,
                      (size_t)MOST * MANY_LENGTH));
    CHECK(many_refuse(request("BYE", "Call-ID:05000\r\nFrom:;tag=R\r\nTo:;tag=L\r\nCSeq:1008 BYE\r\n"), MOST, 12));
    CHECK(many_refuse(by_id(GET, "10000", "L", "R"), MOST, 15));
    CHECK(many_refuse(by_id(TERMINATE, "10000", "L", "R"), MOST, 15));
}

static void test_most_records_less(void)
{
    size_t rest = (size_t)(MOST - 1) * MANY_LENGTH;
    size_t kept = 0;
    unsigned k;
    fill_many(MOST);
    memmove(many_after, many + MANY_LENGTH, rest);
    CHECK(many_change(by_id(REMOVE, "00000", "L", "R"), MOST, rest));
    /* every other record is Terminated */
    memcpy(many_after, many, MANY_ROOM);
    for (k = 0; k < MOST; k++) {
        size_t at = (size_t)k * MANY_LENGTH;
        if (k % 2 == 0) {
            many[at + SHEET_STATE + 3] = 3;
        } else {
            memcpy(many_after + kept, many + at, MANY_LENGTH);
            kept += MANY_LENGTH;
        }
    }
    CHECK(many_change(call_of(SWEEP), MOST, kept));
    CHECK(kept == (size_t)MOST / 2 * MANY_LENGTH);
    /* the first identifier once more at the end */
    memcpy(many + rest, many, MANY_LENGTH);
    CHECK(many_refuse(call_of(SWEEP), MOST, 3));
    CHECK(many_refuse(put(numbered(MOST)), MOST, 3));
}

/* 16 is before 17: of 10,000 records, 100 are Early and have the Call-ID. */
static void test_most_records_early(void)
{
    unsigned k;
    fill_many(MOST);
    for (k = 0; k < 100; k++) {
        struct image i = with_text(early(k), SHEET_CALL_ID, "00000");
        memcpy(many + (size_t)k * MANY_LENGTH, i.bytes, MANY_LENGTH);
    }
    CHECK(many_refuse(put(with_text(early(100), SHEET_CALL_ID, "00000")), MOST, 16));
    CHECK(many_refuse(put(with_text(early(100), SHEET_CALL_ID, "00000")), MOST - 1, 17));
}

/* A uas confirms at 10,000 by 200 and an empty block; its record, put again, is refused. */
static void test_most_records_confirm(void)
{
    size_t state = (size_t)5000 * MANY_LENGTH + SHEET_STATE + 3;
    fill_many(MOST);
    CHECK(many[state] == 2);
    many[state] = 1;
    CHECK(many_refuse(put(numbered(5000)), MOST, 16));
    CHECK(many_change(with_response(by_id(RESPONSE, "05000", "L", "R"), 200, ""), MOST, (size_t)MOST * MANY_LENGTH));
}

/* ---- request */

/* A request that the example's record takes, and one that it doesn't. */
static bool sheet_takes(const char *method, const char *block, struct image after)
{
    return changes(request(method, block), held(), around(after));
}

static bool sheet_refuses(const char *method, const char *block, uint8_t number)
{
    return refuses(request(method, block), held(), number);
}

static void test_request_window(void)
{
    struct image full = full_image();
    struct image least = least_image();
    /* remote number 7, in the middle */
    CHECK(sheet_takes("BYE", FROM_SHEET "CSeq:8 BYE\r\n", remote_is(8)));
    CHECK(sheet_takes("BYE", FROM_SHEET "CSeq:1007 BYE\r\n", remote_is(1007)));
    CHECK(sheet_refuses("BYE", FROM_SHEET "CSeq:1008 BYE\r\n", 12));
    CHECK(sheet_refuses("BYE", FROM_SHEET "CSeq:2147483647 BYE\r\n", 12));
    CHECK(sheet_refuses("BYE", FROM_SHEET "CSeq:7 BYE\r\n", 11));
    CHECK(sheet_refuses("BYE", FROM_SHEET "CSeq:1 BYE\r\n", 11));
    CHECK(sheet_refuses("BYE", FROM_SHEET "CSeq:0 BYE\r\n", 9));
    CHECK(sheet_refuses("BYE", FROM_SHEET "CSeq:2147483648 BYE\r\n", 10));
    CHECK(sheet_refuses("BYE", FROM_SHEET "CSeq:4294967295 BYE\r\n", 10));
    /* remote number 9, the first record */
    CHECK(changes(request("INFO", FROM_FULL "CSeq:10 INFO\r\n"), held(), first_changed(with_number(full, FULL_REMOTE, 10))));
    CHECK(changes(request("INFO", FROM_FULL "CSeq:1009 INFO\r\n"), held(),
                  first_changed(with_number(full, FULL_REMOTE, 1009))));
    CHECK(refuses(request("INFO", FROM_FULL "CSeq:1010 INFO\r\n"), held(), 12));
    CHECK(refuses(request("INFO", FROM_FULL "CSeq:9 INFO\r\n"), held(), 11));
    /* remote number 0, the last one: no window, and the record grows */
    CHECK(changes(request("BYE", FROM_LEAST "CSeq:1\r\n"), held(), last_changed(with_more(least, 0x0178, LEAST_LENGTH, 1))));
    CHECK(changes(request("BYE", FROM_LEAST "CSeq:2147483647\r\n"), held(),
                  last_changed(with_more(least, 0x0178, LEAST_LENGTH, 2147483647))));
    CHECK(refuses(request("BYE", FROM_LEAST "CSeq:2147483648\r\n"), held(), 10));
    CHECK(refuses(request("BYE", FROM_LEAST "CSeq:4294967295\r\n"), held(), 10));
    CHECK(refuses(request("BYE", FROM_LEAST "CSeq:0\r\n"), held(), 9));
    /* the last number of all, and nothing after it */
    CHECK(changes(request("BYE", FROM_SHEET "CSeq:2147483647\r\n"), around(remote_is(2147482647)),
                  around(remote_is(2147483647))));
    CHECK(refuses(request("BYE", FROM_SHEET "CSeq:2147483647\r\n"), around(remote_is(2147482646)), 12));
    CHECK(refuses(request("BYE", FROM_SHEET "CSeq:2147483647\r\n"), around(remote_is(2147483647)), 11));
    CHECK(refuses(request("BYE", FROM_SHEET "CSeq:2147483648\r\n"), around(remote_is(2147483647)), 10));
    CHECK(refuses(request("BYE", FROM_SHEET "CSeq:2147483647\r\n"), around(remote_is(UINT32_MAX)), 11));
}

static void test_request_ack(void)
{
    struct image acked = with_more(sheet_image(), 0x037F, SHEET_LENGTH, 7);
    struct image full = full_image();
    CHECK(sheet_takes("ACK", FROM_SHEET "CSeq:7 ACK\r\n", acked));
    CHECK(changes(request("ACK", FROM_SHEET "CSeq:7 ACK\r\n"), around(acked), around(acked)));
    CHECK(changes(request("BYE", FROM_SHEET "CSeq:8 BYE\r\n"), around(acked), around(with_number(acked, SHEET_REMOTE, 8))));
    CHECK(changes(request("ACK", FROM_FULL "CSeq:9 ACK\r\n"), held(), first_changed(with_number(full, FULL_ACK, 9))));
    CHECK(sheet_refuses("ACK", FROM_SHEET "CSeq:6 ACK\r\n", 11));
    CHECK(sheet_refuses("ACK", FROM_SHEET "CSeq:8 ACK\r\n", 11));
    CHECK(sheet_refuses("ACK", FROM_SHEET "CSeq:1008 ACK\r\n", 11));
    CHECK(sheet_refuses("ACK", FROM_SHEET "CSeq:2147483648 ACK\r\n", 11));
    CHECK(sheet_refuses("ACK", FROM_SHEET "CSeq:0 ACK\r\n", 9));
    CHECK(refuses(request("ACK", FROM_LEAST "CSeq:1 ACK\r\n"), held(), 11));
    CHECK(refuses(request("ACK", FROM_LEAST "CSeq:0 ACK\r\n"), held(), 9));
    /* no largest number */
    CHECK(changes(request("ACK", FROM_SHEET "CSeq:4294967295 ACK\r\n"), around(remote_is(UINT32_MAX)),
                  around(with_more(remote_is(UINT32_MAX), 0x037F, SHEET_LENGTH, UINT32_MAX))));
    /* the method that is given counts, not the one of CSeq; only `ACK` is one */
    CHECK(sheet_takes("ACK", FROM_SHEET "CSeq:7 BYE\r\n", acked));
    CHECK(sheet_refuses("BYE", FROM_SHEET "CSeq:7 ACK\r\n", 11));
    CHECK(sheet_takes("ack", FROM_SHEET "CSeq:8 ACK\r\n", remote_is(8)));
    CHECK(sheet_refuses("ack", FROM_SHEET "CSeq:7 ACK\r\n", 11));
    CHECK(sheet_takes("", FROM_SHEET "CSeq:8 ACK\r\n", remote_is(8)));
    CHECK(sheet_takes(NULL, FROM_SHEET "CSeq:8 ACK\r\n", remote_is(8)));
    CHECK(sheet_refuses(NULL, FROM_SHEET "CSeq:1008 ACK\r\n", 12));
    CHECK(sheet_takes("\xff", FROM_SHEET "CSeq:8 ACK\r\n", remote_is(8)));
}

/* The Contact is the target then; what stands behind the record moves. */
static void test_request_target(void)
{
    struct image acked = with_more(sheet_image(), 0x037F, SHEET_LENGTH, 7);
    struct image wide = with_text(sheet_image(), SHEET_TARGET, "sip:rrrr@h");
    struct image full = with_number(full_image(), FULL_REMOTE, 10);
    struct image least = with_more(least_image(), 0x0178, LEAST_LENGTH, 2);
    CHECK(sheet_takes("BYE", FROM_SHEET "CSeq:8\r\nContact:\"N\" <sips:n@host>;q=1\r\n",
                      IMAGE("\x01\x7F" "\0\2" "c1" "\0\1" "L" "\0\1" "R" "\2" "\0\x0B" "sips:n@host" "\0\7" "sip:l@h"
                            "\0\7" "sip:r@h" "\0\0\0\x08")));
    CHECK(sheet_takes("BYE", FROM_SHEET "CSeq:8\r\nContact:sip:h\r\n", with_text(remote_is(8), SHEET_TARGET, "sip:h")));
    CHECK(sheet_takes("BYE", FROM_SHEET "CSeq:8\r\nContact:sip:n@h\r\n", with_text(remote_is(8), SHEET_TARGET, "sip:n@h")));
    CHECK(sheet_takes("BYE", FROM_SHEET "CSeq:8\r\nContact:*\r\nContact:sip:n@h\r\n", remote_is(8)));
    CHECK(sheet_takes("ACK", FROM_SHEET "CSeq:7\r\nContact:sip:n@hh\r\n", with_text(acked, SHEET_TARGET, "sip:n@hh")));
    /* a target that gives back more than the last ACK takes */
    CHECK(changes(request("ACK", FROM_SHEET "CSeq:7\r\nContact:sip:h\r\n"), around(wide),
                  around(with_text(acked, SHEET_TARGET, "sip:h"))));
    CHECK(changes(request("ACK", FROM_SHEET "CSeq:7\r\nContact:sip:r@h\r\n"), around(wide), around(acked)));
    CHECK(changes(request("BYE", FROM_FULL "CSeq:10\r\nContact:<sip:tt@h>\r\n"), held(),
                  first_changed(with_text(full, FULL_TARGET, "sip:tt@h"))));
    CHECK(changes(request("BYE", FROM_FULL "CSeq:10\r\nContact:<sip:h>\r\n"), held(),
                  first_changed(with_text(full, FULL_TARGET, "sip:h"))));
    CHECK(changes(request("BYE", FROM_LEAST "CSeq:2\r\nContact:<sip:rr@h>\r\n"), held(),
                  last_changed(with_text(least, LEAST_TARGET, "sip:rr@h"))));
    /* a refused request brings none */
    CHECK(sheet_refuses("BYE", FROM_SHEET "CSeq:7\r\nContact:sip:h\r\n", 11));
    CHECK(sheet_refuses("BYE", FROM_SHEET "CSeq:1008\r\nContact:sip:rrrr@h\r\n", 12));
}

static void test_request_finds(void)
{
    static const char *const unknown_lines[] = {
        "Call-ID:c2\r\nFrom:;tag=R\r\nTo:;tag=L\r\n", "Call-ID:C1\r\nFrom:;tag=R\r\nTo:;tag=L\r\n",
        "Call-ID:c1\r\nFrom:;tag=L\r\nTo:;tag=R\r\n", "Call-ID:c1\r\nFrom:;tag=r\r\nTo:;tag=L\r\n",
        "Call-ID:c1\r\nFrom:;tag=R\r\nTo:;tag=l\r\n", "Call-ID:c1\r\nFrom:;tag=\r\nTo:;tag=L\r\n",
        "Call-ID:c1\r\nFrom:;tag=bc\r\nTo:;tag=a\r\n", "From:;tag=R\r\nTo:;tag=L\r\n",
        "Call-ID:c1\r\nTo:;tag=L\r\n", "Call-ID:c1\r\nFrom:;tag=R\r\n", "Call-ID:c1\r\nFrom:r\r\nTo:;tag=L\r\n",
        "Call-ID:c1\r\nFrom:\"a;tag=R;b\" <sip:r@h>\r\nTo:;tag=L\r\n", "Call-ID:c1\r\nFrom:;tag=R\r\nTo:<sip:l@h;tag=L>\r\n",
        "Call-ID:c1\r\nFrom:;tag=R\r\nTo:;tag\r\n", "i:c2\r\nCall-ID:c1\r\nFrom:;tag=R\r\nTo:;tag=L\r\n",
        "Call-ID:c2\r\nCall-ID:c1\r\nFrom:;tag=R\r\nTo:;tag=L\r\n", "Call-ID:\r\nFrom:;tag=\r\nTo:<sip:l@h>\r\n",
    };
    char block[256];
    size_t k;
    for (k = 0; k < sizeof unknown_lines / sizeof unknown_lines[0]; k++) {
        CHECK(sheet_refuses("BYE", unknown_lines[k], 15));
        CHECK(refuses(find_by_request(unknown_lines[k]), held(), 15));
        sprintf(block, "%sCSeq:8 BYE\r\n", unknown_lines[k]);
        CHECK(sheet_refuses("BYE", block, 15));
        sprintf(block, "%sCSeq:0 BYE\r\n", unknown_lines[k]);
        CHECK(sheet_refuses("ACK", block, 15));
    }
    CHECK(sheet_refuses("BYE", "", 15));
    CHECK(sheet_refuses("BYE", NULL, 15));
    CHECK(sheet_refuses(NULL, NULL, 15));
    CHECK(refuses(request("BYE", FROM_SHEET "CSeq:8\r\n"), nothing(), 15));
    CHECK(refuses(request("BYE", FROM_LEAST "CSeq:8\r\n"), nothing(), 15));
    CHECK(refuses(request("BYE", FROM_LEAST "CSeq:8\r\n"), sheet_image(), 15));
    /* names in any letter case, the parts in any order, tags behind a display name and a URI's parameters */
    CHECK(sheet_takes("BYE", "cseq:8\r\nTO:<sip:l@h;tag=x>;TAG=L\r\nFROM:\"a;tag=x;b\" <sip:r@h>;tag=R\r\nCALL-ID: c1\t\r\n",
                      remote_is(8)));
    /* short names */
    CHECK(sheet_takes("BYE", "i:c1\r\nF:;tag=R\r\nt:;tag=L\r\nCSeq:8\r\n", remote_is(8)));
}

/* 4, and what comes first where several causes hold. */
static void test_request_order(void)
{
    char longer[LONGEST + 2];
    char buffer[LONGEST + 2];
    struct image store = held();
    CHECK(sheet_refuses("BYE", FROM_SHEET, 4));
    CHECK(sheet_refuses("ACK", FROM_SHEET, 4));
    CHECK(sheet_refuses("BYE", FROM_SHEET "CSeq:-0 BYE\r\n", 4));
    CHECK(sheet_refuses("BYE", FROM_SHEET "CSeq:4294967296 BYE\r\n", 4));
    CHECK(sheet_refuses("BYE", FROM_SHEET "CSeq:\r\nCSeq:8 BYE\r\n", 4));
    CHECK(sheet_takes("BYE", FROM_SHEET "CSeq:+008 x y\r\n", remote_is(8)));
    /* 1 of the method and of the block, then 2, then 3 */
    filled(longer, "", 'A', "", LONGEST + 1);
    CHECK(too_long(request(longer, FROM_SHEET "CSeq:8\r\n")));
    CHECK(too_long(request(longer, "CSeq")));
    CHECK(too_long(request("BYE", longer)));
    CHECK(too_long(request("BYE", long_block(buffer, FROM_SHEET "CSeq:8\r\n", LONGEST + 1))));
    CHECK(sheet_takes("BYE", long_block(buffer, FROM_SHEET "CSeq:8\r\n", LONGEST), remote_is(8)));
    CHECK(sheet_takes(filled(buffer, "ACK", 'K', "", LONGEST), FROM_SHEET "CSeq:8\r\n", remote_is(8)));
    CHECK(sheet_refuses("BYE", filled(buffer, "", 'A', "", LONGEST), 2));
    CHECK(sheet_refuses("BYE", FROM_SHEET "CSeq:8", 2));
    CHECK(sheet_refuses("BYE", FROM_SHEET "CSeq:8\r\n\r\n", 2));
    CHECK(sheet_refuses("BYE", "Call-ID:c2", 2));
    CHECK(refuses_in(request("BYE", "Call-ID:c2"), store, HELD_LENGTH, HELD_LENGTH - 1, 2));
    CHECK(refuses_in(request("BYE", "Call-ID:c2"), store, 0, 1, 2));
    CHECK(refuses_in(request("BYE", "Call-ID:c2\r\n"), store, HELD_LENGTH, HELD_LENGTH - 1, 3));
}

/* What isn't looked at: the state, the side, routes and the interval of the request. */
static void test_request_states(void)
{
    static const uint8_t states[] = {1, 2, 3, 5, 6, 7};
    size_t k;
    for (k = 0; k < sizeof states; k++) {
        CHECK(changes(request("BYE", FROM_SHEET "CSeq:8\r\nSession-Expires:90\r\nRecord-Route:<sip:a>\r\n"),
                      around(state_is(states[k])), around(with_byte(remote_is(8), SHEET_STATE, states[k]))));
        CHECK(refuses(request("BYE", FROM_SHEET "CSeq:1008\r\n"), around(state_is(states[k])), 12));
    }
}

/* ---- response */

static bool sheet_hears(uint16_t status, const char *block, struct image before, struct image after)
{
    return changes(with_response(of_sheet(RESPONSE), status, block), around(before), around(after));
}

static void test_response_state(void)
{
    static const uint16_t others[] = {0, 100, 199, 300, 486, 699, UINT16_MAX};
    struct image full = full_image();
    struct image least = least_image();
    size_t k;
    for (k = 0; k < sizeof others / sizeof others[0]; k++) {
        CHECK(sheet_hears(others[k], "", state_is(1), state_is(1)));
        CHECK(sheet_hears(others[k], NULL, state_is(5), state_is(5)));
    }
    CHECK(sheet_hears(200, "", state_is(1), state_is(2)));
    CHECK(sheet_hears(299, NULL, state_is(5), state_is(6)));
    CHECK(sheet_hears(200, "", state_is(2), state_is(2)));
    CHECK(sheet_hears(200, "", state_is(3), state_is(3)));
    CHECK(changes(with_response(of_full(RESPONSE), 200, ""), held(), first_changed(with_byte(full, FULL_STATE, 14))));
    CHECK(changes(with_response(of_least(RESPONSE), 200, ""), held(), last_changed(with_byte(least, LEAST_STATE, 2))));
    /* the identifier of the block isn't compared */
    CHECK(sheet_hears(200, FROM_FULL, state_is(1), state_is(2)));
}

/* Target, interval and routes: each part grows, and each shrinks. */
static void test_response_parts(void)
{
    const char *grow = "Contact:<sip:nn@h>\r\nSession-Expires:90;refresher=uac\r\nRecord-Route:<sip:a>,<sip:b>\r\n";
    const char *shrink = "Contact:<sip:h>\r\nSession-Expires:7\r\nRecord-Route:<sip:a>\r\n";
    struct image least_grown = IMAGE("\x1C\x78" "\2" "\0\x08" "sip:nn@h" "\0\7" "sip:l@h" "\0\7" "sip:r@h" "\0\0\0\x5A"
                                     "\0\0\0\1" "\2" "\0\5" "sip:b" "\0\5" "sip:a");
    struct image sheet_grown = IMAGE("\x1D\x7F" "\0\2" "c1" "\0\1" "L" "\0\1" "R" "\2" "\0\x08" "sip:nn@h" "\0\7" "sip:l@h"
                                     "\0\7" "sip:r@h" "\0\0\0\7" "\0\0\0\x5A" "\0\0\0\1" "\2" "\0\5" "sip:b" "\0\5" "sip:a");
    struct image full_shrunk = IMAGE("\x17\xFF" "\0\4" "id@x" "\0\1" "a" "\0\2" "bc" "\x0E" "\0\5" "sip:h" "\0\x08" "sips:l@h"
                                     "\0\x08" "sip:r@hh" "\1\2\3\4" "\0\0\0\x09" "\0\0\0\x08" "\0\0\0\7" "\1" "\0\5" "sip:a");
    CHECK(changes(with_response(of_least(RESPONSE), 200, grow), held(), last_changed(least_grown)));
    CHECK(sheet_hears(200, grow, state_is(1), sheet_grown));
    CHECK(changes(with_response(of_full(RESPONSE), 200, shrink), held(), first_changed(full_shrunk)));
    CHECK(changes(with_response(of_full(RESPONSE), 200, shrink), join(sheet_image(), full_image()),
                  join(sheet_image(), full_shrunk)));
    /* a target on any status; an interval unmeasured; no routes where nothing is confirmed */
    CHECK(sheet_hears(404, "Contact:sip:h\r\n", sheet_image(), with_text(sheet_image(), SHEET_TARGET, "sip:h")));
    CHECK(sheet_hears(0, "Session-Expires:0\r\n", sheet_image(), with_more(sheet_image(), 0x057F, SHEET_LENGTH, 0)));
    CHECK(sheet_hears(200, "Session-Expires:86401\r\n", state_is(3), with_more(state_is(3), 0x057F, SHEET_LENGTH, 86401)));
    CHECK(sheet_hears(200, "Record-Route:<sip:a>\r\n", sheet_image(), sheet_image()));
    CHECK(sheet_hears(183, "Record-Route:<sip:a>\r\n", state_is(1), state_is(1)));
}

static void test_response_order(void)
{
    struct call c = of_sheet(RESPONSE);
    struct call other = by_id(RESPONSE, "c2", "L", "R");
    char buffer[LONGEST + 2];
    CHECK(sheet_hears(200, long_block(buffer, "Contact:sip:n@h\r\n", LONGEST), sheet_image(),
                      with_text(sheet_image(), SHEET_TARGET, "sip:n@h")));
    CHECK(too_long(with_response(c, 200, long_block(buffer, "Contact:sip:h\r\n", LONGEST + 1))));
    CHECK(too_long(with_response(other, 200, filled(buffer, "", 'A', "", LONGEST + 1))));
    CHECK(refuses(with_response(c, 200, "Contact:sip:h"), held(), 2));
    CHECK(refuses(with_response(other, 404, "\r\n"), held(), 2));
    CHECK(refuses_in(with_response(other, 404, "\r\n"), held(), HELD_LENGTH, HELD_LENGTH - 1, 2));
    CHECK(refuses(with_response(other, 200, "Contact:sip:rrrr@h\r\n"), held(), 15));
    CHECK(refuses_in(with_response(other, 200, ""), held(), HELD_LENGTH, HELD_LENGTH - 1, 3));
}

/* ---- terminate, the next local number, the interval */

static void test_terminate(void)
{
    struct image full = full_image();
    struct image least = least_image();
    CHECK(changes(of_sheet(TERMINATE), held(), around(state_is(3))));
    CHECK(changes(of_sheet(TERMINATE), around(state_is(1)), around(state_is(3))));
    CHECK(changes(of_sheet(TERMINATE), around(state_is(3)), around(state_is(3))));
    CHECK(changes(of_sheet(TERMINATE), around(state_is(6)), around(state_is(7))));
    CHECK(changes(of_full(TERMINATE), held(), first_changed(with_byte(full, FULL_STATE, 15))));
    CHECK(changes(of_least(TERMINATE), held(), last_changed(with_byte(least, LEAST_STATE, 3))));
    CHECK(changes(by_id(TERMINATE, NULL, NULL, NULL), held(), last_changed(with_byte(least, LEAST_STATE, 3))));
    CHECK(changes(of_sheet(TERMINATE), sheet_image(), state_is(3)));
}

static void test_next_local_cseq(void)
{
    struct image full = full_image();
    struct image first = with_more(sheet_image(), 0x01FF, SHEET_REMOTE, 1);
    struct image largest = with_number(full, FULL_LOCAL, UINT32_MAX);
    CHECK(answers(of_full(NEXT_LOCAL_CSEQ), held(), first_changed(with_number(full, FULL_LOCAL, 16909061)), 16909061));
    CHECK(answers(of_full(NEXT_LOCAL_CSEQ), first_changed(with_number(full, FULL_LOCAL, UINT32_MAX - 1)),
                  first_changed(largest), UINT32_MAX));
    CHECK(answers(of_full(NEXT_LOCAL_CSEQ), first_changed(largest), first_changed(largest), UINT32_MAX));
    /* the first number of a record */
    CHECK(answers(of_sheet(NEXT_LOCAL_CSEQ), held(), around(first), 1));
    CHECK(answers(of_sheet(NEXT_LOCAL_CSEQ), around(first), around(with_number(first, SHEET_REMOTE, 2)), 2));
    CHECK(answers(of_least(NEXT_LOCAL_CSEQ), held(), last_changed(with_more(least_image(), 0x00F8, LEAST_LENGTH, 1)), 1));
}

static void test_set_session_expires(void)
{
    struct call c = of_sheet(SET_SESSION_EXPIRES);
    struct call full = of_full(SET_SESSION_EXPIRES);
    struct call other = by_id(SET_SESSION_EXPIRES, "c2", "L", "R");
    struct image sheet = sheet_image();
    CHECK(changes(with_seconds(c, 90), held(), around(with_more(sheet, 0x057F, SHEET_LENGTH, 90))));
    CHECK(changes(with_seconds(c, 86400), held(), around(with_more(sheet, 0x057F, SHEET_LENGTH, 86400))));
    CHECK(changes(with_seconds(full, 90), held(), first_changed(with_number(full_image(), FULL_SECONDS, 90))));
    CHECK(changes(with_seconds(full, 1800), held(), held()));
    CHECK(changes(with_seconds(of_least(SET_SESSION_EXPIRES), 91), held(),
                  last_changed(with_more(least_image(), 0x0478, LEAST_LENGTH, 91))));
    CHECK(refuses(with_seconds(c, 89), held(), 13));
    CHECK(refuses(with_seconds(c, 0), held(), 13));
    CHECK(refuses(with_seconds(full, 89), held(), 13));
    CHECK(refuses(with_seconds(c, 86401), held(), 14));
    CHECK(refuses(with_seconds(full, (UINT64_C(1) << 32) + 90), held(), 14));
    CHECK(refuses(with_seconds(full, UINT64_MAX), held(), 14));
    /* a record that isn't there comes first, and keeps least */
    CHECK(refuses(with_seconds(other, 89), held(), 15));
    CHECK(refuses(with_seconds(other, 86401), held(), 15));
    CHECK(refuses(with_seconds(other, 90), held(), 15));
}

/* ---- remove and sweep */

static void test_remove(void)
{
    struct image full = full_image();
    struct image sheet = sheet_image();
    struct image least = least_image();
    CHECK(changes(of_full(REMOVE), held(), join(sheet, least)));
    CHECK(changes(of_sheet(REMOVE), held(), join(full, least)));
    CHECK(changes(of_least(REMOVE), held(), join(full, sheet)));
    CHECK(changes(by_id(REMOVE, NULL, NULL, NULL), held(), join(full, sheet)));
    CHECK(changes(of_sheet(REMOVE), sheet, nothing()));
    CHECK(changes(of_sheet(REMOVE), join(sheet, full), full));
    CHECK(changes(of_sheet(REMOVE), join(full, sheet), full));
    /* in any state; not another one of the Call-ID */
    CHECK(changes(of_sheet(REMOVE), around(state_is(3)), join(full, least)));
    CHECK(changes(of_sheet(REMOVE), join(early_records(5), sheet), early_records(5)));
    /* the count, accepted and refused */
    CHECK(changes(with_count(of_sheet(REMOVE), 0), sheet, nothing()));
    CHECK(changes(with_count(of_sheet(REMOVE), UINT64_MAX - 1), held(), join(full, least)));
    CHECK(changes(with_count(of_sheet(REMOVE), UINT64_MAX), held(), join(full, least)));
    CHECK(refuses(with_count(by_id(REMOVE, "c2", "L", "R"), 0), held(), 15));
    CHECK(refuses(with_count(by_id(REMOVE, "c2", "L", "R"), UINT64_MAX), held(), 15));
    CHECK(refuses_in(with_count(of_sheet(REMOVE), 0), held(), HELD_LENGTH, HELD_LENGTH - 1, 3));
}

/* Three records, each Terminated or not. */
static void test_sweep(void)
{
    const struct image records[3] = {full_image(), sheet_image(), least_image()};
    const struct image ended[3] = {with_byte(full_image(), FULL_STATE, 15), state_is(7),
                                   with_byte(least_image(), LEAST_STATE, 3)};
    unsigned which;
    unsigned k;
    for (which = 0; which < 8; which++) {
        struct image before = nothing();
        struct image after = nothing();
        for (k = 0; k < 3; k++) {
            bool goes = (which >> k & 1) == 1;
            before = join(before, goes ? ended[k] : records[k]);
            after = goes ? after : join(after, records[k]);
        }
        CHECK(changes(call_of(SWEEP), before, after));
    }
    CHECK(changes(call_of(SWEEP), nothing(), nothing()));
    CHECK(changes_in(call_of(SWEEP), nothing(), 0, nothing(), KEPT));
    CHECK(changes(call_of(SWEEP), state_is(3), nothing()));
    CHECK(changes(call_of(SWEEP), early_records(60), early_records(60)));
}

/* ---- Look-ups */

static void test_get(void)
{
    struct image wide = with_text(sheet_image(), SHEET_TARGET, "sip:wide@host.example");
    char text[LONGEST + 2];
    CHECK(finds(of_full(GET), held(), 0, FULL_LENGTH));
    CHECK(finds(of_sheet(GET), held(), HELD_SHEET, SHEET_LENGTH));
    CHECK(finds(of_least(GET), held(), HELD_LEAST, LEAST_LENGTH));
    CHECK(finds(by_id(GET, NULL, "", NULL), held(), HELD_LEAST, LEAST_LENGTH));
    CHECK(finds(of_sheet(GET), sheet_image(), 0, SHEET_LENGTH));
    CHECK(finds(of_sheet(GET), around(wide), HELD_SHEET, SHEET_LENGTH + 14));
    CHECK(finds(of_least(GET), around(wide), HELD_LEAST + 14, LEAST_LENGTH));
    CHECK(finds(by_id(GET, "c1", "4", "g"), early_records(60), 50 * SHEET_LENGTH, SHEET_LENGTH));
    CHECK(refuses(by_id(GET, "c1", "9", "a"), early_records(60), 15));
    /* a Call-ID as long as a text may be, and longer: held, but never named */
    filled(text, "", 'c', "", LONGEST);
    CHECK(finds(by_id(GET, text, "L", "R"), join(sheet_image(), called(text)), SHEET_LENGTH, LONGEST + 42));
    filled(text, "", 'c', "", LONGEST + 1);
    CHECK(refuses(by_id(GET, text, "L", "R"), join(sheet_image(), called(text)), 1));
}

static void test_find_by_call_id(void)
{
    struct image other = with_byte(sheet_image(), 11, 'S');
    CHECK(finds(by_id(FIND_BY_CALL_ID, "id@x", NULL, NULL), held(), 0, FULL_LENGTH));
    CHECK(finds(by_id(FIND_BY_CALL_ID, "c1", NULL, NULL), held(), HELD_SHEET, SHEET_LENGTH));
    CHECK(finds(by_id(FIND_BY_CALL_ID, "", NULL, NULL), held(), HELD_LEAST, LEAST_LENGTH));
    CHECK(finds(by_id(FIND_BY_CALL_ID, NULL, NULL, NULL), held(), HELD_LEAST, LEAST_LENGTH));
    /* the first of several */
    CHECK(finds(by_id(FIND_BY_CALL_ID, "c1", NULL, NULL), join(held(), other), HELD_SHEET, SHEET_LENGTH));
    CHECK(finds(by_id(FIND_BY_CALL_ID, "c1", NULL, NULL), join(other, held()), 0, SHEET_LENGTH));
    CHECK(finds(by_id(FIND_BY_CALL_ID, "c1", NULL, NULL), early_records(60), 0, SHEET_LENGTH));
    CHECK(refuses(by_id(FIND_BY_CALL_ID, "c", NULL, NULL), held(), 15));
    CHECK(refuses(by_id(FIND_BY_CALL_ID, "c11", NULL, NULL), held(), 15));
    CHECK(refuses(by_id(FIND_BY_CALL_ID, "C1", NULL, NULL), held(), 15));
    CHECK(refuses(by_id(FIND_BY_CALL_ID, "\x80", NULL, NULL), held(), 15));
    CHECK(refuses(by_id(FIND_BY_CALL_ID, NULL, NULL, NULL), sheet_image(), 15));
    CHECK(refuses(by_id(FIND_BY_CALL_ID, "c1", NULL, NULL), nothing(), 15));
    CHECK(refuses(by_id(FIND_BY_CALL_ID, NULL, NULL, NULL), nothing(), 15));
}

static void test_find_by_request(void)
{
    char buffer[LONGEST + 2];
    CHECK(finds(find_by_request(FROM_FULL), held(), 0, FULL_LENGTH));
    CHECK(finds(find_by_request(FROM_SHEET), held(), HELD_SHEET, SHEET_LENGTH));
    CHECK(finds(find_by_request(FROM_SHEET "CSeq:x\r\n"), held(), HELD_SHEET, SHEET_LENGTH));
    CHECK(finds(find_by_request(FROM_LEAST), held(), HELD_LEAST, LEAST_LENGTH));
    CHECK(finds(find_by_request(long_block(buffer, FROM_SHEET, LONGEST)), held(), HELD_SHEET, SHEET_LENGTH));
    CHECK(too_long(find_by_request(long_block(buffer, FROM_SHEET, LONGEST + 1))));
    CHECK(too_long(find_by_request(filled(buffer, "", 'A', "", LONGEST + 1))));
    CHECK(refuses(find_by_request(filled(buffer, "", 'A', "", LONGEST)), held(), 2));
    CHECK(refuses(find_by_request("Call-ID:c1"), held(), 2));
    CHECK(refuses_in(find_by_request("Call-ID:c1"), held(), HELD_LENGTH, HELD_LENGTH - 1, 2));
    CHECK(refuses(find_by_request(""), held(), 15));
    CHECK(refuses(find_by_request(NULL), held(), 15));
    CHECK(refuses(find_by_request(NULL), nothing(), 15));
    CHECK(refuses(find_by_request(FROM_LEAST), nothing(), 15));
}

/* The place that is answered has one image: a function of one image reads it there, and confirms it. */
static void test_found_image(void)
{
    struct image store = around(state_is(1));
    struct image confirmed = held();
    size_t place = KEPT;
    size_t length = KEPT;
    uint8_t state[3] = {KEPT, KEPT, KEPT};
    CHECK(sip_dialog_get(RUST, TEXT("c1"), TEXT("L"), TEXT("R"), store.bytes, store.length, store.length, &place, &length) == 0);
    CHECK(sip_dialog_image_state(RUST, store.bytes + place, length, &state[0], &state[1], &state[2]) == 0);
    CHECK(state[0] == 1 && state[1] == 0 && state[2] == 0);
    CHECK(sip_dialog_image_confirm(RUST, store.bytes + place, length, &length) == 0 && length == SHEET_LENGTH);
    CHECK(memcmp(store.bytes, confirmed.bytes, sizeof store.bytes) == 0);
}

/* ---- Identifiers of all records */

static bool ids_are(struct image store, size_t out_room, struct image ids)
{
    struct call c = with_output(call_of(ALL_IDS), out_room);
    struct lent l = {store.bytes, store.length, store.length, store.length};
    struct outcome o = all_kept(&c, store.length, 0);
    o.length = ids.length;
    o.out = ids.bytes;
    o.out_length = ids.length;
    return gives(&c, l, &o);
}

static bool ids_refused(struct image store, size_t used, size_t out_room, uint8_t number)
{
    return refuses_in(with_output(call_of(ALL_IDS), out_room), store, store.length, used, number);
}

/* In room enough, in no more than is written, and in a byte less. */
static bool lists(struct image store, struct image ids)
{
    bool holds = ids_are(store, ids.length + 200, ids) && ids_are(store, ids.length, ids);
    return holds && (ids.length == 0 || ids_refused(store, store.length, ids.length - 1, 18));
}

static void test_all_ids(void)
{
    struct image ids = IMAGE("\0\4" "id@x" "\0\1" "a" "\0\2" "bc" "\0\2" "c1" "\0\1" "L" "\0\1" "R" "\0\0" "\0\0" "\0\0");
    struct image wide = IMAGE("\1\x2C" "\0\1" "L" "\0\1" "R");
    char text[400];
    filled(text, "", 'c', "", 300);
    CHECK(ids.length == 29);
    CHECK(lists(held(), ids));
    CHECK(lists(sheet_image(), IMAGE("\0\2" "c1" "\0\1" "L" "\0\1" "R")));
    CHECK(lists(join(sheet_image(), full_image()),
                IMAGE("\0\2" "c1" "\0\1" "L" "\0\1" "R" "\0\4" "id@x" "\0\1" "a" "\0\2" "bc")));
    CHECK(lists(least_image(), IMAGE("\0\0" "\0\0" "\0\0")));
    CHECK(lists(state_is(3), IMAGE("\0\2" "c1" "\0\1" "L" "\0\1" "R")));
    CHECK(lists(nothing(), nothing()));
    memmove(wide.bytes + 302, wide.bytes + 2, 6);
    memcpy(wide.bytes + 2, text, 300);
    CHECK(lists(called(text), with_length(wide, 308)));
    CHECK(ids_refused(held(), HELD_LENGTH, 0, 18));
    CHECK(ids_refused(held(), HELD_LENGTH - 1, 0, 3));
    CHECK(ids_refused(held(), HELD_LENGTH + 1, 200, 3));
    CHECK(ids_refused(join(held(), sheet_image()), HELD_LENGTH + SHEET_LENGTH, 0, 3));
}

/* ---- Calls one after another on the same bytes, with other lengths lent */

/* A store that is kept from call to call, what is to be in it, and the two counts. */
struct day {
    uint8_t bytes[400];
    uint8_t expected[400];
    size_t used;
    uint64_t created;
    uint64_t terminated;
};

/* Whether the used bytes are now this store, and all others as the last calls left them. */
static bool day_is(struct day *d, struct image store)
{
    memcpy(d->expected, store.bytes, store.length);
    return d->used == store.length && memcmp(d->bytes, d->expected, sizeof d->bytes) == 0;
}

static uint8_t day_put(struct day *d, struct image i, size_t room)
{
    return sip_dialog_put(RUST, i.bytes, i.length, d->bytes, room, &d->used, &d->created);
}

static uint8_t day_request(struct day *d, const char *method, const char *block, size_t room)
{
    return sip_dialog_request(RUST, TEXT(method), TEXT(block), d->bytes, room, &d->used);
}

static void test_a_day(void)
{
    struct day d = {{0}, {0}, 0, 0, 0};
    struct image acked = with_more(sheet_image(), 0x037F, SHEET_LENGTH, 7);
    struct image ended = with_byte(acked, SHEET_STATE, 3);
    memset(d.bytes, KEPT, sizeof d.bytes);
    memset(d.expected, KEPT, sizeof d.expected);
    CHECK(day_put(&d, sheet_image(), SHEET_LENGTH - 1) == 18 && day_is(&d, nothing()) && d.created == 0);
    CHECK(day_put(&d, sheet_image(), SHEET_LENGTH) == 0 && day_is(&d, sheet_image()) && d.created == 1);
    CHECK(day_put(&d, full_image(), 132) == 0 && day_is(&d, join(sheet_image(), full_image())) && d.created == 2);
    CHECK(day_request(&d, "ACK", FROM_SHEET "CSeq:7\r\n", 135) == 18 && day_is(&d, join(sheet_image(), full_image())));
    CHECK(day_request(&d, "ACK", FROM_SHEET "CSeq:7\r\n", 136) == 0 && day_is(&d, join(acked, full_image())));
    CHECK(day_put(&d, least_image(), 400) == 0 && day_is(&d, three(acked, full_image(), least_image())) && d.created == 3);
    CHECK(day_request(&d, "BYE", FROM_SHEET "CSeq:7\r\n", 400) == 11);
    CHECK(day_request(&d, "BYE", FROM_SHEET "CSeq:8\r\n", 165) == 3);
    CHECK(day_is(&d, three(acked, full_image(), least_image())));
    CHECK(sip_dialog_terminate(RUST, TEXT("c1"), TEXT("L"), TEXT("R"), d.bytes, 166, &d.used) == 0);
    CHECK(day_is(&d, three(ended, full_image(), least_image())));
    /* a Terminated record stays, and takes requests, until it is swept */
    CHECK(day_request(&d, "BYE", FROM_SHEET "CSeq:8\r\n", 166) == 0);
    CHECK(day_is(&d, three(with_number(ended, SHEET_REMOTE, 8), full_image(), least_image())));
    CHECK(sip_dialog_sweep(RUST, d.bytes, 300, &d.used) == 0 && day_is(&d, join(full_image(), least_image())));
    CHECK(day_request(&d, "BYE", FROM_SHEET "CSeq:9\r\n", 300) == 15);
    /* the line comes back, now behind the others */
    CHECK(day_put(&d, remote_is(9), 162) == 0 && d.created == 4);
    CHECK(day_is(&d, three(full_image(), least_image(), remote_is(9))) && d.terminated == 0);
    CHECK(sip_dialog_remove(RUST, TEXT("id@x"), TEXT("a"), TEXT("bc"), d.bytes, 162, &d.used, &d.terminated) == 0);
    CHECK(day_is(&d, join(least_image(), remote_is(9))) && d.terminated == 1);
    CHECK(sip_dialog_remove(RUST, TEXT("id@x"), TEXT("a"), TEXT("bc"), d.bytes, 162, &d.used, &d.terminated) == 15);
    CHECK(sip_dialog_remove(RUST, NULL, 0, NULL, 0, NULL, 0, d.bytes, 74, &d.used, &d.terminated) == 0);
    CHECK(day_is(&d, remote_is(9)) && d.terminated == 2 && d.created == 4);
}

void test_stores(void)
{
    static void (*const tests[])(void) = {
        test_used_length, test_damaged_stores, test_long_identifiers, test_unknown_identifiers, test_zero_byte,
        test_put_behind, test_put_instead, test_put_refused, test_put_count, test_put_early, test_put_early_instead,
        test_put_early_unnamed, test_most_records, test_most_records_less, test_most_records_early,
        test_most_records_confirm, test_request_window, test_request_ack, test_request_target, test_request_finds,
        test_request_order, test_request_states, test_response_state, test_response_parts, test_response_order,
        test_terminate, test_next_local_cseq, test_set_session_expires, test_remove, test_sweep, test_get,
        test_find_by_call_id, test_find_by_request, test_found_image, test_all_ids, test_a_day,
    };
    run_guarded(tests, sizeof tests / sizeof tests[0]);
}
