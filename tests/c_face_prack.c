/*
 * Calls the functions of include/sip_dialog.h on PRACK stores, accepted and refused: what each returns, and what every lent
 * number, every byte of the store and of the output and the bytes around them then hold. Expected bytes come from document 01
 * and docs/LAYOUTS.md, not from the code.
 */
#include "c_face.h"

/* ---- Calls */

enum function {
    REGISTER,
    VALIDATE,
    IS_PRACKED,
    GET_PENDING,
    REMOVE_DIALOG,
    REMOVE_PRACKED,
    FUNCTIONS /* how many there are */
};

/* Of a string, whose closing zero isn't a byte of it. */
#define TEXT(string) ((struct text){string, sizeof(string) - 1})

struct call {
    enum function function;
    struct text id;
    struct text block;
    uint64_t time;
    uint32_t rseq;
    uint32_t cseq;
    uint16_t code;
    uint8_t method;
};

/* A store and an output as they are lent: what is in the store, how many bytes are lent, and how many are said to be used. */
struct lent {
    struct image content;
    size_t room;
    size_t used;
    size_t out_room;
};

/* Lent numbers: the middle one is lent, and stands between two that must stay KEPT. */
struct numbers {
    size_t used[3];
    size_t written[3];
    uint32_t rseq[3];
    uint32_t cseq[3];
    uint8_t method[3];
    uint8_t pracked[3];
};

/* What is to be returned, what the lent numbers are to hold, and what the fronts of the store and the output are to be. */
struct outcome {
    uint8_t returned;
    size_t used;
    size_t written;
    uint32_t rseq;
    uint32_t cseq;
    uint8_t method;
    uint8_t pracked;
    struct image store;
    struct image out;
};

static bool numbers_are(const struct numbers *n, const struct outcome *o)
{
    return IS(n, o, used) && IS(n, o, written) && IS(n, o, rseq) && IS(n, o, cseq) && IS(n, o, method) && IS(n, o, pracked);
}

static uint8_t ask(const struct call *c, struct area s, struct area out, struct numbers *n)
{
    struct run id = lend_text(c->id);
    struct run block = lend_text(c->block);
    size_t *used = &n->used[1];
    uint8_t returned;
    switch (c->function) {
    case REGISTER:
        returned = sip_dialog_prack_register(RUST, RUN(id), c->rseq, c->cseq, c->method, c->code, c->time, s.bytes, s.room,
                                             used);
        break;
    case VALIDATE:
        returned = sip_dialog_prack_validate(RUST, RUN(id), RUN(block), c->time, s.bytes, s.room, used, &n->rseq[1],
                                             &n->cseq[1], &n->method[1]);
        break;
    case IS_PRACKED:
        returned = sip_dialog_prack_is_pracked(RUST, RUN(id), c->rseq, s.bytes, s.room, *used, &n->pracked[1]);
        break;
    case GET_PENDING:
        returned = sip_dialog_prack_get_pending(RUST, RUN(id), c->time, s.bytes, s.room, used, out.bytes, out.room,
                                                &n->written[1]);
        break;
    case REMOVE_DIALOG:
        returned = sip_dialog_prack_remove_dialog(RUST, RUN(id), s.bytes, s.room, used);
        break;
    default:
        returned = sip_dialog_prack_remove_pracked(RUST, RUN(id), c->rseq, s.bytes, s.room, used);
        break;
    }
    take_back(id);
    take_back(block);
    return returned;
}

static bool gives(const struct call *c, const struct lent *l, const struct outcome *o)
{
    struct numbers n;
    struct area s = lend_area(l->content.bytes, l->content.length, l->room);
    struct area out = lend_area(NULL, 0, l->out_room);
    uint8_t returned;
    bool holds;
    size_t k;
    for (k = 0; k < 3; k++) {
        n.used[k] = n.written[k] = KEPT;
        n.rseq[k] = n.cseq[k] = KEPT;
        n.method[k] = n.pracked[k] = KEPT;
    }
    n.used[1] = l->used;
    returned = ask(c, s, out, &n);
    holds = front_became(s, o->store.bytes, o->store.length);
    holds = front_became(out, o->out.bytes, o->out.length) && holds;
    return holds && returned == o->returned && numbers_are(&n, o);
}

/* ---- What is expected of a call */

/* All numbers and the output are kept, but for the store and its used length. */
static struct outcome leaving(uint8_t returned, struct image store)
{
    struct outcome o;
    o.returned = returned;
    o.used = store.length;
    o.written = o.rseq = o.cseq = KEPT;
    o.method = o.pracked = KEPT;
    o.store = store;
    o.out = nothing();
    return o;
}

enum { ENOUGH = 60 /* bytes of output for ten responses */ };

/* Refused in so much room: all is kept. */
static bool refuses_in(struct call c, struct image before, size_t room, size_t used, uint8_t number)
{
    struct lent l = {before, room, used, ENOUGH};
    struct outcome o = leaving(number, nothing());
    o.used = used;
    return gives(&c, &l, &o);
}

/* Refused in room enough, and in no more than is used. */
static bool refuses(struct call c, struct image before, uint8_t number)
{
    bool with_room = refuses_in(c, before, before.length + 200, before.length, number);
    return with_room && refuses_in(c, before, before.length, before.length, number);
}

/* This outcome in room enough and in no more than is needed; with a byte less 18, and with less than is used 3. */
static bool fits(struct call c, struct image before, struct outcome o, size_t out_room)
{
    bool grows = o.store.length > before.length;
    size_t needed = grows ? o.store.length : before.length;
    struct lent exact = {before, needed, before.length, out_room};
    struct lent more = {before, needed + 1, before.length, out_room};
    struct lent enough = {before, needed + 200, before.length, out_room};
    bool holds = gives(&c, &exact, &o) && gives(&c, &more, &o) && gives(&c, &enough, &o);
    if (grows) {
        holds = holds && refuses_in(c, before, needed - 1, before.length, 18);
        holds = holds && refuses_in(c, before, before.length, before.length, 18);
    }
    return holds && (before.length == 0 || refuses_in(c, before, before.length - 1, before.length, 3));
}

/* ---- One function each. A block is a string; a RAck is a PRACK's, alone in its block */

static bool registers_any(struct call c, struct image before, struct image after)
{
    c.function = REGISTER;
    return fits(c, before, leaving(0, after), ENOUGH);
}

/* A 180 to an INVITE with CSeq 1. */
static bool registers(struct text id, uint32_t rseq, uint64_t time, struct image before, struct image after)
{
    struct call c = {REGISTER, id, {NULL, 0}, time, rseq, 1, 180, 1};
    return registers_any(c, before, after);
}

static struct call prack(struct text id, const char *block, uint64_t time)
{
    struct call c = {VALIDATE, id, {NULL, 0}, time, 0, 0, 0, 0};
    c.block.bytes = block;
    c.block.length = strlen(block);
    return c;
}

static bool accepts_any(struct call c, struct image before, struct image after, uint32_t rseq, uint32_t cseq, uint8_t method)
{
    struct outcome o = leaving(0, after);
    o.rseq = rseq;
    o.cseq = cseq;
    o.method = method;
    return fits(c, before, o, ENOUGH);
}

/* A RAck with CSeq 1 and INVITE. */
static bool accepts(struct text id, const char *block, uint64_t time, struct image before, struct image after, uint32_t rseq)
{
    return accepts_any(prack(id, block, time), before, after, rseq, 1, 1);
}

/* 19 to 24: the cleaned list stays. */
static bool judges(struct text id, const char *block, uint64_t time, struct image before, struct image after, uint8_t number)
{
    return fits(prack(id, block, time), before, leaving(number, after), ENOUGH);
}

static bool is_pracked(struct text id, uint32_t rseq, struct image store, uint8_t pracked)
{
    struct call c = {IS_PRACKED, id, {NULL, 0}, 0, rseq, 0, 0, 0};
    struct outcome o = leaving(0, store);
    o.pracked = pracked;
    return fits(c, store, o, ENOUGH);
}

/* In room enough for the output and in no more than is needed; with a byte less 18. */
static bool lists(struct text id, uint64_t time, struct image before, struct image after, struct image pending)
{
    struct call c = {GET_PENDING, id, {NULL, 0}, time, 0, 0, 0, 0};
    struct outcome o = leaving(0, after);
    bool holds;
    o.written = pending.length;
    o.out = pending;
    holds = fits(c, before, o, pending.length) && fits(c, before, o, pending.length + 1) && fits(c, before, o, ENOUGH);
    if (pending.length > 0) {
        struct lent less = {before, before.length + 200, before.length, pending.length - 1};
        struct lent none = {before, before.length + 200, before.length, 0};
        o = leaving(18, nothing());
        o.used = before.length;
        holds = holds && gives(&c, &less, &o) && gives(&c, &none, &o);
    }
    return holds;
}

static bool removes(struct text id, struct image before, struct image after)
{
    struct call c = {REMOVE_DIALOG, id, {NULL, 0}, 0, 0, 0, 0, 0};
    return fits(c, before, leaving(0, after), ENOUGH);
}

static bool prunes(struct text id, uint32_t rseq, struct image before, struct image after)
{
    struct call c = {REMOVE_PRACKED, id, {NULL, 0}, 0, rseq, 0, 0, 0};
    return fits(c, before, leaving(0, after), ENOUGH);
}

/* ---- Times, responses and entries */

#define SECONDS UINT64_C(1000000000)
#define T300 (300 * SECONDS)
#define T600 (600 * SECONDS)

#define AT0 "\0\0\0\0\0\0\0\0"
#define AT1 "\0\0\0\0\0\0\0\1"
#define AT300_LESS "\0\0\0\x45\xD9\x64\xB7\xFF"
#define AT300 "\0\0\0\x45\xD9\x64\xB8\0"
#define AT300_1 "\0\0\0\x45\xD9\x64\xB8\1"
#define AT600_LESS "\0\0\0\x8B\xB2\xC9\x6F\xFF"
#define AT600 "\0\0\0\x8B\xB2\xC9\x70\0"
#define AT600_1 "\0\0\0\x8B\xB2\xC9\x70\1"
#define AT900 "\0\0\0\xD1\x8C\x2E\x28\0"
#define AT_LAST "\xFF\xFF\xFF\xFF\xFF\xFF\xFF\xFF"

#define ZERO "\0\0\0\0"
#define ONE "\0\0\0\1"
#define TWO "\0\0\0\2"
#define THREE "\0\0\0\3"
#define MOST "\xFF\xFF\xFF\xFF"

/* A 180 to an INVITE with CSeq 1: waiting for its PRACK, or acknowledged. */
#define OPEN(rseq, at) rseq ONE "\1" "\0\xB4" "\0" at
#define DONE(rseq, at) rseq ONE "\1" "\0\xB4" "\1" at

#define NONE "\0"
#define LIST(count) "\1" count
#define EMPTY LIST("\0")

/* Entries without their lists; "d" is that of docs/LAYOUTS.md. */
#define A "\0\1" "a" AT300
#define D "\0\1" "d" AT300

/* A store of three entries: "a" has an acknowledged response and one that waits, "b" has no list, "d" is the example. */
#define HELD_A A LIST("\2") DONE(ONE, AT300) OPEN(TWO, AT300)
#define HELD_B "\0\1" "b" AT300 NONE
#define HELD_D D LIST("\1") OPEN(ONE, AT300)

/* Where they end, and where the bytes of "d" are. */
enum { A_END = 53, B_END = 65, D_END = 98, D_LIST = 76, D_COUNT = 77, D_METHOD = 86, D_FLAG = 89 };

static struct image held(void)
{
    return IMAGE(HELD_A HELD_B HELD_D);
}

/* RAcks. */
#define RACK1 "RAck:1 1 INVITE\r\n"
#define RACK2 "RAck:2 1 INVITE\r\n"
#define RACK3 "RAck:3 1 INVITE\r\n"

/* ---- What all functions have in common */

/* A call that would be accepted on a store. */
static struct call any_call(enum function function, struct text id)
{
    struct call c = {function, id, {NULL, 0}, T300, 1, 1, 180, 1};
    c.block = TEXT(RACK1);
    return c;
}

/* 3 for a held text and for one that isn't. */
static bool no_store(enum function function, struct image store, size_t room, size_t used)
{
    bool known = refuses_in(any_call(function, TEXT("d")), store, room, used, 3);
    return known && refuses_in(any_call(function, TEXT("c")), store, room, used, 3);
}

static void test_used_length(void)
{
    unsigned f;
    CHECK(held().length == D_END);
    for (f = 0; f < FUNCTIONS; f++) {
        enum function function = (enum function)f;
        CHECK(no_store(function, held(), D_END - 1, D_END));
        CHECK(no_store(function, held(), B_END, D_END));
        CHECK(no_store(function, held(), D_END, D_END + 1));
        CHECK(no_store(function, held(), D_END, SIZE_MAX));
        CHECK(no_store(function, held(), 0, 1));
        CHECK(no_store(function, held(), 0, SIZE_MAX));
    }
}

/* A store that ends anywhere but where an entry ends, and bytes behind it. */
static void test_cut_off(void)
{
    unsigned f;
    size_t used;
    for (f = 0; f < FUNCTIONS; f++) {
        enum function function = (enum function)f;
        for (used = 1; used < D_END; used++) {
            bool whole = used == A_END || used == B_END;
            CHECK(whole || no_store(function, held(), D_END + 40, used));
            CHECK(whole || no_store(function, held(), used, used));
        }
        CHECK(no_store(function, IMAGE(HELD_A HELD_B HELD_D "\0"), D_END + 1, D_END + 1));
        CHECK(no_store(function, IMAGE(HELD_A HELD_B HELD_D "\0\1" "e"), D_END + 40, D_END + 3));
        CHECK(no_store(function, IMAGE("\0"), 1, 1));
    }
}

/* Bytes of "d" that no entry has, other orders, and one text twice. */
static void test_no_layout(void)
{
    unsigned f;
    for (f = 0; f < FUNCTIONS; f++) {
        enum function function = (enum function)f;
        CHECK(no_store(function, with_byte(held(), D_LIST, 2), 200, D_END));
        CHECK(no_store(function, with_byte(held(), D_LIST, 255), D_END, D_END));
        CHECK(no_store(function, with_byte(held(), D_COUNT, 0), 200, D_END));
        CHECK(no_store(function, with_byte(held(), D_COUNT, 2), 200, D_END));
        CHECK(no_store(function, with_byte(held(), D_METHOD, 0), 200, D_END));
        CHECK(no_store(function, with_byte(held(), D_METHOD, 15), 200, D_END));
        CHECK(no_store(function, with_byte(held(), D_METHOD, 255), D_END, D_END));
        CHECK(no_store(function, with_byte(held(), D_FLAG, 2), 200, D_END));
        CHECK(no_store(function, with_byte(held(), D_FLAG, 255), D_END, D_END));
        CHECK(no_store(function, with_byte(held(), 0, 1), 400, D_END));
        CHECK(no_store(function, IMAGE(HELD_B HELD_A HELD_D), 200, D_END));
        CHECK(no_store(function, IMAGE(HELD_A HELD_D HELD_B), 200, D_END));
        CHECK(no_store(function, IMAGE(HELD_D HELD_B HELD_A), D_END, D_END));
        CHECK(no_store(function, IMAGE(HELD_B HELD_B), 200, 24));
        CHECK(no_store(function, IMAGE(HELD_D D NONE), 45, 45));
        CHECK(no_store(function, IMAGE(HELD_A HELD_B HELD_A), 200, 118));
        CHECK(no_store(function, IMAGE(HELD_B HELD_D HELD_B), 200, 57));
    }
}

/* So many times the same response behind an entry's front. */
static struct image long_list(struct image front, size_t count)
{
    struct image response = IMAGE(OPEN(THREE, AT300));
    size_t k;
    for (k = 0; k < count; k++) {
        memcpy(front.bytes + front.length, response.bytes, response.length);
        front = with_length(front, front.length + response.length);
    }
    return front;
}

/* Ten responses are a list, eleven aren't. */
static void test_longest_list(void)
{
    struct image ten = long_list(IMAGE(D LIST("\12")), 10);
    struct image eleven = long_list(IMAGE(D LIST("\13")), 11);
    unsigned f;
    CHECK(is_pracked(TEXT("d"), 3, ten, 0));
    CHECK(is_pracked(TEXT("a"), 3, ten, 0));
    CHECK(removes(TEXT("d"), ten, nothing()));
    for (f = 0; f < FUNCTIONS; f++) {
        CHECK(no_store((enum function)f, eleven, eleven.length, eleven.length));
        CHECK(no_store((enum function)f, eleven, eleven.length + 40, eleven.length));
        CHECK(no_store((enum function)f, long_list(IMAGE(D LIST("\377")), 255), 6000, 13 + 255 * 20));
    }
}

/* ---- Texts */

/* A text that is too long is refused before all else. */
static bool too_long(struct call c)
{
    bool holds = refuses(c, held(), 1) && refuses(c, nothing(), 1);
    holds = holds && refuses_in(c, held(), D_END, D_END - 1, 1) && refuses_in(c, held(), 0, 1, 1);
    holds = holds && refuses_in(c, IMAGE(HELD_D HELD_A), 86, 86, 1);
    c.method = 15;
    c.block = TEXT("x");
    return holds && refuses(c, held(), 1);
}

static void test_long_texts(void)
{
    char longer[LONGEST + 2];
    struct text t = {longer, LONGEST + 1};
    unsigned f;
    filled(longer, "", 'x', "", LONGEST + 1);
    for (f = 0; f < FUNCTIONS; f++) {
        CHECK(too_long(any_call((enum function)f, t)));
    }
}

/* An entry of so many `b`, cleaned at 300 s, with these bytes behind. */
static struct image long_entry(size_t length, struct image behind)
{
    struct image i = nothing();
    struct image time = IMAGE(AT300);
    i.bytes[0] = (uint8_t)(length >> 8);
    i.bytes[1] = (uint8_t)length;
    memset(i.bytes + 2, 'b', length);
    memcpy(i.bytes + 2 + length, time.bytes, 8);
    memcpy(i.bytes + 10 + length, behind.bytes, behind.length);
    return with_length(i, 10 + length + behind.length);
}

static void test_longest_texts(void)
{
    char longest[LONGEST + 1];
    struct text t = {longest, LONGEST};
    struct image one = long_entry(LONGEST, IMAGE(LIST("\1") OPEN(ONE, AT300)));
    struct image marked = long_entry(LONGEST, IMAGE(LIST("\1") DONE(ONE, AT300)));
    struct image none = long_entry(LONGEST, IMAGE(NONE));
    filled(longest, "", 'b', "", LONGEST);
    CHECK(one.length == LONGEST + 32 && one.bytes[0] == 0x20 && one.bytes[1] == 0);
    CHECK(registers(t, 1, T300, nothing(), one));
    CHECK(registers(t, 1, T300, IMAGE(HELD_A), join(IMAGE(HELD_A), one)));
    CHECK(registers(t, 1, T300, IMAGE(HELD_D), join(one, IMAGE(HELD_D))));
    CHECK(judges(t, RACK1, T300, nothing(), none, 20));
    CHECK(judges(t, "", T300, IMAGE(HELD_D), join(none, IMAGE(HELD_D)), 19));
    CHECK(accepts(t, RACK1, T300, one, marked, 1));
    CHECK(is_pracked(t, 1, join(marked, IMAGE(HELD_D)), 1));
    CHECK(lists(t, T300, nothing(), none, nothing()));
    CHECK(lists(t, T300, one, one, IMAGE(ONE "\0\xB4")));
    CHECK(prunes(t, 1, marked, long_entry(LONGEST, IMAGE(EMPTY))));
    CHECK(removes(t, join(IMAGE(HELD_A), one), IMAGE(HELD_A)));
}

/* A text over 8,192 bytes can't be given, but a store that holds one is read and changed around it. */
static void test_longer_entries(void)
{
    char longest[LONGEST + 1];
    struct text t = {longest, LONGEST};
    struct image longer = long_entry(LONGEST + 1, IMAGE(NONE));
    struct image last = long_entry(11000, IMAGE(EMPTY));
    filled(longest, "", 'b', "", LONGEST);
    CHECK(is_pracked(t, 1, longer, 0));
    CHECK(removes(t, longer, longer));
    CHECK(removes(TEXT("d"), join(last, IMAGE(HELD_D)), last));
    CHECK(registers(TEXT("d"), 1, T300, longer, join(longer, IMAGE(HELD_D))));
    CHECK(lists(TEXT("a"), T300, last, join(IMAGE(A NONE), last), nothing()));
    CHECK(accepts(TEXT("d"), RACK1, T300, join(last, IMAGE(HELD_D)), join(last, IMAGE(D LIST("\1") DONE(ONE, AT300))), 1));
}

/* That the first of two texts stands before the second, whichever comes first. Both images are entries without a list. */
static bool stands_before(struct text first, struct image one, struct text second, struct image other)
{
    struct image both = join(one, other);
    bool forth = lists(first, T300, other, both, nothing()) && lists(second, T300, one, both, nothing());
    bool found = lists(first, T300, both, both, nothing()) && judges(second, RACK1, T300, both, both, 20);
    bool back = refuses(any_call(IS_PRACKED, first), join(other, one), 3);
    return forth && found && back && removes(first, both, other) && removes(second, both, one);
}

#define ENTRY(text) IMAGE(text AT300 NONE)

static void test_order_of_texts(void)
{
    /* a proper prefix first, and a longer text may come before a shorter one */
    CHECK(stands_before(TEXT(""), ENTRY("\0\0"), TEXT("a"), ENTRY("\0\1" "a")));
    CHECK(stands_before(TEXT("a"), ENTRY("\0\1" "a"), TEXT("ab"), ENTRY("\0\2" "ab")));
    CHECK(stands_before(TEXT("a"), ENTRY("\0\1" "a"), TEXT("a\0"), ENTRY("\0\2" "a\0")));
    CHECK(stands_before(TEXT("ab"), ENTRY("\0\2" "ab"), TEXT("b"), ENTRY("\0\1" "b")));
    /* any bytes, without a sign and with letter case */
    CHECK(stands_before(TEXT("\0"), ENTRY("\0\1" "\0"), TEXT("\1"), ENTRY("\0\1" "\1")));
    CHECK(stands_before(TEXT("\x7F"), ENTRY("\0\1" "\x7F"), TEXT("\x80"), ENTRY("\0\1" "\x80")));
    CHECK(stands_before(TEXT("\0"), ENTRY("\0\1" "\0"), TEXT("\xFF"), ENTRY("\0\1" "\xFF")));
    CHECK(stands_before(TEXT("A"), ENTRY("\0\1" "A"), TEXT("a"), ENTRY("\0\1" "a")));
}

/* An empty text is the same with a null pointer. */
static void test_null_texts(void)
{
    const struct text null = {NULL, 0};
    struct image entry = IMAGE("\0\0" AT300 LIST("\1") OPEN(ONE, AT300));
    struct call c = any_call(VALIDATE, null);
    c.block = null;
    CHECK(registers(null, 1, T300, nothing(), entry));
    CHECK(registers(TEXT(""), 1, T300, nothing(), entry));
    CHECK(accepts(null, RACK1, T300, entry, IMAGE("\0\0" AT300 LIST("\1") DONE(ONE, AT300)), 1));
    CHECK(fits(c, entry, leaving(19, entry), ENOUGH));
    CHECK(is_pracked(null, 1, entry, 0));
    CHECK(lists(null, T300, nothing(), IMAGE("\0\0" AT300 NONE), nothing()));
    CHECK(prunes(null, 1, entry, entry));
    CHECK(removes(null, entry, nothing()));
    CHECK(removes(null, held(), held()));
}

/* ---- The order of refusals */

static void test_methods(void)
{
    struct call c = any_call(REGISTER, TEXT("d"));
    unsigned method;
    for (method = 0; method < 256; method++) {
        bool known = method >= 1 && method <= 14;
        c.method = (uint8_t)method;
        if (known) {
            struct image after = IMAGE(D LIST("\1") OPEN(ONE, AT300));
            CHECK(registers_any(c, nothing(), with_byte(after, D_METHOD - B_END, c.method)));
        } else {
            CHECK(refuses(c, held(), 28) && refuses(c, nothing(), 28));
            CHECK(refuses_in(c, held(), D_END, D_END + 1, 28));
            CHECK(refuses_in(c, IMAGE(HELD_D HELD_A), 86, 86, 28));
        }
    }
}

static void test_blocks(void)
{
    static const char *const malformed[] = {"x",  "\r\n", RACK1 "\r\n", "RAck:1 1 INVITE", "RAck :1 1 INVITE\r\n", " RAck:1 1 INVITE\r\n",
                                            RACK1 "\n", "RAck:1 1 INVITE\r\n x\r\n", "RAck:\x7F\r\n"};
    char buffer[LONGEST + 2];
    size_t i;
    for (i = 0; i < sizeof malformed / sizeof malformed[0]; i++) {
        struct call c = prack(TEXT("d"), malformed[i], T600);
        CHECK(refuses(c, held(), 2) && refuses(c, nothing(), 2));
        CHECK(refuses_in(c, held(), D_END, D_END + 1, 2));
        CHECK(refuses_in(c, IMAGE(HELD_D HELD_A), 86, 86, 2));
    }
    CHECK(refuses(prack(TEXT("d"), long_block(buffer, RACK1, LONGEST + 1), T300), held(), 1));
    CHECK(refuses_in(prack(TEXT("d"), filled(buffer, "", '\r', "", LONGEST + 1), T300), held(), 1, 2, 1));
    CHECK(accepts(TEXT("d"), long_block(buffer, RACK1, LONGEST), T300, held(), with_byte(held(), D_FLAG, 1), 1));
}

/* ---- register */

static void test_register(void)
{
    struct call c = {REGISTER, TEXT("d"), {NULL, 0}, T300, UINT32_C(16909060), UINT32_C(84281096), 772, 14};
    CHECK(registers(TEXT("d"), 1, T300, nothing(), IMAGE(HELD_D)));
    CHECK(registers(TEXT("d"), 1, T300, IMAGE(HELD_A HELD_B), held()));
    CHECK(registers(TEXT("d"), 2, T300, held(), IMAGE(HELD_A HELD_B D LIST("\2") OPEN(ONE, AT300) OPEN(TWO, AT300))));
    CHECK(registers(TEXT("d"), 1, T300, held(), IMAGE(HELD_A HELD_B D LIST("\2") OPEN(ONE, AT300) OPEN(ONE, AT300))));
    CHECK(registers(TEXT("b"), 1, T300, held(), IMAGE(HELD_A "\0\1" "b" AT300 LIST("\1") OPEN(ONE, AT300) HELD_D)));
    CHECK(registers(TEXT("d"), 1, T300, IMAGE(D EMPTY), IMAGE(HELD_D)));
    CHECK(registers(TEXT("a"), 3, T300, held(),
                    IMAGE(A LIST("\3") DONE(ONE, AT300) OPEN(TWO, AT300) OPEN(THREE, AT300) HELD_B HELD_D)));
    CHECK(registers(TEXT("c"), 1, T300, held(), IMAGE(HELD_A HELD_B "\0\1" "c" AT300 LIST("\1") OPEN(ONE, AT300) HELD_D)));
    CHECK(registers_any(c, nothing(), IMAGE(D LIST("\1") "\1\2\3\4" "\5\6\7\10" "\16" "\3\4" "\0" AT300)));
    c.rseq = c.cseq = UINT32_MAX;
    c.code = UINT16_MAX;
    c.time = UINT64_MAX;
    CHECK(registers_any(c, nothing(), IMAGE("\0\1" "d" AT_LAST LIST("\1") MOST MOST "\16" "\xFF\xFF" "\0" AT_LAST)));
    c.rseq = c.cseq = 0;
    c.code = 0;
    c.time = 0;
    CHECK(registers_any(c, nothing(), IMAGE("\0\1" "d" AT0 LIST("\1") ZERO ZERO "\16" "\0\0" "\0" AT0)));
}

/* The eleventh response drops the first; the list is then as long as before. */
static void test_register_eleventh(void)
{
    struct image nine = long_list(IMAGE(D LIST("\11") OPEN(ONE, AT300)), 8);
    struct image ten = long_list(IMAGE(D LIST("\12") OPEN(ONE, AT300)), 9);
    struct image others = long_list(IMAGE(D LIST("\12")), 9);
    CHECK(registers(TEXT("d"), 3, T300, nine, long_list(IMAGE(D LIST("\12") OPEN(ONE, AT300)), 9)));
    CHECK(registers(TEXT("d"), 2, T300, ten, join(others, IMAGE(OPEN(TWO, AT300)))));
    CHECK(registers(TEXT("d"), 2, T300, join(ten, IMAGE("\0\1" "e" AT300 NONE)),
                    join(join(others, IMAGE(OPEN(TWO, AT300))), IMAGE("\0\1" "e" AT300 NONE))));
    /* an acknowledged one too, and not one that waits in its place */
    CHECK(registers(TEXT("d"), 2, T300, with_byte(ten, 24, 1), join(others, IMAGE(OPEN(TWO, AT300)))));
    /* a cleanup before it makes room */
    CHECK(registers(TEXT("d"), 2, T600, with_byte(ten, 24, 1),
                    join(long_list(IMAGE("\0\1" "d" AT600 LIST("\12")), 9), IMAGE(OPEN(TWO, AT600)))));
}

/* A cleanup is due at 300 s; it drops what is acknowledged or more than 300 s old. */
static void test_register_cleans(void)
{
    struct image before = IMAGE(D LIST("\3") DONE(ONE, AT300) OPEN(TWO, AT300) OPEN(THREE, AT300_LESS));
    CHECK(registers(TEXT("d"), 1, T600 - 1, before,
                    IMAGE(D LIST("\4") DONE(ONE, AT300) OPEN(TWO, AT300) OPEN(THREE, AT300_LESS) OPEN(ONE, AT600_LESS))));
    CHECK(registers(TEXT("d"), 1, T600, before, IMAGE("\0\1" "d" AT600 LIST("\2") OPEN(TWO, AT300) OPEN(ONE, AT600))));
    CHECK(registers(TEXT("d"), 1, T600 + 1, before, IMAGE("\0\1" "d" AT600_1 LIST("\1") OPEN(ONE, AT600_1))));
    /* other texts stay as they are */
    CHECK(registers(TEXT("d"), 1, T600 + 1, held(), IMAGE(HELD_A HELD_B "\0\1" "d" AT600_1 LIST("\1") OPEN(ONE, AT600_1))));
    /* where the clock went back the cleanup's time stays, and the response has the new one */
    CHECK(registers(TEXT("d"), 2, 1, IMAGE(HELD_D), IMAGE(D LIST("\2") OPEN(ONE, AT300) OPEN(TWO, AT1))));
    CHECK(registers(TEXT("d"), 2, 0, IMAGE("\0\1" "d" AT_LAST EMPTY), IMAGE("\0\1" "d" AT_LAST LIST("\1") OPEN(TWO, AT0))));
    /* a response from after the cleanup's time is not old */
    CHECK(registers(TEXT("d"), 2, T300, IMAGE("\0\1" "d" AT0 LIST("\1") OPEN(ONE, AT_LAST)),
                    IMAGE(D LIST("\2") OPEN(ONE, AT_LAST) OPEN(TWO, AT300))));
}

/* ---- validate */

static void test_validate(void)
{
    struct image marked = with_byte(held(), D_FLAG, 1);
    struct image other = IMAGE(D LIST("\2") OPEN(ONE, AT300) MOST MOST "\16" "\0\xC7" "\0" AT300);
    CHECK(accepts(TEXT("d"), RACK1, T300, held(), marked, 1));
    CHECK(accepts(TEXT("d"), RACK1, T600 - 1, held(), marked, 1));
    CHECK(accepts(TEXT("d"), RACK1, 0, held(), marked, 1));
    CHECK(accepts(TEXT("a"), RACK2, T300, held(), IMAGE(A LIST("\2") DONE(ONE, AT300) DONE(TWO, AT300) HELD_B HELD_D), 2));
    CHECK(accepts_any(prack(TEXT("d"), "RAck:4294967295 4294967295 PUBLISH\r\n", T300), other,
                      with_byte(other, other.length - 9, 1), UINT32_MAX, UINT32_MAX, 14));
    CHECK(judges(TEXT("d"), "", T300, held(), held(), 19));
    CHECK(judges(TEXT("d"), "RSeq:1\r\n", T300, held(), held(), 19));
    CHECK(judges(TEXT("b"), RACK1, T300, held(), held(), 20));
    CHECK(judges(TEXT("d"), RACK2, T300, held(), held(), 21));
    CHECK(judges(TEXT("d"), RACK1, T300, IMAGE(D EMPTY), IMAGE(D EMPTY), 21));
    CHECK(judges(TEXT("d"), "RAck:1 2 INVITE\r\n", T300, held(), held(), 22));
    CHECK(judges(TEXT("d"), "RAck:1 2 ACK\r\n", T300, held(), held(), 22));
    CHECK(judges(TEXT("d"), "RAck:1 1 ACK\r\n", T300, held(), held(), 23));
    CHECK(judges(TEXT("a"), RACK1, T300, held(), held(), 24));
    CHECK(judges(TEXT("a"), "RAck:1 2 INVITE\r\n", T300, held(), held(), 22));
    CHECK(judges(TEXT("a"), "RAck:1 1 ACK\r\n", T300, held(), held(), 23));
    CHECK(judges(TEXT("a"), RACK1, T600 - 1, held(), held(), 24));
}

/* Every form of a RAck beside a response of RSeq 1, CSeq 1 and INVITE. */
static void test_racks(void)
{
    static const char *const read[] = {RACK1, "RAck: 1 1 INVITE \r\n", "rack:1 1 INVITE\r\n", "RAck:+1 +1 INVITE\r\n", "RAck:01 001 INVITE\r\n",
                                       "RAck:1 1 invite\r\n", "RAck:1 1 Invite\r\n", "RAck:\t1  1\tINVITE\r\n", "Via:h\r\n" RACK1,
                                       RACK1 "RAck:2 2 BYE\r\n", "RAcks:2 2 BYE\r\n" RACK1};
    static const char *const unread[] = {"", "RAck:\r\n", "RAck: \r\n", "RAck:1\r\n", "RAck:1 1\r\n", "RAck:1 1 INVITE x\r\n", "RAck:1 1 INVITE 1\r\n",
                                         "RAck:x 1 INVITE\r\n", "RAck:1 x INVITE\r\n", "RAck:1 1 x\r\n", "RAck:-1 1 INVITE\r\n", "RAck:1 ++1 INVITE\r\n",
                                         "RAck:4294967296 1 INVITE\r\n", "RAck:1 4294967296 INVITE\r\n", "RAck:1 1 INVIT\r\n", "RAck:1 1 INVITED\r\n",
                                         "RAck:x\r\n" RACK1, "RAcks:1 1 INVITE\r\n", "XRAck:1 1 INVITE\r\n"};
    struct image marked = with_byte(held(), D_FLAG, 1);
    size_t i;
    for (i = 0; i < sizeof read / sizeof read[0]; i++) {
        CHECK(accepts(TEXT("d"), read[i], T300, held(), marked, 1));
        CHECK(judges(TEXT("d"), read[i], T300, marked, marked, 24));
    }
    for (i = 0; i < sizeof unread / sizeof unread[0]; i++) {
        CHECK(judges(TEXT("d"), unread[i], T300, held(), held(), 19));
        CHECK(judges(TEXT("b"), unread[i], T300, held(), held(), 19));
    }
}

/* The cleaned list stays, whatever the answer. */
static void test_validate_cleans(void)
{
    struct image before = IMAGE(D LIST("\3") DONE(ONE, AT300) OPEN(TWO, AT300) OPEN(THREE, AT300_LESS));
    struct image after = IMAGE("\0\1" "d" AT600 LIST("\1") OPEN(TWO, AT300));
    struct image empty = IMAGE("\0\1" "d" AT600_1 EMPTY);
    CHECK(accepts(TEXT("d"), RACK2, T600, before, with_byte(after, 24, 1), 2));
    CHECK(judges(TEXT("d"), "", T600, before, after, 19));
    CHECK(judges(TEXT("d"), "RAck:2 1\r\n", T600, before, after, 19));
    CHECK(judges(TEXT("d"), RACK1, T600, before, after, 21));
    CHECK(judges(TEXT("d"), RACK3, T600, before, after, 21));
    CHECK(judges(TEXT("d"), "RAck:2 2 INVITE\r\n", T600, before, after, 22));
    CHECK(judges(TEXT("d"), "RAck:2 1 BYE\r\n", T600, before, after, 23));
    CHECK(judges(TEXT("d"), RACK2, T600 + 1, before, empty, 21));
    CHECK(judges(TEXT("d"), "", T600 + 1, before, empty, 19));
    CHECK(judges(TEXT("b"), RACK1, T600, held(), IMAGE(HELD_A "\0\1" "b" AT600 NONE HELD_D), 20));
    CHECK(judges(TEXT("b"), "", T600, held(), IMAGE(HELD_A "\0\1" "b" AT600 NONE HELD_D), 19));
    CHECK(judges(TEXT("a"), RACK1, T600, held(), IMAGE("\0\1" "a" AT600 LIST("\1") OPEN(TWO, AT300) HELD_B HELD_D), 21));
    /* the clock went back: nothing is cleaned, and the time stays */
    CHECK(judges(TEXT("d"), "", 0, before, before, 19));
    CHECK(judges(TEXT("d"), "", 0, IMAGE("\0\1" "d" AT_LAST EMPTY), IMAGE("\0\1" "d" AT_LAST EMPTY), 19));
}

/* A text of which nothing is held: its time is stored, also with 19 and 20; 18 comes before them. */
static void test_validate_unknown(void)
{
    CHECK(judges(TEXT("d"), RACK1, T300, nothing(), IMAGE(D NONE), 20));
    CHECK(judges(TEXT("d"), "", T300, nothing(), IMAGE(D NONE), 19));
    CHECK(judges(TEXT(""), "", T300, nothing(), IMAGE("\0\0" AT300 NONE), 19));
    CHECK(judges(TEXT("d"), "RAck:x\r\n", 0, nothing(), IMAGE("\0\1" "d" AT0 NONE), 19));
    CHECK(judges(TEXT("c"), RACK1, T300, held(), IMAGE(HELD_A HELD_B "\0\1" "c" AT300 NONE HELD_D), 20));
    CHECK(judges(TEXT("e"), "", UINT64_MAX, held(), IMAGE(HELD_A HELD_B HELD_D "\0\1" "e" AT_LAST NONE), 19));
}

/* The first of equal RSeqs decides. */
static void test_equal_rseqs(void)
{
    struct image both = IMAGE(D LIST("\2") OPEN(ONE, AT300) ONE TWO "\1" "\0\xB7" "\0" AT300);
    struct image first = with_byte(both, 24, 1);
    struct image second = with_byte(both, 44, 1);
    struct call two = prack(TEXT("d"), "RAck:1 2 INVITE\r\n", T300);
    CHECK(accepts(TEXT("d"), RACK1, T300, both, first, 1));
    CHECK(judges(TEXT("d"), "RAck:1 2 INVITE\r\n", T300, both, both, 22));
    CHECK(judges(TEXT("d"), RACK1, T300, first, first, 24));
    CHECK(judges(TEXT("d"), "RAck:1 2 INVITE\r\n", T300, first, first, 22));
    CHECK(is_pracked(TEXT("d"), 1, both, 0));
    CHECK(is_pracked(TEXT("d"), 1, first, 1));
    CHECK(prunes(TEXT("d"), 1, first, IMAGE(D LIST("\1") ONE TWO "\1" "\0\xB7" "\0" AT300)));
    CHECK(accepts_any(two, IMAGE(D LIST("\1") ONE TWO "\1" "\0\xB7" "\0" AT300), IMAGE(D LIST("\1") ONE TWO "\1" "\0\xB7" "\1" AT300), 1, 2,
                      1));
    /* as only a store handed in may have them */
    CHECK(accepts(TEXT("d"), RACK1, T300, second, with_byte(second, 24, 1), 1));
    CHECK(is_pracked(TEXT("d"), 1, second, 0));
    CHECK(lists(TEXT("d"), T300, second, second, IMAGE(ONE "\0\xB4")));
    CHECK(prunes(TEXT("d"), 1, second, IMAGE(HELD_D)));
    CHECK(prunes(TEXT("d"), 1, with_byte(second, 24, 1), IMAGE(D EMPTY)));
}

/* ---- is_pracked, get_pending, remove_dialog, remove_pracked */

static void test_is_pracked(void)
{
    CHECK(is_pracked(TEXT("a"), 1, held(), 1));
    CHECK(is_pracked(TEXT("a"), 2, held(), 0));
    CHECK(is_pracked(TEXT("a"), 3, held(), 0));
    CHECK(is_pracked(TEXT("b"), 1, held(), 0));
    CHECK(is_pracked(TEXT("d"), 1, held(), 0));
    CHECK(is_pracked(TEXT("c"), 1, held(), 0));
    CHECK(is_pracked(TEXT(""), 0, nothing(), 0));
    CHECK(is_pracked(TEXT("d"), 1, IMAGE(D EMPTY), 0));
    CHECK(is_pracked(TEXT("d"), UINT32_MAX, IMAGE(D LIST("\1") DONE(MOST, AT0)), 1));
    CHECK(is_pracked(TEXT("d"), 0, IMAGE(D LIST("\1") DONE(ZERO, AT_LAST)), 1));
}

static void test_get_pending(void)
{
    struct image ten = long_list(IMAGE(D LIST("\12")), 10);
    struct image before = IMAGE(D LIST("\4") DONE(ONE, AT300) OPEN(TWO, AT300) OPEN(THREE, AT300_LESS) OPEN(MOST, AT300_1));
    CHECK(lists(TEXT("a"), T300, held(), held(), IMAGE(TWO "\0\xB4")));
    CHECK(lists(TEXT("d"), T300, held(), held(), IMAGE(ONE "\0\xB4")));
    CHECK(lists(TEXT("b"), T300, held(), held(), nothing()));
    CHECK(lists(TEXT("d"), T300, IMAGE(D EMPTY), IMAGE(D EMPTY), nothing()));
    CHECK(lists(TEXT("d"), T300, ten, ten,
                IMAGE(THREE "\0\xB4" THREE "\0\xB4" THREE "\0\xB4" THREE "\0\xB4" THREE "\0\xB4" THREE "\0\xB4" THREE "\0\xB4" THREE
                            "\0\xB4" THREE "\0\xB4" THREE "\0\xB4")));
    CHECK(lists(TEXT("d"), T600 - 1, before, before, IMAGE(TWO "\0\xB4" THREE "\0\xB4" MOST "\0\xB4")));
    CHECK(lists(TEXT("d"), T600, before, IMAGE("\0\1" "d" AT600 LIST("\2") OPEN(TWO, AT300) OPEN(MOST, AT300_1)),
                IMAGE(TWO "\0\xB4" MOST "\0\xB4")));
    CHECK(lists(TEXT("d"), T600 + 1, before, IMAGE("\0\1" "d" AT600_1 LIST("\1") OPEN(MOST, AT300_1)), IMAGE(MOST "\0\xB4")));
    CHECK(lists(TEXT("d"), UINT64_MAX, before, IMAGE("\0\1" "d" AT_LAST EMPTY), nothing()));
    CHECK(lists(TEXT("d"), 0, before, before, IMAGE(TWO "\0\xB4" THREE "\0\xB4" MOST "\0\xB4")));
    CHECK(lists(TEXT("b"), T600, held(), IMAGE(HELD_A "\0\1" "b" AT600 NONE HELD_D), nothing()));
    /* a text of which nothing is held: its time is stored */
    CHECK(lists(TEXT("d"), T300, nothing(), IMAGE(D NONE), nothing()));
    CHECK(lists(TEXT("c"), 0, held(), IMAGE(HELD_A HELD_B "\0\1" "c" AT0 NONE HELD_D), nothing()));
    CHECK(lists(TEXT("d"), T300, IMAGE(D LIST("\1") "\1\2\3\4" ONE "\1" "\3\4" "\0" AT300),
                IMAGE(D LIST("\1") "\1\2\3\4" ONE "\1" "\3\4" "\0" AT300), IMAGE("\1\2\3\4" "\3\4")));
}

static void test_remove_dialog(void)
{
    CHECK(removes(TEXT("a"), held(), IMAGE(HELD_B HELD_D)));
    CHECK(removes(TEXT("b"), held(), IMAGE(HELD_A HELD_D)));
    CHECK(removes(TEXT("d"), held(), IMAGE(HELD_A HELD_B)));
    CHECK(removes(TEXT("d"), IMAGE(HELD_D), nothing()));
    CHECK(removes(TEXT("d"), nothing(), nothing()));
    CHECK(removes(TEXT("c"), held(), held()));
    CHECK(removes(TEXT(""), held(), held()));
    CHECK(removes(TEXT("dd"), held(), held()));
    CHECK(removes(TEXT("D"), held(), held()));
}

static void test_remove_pracked(void)
{
    struct image several = IMAGE(D LIST("\4") DONE(ONE, AT300) OPEN(ONE, AT300) DONE(ONE, AT0) DONE(TWO, AT300));
    CHECK(prunes(TEXT("a"), 1, held(), IMAGE(A LIST("\1") OPEN(TWO, AT300) HELD_B HELD_D)));
    CHECK(prunes(TEXT("a"), 2, held(), held()));
    CHECK(prunes(TEXT("a"), 3, held(), held()));
    CHECK(prunes(TEXT("b"), 1, held(), held()));
    CHECK(prunes(TEXT("c"), 1, held(), held()));
    CHECK(prunes(TEXT("d"), 1, held(), held()));
    CHECK(prunes(TEXT("d"), 1, nothing(), nothing()));
    CHECK(prunes(TEXT("d"), 1, with_byte(held(), D_FLAG, 1), IMAGE(HELD_A HELD_B D EMPTY)));
    CHECK(prunes(TEXT("d"), 1, IMAGE(D EMPTY), IMAGE(D EMPTY)));
    CHECK(prunes(TEXT("d"), 1, several, IMAGE(D LIST("\2") OPEN(ONE, AT300) DONE(TWO, AT300))));
    CHECK(prunes(TEXT("d"), 2, several, IMAGE(D LIST("\3") DONE(ONE, AT300) OPEN(ONE, AT300) DONE(ONE, AT0))));
    CHECK(prunes(TEXT("d"), UINT32_MAX, IMAGE(D LIST("\2") DONE(MOST, AT300) DONE(ZERO, AT300)), IMAGE(D LIST("\1") DONE(ZERO, AT300))));
}

/* ---- Calls one after another on the same bytes */

/* A store that is kept from call to call, and what is to be in it. */
struct day {
    uint8_t bytes[300];
    uint8_t expected[300];
    uint8_t out[ENOUGH];
    size_t used;
    size_t written;
    uint32_t rseq;
    uint32_t cseq;
    uint8_t method;
};

static void begin(struct day *d)
{
    memset(d, KEPT, sizeof *d);
    d->used = 0;
}

/* Whether the used bytes are now this store, and all others as the last calls left them. */
static bool day_is(struct day *d, struct image store)
{
    memcpy(d->expected, store.bytes, store.length);
    return d->used == store.length && memcmp(d->bytes, d->expected, sizeof d->bytes) == 0;
}

/* Whether the numbers of a RAck are as `begin` left them: a refused PRACK answers none. */
static bool day_keeps_rack(const struct day *d)
{
    struct day fresh;
    begin(&fresh);
    return d->rseq == fresh.rseq && d->cseq == fresh.cseq && d->method == fresh.method;
}

static const uint8_t *const ID_D = (const uint8_t *)"d";

static uint8_t day_register(struct day *d, uint32_t rseq, uint64_t time, size_t room)
{
    return sip_dialog_prack_register(RUST, ID_D, 1, rseq, 1, 1, 180, time, d->bytes, room, &d->used);
}

static uint8_t day_prack(struct day *d, const char *block, uint64_t time, size_t room)
{
    return sip_dialog_prack_validate(RUST, ID_D, 1, (const uint8_t *)block, strlen(block), time, d->bytes, room, &d->used, &d->rseq,
                                     &d->cseq, &d->method);
}

static uint8_t day_pending(struct day *d, uint64_t time, size_t room)
{
    return sip_dialog_prack_get_pending(RUST, ID_D, 1, time, d->bytes, room, &d->used, d->out, sizeof d->out, &d->written);
}

static uint8_t day_prune(struct day *d, uint32_t rseq, size_t room)
{
    return sip_dialog_prack_remove_pracked(RUST, ID_D, 1, rseq, d->bytes, room, &d->used);
}

static void test_a_day(void)
{
    struct day d;
    begin(&d);
    CHECK(day_prack(&d, "", T300, 11) == 18 && day_is(&d, nothing()) && day_keeps_rack(&d));
    CHECK(day_prack(&d, "", T300, 12) == 19 && day_is(&d, IMAGE(D NONE)) && day_keeps_rack(&d));
    CHECK(day_prack(&d, RACK1, T300, 12) == 20 && day_is(&d, IMAGE(D NONE)) && day_keeps_rack(&d));
    CHECK(day_register(&d, 1, T300, 32) == 18 && day_is(&d, IMAGE(D NONE)));
    CHECK(day_register(&d, 1, T300, 33) == 0 && day_is(&d, IMAGE(HELD_D)));
    CHECK(day_register(&d, 2, T300, 300) == 0 && day_is(&d, IMAGE(D LIST("\2") OPEN(ONE, AT300) OPEN(TWO, AT300))));
    CHECK(day_prack(&d, RACK3, T300, 53) == 21 && day_prack(&d, RACK2, T300, 52) == 3 && day_keeps_rack(&d));
    CHECK(day_prack(&d, RACK1, T300, 53) == 0 && d.rseq == 1 && d.cseq == 1 && d.method == 1);
    CHECK(day_is(&d, IMAGE(D LIST("\2") DONE(ONE, AT300) OPEN(TWO, AT300))));
    CHECK(day_prack(&d, RACK1, T300, 53) == 24 && day_is(&d, IMAGE(D LIST("\2") DONE(ONE, AT300) OPEN(TWO, AT300))));
    CHECK(day_pending(&d, T300, 53) == 0 && d.written == 6 && memcmp(d.out, TWO "\0\xB4", 6) == 0 && d.out[6] == KEPT);
    CHECK(day_prune(&d, 1, 53) == 0 && day_is(&d, IMAGE(D LIST("\1") OPEN(TWO, AT300))));
    CHECK(day_prune(&d, 2, 33) == 0 && day_is(&d, IMAGE(D LIST("\1") OPEN(TWO, AT300))));
    CHECK(day_prack(&d, RACK1, T600, 33) == 21 && day_is(&d, IMAGE("\0\1" "d" AT600 LIST("\1") OPEN(TWO, AT300))));
    CHECK(day_prack(&d, RACK2, T600 + 1, 33) == 0 && day_is(&d, IMAGE("\0\1" "d" AT600 LIST("\1") DONE(TWO, AT300))));
    CHECK(day_prack(&d, RACK2, 3 * T300, 33) == 21 && day_is(&d, IMAGE("\0\1" "d" AT900 EMPTY)));
    CHECK(day_pending(&d, 3 * T300, 13) == 0 && d.written == 0 && day_is(&d, IMAGE("\0\1" "d" AT900 EMPTY)));
    CHECK(sip_dialog_prack_remove_dialog(RUST, ID_D, 1, d.bytes, 13, &d.used) == 0 && day_is(&d, nothing()));
    CHECK(day_prack(&d, RACK2, T300, 12) == 20 && day_is(&d, IMAGE(D NONE)));
}

/* The inputs of docs/DIFFERENCES.md, "RFC 3262, PRACK lists", row by row. */
static void test_departures(void)
{
    struct day d;
    uint32_t rseq;
    begin(&d);
    CHECK(day_register(&d, 0, 0, 300) == 0 && day_register(&d, 0, 0, 300) == 0);
    CHECK(day_pending(&d, 0, 300) == 0 && d.written == 12 && memcmp(d.out, ZERO "\0\xB4" ZERO "\0\xB4", 12) == 0);
    begin(&d);
    CHECK(day_register(&d, 2, 0, 300) == 0 && day_register(&d, 1, 0, 300) == 0);
    CHECK(day_pending(&d, 0, 300) == 0 && d.written == 12 && memcmp(d.out, TWO "\0\xB4" ONE "\0\xB4", 12) == 0);
    begin(&d);
    CHECK(day_register(&d, 1, 0, 300) == 0 && day_prack(&d, RACK1, T300 + 1, 300) == 21);
    begin(&d);
    CHECK(day_register(&d, 1, 0, 300) == 0 && day_pending(&d, T300, 300) == 0 && day_prack(&d, RACK1, T600 - 1, 300) == 0);
    begin(&d);
    for (rseq = 1; rseq <= 11; rseq++) {
        CHECK(day_register(&d, rseq, 0, 300) == 0);
    }
    CHECK(day_prack(&d, RACK1, 0, 300) == 21);
    begin(&d);
    CHECK(day_register(&d, 1, 0, 300) == 0);
    CHECK(sip_dialog_prack_register(RUST, ID_D, 1, 1, 2, 1, 180, 0, d.bytes, 300, &d.used) == 0);
    CHECK(day_prack(&d, "RAck:1 2 INVITE\r\n", 0, 300) == 22);
    begin(&d);
    CHECK(sip_dialog_prack_register(RUST, ID_D, 1, 1, 1, 2, 0, 0, d.bytes, 300, &d.used) == 0);
    CHECK(day_prack(&d, "RAck:1 1 ACK\r\n", 0, 300) == 0);
    begin(&d);
    CHECK(day_register(&d, 1, 0, 300) == 0 && day_prack(&d, RACK1, 0, 300) == 0);
    begin(&d);
    CHECK(day_register(&d, 1, 0, 300) == 0 && day_prack(&d, RACK1 "RAck:x\r\n", 0, 300) == 0);
    begin(&d);
    CHECK(day_prack(&d, "", 0, 11) == 18 && d.used == 0 && day_prack(&d, "", 0, 12) == 19 && d.used == 12);
    CHECK(day_prack(&d, RACK1, 0, 300) == 20);
}

void test_prack_stores(void)
{
    static void (*const tests[])(void) = {
        test_used_length, test_cut_off, test_no_layout, test_longest_list, test_long_texts, test_longest_texts, test_longer_entries,
        test_order_of_texts, test_null_texts, test_methods, test_blocks, test_register, test_register_eleventh,
        test_register_cleans, test_validate, test_racks, test_validate_cleans, test_validate_unknown, test_equal_rseqs,
        test_is_pracked, test_get_pending, test_remove_dialog, test_remove_pracked, test_a_day,
        test_departures,
    };
    run_guarded(tests, sizeof tests / sizeof tests[0]);
}
