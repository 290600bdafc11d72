/*
 * Calls the functions of include/sip_dialog.h on RSeq stores, accepted and refused: what each returns, and what every lent
 * number, every byte of the store and the bytes around it then hold. Expected bytes come from document 01 and
 * docs/LAYOUTS.md, not from the code.
 */
#include "c_face.h"

/* ---- Calls */

enum function {
    NEXT,
    CURRENT,
    REMOVE,
    LEN,
    IS_EMPTY,
    FUNCTIONS /* how many there are */
};

struct id {
    struct text call_id;
    struct text local_tag;
    struct text remote_tag;
};

/* Of three strings, whose closing zeros aren't bytes of theirs. */
#define ID(call_id, local_tag, remote_tag)                                                                             \
    ((struct id){{call_id, sizeof(call_id) - 1}, {local_tag, sizeof(local_tag) - 1}, {remote_tag, sizeof(remote_tag) - 1}})

struct call {
    enum function function;
    struct id id;
    uint32_t n;
};

/* A store as it is lent: what is in it, how many bytes are lent, and how many are said to be used. */
struct lent {
    struct image content;
    size_t room;
    size_t used;
};

/* Lent numbers: the middle one is lent, and stands between two that must stay KEPT. */
struct numbers {
    size_t used[3];
    uint32_t rseq[3];
    size_t len[3];
    uint8_t empty[3];
};

/* What is to be returned, what the lent numbers are to hold, and what the front of the store is to be. */
struct outcome {
    uint8_t returned;
    size_t used;
    uint32_t rseq;
    size_t len;
    uint8_t empty;
    struct image store;
};

static bool numbers_are(const struct numbers *n, const struct outcome *o)
{
    return IS(n, o, used) && IS(n, o, rseq) && IS(n, o, len) && IS(n, o, empty);
}

static uint8_t ask(const struct call *c, struct area s, struct numbers *n)
{
    struct run call_id = lend_text(c->id.call_id);
    struct run local = lend_text(c->id.local_tag);
    struct run remote = lend_text(c->id.remote_tag);
    uint8_t returned;
    switch (c->function) {
    case NEXT:
        returned = sip_dialog_rseq_next(RUN(call_id), RUN(local), RUN(remote), c->n, s.bytes, s.room, &n->used[1], &n->rseq[1]);
        break;
    case CURRENT:
        returned = sip_dialog_rseq_current(RUN(call_id), RUN(local), RUN(remote), s.bytes, s.room, n->used[1], &n->rseq[1]);
        break;
    case REMOVE:
        returned = sip_dialog_rseq_remove(RUN(call_id), RUN(local), RUN(remote), s.bytes, s.room, &n->used[1]);
        break;
    case LEN:
        returned = sip_dialog_rseq_len(s.bytes, s.room, n->used[1], &n->len[1]);
        break;
    default:
        returned = sip_dialog_rseq_is_empty(s.bytes, s.room, n->used[1], &n->empty[1]);
        break;
    }
    take_back(call_id);
    take_back(local);
    take_back(remote);
    return returned;
}

static bool gives(const struct call *c, const struct lent *l, const struct outcome *o)
{
    struct numbers n = {{KEPT, KEPT, KEPT}, {KEPT, KEPT, KEPT}, {KEPT, KEPT, KEPT}, {KEPT, KEPT, KEPT}};
    struct area s = lend_area(l->content.bytes, l->content.length, l->room);
    uint8_t returned;
    n.used[1] = l->used;
    returned = ask(c, s, &n);
    return front_became(s, o->store.bytes, o->store.length) && returned == o->returned && numbers_are(&n, o);
}

/* ---- What is expected of a call */

/* Refused in so much room: all is kept. */
static bool refuses_in(struct call c, struct image before, size_t room, size_t used, uint8_t number)
{
    struct lent l = {before, room, used};
    struct outcome o = {number, used, KEPT, KEPT, KEPT, nothing()};
    return gives(&c, &l, &o);
}

/* Refused in room enough, and in no more than is used. */
static bool refuses(struct call c, struct image before, uint8_t number)
{
    bool with_room = refuses_in(c, before, before.length + 200, before.length, number);
    return with_room && refuses_in(c, before, before.length, before.length, number);
}

/* Accepted in so much room; a removal answers no number. */
static bool answers_in(struct call c, struct image before, size_t room, struct image after, uint32_t answer)
{
    struct lent l = {before, room, before.length};
    struct outcome o = {0, after.length, KEPT, KEPT, KEPT, after};
    if (c.function == NEXT || c.function == CURRENT) {
        o.rseq = answer;
    } else if (c.function == LEN) {
        o.len = answer;
    } else if (c.function == IS_EMPTY) {
        o.empty = (uint8_t)answer;
    }
    return gives(&c, &l, &o);
}

/* Accepted in room enough and in no more than is needed; with a byte less 18, and with less than is used 3. */
static bool answers(struct call c, struct image before, struct image after, uint32_t answer)
{
    bool grows = after.length > before.length;
    size_t needed = grows ? after.length : before.length;
    bool holds = answers_in(c, before, needed, after, answer) && answers_in(c, before, needed + 1, after, answer);
    holds = holds && answers_in(c, before, needed + 200, after, answer);
    if (grows) {
        holds = holds && refuses_in(c, before, needed - 1, before.length, 18);
        holds = holds && refuses_in(c, before, before.length, before.length, 18);
    }
    return holds && (before.length == 0 || refuses_in(c, before, before.length - 1, before.length, 3));
}

static bool next(struct id id, uint32_t n, struct image before, struct image after, uint32_t rseq)
{
    struct call c = {NEXT, id, n};
    return answers(c, before, after, rseq);
}

static bool current_is(struct id id, struct image store, uint32_t rseq)
{
    struct call c = {CURRENT, id, 0};
    return answers(c, store, store, rseq);
}

static bool has_none(struct id id, struct image store)
{
    struct call c = {CURRENT, id, 0};
    return refuses(c, store, 15);
}

static bool removes(struct id id, struct image before, struct image after)
{
    struct call c = {REMOVE, id, 0};
    return answers(c, before, after, 0);
}

static bool counts(struct image store, uint32_t len)
{
    struct call c = {LEN, {{NULL, 0}, {NULL, 0}, {NULL, 0}}, 0};
    struct call e = {IS_EMPTY, {{NULL, 0}, {NULL, 0}, {NULL, 0}}, 0};
    return answers(c, store, store, len) && answers(e, store, store, len == 0 ? 1 : 0);
}

/* ---- A store of three entries: the middle one is the example of docs/LAYOUTS.md */

#define A "\0\1" "a" "\0\0" "\0\0"
#define B "\0\2" "c1" "\0\1" "L" "\0\0"
#define C "\0\2" "c1" "\0\1" "L" "\0\1" "R"

#define ONE "\0\0\0\1"
#define TWO "\0\0\0\2"
#define SEVEN "\0\0\0\7"
#define EIGHT "\0\0\0\10"
#define MOST "\xFF\xFF\xFF\xFF"

/* Where their numbers are, where they end. */
enum { A_NUMBER = 7, A_END = 11, B_NUMBER = 20, B_END = 24, C_NUMBER = 34, C_END = 38 };

static struct image held(void)
{
    return IMAGE(A SEVEN B ONE C MOST);
}

static struct id id_a(void)
{
    return ID("a", "", "");
}

static struct id id_b(void)
{
    return ID("c1", "L", "");
}

static struct id id_c(void)
{
    return ID("c1", "L", "R");
}

/* ---- What all functions have in common */

/* 3 for a held identifier and for one that isn't. */
static bool no_store(enum function function, struct image store, size_t room, size_t used)
{
    struct call known = {function, id_b(), 5};
    struct call unknown = {function, ID("c1", "", "L"), 5};
    return refuses_in(known, store, room, used, 3) && refuses_in(unknown, store, room, used, 3);
}

static void test_used_length(void)
{
    unsigned f;
    CHECK(held().length == C_END);
    for (f = 0; f < FUNCTIONS; f++) {
        enum function function = (enum function)f;
        CHECK(no_store(function, held(), C_END - 1, C_END));
        CHECK(no_store(function, held(), B_END, C_END));
        CHECK(no_store(function, held(), C_END, C_END + 1));
        CHECK(no_store(function, held(), C_END, SIZE_MAX));
        CHECK(no_store(function, held(), 0, 1));
        CHECK(no_store(function, held(), 0, SIZE_MAX));
    }
}

/* A store that ends anywhere but where an entry ends, and bytes behind it. */
static void test_cut_off(void)
{
    unsigned f;
    size_t used;
    for (f = 0; f < FUNCTIONS; f++) {
        enum function function = (enum function)f;
        for (used = 1; used < C_END; used++) {
            bool whole = used == A_END || used == B_END;
            CHECK(whole || no_store(function, held(), C_END + 20, used));
            CHECK(whole || no_store(function, held(), used, used));
        }
        CHECK(no_store(function, IMAGE(A SEVEN B ONE C MOST "\0"), C_END + 1, C_END + 1));
        CHECK(no_store(function, IMAGE(A SEVEN B ONE C MOST "\0\1" "d" "\0\0" "\0\0"), C_END + 20, C_END + 7));
        CHECK(no_store(function, IMAGE("\0"), 1, 1));
    }
}

/* Numbers 0, other orders, identifiers twice, and lengths over the used bytes. */
static void test_no_layout(void)
{
    unsigned f;
    for (f = 0; f < FUNCTIONS; f++) {
        enum function function = (enum function)f;
        CHECK(no_store(function, IMAGE(A "\0\0\0\0" B ONE C MOST), 100, C_END));
        CHECK(no_store(function, IMAGE(A SEVEN B "\0\0\0\0" C MOST), 100, C_END));
        CHECK(no_store(function, IMAGE(A SEVEN B ONE C "\0\0\0\0"), C_END, C_END));
        CHECK(no_store(function, IMAGE(B ONE A SEVEN C MOST), 100, C_END));
        CHECK(no_store(function, IMAGE(A SEVEN C MOST B ONE), 100, C_END));
        CHECK(no_store(function, IMAGE(C MOST B ONE A SEVEN), 100, C_END));
        CHECK(no_store(function, IMAGE(B ONE B ONE), 100, 26));
        CHECK(no_store(function, IMAGE(B ONE B TWO), 26, 26));
        CHECK(no_store(function, IMAGE(A SEVEN B ONE C MOST C MOST), 100, C_END + 14));
        CHECK(no_store(function, IMAGE(B ONE C MOST B ONE), 100, 40));
        CHECK(no_store(function, with_byte(held(), 0, 1), 400, C_END));
        CHECK(no_store(function, with_byte(held(), B_END + 8, 255), C_END, C_END));
        CHECK(no_store(function, with_byte(held(), B_END + 8, 2), C_END, C_END));
    }
}

/* Each part of a longest length is taken, and one that is longer is refused before all else. */
static bool too_long(enum function function, struct id id)
{
    struct call c = {function, id, 5};
    bool holds = refuses(c, held(), 1) && refuses(c, nothing(), 1);
    holds = holds && refuses_in(c, held(), C_END, C_END - 1, 1) && refuses_in(c, held(), 0, 1, 1);
    return holds && refuses_in(c, IMAGE(B ONE A SEVEN), 24, 24, 1);
}

static void test_long_identifiers(void)
{
    char longer[LONGEST + 2];
    const struct text a = {"a", 1};
    struct text t = {longer, LONGEST + 1};
    unsigned f;
    filled(longer, "", 'x', "", LONGEST + 1);
    for (f = 0; f <= REMOVE; f++) {
        enum function function = (enum function)f;
        struct id ids[] = {{t, a, a}, {a, t, a}, {a, a, t}, {t, t, t}};
        CHECK(too_long(function, ids[0]));
        CHECK(too_long(function, ids[1]));
        CHECK(too_long(function, ids[2]));
        CHECK(too_long(function, ids[3]));
    }
}

/* An entry ("b", "b", "b") with 1 as its number, but one part is so many `b`. */
static struct image long_entry(int part, size_t length)
{
    struct image i = IMAGE("\0\1" "b" "\0\1" "b" "\0\1" "b" ONE);
    size_t at = 3 * (size_t)part;
    memmove(i.bytes + at + 2 + length, i.bytes + at + 3, i.length - at - 3);
    memset(i.bytes + at + 2, 'b', length);
    i.bytes[at] = (uint8_t)(length >> 8);
    i.bytes[at + 1] = (uint8_t)length;
    return with_length(i, i.length - 1 + length);
}

static void test_longest_identifiers(void)
{
    char longest[LONGEST + 1];
    const struct text b = {"b", 1};
    struct text t = {longest, LONGEST};
    struct id ids[] = {{t, b, b}, {b, t, b}, {b, b, t}};
    int part;
    filled(longest, "", 'b', "", LONGEST);
    for (part = 0; part < 3; part++) {
        struct image entry = long_entry(part, LONGEST);
        CHECK(entry.length == LONGEST + 12);
        CHECK(entry.bytes[3 * part] == 0x20 && entry.bytes[3 * part + 1] == 0);
        CHECK(next(ids[part], 1, nothing(), entry, 1));
        CHECK(next(ids[part], 0, IMAGE(A SEVEN), join(IMAGE(A SEVEN), entry), 1));
        CHECK(next(ids[part], 1, IMAGE(B ONE), join(entry, IMAGE(B ONE)), 1));
        CHECK(next(ids[part], 9, entry, with_byte(entry, LONGEST + 11, 2), 2));
        CHECK(current_is(ids[part], join(entry, IMAGE(B ONE)), 1));
        CHECK(has_none(ids[part], held()));
        CHECK(removes(ids[part], join(IMAGE(A SEVEN), entry), IMAGE(A SEVEN)));
        CHECK(counts(entry, 1));
    }
}

/* A text over 8,192 bytes can't be given, but a store that holds one is read and changed around it. */
static void test_longer_entries(void)
{
    char longest[LONGEST + 1];
    struct id longest_id = {{longest, LONGEST}, {"b", 1}, {"b", 1}};
    struct image entry = long_entry(0, LONGEST + 1);
    struct image last = long_entry(2, 11000);
    filled(longest, "", 'b', "", LONGEST);
    CHECK(counts(entry, 1));
    CHECK(counts(last, 1));
    CHECK(counts(join(IMAGE(A SEVEN), join(last, IMAGE(B ONE))), 3));
    CHECK(has_none(longest_id, entry));
    CHECK(removes(longest_id, entry, entry));
    CHECK(next(id_a(), 7, entry, join(IMAGE(A SEVEN), entry), 7));
    CHECK(next(id_b(), 1, last, join(last, IMAGE(B ONE)), 1));
    CHECK(removes(id_a(), join(IMAGE(A SEVEN), last), last));
    CHECK(current_is(id_b(), join(entry, IMAGE(B ONE)), 1));
}

/* ---- next */

/* The low 31 bits of n, at least 1. */
static void test_next_first(void)
{
    CHECK(next(id_b(), 0, nothing(), IMAGE(B ONE), 1));
    CHECK(next(id_b(), 1, nothing(), IMAGE(B ONE), 1));
    CHECK(next(id_b(), 2, nothing(), IMAGE(B TWO), 2));
    CHECK(next(id_b(), 16909060, nothing(), IMAGE(B "\1\2\3\4"), 16909060));
    CHECK(next(id_b(), 2147483647, nothing(), IMAGE(B "\x7F\xFF\xFF\xFF"), 2147483647));
    CHECK(next(id_b(), UINT32_C(2147483648), nothing(), IMAGE(B ONE), 1));
    CHECK(next(id_b(), UINT32_C(2147483649), nothing(), IMAGE(B ONE), 1));
    CHECK(next(id_b(), UINT32_C(2147483653), nothing(), IMAGE(B "\0\0\0\5"), 5));
    CHECK(next(id_b(), UINT32_MAX - 1, nothing(), IMAGE(B "\x7F\xFF\xFF\xFE"), 2147483646));
    CHECK(next(id_b(), UINT32_MAX, nothing(), IMAGE(B "\x7F\xFF\xFF\xFF"), 2147483647));
}

/* One more than the number held, whatever n is; the largest number stays. */
static bool raises(struct image before, struct image after, uint32_t rseq)
{
    bool low = next(id_b(), 0, before, after, rseq) && next(id_b(), 77, before, after, rseq);
    bool high = next(id_b(), UINT32_C(2147483648), before, after, rseq);
    return low && high && next(id_b(), UINT32_MAX, before, after, rseq);
}

static void test_next_held(void)
{
    CHECK(raises(IMAGE(B ONE), IMAGE(B TWO), 2));
    CHECK(raises(IMAGE(B "\0\0\0\xFF"), IMAGE(B "\0\0\1\0"), 256));
    CHECK(raises(IMAGE(B "\0\0\xFF\xFF"), IMAGE(B "\0\1\0\0"), 65536));
    CHECK(raises(IMAGE(B "\0\xFF\xFF\xFF"), IMAGE(B "\1\0\0\0"), 16777216));
    CHECK(raises(IMAGE(B "\x7F\xFF\xFF\xFF"), IMAGE(B "\x80\0\0\0"), UINT32_C(2147483648)));
    CHECK(raises(IMAGE(B "\xFF\xFF\xFF\xFD"), IMAGE(B "\xFF\xFF\xFF\xFE"), UINT32_MAX - 1));
    CHECK(raises(IMAGE(B "\xFF\xFF\xFF\xFE"), IMAGE(B MOST), UINT32_MAX));
    CHECK(raises(IMAGE(B MOST), IMAGE(B MOST), UINT32_MAX));
    CHECK(raises(held(), IMAGE(A SEVEN B TWO C MOST), 2));
    CHECK(next(id_a(), 1, held(), IMAGE(A EIGHT B ONE C MOST), 8));
    CHECK(next(id_c(), 1, held(), held(), UINT32_MAX));
    CHECK(next(id_c(), 1, IMAGE(A SEVEN B ONE C SEVEN), IMAGE(A SEVEN B ONE C EIGHT), 8));
}

/* A new entry stands where the order of identifiers has it. */
static void test_next_place(void)
{
    CHECK(next(id_a(), 7, IMAGE(B ONE C MOST), IMAGE(A SEVEN B ONE C MOST), 7));
    CHECK(next(id_b(), 1, IMAGE(A SEVEN C MOST), IMAGE(A SEVEN B ONE C MOST), 1));
    CHECK(next(id_c(), 7, IMAGE(A SEVEN B ONE), IMAGE(A SEVEN B ONE C SEVEN), 7));
    CHECK(next(ID("", "", ""), 1, held(), IMAGE("\0\0" "\0\0" "\0\0" ONE A SEVEN B ONE C MOST), 1));
    CHECK(next(ID("c1", "L", "Q"), 1, held(), IMAGE(A SEVEN B ONE "\0\2" "c1" "\0\1" "L" "\0\1" "Q" ONE C MOST), 1));
    CHECK(next(ID("c1", "L", "R1"), 1, held(), IMAGE(A SEVEN B ONE C MOST "\0\2" "c1" "\0\1" "L" "\0\2" "R1" ONE), 1));
    CHECK(next(ID("c1", "", "z"), 1, held(), IMAGE(A SEVEN "\0\2" "c1" "\0\0" "\0\1" "z" ONE B ONE C MOST), 1));
    CHECK(next(ID("c", "z", "z"), 1, held(), IMAGE(A SEVEN "\0\1" "c" "\0\1" "z" "\0\1" "z" ONE B ONE C MOST), 1));
}

/* That the first of two identifiers stands before the second, whichever comes first. Both images are entries with 1. */
static bool stands_before(struct id first, struct image one, struct id second, struct image other)
{
    struct image both = join(one, other);
    bool forth = next(first, 1, other, both, 1) && next(second, 1, one, both, 1);
    bool found = current_is(first, both, 1) && current_is(second, both, 1) && counts(both, 2);
    bool alone = has_none(first, other) && has_none(second, one);
    struct call c = {LEN, {{NULL, 0}, {NULL, 0}, {NULL, 0}}, 0};
    bool back = refuses(c, join(other, one), 3);
    return forth && found && alone && back && removes(first, both, other) && removes(second, both, one);
}

static void test_order_of_identifiers(void)
{
    /* a proper prefix first, and a longer text may come before a shorter one */
    CHECK(stands_before(ID("", "", ""), IMAGE("\0\0" "\0\0" "\0\0" ONE), ID("a", "", ""), IMAGE(A ONE)));
    CHECK(stands_before(ID("a", "", ""), IMAGE(A ONE), ID("ab", "", ""), IMAGE("\0\2" "ab" "\0\0" "\0\0" ONE)));
    CHECK(stands_before(ID("a", "", ""), IMAGE(A ONE), ID("a\0", "", ""), IMAGE("\0\2" "a\0" "\0\0" "\0\0" ONE)));
    CHECK(stands_before(ID("ab", "", ""), IMAGE("\0\2" "ab" "\0\0" "\0\0" ONE), ID("b", "", ""),
                        IMAGE("\0\1" "b" "\0\0" "\0\0" ONE)));
    /* the Call-ID decides, then the local tag, then the remote one */
    CHECK(stands_before(ID("a", "z", "z"), IMAGE("\0\1" "a" "\0\1" "z" "\0\1" "z" ONE), ID("b", "", ""),
                        IMAGE("\0\1" "b" "\0\0" "\0\0" ONE)));
    CHECK(stands_before(ID("a", "b", "z"), IMAGE("\0\1" "a" "\0\1" "b" "\0\1" "z" ONE), ID("a", "c", ""),
                        IMAGE("\0\1" "a" "\0\1" "c" "\0\0" ONE)));
    CHECK(stands_before(ID("a", "b", "b"), IMAGE("\0\1" "a" "\0\1" "b" "\0\1" "b" ONE), ID("a", "b", "c"),
                        IMAGE("\0\1" "a" "\0\1" "b" "\0\1" "c" ONE)));
    CHECK(stands_before(ID("", "b", ""), IMAGE("\0\0" "\0\1" "b" "\0\0" ONE), ID("", "ba", ""),
                        IMAGE("\0\0" "\0\2" "ba" "\0\0" ONE)));
    CHECK(stands_before(ID("", "", "b"), IMAGE("\0\0" "\0\0" "\0\1" "b" ONE), ID("", "", "ba"),
                        IMAGE("\0\0" "\0\0" "\0\2" "ba" ONE)));
    /* the same bytes with other boundaries */
    CHECK(stands_before(ID("a", "z", ""), IMAGE("\0\1" "a" "\0\1" "z" "\0\0" ONE), ID("ab", "", ""),
                        IMAGE("\0\2" "ab" "\0\0" "\0\0" ONE)));
    CHECK(stands_before(ID("a", "bc", ""), IMAGE("\0\1" "a" "\0\2" "bc" "\0\0" ONE), ID("ab", "c", ""),
                        IMAGE("\0\2" "ab" "\0\1" "c" "\0\0" ONE)));
    CHECK(stands_before(ID("", "", "ab"), IMAGE("\0\0" "\0\0" "\0\2" "ab" ONE), ID("", "ab", ""),
                        IMAGE("\0\0" "\0\2" "ab" "\0\0" ONE)));
    /* any bytes, without a sign and with letter case */
    CHECK(stands_before(ID("\0", "", ""), IMAGE("\0\1" "\0" "\0\0" "\0\0" ONE), ID("\1", "", ""),
                        IMAGE("\0\1" "\1" "\0\0" "\0\0" ONE)));
    CHECK(stands_before(ID("\x7F", "", ""), IMAGE("\0\1" "\x7F" "\0\0" "\0\0" ONE), ID("\x80", "", ""),
                        IMAGE("\0\1" "\x80" "\0\0" "\0\0" ONE)));
    CHECK(stands_before(ID("\0", "", ""), IMAGE("\0\1" "\0" "\0\0" "\0\0" ONE), ID("\xFF", "", ""),
                        IMAGE("\0\1" "\xFF" "\0\0" "\0\0" ONE)));
    CHECK(stands_before(ID("A", "", ""), IMAGE("\0\1" "A" "\0\0" "\0\0" ONE), ID("a", "", ""), IMAGE(A ONE)));
}

/* An empty text is the same with a null pointer. */
static void test_null_texts(void)
{
    const struct id null = {{NULL, 0}, {NULL, 0}, {NULL, 0}};
    struct image entry = IMAGE("\0\0" "\0\0" "\0\0" TWO);
    CHECK(next(null, 2, nothing(), entry, 2));
    CHECK(next(ID("", "", ""), 2, nothing(), entry, 2));
    CHECK(next(null, 0, entry, IMAGE("\0\0" "\0\0" "\0\0" "\0\0\0\3"), 3));
    CHECK(current_is(null, entry, 2));
    CHECK(current_is(ID("", "", ""), entry, 2));
    CHECK(has_none(null, held()));
    CHECK(removes(null, entry, nothing()));
    CHECK(removes(null, held(), held()));
}

/* ---- current, remove, len, is_empty */

static void test_current(void)
{
    CHECK(current_is(id_a(), held(), 7));
    CHECK(current_is(id_b(), held(), 1));
    CHECK(current_is(id_c(), held(), UINT32_MAX));
    CHECK(current_is(id_b(), IMAGE(B "\x80\0\0\0"), UINT32_C(2147483648)));
    CHECK(current_is(id_b(), IMAGE(B "\1\2\3\4"), 16909060));
    CHECK(has_none(id_b(), nothing()));
    CHECK(has_none(ID("", "", ""), held()));
    CHECK(has_none(ID("c", "1L", ""), held()));
    CHECK(has_none(ID("c1", "", "L"), held()));
    CHECK(has_none(ID("c1", "l", ""), held()));
    CHECK(has_none(ID("C1", "L", ""), held()));
    CHECK(has_none(ID("c1", "L", "RR"), held()));
    CHECK(has_none(ID("c1", "R", "L"), held()));
    CHECK(has_none(ID("c1\0", "L", ""), held()));
    CHECK(has_none(ID("z", "", ""), held()));
}

static void test_remove(void)
{
    CHECK(removes(id_a(), held(), IMAGE(B ONE C MOST)));
    CHECK(removes(id_b(), held(), IMAGE(A SEVEN C MOST)));
    CHECK(removes(id_c(), held(), IMAGE(A SEVEN B ONE)));
    CHECK(removes(id_b(), IMAGE(B ONE), nothing()));
    CHECK(removes(id_b(), nothing(), nothing()));
    CHECK(removes(id_b(), IMAGE(A SEVEN C MOST), IMAGE(A SEVEN C MOST)));
    CHECK(removes(ID("", "", ""), held(), held()));
    CHECK(removes(ID("c", "1L", ""), held(), held()));
    CHECK(removes(ID("c1", "R", "L"), held(), held()));
    CHECK(removes(ID("z", "", ""), held(), held()));
}

static void test_counts(void)
{
    CHECK(counts(nothing(), 0));
    CHECK(counts(IMAGE(A SEVEN), 1));
    CHECK(counts(IMAGE("\0\0" "\0\0" "\0\0" ONE), 1));
    CHECK(counts(IMAGE(B ONE C MOST), 2));
    CHECK(counts(held(), 3));
}

/* ---- Calls one after another on the same bytes */

/* A store that is kept from call to call, and what is to be in it. */
struct day {
    uint8_t bytes[100];
    uint8_t expected[100];
    size_t used;
    uint32_t rseq;
};

static void begin(struct day *d)
{
    memset(d->bytes, KEPT, sizeof d->bytes);
    memset(d->expected, KEPT, sizeof d->expected);
    d->used = 0;
    d->rseq = KEPT;
}

/* Whether the used bytes are now this store, and all others as the last calls left them. */
static bool day_is(struct day *d, struct image store)
{
    memcpy(d->expected, store.bytes, store.length);
    return d->used == store.length && memcmp(d->bytes, d->expected, sizeof d->bytes) == 0;
}

#define TEXT(t) (const uint8_t *)(t).bytes, (t).length

static uint8_t day_next(struct day *d, struct id id, uint32_t n, size_t room)
{
    return sip_dialog_rseq_next(TEXT(id.call_id), TEXT(id.local_tag), TEXT(id.remote_tag), n, d->bytes, room, &d->used,
                                &d->rseq);
}

static uint8_t day_remove(struct day *d, struct id id, size_t room)
{
    return sip_dialog_rseq_remove(TEXT(id.call_id), TEXT(id.local_tag), TEXT(id.remote_tag), d->bytes, room, &d->used);
}

static void test_a_day(void)
{
    struct day d;
    begin(&d);
    CHECK(day_remove(&d, id_b(), 0) == 0 && day_is(&d, nothing()));
    CHECK(day_next(&d, id_b(), 0, 12) == 18 && day_is(&d, nothing()) && d.rseq == KEPT);
    CHECK(day_next(&d, id_b(), 0, 13) == 0 && day_is(&d, IMAGE(B ONE)) && d.rseq == 1);
    CHECK(day_next(&d, id_b(), 50, 13) == 0 && day_is(&d, IMAGE(B TWO)) && d.rseq == 2);
    CHECK(day_next(&d, id_a(), UINT32_C(2147483655), 23) == 18 && day_is(&d, IMAGE(B TWO)) && d.rseq == 2);
    CHECK(day_next(&d, id_a(), UINT32_C(2147483655), 24) == 0 && day_is(&d, IMAGE(A SEVEN B TWO)) && d.rseq == 7);
    CHECK(day_next(&d, id_c(), 2, 38) == 0 && day_is(&d, IMAGE(A SEVEN B TWO C TWO)) && d.rseq == 2);
    CHECK(day_next(&d, id_c(), 2, 37) == 3 && day_is(&d, IMAGE(A SEVEN B TWO C TWO)));
    CHECK(day_remove(&d, id_b(), 37) == 3 && day_is(&d, IMAGE(A SEVEN B TWO C TWO)));
    CHECK(day_remove(&d, id_b(), 38) == 0 && day_is(&d, IMAGE(A SEVEN C TWO)));
    CHECK(day_remove(&d, id_b(), 25) == 0 && day_is(&d, IMAGE(A SEVEN C TWO)));
    /* the dialog comes back, and starts anew */
    CHECK(day_next(&d, id_b(), 1, 100) == 0 && day_is(&d, IMAGE(A SEVEN B ONE C TWO)) && d.rseq == 1);
    CHECK(day_next(&d, id_a(), 1, 38) == 0 && day_is(&d, IMAGE(A EIGHT B ONE C TWO)) && d.rseq == 8);
    CHECK(day_remove(&d, id_a(), 38) == 0 && day_is(&d, IMAGE(B ONE C TWO)));
    CHECK(day_remove(&d, id_c(), 27) == 0 && day_remove(&d, id_b(), 13) == 0 && day_is(&d, nothing()));
}

/* One content has one image: the three identifiers in each order, with each of them removed and put in again. */
static void test_histories(void)
{
    static const int orders[6][3] = {{0, 1, 2}, {0, 2, 1}, {1, 0, 2}, {1, 2, 0}, {2, 0, 1}, {2, 1, 0}};
    const uint32_t firsts[] = {7, 1, 16909060};
    struct id ids[3];
    size_t k;
    int i;
    int again;
    ids[0] = id_a();
    ids[1] = id_b();
    ids[2] = id_c();
    for (k = 0; k < 6; k++) {
        for (again = 0; again < 3; again++) {
            struct day d;
            begin(&d);
            for (i = 0; i < 3; i++) {
                CHECK(day_next(&d, ids[orders[k][i]], firsts[orders[k][i]], 38) == 0);
            }
            CHECK(day_is(&d, IMAGE(A SEVEN B ONE C "\1\2\3\4")));
            CHECK(day_remove(&d, ids[again], 38) == 0 && day_next(&d, ids[again], firsts[again], 38) == 0);
            CHECK(day_is(&d, IMAGE(A SEVEN B ONE C "\1\2\3\4")));
        }
    }
}

void test_rseq_stores(void)
{
    static void (*const tests[])(void) = {
        test_used_length, test_cut_off, test_no_layout, test_long_identifiers, test_longest_identifiers, test_longer_entries,
        test_next_first, test_next_held, test_next_place, test_order_of_identifiers, test_null_texts, test_current,
        test_remove, test_counts, test_a_day, test_histories,
    };
    run_guarded(tests, sizeof tests / sizeof tests[0]);
}
