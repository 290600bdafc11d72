/*
 * With tests/c_face_store.c, tests/c_face_rseq.c and tests/c_face_prack.c, calls every function of include/sip_dialog.h, accepted
 * and refused: what it returns, what the lent numbers and bytes then hold, and that the rest is kept. Expected values come from
 * document 01, not from the code.
 */
#include "c_face.h"

#define SECOND UINT64_C(1000000000)

static unsigned checks_run;
static unsigned checks_failed;

void check(bool holds, const char *file, int line, const char *expression)
{
    checks_run++;
    if (holds) {
        return;
    }
    checks_failed++;
    printf("%s:%d: %s\n", file, line, expression);
}

/* ---- Lent bytes */

uint8_t *allocate(size_t length)
{
    uint8_t *bytes = malloc(length);
    if (bytes == NULL && length > 0) {
        puts("c_face: no memory");
        exit(2);
    }
    return bytes;
}

struct run lend(const char *text)
{
    struct run r = {text, NULL, 0};
    if (text != NULL) {
        r.length = strlen(text);
        r.bytes = allocate(r.length);
        memcpy(r.bytes, text, r.length);
    }
    return r;
}

struct run lend_bytes(const uint8_t *bytes, size_t length)
{
    struct run r = {bytes, NULL, length};
    if (length > 0) {
        r.bytes = allocate(length);
        memcpy(r.bytes, bytes, length);
    }
    return r;
}

struct run lend_text(struct text t)
{
    return t.length == 0 && t.bytes != NULL ? lend("") : lend_bytes((const uint8_t *)t.bytes, t.length);
}

void take_back(struct run r)
{
    CHECK(r.length == 0 || memcmp(r.bytes, r.text, r.length) == 0);
    free(r.bytes);
}

const char *filled(char *buffer, const char *head, char byte, const char *tail, size_t total)
{
    size_t first = strlen(head);
    size_t last = strlen(tail);
    memcpy(buffer, head, first);
    memset(buffer + first, byte, total - first - last);
    memcpy(buffer + total - last, tail, last + 1);
    return buffer;
}

const char *long_block(char *buffer, const char *lines, size_t total)
{
    char head[256];
    snprintf(head, sizeof head, "%sX-1:", lines);
    return filled(buffer, head, 'a', "\r\n", total);
}

static size_t place_of(const char *whole, const char *part)
{
    const char *at = strstr(whole, part);
    return at == NULL ? SIZE_MAX : (size_t)(at - whole);
}

/* ---- Bytes lent to be written, between guard bytes */

enum { GUARD = 32 };

/* How many guard bytes stand on each side. */
static size_t guard;

struct area lend_area(const uint8_t *content, size_t length, size_t room)
{
    struct area a = {room, NULL, NULL, NULL};
    size_t total = guard + room + guard;
    size_t k;
    if (total > 0) {
        a.memory = allocate(total);
        a.expected = allocate(total);
        for (k = 0; k < total; k++) {
            a.memory[k] = (uint8_t)(KEPT + 29 * k);
        }
        a.bytes = a.memory + guard;
        if (length > 0) {
            memcpy(a.bytes, content, length < room ? length : room);
        }
        memcpy(a.expected, a.memory, total);
    }
    return a;
}

bool front_became(struct area a, const uint8_t *bytes, size_t length)
{
    size_t total = guard + a.room + guard;
    bool holds = length <= a.room;
    if (holds && length > 0) {
        memcpy(a.expected + guard, bytes, length);
    }
    holds = holds && (total == 0 || memcmp(a.memory, a.expected, total) == 0);
    free(a.memory);
    free(a.expected);
    return holds;
}

void run_guarded(void (*const tests[])(void), size_t count)
{
    size_t round;
    size_t i;
    for (round = 0; round < 2; round++) {
        guard = round == 0 ? GUARD : 0;
        for (i = 0; i < count; i++) {
            tests[i]();
        }
    }
}

/* ---- Answers of look-ups. Numbers narrower than size_t are followed by one that must stay KEPT. */

struct lookup {
    uint8_t number;
    uint8_t found[2];
    size_t place;
    size_t length;
    size_t next;
};

static const struct lookup fresh_lookup = {KEPT, {KEPT, KEPT}, KEPT, KEPT, KEPT};

static bool is_at(struct lookup l, size_t place, size_t length)
{
    return l.number == 0 && l.found[0] == 1 && l.found[1] == KEPT && l.place == place && l.length == length;
}

/* The answer is this part of the whole, where it first stands there. */
static bool is_part(struct lookup l, const char *whole, const char *part)
{
    return is_at(l, place_of(whole, part), strlen(part));
}

static bool rest_is_kept(struct lookup l)
{
    return l.found[1] == KEPT && l.place == KEPT && l.length == KEPT && l.next == KEPT;
}

static bool is_nothing(struct lookup l)
{
    return l.number == 0 && l.found[0] == 0 && rest_is_kept(l);
}

static bool is_refused(struct lookup l, uint8_t number)
{
    return l.number == number && l.found[0] == KEPT && rest_is_kept(l);
}

/* ---- Header blocks */

static uint8_t check_block(const char *block)
{
    struct run b = lend(block);
    uint8_t number = sip_dialog_check_block(b.bytes, b.length);
    take_back(b);
    return number;
}

static void test_check_block(void)
{
    char buffer[LONGEST + 2];
    CHECK(check_block(NULL) == 0);
    CHECK(check_block("") == 0);
    CHECK(check_block("-:\r\n") == 0);
    CHECK(check_block("A1-z:\t~ b \r\nA1-z::\r\n") == 0);
    CHECK(check_block("A:b") == 2);
    CHECK(check_block("A:b\r") == 2);
    CHECK(check_block("A:b\n") == 2);
    CHECK(check_block("A:b\n\r") == 2);
    CHECK(check_block("A") == 2);
    CHECK(check_block("\r\n") == 2);
    CHECK(check_block(":b\r\n") == 2);
    CHECK(check_block("A :b\r\n") == 2);
    CHECK(check_block("A_:b\r\n") == 2);
    CHECK(check_block("A:b\r\n\r\n") == 2);
    CHECK(check_block("A:b\r\n c\r\n") == 2);
    CHECK(check_block("A:\x1f\r\n") == 2);
    CHECK(check_block("A:\x7f\r\n") == 2);
    CHECK(check_block("A:\xff\r\n") == 2);
    CHECK(check_block(long_block(buffer, "", LONGEST)) == 0);
    CHECK(check_block(long_block(buffer, "", LONGEST + 1)) == 1);
    CHECK(check_block(filled(buffer, "", 'a', "", LONGEST)) == 2);
    CHECK(check_block(filled(buffer, "", 'a', "", LONGEST + 1)) == 1);
}

/* Every byte in a name and in a value. */
static void test_bytes_of_blocks(void)
{
    unsigned byte;
    for (byte = 0; byte < 256; byte++) {
        uint8_t name[4] = {0, ':', '\r', '\n'};
        uint8_t value[5] = {'A', ':', 0, '\r', '\n'};
        bool letter = (byte >= 'A' && byte <= 'Z') || (byte >= 'a' && byte <= 'z');
        bool in_name = letter || (byte >= '0' && byte <= '9') || byte == '-';
        bool in_value = byte == 9 || (byte >= 32 && byte <= 126);
        name[0] = (uint8_t)byte;
        value[2] = (uint8_t)byte;
        CHECK(sip_dialog_check_block(name, sizeof name) == (in_name ? 0 : 2));
        CHECK(sip_dialog_check_block(value, sizeof value) == (in_value ? 0 : 2));
    }
}

static struct lookup header(const char *block, const char *name)
{
    struct run b = lend(block);
    struct run n = lend(name);
    struct lookup l = fresh_lookup;
    l.number = sip_dialog_header(b.bytes, b.length, n.bytes, n.length, l.found, &l.place, &l.length);
    take_back(b);
    take_back(n);
    return l;
}

static void test_header(void)
{
    const char *block = "Via:v1\r\nTo: \tto text \t\r\nVIA:v2\r\nE: \t\r\n";
    char buffer[LONGEST + 2];
    CHECK(is_at(header(block, "Via"), 4, 2));
    CHECK(is_at(header(block, "vIA"), 4, 2));
    CHECK(is_part(header(block, "to"), block, "to text"));
    CHECK(is_at(header(block, "E"), strlen(block) - 2, 0));
    CHECK(is_part(header(block, "T"), block, "to text"));
    CHECK(is_nothing(header(block, "Too")));
    CHECK(is_nothing(header(block, "To:")));
    CHECK(is_nothing(header(block, "")));
    CHECK(is_nothing(header(block, NULL)));
    CHECK(is_nothing(header("", "Via")));
    CHECK(is_nothing(header(NULL, "Via")));
    CHECK(is_nothing(header(NULL, NULL)));
    CHECK(is_refused(header("Via:v1\r\nTo", "Via"), 2));
    CHECK(is_at(header(long_block(buffer, "Via:v1\r\n", LONGEST), "x-1"), 12, LONGEST - 14));
    CHECK(is_refused(header(long_block(buffer, "Via:v1\r\n", LONGEST + 1), "Via"), 1));
    CHECK(is_nothing(header(block, filled(buffer, "", 'a', "", LONGEST))));
    CHECK(is_refused(header(block, filled(buffer, "", 'a', "", LONGEST + 1)), 1));
    CHECK(is_refused(header("Via", buffer), 1));
}

static struct lookup next_header(const char *block, const char *name, size_t from)
{
    struct run b = lend(block);
    struct run n = lend(name);
    struct lookup l = fresh_lookup;
    l.number = sip_dialog_next_header(b.bytes, b.length, n.bytes, n.length, from, l.found, &l.place, &l.length, &l.next);
    take_back(b);
    take_back(n);
    return l;
}

static void test_next_header(void)
{
    const char *block = "Via: v1\r\nTo:t\r\nvia:\r\nE:e\r\n";
    char buffer[LONGEST + 2];
    struct lookup l = next_header(block, "VIA", 0);
    CHECK(is_at(l, 5, 2) && l.next == 9);
    l = next_header(block, "VIA", l.next);
    CHECK(is_at(l, 19, 0) && l.next == 21);
    CHECK(is_nothing(next_header(block, "VIA", l.next)));
    l = next_header(block, "E", 0);
    CHECK(is_at(l, 23, 1) && l.next == strlen(block));
    CHECK(is_nothing(next_header(block, "E", l.next)));
    l = next_header(block, "VIA", 1);
    CHECK(is_at(l, 19, 0) && l.next == 21);
    l = next_header(block, "VIA", 15);
    CHECK(is_at(l, 19, 0) && l.next == 21);
    CHECK(is_nothing(next_header(block, "VIA", 16)));
    CHECK(is_nothing(next_header(block, "VIA", SIZE_MAX)));
    CHECK(is_nothing(next_header(block, NULL, 0)));
    CHECK(is_nothing(next_header(NULL, "VIA", 0)));
    CHECK(is_nothing(next_header("", "VIA", 1)));
    CHECK(is_refused(next_header("Via:v1", "Via", 0), 2));
    CHECK(is_refused(next_header("Via:v1", "Via", SIZE_MAX), 2));
    l = next_header(long_block(buffer, "", LONGEST), "X-1", 0);
    CHECK(is_at(l, 4, LONGEST - 6) && l.next == LONGEST);
    l = next_header(long_block(buffer, "Y-:\r\n", LONGEST), "X-1", 1);
    CHECK(is_at(l, 9, LONGEST - 11) && l.next == LONGEST);
    CHECK(is_refused(next_header(long_block(buffer, "", LONGEST + 1), "X-1", 0), 1));
    CHECK(is_nothing(next_header(block, filled(buffer, "", 'a', "", LONGEST), 0)));
    CHECK(is_refused(next_header("Via", filled(buffer, "", 'a', "", LONGEST + 1), 0), 1));
}

/* The five short names, in the block and asked for; the block's order decides. */
static void test_short_names(void)
{
    static const char *const names[] = {"i", "Call-ID", "f", "From", "t", "To", "m", "Contact", "x", "Session-Expires"};
    static const char *const recased[] = {"I", "CALL-ID", "F", "fROM", "T", "tO", "M", "cONTACT", "X", "session-expires"};
    const char *block = "i:a\r\nTo:t\r\nCall-ID:b\r\nI:c\r\n";
    char line[32];
    struct lookup l = next_header(block, "call-id", 0);
    size_t k;
    CHECK(is_at(l, 2, 1) && l.next == 5);
    l = next_header(block, "i", l.next);
    CHECK(is_at(l, 19, 1) && l.next == 22);
    l = next_header(block, "Call-ID", l.next);
    CHECK(is_at(l, 24, 1) && l.next == strlen(block));
    CHECK(is_nothing(next_header(block, "i", l.next)));
    for (k = 0; k < sizeof names / sizeof names[0]; k++) {
        sprintf(line, "%s:1\r\n", names[k]);
        CHECK(is_at(header(line, names[k ^ 1]), strlen(names[k]) + 1, 1));
        CHECK(is_at(header(line, recased[k ^ 1]), strlen(names[k]) + 1, 1));
        CHECK(is_nothing(header(line, names[(k + 2) % 10])));
        sprintf(line, "%s:1\r\n", recased[k]);
        CHECK(is_at(header(line, names[k]), strlen(names[k]) + 1, 1));
        CHECK(is_at(header(line, names[k ^ 1]), strlen(names[k]) + 1, 1));
        sprintf(line, "%s:1\r\n%s:2\r\n", names[k], names[k ^ 1]);
        CHECK(is_at(header(line, names[k]), strlen(names[k]) + 1, 1));
        CHECK(is_at(header(line, names[k ^ 1]), strlen(names[k]) + 1, 1));
    }
    CHECK(is_at(header("i:a\r\nCall-ID:b\r\n", "Call-ID"), 2, 1));
    CHECK(is_at(header("Call-ID:b\r\ni:a\r\n", "I"), 8, 1));
    CHECK(is_nothing(header("v:1\r\n", "Via")));
    CHECK(is_nothing(header("Via:1\r\n", "v")));
    CHECK(is_nothing(header("ii:1\r\n", "Call-ID")));
}

/* ---- Status codes */

/* Whether a class has the codes from low on, below high, and no others. */
static bool is_class(bool (*class_of)(uint16_t), unsigned low, unsigned high)
{
    unsigned code;
    for (code = 0; code <= UINT16_MAX; code++) {
        if (class_of((uint16_t)code) != (low <= code && code < high)) {
            return false;
        }
    }
    return true;
}

static void test_status_codes(void)
{
    CHECK(is_class(sip_dialog_is_informational, 100, 200));
    CHECK(is_class(sip_dialog_is_success, 200, 300));
    CHECK(is_class(sip_dialog_is_redirection, 300, 400));
    CHECK(is_class(sip_dialog_is_client_error, 400, 500));
    CHECK(is_class(sip_dialog_is_server_error, 500, 600));
    CHECK(is_class(sip_dialog_is_global_failure, 600, 700));
    CHECK(is_class(sip_dialog_is_error, 400, 700));
}

/* ---- URIs */

struct uri {
    uint8_t number;
    uint8_t secure[2];
    size_t user;
    size_t user_length;
    size_t host;
    size_t host_length;
    uint8_t has_port[2];
    uint16_t port[2];
};

static struct uri sip_uri(const char *text)
{
    struct run t = lend(text);
    struct uri u = {KEPT, {KEPT, KEPT}, KEPT, KEPT, KEPT, KEPT, {KEPT, KEPT}, {KEPT, KEPT}};
    u.number = sip_dialog_sip_uri(t.bytes, t.length, u.secure, &u.user, &u.user_length, &u.host, &u.host_length, u.has_port,
                                  u.port);
    take_back(t);
    CHECK(u.secure[1] == KEPT && u.has_port[1] == KEPT && u.port[1] == KEPT);
    return u;
}

static bool uri_is_refused(const char *text, uint8_t number)
{
    struct uri u = sip_uri(text);
    bool parts_kept = u.user == KEPT && u.user_length == KEPT && u.host == KEPT && u.host_length == KEPT;
    return u.number == number && u.secure[0] == KEPT && parts_kept && u.has_port[0] == KEPT && u.port[0] == KEPT;
}

static bool parts_are(struct uri u, size_t user, size_t user_length, size_t host, size_t host_length)
{
    bool user_is = u.user == user && u.user_length == user_length;
    return u.number == 0 && user_is && u.host == host && u.host_length == host_length;
}

static bool port_is(const char *text, uint16_t port)
{
    struct uri u = sip_uri(text);
    return u.number == 0 && u.has_port[0] == 1 && u.port[0] == port;
}

static bool port_is_absent(const char *text)
{
    struct uri u = sip_uri(text);
    return u.number == 0 && u.has_port[0] == 0 && u.port[0] == KEPT;
}

static void test_sip_uri(void)
{
    CHECK(parts_are(sip_uri("sip:u@h"), 4, 1, 6, 1));
    CHECK(parts_are(sip_uri("sip:h"), 4, 0, 4, 1));
    CHECK(parts_are(sip_uri("sips:a:b@H-1.z"), 5, 3, 9, 5));
    CHECK(parts_are(sip_uri("sip:a@h;p=b@c"), 4, 1, 6, 1));
    CHECK(parts_are(sip_uri("sip:u@[::aF.1]:5060"), 4, 1, 6, 8));
    CHECK(sip_uri("SiP:h").secure[0] == 0);
    CHECK(sip_uri("sIPs:h").secure[0] == 1);
    CHECK(port_is("sip:u@h:5060", 5060));
    CHECK(port_is("sip:[::1]:1;x", 1));
    CHECK(port_is("sip:h:65535?x", 65535));
    CHECK(port_is("sip:h:00080", 80));
    CHECK(port_is("sip:h:0", 0));
    CHECK(port_is_absent("sip:u@h"));
    CHECK(port_is_absent("sip:h;x:1"));
    CHECK(port_is_absent("sip:h?x"));
    CHECK(port_is_absent("sip:[1:2]"));
}

static void test_sip_uri_refused(void)
{
    static const char *const unreadable[] = {
        NULL, "", "sip:", "sips:", "sip", "tel:1", "sip:@h", "sip:u@", "sip:h:", "sip:h:x", "sip:h:1x", "sip:h:+1",
        "sip:h_x", "sip:;x", "sip:h h", " sip:h", "sip:h ", "sip:[]", "sip:[::1", "sip:[::1]x", "sip:[g]", "sip:[1g]",
        "sip:u@[]", "<sip:h>", "sip:\"@h", "sip:<@h", "sip:>@h", "sip:u@@h", "sip:\x7f@h", "sip:\x80@h", "sip:\x1f@h",
        "sip:h:65536", "sip:h:000080", "sip:h:99999",
    };
    char buffer[LONGEST + 2];
    size_t i;
    for (i = 0; i < sizeof unreadable / sizeof unreadable[0]; i++) {
        CHECK(uri_is_refused(unreadable[i], 6));
    }
    CHECK(parts_are(sip_uri(filled(buffer, "sip:", 'a', "", LONGEST)), 4, 0, 4, LONGEST - 4));
    CHECK(uri_is_refused(filled(buffer, "sip:", 'a', "", LONGEST + 1), 1));
    CHECK(uri_is_refused(filled(buffer, "", ' ', "", LONGEST), 6));
    CHECK(uri_is_refused(filled(buffer, "", ' ', "", LONGEST + 1), 1));
}

struct estimate {
    uint8_t number;
    size_t value;
};

static struct estimate uri_estimate(const char *text)
{
    struct run t = lend(text);
    struct estimate e = {KEPT, KEPT};
    e.number = sip_dialog_uri_estimate(t.bytes, t.length, &e.value);
    take_back(t);
    return e;
}

static bool estimate_is(const char *text, size_t value)
{
    struct estimate e = uri_estimate(text);
    return e.number == 0 && e.value == value;
}

static bool estimate_is_refused(const char *text, uint8_t number)
{
    struct estimate e = uri_estimate(text);
    return e.number == number && e.value == KEPT;
}

static void test_uri_estimate(void)
{
    char buffer[LONGEST + 2];
    CHECK(estimate_is("sip:h", 11));
    CHECK(estimate_is("sips:us@h", 13));
    CHECK(estimate_is("sip:us@h:1", 19));
    CHECK(estimate_is("sip:[::1];x=y?z", 15));
    CHECK(estimate_is(filled(buffer, "sip:", 'h', "", 4 + 502), 512));
    CHECK(estimate_is_refused(filled(buffer, "sip:", 'h', "", 4 + 503), 7));
    CHECK(estimate_is(filled(buffer, "sip:", 'u', "@h:5060", 4 + 495 + 7), 512));
    CHECK(estimate_is_refused(filled(buffer, "sip:", 'u', "@h:5060", 4 + 496 + 7), 7));
    CHECK(estimate_is_refused(filled(buffer, "sip:", 'u', "@h", LONGEST), 7));
    CHECK(estimate_is(filled(buffer, "sip:h;", 'p', "", LONGEST), 11));
    CHECK(estimate_is_refused(filled(buffer, "sip:h;", 'p', "", LONGEST + 1), 1));
    CHECK(estimate_is_refused("sip:", 6));
    CHECK(estimate_is_refused(NULL, 6));
}

static struct lookup parse_uri_from_header(const char *value)
{
    struct run v = lend(value);
    struct lookup l = fresh_lookup;
    l.number = sip_dialog_parse_uri_from_header(v.bytes, v.length, l.found, &l.place, &l.length);
    take_back(v);
    return l;
}

static void test_parse_uri_from_header(void)
{
    char buffer[LONGEST + 2];
    CHECK(is_at(parse_uri_from_header("\"A\" <sip:a@h;lr>;tag=1"), 5, 10));
    CHECK(is_at(parse_uri_from_header(" sip:a@h ;tag=1"), 1, 7));
    CHECK(is_at(parse_uri_from_header("< sip:p@h\t>"), 2, 7));
    CHECK(is_at(parse_uri_from_header("\t <  sip:p@h \t > "), 5, 7));
    CHECK(is_at(parse_uri_from_header(" \tsip:a@h\t "), 2, 7));
    CHECK(is_at(parse_uri_from_header("a;b<SIPS:h>>"), 4, 6));
    CHECK(is_nothing(parse_uri_from_header("<sip:a@h")));
    CHECK(is_nothing(parse_uri_from_header("<>")));
    CHECK(is_nothing(parse_uri_from_header("<")));
    CHECK(is_nothing(parse_uri_from_header("< \t>")));
    CHECK(is_nothing(parse_uri_from_header(" \t")));
    CHECK(is_nothing(parse_uri_from_header("; sip:h")));
    CHECK(is_nothing(parse_uri_from_header(" \t;sip:h")));
    CHECK(is_nothing(parse_uri_from_header("\"a<b\" <sip:p@h>")));
    CHECK(is_nothing(parse_uri_from_header("tel:1")));
    CHECK(is_nothing(parse_uri_from_header("")));
    CHECK(is_nothing(parse_uri_from_header(NULL)));
    CHECK(is_refused(parse_uri_from_header("sip:a@h\r\n"), 2));
    CHECK(is_refused(parse_uri_from_header("sip:a@h\x7f"), 2));
    CHECK(is_at(parse_uri_from_header(filled(buffer, "sip:h;", '\t', "", LONGEST)), 0, 5));
    CHECK(is_refused(parse_uri_from_header(filled(buffer, "sip:h;", '\t', "", LONGEST + 1)), 1));
    CHECK(is_refused(parse_uri_from_header(filled(buffer, "", '\n', "", LONGEST + 1)), 1));
}

/* ---- Identifiers */

/* As a look-up: no `found` is lent, so it is made 1 where the call was accepted. */
static struct lookup extract_tag(const char *value)
{
    struct run v = lend(value);
    struct lookup l = fresh_lookup;
    l.number = sip_dialog_extract_tag(v.bytes, v.length, &l.place, &l.length);
    l.found[0] = l.number == 0 ? 1 : KEPT;
    take_back(v);
    return l;
}

static void test_extract_tag(void)
{
    char buffer[LONGEST + 2];
    CHECK(is_at(extract_tag("<sip:a@h>;x;\t TaG=12\t;tag=3"), 18, 2));
    CHECK(is_at(extract_tag("tag=x"), 4, 1));
    CHECK(is_at(extract_tag("a;tag="), 6, 0));
    CHECK(is_at(extract_tag("a;tag= x "), 6, 2));
    CHECK(is_refused(extract_tag("a;tag =x"), 4));
    CHECK(is_refused(extract_tag("a;xtag=x;tag"), 4));
    CHECK(is_refused(extract_tag(""), 4));
    CHECK(is_refused(extract_tag(NULL), 4));
    CHECK(is_refused(extract_tag("tag=x\r"), 2));
    CHECK(is_at(extract_tag(filled(buffer, "tag=", 'x', "", LONGEST)), 4, LONGEST - 4));
    CHECK(is_refused(extract_tag(filled(buffer, "tag=", 'x', "", LONGEST + 1)), 1));
    CHECK(is_refused(extract_tag(filled(buffer, "", '\r', "", LONGEST + 1)), 1));
}

/* Semicolons in quotes and in angle brackets: change request 3. */
static void test_held_semicolons(void)
{
    char buffer[LONGEST + 2];
    CHECK(is_at(extract_tag("\"a;tag=x\" <sip:r@h>;tag=y"), 24, 1));
    CHECK(is_at(extract_tag("<sip:r@h;tag=x>;tag=y"), 20, 1));
    CHECK(is_at(extract_tag("\"<\";tag=a"), 8, 1));
    CHECK(is_at(extract_tag("<<a>;tag=b>"), 9, 2));
    CHECK(is_at(extract_tag("<\"a>;tag=b"), 9, 1));
    CHECK(is_refused(extract_tag("\"a;tag=x"), 4));
    CHECK(is_refused(extract_tag("<a;tag=x"), 4));
    CHECK(is_refused(extract_tag("\\\";tag=a"), 4));
    CHECK(is_at(extract_tag("<\\>;tag=a"), 8, 1));
    CHECK(is_at(extract_tag("\"\\\";tag=a\";tag=b"), 15, 1));
    CHECK(is_at(extract_tag("\"\\\\\";tag=a"), 9, 1));
    CHECK(is_at(extract_tag(";tag=\"a;b\""), 5, 5));
    CHECK(is_at(extract_tag(filled(buffer, "\"", ';', "\";tag=z", LONGEST)), LONGEST - 1, 1));
    CHECK(is_at(extract_tag(filled(buffer, "<", ';', ">;tag=z", LONGEST)), LONGEST - 1, 1));
    CHECK(is_refused(extract_tag(filled(buffer, "\"", ';', ";tag=z", LONGEST)), 4));
}

static uint8_t dialog_id_new(const char *call_id, const char *local_tag, const char *remote_tag)
{
    struct run c = lend(call_id);
    struct run l = lend(local_tag);
    struct run r = lend(remote_tag);
    uint8_t number = sip_dialog_dialog_id_new(c.bytes, c.length, l.bytes, l.length, r.bytes, r.length);
    take_back(c);
    take_back(l);
    take_back(r);
    return number;
}

static void test_dialog_id_new(void)
{
    char buffer[LONGEST + 2];
    CHECK(dialog_id_new("c", "l", "r") == 0);
    CHECK(dialog_id_new(NULL, "l", "r") == 25);
    CHECK(dialog_id_new("", "l", "r") == 25);
    CHECK(dialog_id_new("c", NULL, "r") == 25);
    CHECK(dialog_id_new("c", "l", NULL) == 25);
    CHECK(dialog_id_new("c", "l", "r\t") == 27);
    CHECK(dialog_id_new("c", "\x80", NULL) == 27);
    CHECK(dialog_id_new("\x7f", NULL, NULL) == 27);
    CHECK(dialog_id_new(filled(buffer, "", 'c', "", 256), "l", "r") == 0);
    CHECK(dialog_id_new(filled(buffer, "", 'c', "", 257), "l", "r") == 26);
    CHECK(dialog_id_new(filled(buffer, "", '\n', "", 257), NULL, "r") == 26);
    CHECK(dialog_id_new("c", filled(buffer, "", 'l', "", 128), "r") == 0);
    CHECK(dialog_id_new("c", filled(buffer, "", 'l', "", 129), NULL) == 26);
    CHECK(dialog_id_new("c", "l", filled(buffer, "", 'r', "", 128)) == 0);
    CHECK(dialog_id_new("c", "l", filled(buffer, "", 'r', "", 129)) == 26);
    CHECK(dialog_id_new(filled(buffer, "", 'c', "", LONGEST), "l", "r") == 26);
    CHECK(dialog_id_new(filled(buffer, "", 'c', "", LONGEST + 1), "l", "r") == 1);
    CHECK(dialog_id_new(NULL, buffer, "r") == 1);
    CHECK(dialog_id_new(NULL, "l", buffer) == 1);
}

/* Every byte in each part. */
static void test_bytes_of_identifiers(void)
{
    const uint8_t plain = 'x';
    const uint8_t other = 'y';
    unsigned byte;
    for (byte = 0; byte < 256; byte++) {
        const uint8_t part[2] = {'a', (uint8_t)byte};
        uint8_t number = byte < 32 || byte > 126 ? 27 : 0;
        CHECK(sip_dialog_dialog_id_new(part, 2, &plain, 1, &other, 1) == number);
        CHECK(sip_dialog_dialog_id_new(&plain, 1, part, 2, &other, 1) == number);
        CHECK(sip_dialog_dialog_id_new(&plain, 1, &other, 1, part, 2) == number);
    }
}

struct identifier {
    uint8_t number;
    size_t call_id;
    size_t call_id_length;
    size_t local_tag;
    size_t local_tag_length;
    size_t remote_tag;
    size_t remote_tag_length;
};

typedef uint8_t identifier_function(const uint8_t *, size_t, size_t *, size_t *, size_t *, size_t *, size_t *, size_t *);

static struct identifier identifier_of(identifier_function *read, const char *block)
{
    struct run b = lend(block);
    struct identifier i = {KEPT, KEPT, KEPT, KEPT, KEPT, KEPT, KEPT};
    i.number = read(b.bytes, b.length, &i.call_id, &i.call_id_length, &i.local_tag, &i.local_tag_length, &i.remote_tag,
                    &i.remote_tag_length);
    take_back(b);
    return i;
}

static bool id_is(identifier_function *read, const char *block, const char *call_id, const char *local, const char *remote)
{
    struct identifier i = identifier_of(read, block);
    bool call_is = i.call_id == place_of(block, call_id) && i.call_id_length == strlen(call_id);
    bool local_is = i.local_tag == place_of(block, local) && i.local_tag_length == strlen(local);
    bool remote_is = i.remote_tag == place_of(block, remote) && i.remote_tag_length == strlen(remote);
    return i.number == 0 && call_is && local_is && remote_is;
}

static bool id_is_refused(identifier_function *read, const char *block, uint8_t number)
{
    struct identifier i = identifier_of(read, block);
    bool call_kept = i.call_id == KEPT && i.call_id_length == KEPT;
    bool local_kept = i.local_tag == KEPT && i.local_tag_length == KEPT;
    return i.number == number && call_kept && local_kept && i.remote_tag == KEPT && i.remote_tag_length == KEPT;
}

/* What the three readings have in common; `local` and `remote` are the tags that they name so. */
static void test_identifier(identifier_function *read, const char *local, const char *remote)
{
    const char *parts = "To:<sip:b@h>;tag=two\r\nfrom:<sip:a@h>;tag=one\r\nCALL-ID: id@x \r\n";
    const char *held = "To:\"b;tag=x\" <sip:b@h>;tag=two\r\nfrom:<sip:a@h;tag=x>;tag=one\r\nCALL-ID: id@x \r\n";
    const char *empty = "From:;tag=\r\nTo:;tag=\r\nCall-ID:\r\n";
    char buffer[LONGEST + 2];
    struct identifier i = identifier_of(read, empty);
    CHECK(i.number == 0 && i.call_id == 30 && i.call_id_length == 0);
    CHECK(i.local_tag_length == 0 && i.remote_tag_length == 0 && i.local_tag + i.remote_tag == 10 + 20);
    CHECK(id_is(read, parts, "id@x", local, remote));
    CHECK(id_is(read, held, "id@x", local, remote));
    CHECK(id_is(read, long_block(buffer, parts, LONGEST), "id@x", local, remote));
    CHECK(id_is_refused(read, long_block(buffer, parts, LONGEST + 1), 1));
    CHECK(id_is_refused(read, "From:;tag=one\r\nTo:;tag=two\r\n", 4));
    CHECK(id_is_refused(read, "From:a\r\nTo:;tag=two\r\nCall-ID:c\r\n", 4));
    CHECK(id_is_refused(read, "From:;tag=one\r\nTo:b\r\nCall-ID:c\r\n", 4));
    CHECK(id_is_refused(read, "From:\"a;tag=one\"\r\nTo:;tag=two\r\nCall-ID:c\r\n", 4));
    CHECK(id_is_refused(read, "From:;tag=one\r\nTo:<b;tag=two>\r\nCall-ID:c\r\n", 4));
    CHECK(id_is_refused(read, "From:;tag=one\r\nCall-ID:c\r\n", 4));
    CHECK(id_is(read, "f:;tag=one\r\nT:;tag=two\r\ni:c\r\nCall-ID:d\r\n", "c", local, remote));
    CHECK(id_is_refused(read, "", 4));
    CHECK(id_is_refused(read, NULL, 4));
    CHECK(id_is_refused(read, "From:;tag=one\r\nTo:;tag=two\r\nCall-ID:c", 2));
}

static void test_identifiers(void)
{
    test_identifier(sip_dialog_from_request, "one", "two");
    test_identifier(sip_dialog_from_response_uac, "one", "two");
    test_identifier(sip_dialog_from_response_uas, "two", "one");
}

/* ---- Header values and routes */

static struct lookup next_header_value(const char *value, size_t from)
{
    struct run v = lend(value);
    struct lookup l = fresh_lookup;
    l.number = sip_dialog_next_header_value(v.bytes, v.length, from, l.found, &l.place, &l.length, &l.next);
    take_back(v);
    return l;
}

/* Whether the parts of a value are these, up to NULL, and nothing after them. */
static bool values_are(const char *value, const char *const *parts)
{
    size_t from = 0;
    for (; *parts != NULL; parts++) {
        struct lookup l = next_header_value(value, from);
        if (!is_part(l, value, *parts) || l.next <= l.place) {
            return false;
        }
        from = l.next;
    }
    return is_nothing(next_header_value(value, from));
}

static void test_next_header_value(void)
{
    static const char *const three[] = {"a", "\"b,c\"", "<d,e>;f", NULL};
    static const char *const quoted[] = {"\"a<b\" <sip:p@h>, <sip:q@h>", NULL};
    static const char *const closed[] = {"x>", "y", NULL};
    char buffer[LONGEST + 2];
    struct lookup l = next_header_value("a, b", 0);
    CHECK(is_at(l, 0, 1) && l.next == 2);
    l = next_header_value("a, b", 2);
    CHECK(is_at(l, 3, 1) && l.next == 5);
    CHECK(is_nothing(next_header_value("a, b", 5)));
    CHECK(is_nothing(next_header_value("a, b", SIZE_MAX)));
    CHECK(values_are(", a ,\t,\"b,c\",<d,e>;f, ", three));
    CHECK(values_are(quoted[0], quoted));
    CHECK(values_are("x>,y", closed));
    CHECK(is_nothing(next_header_value(" ,\t, ", 0)));
    CHECK(is_nothing(next_header_value("", 0)));
    CHECK(is_nothing(next_header_value(NULL, 0)));
    CHECK(is_refused(next_header_value("a,\n", 0), 2));
    CHECK(is_refused(next_header_value("a,\n", SIZE_MAX), 2));
    l = next_header_value(filled(buffer, "", ',', "z", LONGEST), 0);
    CHECK(is_at(l, LONGEST - 1, 1) && l.next == LONGEST + 1);
    CHECK(is_refused(next_header_value(filled(buffer, "", ',', "z", LONGEST + 1), 0), 1));
    CHECK(is_refused(next_header_value(filled(buffer, "", '\n', "", LONGEST + 1), 0), 1));
}

static struct lookup contact(const char *block)
{
    struct run b = lend(block);
    struct lookup l = fresh_lookup;
    l.number = sip_dialog_contact(b.bytes, b.length, l.found, &l.place, &l.length);
    take_back(b);
    return l;
}

static void test_contact(void)
{
    const char *block = "To:<sip:t@h>\r\ncontact: \"P\" < sip:p@h >;x\r\nContact:<sip:q@h>\r\n";
    char buffer[LONGEST + 2];
    CHECK(is_part(contact(block), block, "sip:p@h"));
    CHECK(is_at(contact("Contact:sip:p@h;x\r\n"), 8, 7));
    CHECK(is_nothing(contact("Contact:*\r\nContact:<sip:q@h>\r\n")));
    CHECK(is_nothing(contact("m:*\r\nContact:<sip:o>\r\n")));
    CHECK(is_at(contact("M:<sip:o>\r\nContact:*\r\n"), 3, 5));
    CHECK(is_nothing(contact("Contact:\r\n")));
    CHECK(is_nothing(contact("Contact: \t\r\n")));
    CHECK(is_nothing(contact("To:<sip:t@h>\r\n")));
    CHECK(is_nothing(contact("")));
    CHECK(is_nothing(contact(NULL)));
    CHECK(is_refused(contact("Contact:<sip:p@h>"), 2));
    CHECK(is_part(contact(long_block(buffer, block, LONGEST)), block, "sip:p@h"));
    CHECK(is_refused(contact(long_block(buffer, block, LONGEST + 1)), 1));
}

struct count {
    uint8_t number;
    size_t value;
};

static struct count route_count(const char *block)
{
    struct run b = lend(block);
    struct count c = {KEPT, KEPT};
    c.number = sip_dialog_route_count(b.bytes, b.length, &c.value);
    take_back(b);
    return c;
}

static struct lookup route(const char *block, bool reversed, size_t index)
{
    struct run b = lend(block);
    struct lookup l = fresh_lookup;
    l.number = sip_dialog_route(b.bytes, b.length, reversed, index, l.found, &l.place, &l.length);
    take_back(b);
    return l;
}

static bool count_is(const char *block, size_t count)
{
    struct count c = route_count(block);
    return c.number == 0 && c.value == count && is_nothing(route(block, false, count));
}

static bool routes_are_refused(const char *block, uint8_t number)
{
    struct count c = route_count(block);
    bool count_kept = c.number == number && c.value == KEPT;
    return count_kept && is_refused(route(block, false, 0), number) && is_refused(route(block, true, SIZE_MAX), number);
}

/* A block of `count` lines with a route each, then these lines. */
static const char *routes(char *buffer, size_t count, const char *lines)
{
    size_t i;
    buffer[0] = '\0';
    for (i = 0; i < count; i++) {
        strcat(buffer, "Record-Route:<sip:h>\r\n");
    }
    return strcat(buffer, lines);
}

static void test_route_count(void)
{
    char buffer[LONGEST + 2];
    CHECK(count_is(NULL, 0));
    CHECK(count_is("", 0));
    CHECK(count_is("Route:<sip:h>\r\n", 0));
    CHECK(count_is("Record-Route:\"a<b\" <sip:p@h>, <sip:q@h>\r\n", 0));
    CHECK(count_is("Record-Route: \t<sip:p> \t, \t,sip:q \t\r\n", 2));
    CHECK(count_is("Record-Route:<sip:p>, <x>,, sip:q;lr\r\nTo:t\r\nRECORD-route:<sips:r>\r\n", 3));
    CHECK(count_is(routes(buffer, ROUTES, ""), ROUTES));
    CHECK(count_is(routes(buffer, ROUTES, "Record-Route:, ,\r\nTo:<sip:h>\r\n"), ROUTES));
    CHECK(count_is(routes(buffer, ROUTES - 1, "Record-Route:x,y,<sip:h>\r\n"), ROUTES));
    CHECK(count_is(long_block(buffer, "Record-Route:<sip:h>\r\n", LONGEST), 1));
    CHECK(routes_are_refused(routes(buffer, ROUTES + 1, ""), 8));
    CHECK(routes_are_refused(routes(buffer, ROUTES, "Record-Route:x\r\n"), 8));
    CHECK(routes_are_refused(routes(buffer, ROUTES - 1, "Record-Route:<sip:h>,x\r\n"), 8));
    CHECK(routes_are_refused(long_block(buffer, "Record-Route:<sip:h>\r\n", LONGEST + 1), 1));
    CHECK(routes_are_refused("Record-Route:<sip:h>", 2));
    CHECK(routes_are_refused(routes(buffer, ROUTES + 1, "x"), 2));
}

/* A route whose estimate is 512, and one more; met before 50 routes are held, and then. */
static void test_long_routes(void)
{
    char line[1024];
    char buffer[LONGEST + 2];
    filled(line, "Record-Route:<sip:", 'h', ">\r\n", 18 + 502 + 3);
    CHECK(count_is(line, 1));
    CHECK(count_is(routes(buffer, ROUTES - 1, line), ROUTES));
    CHECK(routes_are_refused(routes(buffer, ROUTES, line), 8));
    filled(line, "Record-Route:<sip:", 'h', ">\r\n", 18 + 503 + 3);
    CHECK(routes_are_refused(line, 7));
    CHECK(routes_are_refused(routes(buffer, ROUTES - 1, line), 7));
    CHECK(routes_are_refused(routes(buffer, ROUTES, line), 8));
    strcat(line, "Record-Route:x\r\n");
    CHECK(routes_are_refused(routes(buffer, 1, line), 7));
}

static void test_route(void)
{
    const char *block = "Record-Route:<sip:p>, <x>\r\nTo:t\r\nRecord-Route: sip:q;lr,\"R\" < sip:r;lr >\r\n";
    char buffer[LONGEST + 2];
    CHECK(is_part(route(block, false, 0), block, "sip:p"));
    CHECK(is_part(route(block, false, 1), block, "sip:q"));
    CHECK(is_part(route(block, false, 2), block, "sip:r;lr"));
    CHECK(is_nothing(route(block, false, 3)));
    CHECK(is_part(route(block, true, 0), block, "sip:r;lr"));
    CHECK(is_part(route(block, true, 1), block, "sip:q"));
    CHECK(is_part(route(block, true, 2), block, "sip:p"));
    CHECK(is_nothing(route(block, true, 3)));
    CHECK(is_nothing(route(block, true, SIZE_MAX)));
    CHECK(is_nothing(route(NULL, true, 0)));
    routes(buffer, ROUTES, "");
    CHECK(is_at(route(buffer, false, ROUTES - 1), (ROUTES - 1) * 22 + 14, 5));
    CHECK(is_at(route(buffer, true, ROUTES - 1), 14, 5));
    CHECK(is_nothing(route(buffer, true, ROUTES)));
}

struct expires {
    uint8_t number;
    uint8_t found[2];
    uint32_t seconds[2];
    uint8_t refresher[2];
};

typedef uint8_t expires_function(const uint8_t *, size_t, uint8_t *, uint32_t *, uint8_t *);

static struct expires expires_of(expires_function *read, const char *text)
{
    struct run t = lend(text);
    struct expires e = {KEPT, {KEPT, KEPT}, {KEPT, KEPT}, {KEPT, KEPT}};
    e.number = read(t.bytes, t.length, e.found, e.seconds, e.refresher);
    take_back(t);
    CHECK(e.found[1] == KEPT && e.seconds[1] == KEPT && e.refresher[1] == KEPT);
    return e;
}

static bool expires_is(struct expires e, uint32_t seconds, uint8_t refresher)
{
    return e.number == 0 && e.found[0] == 1 && e.seconds[0] == seconds && e.refresher[0] == refresher;
}

static bool no_expires(struct expires e)
{
    return e.number == 0 && e.found[0] == 0 && e.seconds[0] == KEPT && e.refresher[0] == KEPT;
}

static bool expires_is_refused(struct expires e, uint8_t number)
{
    return e.number == number && e.found[0] == KEPT && e.seconds[0] == KEPT && e.refresher[0] == KEPT;
}

static void test_parse_session_expires(void)
{
    expires_function *read = sip_dialog_parse_session_expires;
    char buffer[LONGEST + 2];
    CHECK(expires_is(expires_of(read, "1800;refresher=uas"), 1800, 2));
    CHECK(expires_is(expires_of(read, " 90\t;x; Refresher=UAC ;refresher=uas"), 90, 1));
    CHECK(expires_is(expires_of(read, "90"), 90, 0));
    CHECK(expires_is(expires_of(read, "90;"), 90, 0));
    CHECK(expires_is(expires_of(read, "90; \t"), 90, 0));
    CHECK(expires_is(expires_of(read, "90;; \t;refresher=uac"), 90, 1));
    CHECK(expires_is(expires_of(read, "90;refresher= uac;refresher=uacs;refresher"), 90, 0));
    CHECK(expires_is(expires_of(read, "90;refresher=x;refresher=uas"), 90, 2));
    CHECK(expires_is(expires_of(read, "0"), 0, 0));
    CHECK(expires_is(expires_of(read, "86401"), 86401, 0));
    CHECK(expires_is(expires_of(read, "004294967295"), UINT32_MAX, 0));
    CHECK(no_expires(expires_of(read, "4294967296")));
    CHECK(no_expires(expires_of(read, "18446744073709551706")));
    CHECK(no_expires(expires_of(read, "+90")));
    CHECK(no_expires(expires_of(read, "9 0")));
    CHECK(no_expires(expires_of(read, "9/")));
    CHECK(no_expires(expires_of(read, "9:")));
    CHECK(no_expires(expires_of(read, ";refresher=uac")));
    CHECK(no_expires(expires_of(read, " \t")));
    CHECK(no_expires(expires_of(read, " ;refresher=uac")));
    CHECK(no_expires(expires_of(read, "")));
    CHECK(no_expires(expires_of(read, NULL)));
    CHECK(expires_is_refused(expires_of(read, "90\r\n"), 2));
    CHECK(expires_is(expires_of(read, filled(buffer, "", '0', "90", LONGEST)), 90, 0));
    CHECK(expires_is_refused(expires_of(read, filled(buffer, "", '0', "90", LONGEST + 1)), 1));
    CHECK(expires_is_refused(expires_of(read, filled(buffer, "", '\r', "", LONGEST + 1)), 1));
}

static void test_session_expires(void)
{
    expires_function *read = sip_dialog_session_expires;
    char buffer[LONGEST + 2];
    CHECK(expires_is(expires_of(read, "To:t\r\nsession-expires: 90;refresher=uas\r\nSession-Expires:91\r\n"), 90, 2));
    CHECK(expires_is(expires_of(read, "Session-Expires:7;REFRESHER=uac\r\n"), 7, 1));
    CHECK(expires_is(expires_of(read, "Session-Expires:7\r\n"), 7, 0));
    CHECK(no_expires(expires_of(read, "Session-Expires:x\r\nSession-Expires:91\r\n")));
    CHECK(no_expires(expires_of(read, "Session-Expires:\r\n")));
    CHECK(expires_is(expires_of(read, "X:90\r\nSession-Expires:91\r\n"), 90, 0));
    CHECK(no_expires(expires_of(read, "v:90\r\n")));
    CHECK(no_expires(expires_of(read, "")));
    CHECK(no_expires(expires_of(read, NULL)));
    CHECK(expires_is_refused(expires_of(read, "Session-Expires:90"), 2));
    CHECK(expires_is(expires_of(read, long_block(buffer, "Session-Expires:90\r\n", LONGEST)), 90, 0));
    CHECK(expires_is_refused(expires_of(read, long_block(buffer, "Session-Expires:90\r\n", LONGEST + 1)), 1));
}

/* ---- CSeq, RSeq, RAck and methods */

struct number {
    uint8_t number;
    uint32_t value[2];
};

typedef uint8_t number_function(const uint8_t *, size_t, uint32_t *);

static struct number number_of(number_function *read, const char *block)
{
    struct run b = lend(block);
    struct number n = {KEPT, {KEPT, KEPT}};
    n.number = read(b.bytes, b.length, n.value);
    take_back(b);
    CHECK(n.value[1] == KEPT);
    return n;
}

static bool number_is(number_function *read, const char *block, uint32_t value)
{
    struct number n = number_of(read, block);
    return n.number == 0 && n.value[0] == value;
}

static bool number_is_refused(number_function *read, const char *block, uint8_t number)
{
    struct number n = number_of(read, block);
    return n.number == number && n.value[0] == KEPT;
}

static void test_cseq_number(void)
{
    number_function *read = sip_dialog_cseq_number;
    char buffer[LONGEST + 2];
    CHECK(number_is(read, "CSeq:+5 INVITE\r\n", 5));
    CHECK(number_is_refused(read, "CSeq:-0 INVITE\r\n", 4));
    CHECK(number_is(read, "To:t\r\ncseq: \t007\tx\r\nCSeq:8 BYE\r\n", 7));
    CHECK(number_is(read, "CSeq:0\r\n", 0));
    CHECK(number_is(read, "CSeq:4294967295 ACK\r\n", UINT32_MAX));
    CHECK(number_is_refused(read, "CSeq:4294967296 ACK\r\n", 4));
    CHECK(number_is_refused(read, "CSeq:18446744073709551617 ACK\r\n", 4));
    CHECK(number_is_refused(read, "CSeq:++5 ACK\r\n", 4));
    CHECK(number_is_refused(read, "CSeq:+ 5 ACK\r\n", 4));
    CHECK(number_is_refused(read, "CSeq:5x ACK\r\n", 4));
    CHECK(number_is_refused(read, "CSeq:\r\nCSeq:5 ACK\r\n", 4));
    CHECK(number_is_refused(read, "RSeq:5\r\n", 4));
    CHECK(number_is_refused(read, "", 4));
    CHECK(number_is_refused(read, NULL, 4));
    CHECK(number_is_refused(read, "CSeq:5 ACK", 2));
    CHECK(number_is(read, long_block(buffer, "CSeq:5 ACK\r\n", LONGEST), 5));
    CHECK(number_is_refused(read, long_block(buffer, "CSeq:5 ACK\r\n", LONGEST + 1), 1));
}

static void test_rseq(void)
{
    number_function *read = sip_dialog_rseq;
    char buffer[LONGEST + 2];
    CHECK(number_is(read, "RSEQ: +7\t\r\nRSeq:8\r\n", 7));
    CHECK(number_is(read, "RSeq:0\r\n", 0));
    CHECK(number_is(read, "RSeq:4294967295\r\n", UINT32_MAX));
    CHECK(number_is_refused(read, "RSeq:4294967296\r\n", 4));
    CHECK(number_is_refused(read, "RSeq:7 8\r\n", 4));
    CHECK(number_is_refused(read, "RSeq:\r\n", 4));
    CHECK(number_is_refused(read, "CSeq:7 ACK\r\n", 4));
    CHECK(number_is_refused(read, "", 4));
    CHECK(number_is_refused(read, NULL, 4));
    CHECK(number_is_refused(read, "RSeq:7\r\n\n", 2));
    CHECK(number_is(read, long_block(buffer, "RSeq:7\r\n", LONGEST), 7));
    CHECK(number_is_refused(read, long_block(buffer, "RSeq:7\r\n", LONGEST + 1), 1));
}

struct flagged {
    uint8_t number;
    uint8_t value[2];
};

static struct flagged cseq_method(const char *block)
{
    struct run b = lend(block);
    struct flagged m = {KEPT, {KEPT, KEPT}};
    m.number = sip_dialog_cseq_method(b.bytes, b.length, m.value);
    take_back(b);
    return m;
}

/* Accepted with a byte, or refused with the byte kept. */
static bool byte_is(struct flagged f, uint8_t value)
{
    return f.number == 0 && f.value[0] == value && f.value[1] == KEPT;
}

static bool byte_is_refused(struct flagged f, uint8_t number)
{
    return f.number == number && f.value[0] == KEPT && f.value[1] == KEPT;
}

static void test_cseq_method(void)
{
    char buffer[LONGEST + 2];
    CHECK(byte_is(cseq_method("CSeq:1 INVITE\r\nCSeq:1 BYE\r\n"), SIP_DIALOG_METHOD_INVITE));
    CHECK(byte_is(cseq_method("cseq: 1 \t publish \r\n"), SIP_DIALOG_METHOD_PUBLISH));
    CHECK(byte_is(cseq_method("CSeq:bad ACK more\r\n"), SIP_DIALOG_METHOD_ACK));
    CHECK(byte_is_refused(cseq_method("CSeq:1 INVITED\r\n"), 4));
    CHECK(byte_is(cseq_method("CSeq:1\tPRACK\tx\r\n"), SIP_DIALOG_METHOD_PRACK));
    CHECK(byte_is_refused(cseq_method("CSeq:INVITE\r\n"), 4));
    CHECK(byte_is_refused(cseq_method("CSeq:\r\n"), 4));
    CHECK(byte_is_refused(cseq_method("To:t\r\n"), 4));
    CHECK(byte_is_refused(cseq_method(""), 4));
    CHECK(byte_is_refused(cseq_method(NULL), 4));
    CHECK(byte_is_refused(cseq_method("CSeq:1 INVITE\n"), 2));
    CHECK(byte_is(cseq_method(long_block(buffer, "CSeq:1 BYE\r\n", LONGEST)), SIP_DIALOG_METHOD_BYE));
    CHECK(byte_is_refused(cseq_method(long_block(buffer, "CSeq:1 BYE\r\n", LONGEST + 1)), 1));
}

static struct flagged is_reliable_provisional(uint16_t status, const char *block)
{
    struct run b = lend(block);
    struct flagged f = {KEPT, {KEPT, KEPT}};
    f.number = sip_dialog_is_reliable_provisional(status, b.bytes, b.length, f.value);
    take_back(b);
    return f;
}

static void test_is_reliable_provisional(void)
{
    const char *block = "To:t\r\nrseq:1\r\n";
    char buffer[LONGEST + 2];
    CHECK(byte_is(is_reliable_provisional(0, block), 0));
    CHECK(byte_is(is_reliable_provisional(100, block), 0));
    CHECK(byte_is(is_reliable_provisional(101, block), 1));
    CHECK(byte_is(is_reliable_provisional(199, block), 1));
    CHECK(byte_is(is_reliable_provisional(200, block), 0));
    CHECK(byte_is(is_reliable_provisional(UINT16_MAX, block), 0));
    CHECK(byte_is(is_reliable_provisional(183, "RSeq:\r\n"), 1));
    CHECK(byte_is(is_reliable_provisional(183, "CSeq:1 INVITE\r\n"), 0));
    CHECK(byte_is(is_reliable_provisional(183, ""), 0));
    CHECK(byte_is(is_reliable_provisional(183, NULL), 0));
    CHECK(byte_is_refused(is_reliable_provisional(183, "RSeq:1"), 2));
    CHECK(byte_is_refused(is_reliable_provisional(200, "RSeq:1"), 2));
    CHECK(byte_is(is_reliable_provisional(183, long_block(buffer, block, LONGEST)), 1));
    CHECK(byte_is_refused(is_reliable_provisional(183, long_block(buffer, block, LONGEST + 1)), 1));
    CHECK(byte_is_refused(is_reliable_provisional(200, buffer), 1));
}

static const char *const method_texts[] = {
    "INVITE", "ACK", "BYE", "CANCEL", "REGISTER", "OPTIONS", "INFO", "UPDATE", "MESSAGE", "PRACK", "REFER", "SUBSCRIBE",
    "NOTIFY", "PUBLISH",
};

struct method {
    uint8_t number;
    uint8_t found[2];
    uint8_t method[2];
};

static struct method method_number(const char *text)
{
    struct run t = lend(text);
    struct method m = {KEPT, {KEPT, KEPT}, {KEPT, KEPT}};
    m.number = sip_dialog_method_number(t.bytes, t.length, m.found, m.method);
    take_back(t);
    CHECK(m.found[1] == KEPT && m.method[1] == KEPT);
    return m;
}

static bool method_is(const char *text, uint8_t method)
{
    struct method m = method_number(text);
    return m.number == 0 && m.found[0] == 1 && m.method[0] == method;
}

static bool no_method(const char *text)
{
    struct method m = method_number(text);
    return m.number == 0 && m.found[0] == 0 && m.method[0] == KEPT;
}

static void test_method_number(void)
{
    char buffer[LONGEST + 2];
    struct method m;
    uint8_t method;
    for (method = SIP_DIALOG_METHOD_INVITE; method <= SIP_DIALOG_METHOD_PUBLISH; method++) {
        CHECK(method_is(method_texts[method - 1], method));
    }
    CHECK(method_is("invite", SIP_DIALOG_METHOD_INVITE));
    CHECK(method_is("Subscribe", SIP_DIALOG_METHOD_SUBSCRIBE));
    CHECK(no_method("INVIT"));
    CHECK(no_method("INVITE "));
    CHECK(no_method("\x41\x03\x4b"));
    CHECK(no_method("@CK"));
    CHECK(no_method(""));
    CHECK(no_method(NULL));
    CHECK(no_method(filled(buffer, "ACK", 'K', "", LONGEST)));
    m = method_number(filled(buffer, "ACK", 'K', "", LONGEST + 1));
    CHECK(m.number == 1 && m.found[0] == KEPT && m.method[0] == KEPT);
}

/* Lent output: `room` bytes of KEPT, and what a call left there. */
struct written {
    uint8_t number;
    size_t length;
    size_t room;
    uint8_t *out;
};

/* No room is lent as a null pointer. */
static struct written fresh_output(size_t room)
{
    struct written w = {KEPT, KEPT, room, NULL};
    if (room > 0) {
        w.out = allocate(room);
        memset(w.out, KEPT, room);
    }
    return w;
}

static bool kept_from(struct written w, size_t place)
{
    for (; place < w.room; place++) {
        if (w.out[place] != KEPT) {
            return false;
        }
    }
    return true;
}

/* Whether the text was written, and the bytes past it kept. */
static bool wrote(struct written w, const char *text)
{
    size_t length = strlen(text);
    bool fits = w.number == 0 && w.length == length && length <= w.room;
    bool answer = fits && memcmp(w.out, text, length) == 0 && kept_from(w, length);
    free(w.out);
    return answer;
}

static bool wrote_nothing(struct written w, uint8_t number)
{
    bool answer = w.number == number && w.length == KEPT && kept_from(w, 0);
    free(w.out);
    return answer;
}

static struct written method_text(uint8_t method, size_t room)
{
    struct written w = fresh_output(room);
    w.number = sip_dialog_method_text(method, w.out, room, &w.length);
    return w;
}

static void test_method_text(void)
{
    uint8_t method;
    for (method = SIP_DIALOG_METHOD_INVITE; method <= SIP_DIALOG_METHOD_PUBLISH; method++) {
        const char *text = method_texts[method - 1];
        CHECK(wrote(method_text(method, 32), text));
        CHECK(wrote(method_text(method, strlen(text)), text));
        CHECK(wrote_nothing(method_text(method, strlen(text) - 1), 18));
        CHECK(wrote_nothing(method_text(method, 0), 18));
    }
    CHECK(wrote_nothing(method_text(0, 32), 28));
    CHECK(wrote_nothing(method_text(15, 32), 28));
    CHECK(wrote_nothing(method_text(UINT8_MAX, 32), 28));
    CHECK(wrote_nothing(method_text(15, 0), 28));
}

struct rack {
    uint8_t number;
    uint32_t rseq[2];
    uint32_t cseq[2];
    uint8_t method[2];
};

static struct rack parse_rack(const char *value)
{
    struct run v = lend(value);
    struct rack r = {KEPT, {KEPT, KEPT}, {KEPT, KEPT}, {KEPT, KEPT}};
    r.number = sip_dialog_parse_rack(v.bytes, v.length, r.rseq, r.cseq, r.method);
    take_back(v);
    CHECK(r.rseq[1] == KEPT && r.cseq[1] == KEPT && r.method[1] == KEPT);
    return r;
}

static bool rack_is(const char *value, uint32_t rseq, uint32_t cseq, uint8_t method)
{
    struct rack r = parse_rack(value);
    return r.number == 0 && r.rseq[0] == rseq && r.cseq[0] == cseq && r.method[0] == method;
}

static bool rack_is_refused(const char *value, uint8_t number)
{
    struct rack r = parse_rack(value);
    return r.number == number && r.rseq[0] == KEPT && r.cseq[0] == KEPT && r.method[0] == KEPT;
}

static void test_parse_rack(void)
{
    static const char *const unreadable[] = {
        NULL, "", " \t", "1", "1 2", "1 2 INVITE x", "1 2 INVITE x ", "1 2 FOO", "x 2 ACK", "1 x ACK", "-1 2 ACK", "1 2ACK",
        "4294967296 2 ACK", "1 4294967296 ACK",
    };
    char buffer[LONGEST + 2];
    size_t i;
    CHECK(rack_is("776656 1 INVITE", 776656, 1, SIP_DIALOG_METHOD_INVITE));
    CHECK(rack_is("\t+0 \t 002  bye ", 0, 2, SIP_DIALOG_METHOD_BYE));
    CHECK(rack_is("  1\t2\tprack\t ", 1, 2, SIP_DIALOG_METHOD_PRACK));
    CHECK(rack_is("4294967295 +4294967295 SUBSCRIBE", UINT32_MAX, UINT32_MAX, SIP_DIALOG_METHOD_SUBSCRIBE));
    for (i = 0; i < sizeof unreadable / sizeof unreadable[0]; i++) {
        CHECK(rack_is_refused(unreadable[i], 19));
    }
    CHECK(rack_is_refused("1 2 ACK\r\n", 2));
    CHECK(rack_is_refused("1\xa0", 2));
    CHECK(rack_is(filled(buffer, "1 2", ' ', "ACK", LONGEST), 1, 2, SIP_DIALOG_METHOD_ACK));
    CHECK(rack_is_refused(filled(buffer, "1 2", ' ', "ACK", LONGEST + 1), 1));
    CHECK(rack_is_refused(filled(buffer, "", '\n', "", LONGEST + 1), 1));
}

static struct written format_rack(uint32_t rseq, uint32_t cseq, uint8_t method, size_t room)
{
    struct written w = fresh_output(room);
    w.number = sip_dialog_format_rack(rseq, cseq, method, w.out, room, &w.length);
    return w;
}

static void test_format_rack(void)
{
    const char *longest = "4294967295 4294967295 SUBSCRIBE";
    CHECK(strlen(longest) == 31);
    CHECK(wrote(format_rack(776656, 1, SIP_DIALOG_METHOD_INVITE, 64), "776656 1 INVITE"));
    CHECK(wrote(format_rack(0, 10, SIP_DIALOG_METHOD_ACK, 8), "0 10 ACK"));
    CHECK(wrote(format_rack(UINT32_MAX, UINT32_MAX, SIP_DIALOG_METHOD_SUBSCRIBE, 31), longest));
    CHECK(wrote(format_rack(UINT32_MAX, UINT32_MAX, SIP_DIALOG_METHOD_SUBSCRIBE, 32), longest));
    CHECK(wrote_nothing(format_rack(UINT32_MAX, UINT32_MAX, SIP_DIALOG_METHOD_SUBSCRIBE, 30), 18));
    CHECK(wrote_nothing(format_rack(0, 0, SIP_DIALOG_METHOD_ACK, 6), 18));
    CHECK(wrote_nothing(format_rack(0, 0, SIP_DIALOG_METHOD_ACK, 0), 18));
    CHECK(wrote_nothing(format_rack(1, 2, 0, 64), 28));
    CHECK(wrote_nothing(format_rack(1, 2, 15, 64), 28));
    CHECK(wrote_nothing(format_rack(1, 2, 15, 0), 28));
}

/* ---- Session intervals */

static bool interval_is_valid(uint64_t interval, bool has_minimum, uint64_t minimum)
{
    uint64_t least = KEPT;
    return sip_dialog_validate_session_expires(interval, has_minimum, minimum, &least) == 0 && least == KEPT;
}

static bool interval_is_under(uint64_t interval, bool has_minimum, uint64_t minimum, uint64_t least_due)
{
    uint64_t least = KEPT;
    uint8_t number = sip_dialog_validate_session_expires(interval, has_minimum, minimum, &least);
    return number == 13 && least == least_due;
}

static void test_validate_session_expires(void)
{
    CHECK(interval_is_valid(90 * SECOND, false, 0));
    CHECK(interval_is_valid(90 * SECOND, false, UINT64_MAX));
    CHECK(interval_is_under(90 * SECOND - 1, false, 0, 90 * SECOND));
    CHECK(interval_is_under(0, false, 1, 90 * SECOND));
    CHECK(interval_is_valid(5 * SECOND, true, 5 * SECOND));
    CHECK(interval_is_under(5 * SECOND - 1, true, 5 * SECOND, 5 * SECOND));
    CHECK(interval_is_under(90 * SECOND, true, 120 * SECOND, 120 * SECOND));
    CHECK(interval_is_valid(0, true, 0));
    CHECK(interval_is_valid(86401 * SECOND, false, 0));
    CHECK(interval_is_valid(UINT64_MAX, true, UINT64_MAX));
    CHECK(interval_is_under(UINT64_MAX - 1, true, UINT64_MAX, UINT64_MAX));
}

/* An argument of a negotiation that may be absent; absent, its value must not count. */
struct optional {
    bool given;
    uint64_t value;
};

static const struct optional none = {false, 1};
static const struct optional none_largest = {false, UINT64_MAX};

static struct optional seconds(uint64_t value)
{
    struct optional o = {true, 0};
    o.value = value * SECOND;
    return o;
}

struct negotiated {
    uint8_t number;
    uint64_t interval;
    uint64_t least;
};

static struct negotiated negotiate(uint64_t requested, uint64_t local, struct optional remote, struct optional preference)
{
    struct negotiated n = {KEPT, KEPT, KEPT};
    n.number = sip_dialog_negotiate_session_expires(requested, local, remote.given, remote.value, preference.given,
                                                    preference.value, &n.interval, &n.least);
    return n;
}

static bool agreed(struct negotiated n, uint64_t interval)
{
    return n.number == 0 && n.interval == interval && n.least == KEPT;
}

static bool is_under(struct negotiated n, uint64_t least)
{
    return n.number == 13 && n.interval == KEPT && n.least == least;
}

static void test_negotiate_session_expires(void)
{
    CHECK(agreed(negotiate(1800 * SECOND, 90 * SECOND, seconds(120), seconds(60)), 120 * SECOND));
    CHECK(is_under(negotiate(100 * SECOND, 90 * SECOND, seconds(120), seconds(60)), 120 * SECOND));
    CHECK(agreed(negotiate(1800 * SECOND, 90 * SECOND, seconds(120), seconds(600)), 600 * SECOND));
    CHECK(agreed(negotiate(1800 * SECOND, 90 * SECOND, seconds(120), seconds(3600)), 1800 * SECOND));
    CHECK(agreed(negotiate(1800 * SECOND, 90 * SECOND, none_largest, none), 1800 * SECOND));
    CHECK(agreed(negotiate(1800 * SECOND, 90 * SECOND, none, none_largest), 1800 * SECOND));
    CHECK(agreed(negotiate(1800 * SECOND, 90 * SECOND, none, seconds(60)), 90 * SECOND));
    CHECK(agreed(negotiate(120 * SECOND, 90 * SECOND, seconds(120), none), 120 * SECOND));
    CHECK(is_under(negotiate(120 * SECOND - 1, 90 * SECOND, seconds(120), none), 120 * SECOND));
    CHECK(is_under(negotiate(120 * SECOND - 1, 120 * SECOND, seconds(90), none), 120 * SECOND));
    CHECK(is_under(negotiate(89 * SECOND, 90 * SECOND, none_largest, none), 90 * SECOND));
    CHECK(agreed(negotiate(10 * SECOND, 5 * SECOND, none, none), 10 * SECOND));
    CHECK(agreed(negotiate(0, 0, none, none), 0));
    CHECK(agreed(negotiate(UINT64_MAX, UINT64_MAX, none, seconds(1)), UINT64_MAX));
}

static void test_intervals(void)
{
    CHECK(sip_dialog_non_refresher_expiry(300 * SECOND) == 268 * SECOND);
    CHECK(sip_dialog_non_refresher_expiry(96 * SECOND) == 64 * SECOND);
    CHECK(sip_dialog_non_refresher_expiry(96 * SECOND + 3) == 64 * SECOND + 3);
    CHECK(sip_dialog_non_refresher_expiry(90 * SECOND) == 60 * SECOND);
    CHECK(sip_dialog_non_refresher_expiry(5) == 4);
    CHECK(sip_dialog_non_refresher_expiry(2) == 2);
    CHECK(sip_dialog_non_refresher_expiry(0) == 0);
    CHECK(sip_dialog_non_refresher_expiry(UINT64_MAX) == UINT64_MAX - 32 * SECOND);
    CHECK(sip_dialog_calculate_refresh_time(90 * SECOND) == 45 * SECOND);
    CHECK(sip_dialog_calculate_refresh_time(3) == 1);
    CHECK(sip_dialog_calculate_refresh_time(0) == 0);
    CHECK(sip_dialog_calculate_refresh_time(UINT64_MAX) == UINT64_MAX / 2);
}

static void test_needs_refresh(void)
{
    CHECK(sip_dialog_needs_refresh(true, 90, 60 * SECOND));
    CHECK(!sip_dialog_needs_refresh(true, 90, 60 * SECOND - 1));
    CHECK(sip_dialog_needs_refresh(true, 1, 666666666));
    CHECK(!sip_dialog_needs_refresh(true, 1, 666666665));
    CHECK(sip_dialog_needs_refresh(true, 0, 0));
    CHECK(sip_dialog_needs_refresh(true, UINT32_MAX, 2863311530 * SECOND));
    CHECK(!sip_dialog_needs_refresh(true, UINT32_MAX, 2863311530 * SECOND - 1));
    CHECK(sip_dialog_needs_refresh(true, UINT32_MAX, UINT64_MAX));
    CHECK(!sip_dialog_needs_refresh(false, 0, 0));
    CHECK(!sip_dialog_needs_refresh(false, 90, UINT64_MAX));
}

static struct flagged determine_refresher_role(bool given, const char *text, bool is_uac)
{
    struct run t = lend(text);
    struct flagged f = {KEPT, {KEPT, KEPT}};
    f.number = sip_dialog_determine_refresher_role(given, t.bytes, t.length, is_uac, f.value);
    take_back(t);
    return f;
}

/* Whether we refresh by this text if we are uac, and if we are uas. */
static bool role_is(bool given, const char *text, uint8_t as_uac, uint8_t as_uas)
{
    bool uac_is = byte_is(determine_refresher_role(given, text, true), as_uac);
    return uac_is && byte_is(determine_refresher_role(given, text, false), as_uas);
}

static void test_determine_refresher_role(void)
{
    char buffer[LONGEST + 2];
    CHECK(role_is(true, "uac", 1, 0));
    CHECK(role_is(true, "UAC", 1, 0));
    CHECK(role_is(true, "uas", 0, 1));
    CHECK(role_is(true, "UAS", 0, 1));
    CHECK(role_is(true, "Uas", 1, 0));
    CHECK(role_is(true, "uas ", 1, 0));
    CHECK(role_is(true, "ua", 1, 0));
    CHECK(role_is(true, "", 1, 0));
    CHECK(role_is(true, NULL, 1, 0));
    CHECK(role_is(false, NULL, 1, 0));
    CHECK(role_is(false, "uas", 1, 0));
    CHECK(role_is(true, filled(buffer, "uas", 's', "", LONGEST), 1, 0));
    filled(buffer, "uas", 's', "", LONGEST + 1);
    CHECK(byte_is_refused(determine_refresher_role(true, buffer, true), 1));
    CHECK(byte_is_refused(determine_refresher_role(true, buffer, false), 1));
    CHECK(role_is(false, buffer, 1, 0));
}

struct contest {
    uint8_t number;
    uint8_t has_first;
    uint64_t first[2];
    uint8_t has_retry;
    uint64_t retry[2];
    uint8_t only_requested;
    uint64_t least;
};

static struct contest contest(uint64_t requested, uint64_t min_se)
{
    struct contest c = {KEPT, KEPT, {KEPT, KEPT}, KEPT, {KEPT, KEPT}, KEPT, KEPT};
    c.number = sip_dialog_interval_contest(requested, min_se, &c.has_first, &c.first[0], &c.first[1], &c.has_retry,
                                           &c.retry[0], &c.retry[1], &c.only_requested, &c.least);
    return c;
}

static bool first_is(struct contest c, uint64_t least, uint64_t most, uint8_t only_requested)
{
    return c.number == 0 && c.has_first == 1 && c.first[0] == least && c.first[1] == most
        && c.only_requested == only_requested && c.least == KEPT;
}

static bool retry_is(struct contest c, uint64_t least, uint64_t most)
{
    return c.has_retry == 1 && c.retry[0] == least && c.retry[1] == most;
}

static bool no_retry(struct contest c)
{
    return c.has_retry == 0 && c.retry[0] == KEPT && c.retry[1] == KEPT;
}

static bool no_contest(struct contest c, uint8_t number, uint64_t least)
{
    return c.number == number && c.least == least && c.has_first == KEPT && c.first[0] == KEPT && c.first[1] == KEPT
        && c.has_retry == KEPT && c.retry[0] == KEPT && c.retry[1] == KEPT && c.only_requested == KEPT;
}

static void test_interval_contest(void)
{
    CHECK(first_is(contest(1800, 120), 120, 1800, 0) && retry_is(contest(1800, 120), 1801, 86400));
    CHECK(first_is(contest(1800, 1800), 1800, 1800, 1) && retry_is(contest(1800, 1800), 1801, 86400));
    CHECK(first_is(contest(1800, 1799), 1799, 1800, 0));
    CHECK(first_is(contest(90, 90), 90, 90, 1) && retry_is(contest(90, 90), 91, 86400));
    CHECK(first_is(contest(91, 90), 90, 91, 0) && retry_is(contest(91, 90), 92, 86400));
    CHECK(first_is(contest(86399, 90), 90, 86399, 0) && retry_is(contest(86399, 90), 86400, 86400));
    CHECK(first_is(contest(86400, 90), 90, 86400, 0) && no_retry(contest(86400, 90)));
    CHECK(first_is(contest(86400, 86400), 86400, 86400, 1) && no_retry(contest(86400, 86400)));
    CHECK(no_contest(contest(1800, 89), 13, 90));
    CHECK(no_contest(contest(0, 0), 13, 90));
    CHECK(no_contest(contest(90, 0), 13, 90));
    CHECK(no_contest(contest(86401, 89), 13, 90));
    CHECK(no_contest(contest(89, 90), 13, 90));
    CHECK(no_contest(contest(119, 120), 13, 120));
    CHECK(no_contest(contest(86400, 86401), 13, 86401));
    CHECK(no_contest(contest(UINT64_MAX - 1, UINT64_MAX), 13, UINT64_MAX));
    CHECK(no_contest(contest(86401, 86401), 14, KEPT));
    CHECK(no_contest(contest(86401, 90), 14, KEPT));
    CHECK(no_contest(contest(UINT64_MAX, UINT64_MAX), 14, KEPT));
}

/* ---- Stores of records */

enum {
    LISTED = 65536, /* the largest store that is listed */
    MANY = 300      /* records of a store that is larger than 4,096 bytes */
};

static const uint8_t sheet_record[] = {
    0x01, 0x7F, 0, 2, 'c', '1', 0, 1, 'L', 0, 1, 'R', 2, 0, 7, 's', 'i', 'p', ':', 'r', '@', 'h', 0, 7, 's', 'i', 'p', ':', 'l',
    '@', 'h', 0, 7, 's', 'i', 'p', ':', 'r', '@', 'h', 0, 0, 0, 7};

enum { RECORD = SHEET_LENGTH };

/* The example's record so many times, each with a Call-ID of its own, from place 0 on. */
static void records(uint8_t *store, size_t count)
{
    size_t i;
    for (i = 0; i < count; i++) {
        memcpy(store + i * RECORD, sheet_record, RECORD);
        store[i * RECORD + 4] = (uint8_t)('a' + i / 26 % 26);
        store[i * RECORD + 5] = (uint8_t)('a' + i % 26);
    }
}

/* count of a store that is lent with its used length; KEPT where it is refused. */
static bool count_of_is(const uint8_t *store, size_t lent, size_t used, uint8_t number, size_t expected)
{
    uint8_t *bytes = allocate(lent);
    size_t count = KEPT;
    bool holds;
    if (lent > 0) {
        memcpy(bytes, store, lent);
    }
    holds = sip_dialog_count(RUST, bytes, lent, used, &count) == number && count == (number == 0 ? expected : KEPT);
    holds = holds && (lent == 0 || memcmp(bytes, store, lent) == 0);
    free(bytes);
    return holds;
}

static void test_count(void)
{
    static uint8_t store[MANY * RECORD + 1];
    records(store, MANY);
    CHECK(count_of_is(store, 0, 0, 0, 0));
    CHECK(count_of_is(store, 10, 0, 0, 0));
    CHECK(count_of_is(sheet_record, RECORD, RECORD, 0, 1));
    CHECK(count_of_is(store, 2 * RECORD, RECORD, 0, 1));
    CHECK(count_of_is(store, 2 * RECORD, 2 * RECORD, 0, 2));
    CHECK(count_of_is(store, MANY * RECORD, MANY * RECORD, 0, MANY));
    CHECK(count_of_is(store, 0, 1, 3, 0));
    CHECK(count_of_is(store, RECORD, RECORD + 1, 3, 0));
    CHECK(count_of_is(store, RECORD, SIZE_MAX, 3, 0));
    CHECK(count_of_is(store, RECORD, RECORD - 1, 3, 0));
    CHECK(count_of_is(store, MANY * RECORD + 1, MANY * RECORD + 1, 3, 0));
    /* one identifier twice: neighbours, and the first and the last */
    memcpy(store + RECORD, store, RECORD);
    CHECK(count_of_is(store, 2 * RECORD, 2 * RECORD, 3, 0));
    CHECK(count_of_is(store, MANY * RECORD, MANY * RECORD, 3, 0));
    records(store, MANY);
    memcpy(store + (MANY - 1) * RECORD, store, RECORD);
    CHECK(count_of_is(store, (MANY - 1) * RECORD, (MANY - 1) * RECORD, 0, MANY - 1));
    CHECK(count_of_is(store, MANY * RECORD, MANY * RECORD, 3, 0));
}

/* The listing of so many bytes into so much room: its text, or the number with every lent byte kept. */
static bool listing_is(const uint8_t *store, size_t used, size_t room, uint8_t number, const char *text)
{
    uint8_t *bytes = allocate(used);
    uint8_t *out = allocate(room);
    size_t length = KEPT;
    size_t written = number == 0 ? strlen(text) : 0;
    size_t i;
    bool holds;
    if (used > 0) {
        memcpy(bytes, store, used);
    }
    if (room > 0) {
        memset(out, KEPT, room);
    }
    holds = sip_dialog_listing(RUST, bytes, used, out, room, &length) == number;
    holds = holds && length == (number == 0 ? written : KEPT);
    holds = holds && (written == 0 || memcmp(out, text, written) == 0);
    for (i = written; i < room; i++) {
        holds = holds && out[i] == KEPT;
    }
    holds = holds && (used == 0 || memcmp(bytes, store, used) == 0);
    free(bytes);
    free(out);
    return holds;
}

static void test_listing(void)
{
    static uint8_t large[LISTED + 1];
    static uint8_t store[2 * RECORD];
    const char *one = "1 C uas 0 7 - - - 0\ntotal 1\n";
    const char *two = "1 C uas 0 7 - - - 0\n2 C uas 0 7 - - - 0\ntotal 2\n";
    CHECK(listing_is(sheet_record, RECORD, 100, 0, one));
    CHECK(listing_is(sheet_record, RECORD, strlen(one), 0, one));
    CHECK(listing_is(sheet_record, RECORD, strlen(one) - 1, 18, NULL));
    CHECK(listing_is(sheet_record, RECORD, 0, 18, NULL));
    CHECK(listing_is(NULL, 0, 8, 0, "total 0\n"));
    CHECK(listing_is(NULL, 0, 7, 18, NULL));
    CHECK(listing_is(sheet_record, RECORD - 1, 100, 3, NULL));
    CHECK(listing_is(sheet_record, RECORD - 1, 0, 3, NULL));
    CHECK(listing_is(sheet_record, 1, 100, 3, NULL));
    records(store, 2);
    CHECK(listing_is(store, sizeof store, strlen(two), 0, two));
    memcpy(store + RECORD, store, RECORD);
    CHECK(listing_is(store, sizeof store, 100, 3, NULL));
    CHECK(listing_is(large, LISTED, 100, 3, NULL));
    CHECK(listing_is(large, LISTED + 1, 100, 1, NULL));
    CHECK(listing_is(large, LISTED + 1, 0, 1, NULL));
}

/* ---- One record image */

struct image image_of(const uint8_t *bytes, size_t length)
{
    struct image i = {0, {0}};
    i.length = length;
    memcpy(i.bytes, bytes, length);
    return i;
}

struct image nothing(void)
{
    return image_of(NULL, 0);
}

struct image join(struct image a, struct image b)
{
    memcpy(a.bytes + a.length, b.bytes, b.length);
    return with_length(a, a.length + b.length);
}

struct image sheet_image(void)
{
    return image_of(sheet_record, sizeof sheet_record);
}

struct image full_image(void)
{
    static const uint8_t bytes[] = {
        0x1F, 0xFF, 0, 4, 'i', 'd', '@', 'x', 0, 1, 'a', 0, 2, 'b', 'c', 13,
        0, 7, 's', 'i', 'p', ':', 't', '@', 'h', 0, 8, 's', 'i', 'p', 's', ':', 'l', '@', 'h',
        0, 8, 's', 'i', 'p', ':', 'r', '@', 'h', 'h', 1, 2, 3, 4, 0, 0, 0, 9, 0, 0, 0, 8, 0, 0, 7, 8, 0, 0, 0, 2,
        2, 0, 7, 's', 'i', 'p', ':', 'p', '@', 'h', 0, 11, 's', 'i', 'p', ':', 'q', '@', 'h', 'h', ';', 'l', 'r'};
    return image_of(bytes, sizeof bytes);
}

struct image least_image(void)
{
    static const uint8_t bytes[] = {
        0, 0x78, 1, 0, 7, 's', 'i', 'p', ':', 'r', '@', 'h', 0, 7, 's', 'i', 'p', ':', 'l', '@', 'h',
        0, 7, 's', 'i', 'p', ':', 'r', '@', 'h'};
    return image_of(bytes, sizeof bytes);
}

struct image with_byte(struct image i, size_t at, uint8_t byte)
{
    i.bytes[at] = byte;
    return i;
}

struct image with_number(struct image i, size_t at, uint32_t number)
{
    i.bytes[at] = (uint8_t)(number >> 24);
    i.bytes[at + 1] = (uint8_t)(number >> 16);
    i.bytes[at + 2] = (uint8_t)(number >> 8);
    i.bytes[at + 3] = (uint8_t)number;
    return i;
}

struct image with_more(struct image i, unsigned map, size_t at, uint32_t number)
{
    memmove(i.bytes + at + 4, i.bytes + at, i.length - at);
    i.length += 4;
    i.bytes[0] = (uint8_t)(map >> 8);
    i.bytes[1] = (uint8_t)map;
    return with_number(i, at, number);
}

struct image with_length(struct image i, size_t length)
{
    i.length = length;
    return i;
}

/* So many routes "sip:p@h" for a record that has no other field. */
static struct image with_routes(uint8_t count)
{
    static const uint8_t route[] = {0, 7, 's', 'i', 'p', ':', 'p', '@', 'h'};
    struct image i = least_image();
    uint8_t k;
    i.bytes[0] = 0x10;
    i.bytes[i.length] = count;
    i.length += 1;
    for (k = 0; k < count; k++) {
        memcpy(i.bytes + i.length, route, sizeof route);
        i.length += sizeof route;
    }
    return i;
}

/* Lends just the bytes of an image. */
static uint8_t *lend_image(const struct image *i)
{
    uint8_t *bytes = allocate(i->length);
    if (i->length > 0) {
        memcpy(bytes, i->bytes, i->length);
    }
    return bytes;
}

static void take_image_back(const struct image *i, uint8_t *bytes)
{
    CHECK(i->length == 0 || memcmp(bytes, i->bytes, i->length) == 0);
    free(bytes);
}

/* Three parts of an image: places and lengths. */
struct places {
    uint8_t number;
    size_t place[3];
    size_t length[3];
};

static const struct places fresh_places = {KEPT, {KEPT, KEPT, KEPT}, {KEPT, KEPT, KEPT}};

typedef uint8_t places_function(sip_dialog_settings, const uint8_t *, size_t, size_t *, size_t *, size_t *, size_t *, size_t *, size_t *);

static struct places places_of(places_function *read, struct image i)
{
    uint8_t *bytes = lend_image(&i);
    struct places p = fresh_places;
    p.number = read(RUST, bytes, i.length, &p.place[0], &p.length[0], &p.place[1], &p.length[1], &p.place[2], &p.length[2]);
    take_image_back(&i, bytes);
    return p;
}

static bool places_are(struct places p, size_t a, size_t a_length, size_t b, size_t b_length, size_t c, size_t c_length)
{
    bool places = p.place[0] == a && p.place[1] == b && p.place[2] == c;
    return p.number == 0 && places && p.length[0] == a_length && p.length[1] == b_length && p.length[2] == c_length;
}

static bool places_are_refused(struct places p)
{
    bool kept = true;
    size_t k;
    for (k = 0; k < 3; k++) {
        kept = kept && p.place[k] == KEPT && p.length[k] == KEPT;
    }
    return p.number == 3 && kept;
}

struct image_state {
    uint8_t number;
    uint8_t state[2];
    uint8_t we_are_uac[2];
    uint8_t secure[2];
};

static struct image_state state_of(struct image i)
{
    uint8_t *bytes = lend_image(&i);
    struct image_state s = {KEPT, {KEPT, KEPT}, {KEPT, KEPT}, {KEPT, KEPT}};
    s.number = sip_dialog_image_state(RUST, bytes, i.length, s.state, s.we_are_uac, s.secure);
    take_image_back(&i, bytes);
    return s;
}

static bool state_is(struct image_state s, uint8_t number, uint8_t state, uint8_t we_are_uac, uint8_t secure)
{
    bool kept = s.state[1] == KEPT && s.we_are_uac[1] == KEPT && s.secure[1] == KEPT;
    return s.number == number && s.state[0] == state && s.we_are_uac[0] == we_are_uac && s.secure[0] == secure && kept;
}

struct image_numbers {
    uint8_t number;
    uint32_t local[2];
    uint32_t remote[2];
    uint8_t has_last_ack[2];
    uint32_t last_ack[2];
    uint8_t has_seconds[2];
    uint32_t seconds[2];
    uint8_t refresher[2];
};

static struct image_numbers numbers_of(struct image i)
{
    uint8_t *bytes = lend_image(&i);
    struct image_numbers n = {KEPT,         {KEPT, KEPT}, {KEPT, KEPT}, {KEPT, KEPT},
                              {KEPT, KEPT}, {KEPT, KEPT}, {KEPT, KEPT}, {KEPT, KEPT}};
    n.number = sip_dialog_image_numbers(RUST, bytes, i.length, n.local, n.remote, n.has_last_ack, n.last_ack, n.has_seconds,
                                        n.seconds, n.refresher);
    take_image_back(&i, bytes);
    CHECK(n.local[1] == KEPT && n.remote[1] == KEPT && n.has_last_ack[1] == KEPT && n.last_ack[1] == KEPT);
    CHECK(n.has_seconds[1] == KEPT && n.seconds[1] == KEPT && n.refresher[1] == KEPT);
    return n;
}

static bool ends_are(struct image_numbers n, uint32_t local, uint32_t remote, uint8_t refresher)
{
    return n.number == 0 && n.local[0] == local && n.remote[0] == remote && n.refresher[0] == refresher;
}

static bool ack_is(struct image_numbers n, uint8_t has, uint32_t last_ack)
{
    return n.number == 0 && n.has_last_ack[0] == has && n.last_ack[0] == last_ack;
}

static bool seconds_are(struct image_numbers n, uint8_t has, uint32_t seconds)
{
    return n.number == 0 && n.has_seconds[0] == has && n.seconds[0] == seconds;
}

static bool numbers_are_refused(struct image_numbers n)
{
    bool ends = n.local[0] == KEPT && n.remote[0] == KEPT && n.refresher[0] == KEPT;
    bool ack = n.has_last_ack[0] == KEPT && n.last_ack[0] == KEPT;
    return n.number == 3 && ends && ack && n.has_seconds[0] == KEPT && n.seconds[0] == KEPT;
}

static bool routes_are(struct image i, uint8_t number, size_t expected)
{
    uint8_t *bytes = lend_image(&i);
    size_t count = KEPT;
    bool holds = sip_dialog_image_route_count(RUST, bytes, i.length, &count) == number && count == expected;
    take_image_back(&i, bytes);
    return holds;
}

static struct lookup image_route(struct image i, size_t index)
{
    uint8_t *bytes = lend_image(&i);
    struct lookup l = fresh_lookup;
    l.number = sip_dialog_image_route(RUST, bytes, i.length, index, l.found, &l.place, &l.length);
    take_image_back(&i, bytes);
    return l;
}

/* The number that is returned, and what the lent byte then holds. */
static bool match_is(const char *block, struct image i, uint8_t number, uint8_t expected)
{
    struct run b = lend(block);
    uint8_t *bytes = lend_image(&i);
    uint8_t matches[2] = {KEPT, KEPT};
    bool holds = sip_dialog_image_matches_request(RUST, b.bytes, b.length, bytes, i.length, matches) == number;
    holds = holds && matches[0] == expected && matches[1] == KEPT;
    take_image_back(&i, bytes);
    take_back(b);
    return holds;
}

static bool refresh_is(struct image i, uint64_t elapsed, uint8_t number, uint8_t expected)
{
    uint8_t *bytes = lend_image(&i);
    uint8_t due[2] = {KEPT, KEPT};
    bool holds = sip_dialog_image_needs_refresh(RUST, bytes, i.length, elapsed, due) == number;
    holds = holds && due[0] == expected && due[1] == KEPT;
    take_image_back(&i, bytes);
    return holds;
}

/* Every reading refuses the bytes with 3, and keeps all that is lent. */
static bool no_image(struct image i)
{
    bool id = places_are_refused(places_of(sip_dialog_image_id, i));
    bool uris = places_are_refused(places_of(sip_dialog_image_uris, i));
    bool numbers = numbers_are_refused(numbers_of(i)) && state_is(state_of(i), 3, KEPT, KEPT, KEPT);
    bool routes = routes_are(i, 3, KEPT) && is_refused(image_route(i, 0), 3) && is_refused(image_route(i, SIZE_MAX), 3);
    return id && uris && numbers && routes && match_is("", i, 3, KEPT) && refresh_is(i, UINT64_MAX, 3, KEPT);
}

static void test_image_parts(void)
{
    struct image full = full_image();
    struct image sheet = sheet_image();
    struct image least = least_image();
    CHECK(sheet.length == SHEET_LENGTH && full.length == FULL_LENGTH && least.length == LEAST_LENGTH);
    CHECK(places_are(places_of(sip_dialog_image_id, full), 4, 4, 10, 1, 13, 2));
    CHECK(places_are(places_of(sip_dialog_image_id, sheet), 4, 2, 8, 1, 11, 1));
    CHECK(places_are(places_of(sip_dialog_image_id, least), 2, 0, 2, 0, 2, 0));
    CHECK(places_are(places_of(sip_dialog_image_uris, full), 18, 7, 27, 8, 37, 8));
    CHECK(places_are(places_of(sip_dialog_image_uris, sheet), 15, 7, 24, 7, 33, 7));
    CHECK(places_are(places_of(sip_dialog_image_uris, least), 5, 7, 14, 7, 23, 7));
    CHECK(state_is(state_of(full), 0, 1, 1, 1));
    CHECK(state_is(state_of(with_byte(full, FULL_STATE, 10)), 0, 2, 0, 1));
    CHECK(state_is(state_of(with_byte(full, FULL_STATE, 15)), 0, 3, 1, 1));
    CHECK(state_is(state_of(sheet), 0, 2, 0, 0));
    CHECK(state_is(state_of(with_byte(sheet, 12, 7)), 0, 3, 1, 0));
    CHECK(state_is(state_of(least), 0, 1, 0, 0));
}

static void test_image_numbers(void)
{
    struct image_numbers full = numbers_of(full_image());
    struct image_numbers sheet = numbers_of(sheet_image());
    CHECK(ends_are(full, 16909060, 9, 2) && ack_is(full, 1, 8) && seconds_are(full, 1, 1800));
    CHECK(ends_are(sheet, 0, 7, 0) && ack_is(sheet, 0, KEPT) && seconds_are(sheet, 0, KEPT));
    CHECK(ends_are(numbers_of(least_image()), 0, 0, 0));
    CHECK(ends_are(numbers_of(with_number(full_image(), FULL_LOCAL, UINT32_MAX)), UINT32_MAX, 9, 2));
    CHECK(ends_are(numbers_of(with_number(full_image(), FULL_REMOTE, UINT32_MAX)), 16909060, UINT32_MAX, 2));
    CHECK(ends_are(numbers_of(with_number(full_image(), FULL_REFRESHER, 1)), 16909060, 9, 1));
    CHECK(ack_is(numbers_of(with_number(full_image(), FULL_ACK, 0)), 1, 0));
    CHECK(seconds_are(numbers_of(with_number(full_image(), FULL_SECONDS, 0)), 1, 0));
    /* each number by itself */
    CHECK(ends_are(numbers_of(with_more(least_image(), 0x00F8, 30, 5)), 5, 0, 0));
    CHECK(ends_are(numbers_of(with_more(least_image(), 0x0178, 30, 5)), 0, 5, 0));
    CHECK(ack_is(numbers_of(with_more(least_image(), 0x0278, 30, 5)), 1, 5));
    CHECK(seconds_are(numbers_of(with_more(least_image(), 0x0278, 30, 5)), 0, KEPT));
    CHECK(seconds_are(numbers_of(with_more(least_image(), 0x0478, 30, 5)), 1, 5));
    CHECK(ack_is(numbers_of(with_more(least_image(), 0x0478, 30, 5)), 0, KEPT));
    CHECK(ends_are(numbers_of(with_more(least_image(), 0x0878, 30, 2)), 0, 0, 2));
}

static void test_image_routes(void)
{
    struct image full = full_image();
    struct image fifty = with_routes(50);
    size_t k;
    CHECK(routes_are(full, 0, 2));
    CHECK(is_at(image_route(full, 0), 68, 7));
    CHECK(is_at(image_route(full, 1), 77, 11));
    CHECK(is_nothing(image_route(full, 2)));
    CHECK(is_nothing(image_route(full, SIZE_MAX)));
    CHECK(routes_are(sheet_image(), 0, 0));
    CHECK(is_nothing(image_route(sheet_image(), 0)));
    CHECK(routes_are(with_routes(1), 0, 1));
    CHECK(is_at(image_route(with_routes(1), 0), 33, 7));
    CHECK(is_nothing(image_route(with_routes(1), 1)));
    CHECK(routes_are(fifty, 0, 50));
    for (k = 0; k < 50; k++) {
        CHECK(is_at(image_route(fifty, k), 33 + 9 * k, 7));
    }
    CHECK(is_nothing(image_route(fifty, 50)));
    CHECK(no_image(with_routes(51)));
}

static void test_no_image(void)
{
    struct image full = full_image();
    struct image sheet = sheet_image();
    struct image twice = sheet;
    memcpy(twice.bytes + RECORD, sheet_record, RECORD);
    twice.length = 2 * RECORD;
    CHECK(no_image(twice));
    CHECK(no_image(with_length(sheet, 0)));
    CHECK(no_image(with_length(sheet, 1)));
    CHECK(no_image(with_length(sheet, RECORD - 1)));
    CHECK(no_image(with_length(sheet, RECORD + 1)));
    CHECK(no_image(with_length(full, FULL_LENGTH - 1)));
    CHECK(no_image(with_length(full, FULL_LENGTH + 1)));
    /* the map: bit 13, bit 3 that is missing, bit 12 that is missing */
    CHECK(no_image(with_byte(full, 0, 0x3F)));
    CHECK(no_image(with_byte(full, 1, 0xF7)));
    CHECK(no_image(with_byte(full, 0, 0x0F)));
    /* an empty Call-ID, a byte over 126 in it */
    CHECK(no_image(with_byte(full, 3, 0)));
    CHECK(no_image(with_byte(full, 4, 127)));
    /* the state byte: no state, bit 4, the secure bit of another record */
    CHECK(no_image(with_byte(full, FULL_STATE, 12)));
    CHECK(no_image(with_byte(full, FULL_STATE, 29)));
    CHECK(no_image(with_byte(full, FULL_STATE, 5)));
    CHECK(no_image(with_byte(sheet, 12, 10)));
    /* a URI that can't be read: the target, the last route */
    CHECK(no_image(with_byte(full, 18, 't')));
    CHECK(no_image(with_byte(full, 77, 't')));
    CHECK(no_image(with_number(full, FULL_LOCAL, 0)));
    CHECK(no_image(with_number(full, FULL_REMOTE, 0)));
    CHECK(no_image(with_number(full, FULL_REFRESHER, 0)));
    CHECK(no_image(with_number(full, FULL_REFRESHER, 3)));
    CHECK(no_image(with_byte(full, FULL_ROUTES, 0)));
    CHECK(no_image(with_byte(full, FULL_ROUTES, 1)));
    CHECK(no_image(with_byte(full, FULL_ROUTES, 3)));
}

static void test_image_matches_request(void)
{
    struct image sheet = sheet_image();
    const char *request = "Call-ID:c1\r\nFrom:<sip:r@h>;tag=R\r\nTo:<sip:l@h>;tag=L\r\n";
    char buffer[LONGEST + 2];
    CHECK(match_is(request, sheet, 0, 1));
    CHECK(match_is("Call-ID:c1\r\nFrom:\"a;tag=x\" <sip:r@h;lr>;tag=R\r\nTo:<sip:l@h;tag=x>;tag=L\r\n", sheet, 0, 1));
    CHECK(match_is("Call-ID:c1\r\nFrom:\"a;tag=R\r\nTo:;tag=L\r\n", sheet, 0, 0));
    CHECK(match_is("Call-ID:c1\r\nFrom:;tag=L\r\nTo:;tag=R\r\n", sheet, 0, 0));
    CHECK(match_is("Call-ID:c2\r\nFrom:;tag=R\r\nTo:;tag=L\r\n", sheet, 0, 0));
    CHECK(match_is("Call-ID:c1\r\nFrom:;tag=r\r\nTo:;tag=L\r\n", sheet, 0, 0));
    CHECK(match_is("Call-ID:c1\r\nFrom:;tag=R\r\nTo:;tag=l\r\n", sheet, 0, 0));
    CHECK(match_is("Call-ID:c1\r\nFrom:;tag=RR\r\nTo:;tag=L\r\n", sheet, 0, 0));
    CHECK(match_is("From:;tag=R\r\nTo:;tag=L\r\n", sheet, 0, 0));
    CHECK(match_is("Call-ID:c1\r\nTo:;tag=L\r\n", sheet, 0, 0));
    CHECK(match_is("Call-ID:c1\r\nFrom:;tag=R\r\nTo:l\r\n", sheet, 0, 0));
    CHECK(match_is("", sheet, 0, 0));
    CHECK(match_is(NULL, sheet, 0, 0));
    CHECK(match_is("Call-ID:id@x\r\nFrom:;tag=bc\r\nTo:;tag=a\r\n", full_image(), 0, 1));
    /* empty parts are the record's empty parts; absent ones are not */
    CHECK(match_is("Call-ID:\r\nFrom:;tag=\r\nTo:;tag=\r\n", least_image(), 0, 1));
    CHECK(match_is("Call-ID:\r\nFrom:;tag=\r\nTo:\r\n", least_image(), 0, 0));
    CHECK(match_is("Call-ID:\r\nFrom:;tag=\r\nTo:;tag=\r\n", sheet, 0, 0));
    CHECK(match_is(long_block(buffer, request, LONGEST), sheet, 0, 1));
    CHECK(match_is(long_block(buffer, request, LONGEST + 1), sheet, 1, KEPT));
    CHECK(match_is(buffer, with_length(sheet, RECORD - 1), 1, KEPT));
    CHECK(match_is("Call-ID:c1", sheet, 2, KEPT));
    CHECK(match_is("Call-ID:c1", with_length(sheet, RECORD - 1), 2, KEPT));
    CHECK(match_is(request, with_length(sheet, RECORD - 1), 3, KEPT));
    CHECK(match_is(request, with_length(sheet, 0), 3, KEPT));
}

static void test_image_needs_refresh(void)
{
    struct image full = full_image();
    CHECK(refresh_is(full, 1200 * SECOND, 0, 1));
    CHECK(refresh_is(full, 1200 * SECOND - 1, 0, 0));
    CHECK(refresh_is(full, UINT64_MAX, 0, 1));
    CHECK(refresh_is(full, 0, 0, 0));
    CHECK(refresh_is(with_number(full, FULL_SECONDS, 90), 60 * SECOND, 0, 1));
    CHECK(refresh_is(with_number(full, FULL_SECONDS, 90), 60 * SECOND - 1, 0, 0));
    CHECK(refresh_is(with_number(full, FULL_SECONDS, 0), 0, 0, 1));
    CHECK(refresh_is(with_number(full, FULL_SECONDS, UINT32_MAX), UINT64_C(2863311530) * SECOND, 0, 1));
    CHECK(refresh_is(with_number(full, FULL_SECONDS, UINT32_MAX), UINT64_C(2863311530) * SECOND - 1, 0, 0));
    CHECK(refresh_is(sheet_image(), UINT64_MAX, 0, 0));
    CHECK(refresh_is(with_length(full, FULL_LENGTH - 1), 0, 3, KEPT));
}

/* ---- One record image changed in its place */

/* The image in so much room, and what a call then makes of it. */
struct change {
    struct image before;
    size_t room;
    size_t used;
    uint8_t *bytes;
    uint8_t *expected;
};

/* Bytes of the room past the image are KEPT. `used` is what the call is told, mostly the image's length. */
static struct change lend_room(struct image before, size_t room, size_t used)
{
    struct change c = {{0, {0}}, 0, 0, NULL, NULL};
    size_t whole = before.length < room ? before.length : room;
    c.before = before;
    c.room = room;
    c.used = used;
    c.bytes = allocate(room);
    c.expected = allocate(room);
    if (room > 0) {
        memset(c.bytes, KEPT, room);
        memcpy(c.bytes, before.bytes, whole);
        memcpy(c.expected, c.bytes, room);
    }
    return c;
}

/* Whether the call was accepted and left this image and its length, with every byte past it as it was. */
static bool became(struct change c, uint8_t number, struct image after)
{
    bool holds = number == 0 && after.length <= c.room && c.used == after.length;
    if (after.length <= c.room) {
        memcpy(c.expected, after.bytes, after.length);
    }
    holds = holds && memcmp(c.bytes, c.expected, c.room) == 0;
    free(c.bytes);
    free(c.expected);
    return holds;
}

/* Whether the call was refused with this number and kept every byte and the used length. */
static bool stayed(struct change c, uint8_t number, uint8_t expected, size_t used)
{
    bool holds = number == expected && c.used == used && (c.room == 0 || memcmp(c.bytes, c.expected, c.room) == 0);
    free(c.bytes);
    free(c.expected);
    return holds;
}

typedef uint8_t state_function(sip_dialog_settings, uint8_t *, size_t, size_t *);

static bool state_becomes(state_function *call, struct image before, size_t room, struct image after)
{
    struct change c = lend_room(before, room, before.length);
    uint8_t number = call(RUST, c.bytes, c.room, &c.used);
    return became(c, number, after);
}

static bool state_stays(state_function *call, struct image before, size_t room, size_t used)
{
    struct change c = lend_room(before, room, used);
    uint8_t number = call(RUST, c.bytes, c.room, &c.used);
    return stayed(c, number, 3, used);
}

/* What confirm and terminate have in common; the state byte that the call makes of Early with both flags. */
static void test_image_state_change(state_function *call, uint8_t state)
{
    struct image full = full_image();
    struct image sheet = sheet_image();
    CHECK(state_becomes(call, full, FULL_LENGTH, with_byte(full, FULL_STATE, state)));
    CHECK(state_becomes(call, full, FULL_LENGTH + 1, with_byte(full, FULL_STATE, state)));
    CHECK(state_becomes(call, full, 600, with_byte(full, FULL_STATE, state)));
    CHECK(state_becomes(call, with_byte(full, FULL_STATE, 15), FULL_LENGTH, with_byte(full, FULL_STATE, 15)));
    CHECK(state_stays(call, full, FULL_LENGTH - 1, FULL_LENGTH));
    CHECK(state_stays(call, full, FULL_LENGTH, FULL_LENGTH - 1));
    CHECK(state_stays(call, full, FULL_LENGTH + 1, FULL_LENGTH + 1));
    CHECK(state_stays(call, full, FULL_LENGTH, SIZE_MAX));
    CHECK(state_stays(call, full, FULL_LENGTH, 0));
    CHECK(state_stays(call, with_length(full, 0), 0, 0));
    CHECK(state_stays(call, with_length(full, 0), 0, 1));
    CHECK(state_stays(call, with_byte(sheet, 12, 10), RECORD, RECORD));
    CHECK(state_stays(call, with_byte(sheet, 0, 0x21), 100, RECORD));
}

static void test_image_confirm(void)
{
    struct image sheet = sheet_image();
    test_image_state_change(sip_dialog_image_confirm, 14);
    CHECK(state_becomes(sip_dialog_image_confirm, sheet, RECORD, sheet));
    CHECK(state_becomes(sip_dialog_image_confirm, with_byte(sheet, 12, 1), RECORD, sheet));
    CHECK(state_becomes(sip_dialog_image_confirm, with_byte(sheet, 12, 3), RECORD, with_byte(sheet, 12, 3)));
}

static void test_image_terminate(void)
{
    struct image sheet = sheet_image();
    test_image_state_change(sip_dialog_image_terminate, 15);
    CHECK(state_becomes(sip_dialog_image_terminate, sheet, RECORD, with_byte(sheet, 12, 3)));
    CHECK(state_becomes(sip_dialog_image_terminate, with_byte(sheet, 12, 1), RECORD, with_byte(sheet, 12, 3)));
    CHECK(state_becomes(sip_dialog_image_terminate, with_byte(sheet, 12, 3), RECORD, with_byte(sheet, 12, 3)));
}

static bool raised_to(struct image before, size_t room, uint32_t expected, struct image after)
{
    struct change c = lend_room(before, room, before.length);
    uint32_t next[2] = {KEPT, KEPT};
    uint8_t number = sip_dialog_image_next_local_cseq(RUST, c.bytes, c.room, &c.used, next);
    bool holds = next[0] == expected && next[1] == KEPT;
    return became(c, number, after) && holds;
}

static bool not_raised(struct image before, size_t room, size_t used, uint8_t expected)
{
    struct change c = lend_room(before, room, used);
    uint32_t next[2] = {KEPT, KEPT};
    uint8_t number = sip_dialog_image_next_local_cseq(RUST, c.bytes, c.room, &c.used, next);
    bool holds = next[0] == KEPT && next[1] == KEPT;
    return stayed(c, number, expected, used) && holds;
}

static void test_image_next_local_cseq(void)
{
    struct image full = full_image();
    struct image sheet = sheet_image();
    struct image first = with_more(sheet, 0x01FF, 40, 1);
    struct image carry = with_number(full, FULL_LOCAL, 0x00FFFFFF);
    struct image last = with_number(full, FULL_LOCAL, UINT32_MAX);
    CHECK(raised_to(full, FULL_LENGTH, 16909061, with_number(full, FULL_LOCAL, 16909061)));
    CHECK(raised_to(full, 600, 16909061, with_number(full, FULL_LOCAL, 16909061)));
    CHECK(raised_to(carry, FULL_LENGTH, 0x01000000, with_number(full, FULL_LOCAL, 0x01000000)));
    CHECK(raised_to(with_number(full, FULL_LOCAL, UINT32_MAX - 1), FULL_LENGTH, UINT32_MAX, last));
    CHECK(raised_to(last, FULL_LENGTH, UINT32_MAX, last));
    /* the first number makes the image larger: 18 where there is no room for it */
    CHECK(raised_to(sheet, 100, 1, first));
    CHECK(raised_to(sheet, RECORD + 4, 1, first));
    CHECK(not_raised(sheet, RECORD + 3, RECORD, 18));
    CHECK(not_raised(sheet, RECORD, RECORD, 18));
    CHECK(raised_to(first, RECORD + 4, 2, with_number(first, 40, 2)));
    /* the routes move on */
    CHECK(raised_to(with_routes(2), 53, 1, with_more(with_routes(2), 0x10F8, 30, 1)));
    CHECK(not_raised(with_routes(2), 52, 49, 18));
    CHECK(not_raised(sheet, RECORD, RECORD + 1, 3));
    CHECK(not_raised(sheet, RECORD + 4, RECORD + 1, 3));
    CHECK(not_raised(sheet, RECORD, RECORD - 1, 3));
    CHECK(not_raised(sheet, RECORD - 1, RECORD, 3));
    CHECK(not_raised(sheet, RECORD, SIZE_MAX, 3));
    CHECK(not_raised(with_byte(sheet, 12, 0), RECORD, RECORD, 3));
    CHECK(not_raised(with_length(sheet, 0), 0, 0, 3));
}

static bool interval_becomes(struct image before, size_t room, uint64_t seconds, struct image after)
{
    struct change c = lend_room(before, room, before.length);
    uint64_t least = KEPT;
    uint8_t number = sip_dialog_image_set_session_expires(RUST, c.bytes, c.room, &c.used, seconds, &least);
    return became(c, number, after) && least == KEPT;
}

/* 13 answers 90 s; every other number keeps what is lent for it. */
static bool interval_stays(struct image before, size_t room, size_t used, uint64_t seconds, uint8_t expected)
{
    struct change c = lend_room(before, room, used);
    uint64_t least = KEPT;
    uint8_t number = sip_dialog_image_set_session_expires(RUST, c.bytes, c.room, &c.used, seconds, &least);
    return stayed(c, number, expected, used) && least == (expected == 13 ? 90 : KEPT);
}

static void test_image_set_session_expires(void)
{
    struct image full = full_image();
    struct image sheet = sheet_image();
    CHECK(interval_becomes(full, FULL_LENGTH, 90, with_number(full, FULL_SECONDS, 90)));
    CHECK(interval_becomes(full, 600, 86400, with_number(full, FULL_SECONDS, 86400)));
    CHECK(interval_stays(full, FULL_LENGTH, FULL_LENGTH, 89, 13));
    CHECK(interval_stays(full, FULL_LENGTH, FULL_LENGTH, 0, 13));
    CHECK(interval_stays(full, FULL_LENGTH, FULL_LENGTH, 86401, 14));
    CHECK(interval_stays(full, FULL_LENGTH, FULL_LENGTH, (UINT64_C(1) << 32) + 90, 14));
    CHECK(interval_stays(full, FULL_LENGTH, FULL_LENGTH, UINT64_MAX, 14));
    /* the first interval makes the image larger */
    CHECK(interval_becomes(sheet, RECORD + 4, 1800, with_more(sheet, 0x057F, 44, 1800)));
    CHECK(interval_becomes(sheet, 100, 1800, with_more(sheet, 0x057F, 44, 1800)));
    CHECK(interval_stays(sheet, RECORD + 3, RECORD, 1800, 18));
    CHECK(interval_stays(sheet, RECORD, RECORD, 1800, 18));
    CHECK(interval_stays(sheet, RECORD, RECORD, 89, 13));
    CHECK(interval_stays(sheet, RECORD, RECORD, 86401, 14));
    CHECK(interval_becomes(with_routes(2), 53, 90, with_more(with_routes(2), 0x1478, 30, 90)));
    CHECK(interval_stays(with_routes(2), 52, 49, 90, 18));
    CHECK(interval_stays(sheet, RECORD, RECORD + 1, 89, 3));
    CHECK(interval_stays(sheet, RECORD + 4, RECORD + 1, 1800, 3));
    CHECK(interval_stays(sheet, RECORD, RECORD - 1, 86401, 3));
    CHECK(interval_stays(sheet, RECORD, SIZE_MAX, 1800, 3));
    CHECK(interval_stays(with_byte(sheet, 12, 16), RECORD + 4, RECORD, 1800, 3));
    CHECK(interval_stays(with_length(sheet, 0), 0, 0, 1800, 3));
}

/* ---- Requests and responses taken by one record image */

struct image with_text(struct image i, size_t at, const char *text)
{
    size_t old_end = at + 2 + 256 * (size_t)i.bytes[at] + i.bytes[at + 1];
    size_t length = strlen(text);
    memmove(i.bytes + at + 2 + length, i.bytes + old_end, i.length - old_end);
    memcpy(i.bytes + at + 2, text, length);
    i.bytes[at] = (uint8_t)(length / 256);
    i.bytes[at + 1] = (uint8_t)length;
    i.length = i.length - old_end + at + 2 + length;
    return i;
}

/* The bytes before a place, then these; the map is given whole. */
static struct image ending(struct image i, unsigned map, size_t at, struct image end)
{
    memcpy(i.bytes + at, end.bytes, end.length);
    i.length = at + end.length;
    i.bytes[0] = (uint8_t)(map >> 8);
    i.bytes[1] = (uint8_t)map;
    return i;
}

/* Another target: of a record that has it where the example has, of the one with every field, of the one with no other. */
static struct image sheet_to(struct image i, const char *target)
{
    return with_text(i, SHEET_TARGET, target);
}

static struct image full_to(struct image i, const char *target)
{
    return with_text(i, FULL_TARGET, target);
}

static struct image least_to(struct image i, const char *target)
{
    return with_text(i, LEAST_TARGET, target);
}

/* Another interval and refresher of the record with every field. */
static struct image with_interval(struct image i, uint32_t seconds, uint32_t refresher)
{
    return with_number(with_number(i, FULL_SECONDS, seconds), FULL_REFRESHER, refresher);
}

/* The example's record with another remote number. */
static struct image remote_is(uint32_t number)
{
    return with_number(sheet_image(), SHEET_REMOTE, number);
}

/* The record that has no other field, with a remote number. */
static struct image least_with(uint32_t number)
{
    return with_more(least_image(), 0x0178, LEAST_LENGTH, number);
}

static bool request_becomes(const char *method, const char *block, struct image before, size_t room, struct image after)
{
    struct run m = lend(method);
    struct run b = lend(block);
    struct change c = lend_room(before, room, before.length);
    uint8_t number = sip_dialog_image_update_from_request(RUST, m.bytes, m.length, b.bytes, b.length, c.bytes, c.room, &c.used);
    take_back(m);
    take_back(b);
    return became(c, number, after);
}

static bool request_stays(const char *method, const char *block, struct image before, size_t room, size_t used,
                          uint8_t expected)
{
    struct run m = lend(method);
    struct run b = lend(block);
    struct change c = lend_room(before, room, used);
    uint8_t number = sip_dialog_image_update_from_request(RUST, m.bytes, m.length, b.bytes, b.length, c.bytes, c.room, &c.used);
    take_back(m);
    take_back(b);
    return stayed(c, number, expected, used);
}

/* Refused in room enough. */
static bool request_is_refused(const char *method, const char *block, struct image before, uint8_t expected)
{
    return request_stays(method, block, before, before.length + 100, before.length, expected);
}

static void test_image_request_numbers(void)
{
    struct image sheet = sheet_image();
    struct image least = least_image();
    /* remote number 7 */
    CHECK(request_becomes("INVITE", "CSeq:8 INVITE\r\n", sheet, RECORD, remote_is(8)));
    CHECK(request_becomes("BYE", "CSeq:1007 BYE\r\n", sheet, 600, remote_is(1007)));
    CHECK(request_is_refused("BYE", "CSeq:1008 BYE\r\n", sheet, 12));
    CHECK(request_is_refused("BYE", "CSeq:2147483647 BYE\r\n", sheet, 12));
    CHECK(request_is_refused("BYE", "CSeq:7 BYE\r\n", sheet, 11));
    CHECK(request_is_refused("BYE", "CSeq:6 BYE\r\n", sheet, 11));
    CHECK(request_is_refused("BYE", "CSeq:1 BYE\r\n", sheet, 11));
    CHECK(request_is_refused("BYE", "CSeq:0 BYE\r\n", sheet, 9));
    CHECK(request_is_refused("BYE", "CSeq:2147483648 BYE\r\n", sheet, 10));
    CHECK(request_is_refused("BYE", "CSeq:4294967295 BYE\r\n", sheet, 10));
    /* remote number 0 */
    CHECK(request_becomes("INVITE", "CSeq:1 INVITE\r\n", least, 34, least_with(1)));
    CHECK(request_becomes("INVITE", "CSeq:1001 INVITE\r\n", least, 34, least_with(1001)));
    CHECK(request_becomes("INVITE", "CSeq:16909060 INVITE\r\n", least, 600,
                          ending(least, 0x0178, LEAST_LENGTH, IMAGE("\1\2\3\4"))));
    CHECK(request_becomes("INVITE", "CSeq:2147483647 INVITE\r\n", least, 600, least_with(2147483647)));
    CHECK(request_is_refused("INVITE", "CSeq:2147483648 INVITE\r\n", least, 10));
    CHECK(request_is_refused("INVITE", "CSeq:4294967295 INVITE\r\n", least, 10));
    CHECK(request_is_refused("INVITE", "CSeq:0 INVITE\r\n", least, 9));
    /* remote numbers near the largest one and above it */
    CHECK(request_becomes("BYE", "CSeq:2147483647 BYE\r\n", remote_is(2147483646), RECORD, remote_is(2147483647)));
    CHECK(request_becomes("BYE", "CSeq:2147483647 BYE\r\n", remote_is(2147482647), RECORD, remote_is(2147483647)));
    CHECK(request_is_refused("BYE", "CSeq:2147483647 BYE\r\n", remote_is(2147482646), 12));
    CHECK(request_is_refused("BYE", "CSeq:2147483647 BYE\r\n", remote_is(2147483647), 11));
    CHECK(request_is_refused("BYE", "CSeq:2147483648 BYE\r\n", remote_is(2147483647), 10));
    CHECK(request_is_refused("BYE", "CSeq:2147483648 BYE\r\n", remote_is(UINT32_MAX), 10));
    CHECK(request_is_refused("BYE", "CSeq:2147483647 BYE\r\n", remote_is(UINT32_MAX), 11));
    CHECK(request_is_refused("BYE", "CSeq:1 BYE\r\n", remote_is(UINT32_MAX), 11));
    CHECK(request_is_refused("BYE", "CSeq:0 BYE\r\n", remote_is(UINT32_MAX), 9));
}

/* The number alone changes; what stands after it moves where it is new. */
static void test_image_request_number_alone(void)
{
    struct image least = least_image();
    struct image full = full_image();
    CHECK(request_becomes("INFO", "CSeq:10 INFO\r\n", full, FULL_LENGTH, with_number(full, FULL_REMOTE, 10)));
    CHECK(request_becomes("INFO", "CSeq:2 INFO\r\n", with_more(least, 0x00F8, LEAST_LENGTH, 9), 38,
                          ending(least, 0x01F8, LEAST_LENGTH, IMAGE("\0\0\0\x09" "\0\0\0\2"))));
    CHECK(request_becomes("INFO", "CSeq:2 INFO\r\n", with_more(least, 0x0278, LEAST_LENGTH, 9), 38,
                          ending(least, 0x0378, LEAST_LENGTH, IMAGE("\0\0\0\2" "\0\0\0\x09"))));
    CHECK(request_becomes("INFO", "CSeq:2 INFO\r\n", with_routes(2), 53,
                          with_more(with_routes(2), 0x1178, LEAST_LENGTH, 2)));
}

static void test_image_request_cseq(void)
{
    struct image sheet = sheet_image();
    CHECK(request_becomes("BYE", "To:t\r\ncseq: \t+008\tx y\r\nCSeq:9 BYE\r\n", sheet, RECORD, remote_is(8)));
    CHECK(request_becomes("BYE", "CSeq:8\r\n", sheet, RECORD, remote_is(8)));
    CHECK(request_is_refused("BYE", "CSeq:+0 BYE\r\n", sheet, 9));
    CHECK(request_is_refused("BYE", "CSeq:-0 BYE\r\n", sheet, 4));
    CHECK(request_is_refused("BYE", "CSeq:-8 BYE\r\n", sheet, 4));
    CHECK(request_is_refused("BYE", "CSeq:++8 BYE\r\n", sheet, 4));
    CHECK(request_is_refused("BYE", "CSeq:8BYE\r\n", sheet, 4));
    CHECK(request_is_refused("BYE", "CSeq:BYE 8\r\n", sheet, 4));
    CHECK(request_is_refused("BYE", "CSeq:4294967296 BYE\r\n", sheet, 4));
    CHECK(request_is_refused("BYE", "CSeq:4294967304 BYE\r\n", sheet, 4));
    CHECK(request_is_refused("BYE", "CSeq:\r\nCSeq:8 BYE\r\n", sheet, 4));
    CHECK(request_is_refused("BYE", "RSeq:8\r\n", sheet, 4));
    CHECK(request_is_refused("BYE", "", sheet, 4));
    CHECK(request_is_refused("BYE", NULL, sheet, 4));
    CHECK(request_is_refused("ACK", "CSeq:x ACK\r\n", sheet, 4));
    CHECK(request_is_refused("ACK", NULL, sheet, 4));
}

static void test_image_request_ack(void)
{
    struct image sheet = sheet_image();
    struct image full = full_image();
    struct image acked = with_more(sheet, 0x037F, RECORD, 7);
    CHECK(request_becomes("ACK", "CSeq:7 ACK\r\n", sheet, 600, acked));
    CHECK(request_becomes("ACK", "CSeq:7 ACK\r\n", sheet, RECORD + 4, acked));
    CHECK(request_stays("ACK", "CSeq:7 ACK\r\n", sheet, RECORD + 3, RECORD, 18));
    CHECK(request_stays("ACK", "CSeq:7 ACK\r\n", sheet, RECORD, RECORD, 18));
    /* once more, and after another request */
    CHECK(request_becomes("ACK", "CSeq:7 ACK\r\n", acked, RECORD + 4, acked));
    CHECK(request_becomes("BYE", "CSeq:8 BYE\r\n", acked, RECORD + 4, with_number(acked, SHEET_REMOTE, 8)));
    CHECK(request_becomes("ACK", "CSeq:9 ACK\r\n", full, FULL_LENGTH, with_number(full, FULL_ACK, 9)));
    CHECK(request_becomes("ACK", "CSeq:+09 INVITE\r\n", full, 600, with_number(full, FULL_ACK, 9)));
    /* unequal, also far above; the last ACK doesn't count */
    CHECK(request_is_refused("ACK", "CSeq:6 ACK\r\n", sheet, 11));
    CHECK(request_is_refused("ACK", "CSeq:8 ACK\r\n", sheet, 11));
    CHECK(request_is_refused("ACK", "CSeq:1008 ACK\r\n", sheet, 11));
    CHECK(request_is_refused("ACK", "CSeq:2147483648 ACK\r\n", sheet, 11));
    CHECK(request_is_refused("ACK", "CSeq:4294967295 ACK\r\n", sheet, 11));
    CHECK(request_is_refused("ACK", "CSeq:8 ACK\r\n", full, 11));
    /* 0, and remote number 0 */
    CHECK(request_is_refused("ACK", "CSeq:0 ACK\r\n", sheet, 9));
    CHECK(request_is_refused("ACK", "CSeq:0 ACK\r\n", least_image(), 9));
    CHECK(request_is_refused("ACK", "CSeq:1 ACK\r\n", least_image(), 11));
    CHECK(request_is_refused("ACK", "CSeq:2147483648 ACK\r\n", least_image(), 11));
    /* no largest number */
    CHECK(request_becomes("ACK", "CSeq:2147483647 ACK\r\n", remote_is(2147483647), 600,
                          with_more(remote_is(2147483647), 0x037F, RECORD, 2147483647)));
    CHECK(request_becomes("ACK", "CSeq:2147483648 ACK\r\n", remote_is(2147483648), 600,
                          with_more(remote_is(2147483648), 0x037F, RECORD, 2147483648)));
    CHECK(request_becomes("ACK", "CSeq:4294967295 ACK\r\n", remote_is(UINT32_MAX), 600,
                          with_more(remote_is(UINT32_MAX), 0x037F, RECORD, UINT32_MAX)));
    /* the routes move on */
    CHECK(request_becomes("ACK", "CSeq:2 ACK\r\n", with_more(with_routes(2), 0x1178, LEAST_LENGTH, 2), 57,
                          with_more(with_more(with_routes(2), 0x1178, LEAST_LENGTH, 2), 0x1378, LEAST_LENGTH + 4, 2)));
    CHECK(request_stays("ACK", "CSeq:2 ACK\r\n", with_more(with_routes(2), 0x1178, LEAST_LENGTH, 2), 56, 53, 18));
}

/* Only `ACK` is an ACK; any other method, of any bytes, is a request like all others. */
static void test_image_request_methods(void)
{
    static const char *const others[] = {
        "ack", "Ack", "ACk", "aCK", "ACK ", " ACK", "ACKK", "AC", "BCK", "ADK", "ACJ", "A", "INVITE", "PRACK", "\xff", "\r\n",
        "", NULL,
    };
    struct image sheet = sheet_image();
    const uint8_t zero_ended[] = {'A', 'C', 'K', 0};
    const uint8_t block[] = {'C', 'S', 'e', 'q', ':', '7', '\r', '\n'};
    struct change c = lend_room(sheet, 600, RECORD);
    char buffer[LONGEST + 2];
    size_t i;
    uint8_t number;
    for (i = 0; i < sizeof others / sizeof others[0]; i++) {
        CHECK(request_becomes(others[i], "CSeq:8 ACK\r\n", sheet, RECORD, remote_is(8)));
        CHECK(request_is_refused(others[i], "CSeq:7 ACK\r\n", sheet, 11));
        CHECK(request_is_refused(others[i], "CSeq:1008 ACK\r\n", sheet, 12));
        CHECK(request_is_refused(others[i], "CSeq:2147483648 ACK\r\n", remote_is(2147483648), 10));
    }
    number = sip_dialog_image_update_from_request(RUST, zero_ended, sizeof zero_ended, block, sizeof block, c.bytes, c.room,
                                                  &c.used);
    CHECK(stayed(c, number, 11, RECORD));
    c = lend_room(sheet, 600, RECORD);
    number = sip_dialog_image_update_from_request(RUST, zero_ended, 3, block, sizeof block, c.bytes, c.room, &c.used);
    CHECK(became(c, number, with_more(sheet, 0x037F, RECORD, 7)));
    CHECK(request_becomes(filled(buffer, "ACK", 'K', "", LONGEST), "CSeq:8 ACK\r\n", sheet, RECORD, remote_is(8)));
    CHECK(request_is_refused(filled(buffer, "ACK", 'K', "", LONGEST + 1), "CSeq:8 ACK\r\n", sheet, 1));
}

static void test_image_request_target(void)
{
    struct image sheet = sheet_image();
    struct image full = full_image();
    struct image longer = sheet_to(remote_is(8), "sips:new@host.example:5061;x");
    /* longer: by hand; the secure bit isn't the target's */
    CHECK(request_becomes("BYE", "CSeq:8 BYE\r\nContact:\"N\" <sips:n@host>;q=1\r\n", sheet, 600,
                          IMAGE("\x01\x7F" "\0\2" "c1" "\0\1" "L" "\0\1" "R" "\2" "\0\x0B" "sips:n@host"
                                "\0\7" "sip:l@h" "\0\7" "sip:r@h" "\0\0\0\x08")));
    CHECK(request_becomes("BYE", "Contact:<sips:new@host.example:5061;x>\r\nCSeq:8\r\n", sheet, RECORD + 21, longer));
    CHECK(request_stays("BYE", "Contact:<sips:new@host.example:5061;x>\r\nCSeq:8\r\n", sheet, RECORD + 20, RECORD, 18));
    CHECK(request_stays("BYE", "Contact:<sips:new@host.example:5061;x>\r\nCSeq:8\r\n", sheet, RECORD, RECORD, 18));
    /* shorter: the two last bytes of the old image stay */
    CHECK(request_becomes("BYE", "CSeq:8\r\nContact:sip:h;x\r\n", sheet, RECORD, sheet_to(remote_is(8), "sip:h")));
    CHECK(request_becomes("BYE", "CSeq:8\r\nContact:sip:h;x\r\n", sheet, 600, sheet_to(remote_is(8), "sip:h")));
    /* of the same length, and the same */
    CHECK(request_becomes("BYE", "CSeq:8\r\ncontact:< sip:n@h\t>\r\n", sheet, RECORD, sheet_to(remote_is(8), "sip:n@h")));
    CHECK(request_becomes("BYE", "CSeq:8\r\nContact:sip:r@h\r\n", sheet, RECORD, remote_is(8)));
    /* what stands after it moves */
    CHECK(request_becomes("BYE", "CSeq:10\r\nContact:<sip:h>\r\n", full, FULL_LENGTH,
                          full_to(with_number(full, FULL_REMOTE, 10), "sip:h")));
    CHECK(request_becomes("BYE", "CSeq:10\r\nContact:<sip:tt@h>\r\n", full, FULL_LENGTH + 1,
                          full_to(with_number(full, FULL_REMOTE, 10), "sip:tt@h")));
    CHECK(request_stays("BYE", "CSeq:10\r\nContact:<sip:tt@h>\r\n", full, FULL_LENGTH, FULL_LENGTH, 18));
}

/* Unreadable or absent: kept. The first line alone is asked. */
static void test_image_request_no_target(void)
{
    struct image sheet = sheet_image();
    struct image acked = with_more(sheet, 0x037F, RECORD, 7);
    CHECK(request_becomes("BYE", "CSeq:8\r\nContact:*\r\n", sheet, RECORD, remote_is(8)));
    CHECK(request_becomes("BYE", "CSeq:8\r\nContact:\r\n", sheet, RECORD, remote_is(8)));
    CHECK(request_becomes("BYE", "CSeq:8\r\nContact:<sip:n@h\r\n", sheet, RECORD, remote_is(8)));
    CHECK(request_becomes("BYE", "CSeq:8\r\nContact:\"a<b\" <sip:n@h>\r\n", sheet, RECORD, remote_is(8)));
    CHECK(request_becomes("BYE", "CSeq:8\r\nContact:<tel:1>\r\nContact:<sip:n@h>\r\n", sheet, RECORD, remote_is(8)));
    CHECK(request_becomes("BYE", "CSeq:8\r\nContact:<sip:n@h>,<sip:m@h>\r\nContact:<sip:k@h>\r\n", sheet, RECORD,
                          sheet_to(remote_is(8), "sip:n@h")));
    CHECK(request_becomes("BYE", "CSeq:8\r\nm:<sip:n@h>\r\n", sheet, RECORD, sheet_to(remote_is(8), "sip:n@h")));
    CHECK(request_becomes("BYE", "CSeq:8\r\nm:*\r\nContact:<sip:n@h>\r\n", sheet, RECORD, remote_is(8)));
    /* an ACK brings one too; a refused request doesn't */
    CHECK(request_becomes("ACK", "CSeq:7\r\nContact:sip:n@hh\r\n", sheet, RECORD + 5, sheet_to(acked, "sip:n@hh")));
    CHECK(request_stays("ACK", "CSeq:7\r\nContact:sip:n@hh\r\n", sheet, RECORD + 4, RECORD, 18));
    CHECK(request_is_refused("ACK", "CSeq:8\r\nContact:sip:n@h\r\n", sheet, 11));
    CHECK(request_is_refused("BYE", "CSeq:7\r\nContact:sip:n@h\r\n", sheet, 11));
    CHECK(request_is_refused("BYE", "CSeq:0\r\nContact:sip:n@h\r\n", sheet, 9));
    CHECK(request_is_refused("BYE", "Contact:sip:n@h\r\n", sheet, 4));
}

/* Not measured: an estimate of 513, and a block that is all Contact. */
static void test_image_request_long_target(void)
{
    struct image sheet = sheet_image();
    char buffer[LONGEST + 2];
    char uri[LONGEST + 2];
    filled(buffer, "CSeq:8\r\nContact:<sip:", 'h', ">\r\n", 21 + 503 + 3);
    filled(uri, "sip:", 'h', "", 4 + 503);
    CHECK(request_becomes("BYE", buffer, sheet, RECORD + 500, sheet_to(remote_is(8), uri)));
    CHECK(request_stays("BYE", buffer, sheet, RECORD + 499, RECORD, 18));
    filled(buffer, "CSeq:8\r\nContact:sip:", 'h', "\r\n", LONGEST);
    filled(uri, "sip:", 'h', "", LONGEST - 18);
    CHECK(request_becomes("BYE", buffer, sheet, 9000, sheet_to(remote_is(8), uri)));
    CHECK(request_becomes("BYE", "CSeq:9\r\nContact:sip:r@h\r\n", sheet_to(remote_is(8), uri), 9000, remote_is(9)));
}

/* A target that shrinks while a number comes in: it fits where the sum does. */
static void test_image_request_room(void)
{
    struct image least = least_image();
    struct image wide = least_to(least, "sip:rrrr@hhh");
    struct image sheet = sheet_to(sheet_image(), "sip:rrrr@h");
    CHECK(wide.length == 35 && sheet.length == 47);
    /* a remote number: 4 more, and 3, 4, 5 or 7 less */
    CHECK(request_becomes("BYE", "CSeq:2\r\nContact:sip:rrr@hh\r\n", wide, 37, least_to(least_with(2), "sip:rrr@hh")));
    CHECK(request_stays("BYE", "CSeq:2\r\nContact:sip:rrr@hh\r\n", wide, 36, 35, 18));
    CHECK(request_becomes("BYE", "CSeq:2\r\nContact:sip:rr@hh\r\n", wide, 36, least_to(least_with(2), "sip:rr@hh")));
    CHECK(request_stays("BYE", "CSeq:2\r\nContact:sip:rr@hh\r\n", wide, 35, 35, 18));
    CHECK(request_becomes("BYE", "CSeq:2\r\nContact:sip:rr@h\r\n", wide, 35, least_to(least_with(2), "sip:rr@h")));
    CHECK(request_becomes("BYE", "CSeq:2\r\nContact:sip:r@h\r\n", wide, 35, least_with(2)));
    CHECK(request_becomes("BYE", "CSeq:2\r\nContact:sip:h\r\n", wide, 35, least_to(least_with(2), "sip:h")));
    CHECK(request_becomes("BYE", "CSeq:2\r\nContact:sip:h\r\n", wide, 600, least_to(least_with(2), "sip:h")));
    /* a last ACK: 4 more, and 3 or 5 less */
    CHECK(request_becomes("ACK", "CSeq:7\r\nContact:sip:r@h\r\n", sheet, 48, with_more(sheet_image(), 0x037F, RECORD, 7)));
    CHECK(request_stays("ACK", "CSeq:7\r\nContact:sip:r@h\r\n", sheet, 47, 47, 18));
    CHECK(request_becomes("ACK", "CSeq:7\r\nContact:sip:h\r\n", sheet, 47,
                          sheet_to(with_more(sheet_image(), 0x037F, RECORD, 7), "sip:h")));
    /* a number alone */
    CHECK(request_becomes("BYE", "CSeq:2\r\n", least, 34, least_with(2)));
    CHECK(request_stays("BYE", "CSeq:2\r\n", least, 33, 30, 18));
    CHECK(request_stays("BYE", "CSeq:2\r\n", least, 30, 30, 18));
}

/* What a request doesn't look at: state and side, identifiers, routes, the interval. */
static void test_image_request_rest(void)
{
    struct image sheet = sheet_image();
    struct image full = full_image();
    char buffer[LONGEST + 2];
    uint8_t state;
    for (state = 1; state <= 7; state++) {
        if (state != 4) {
            CHECK(request_becomes("BYE", "CSeq:8\r\n", with_byte(sheet, SHEET_STATE, state), RECORD,
                                  with_byte(remote_is(8), SHEET_STATE, state)));
            CHECK(request_becomes("ACK", "CSeq:7\r\n", with_byte(sheet, SHEET_STATE, state), RECORD + 4,
                                  with_byte(with_more(sheet, 0x037F, RECORD, 7), SHEET_STATE, state)));
        }
    }
    /* Terminated: its refusals and its target too */
    CHECK(request_is_refused("BYE", "CSeq:7\r\n", with_byte(sheet, SHEET_STATE, 3), 11));
    CHECK(request_becomes("BYE", "CSeq:8\r\nContact:sip:h\r\n", with_byte(sheet, SHEET_STATE, 3), RECORD,
                          sheet_to(with_byte(remote_is(8), SHEET_STATE, 3), "sip:h")));
    CHECK(request_becomes("BYE", "Call-ID:c2\r\nFrom:;tag=x\r\nTo:;tag=y\r\nCSeq:8\r\n", sheet, RECORD, remote_is(8)));
    CHECK(request_becomes("BYE", "CSeq:10\r\nRecord-Route:<sip:a>\r\nSession-Expires:7;refresher=uac\r\n", full, FULL_LENGTH,
                          with_number(full, FULL_REMOTE, 10)));
    CHECK(request_becomes("BYE", routes(buffer, ROUTES + 1, "CSeq:8\r\n"), sheet, RECORD, remote_is(8)));
    CHECK(request_becomes("BYE", long_block(buffer, "CSeq:8\r\n", LONGEST), sheet, RECORD, remote_is(8)));
}

static void test_image_request_order(void)
{
    struct image sheet = sheet_image();
    struct image bad = with_byte(sheet, SHEET_STATE, 0);
    char text[LONGEST + 2];
    char buffer[LONGEST + 2];
    /* 1 of the method, 1 of the block, 2, 3, 4: each with all that come after it */
    filled(text, "", 'A', "", LONGEST + 1);
    CHECK(request_stays(text, "CSeq", bad, RECORD, RECORD, 1));
    CHECK(request_stays("BYE", text, bad, RECORD, RECORD, 1));
    CHECK(request_stays(text, text, bad, RECORD, RECORD + 1, 1));
    CHECK(request_stays("BYE", long_block(buffer, "CSeq:8\r\n", LONGEST + 1), sheet, RECORD, RECORD, 1));
    CHECK(request_stays("BYE", filled(buffer, "", 'A', "", LONGEST), bad, RECORD, RECORD, 2));
    CHECK(request_stays("BYE", "CSeq:7", bad, RECORD, RECORD, 2));
    CHECK(request_stays("BYE", "CSeq:8\r\n\r\n", sheet, RECORD, RECORD, 2));
    CHECK(request_stays("BYE", "CSeq:8\r\n", sheet, RECORD - 1, RECORD, 3));
    CHECK(request_stays("BYE", "", bad, RECORD, RECORD, 3));
    CHECK(request_stays("BYE", "CSeq:0\r\n", bad, RECORD, RECORD, 3));
    CHECK(request_stays("BYE", "CSeq:8\r\n", sheet, RECORD, RECORD + 1, 3));
    CHECK(request_stays("BYE", "CSeq:8\r\n", sheet, RECORD, SIZE_MAX, 3));
    CHECK(request_stays("BYE", "CSeq:8\r\n", sheet, RECORD, RECORD - 1, 3));
    CHECK(request_stays("BYE", "CSeq:8\r\n", sheet, RECORD, 0, 3));
    CHECK(request_stays("BYE", "CSeq:8\r\n", sheet, RECORD + 1, RECORD + 1, 3));
    CHECK(request_stays("ACK", "CSeq:7\r\n", sheet, RECORD + 1, RECORD + 1, 3));
    CHECK(request_stays("BYE", "CSeq:8\r\n", with_length(sheet, 0), 0, 0, 3));
    CHECK(request_stays("BYE", "CSeq:8\r\n", with_length(sheet, 0), 0, 1, 3));
    CHECK(request_stays("BYE", NULL, with_length(sheet, 0), 0, 0, 3));
    /* no room, and a number that is refused */
    CHECK(request_stays("BYE", "Contact:sip:rr@h\r\n", sheet, RECORD, RECORD, 4));
    CHECK(request_stays("BYE", "CSeq:0\r\nContact:sip:rr@h\r\n", sheet, RECORD, RECORD, 9));
    CHECK(request_stays("BYE", "CSeq:2147483648\r\nContact:sip:rr@h\r\n", sheet, RECORD, RECORD, 10));
    CHECK(request_stays("BYE", "CSeq:7\r\nContact:sip:rr@h\r\n", sheet, RECORD, RECORD, 11));
    CHECK(request_stays("BYE", "CSeq:1008\r\nContact:sip:rr@h\r\n", sheet, RECORD, RECORD, 12));
    CHECK(request_stays("BYE", "CSeq:8\r\nContact:sip:rr@h\r\n", sheet, RECORD, RECORD, 18));
    CHECK(request_stays("ACK", "CSeq:0\r\n", sheet, RECORD, RECORD, 9));
    CHECK(request_stays("ACK", "CSeq:8\r\n", sheet, RECORD, RECORD, 11));
    CHECK(request_stays("ACK", "CSeq:7\r\n", sheet, RECORD, RECORD, 18));
}

static bool response_becomes(uint16_t status, const char *block, struct image before, size_t room, struct image after)
{
    struct run b = lend(block);
    struct change c = lend_room(before, room, before.length);
    uint8_t number = sip_dialog_image_update_from_response(RUST, status, b.bytes, b.length, c.bytes, c.room, &c.used);
    take_back(b);
    return became(c, number, after);
}

static bool response_stays(uint16_t status, const char *block, struct image before, size_t room, size_t used, uint8_t expected)
{
    struct run b = lend(block);
    struct change c = lend_room(before, room, used);
    uint8_t number = sip_dialog_image_update_from_response(RUST, status, b.bytes, b.length, c.bytes, c.room, &c.used);
    take_back(b);
    return stayed(c, number, expected, used);
}

/* The record with every field, Confirmed; and with these routes, Confirmed. */
static struct image full_confirmed(void)
{
    return with_byte(full_image(), FULL_STATE, 14);
}

static struct image full_ending(struct image routes)
{
    return ending(full_confirmed(), 0x1FFF, FULL_ROUTES, routes);
}

/* A block with so many routes "sip:10", "sip:11", .., five to a line, then these lines. */
static const char *numbered_routes(char *buffer, size_t count, const char *lines)
{
    size_t length = 0;
    size_t k;
    for (k = 0; k < count; k++) {
        const char *before = k % 5 == 0 ? "Record-Route:" : ", ";
        const char *after = k % 5 == 4 || k + 1 == count ? "\r\n" : "";
        length += (size_t)sprintf(buffer + length, "%s<sip:%u>%s", before, 10 + (unsigned)k, after);
    }
    strcpy(buffer + length, lines);
    return buffer;
}

/* The same routes as an image has them, 8 bytes each, after their count. */
static struct image numbered_end(size_t count, bool reversed)
{
    struct image i = {0, {0}};
    size_t k;
    i.bytes[0] = (uint8_t)count;
    i.length = 1;
    for (k = 0; k < count; k++) {
        unsigned host = 10 + (unsigned)(reversed ? count - 1 - k : k);
        i.bytes[i.length + 1] = 6;
        sprintf((char *)i.bytes + i.length + 2, "sip:%u", host);
        i.length += 8;
    }
    return i;
}

static void test_image_response_state(void)
{
    static const uint16_t others[] = {0, 1, 100, 180, 199, 300, 302, 404, 486, 503, 603, 699, 2000, UINT16_MAX};
    struct image full = full_image();
    struct image sheet = sheet_image();
    struct image early = with_byte(sheet, SHEET_STATE, 1);
    struct image terminated = with_byte(sheet, SHEET_STATE, 3);
    size_t i;
    for (i = 0; i < sizeof others / sizeof others[0]; i++) {
        CHECK(response_becomes(others[i], "", full, FULL_LENGTH, full));
        CHECK(response_becomes(others[i], NULL, early, RECORD, early));
        CHECK(response_becomes(others[i], "", sheet, RECORD, sheet));
        CHECK(response_becomes(others[i], "", terminated, RECORD, terminated));
    }
    CHECK(response_becomes(200, "", full, FULL_LENGTH, full_confirmed()));
    CHECK(response_becomes(200, NULL, full, 600, full_confirmed()));
    CHECK(response_becomes(202, "CSeq:x\r\n", full, FULL_LENGTH + 1, full_confirmed()));
    CHECK(response_becomes(299, "Call-ID:other\r\nFrom:;tag=x\r\nTo:;tag=y\r\n", full, FULL_LENGTH, full_confirmed()));
    CHECK(response_becomes(200, "", early, RECORD, sheet));
    CHECK(response_becomes(200, "", sheet, RECORD, sheet));
    CHECK(response_becomes(200, "", terminated, RECORD, terminated));
    CHECK(response_becomes(200, "", with_byte(sheet, SHEET_STATE, 5), RECORD, with_byte(sheet, SHEET_STATE, 6)));
    CHECK(response_becomes(200, "", with_byte(sheet, SHEET_STATE, 7), RECORD, with_byte(sheet, SHEET_STATE, 7)));
    CHECK(response_becomes(200, "", least_image(), LEAST_LENGTH, with_byte(least_image(), LEAST_STATE, 2)));
}

static void test_image_response_routes(void)
{
    const char *three = "Record-Route:<sip:a@h>, <x>, sip:b@h;lr\r\nTo:t\r\nRECORD-ROUTE:\"C\" < sip:c@hh;lr >\r\n";
    struct image full = full_image();
    struct image least = least_image();
    struct image reversed = IMAGE("\3" "\0\x0B" "sip:c@hh;lr" "\0\7" "sip:b@h" "\0\7" "sip:a@h");
    CHECK(full_ending(reversed).length == 97);
    /* reversed over all lines, for both sides; more bytes than before, or fewer, or as many */
    CHECK(response_becomes(200, three, full, 600, full_ending(reversed)));
    CHECK(response_becomes(299, three, full, 97, full_ending(reversed)));
    CHECK(response_stays(200, three, full, 96, FULL_LENGTH, 18));
    CHECK(response_stays(200, three, full, FULL_LENGTH, FULL_LENGTH, 18));
    CHECK(response_becomes(200, three, with_byte(full, FULL_STATE, 9), 97, with_byte(full_ending(reversed), FULL_STATE, 10)));
    CHECK(response_becomes(200, "Record-Route:<sip:a>\r\n", full, FULL_LENGTH, full_ending(IMAGE("\1" "\0\5" "sip:a"))));
    CHECK(response_becomes(200, "Record-Route:<sip:a>\r\n", full, 600, full_ending(IMAGE("\1" "\0\5" "sip:a"))));
    CHECK(response_becomes(200, "Record-Route:sip:a@h,sip:b@hhhhh\r\n", full, FULL_LENGTH,
                           full_ending(IMAGE("\2" "\0\x0B" "sip:b@hhhhh" "\0\7" "sip:a@h"))));
    /* the first routes of a record */
    CHECK(response_becomes(200, three, least, 62, with_byte(ending(least, 0x1078, LEAST_LENGTH, reversed), LEAST_STATE, 2)));
    CHECK(response_stays(200, three, least, 61, LEAST_LENGTH, 18));
    /* none, or none that is readable: the old ones stay */
    CHECK(response_becomes(200, "Route:<sip:a>\r\n", full, FULL_LENGTH, full_confirmed()));
    CHECK(response_becomes(200, "Record-Route:\r\n", full, FULL_LENGTH, full_confirmed()));
    CHECK(response_becomes(200, "Record-Route:, ,\r\nRecord-Route:<x>,y\r\n", full, FULL_LENGTH, full_confirmed()));
    CHECK(response_becomes(200, "Record-Route:\"a<b\" <sip:p@h>, <sip:q@h>\r\n", full, FULL_LENGTH, full_confirmed()));
    CHECK(response_becomes(200, "Record-Route:x\r\n", least, LEAST_LENGTH, with_byte(least, LEAST_STATE, 2)));
}

/* 50 are taken; a part more keeps the old ones, and the rest of the response counts. */
static void test_image_response_most_routes(void)
{
    struct image full = full_image();
    struct image least = least_image();
    char buffer[LONGEST + 2];
    char line[1024];
    char uri[1024];
    CHECK(response_becomes(200, numbered_routes(buffer, ROUTES, ""), full, 466, full_ending(numbered_end(ROUTES, true))));
    CHECK(response_stays(200, buffer, full, 465, FULL_LENGTH, 18));
    CHECK(response_becomes(200, numbered_routes(buffer, ROUTES, "Record-Route:, ,\r\n"), full, 600,
                           full_ending(numbered_end(ROUTES, true))));
    CHECK(response_becomes(200, numbered_routes(buffer, ROUTES - 1, "Record-Route:x,y,<sip:59>\r\n"), full, 600,
                           full_ending(numbered_end(ROUTES, true))));
    CHECK(response_becomes(200, numbered_routes(buffer, ROUTES + 1, ""), full, FULL_LENGTH, full_confirmed()));
    CHECK(response_becomes(200, numbered_routes(buffer, ROUTES, "Record-Route:,x\r\n"), full, 600, full_confirmed()));
    CHECK(response_becomes(200, numbered_routes(buffer, ROUTES + 1, ""), least, 600, with_byte(least, LEAST_STATE, 2)));
    numbered_routes(buffer, ROUTES + 1, "Contact:sip:h\r\nSession-Expires:7;refresher=uac\r\n");
    CHECK(response_becomes(200, buffer, full, FULL_LENGTH, full_to(with_interval(full_confirmed(), 7, 1), "sip:h")));
    /* an estimate of 512 is taken, 513 keeps the old ones */
    filled(line, "Record-Route:<sip:", 'h', ">\r\n", 18 + 502 + 3);
    filled(uri, "sip:", 'h', "", 4 + 502);
    CHECK(response_becomes(200, line, least, 600,
                           with_text(with_byte(ending(least, 0x1078, LEAST_LENGTH, IMAGE("\1" "\0\0")), LEAST_STATE, 2),
                                     LEAST_LENGTH + 1, uri)));
    filled(line, "Record-Route:<sip:", 'h', ">\r\n", 18 + 503 + 3);
    CHECK(response_becomes(200, line, full, FULL_LENGTH, full_confirmed()));
    CHECK(response_becomes(200, strcat(line, "Record-Route:<sip:a>\r\n"), full, FULL_LENGTH, full_confirmed()));
}

/* Routes of a response that doesn't confirm are not looked at. */
static void test_image_response_no_routes(void)
{
    static const uint16_t others[] = {0, 100, 183, 199, 300, 486, UINT16_MAX};
    const char *block = "Record-Route:<sip:a>\r\n";
    struct image full = full_image();
    struct image confirmed = full_confirmed();
    struct image terminated = with_byte(full, FULL_STATE, 15);
    struct image sheet = sheet_image();
    char buffer[LONGEST + 2];
    size_t i;
    for (i = 0; i < sizeof others / sizeof others[0]; i++) {
        CHECK(response_becomes(others[i], block, full, FULL_LENGTH, full));
        CHECK(response_becomes(others[i], block, confirmed, FULL_LENGTH, confirmed));
        CHECK(response_becomes(others[i], block, least_image(), LEAST_LENGTH, least_image()));
    }
    CHECK(response_becomes(200, block, confirmed, FULL_LENGTH, confirmed));
    CHECK(response_becomes(200, block, terminated, FULL_LENGTH, terminated));
    CHECK(response_becomes(200, block, sheet, RECORD, sheet));
    CHECK(response_becomes(200, routes(buffer, ROUTES + 1, ""), sheet, RECORD, sheet));
    /* the target and the interval of such a response are taken */
    CHECK(response_becomes(200, "Record-Route:<sip:a>\r\nContact:sip:h\r\nSession-Expires:7;refresher=uac\r\n", confirmed, 600,
                           full_to(with_interval(confirmed, 7, 1), "sip:h")));
    CHECK(response_becomes(200, "Record-Route:<sip:a>\r\nContact:sip:h\r\nSession-Expires:7;refresher=uac\r\n", terminated, 600,
                           full_to(with_interval(terminated, 7, 1), "sip:h")));
    CHECK(response_becomes(183, "Record-Route:<sip:a>\r\nContact:sip:h\r\nSession-Expires:7;refresher=uac\r\n", full, 600,
                           full_to(with_interval(full, 7, 1), "sip:h")));
}

static void test_image_response_interval(void)
{
    struct image full = full_image();
    struct image sheet = sheet_image();
    struct image alone = with_more(sheet, 0x057F, RECORD, 1800);
    struct image both = ending(sheet, 0x0D7F, RECORD, IMAGE("\0\0\7\x08" "\0\0\0\1"));
    struct image refresher = with_more(sheet, 0x097F, RECORD, 2);
    struct image dropped = ending(full, 0x17FF, FULL_REFRESHER, image_of(full.bytes + FULL_ROUTES, FULL_LENGTH - FULL_ROUTES));
    /* the first interval of a record */
    CHECK(response_becomes(200, "Session-Expires:1800\r\n", sheet, RECORD + 4, alone));
    CHECK(response_becomes(200, "Session-Expires:1800\r\n", sheet, 600, alone));
    CHECK(response_stays(200, "Session-Expires:1800\r\n", sheet, RECORD + 3, RECORD, 18));
    CHECK(response_becomes(200, "session-expires: 1800 ; Refresher=UAC\r\n", sheet, RECORD + 8, both));
    CHECK(response_stays(200, "Session-Expires:1800;refresher=uac\r\n", sheet, RECORD + 7, RECORD, 18));
    CHECK(response_stays(200, "Session-Expires:1800;refresher=uac\r\n", sheet, RECORD, RECORD, 18));
    CHECK(response_becomes(200, "Session-Expires:1800;refresher=uas\r\n", sheet, 600, with_number(both, RECORD + 4, 2)));
    /* on any status, from the first line alone */
    CHECK(response_becomes(0, "Session-Expires:1800\r\nSession-Expires:90\r\n", sheet, 600, alone));
    CHECK(response_becomes(422, "Session-Expires:1800\r\n", sheet, 600, alone));
    CHECK(response_becomes(UINT16_MAX, "Session-Expires:1800\r\n", sheet, 600, alone));
    CHECK(response_becomes(180, "Session-Expires:90;refresher=uac\r\n", full, FULL_LENGTH, with_interval(full, 90, 1)));
    /* without a refresher the old one goes */
    CHECK(response_becomes(180, "Session-Expires:7\r\n", full, FULL_LENGTH, with_number(dropped, FULL_SECONDS, 7)));
    CHECK(response_becomes(180, "Session-Expires:7;refresher=x\r\n", full, 600, with_number(dropped, FULL_SECONDS, 7)));
    CHECK(response_becomes(180, "Session-Expires:1800\r\n", both, RECORD + 8, alone));
    CHECK(response_becomes(180, "Session-Expires:1800\r\n", refresher, RECORD + 4, alone));
    CHECK(response_becomes(180, "Session-Expires:1800;refresher=uac\r\n", refresher, RECORD + 8, both));
    CHECK(response_stays(180, "Session-Expires:1800;refresher=uac\r\n", refresher, RECORD + 7, RECORD + 4, 18));
    CHECK(response_becomes(180, "Session-Expires:1800;refresher=uac\r\n", alone, RECORD + 8, both));
    CHECK(response_stays(180, "Session-Expires:1800;refresher=uac\r\n", alone, RECORD + 7, RECORD + 4, 18));
}

/* Unmeasured. */
static void test_image_response_any_interval(void)
{
    struct image full = full_image();
    struct image sheet = sheet_image();
    struct image alone = with_more(sheet, 0x057F, RECORD, 1800);
    struct image refresher = with_more(sheet, 0x097F, RECORD, 2);
    CHECK(response_becomes(200, "Session-Expires:0\r\n", sheet, 600, with_number(alone, RECORD, 0)));
    CHECK(response_becomes(200, "Session-Expires:89\r\n", sheet, 600, with_number(alone, RECORD, 89)));
    CHECK(response_becomes(200, "x:89\r\nSession-Expires:90\r\n", sheet, 600, with_number(alone, RECORD, 89)));
    CHECK(response_becomes(200, "Session-Expires:86400\r\n", sheet, 600, with_number(alone, RECORD, 86400)));
    CHECK(response_becomes(200, "Session-Expires:86401\r\n", sheet, 600, with_number(alone, RECORD, 86401)));
    CHECK(response_becomes(200, "Session-Expires:4294967295\r\n", sheet, 600, with_number(alone, RECORD, UINT32_MAX)));
    /* unreadable or absent: both stay */
    CHECK(response_becomes(180, "Session-Expires:4294967296;refresher=uac\r\n", full, FULL_LENGTH, full));
    CHECK(response_becomes(180, "Session-Expires:+90;refresher=uac\r\n", full, FULL_LENGTH, full));
    CHECK(response_becomes(180, "Session-Expires:;refresher=uac\r\n", full, FULL_LENGTH, full));
    CHECK(response_becomes(180, "Session-Expires:\r\nSession-Expires:90\r\n", full, FULL_LENGTH, full));
    CHECK(response_becomes(180, "x:\r\nSession-Expires:90\r\n", full, FULL_LENGTH, full));
    CHECK(response_becomes(180, "Min-SE:90\r\nv:90\r\n", full, FULL_LENGTH, full));
    CHECK(response_becomes(200, "Session-Expires:x\r\n", refresher, RECORD + 4, refresher));
}

static void test_image_response_target(void)
{
    static const uint16_t all[] = {0, 100, 199, 200, 299, 300, 404, 503, 699, UINT16_MAX};
    struct image full = full_image();
    struct image sheet = sheet_image();
    char buffer[LONGEST + 2];
    char uri[LONGEST + 2];
    size_t i;
    for (i = 0; i < sizeof all / sizeof all[0]; i++) {
        CHECK(response_becomes(all[i], "Contact:sip:n@h\r\n", sheet, RECORD, sheet_to(sheet, "sip:n@h")));
    }
    /* longer: by hand; the secure bit isn't the target's */
    CHECK(response_becomes(200, "To:t\r\ncontact:\"N\" < sips:n@host >;q=1\r\n", sheet, 600,
                           IMAGE("\x01\x7F" "\0\2" "c1" "\0\1" "L" "\0\1" "R" "\2" "\0\x0B" "sips:n@host"
                                 "\0\7" "sip:l@h" "\0\7" "sip:r@h" "\0\0\0\7")));
    CHECK(response_becomes(404, "Contact:<sip:tt@h>\r\n", full, FULL_LENGTH + 1, full_to(full, "sip:tt@h")));
    CHECK(response_stays(404, "Contact:<sip:tt@h>\r\n", full, FULL_LENGTH, FULL_LENGTH, 18));
    CHECK(response_stays(200, "Contact:<sip:tt@h>\r\n", full, FULL_LENGTH, FULL_LENGTH, 18));
    CHECK(response_becomes(200, "Contact:<sip:tt@h>\r\n", full, FULL_LENGTH + 1, full_to(full_confirmed(), "sip:tt@h")));
    /* shorter */
    CHECK(response_becomes(404, "Contact:<sip:h>\r\n", full, FULL_LENGTH, full_to(full, "sip:h")));
    CHECK(response_becomes(404, "Contact:<sip:h>\r\n", full, 600, full_to(full, "sip:h")));
    /* unreadable or absent: kept */
    CHECK(response_becomes(200, "Contact:*\r\nContact:<sip:n@h>\r\n", sheet, RECORD, sheet));
    CHECK(response_becomes(200, "Contact:<sip:n@h\r\n", sheet, RECORD, sheet));
    CHECK(response_becomes(200, "Contact:\r\n", sheet, RECORD, sheet));
    CHECK(response_becomes(200, "Contact:<sip:n@h>,<sip:m@h>\r\nContact:sip:k@h\r\n", sheet, RECORD,
                           sheet_to(sheet, "sip:n@h")));
    /* not measured */
    filled(buffer, "Contact:<sip:", 'h', ">\r\n", 13 + 503 + 3);
    filled(uri, "sip:", 'h', "", 4 + 503);
    CHECK(response_becomes(200, buffer, sheet, RECORD + 500, sheet_to(sheet, uri)));
    CHECK(response_stays(200, buffer, sheet, RECORD + 499, RECORD, 18));
    filled(buffer, "Contact:sip:", 'h', "\r\n", LONGEST);
    filled(uri, "sip:", 'h', "", LONGEST - 10);
    CHECK(response_becomes(200, buffer, sheet, 9000, sheet_to(sheet, uri)));
}

/* Several parts at once. */
static void test_image_response_parts(void)
{
    struct image full = full_image();
    struct image wide = full_to(full, "sip:target@host.example");
    struct image least = least_image();
    struct image all = IMAGE("\x1C\x78" "\2" "\0\x08" "sip:nn@h" "\0\7" "sip:l@h" "\0\7" "sip:r@h" "\0\0\0\x5A" "\0\0\0\1"
                             "\2" "\0\5" "sip:b" "\0\5" "sip:a");
    const char *grow = "Contact:<sip:nn@h>\r\nSession-Expires:90;refresher=uac\r\nRecord-Route:<sip:a>,<sip:b>\r\n";
    const char *shrink = "Contact:<sip:h>\r\nSession-Expires:7\r\nRecord-Route:<sip:a>\r\n";
    struct image small = IMAGE("\x17\xFF" "\0\4" "id@x" "\0\1" "a" "\0\2" "bc" "\x0E" "\0\5" "sip:h" "\0\x08" "sips:l@h"
                               "\0\x08" "sip:r@hh" "\1\2\3\4" "\0\0\0\x09" "\0\0\0\x08" "\0\0\0\7" "\1" "\0\5" "sip:a");
    /* every part grows */
    CHECK(all.length == LEAST_LENGTH + 24);
    CHECK(response_becomes(200, grow, least, 600, all));
    CHECK(response_becomes(200, grow, least, LEAST_LENGTH + 24, all));
    CHECK(response_stays(200, grow, least, LEAST_LENGTH + 23, LEAST_LENGTH, 18));
    CHECK(response_stays(200, grow, least, LEAST_LENGTH, LEAST_LENGTH, 18));
    /* every part shrinks: all bytes past the new length are those of the old image, then KEPT */
    CHECK(small.length == FULL_LENGTH - 2 - 4 - 15);
    CHECK(response_becomes(200, shrink, full, FULL_LENGTH, small));
    CHECK(response_becomes(200, shrink, full, 600, small));
    CHECK(response_becomes(200, shrink, wide, wide.length, small));
    CHECK(response_becomes(200, shrink, wide, 600, small));
    /* the target grows by what the routes give back, and by a byte more */
    CHECK(response_becomes(200, "Contact:<sip:tttttttttttttttt@h>\r\nRecord-Route:<sip:a>\r\n", full, FULL_LENGTH,
                           full_to(full_ending(IMAGE("\1" "\0\5" "sip:a")), "sip:tttttttttttttttt@h")));
    CHECK(response_stays(200, "Contact:<sip:ttttttttttttttttt@h>\r\nRecord-Route:<sip:a>\r\n", full, FULL_LENGTH,
                         FULL_LENGTH, 18));
    /* the routes grow by what the target and the refresher give back, and by a byte more */
    CHECK(response_becomes(200, "Contact:<sip:h>\r\nSession-Expires:7\r\nRecord-Route:<sip:abcdefghijklmnopqrstuv>\r\n", full,
                           FULL_LENGTH, with_text(small, small.length - 7, "sip:abcdefghijklmnopqrstuv")));
    CHECK(response_stays(200, "Contact:<sip:h>\r\nSession-Expires:7\r\nRecord-Route:<sip:abcdefghijklmnopqrstuvw>\r\n", full,
                         FULL_LENGTH, FULL_LENGTH, 18));
}

static void test_image_response_order(void)
{
    struct image sheet = sheet_image();
    struct image bad = with_byte(sheet, SHEET_STATE, 0);
    char buffer[LONGEST + 2];
    CHECK(response_becomes(200, long_block(buffer, "Contact:sip:h\r\n", LONGEST), sheet, RECORD, sheet_to(sheet, "sip:h")));
    CHECK(response_stays(200, long_block(buffer, "Contact:sip:h\r\n", LONGEST + 1), sheet, RECORD, RECORD, 1));
    CHECK(response_stays(200, filled(buffer, "", 'A', "", LONGEST + 1), bad, RECORD, RECORD + 1, 1));
    CHECK(response_stays(200, filled(buffer, "", 'A', "", LONGEST), bad, RECORD, RECORD + 1, 2));
    CHECK(response_stays(200, "Contact:sip:h", sheet, RECORD, RECORD, 2));
    CHECK(response_stays(404, "Contact:sip:h\r\n\r\n", bad, RECORD, RECORD, 2));
    CHECK(response_stays(200, "Contact:sip:rr@h\r\n", bad, RECORD, RECORD, 3));
    CHECK(response_stays(404, "", bad, RECORD, RECORD, 3));
    CHECK(response_stays(200, "", sheet, RECORD - 1, RECORD, 3));
    CHECK(response_stays(200, "", sheet, RECORD, RECORD + 1, 3));
    CHECK(response_stays(200, "", sheet, RECORD, SIZE_MAX, 3));
    CHECK(response_stays(200, "", sheet, RECORD, RECORD - 1, 3));
    CHECK(response_stays(200, "", sheet, RECORD, 0, 3));
    CHECK(response_stays(200, "", sheet, RECORD + 1, RECORD + 1, 3));
    CHECK(response_stays(200, "Contact:sip:h\r\n", sheet, 600, RECORD + 1, 3));
    CHECK(response_stays(200, NULL, with_length(sheet, 0), 0, 0, 3));
    CHECK(response_stays(200, "", with_length(sheet, 0), 0, 1, 3));
}

/* ---- New record images */

typedef uint8_t creation_function(const uint8_t *, size_t, const uint8_t *, size_t, uint16_t, const uint8_t *, size_t,
                                  const uint8_t *, size_t, const uint8_t *, size_t, uint8_t *, size_t, size_t *, uint64_t *);

/* What a creation is given. */
struct creation {
    creation_function *call;
    const char *method;
    const char *request;
    uint16_t status;
    const char *response;
    const char *local_uri;
    const char *remote_uri;
};

#define CSEQ "CSeq:5 INVITE\r\n"
#define IDENTIFIER "Call-ID:c1\r\nFrom:<sip:f@h>;tag=F\r\nTo:<sip:t@h>;tag=T\r\n"

static struct creation creation_by(creation_function *call)
{
    struct creation c = {NULL, "INVITE", CSEQ, 200, IDENTIFIER, "sip:l@h", "sip:r@h"};
    c.call = call;
    return c;
}

/* What is made of it, by hand: 44 bytes, with the fields where the example's record has them, the target too. */
static struct image plain_image(creation_function *call)
{
    if (call == sip_dialog_new_uac) {
        return IMAGE("\0\xFF" "\0\2" "c1" "\0\1" "F" "\0\1" "T" "\6" "\0\7" "sip:r@h" "\0\7" "sip:l@h" "\0\7" "sip:r@h"
                     "\0\0\0\5");
    }
    return IMAGE("\x01\x7F" "\0\2" "c1" "\0\1" "T" "\0\1" "F" "\2" "\0\7" "sip:r@h" "\0\7" "sip:l@h" "\0\7" "sip:r@h"
                 "\0\0\0\5");
}

enum {
    NEW_CALL_ID = 2,
    NEW_LOCAL_TAG = 6,
    NEW_REMOTE_TAG = 9,
    NEW_STATE = 12,
    NEW_LOCAL_URI = 22,
    NEW_REMOTE_URI = 31,
    NEW_CSEQ = 40,
    NEW_LENGTH = 44
};

/* More bits in the map, and bytes after the number. */
static struct image and_then(struct image i, unsigned bits, struct image end)
{
    return ending(i, (256U * i.bytes[0] + i.bytes[1]) | bits, i.length, end);
}

/* Lines of the message whose Contact and Record-Route count, and of the other one. */
static struct creation peer_lines(struct creation c, char *buffer, const char *lines)
{
    bool uac = c.call == sip_dialog_new_uac;
    strcpy(buffer, uac ? c.response : c.request);
    strcat(buffer, lines);
    if (uac) {
        c.response = buffer;
    } else {
        c.request = buffer;
    }
    return c;
}

static struct creation other_lines(struct creation c, char *buffer, const char *lines)
{
    bool uac = c.call == sip_dialog_new_uac;
    strcpy(buffer, uac ? c.request : c.response);
    strcat(buffer, lines);
    if (uac) {
        c.request = buffer;
    } else {
        c.response = buffer;
    }
    return c;
}

static struct creation with_request(struct creation c, const char *request)
{
    c.request = request;
    return c;
}

static struct creation with_response(struct creation c, const char *response)
{
    c.response = response;
    return c;
}

static struct creation with_method(struct creation c, const char *method)
{
    c.method = method;
    return c;
}

static struct creation with_status(struct creation c, uint16_t status)
{
    c.status = status;
    return c;
}

static struct creation with_uris(struct creation c, const char *local_uri, const char *remote_uri)
{
    c.local_uri = local_uri;
    c.remote_uri = remote_uri;
    return c;
}

/* Calls with so much room; `least` is followed by a number that must stay KEPT. */
static struct written create(struct creation c, size_t room, uint64_t *least)
{
    struct run m = lend(c.method);
    struct run q = lend(c.request);
    struct run p = lend(c.response);
    struct run l = lend(c.local_uri);
    struct run r = lend(c.remote_uri);
    struct written w = fresh_output(room);
    uint64_t answered[2] = {KEPT, KEPT};
    w.number = c.call(m.bytes, m.length, q.bytes, q.length, c.status, p.bytes, p.length, l.bytes, l.length, r.bytes, r.length,
                      w.out, w.room, &w.length, answered);
    take_back(m);
    take_back(q);
    take_back(p);
    take_back(l);
    take_back(r);
    CHECK(answered[1] == KEPT);
    *least = answered[0];
    return w;
}

/* Whether just this image is made in so much room, and the bytes past it are kept. */
static bool made_in(struct creation c, size_t room, struct image expected)
{
    uint64_t least;
    struct written w = create(c, room, &least);
    bool fits = w.number == 0 && least == KEPT && w.length == expected.length && w.length <= w.room;
    bool holds = fits && memcmp(w.out, expected.bytes, expected.length) == 0 && kept_from(w, expected.length);
    free(w.out);
    return holds;
}

/* Whether it is refused in so much room, and all that is lent is kept but 13's minimum. */
static bool refused_in(struct creation c, size_t room, uint8_t number)
{
    uint64_t least;
    struct written w = create(c, room, &least);
    return wrote_nothing(w, number) && least == (number == 13 ? 90 : KEPT);
}

/* The same in room enough, in no more than is used, and in a byte less: 18. */
static bool makes(struct creation c, struct image expected)
{
    bool fits = made_in(c, expected.length + 300, expected) && made_in(c, expected.length, expected);
    return fits && made_in(c, expected.length + 1, expected) && refused_in(c, expected.length - 1, 18);
}

/* Refused, in room enough and without any. */
static bool is_not_made(struct creation c, uint8_t number)
{
    return refused_in(c, LARGEST, number) && refused_in(c, 0, number);
}

/* State, side and secure bit. */
static void test_creation_state(creation_function *call)
{
    struct creation c = creation_by(call);
    struct image plain = plain_image(call);
    uint8_t side = call == sip_dialog_new_uac ? 4 : 0;
    unsigned status;
    CHECK(plain.length == NEW_LENGTH);
    CHECK(makes(c, plain));
    CHECK(refused_in(c, 0, 18));
    CHECK(refused_in(c, 1, 18));
    for (status = 0; status <= UINT16_MAX; status += status < 700 ? 1 : 409) {
        if (status >= 100 && status < 300) {
            CHECK(made_in(with_status(c, (uint16_t)status), 100, with_byte(plain, NEW_STATE, (status < 200 ? 1 : 2) + side)));
        } else {
            CHECK(refused_in(with_status(c, (uint16_t)status), 100, 5));
        }
    }
    CHECK(is_not_made(with_status(c, UINT16_MAX), 5));
    CHECK(makes(with_status(c, 100), with_byte(plain, NEW_STATE, 1 + side)));
    /* secure by the local URI, by the remote one, by both; not by the target */
    CHECK(makes(with_uris(c, "sips:l@h", "sip:r@h"),
                with_byte(with_text(plain, NEW_LOCAL_URI, "sips:l@h"), NEW_STATE, 10 + side)));
    CHECK(makes(with_uris(c, "SiPs:l@h", "sip:r@h"),
                with_byte(with_text(plain, NEW_LOCAL_URI, "SiPs:l@h"), NEW_STATE, 10 + side)));
    CHECK(makes(with_uris(c, "sip:l@h", "SIPS:r@h"),
                sheet_to(with_byte(with_text(plain, NEW_REMOTE_URI, "SIPS:r@h"), NEW_STATE, 10 + side), "SIPS:r@h")));
    CHECK(makes(with_status(with_uris(c, "sips:l", "sips:r"), 180),
                with_byte(sheet_to(with_text(with_text(plain, NEW_REMOTE_URI, "sips:r"), NEW_LOCAL_URI, "sips:l"), "sips:r"),
                          NEW_STATE, 9 + side)));
}

static void test_creation_identifier(creation_function *call)
{
    struct creation c = creation_by(call);
    struct image plain = plain_image(call);
    bool uac = call == sip_dialog_new_uac;
    size_t from_tag = uac ? NEW_LOCAL_TAG : NEW_REMOTE_TAG;
    size_t to_tag = uac ? NEW_REMOTE_TAG : NEW_LOCAL_TAG;
    const char *mixed = "to: <sip:t@h>;x;TAG=U\r\nCALL-ID: \tid 1@x\t\r\nCall-ID:c2\r\nFROM:\"a;tag=y;b\" <sip:f@h>;tag=G\r\n";
    /* for uac From's tag is the local one, for uas To's */
    CHECK(makes(with_response(c, mixed),
                with_text(with_text(with_text(plain, from_tag, "G"), to_tag, "U"), NEW_CALL_ID, "id 1@x")));
    CHECK(makes(with_response(c, "Call-ID:c1\r\nFrom:;tag= F\r\nTo:tag=T\r\n"), with_text(plain, from_tag, " F")));
    CHECK(makes(with_response(c, "Call-ID:c1\r\nFrom:;tag=F\r\nTo:<sip:t@h;tag=two>;tag=\"T;U\"\r\n"),
                with_text(plain, to_tag, "\"T;U\"")));
    /* empty parts are taken, and have no field */
    CHECK(makes(with_response(c, "Call-ID:\r\nFrom:;tag=\r\nTo:;tag=\r\n"),
                uac ? IMAGE("\0\xF8" "\6" "\0\7" "sip:r@h" "\0\7" "sip:l@h" "\0\7" "sip:r@h" "\0\0\0\5")
                    : IMAGE("\1\x78" "\2" "\0\7" "sip:r@h" "\0\7" "sip:l@h" "\0\7" "sip:r@h" "\0\0\0\5")));
    CHECK(makes(with_response(c, "Call-ID:c1\r\nFrom:;tag=\r\nTo:;tag=T\r\n"),
                uac ? IMAGE("\0\xFD" "\0\2" "c1" "\0\1" "T" "\6" "\0\7" "sip:r@h" "\0\7" "sip:l@h" "\0\7" "sip:r@h"
                            "\0\0\0\5")
                    : IMAGE("\1\x7B" "\0\2" "c1" "\0\1" "T" "\2" "\0\7" "sip:r@h" "\0\7" "sip:l@h" "\0\7" "sip:r@h"
                            "\0\0\0\5")));
    CHECK(makes(with_response(c, "Call-ID:c1\r\nFrom:;tag=F\r\nTo:;tag=\r\n"),
                uac ? IMAGE("\0\xFB" "\0\2" "c1" "\0\1" "F" "\6" "\0\7" "sip:r@h" "\0\7" "sip:l@h" "\0\7" "sip:r@h"
                            "\0\0\0\5")
                    : IMAGE("\1\x7D" "\0\2" "c1" "\0\1" "F" "\2" "\0\7" "sip:r@h" "\0\7" "sip:l@h" "\0\7" "sip:r@h"
                            "\0\0\0\5")));
}

/* Absent parts aren't taken; the request's don't count. Long ones are: not held to 256 and 128 bytes. */
static void test_creation_no_identifier(creation_function *call)
{
    struct creation c = creation_by(call);
    struct image plain = plain_image(call);
    size_t to_tag = call == sip_dialog_new_uac ? NEW_REMOTE_TAG : NEW_LOCAL_TAG;
    char buffer[LONGEST + 2];
    char text[LONGEST + 2];
    CHECK(is_not_made(with_response(c, "From:;tag=F\r\nTo:;tag=T\r\n"), 4));
    CHECK(is_not_made(with_response(c, "Call-ID:c1\r\nTo:;tag=T\r\n"), 4));
    CHECK(is_not_made(with_response(c, "Call-ID:c1\r\nFrom:;tag=F\r\n"), 4));
    CHECK(is_not_made(with_response(c, "Call-ID:c1\r\nFrom:<sip:f@h>\r\nTo:;tag=T\r\n"), 4));
    CHECK(is_not_made(with_response(c, "Call-ID:c1\r\nFrom:;tag=F\r\nTo:<sip:t@h>;tag =T\r\n"), 4));
    CHECK(is_not_made(with_response(c, "Call-ID:c1\r\nFrom:;tag=F\r\nTo:<sip:t@h;tag=T>\r\n"), 4));
    CHECK(is_not_made(with_response(c, "Call-ID:c1\r\nFrom:\"a;tag=F\" <sip:f@h>\r\nTo:;tag=T\r\n"), 4));
    CHECK(is_not_made(with_response(c, ""), 4));
    CHECK(is_not_made(with_response(c, NULL), 4));
    CHECK(is_not_made(with_response(with_request(c, CSEQ IDENTIFIER), ""), 4));
    CHECK(makes(with_request(c, "Call-ID:x\r\nFrom:;tag=x\r\nTo:x\r\n" CSEQ), plain));
    filled(buffer, "From:;tag=F\r\nTo:;tag=T\r\nCall-ID:", 'c', "\r\n", 32 + 5000 + 2);
    CHECK(makes(with_response(c, buffer), with_text(plain, NEW_CALL_ID, filled(text, "", 'c', "", 5000))));
    filled(buffer, "Call-ID:c1\r\nFrom:;tag=F\r\nTo:;tag=", 'x', "\r\n", 33 + 300 + 2);
    CHECK(makes(with_response(c, buffer), with_text(plain, to_tag, filled(text, "", 'x', "", 300))));
}

static void test_creation_target(creation_function *call)
{
    struct creation c = creation_by(call);
    struct image plain = plain_image(call);
    char buffer[LONGEST + 2];
    char line[LONGEST + 2];
    CHECK(makes(peer_lines(c, buffer, "Contact:<sip:nn@h;x>;y\r\n"), sheet_to(plain, "sip:nn@h;x")));
    CHECK(makes(peer_lines(c, buffer, "CONTACT: \"N\" < sip:h >\r\nContact:sip:k\r\n"), sheet_to(plain, "sip:h")));
    CHECK(makes(peer_lines(c, buffer, "Contact:sips:n;x\r\n"), sheet_to(plain, "sips:n")));
    /* unreadable or absent: the remote URI, whatever the second line is */
    CHECK(makes(with_uris(peer_lines(c, buffer, "Contact:*\r\nContact:<sip:n@h>\r\n"), "sip:l@h", "sip:rr@h:1;p?x"),
                sheet_to(with_text(plain, NEW_REMOTE_URI, "sip:rr@h:1;p?x"), "sip:rr@h:1;p?x")));
    CHECK(makes(peer_lines(c, buffer, "Contact:\r\n"), plain));
    CHECK(makes(peer_lines(c, buffer, "Contact:<sip:n@h\r\n"), plain));
    CHECK(makes(with_uris(c, "sip:ll@h", "sip:r@h"), with_text(plain, NEW_LOCAL_URI, "sip:ll@h")));
    /* the other message's isn't asked */
    CHECK(makes(other_lines(c, buffer, "Contact:<sip:n@h>\r\n"), plain));
    CHECK(makes(other_lines(peer_lines(c, buffer, "Contact:<sip:n>\r\n"), line, "Contact:<sip:k>\r\n"),
                sheet_to(plain, "sip:n")));
}

/* An estimate of 512, and one more. */
static void test_creation_estimates(creation_function *call)
{
    struct creation c = creation_by(call);
    struct image plain = plain_image(call);
    char buffer[LONGEST + 2];
    char uri[LONGEST + 2];
    char line[LONGEST + 2];
    filled(uri, "sip:", 'h', "", 4 + 502);
    filled(line, "Contact:<sip:", 'h', ">\r\n", 13 + 502 + 3);
    CHECK(makes(peer_lines(c, buffer, line), sheet_to(plain, uri)));
    CHECK(makes(with_uris(c, uri, "sip:r@h"), with_text(plain, NEW_LOCAL_URI, uri)));
    CHECK(makes(with_uris(c, "sip:l@h", uri), sheet_to(with_text(plain, NEW_REMOTE_URI, uri), uri)));
    filled(uri, "sip:", 'u', "@h:5060", 4 + 495 + 7);
    CHECK(makes(with_uris(c, uri, "sip:r@h"), with_text(plain, NEW_LOCAL_URI, uri)));
    filled(uri, "sip:", 'u', "@h:5060", 4 + 496 + 7);
    CHECK(is_not_made(with_uris(c, uri, "sip:r@h"), 7));
    filled(uri, "sip:", 'h', "", 4 + 503);
    filled(line, "Contact:<sip:", 'h', ">\r\n", 13 + 503 + 3);
    CHECK(is_not_made(peer_lines(c, buffer, line), 7));
    CHECK(makes(other_lines(c, buffer, line), plain));
    CHECK(is_not_made(with_uris(c, uri, "sip:r@h"), 7));
    CHECK(is_not_made(with_uris(c, "sip:l@h", uri), 7));
    CHECK(is_not_made(with_uris(peer_lines(c, buffer, "Contact:sip:h\r\n"), "sip:l@h", uri), 7));
    /* parameters don't count: URIs as long as a text may be */
    filled(uri, "sip:h;", 'p', "", LONGEST);
    CHECK(makes(with_uris(c, uri, "sip:r@h"), with_text(plain, NEW_LOCAL_URI, uri)));
    CHECK(makes(with_uris(peer_lines(c, buffer, "Contact:sip:h\r\n"), "sip:l@h", uri),
                sheet_to(with_text(plain, NEW_REMOTE_URI, uri), "sip:h")));
    filled(uri, "sip:h;", 'p', "", LONGEST + 1);
    CHECK(is_not_made(with_uris(c, uri, "sip:r@h"), 1));
    CHECK(is_not_made(with_uris(c, "sip:l@h", uri), 1));
}

static void test_creation_routes(creation_function *call)
{
    struct creation c = creation_by(call);
    struct image plain = plain_image(call);
    bool uac = call == sip_dialog_new_uac;
    const char *three = "Record-Route:<sip:a@h>, <x>, sip:b@h;lr\r\nY:x\r\nRECORD-ROUTE:\"C\" < sip:c@hh;lr >\r\n";
    struct image in_order = IMAGE("\3" "\0\7" "sip:a@h" "\0\7" "sip:b@h" "\0\x0B" "sip:c@hh;lr");
    struct image reversed = IMAGE("\3" "\0\x0B" "sip:c@hh;lr" "\0\7" "sip:b@h" "\0\7" "sip:a@h");
    char buffer[LONGEST + 2];
    char lines[LONGEST + 2];
    char line[LONGEST + 2];
    char uri[LONGEST + 2];
    CHECK(makes(peer_lines(c, buffer, three), and_then(plain, 0x1000, uac ? reversed : in_order)));
    CHECK(makes(peer_lines(c, buffer, "Record-Route:<sip:a>\r\n"), and_then(plain, 0x1000, IMAGE("\1" "\0\5" "sip:a"))));
    CHECK(makes(peer_lines(c, buffer, "Record-Route:<x>\r\nRecord-Route:, ,\r\nRoute:<sip:a>\r\n"), plain));
    CHECK(makes(peer_lines(c, buffer, "Record-Route:\"a<b\" <sip:p@h>, <sip:q@h>\r\n"), plain));
    CHECK(makes(other_lines(c, buffer, three), plain));
    /* 50, and a part more */
    CHECK(makes(peer_lines(c, buffer, numbered_routes(lines, ROUTES, "")), and_then(plain, 0x1000, numbered_end(ROUTES, uac))));
    CHECK(makes(peer_lines(c, buffer, numbered_routes(lines, ROUTES, "Record-Route:, ,\r\n")),
                and_then(plain, 0x1000, numbered_end(ROUTES, uac))));
    CHECK(makes(peer_lines(c, buffer, numbered_routes(lines, ROUTES - 1, "Record-Route:x,y,<sip:59>\r\n")),
                and_then(plain, 0x1000, numbered_end(ROUTES, uac))));
    CHECK(is_not_made(peer_lines(c, buffer, numbered_routes(lines, ROUTES + 1, "")), 8));
    CHECK(is_not_made(peer_lines(c, buffer, numbered_routes(lines, ROUTES, "Record-Route:,x\r\n")), 8));
    CHECK(makes(other_lines(c, buffer, numbered_routes(lines, ROUTES + 1, "")), plain));
    /* an estimate of 512, and one more: 7 where it is met before 50 routes are held, else 8 */
    filled(line, "Record-Route:<sip:", 'h', ">\r\n", 18 + 502 + 3);
    filled(uri, "sip:", 'h', "", 4 + 502);
    CHECK(makes(peer_lines(c, buffer, line), with_text(and_then(plain, 0x1000, IMAGE("\1" "\0\0")), NEW_LENGTH + 1, uri)));
    CHECK(is_not_made(peer_lines(c, buffer, numbered_routes(lines, ROUTES, line)), 8));
    filled(line, "Record-Route:<sip:", 'h', ">\r\n", 18 + 503 + 3);
    CHECK(is_not_made(peer_lines(c, buffer, line), 7));
    CHECK(is_not_made(peer_lines(c, buffer, numbered_routes(lines, ROUTES - 1, line)), 7));
    CHECK(is_not_made(peer_lines(c, buffer, numbered_routes(lines, ROUTES, line)), 8));
    strcpy(lines, line);
    numbered_routes(lines + strlen(lines), ROUTES + 1, "");
    CHECK(is_not_made(peer_lines(c, buffer, lines), 7));
    CHECK(makes(other_lines(c, buffer, line), plain));
}

static void test_creation_number(creation_function *call)
{
    struct creation c = creation_by(call);
    struct image plain = plain_image(call);
    CHECK(makes(with_request(c, "CSeq:1 INVITE\r\n"), with_number(plain, NEW_CSEQ, 1)));
    CHECK(makes(with_request(c, "To:t\r\ncseq: \t+016909060\r\nCSeq:5 INVITE\r\n"), with_number(plain, NEW_CSEQ, 16909060)));
    CHECK(makes(with_request(c, "CSeq:2147483647 INVITE\r\n"), with_number(plain, NEW_CSEQ, 2147483647)));
    CHECK(is_not_made(with_request(c, "CSeq:2147483648 INVITE\r\n"), 10));
    CHECK(is_not_made(with_request(c, "CSeq:4294967295 INVITE\r\n"), 10));
    CHECK(is_not_made(with_request(c, "CSeq:4294967296 INVITE\r\n"), 4));
    CHECK(is_not_made(with_request(c, "CSeq:0 INVITE\r\n"), 9));
    CHECK(is_not_made(with_request(c, "CSeq:+0\r\n"), 9));
    CHECK(is_not_made(with_request(c, "CSeq:-0 INVITE\r\n"), 4));
    CHECK(is_not_made(with_request(c, "CSeq:\r\nCSeq:5 INVITE\r\n"), 4));
    CHECK(is_not_made(with_request(c, ""), 4));
    CHECK(is_not_made(with_request(c, NULL), 4));
    /* the response's doesn't count */
    CHECK(is_not_made(with_response(with_request(c, ""), IDENTIFIER CSEQ), 4));
    CHECK(makes(with_response(c, IDENTIFIER "CSeq:0 BYE\r\n"), plain));
}

static void test_creation_interval(creation_function *call)
{
    struct creation c = creation_by(call);
    struct image plain = plain_image(call);
    CHECK(makes(with_response(c, IDENTIFIER "Session-Expires:90\r\n"), and_then(plain, 0x0400, IMAGE("\0\0\0\x5A"))));
    CHECK(makes(with_response(c, IDENTIFIER "session-expires: 1800;x;Refresher=UAC\r\nSession-Expires:7\r\n"),
                and_then(plain, 0x0C00, IMAGE("\0\0\7\x08" "\0\0\0\1"))));
    CHECK(makes(with_response(c, IDENTIFIER "Session-Expires:86400;refresher=uas\r\n"),
                and_then(plain, 0x0C00, IMAGE("\0\1\x51\x80" "\0\0\0\2"))));
    CHECK(makes(with_response(c, IDENTIFIER "Session-Expires:86400;refresher=x\r\n"),
                and_then(plain, 0x0400, IMAGE("\0\1\x51\x80"))));
    CHECK(is_not_made(with_response(c, IDENTIFIER "Session-Expires:89\r\n"), 13));
    CHECK(is_not_made(with_response(c, IDENTIFIER "Session-Expires:0;refresher=uac\r\n"), 13));
    CHECK(is_not_made(with_response(c, IDENTIFIER "Session-Expires:86401\r\n"), 14));
    CHECK(is_not_made(with_response(c, IDENTIFIER "Session-Expires:4294967295;refresher=uas\r\n"), 14));
    /* unreadable: none, and no refresher */
    CHECK(makes(with_response(c, IDENTIFIER "Session-Expires:4294967296;refresher=uac\r\n"), plain));
    CHECK(makes(with_response(c, IDENTIFIER "Session-Expires:+90\r\nSession-Expires:90\r\n"), plain));
    CHECK(makes(with_response(c, IDENTIFIER "Session-Expires:\r\n"), plain));
    /* the request's doesn't count */
    CHECK(makes(with_request(c, CSEQ "Session-Expires:1800\r\n"), plain));
    CHECK(makes(with_request(c, CSEQ "Session-Expires:89\r\n"), plain));
}

/* Every field at once. */
static void test_creation_whole(creation_function *call)
{
    struct creation c = creation_by(call);
    char request[LONGEST + 2];
    char response[LONGEST + 2];
    c.request = CSEQ "Contact:<sip:q@h>\r\nRecord-Route:<sip:a>,<sip:b>\r\nSession-Expires:91;refresher=uas\r\n";
    c.response = IDENTIFIER "Contact:<sip:p@hh>\r\nRecord-Route:<sip:c>\r\nRecord-Route:<sip:dd>\r\n"
                            "Session-Expires:1800;refresher=uac\r\nCSeq:6 INVITE\r\n";
    c.status = 183;
    c.local_uri = "sips:l";
    CHECK(makes(c, call == sip_dialog_new_uac
                       ? IMAGE("\x1C\xFF" "\0\2" "c1" "\0\1" "F" "\0\1" "T" "\x0D" "\0\x08" "sip:p@hh" "\0\6" "sips:l"
                               "\0\7" "sip:r@h" "\0\0\0\5" "\0\0\7\x08" "\0\0\0\1" "\2" "\0\6" "sip:dd" "\0\5" "sip:c")
                       : IMAGE("\x1D\x7F" "\0\2" "c1" "\0\1" "T" "\0\1" "F" "\x09" "\0\7" "sip:q@h" "\0\6" "sips:l"
                               "\0\7" "sip:r@h" "\0\0\0\5" "\0\0\7\x08" "\0\0\0\1" "\2" "\0\5" "sip:a" "\0\5" "sip:b")));
    /* blocks as long as they may be, and a byte longer */
    c = creation_by(call);
    c.request = long_block(request, CSEQ, LONGEST);
    c.response = long_block(response, IDENTIFIER, LONGEST);
    CHECK(makes(c, plain_image(call)));
    c.request = long_block(request, CSEQ, LONGEST + 1);
    CHECK(is_not_made(c, 1));
    c = creation_by(call);
    c.response = long_block(response, IDENTIFIER, LONGEST + 1);
    CHECK(is_not_made(c, 1));
}

/* Any method is taken, but for its length. */
static void test_creation_method(creation_function *call)
{
    static const char *const methods[] = {"ACK", "BYE", "invite", "SUBSCRIBE", "x y", "\xff", "", NULL};
    struct creation c = creation_by(call);
    struct image plain = plain_image(call);
    char buffer[LONGEST + 2];
    size_t i;
    for (i = 0; i < sizeof methods / sizeof methods[0]; i++) {
        CHECK(makes(with_method(c, methods[i]), plain));
        CHECK(is_not_made(with_request(with_method(c, methods[i]), "CSeq:0\r\n"), 9));
    }
    CHECK(makes(with_method(c, filled(buffer, "", 'A', "", LONGEST)), plain));
    CHECK(is_not_made(with_method(c, filled(buffer, "", 'A', "", LONGEST + 1)), 1));
}

static void test_creation_uris(creation_function *call)
{
    static const char *const unreadable[] = {
        "", NULL, "sip:", "tel:1", "<sip:l@h>", " sip:l@h", "sip:l@h ", "sip:@h", "sip:h:65536", "sip:\x7f@h", "l@h",
    };
    struct creation c = creation_by(call);
    size_t i;
    for (i = 0; i < sizeof unreadable / sizeof unreadable[0]; i++) {
        CHECK(is_not_made(with_uris(c, unreadable[i], "sip:r@h"), 6));
        CHECK(is_not_made(with_uris(c, "sip:l@h", unreadable[i]), 6));
        CHECK(is_not_made(with_uris(c, unreadable[i], unreadable[i]), 6));
    }
}

/* Every cause at once, and then without the first one, again and again. */
static void test_creation_order(creation_function *call)
{
    struct creation c = creation_by(call);
    char text[LONGEST + 2];
    char uri[LONGEST + 2];
    filled(text, "", ' ', "", LONGEST + 1);
    filled(uri, "sip:", 'h', "", 4 + 503);
    c.status = 300;
    c.method = c.request = c.response = c.local_uri = c.remote_uri = text;
    CHECK(is_not_made(c, 1));
    c.method = "INVITE";
    CHECK(is_not_made(c, 1));
    c.request = "CSeq";
    CHECK(is_not_made(c, 1));
    c.response = "Call-ID";
    CHECK(is_not_made(c, 1));
    c.local_uri = "l@h";
    CHECK(is_not_made(c, 1));
    c.remote_uri = "r@h";
    CHECK(is_not_made(c, 2));
    c.request = "";
    CHECK(is_not_made(c, 2));
    c.request = "CSeq";
    c.response = "";
    CHECK(is_not_made(c, 2));
    c.request = "";
    CHECK(is_not_made(c, 6));
    c.local_uri = uri;
    CHECK(is_not_made(c, 6));
    c.local_uri = "l@h";
    c.remote_uri = uri;
    CHECK(is_not_made(c, 6));
    c.local_uri = uri;
    CHECK(is_not_made(c, 4));
}

/* With an identifier: the message that counts has a Contact over 512 and 51 routes, the response 89 s, the request no CSeq. */
static void test_creation_order_of_uris(creation_function *call)
{
    struct creation c = creation_by(call);
    bool uac = call == sip_dialog_new_uac;
    char uri[LONGEST + 2];
    char request[LONGEST + 2];
    char response[LONGEST + 2];
    char line[1024];
    filled(uri, "sip:", 'h', "", 4 + 503);
    filled(line, "Contact:<sip:", 'h', ">\r\n", 13 + 503 + 3);
    c.status = 300;
    c.local_uri = c.remote_uri = uri;
    numbered_routes(request, uac ? 0 : ROUTES + 1, uac ? "" : line);
    strcpy(response, IDENTIFIER "Session-Expires:89\r\n");
    numbered_routes(response + strlen(response), uac ? ROUTES + 1 : 0, uac ? line : "");
    c.request = request;
    c.response = response;
    CHECK(is_not_made(c, 5));
    c.status = 99;
    CHECK(is_not_made(c, 5));
    c.status = 200;
    CHECK(is_not_made(c, 7));
    c.local_uri = "sip:l@h";
    CHECK(is_not_made(c, 7));
    c.remote_uri = "sip:r@h";
    CHECK(is_not_made(c, 7));
    /* the Contact readable and short */
    numbered_routes(request, uac ? 0 : ROUTES + 1, "Contact:sip:h\r\n");
    strcpy(response, IDENTIFIER "Session-Expires:89\r\n");
    numbered_routes(response + strlen(response), uac ? ROUTES + 1 : 0, "Contact:sip:h\r\n");
    CHECK(is_not_made(c, 8));
    /* a route over 512 first: 7 before 4 */
    filled(line, "Record-Route:<sip:", 'h', ">\r\n", 18 + 503 + 3);
    strcpy(request, uac ? "" : line);
    strcpy(response, IDENTIFIER "Session-Expires:89\r\n");
    strcat(response, uac ? line : "");
    CHECK(is_not_made(c, 7));
}

/* With short URIs and no routes: CSeq absent, 0, too large; then the interval; then no room. */
static void test_creation_order_of_numbers(creation_function *call)
{
    struct creation c = creation_by(call);
    c.request = "";
    c.response = IDENTIFIER "Session-Expires:89\r\n";
    CHECK(is_not_made(c, 4));
    c.request = "CSeq:0\r\n";
    CHECK(is_not_made(c, 9));
    c.request = "CSeq:2147483648\r\n";
    CHECK(is_not_made(c, 10));
    c.response = IDENTIFIER "Session-Expires:86401\r\n";
    CHECK(is_not_made(c, 10));
    c.request = CSEQ;
    CHECK(is_not_made(c, 14));
    c.response = IDENTIFIER "Session-Expires:89\r\n";
    CHECK(is_not_made(c, 13));
    c.response = IDENTIFIER "Session-Expires:90\r\n";
    CHECK(refused_in(c, NEW_LENGTH + 3, 18));
    CHECK(made_in(c, NEW_LENGTH + 4, and_then(plain_image(call), 0x0400, IMAGE("\0\0\0\x5A"))));
}

/* Pairs of causes, by name. */
static void test_creation_pairs(creation_function *call)
{
    struct creation c = creation_by(call);
    char uri[1024];
    filled(uri, "sip:", 'h', "", 4 + 503);
    /* status 300 and no tag */
    CHECK(is_not_made(with_status(with_response(c, "Call-ID:c1\r\nFrom:;tag=F\r\nTo:t\r\n"), 300), 4));
    /* the response malformed and the local URI unreadable; the request malformed and the remote one */
    CHECK(is_not_made(with_uris(with_response(c, "Call-ID:c1"), "l@h", "sip:r@h"), 2));
    CHECK(is_not_made(with_uris(with_request(c, "CSeq:5 INVITE"), "sip:l@h", "r@h"), 2));
    /* the local URI over 512 and the remote one unreadable */
    CHECK(is_not_made(with_uris(c, uri, "r@h"), 6));
    /* a URI over 512 and status 300; and no CSeq; and 89 s */
    CHECK(is_not_made(with_status(with_uris(c, uri, "sip:r@h"), 300), 5));
    CHECK(is_not_made(with_request(with_uris(c, uri, "sip:r@h"), ""), 7));
    CHECK(is_not_made(with_response(with_uris(c, "sip:l@h", uri), IDENTIFIER "Session-Expires:89\r\n"), 7));
    /* no identifier and no CSeq with status 699; status 699 and no CSeq */
    CHECK(is_not_made(with_status(with_request(with_response(c, ""), ""), 699), 4));
    CHECK(is_not_made(with_status(with_request(c, ""), 699), 5));
    CHECK(is_not_made(with_status(with_request(c, "CSeq:0\r\n"), 0), 5));
}

static void test_creation(creation_function *call)
{
    test_creation_state(call);
    test_creation_identifier(call);
    test_creation_no_identifier(call);
    test_creation_target(call);
    test_creation_estimates(call);
    test_creation_routes(call);
    test_creation_number(call);
    test_creation_interval(call);
    test_creation_whole(call);
    test_creation_method(call);
    test_creation_uris(call);
    test_creation_order(call);
    test_creation_order_of_uris(call);
    test_creation_order_of_numbers(call);
    test_creation_pairs(call);
}

static void test_new_uac(void)
{
    test_creation(sip_dialog_new_uac);
}

static void test_new_uas(void)
{
    test_creation(sip_dialog_new_uas);
}

/* ---- Counts of dialogs */

static void test_counts(void)
{
    CHECK(sip_dialog_record_created(0) == 1);
    CHECK(sip_dialog_record_created(UINT32_MAX) == UINT64_C(1) << 32);
    CHECK(sip_dialog_record_created(UINT64_MAX - 1) == UINT64_MAX);
    CHECK(sip_dialog_record_created(UINT64_MAX) == UINT64_MAX);
    CHECK(sip_dialog_record_terminated(0) == 1);
    CHECK(sip_dialog_record_terminated(UINT32_MAX) == UINT64_C(1) << 32);
    CHECK(sip_dialog_record_terminated(UINT64_MAX - 1) == UINT64_MAX);
    CHECK(sip_dialog_record_terminated(UINT64_MAX) == UINT64_MAX);
}

int main(void)
{
    static void (*const tests[])(void) = {
        test_check_block, test_bytes_of_blocks, test_header, test_next_header, test_short_names, test_status_codes, test_sip_uri,
        test_sip_uri_refused, test_uri_estimate, test_parse_uri_from_header, test_extract_tag, test_held_semicolons,
        test_dialog_id_new, test_bytes_of_identifiers, test_identifiers, test_next_header_value, test_contact, test_route_count,
        test_long_routes, test_route, test_parse_session_expires, test_session_expires, test_cseq_number, test_rseq,
        test_cseq_method, test_is_reliable_provisional, test_method_number, test_method_text, test_parse_rack,
        test_format_rack, test_validate_session_expires, test_negotiate_session_expires, test_intervals, test_needs_refresh,
        test_determine_refresher_role, test_interval_contest, test_count, test_listing, test_image_parts,
        test_image_numbers, test_image_routes, test_no_image, test_image_matches_request, test_image_needs_refresh, test_image_confirm, test_image_terminate,
        test_image_next_local_cseq, test_image_set_session_expires, test_image_request_numbers,
        test_image_request_number_alone, test_image_request_cseq, test_image_request_ack, test_image_request_methods,
        test_image_request_target, test_image_request_no_target, test_image_request_long_target, test_image_request_room,
        test_image_request_rest, test_image_request_order, test_image_response_state, test_image_response_routes,
        test_image_response_most_routes, test_image_response_no_routes, test_image_response_interval,
        test_image_response_any_interval, test_image_response_target, test_image_response_parts, test_image_response_order,
        test_new_uac, test_new_uas, test_counts, test_stores, test_rseq_stores, test_prack_stores, test_rfc_rows, test_verdicts, test_settings,
    };
    size_t i;
    for (i = 0; i < sizeof tests / sizeof tests[0]; i++) {
        tests[i]();
    }
    printf("%u checks, %u failed\n", checks_run, checks_failed);
    return checks_failed == 0 ? 0 : 1;
}
