/*
 * Rows of docs/DIFFERENCES.md, sections 1 and 2, by their smallest inputs: those that no other test in C has. Each test names the section of
 * the RFC that the Rust, and the port with it, departs from. `oracle/run differences` runs every row, on the Rust too.
 */
#include "c_face.h"

enum { ROOM = 400 };

/* A record image in lent bytes with room behind it. */
struct held {
    uint8_t bytes[ROOM];
    size_t used;
};

static struct held hold(struct image i)
{
    struct held h;
    memset(h.bytes, KEPT, ROOM);
    memcpy(h.bytes, i.bytes, i.length);
    h.used = i.length;
    return h;
}

static uint8_t request(struct held *h, const char *method, const char *block)
{
    return sip_dialog_image_update_from_request(RUST, (const uint8_t *)method, strlen(method), (const uint8_t *)block,
        strlen(block), h->bytes, ROOM, &h->used);
}

static uint8_t response(struct held *h, uint16_t status, const char *block)
{
    return sip_dialog_image_update_from_response(RUST, status, (const uint8_t *)block, strlen(block), h->bytes, ROOM, &h->used);
}

static bool target_is(const struct held *h, const char *text)
{
    size_t target, length, local, local_length, remote, remote_length;
    return sip_dialog_image_uris(RUST, h->bytes, h->used, &target, &length, &local, &local_length, &remote, &remote_length) == 0
        && length == strlen(text) && memcmp(h->bytes + target, text, length) == 0;
}

static uint8_t state_of(const uint8_t *image, size_t length)
{
    uint8_t state = 0, we_are_uac, secure;
    CHECK(sip_dialog_image_state(RUST, image, length, &state, &we_are_uac, &secure) == 0);
    return state;
}

/* document 01's example with another remote number */
static struct held sheet(uint32_t remote)
{
    return hold(with_number(sheet_image(), SHEET_REMOTE, remote));
}

static void test_values(void)
{
    const char *tags = "sip:h;tag=a;tag=b";
    const char *lines = "CSeq:1 ACK\r\nCSeq:2 ACK\r\n";
    const char *pair = "A:\"\\\1\"\r\n";
    size_t place = 0, length = 0;
    uint32_t number = 0;
    CHECK(sip_dialog_extract_tag((const uint8_t *)tags, strlen(tags), &place, &length) == 0); /* RFC 3261 7.3.1 */
    CHECK(length == 1 && tags[place] == 'a');
    CHECK(sip_dialog_cseq_number((const uint8_t *)lines, strlen(lines), &number) == 0 && number == 1); /* RFC 3261 7.3.1 */
    CHECK(sip_dialog_check_block((const uint8_t *)pair, strlen(pair)) == 2); /* RFC 3261 25.1, quoted-pair */
}

static void check_expires(const char *value, uint8_t expected)
{
    uint8_t found = 0, refresher = KEPT;
    uint32_t seconds = KEPT;
    CHECK(sip_dialog_parse_session_expires((const uint8_t *)value, strlen(value), &found, &seconds, &refresher) == 0);
    CHECK(found == 1 && seconds == 0 && refresher == expected);
}

/* RFC 4028 4, with generic-param and quoted-string of RFC 3261 25.1 */
static void test_expires(void)
{
    check_expires("0;", 0);
    check_expires("0;a=\";refresher=uac;\"", 1);
    check_expires("0;refresher=uac;refresher=uas", 1);
}

static void test_requests(void)
{
    struct held h = sheet(2147483647);
    CHECK(request(&h, "INVITE", "CSeq:2147483648 INVITE\r\n") == 10); /* RFC 3261 12.2.1.1 */
    h = sheet(5);
    CHECK(request(&h, "OPTIONS", "CSeq:5 OPTIONS\r\n") == 11); /* RFC 3261 12.2.2 */
    h = sheet(1);
    CHECK(request(&h, "INFO", "CSeq:2 INFO\r\n") == 0); /* RFC 3261 8.1.1 */
    h = sheet(1);
    CHECK(request(&h, "", "CSeq:2 X\r\n") == 0); /* RFC 3261 25.1, Method */
    h = sheet(7);
    CHECK(request(&h, "INVITE", "CSeq:8 INVITE\r\nContact:<sip:h>\r\n") == 0 && target_is(&h, "sip:h")); /* RFC 3261 12.2.2 */
    h = hold(full_image());
    CHECK(request(&h, "INVITE", "CSeq:10 INVITE\r\nContact:<sip:h>\r\n") == 0 && target_is(&h, "sip:h")); /* secure: RFC 3261 12.2.1.1 */
}

static void test_responses(void)
{
    struct held h = sheet(7);
    CHECK(response(&h, 200, "Contact:<sip:h?a=b>\r\n") == 0 && target_is(&h, "sip:h?a=b")); /* RFC 3261 19.1.1 */
    h = hold(full_image());
    CHECK(state_of(h.bytes, h.used) == 1 && response(&h, 200, "CSeq:2 PRACK\r\n") == 0); /* RFC 3261 13.2.2.4 */
    CHECK(state_of(h.bytes, h.used) == 2);
    h = hold(full_image());
    CHECK(response(&h, 183, "RSeq:1\r\n") == 0); /* RFC 3262 4 */
    CHECK(response(&h, 183, "RSeq:3\r\nContact:<sip:h>\r\n") == 0 && target_is(&h, "sip:h"));
}

static void test_refreshers(void)
{
    struct held h = hold(with_number(full_image(), FULL_SECONDS, 90));
    uint32_t local, remote, last_ack, seconds = 0;
    uint8_t has_last_ack, has_seconds = 0, refresher = 0, state, we_are_uac = KEPT, secure, due = 0;
    CHECK(sip_dialog_image_needs_refresh(RUST, h.bytes, h.used, 60000000000, &due) == 0 && due == 1); /* RFC 4028 7.2, 9, 10 */
    h = sheet(7);
    CHECK(response(&h, 200, "Session-Expires:90;refresher=uac\r\n") == 0); /* RFC 4028 3, 7.2 */
    CHECK(sip_dialog_image_numbers(RUST, h.bytes, h.used, &local, &remote, &has_last_ack, &last_ack, &has_seconds, &seconds,
              &refresher) == 0);
    CHECK(has_seconds == 1 && seconds == 90 && refresher == 1);
    CHECK(sip_dialog_image_state(RUST, h.bytes, h.used, &state, &we_are_uac, &secure) == 0 && we_are_uac == 0);
}

/* RFC 3261 13.2.2.4: the other early dialog of the INVITE stays */
static void test_forked(void)
{
    struct image first = with_byte(sheet_image(), SHEET_STATE, 1);
    struct image second = with_byte(first, SHEET_STATE - 1, 'S');
    uint8_t store[ROOM];
    size_t used = 0, place = 0, length = 0;
    uint64_t created = 0;
    CHECK(sip_dialog_put(RUST, first.bytes, first.length, store, ROOM, &used, &created) == 0);
    CHECK(sip_dialog_put(RUST, second.bytes, second.length, store, ROOM, &used, &created) == 0);
    CHECK(used == first.length + second.length);
    CHECK(sip_dialog_response(RUST, (const uint8_t *)"c1", 2, (const uint8_t *)"L", 1, (const uint8_t *)"R", 1, 200, NULL, 0, store, ROOM, &used) == 0);
    CHECK(sip_dialog_get(RUST, (const uint8_t *)"c1", 2, (const uint8_t *)"L", 1, (const uint8_t *)"R", 1, store, ROOM, used, &place, &length) == 0);
    CHECK(state_of(store + place, length) == 2);
    CHECK(sip_dialog_get(RUST, (const uint8_t *)"c1", 2, (const uint8_t *)"L", 1, (const uint8_t *)"S", 1, store, ROOM, used, &place, &length) == 0);
    CHECK(state_of(store + place, length) == 1);
}

/* RFC 3261 8.1.1.2, 8.1.1.3: a URI of another scheme */
static void test_tel(void)
{
    const char *block = "Call-ID:c\r\nFrom:tag=a\r\nTo:tag=b\r\nCSeq:1 INVITE\r\n";
    uint8_t out[ROOM];
    size_t length = KEPT;
    uint64_t least = KEPT;
    struct run given = lend(block), answer = lend(block), method = lend("INVITE"), local = lend("sip:h"), remote = lend("tel:1");
    CHECK(sip_dialog_new_uas(RUN(method), RUN(given), 200, RUN(answer), RUN(local), RUN(remote), out, ROOM, &length, &least) == 6);
    CHECK(length == KEPT && least == KEPT);
    take_back(given);
    take_back(answer);
    take_back(method);
    take_back(local);
    take_back(remote);
}

/* RFC 3262 3: an acknowledged response hides later ones of its RSeq */
static void test_acknowledged(void)
{
    const uint8_t *id = (const uint8_t *)"d";
    const char *first = "RAck:1 1 INVITE\r\n", *second = "RAck:1 2 INVITE\r\n";
    uint8_t store[ROOM], method = 0;
    uint32_t rseq = 0, cseq = 0;
    size_t used = 0;
    CHECK(sip_dialog_prack_register(RUST, id, 1, 1, 1, 1, 180, 0, store, ROOM, &used) == 0);
    CHECK(sip_dialog_prack_validate(RUST, id, 1, (const uint8_t *)first, strlen(first), 0, store, ROOM, &used, &rseq, &cseq, &method) == 0);
    CHECK(rseq == 1 && cseq == 1 && method == 1);
    CHECK(sip_dialog_prack_register(RUST, id, 1, 1, 2, 1, 180, 0, store, ROOM, &used) == 0);
    CHECK(sip_dialog_prack_validate(RUST, id, 1, (const uint8_t *)second, strlen(second), 0, store, ROOM, &used, &rseq, &cseq, &method) == 22);
}

void test_rfc_rows(void)
{
    test_values();
    test_expires();
    test_requests();
    test_responses();
    test_refreshers();
    test_forked();
    test_tel();
    test_acknowledged();
}
