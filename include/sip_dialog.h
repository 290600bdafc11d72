/*
 * sip_dialog: SIP dialogs (RFC 3261 section 12) as records in lent bytes, reliable provisional responses and their PRACKs (RFC 3262),
 * and session timers (RFC 4028). The functions are proved in Rattle; `tools/build archive` writes them to target/staticlib/libsip_dialog.a,
 * for x86-64.
 *
 * For every call:
 * - It finishes on all bytes, allocates nothing and remembers nothing.
 * - A byte run is a pointer and its length in bytes; no zero byte ends it. A null pointer is allowed only with length 0.
 * - Byte runs of one call must not overlap, neither each other nor a lent number. (Runs that are only read do no harm where they
 *   are the same bytes, as a compiler may make of equal literals: no call writes them. The proofs speak of runs apart.)
 * - Stack, as read off the archive's code, frame by frame along the calls (tests/stack.sh): a call on a store of records, the listing too, up to
 *   44,000 bytes, however small the store is (tables for the comparison of identifiers), every other call less than 1,600. Of what memcpy,
 *   memmove and memset take, which the archive calls, 256 bytes are counted.
 * - A lent number (found, place, ..) is a pointer to a number of its own, never null. It keeps its value except where its
 *   answer is given: a refused call changes none of them (but 13's `least`, and `used` of sip_dialog_prack_validate with 19 to 24),
 *   and with `found` 0 the others keep theirs.
 * - A function that can refuse returns 0 (accepted) or the number of the first cause that holds, in the order given with it.
 * - Refused, lent bytes stay as they were (but the store of sip_dialog_prack_validate with 19 to 24); accepted, those past the
 *   written length do.
 * - A place counts from 0 at the start of the run that was given; a length is in bytes. Both always lie within that run.
 *
 * Header block: lines `name:value` CRLF, the last one too; a name has letters, digits and `-`, at least one; a value has
 * bytes 9 and 32 to 126. An empty block is valid. Blanks (space and tab) at both ends aren't part of a value that is answered.
 * Names of headers are compared without regard to letter case. `i`, `f`, `t`, `m` and `x` are Call-ID, From, To, Contact and
 * Session-Expires, whichever spelling stands in the block and whichever is asked for; no other short names are known.
 */
#ifndef SIP_DIALOG_H
#define SIP_DIALOG_H

#include <stdbool.h>
#include <stddef.h>
#include <stdint.h>

#ifdef __cplusplus
extern "C" {
#endif

/* Why a call is turned back. 20 to 24 are returned by sip_dialog_prack_validate alone. */
enum sip_dialog_refusal {
    SIP_DIALOG_ACCEPTED = 0,
    SIP_DIALOG_TEXT_TOO_LONG = 1,              /* a given text or block is over 8,192 bytes */
    SIP_DIALOG_MALFORMED = 2,                  /* a block, or a value given alone, isn't of its form */
    SIP_DIALOG_BAD_STORE = 3,                  /* a store or a record isn't of its layout; an identifier twice; a PRACK list over the site's pending; used over the lent length */
    SIP_DIALOG_MISSING_HEADER = 4,             /* an identifier part, CSeq or RSeq is absent or unreadable */
    SIP_DIALOG_INVALID_STATUS = 5,             /* status outside 100 to 299 at creation */
    SIP_DIALOG_INVALID_URI = 6,                /* a given URI is unreadable */
    SIP_DIALOG_URI_TOO_LONG = 7,               /* a URI's estimate is over 512 */
    SIP_DIALOG_ROUTE_SET_TOO_LARGE = 8,        /* over 50 routes */
    SIP_DIALOG_CSEQ_ZERO = 9,                  /* CSeq 0 */
    SIP_DIALOG_CSEQ_TOO_LARGE = 10,            /* CSeq over 2,147,483,647 */
    SIP_DIALOG_INVALID_CSEQ = 11,              /* CSeq not above the last one; ACK's unequal to it */
    SIP_DIALOG_CSEQ_JUMP_TOO_LARGE = 12,       /* CSeq further above the last one than the site's jump */
    SIP_DIALOG_SESSION_EXPIRES_TOO_SMALL = 13, /* interval too short; the minimum is answered beside it */
    SIP_DIALOG_SESSION_EXPIRES_TOO_LARGE = 14, /* interval over 86,400 s */
    SIP_DIALOG_NOT_FOUND = 15,                 /* no such record; no RSeq number held */
    SIP_DIALOG_TOO_MANY_DIALOGS = 16,          /* 10,000 records held */
    SIP_DIALOG_TOO_MANY_EARLY_DIALOGS = 17,    /* as many other Early records of this Call-ID as the site's cap, or more */
    SIP_DIALOG_NO_ROOM = 18,                   /* the result is larger than the lent bytes */
    SIP_DIALOG_INVALID_RACK = 19,              /* RAck absent, not three parts, or a part unreadable */
    SIP_DIALOG_NO_PENDING_LIST = 20,           /* no PRACK list of this identifier */
    SIP_DIALOG_UNKNOWN_RSEQ = 21,              /* no such RSeq in the list */
    SIP_DIALOG_RACK_CSEQ_MISMATCH = 22,        /* RAck's CSeq is another */
    SIP_DIALOG_RACK_METHOD_MISMATCH = 23,      /* RAck's method is another */
    SIP_DIALOG_DUPLICATE_PRACK = 24,           /* acknowledged before */
    SIP_DIALOG_IDENTIFIER_EMPTY = 25,          /* an identifier part is empty */
    SIP_DIALOG_IDENTIFIER_TOO_LONG = 26,       /* Call-ID over 256 bytes, or a tag over 128 */
    SIP_DIALOG_CONTROL_CHARACTERS = 27,        /* an identifier part has bytes 0 to 31 or over 126 */
    SIP_DIALOG_INVALID_METHOD = 28,            /* method number outside 1 to 14 */
    SIP_DIALOG_SETTING_OUT_OF_BOUNDS = 30      /* one of the site's settings lies outside its bounds */
};

/*
 * A site's settings, given to every call on a record image, on a store of records and on a PRACK store. They aren't kept in it: give the
 * same ones for its whole life. Each call goes by those that it is given: with a smaller `pending` than before, a PRACK store may be refused
 * by 3. Where one lies outside its bounds, also one that the call doesn't use, the call is refused by 30, before any other cause, and changes
 * nothing.
 */
typedef struct sip_dialog_settings {
    uint32_t cseq_jump;       /* 1 to 65,535: the most that a request's CSeq, ACK's apart, may be above a remote number that isn't 0 (12) */
    uint32_t pending;         /* 1 to 32: the most responses of a PRACK list: one more drops the first; a store with a longer list is refused (3) */
    uint32_t cleanup_seconds; /* 1 to 3,600: a PRACK list is cleaned when so long or longer has passed since its last cleanup */
    uint32_t timeout_seconds; /* 1 to 3,600: a cleanup drops responses that were registered longer ago */
    uint32_t early_cap;       /* 1 to 100: an Early record is put only where fewer others of its Call-ID are Early (17) */
} sip_dialog_settings;

/* The Rust's own figures. */
static const sip_dialog_settings SIP_DIALOG_RUST_SETTINGS = {1000, 10, 300, 300, 100};

/* The numbers of the methods. */
enum sip_dialog_method {
    SIP_DIALOG_METHOD_INVITE = 1,
    SIP_DIALOG_METHOD_ACK = 2,
    SIP_DIALOG_METHOD_BYE = 3,
    SIP_DIALOG_METHOD_CANCEL = 4,
    SIP_DIALOG_METHOD_REGISTER = 5,
    SIP_DIALOG_METHOD_OPTIONS = 6,
    SIP_DIALOG_METHOD_INFO = 7,
    SIP_DIALOG_METHOD_UPDATE = 8,
    SIP_DIALOG_METHOD_MESSAGE = 9,
    SIP_DIALOG_METHOD_PRACK = 10,
    SIP_DIALOG_METHOD_REFER = 11,
    SIP_DIALOG_METHOD_SUBSCRIBE = 12,
    SIP_DIALOG_METHOD_NOTIFY = 13,
    SIP_DIALOG_METHOD_PUBLISH = 14
};

/* ---- Header blocks and status codes */

/* Whether the bytes are a header block. Refuses with 1, 2. */
uint8_t sip_dialog_check_block(const uint8_t *block, size_t block_len);

/* The value of the first line of that name: found 1 with place and length in the block, or found 0.
   An empty value's place is that of its CR. Refuses with 1 (block or name), 2 (block). */
uint8_t sip_dialog_header(const uint8_t *block, size_t block_len, const uint8_t *name, size_t name_len,
                          uint8_t *found, size_t *place, size_t *length);

/* The same for the first line of that name that starts at `from` or after it; `next` is where the line after it starts.
   All lines are had by asking from 0 on, and then from each answered `next`. Refuses with 1 (block or name), 2 (block). */
uint8_t sip_dialog_next_header(const uint8_t *block, size_t block_len, const uint8_t *name, size_t name_len, size_t from,
                               uint8_t *found, size_t *place, size_t *length, size_t *next);

/* Classes of status codes: 100 to 199, 200 to 299, .., 600 to 699; an error is 400 to 699. Any number may be asked. */
bool sip_dialog_is_informational(uint16_t code);
bool sip_dialog_is_success(uint16_t code);
bool sip_dialog_is_redirection(uint16_t code);
bool sip_dialog_is_client_error(uint16_t code);
bool sip_dialog_is_server_error(uint16_t code);
bool sip_dialog_is_global_failure(uint16_t code);
bool sip_dialog_is_error(uint16_t code);

/* ---- URIs */

/* The parts of a URI: secure 1 for `sips:`, 0 for `sip:`; user and host as places in the text; has_port 1 with its port, or 0
   (port keeps its value). Without a user part user_length is 0 and user the host's place. Refuses with 1, 6. */
uint8_t sip_dialog_sip_uri(const uint8_t *text, size_t text_len, uint8_t *secure, size_t *user, size_t *user_length,
                           size_t *host, size_t *host_length, uint8_t *has_port, uint16_t *port);

/* The estimate of a URI: length of user + length of host + 6 if it has a port + 10. Refuses with 1, 6, 7 (over 512). */
uint8_t sip_dialog_uri_estimate(const uint8_t *text, size_t text_len, size_t *estimate);

/* The URI in a header value: found 1 with place and length of its text in the value, or found 0 where it is unreadable.
   It stands between the first `<`, in quotes too, and the next `>`; without `<`, before the first `;`. Refuses with 1, 2. */
uint8_t sip_dialog_parse_uri_from_header(const uint8_t *value, size_t value_len, uint8_t *found, size_t *place, size_t *length);

/* ---- Identifiers */

/* The tag of a From or To value: place and length in the value; it may be empty. It is what follows `tag=` in the first segment
   that begins so. Segments end at semicolons outside quotes (in which a backslash covers the next byte) and outside angle brackets;
   an opened quote or bracket holds all up to its own close or the end. Refuses with 1, 2, 4 (no tag). */
uint8_t sip_dialog_extract_tag(const uint8_t *value, size_t value_len, size_t *place, size_t *length);

/* Whether three texts may be a dialog's identifier. Refuses with 1 (any of them); then 25, 26, 27 of the Call-ID, then of the
   local tag, then of the remote tag. */
uint8_t sip_dialog_dialog_id_new(const uint8_t *call_id, size_t call_id_len, const uint8_t *local_tag, size_t local_tag_len,
                                 const uint8_t *remote_tag, size_t remote_tag_len);

/* The identifier of a request: places and lengths of its parts in the block. The tag of From is the local one, as seen by
   the sender; for a request from the peer, swap the tags. The parts may be empty. Refuses with 1, 2, 4. */
uint8_t sip_dialog_from_request(const uint8_t *block, size_t block_len, size_t *call_id, size_t *call_id_length,
                                size_t *local_tag, size_t *local_tag_length, size_t *remote_tag, size_t *remote_tag_length);

/* The identifier of a response to a request that we sent: the tag of From is the local one. Refuses with 1, 2, 4. */
uint8_t sip_dialog_from_response_uac(const uint8_t *block, size_t block_len, size_t *call_id, size_t *call_id_length,
                                     size_t *local_tag, size_t *local_tag_length,
                                     size_t *remote_tag, size_t *remote_tag_length);

/* The identifier of a response that we sent: the tag of To is the local one. Refuses with 1, 2, 4. */
uint8_t sip_dialog_from_response_uas(const uint8_t *block, size_t block_len, size_t *call_id, size_t *call_id_length,
                                     size_t *local_tag, size_t *local_tag_length,
                                     size_t *remote_tag, size_t *remote_tag_length);

/* ---- Header values and routes */

/* The next part between commas of a value: found 1 with place, length and the `next` place to ask from, or found 0. `from` is
   0 or an answered `next`, which is value_len + 1 after the last part. Empty parts are skipped. Refuses with 1, 2. */
uint8_t sip_dialog_next_header_value(const uint8_t *value, size_t value_len, size_t from,
                                     uint8_t *found, size_t *place, size_t *length, size_t *next);

/* The URI of the first Contact line: found 1 with place and length of its text in the block, or found 0 where there is no such
   line or its URI is unreadable. Refuses with 1, 2. */
uint8_t sip_dialog_contact(const uint8_t *block, size_t block_len, uint8_t *found, size_t *place, size_t *length);

/* How many routes all Record-Route lines give; unreadable parts are skipped. Refuses with 1, 2; then 7 or 8, whichever is met
   first: a route's estimate over 512, or any part met when 50 routes are held. */
uint8_t sip_dialog_route_count(const uint8_t *block, size_t block_len, size_t *count);

/* The route at an index from 0, in the order of the block or reversed: found 1 with place and length of its URI in the block,
   or found 0 from the count on. Refuses as sip_dialog_route_count does, whatever the index. */
uint8_t sip_dialog_route(const uint8_t *block, size_t block_len, bool reversed, size_t index,
                         uint8_t *found, size_t *place, size_t *length);

/* The interval of a Session-Expires value: found 1 with seconds (0 and over 86,400 too) and refresher (0 none, 1 uac, 2 uas),
   or found 0 where it is unreadable. Refuses with 1, 2. */
uint8_t sip_dialog_parse_session_expires(const uint8_t *value, size_t value_len,
                                         uint8_t *found, uint32_t *seconds, uint8_t *refresher);

/* The same of a block's first Session-Expires line; found 0 where there is none too. Refuses with 1, 2. */
uint8_t sip_dialog_session_expires(const uint8_t *block, size_t block_len,
                                   uint8_t *found, uint32_t *seconds, uint8_t *refresher);

/* ---- CSeq, RSeq, RAck and methods */

/* The number of a block's CSeq, 0 too: its first word, one `+` allowed. Refuses with 1, 2, 4. */
uint8_t sip_dialog_cseq_number(const uint8_t *block, size_t block_len, uint32_t *number);

/* The method's number of a block's CSeq: its second word, whatever the first is. Refuses with 1, 2, 4 (unknown ones too). */
uint8_t sip_dialog_cseq_method(const uint8_t *block, size_t block_len, uint8_t *method);

/* The number of a block's RSeq, 0 too: its whole value, one `+` allowed. Refuses with 1, 2, 4. */
uint8_t sip_dialog_rseq(const uint8_t *block, size_t block_len, uint32_t *number);

/* Whether a response is a reliable provisional: reliable 1 for status 101 to 199 with an RSeq line, readable or not, else 0.
   Refuses with 1, 2, whatever the status. */
uint8_t sip_dialog_is_reliable_provisional(uint16_t status, const uint8_t *block, size_t block_len, uint8_t *reliable);

/* The number of a method's text, letter case ignored: found 1 with method, or found 0. Refuses with 1. */
uint8_t sip_dialog_method_number(const uint8_t *text, size_t text_len, uint8_t *found, uint8_t *method);

/* Writes a method's text in capitals to the front of out, without a zero byte, and answers its length in written, at most 9.
   Refuses with 28, 18. */
uint8_t sip_dialog_method_text(uint8_t method, uint8_t *out, size_t out_len, size_t *written);

/* The parts of a RAck value: RSeq, CSeq and the method's number. Refuses with 1, 2, 19. */
uint8_t sip_dialog_parse_rack(const uint8_t *value, size_t value_len, uint32_t *rseq, uint32_t *cseq, uint8_t *method);

/* Writes a RAck value to the front of out, without a zero byte, and answers its length in written, at most 31. Refuses with 28, 18. */
uint8_t sip_dialog_format_rack(uint32_t rseq, uint32_t cseq, uint8_t method, uint8_t *out, size_t out_len, size_t *written);

/* ---- Session intervals: nanoseconds where nothing is said of seconds. A value whose has_.. is false isn't looked at. */

/* Whether an interval reaches the minimum: the given one, even below 90 s, or else 90 s. Refuses with 13 and then answers
   the minimum in least, in nanoseconds; accepted, least keeps its value. */
uint8_t sip_dialog_validate_session_expires(uint64_t interval, bool has_minimum, uint64_t minimum, uint64_t *least);

/* The interval for both sides: the requested one, reduced to the preference but not below the larger minimum. Refuses with 13
   if it is itself below that minimum, which least then answers in nanoseconds; interval keeps its value then. */
uint8_t sip_dialog_negotiate_session_expires(uint64_t requested, uint64_t local_minimum,
                                             bool has_remote_minimum, uint64_t remote_minimum,
                                             bool has_preference, uint64_t preference, uint64_t *interval, uint64_t *least);

/* When the side that doesn't refresh gives the session up: before its end by 32 s, or by a third if that is less. */
uint64_t sip_dialog_non_refresher_expiry(uint64_t interval);

/* When the side that refreshes does so: at half the interval, rounded down. */
uint64_t sip_dialog_calculate_refresh_time(uint64_t interval);

/* Whether two thirds of an interval in seconds have passed, with elapsed in nanoseconds. Without an interval: no. */
bool sip_dialog_needs_refresh(bool has_interval, uint32_t seconds, uint64_t elapsed);

/* Whether we refresh, by the text of a refresher parameter, if one is given: we_refresh 1 for yes, 0 for no (not uac or uas).
   `uas`, `UAS`: if we aren't uac; all else, `Uas` too: if we are. Refuses with 1, if a text is given. */
uint8_t sip_dialog_determine_refresher_role(bool given, const uint8_t *text, size_t text_len, bool is_uac, uint8_t *we_refresh);

/* ---- One record image: docs/LAYOUTS.md has its bytes. The run given as `image` is exactly one image. 3: it isn't, or bytes
   stand after it. None of these functions changes a byte of it; places are counted from its start. */

/* Where the parts of the identifier lie. An empty part has length 0 and the place where it would begin. Refuses with 30, 3. */
uint8_t sip_dialog_image_id(sip_dialog_settings settings, const uint8_t *image, size_t image_len, size_t *call_id, size_t *call_id_length,
    size_t *local_tag, size_t *local_tag_length, size_t *remote_tag, size_t *remote_tag_length);

/* The state: 1 Early, 2 Confirmed, 3 Terminated; we_are_uac 1 for uac, 0 for uas; secure 1 where the local or the remote URI
   is `sips:`, else 0. Refuses with 30, 3. */
uint8_t sip_dialog_image_state(sip_dialog_settings settings, const uint8_t *image, size_t image_len, uint8_t *state, uint8_t *we_are_uac,
    uint8_t *secure);

/* Where the texts of the target, the local URI and the remote URI lie. Refuses with 30, 3. */
uint8_t sip_dialog_image_uris(sip_dialog_settings settings, const uint8_t *image, size_t image_len, size_t *target, size_t *target_length,
    size_t *local_uri, size_t *local_uri_length, size_t *remote_uri, size_t *remote_uri_length);

/* The local and the remote number, 0 where the image has none; has_last_ack 1 with last_ack, or 0 (last_ack keeps its value);
   has_seconds 1 with the session's seconds, or 0 (seconds keeps its value); refresher 0 none, 1 uac, 2 uas. A last ACK or
   seconds of 0 are present. Refuses with 30, 3. */
uint8_t sip_dialog_image_numbers(sip_dialog_settings settings, const uint8_t *image, size_t image_len, uint32_t *local, uint32_t *remote,
    uint8_t *has_last_ack, uint32_t *last_ack, uint8_t *has_seconds, uint32_t *seconds, uint8_t *refresher);

/* How many routes the record has, at most 50. Refuses with 30, 3. */
uint8_t sip_dialog_image_route_count(sip_dialog_settings settings, const uint8_t *image, size_t image_len, size_t *count);

/* The route at an index from 0: found 1 with place and length of its URI in the image, or found 0 from the count on. Refuses
   with 30, 3, whatever the index. */
uint8_t sip_dialog_image_route(sip_dialog_settings settings, const uint8_t *image, size_t image_len, size_t index, uint8_t *found,
    size_t *place, size_t *length);

/* Whether a request from the peer belongs to the record: matches 1 where its Call-ID is the record's, the tag of From the
   remote one and the tag of To the local one, byte by byte; else 0, where one of them is absent too. Refuses with 30, 1, 2, 3. */
uint8_t sip_dialog_image_matches_request(sip_dialog_settings settings, const uint8_t *block, size_t block_len, const uint8_t *image,
    size_t image_len, uint8_t *matches);

/* Whether two thirds of the record's interval have passed, with elapsed in nanoseconds: due 1 for yes, 0 for no. Without an
   interval: no. Refuses with 30, 3. */
uint8_t sip_dialog_image_needs_refresh(sip_dialog_settings settings, const uint8_t *image, size_t image_len, uint64_t elapsed,
    uint8_t *due);

/* ---- A new record image, at the front of out; `written` answers its length. `request` and `response` are header blocks,
   status is the response's: 100 to 199 makes an Early record, 200 to 299 a Confirmed one. Call-ID, tags and interval are the
   response's; the tags and the Call-ID may be empty. The target is the URI of the first Contact line or, where there is none
   or it is unreadable, the remote URI. The record is secure where the local or the remote URI is `sips:`; it has no last ACK,
   and without a readable Session-Expires no interval. Any method is taken. Both functions refuse with 1 (any of the five
   runs); 2 (request, response); 6 (local URI, remote URI); 4 (Call-ID or a tag absent); 5; 7 (estimate of the local URI, the
   remote URI, the target); 7 or 8 in the routes, whichever is met first, as sip_dialog_route_count; 4 (CSeq); 9; 10; 13 below
   90 and then answer 90 in least, in seconds; 14; 18. But for 13, least keeps its value. An image has the bytes of
   its texts, 2 more for each route and up to 28 others; 41,088 are enough for any (the identifier, the three URIs and the routes have at
   most 8,192 bytes each). */

/* For a request that we sent, and its response: the tag of From is the local one; Contact and Record-Route are the
   response's, the routes reversed over all lines; the request's CSeq is the local number, and there is no remote one. */
uint8_t sip_dialog_new_uac(const uint8_t *method, size_t method_len, const uint8_t *request, size_t request_len,
                           uint16_t status, const uint8_t *response, size_t response_len,
                           const uint8_t *local_uri, size_t local_uri_len, const uint8_t *remote_uri, size_t remote_uri_len,
                           uint8_t *out, size_t out_len, size_t *written, uint64_t *least);

/* For a request that we were sent, and our response: the tag of To is the local one; Contact and Record-Route are the
   request's, the routes in their order; the request's CSeq is the remote number, and there is no local one. */
uint8_t sip_dialog_new_uas(const uint8_t *method, size_t method_len, const uint8_t *request, size_t request_len,
                           uint16_t status, const uint8_t *response, size_t response_len,
                           const uint8_t *local_uri, size_t local_uri_len, const uint8_t *remote_uri, size_t remote_uri_len,
                           uint8_t *out, size_t out_len, size_t *written, uint64_t *least);

/* ---- One record image changed in its place. `image` is lent with its room of image_len bytes. `used` is read and answered:
   the image's length, and where the call is accepted its new length. 3: used over image_len, or the used bytes aren't exactly
   one image. 18: the changed image is larger than image_len. Refused, every lent byte stays and `used` keeps its value;
   accepted, bytes past the new length stay. */

/* Early becomes Confirmed; any other state stays. The length stays. Refuses with 30, 3. */
uint8_t sip_dialog_image_confirm(sip_dialog_settings settings, uint8_t *image, size_t image_len, size_t *used);

/* Any state becomes Terminated. The length stays. Refuses with 30, 3. */
uint8_t sip_dialog_image_terminate(sip_dialog_settings settings, uint8_t *image, size_t image_len, size_t *used);

/* Raises the local number by one, or leaves it at 4,294,967,295, and answers it in number. The image grows by four bytes
   where it had none. Refuses with 30, 3, 18. */
uint8_t sip_dialog_image_next_local_cseq(sip_dialog_settings settings, uint8_t *image, size_t image_len, size_t *used, uint32_t *number);

/* Sets the session's interval, in seconds; who refreshes stays. The image grows by four bytes where it had none. Refuses with
   30, 3; 13 below 90 and then answers 90 in least, in seconds; 14 over 86,400; 18. But for 13, least keeps its value. */
uint8_t sip_dialog_image_set_session_expires(sip_dialog_settings settings, uint8_t *image, size_t image_len, size_t *used, uint64_t seconds,
    uint64_t *least);

/* Takes a request. Its CSeq becomes the remote number: 1 to 2,147,483,647 and, where the record has a remote number, above
   that by 1 to the site's jump. The CSeq of an ACK, exactly these letters in capitals, must be the remote number and becomes the last
   ACK; no largest number holds for it. The URI of the first Contact line, if it is readable, becomes the target, whatever its
   estimate. Nothing else changes, in any state, and the block's identifier isn't compared. Refuses with 30, 1 (method, block); 2;
   3; 4 (CSeq); 9, for ACK too; an ACK then with 11, any other with 10, 11, 12; 18. */
uint8_t sip_dialog_image_update_from_request(sip_dialog_settings settings, const uint8_t *method, size_t method_len, const uint8_t *block,
    size_t block_len, uint8_t *image, size_t image_len, size_t *used);

/* Takes a response of any status. The URI of the first Contact line, if it is readable, becomes the target, whatever its
   estimate. A readable Session-Expires replaces interval and refresher, 0 and over 86,400 s too; without a refresher there
   the record has none. Status 200 to 299 makes Early Confirmed, and the block's routes, reversed over all lines, then replace
   the record's; where there are none, or reading them is refused (7, 8), the record's stay. Any other state stays, with its
   routes. The block's identifier isn't compared. A uas that has sent a 2xx calls sip_dialog_image_confirm instead: given here,
   its own Contact would become the target, and its routes would be reversed. Refuses with 30, 1, 2, 3, 18. */
uint8_t sip_dialog_image_update_from_response(sip_dialog_settings settings, uint16_t status, const uint8_t *block, size_t block_len,
    uint8_t *image, size_t image_len, size_t *used);

/* ---- Stores of records: docs/LAYOUTS.md has their bytes.

   A store is lent as `store`, and its first `used` bytes are its records; an empty store has used 0. Every function below reads
   the whole store before it looks for a record, and refuses with 3 where used is over store_len, where the used bytes aren't whole
   record images, or where one identifier stands twice; more Early records of a Call-ID than the site's cap are no cause. The lent length
   may differ from call to call.

   A function that changes the store takes a pointer to used: accepted, it holds the new used length; refused, it keeps its value
   and every byte of the store stays. Bytes past the new used length stay. A record keeps its place, whatever changes in it.

   An identifier is three texts of any bytes: Call-ID, local tag, remote tag. One that names no record gives 15. */

/* Puts the record image: in the place of the record of its identifier, or behind all others. Adds one to created, for a
   replacement too; the largest number stays. The image must not lie in the lent store: one that was made in its free end is copied
   out first. Refuses with 30, 3 (the store, or image isn't exactly one record image), 16 (10,000 held,
   even for a replacement), 17 (image is Early, and as many other Early records as the site's cap have its Call-ID), 18. */
uint8_t sip_dialog_put(sip_dialog_settings settings, const uint8_t *image, size_t image_len, uint8_t *store, size_t store_len, size_t *used,
    uint64_t *created);

/* The request entry: finds the record that the block names (the tag of From is its remote tag) and changes it by the request, as
   sip_dialog_image_update_from_request does. 0: the request is taken. No method changes the state: after a BYE that was taken,
   sip_dialog_terminate ends the record. Refuses with 30, 1, 2, 3, 15 (also where a part of the identifier
   can't be read), 4 (CSeq), 9; method ACK: 11; others: 10, 11, 12; 18. */
uint8_t sip_dialog_request(sip_dialog_settings settings, const uint8_t *method, size_t method_len, const uint8_t *block, size_t block_len,
    uint8_t *store, size_t store_len, size_t *used);

/* Changes a record by a response that was received, as sip_dialog_image_update_from_response does. A uas that has sent a 2xx does
   not give that block here: it gives 200 with an empty block, which makes Early Confirmed and changes nothing else. (It can also copy
   the record out by sip_dialog_get, call sip_dialog_image_confirm and put it again; but a put counts as created, and is refused with
   16 where 10,000 are held.) Refuses with 30, 1, 2, 3, 15, 18. */
uint8_t sip_dialog_response(sip_dialog_settings settings, const uint8_t *call_id, size_t call_id_len, const uint8_t *local_tag,
    size_t local_tag_len, const uint8_t *remote_tag, size_t remote_tag_len, uint16_t status, const uint8_t *block, size_t block_len,
    uint8_t *store, size_t store_len, size_t *used);

/* A record becomes Terminated, and stays in the store until it is removed or swept. Refuses with 30, 1, 3, 15. */
uint8_t sip_dialog_terminate(sip_dialog_settings settings, const uint8_t *call_id, size_t call_id_len, const uint8_t *local_tag,
    size_t local_tag_len, const uint8_t *remote_tag, size_t remote_tag_len, uint8_t *store, size_t store_len, size_t *used);

/* Raises a record's local number by one, or leaves it at 4,294,967,295, and answers it in number. Refuses with 30, 1, 3, 15, 18. */
uint8_t sip_dialog_next_local_cseq(sip_dialog_settings settings, const uint8_t *call_id, size_t call_id_len, const uint8_t *local_tag,
    size_t local_tag_len, const uint8_t *remote_tag, size_t remote_tag_len, uint8_t *store, size_t store_len, size_t *used,
    uint32_t *number);

/* Sets a record's session interval, in seconds; who refreshes stays. Refuses with 30, 1, 3, 15; 13 below 90 and then answers 90 in
   least, in seconds; 14 over 86,400; 18. But for 13, least keeps its value. */
uint8_t sip_dialog_set_session_expires(sip_dialog_settings settings, const uint8_t *call_id, size_t call_id_len, const uint8_t *local_tag,
    size_t local_tag_len, const uint8_t *remote_tag, size_t remote_tag_len, uint64_t seconds, uint8_t *store, size_t store_len,
    size_t *used, uint64_t *least);

/* Takes a record out; those behind it move up. Adds one to terminated; the largest number stays. Refuses with 30, 1, 3, 15. A caller
   that wants the record copies it out before, at the place that sip_dialog_get answers. */
uint8_t sip_dialog_remove(sip_dialog_settings settings, const uint8_t *call_id, size_t call_id_len, const uint8_t *local_tag,
    size_t local_tag_len, const uint8_t *remote_tag, size_t remote_tag_len, uint8_t *store, size_t store_len, size_t *used,
    uint64_t *terminated);

/* Takes all Terminated records out; the others keep their order. No count moves, so that created less terminated need not be what
   is held. Refuses with 30, 3. */
uint8_t sip_dialog_sweep(sip_dialog_settings settings, uint8_t *store, size_t store_len, size_t *used);

/* Where the image of a record lies in the store: of an identifier; the first of a Call-ID; of the identifier that a request's block
   names (the tag of From is its remote tag). Refuse with 30, 1, 3, 15; find_by_request with 30, 1, 2, 3, 15, the last also where a part
   of the identifier can't be read. They change no byte of the store. */
uint8_t sip_dialog_get(sip_dialog_settings settings, const uint8_t *call_id, size_t call_id_len, const uint8_t *local_tag,
    size_t local_tag_len, const uint8_t *remote_tag, size_t remote_tag_len, const uint8_t *store, size_t store_len, size_t used,
    size_t *place, size_t *length);
uint8_t sip_dialog_find_by_call_id(sip_dialog_settings settings, const uint8_t *call_id, size_t call_id_len, const uint8_t *store,
    size_t store_len, size_t used, size_t *place, size_t *length);
uint8_t sip_dialog_find_by_request(sip_dialog_settings settings, const uint8_t *block, size_t block_len, const uint8_t *store,
    size_t store_len, size_t used, size_t *place, size_t *length);

/* How many records a store holds. Refuses with 30, 3. */
uint8_t sip_dialog_count(sip_dialog_settings settings, const uint8_t *store, size_t store_len, size_t used, size_t *count);

/* Writes the identifiers of all records to the front of out, in store order, each as three texts with two length bytes (the higher
   first), and answers in written how many bytes it wrote: never more than used. Refuses with 30, 3, 18. */
uint8_t sip_dialog_all_ids(sip_dialog_settings settings, const uint8_t *store, size_t store_len, size_t used, uint8_t *out, size_t out_len,
    size_t *written);

/* Writes the handover listing of a store to the front of out, without a zero byte, and answers its length in written: a line for each
   record, then `total` and their number, each line ended by a line feed. `bytes` are the used bytes of the store, and nothing after
   them. Refuses with 30, 1 (over 65,536 bytes), 3, 18. A line is shorter than two times its image: 131,072 bytes are enough for any
   listing. */
uint8_t sip_dialog_listing(sip_dialog_settings settings, const uint8_t *bytes, size_t bytes_len, uint8_t *out, size_t out_len,
    size_t *written);

/* ---- RSeq numbers: one for each dialog that sends reliable provisional responses, in a store of their own (docs/LAYOUTS.md, "The
   RSeq store"). An identifier is three texts of any bytes: Call-ID, local tag, remote tag. The lent bytes and the used length are
   as for a store of records: refused, every byte and used stay; accepted, bytes past the new used length stay. 3: used over
   store_len, or used bytes that aren't of the layout. */

/* The next RSeq number of a dialog, in rseq: where none is held, the low 31 bits of n, at least 1 (n is to be random); otherwise
   the one held and 1, or 4,294,967,295 again. Refuses with 1, 3, 18. */
uint8_t sip_dialog_rseq_next(const uint8_t *call_id, size_t call_id_len, const uint8_t *local_tag, size_t local_tag_len,
                             const uint8_t *remote_tag, size_t remote_tag_len, uint32_t n,
                             uint8_t *store, size_t store_len, size_t *used, uint32_t *rseq);

/* The number that is held for a dialog. Refuses with 1, 3, 15 (none is held). */
uint8_t sip_dialog_rseq_current(const uint8_t *call_id, size_t call_id_len, const uint8_t *local_tag, size_t local_tag_len,
                                const uint8_t *remote_tag, size_t remote_tag_len,
                                const uint8_t *store, size_t store_len, size_t used, uint32_t *rseq);

/* Drops the number of a dialog; where none is held, nothing changes. Refuses with 1, 3. */
uint8_t sip_dialog_rseq_remove(const uint8_t *call_id, size_t call_id_len, const uint8_t *local_tag, size_t local_tag_len,
                               const uint8_t *remote_tag, size_t remote_tag_len,
                               uint8_t *store, size_t store_len, size_t *used);

/* How many dialogs have a number, in count; in empty whether none has (1) or some have (0). Refuse with 3. */
uint8_t sip_dialog_rseq_len(const uint8_t *store, size_t store_len, size_t used, size_t *count);
uint8_t sip_dialog_rseq_is_empty(const uint8_t *store, size_t store_len, size_t used, uint8_t *empty);

/* ---- PRACK lists: the reliable provisional responses of a dialog that wait for their PRACK (RFC 3262), in a store of their own
   (docs/LAYOUTS.md, "The PRACK store"). A dialog is named by one text of any bytes, which may be empty. Held for it are the time of
   its last cleanup and, maybe, a list of responses, at most the site's pending; an empty list is not the same as none. The lent bytes
   and the used length are as for a store of records, but for 19 to 24 of validate; neither the text nor the block may lie in the lent
   store. 3: used over store_len, used bytes that aren't of the layout, or any dialog's list longer than the site's pending. A dialog
   takes at most 12 bytes, 20 for each of the site's pending (652 in all where it is 32), and the length of its text.

   time is the caller's clock, in nanoseconds, one clock for all calls on a store; where it goes back, no time has passed. register,
   validate and get_pending clean the dialog's list first: where nothing is held for it, or the site's cleanup or longer after its last
   cleanup, they store time as that of the last cleanup and drop the responses that are acknowledged or were registered longer ago than
   the site's timeout. No other function cleans. So validate, with 19 and 20 too, and get_pending of a dialog of which nothing is held
   make the store larger, by 11 bytes and the length of its text; no cleanup takes that back, only sip_dialog_prack_remove_dialog. */

/* Registers a response that was sent: not acknowledged, at the end of the dialog's list. Where the site's pending are in it, the
   first is dropped. rseq and code are the response's; cseq and method (of enum sip_dialog_method, otherwise 28) those of the request that
   it answers, not the PRACK's. Any numbers are taken, also ones that are in the list. Refuses with 30, 1, 28, 3, 18 (the response
   doesn't fit). */
uint8_t sip_dialog_prack_register(sip_dialog_settings settings, const uint8_t *id, size_t id_len, uint32_t rseq, uint32_t cseq,
    uint8_t method, uint16_t code, uint64_t time, uint8_t *store, size_t store_len, size_t *used);

/* Holds the RAck of a PRACK's block against the dialog's list. The first response of its RSeq decides: it is marked as acknowledged,
   and rseq, cseq and method are the RAck's. Refuses with 30, 1, 2, 3, 18 (the time of a dialog of which nothing is held doesn't fit;
   nothing is changed), 19 (RAck absent or unreadable), 20 (no list), 21 (no such RSeq), 22 (another CSeq), 23 (another method), 24 (already
   acknowledged). With 19 to 24 the cleaned list stays: the store's bytes and used may then change, used up or down; the other
   numbers keep their values. */
uint8_t sip_dialog_prack_validate(sip_dialog_settings settings, const uint8_t *id, size_t id_len, const uint8_t *block, size_t block_len,
    uint64_t time, uint8_t *store, size_t store_len, size_t *used, uint32_t *rseq, uint32_t *cseq, uint8_t *method);

/* Whether the first response of an RSeq in the dialog's list is acknowledged (1); 0 also where there is no list or no such RSeq. It
   changes no byte of the store. Refuses with 30, 1, 3. */
uint8_t sip_dialog_prack_is_pracked(sip_dialog_settings settings, const uint8_t *id, size_t id_len, uint32_t rseq, const uint8_t *store,
    size_t store_len, size_t used, uint8_t *pracked);

/* Writes the responses of the dialog that aren't acknowledged to the front of out, in list order, each as its RSeq in four bytes and
   its code in two, the highest first, and answers in written how many bytes it wrote: at most 6 for each of
   the site's pending, 192 where it is 32. out must not lie in the store. Refuses with 30, 1, 3, 18 (out, or the store, is too small;
   nothing is changed). */
uint8_t sip_dialog_prack_get_pending(sip_dialog_settings settings, const uint8_t *id, size_t id_len, uint64_t time, uint8_t *store,
    size_t store_len, size_t *used, uint8_t *out, size_t out_len, size_t *written);

/* Drops all that is held for a dialog, the time too; where nothing is held, nothing changes. Refuses with 30, 1, 3. */
uint8_t sip_dialog_prack_remove_dialog(sip_dialog_settings settings, const uint8_t *id, size_t id_len, uint8_t *store, size_t store_len,
    size_t *used);

/* Drops every acknowledged response of an RSeq from the dialog's list, which may become empty; where there is none, nothing changes.
   Refuses with 30, 1, 3. */
uint8_t sip_dialog_prack_remove_pracked(sip_dialog_settings settings, const uint8_t *id, size_t id_len, uint32_t rseq, uint8_t *store,
    size_t store_len, size_t *used);

/* ---- Counts of dialogs */

/* The count with one more; the largest number stays. */
uint64_t sip_dialog_record_created(uint64_t created);
uint64_t sip_dialog_record_terminated(uint64_t terminated);

/* ---- Who sets a session interval: one offer (RFC 4028) as a contest, in whole seconds. The caller requests an interval with a
   Min-SE; the callee then picks its minimum and its preference, 90 s or more each, and answers as
   sip_dialog_negotiate_session_expires does. After 13 the caller tries once more, with the minimum that came with it as interval
   and Min-SE, if that is at most 86,400 s. */

/* What the callee can force: has_first 1 with the least and the most interval that its first answer can be, has_retry 1 with those
   of its answer to the retry; or 0 where it can force none (the two numbers keep their values). only_requested 1 where its first
   answer can only be the requested interval or 13, else 0. Refuses with 13, which least then answers in seconds (a Min-SE below
   90: 90; otherwise a request below the Min-SE: the Min-SE), and 14 (otherwise a request above 86,400). */
uint8_t sip_dialog_interval_contest(uint64_t requested, uint64_t min_se, uint8_t *has_first, uint64_t *first_least,
                                    uint64_t *first_most, uint8_t *has_retry, uint64_t *retry_least, uint64_t *retry_most,
                                    uint8_t *only_requested, uint64_t *least);

/* ---- Refusals in the worst minute: a run of request verdicts in lent bytes (docs/LAYOUTS.md, "The run of verdicts"), of which `used`
   are used: at most SIP_DIALOG_RUN_SIZE of them, 4,096 verdicts. An empty run has used 0. Refused, every byte and used stay;
   accepted, bytes past the new used length stay. 3: used over run_len, or used bytes that aren't of the layout. */

enum sip_dialog_run {
    SIP_DIALOG_ENTRY_SIZE = 9,   /* the bytes of a verdict */
    SIP_DIALOG_RUN_SIZE = 36864  /* the bytes of 4,096 */
};

/* Adds a verdict at the end: its time in nanoseconds, and its number, 0 where the request was taken (what sip_dialog_request returned). A
   time below the last one is taken as that one. The 4,097th drops the oldest; then used stays. Refuses with 3, 18. */
uint8_t sip_dialog_add_verdict(uint64_t time, uint8_t number, uint8_t *run, size_t run_len, size_t *used);

/* The most refusals (numbers other than 0) in any 60 s that start at a verdict, the start included and the end excluded, in refusals; the
   earliest start that has them in start, with found 1. An empty run gives refusals 0 and found 0, and start keeps its value. Refuses with 3. */
uint8_t sip_dialog_worst_minute(const uint8_t *run, size_t run_len, size_t used, size_t *refusals, uint8_t *found, uint64_t *start);

#ifdef __cplusplus
}
#endif

#endif
