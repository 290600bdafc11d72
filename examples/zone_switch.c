/*
 * A zone switch of a fire alarm installation, as a complete program. The control desk opens, uses and closes speech lines by
 * SIP requests. The switch holds one dialog record for each line, asks for each request whether it may move that record, and
 * acts on the verdict. Build it with
 *
 *     cc -Iinclude examples/zone_switch.c target/staticlib/libsip_dialog.a -o zone_switch
 */
#include <stdint.h>
#include <stdio.h>
#include <stdlib.h>
#include <string.h>

#include "sip_dialog.h"

#define DESK_URI "sip:desk@control.example"
#define DESK_TAG "desk"
#define OUR_TAG "panel"

/* A text as the library takes it: where it starts, and how many bytes it has. */
#define TEXT(text) (const uint8_t *)(text), strlen(text)

/* All that is remembered between two calls: the records, how many bytes they use, and the two counts; and the verdicts of the
   requests, with how many bytes they use. */
static uint8_t store[4096];
static size_t used;
static uint64_t created;
static uint64_t terminated;
static uint8_t verdicts[SIP_DIALOG_RUN_SIZE];
static size_t verdicts_used;

/* What the site has set: these are the Rust's own figures. Every call on the store gets the same for the store's whole life. */
static const sip_dialog_settings site = {.cseq_jump = 1000, .pending = 10, .cleanup_seconds = 300, .timeout_seconds = 300, .early_cap = 100};

/* The clock, in nanoseconds: here a request comes every 20 s. */
static uint64_t now;

enum { SECOND = 1000000000 };

/* What a request's verdict means to the people at the switch. */
static const char *words(uint8_t number)
{
    switch (number) {
    case SIP_DIALOG_ACCEPTED:
        return "taken";
    case SIP_DIALOG_TEXT_TOO_LONG:
        return "refused, longer than 8,192 bytes";
    case SIP_DIALOG_MALFORMED:
        return "refused, not a header block";
    case SIP_DIALOG_BAD_STORE:
        return "refused, the store is damaged";
    case SIP_DIALOG_MISSING_HEADER:
        return "refused, no CSeq that can be read";
    case SIP_DIALOG_CSEQ_ZERO:
    case SIP_DIALOG_CSEQ_TOO_LARGE:
        return "refused, its number is 0 or over 2,147,483,647";
    case SIP_DIALOG_INVALID_CSEQ:
        return "refused, an old number, or an ACK of another request";
    case SIP_DIALOG_CSEQ_JUMP_TOO_LARGE:
        return "refused, its number is over 1,000 above the last one";
    case SIP_DIALOG_NOT_FOUND:
        return "refused, no such line";
    case SIP_DIALOG_NO_ROOM:
        return "refused, no room left in the store";
    default:
        return "refused";
    }
}

/* For calls that must not be refused here: says which one was, and ends the program. */
static void must(const char *call, uint8_t number)
{
    if (number != SIP_DIALOG_ACCEPTED) {
        printf("%s: refused (%u)\n", call, (unsigned)number);
        exit(EXIT_FAILURE);
    }
}

/* The same for a text that was cut off: length is what snprintf answered. */
static void must_fit(int length, size_t room)
{
    if (length < 0 || (size_t)length >= room) {
        puts("a text is too long");
        exit(EXIT_FAILURE);
    }
}

/* The headers of a message about a line: those of a request from the desk, or of our response to it. */
static void write_block(char *block, size_t room, const char *line, const char *to_tag, const char *cseq, const char *more)
{
    must_fit(snprintf(block, room,
                      "Call-ID: %s@control.example\r\n"
                      "From: <" DESK_URI ">;tag=" DESK_TAG "\r\n"
                      "To: <sip:%s@panel.example>%s\r\n"
                      "CSeq: %s\r\n"
                      "%s",
                      line, line, to_tag, cseq, more),
             room);
}

/* The desk has sent an INVITE with CSeq 7, and we have answered: makes the record and puts it into the store. */
static void open_line(const char *line, uint16_t status)
{
    static uint8_t image[1024];
    char invite[512], response[512], our_uri[64];
    size_t length = 0;
    uint64_t least = 0;

    write_block(invite, sizeof invite, line, "", "7 INVITE",
                "Contact: <sip:desk@192.0.2.10>\r\nRecord-Route: <sip:proxy.control.example;lr>\r\n");
    write_block(response, sizeof response, line, ";tag=" OUR_TAG, "7 INVITE",
                sip_dialog_is_success(status) ? "Session-Expires: 1800;refresher=uac\r\n" : "");
    must_fit(snprintf(our_uri, sizeof our_uri, "sip:%s@panel.example", line), sizeof our_uri);

    must("new_uas", sip_dialog_new_uas(TEXT("INVITE"), TEXT(invite), status, TEXT(response), TEXT(our_uri), TEXT(DESK_URI),
                                       image, sizeof image, &length, &least));
    must("put", sip_dialog_put(site, image, length, store, sizeof store, &used, &created));
    printf("INVITE for %s, answered %u: record held\n", line, (unsigned)status);
}

/* Terminates the record that a taken BYE names. from_request calls the tag of From local; in a request from the desk it is
   the remote one, and the tag of To is ours. */
static void close_line(const char *bye)
{
    const uint8_t *block = (const uint8_t *)bye;
    size_t call_id = 0, call_id_len = 0, from = 0, from_len = 0, to = 0, to_len = 0;

    must("from_request", sip_dialog_from_request(TEXT(bye), &call_id, &call_id_len, &from, &from_len, &to, &to_len));
    must("terminate", sip_dialog_terminate(site, block + call_id, call_id_len, block + to, to_len, block + from, from_len,
                                           store, sizeof store, &used));
    puts("    the line is closed");
}

/* Asks whether a request may move its record. A refused one leaves every record as it was, and the line as it is. */
static void judge(const char *method, const char *block)
{
    uint8_t number = sip_dialog_request(site, TEXT(method), TEXT(block), store, sizeof store, &used);

    must("add_verdict", sip_dialog_add_verdict(now, number, verdicts, sizeof verdicts, &verdicts_used));
    now += 20 * (uint64_t)SECOND;
    printf("%s (%u)\n", words(number), (unsigned)number);
    if (number == SIP_DIALOG_BAD_STORE) {
        exit(EXIT_FAILURE);
    }
    if (number == SIP_DIALOG_ACCEPTED && strcmp(method, "BYE") == 0) {
        close_line(block);
    }
}

static void receive(const char *method, const char *number, const char *line)
{
    char block[512], cseq[32];

    must_fit(snprintf(cseq, sizeof cseq, "%s %s", number, method), sizeof cseq);
    write_block(block, sizeof block, line, ";tag=" OUR_TAG, cseq, "");
    printf("%s %s for %s: ", method, number, line);
    judge(method, block);
}

/* One line for each record: Call-ID, our tag, the desk's tag. Each is written as two length bytes and its bytes. */
static void print_identifiers(void)
{
    static uint8_t ids[4096];
    size_t count = 0, length = 0, at = 0, part = 0;

    must("count", sip_dialog_count(site, store, sizeof store, used, &count));
    must("all_ids", sip_dialog_all_ids(site, store, sizeof store, used, ids, sizeof ids, &length));
    printf("%zu records\n", count);
    while (at < length) {
        size_t text_len = (size_t)ids[at] * 256 + ids[at + 1];
        printf("%s%.*s", part == 0 ? "    " : " ", (int)text_len, (const char *)ids + at + 2);
        at += 2 + text_len;
        part = (part + 1) % 3;
        if (part == 0) {
            putchar('\n');
        }
    }
}

/* The minute with the most refused requests, which the people at the switch are to look into. */
static void print_worst_minute(void)
{
    size_t refusals = 0;
    uint8_t found = 0;
    uint64_t start = 0;

    must("worst_minute", sip_dialog_worst_minute(verdicts, sizeof verdicts, verdicts_used, &refusals, &found, &start));
    printf("%zu refused in the worst minute", refusals);
    if (found) {
        printf(", from %llu s on", (unsigned long long)(start / SECOND));
    }
    putchar('\n');
}

int main(void)
{
    static uint8_t listing[4096];
    size_t length = 0;

    open_line("hall2", 200);
    open_line("stair1", 200);
    open_line("yard", 200);
    open_line("gate", 180);

    receive("ACK", "7", "hall2");
    receive("ACK", "7", "stair1");
    receive("BYE", "6", "hall2");
    receive("BYE", "1008", "hall2");
    receive("BYE", "8", "lift");
    printf("BYE 8 for hall2, its lines ended by a line feed alone: ");
    judge("BYE", "Call-ID: hall2@control.example\nCSeq: 8 BYE\n");
    receive("INFO", "1007", "stair1");
    receive("BYE", "8", "hall2");
    print_worst_minute();
    print_identifiers();

    must("sweep", sip_dialog_sweep(site, store, sizeof store, &used));
    puts("swept: closed lines are gone");
    must("remove", sip_dialog_remove(site, TEXT("yard@control.example"), TEXT(OUR_TAG), TEXT(DESK_TAG),
                                     store, sizeof store, &used, &terminated));
    puts("removed: yard");
    print_identifiers();
    /* a sweep moves no count */
    printf("created %llu, terminated %llu\n", (unsigned long long)created, (unsigned long long)terminated);

    must("listing", sip_dialog_listing(site, store, used, listing, sizeof listing, &length));
    printf("%.*s", (int)length, (const char *)listing);
    return fflush(stdout) == 0 && !ferror(stdout) ? EXIT_SUCCESS : EXIT_FAILURE;
}
