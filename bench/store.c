/*
 * Calls on stores of so many records, for callgrind and for the clock.
 * store CALL RECORDS KIND TURNS: CALL is `count` (sip_dialog_count) or `request` (sip_dialog_request, an INVITE on the record in the
 * middle, which is put back between turns). KIND is `plain` (Call-IDs that differ in their first bytes) or `chosen` (Call-IDs alike but
 * for their last bytes, in an order in which a merge compares most). Prints nanoseconds for each call.
 */
#define _POSIX_C_SOURCE 199309L
#include "sip_dialog.h"

#include <stdio.h>
#include <stdlib.h>
#include <string.h>
#include <time.h>

enum { RECORD = 211, CALL_ID = 32, TAG = 16, URI = 26, ROOM = 100 };

#define LOCAL_TAG "1928301774abcdef"
#define REMOTE_TAG "a6c85cf1234567ab"

static uint8_t *put_text(uint8_t *at, const char *text, size_t length)
{
    *at++ = (uint8_t)(length / 256);
    *at++ = (uint8_t)(length % 256);
    memcpy(at, text, length);
    return at + length;
}

/* The bits of n below 2^14, the lowest first: neighbours in the store lie far apart in the order of the numbers. */
static unsigned turned(unsigned n)
{
    unsigned r = 0;
    int k;
    for (k = 0; k < 14; k++) {
        r = r * 2 + n % 2;
        n /= 2;
    }
    return r;
}

/* The Call-ID of the nth record. */
static void write_call_id(char call_id[CALL_ID + 1], unsigned n, int chosen)
{
    if (chosen) {
        sprintf(call_id, "%027d%05u", 0, turned(n));
    } else {
        sprintf(call_id, "%08x%024d", n * 2654435761u, 0);
    }
}

static void write_record(uint8_t *at, unsigned n, int chosen)
{
    char call_id[CALL_ID + 1];
    const char *uri = "sip:panel@zone.example.org";
    uint8_t *end = at;
    *end++ = 0x15;
    *end++ = 0xFF;
    write_call_id(call_id, n, chosen);
    end = put_text(end, call_id, CALL_ID);
    end = put_text(end, LOCAL_TAG, TAG);
    end = put_text(end, REMOTE_TAG, TAG);
    *end++ = 2;
    end = put_text(end, uri, URI);
    end = put_text(end, uri, URI);
    end = put_text(end, uri, URI);
    memcpy(end, "\0\0\0\1\0\0\0\7\0\0\7\10", 12);
    end += 12;
    *end++ = 1;
    end = put_text(end, "sip:proxy@zone.example.org:5060;lr;i=01", (size_t)(at + RECORD - end - 2));
}

/* The stores' records, and the block of a request on the one in the middle. */
struct given {
    size_t records;
    uint8_t *store;
    uint8_t *copy;
    char block[512];
};

static double nanoseconds(void)
{
    struct timespec now;
    clock_gettime(CLOCK_MONOTONIC, &now);
    return (double)now.tv_sec * 1e9 + (double)now.tv_nsec;
}

/* Each is one call: its time, or -1 where it is refused. */
static double count_once(struct given *g)
{
    size_t count = 0;
    double from = nanoseconds();
    uint8_t number = sip_dialog_count(SIP_DIALOG_RUST_SETTINGS, g->store, g->records * RECORD, g->records * RECORD, &count);
    double to = nanoseconds();
    return number == 0 && count == g->records ? to - from : -1;
}

static double request_once(struct given *g)
{
    size_t used = g->records * RECORD;
    double from, to;
    uint8_t number;
    memcpy(g->copy, g->store, used);
    from = nanoseconds();
    number = sip_dialog_request(SIP_DIALOG_RUST_SETTINGS, (const uint8_t *)"INVITE", 6, (const uint8_t *)g->block, strlen(g->block),
        g->copy, g->records * RECORD + ROOM, &used);
    to = nanoseconds();
    return number == 0 ? to - from : -1;
}

static void prepare(struct given *g, int chosen)
{
    char call_id[CALL_ID + 1];
    unsigned i;
    g->store = malloc(g->records * RECORD);
    g->copy = malloc(g->records * RECORD + ROOM);
    for (i = 0; i < g->records; i++) {
        write_record(g->store + (size_t)i * RECORD, i, chosen);
    }
    write_call_id(call_id, (unsigned)(g->records / 2), chosen);
    sprintf(g->block,
        "Via: SIP/2.0/UDP pc33.example.org;branch=z9hG4bK776asdhds\r\nCall-ID: %s\r\nFrom: <sip:alice@example.org>;tag=%s\r\n"
        "To: <sip:bob@example.com>;tag=%s\r\nCSeq: 8 INVITE\r\nContact: <sip:alice@192.0.2.4>\r\n",
        call_id, REMOTE_TAG, LOCAL_TAG);
}

int main(int argc, char **argv)
{
    struct given g;
    double (*once)(struct given *);
    double sum = 0;
    unsigned turns, i;
    if (argc != 5) {
        printf("store CALL RECORDS KIND TURNS\n");
        return 2;
    }
    once = strcmp(argv[1], "request") == 0 ? request_once : count_once;
    g.records = strtoul(argv[2], NULL, 10);
    turns = (unsigned)strtoul(argv[4], NULL, 10);
    prepare(&g, strcmp(argv[3], "chosen") == 0);
    for (i = 0; i < turns; i++) {
        double time = once(&g);
        if (time < 0) {
            printf("store: %s refused\n", argv[1]);
            return 1;
        }
        sum += time;
    }
    printf("%.0f\n", sum / turns);
    free(g.store);
    free(g.copy);
    return 0;
}
