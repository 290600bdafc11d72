/*
 * What tests/c_face.c and the other tests/c_face_*.c share: checks, lent bytes, and three record images with ways to change them.
 */
#ifndef C_FACE_H
#define C_FACE_H

#include "sip_dialog.h"

#include <stdio.h>
#include <stdlib.h>
#include <string.h>

enum {
    KEPT = 0xA5,    /* what every lent number and byte holds before a call */
    LONGEST = 8192, /* the longest text or block that is taken */
    ROUTES = 50,    /* the most routes of a block */
    LARGEST = 12000 /* the largest image here */
};

/* What every call is given, but those of tests/c_face_settings.c. */
#define RUST SIP_DIALOG_RUST_SETTINGS

#define CHECK(expression) check((expression), __FILE__, __LINE__, #expression)

void check(bool holds, const char *file, int line, const char *expression);

/* ---- Lent bytes */

struct run {
    const void *text;
    uint8_t *bytes;
    size_t length;
};

/* Memory that ends where its bytes end, so that valgrind sees any step past it. */
uint8_t *allocate(size_t length);

/* A text as a byte run; NULL is lent as a null pointer with length 0. */
struct run lend(const char *text);

/* Bytes as a byte run; none are lent as a null pointer. */
struct run lend_bytes(const uint8_t *bytes, size_t length);

/* A text of any bytes; without any it is lent as a null pointer where `bytes` is one. */
struct text {
    const char *bytes;
    size_t length;
};

struct run lend_text(struct text t);

/* A byte run as the two arguments of a call. */
#define RUN(r) (r).bytes, (r).length

/* Checks that the bytes are as they were lent. */
void take_back(struct run r);

/* A text of `total` bytes: head, then so many of one byte, then tail. The buffer has room for them and a zero. */
const char *filled(char *buffer, const char *head, char byte, const char *tail, size_t total);

/* A header block of `total` bytes that begins with these lines. */
const char *long_block(char *buffer, const char *lines, size_t total);

/* ---- Bytes lent to be written, between guard bytes */

/* `expected` is how all of them, and the guard bytes, are to be found after the call. */
struct area {
    size_t room;
    uint8_t *memory;
    uint8_t *bytes;
    uint8_t *expected;
};

/* The content, as far as there is room; all other bytes differ from their neighbours. No bytes at all are a null pointer. */
struct area lend_area(const uint8_t *content, size_t length, size_t room);

/* Whether the front is now these bytes and all others are as they were. */
bool front_became(struct area a, const uint8_t *bytes, size_t length);

/* Runs the tests with guard bytes, and then with none, so that valgrind sees any step past the lent bytes. */
void run_guarded(void (*const tests[])(void), size_t count);

/* Of three numbers the middle one is lent: whether it is as expected, and the two around it are KEPT. */
#define IS(numbers, expected, field)                                                                                   \
    ((numbers)->field[0] == KEPT && (numbers)->field[1] == (expected)->field && (numbers)->field[2] == KEPT)

/* ---- Record images */

struct image {
    size_t length;
    uint8_t bytes[LARGEST];
};

/* Bytes as a string, whose closing zero isn't one of them. */
#define IMAGE(text) image_of((const uint8_t *)(text), sizeof(text) - 1)

struct image image_of(const uint8_t *bytes, size_t length);
struct image nothing(void);
struct image join(struct image a, struct image b);

/* Document 01's example: Call-ID "c1", tags "L" and "R", Confirmed, we are uas, remote number 7. */
struct image sheet_image(void);

/* Every field: Call-ID "id@x", tags "a" and "bc", Early, we are uac, secure by the local URI, local number 16,909,060,
   remote 9, last ACK 8, 1,800 s, uas refreshes, two routes. */
struct image full_image(void);

/* No field but those that always stand: Early, we are uas. */
struct image least_image(void);

/* Where their fields begin, and how long they are. */
enum {
    SHEET_CALL_ID = 2,
    SHEET_STATE = 12,
    SHEET_TARGET = 13,
    SHEET_REMOTE = 40,
    SHEET_LENGTH = 44,
    FULL_STATE = 15,
    FULL_TARGET = 16,
    FULL_LOCAL = 45,
    FULL_REMOTE = 49,
    FULL_ACK = 53,
    FULL_SECONDS = 57,
    FULL_REFRESHER = 61,
    FULL_ROUTES = 65,
    FULL_LENGTH = 88,
    LEAST_STATE = 2,
    LEAST_TARGET = 3,
    LEAST_LENGTH = 30
};

struct image with_byte(struct image i, size_t at, uint8_t byte);
struct image with_number(struct image i, size_t at, uint32_t number);

/* A number that the image has not yet, before the bytes from a place on; the map is given whole. */
struct image with_more(struct image i, unsigned map, size_t at, uint32_t number);

struct image with_length(struct image i, size_t length);

/* Another text at the place of a text's two length bytes. */
struct image with_text(struct image i, size_t at, const char *text);

/* ---- Tests of the calls on stores, in tests/c_face_store.c */

void test_stores(void);

/* ---- Tests of the calls on RSeq stores, in tests/c_face_rseq.c */

void test_rseq_stores(void);

/* ---- Tests of the calls on PRACK stores, in tests/c_face_prack.c */

void test_prack_stores(void);

/* ---- Tests of the calls on runs of verdicts, in tests/c_face_verdicts.c */

void test_verdicts(void);

/* ---- Tests of the settings, in tests/c_face_settings.c */

void test_settings(void);

/* ---- Rows of docs/DIFFERENCES.md, in tests/c_face_rfc.c */

void test_rfc_rows(void);

#endif
