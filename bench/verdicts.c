/*
 * One call on a run of so many verdicts, for callgrind.
 * verdicts CALL VERDICTS KIND: CALL is `worst_minute` or `add_verdict` (which drops the oldest of 4,096). KIND says how the verdicts lie in
 * time: `one` all at one time, `bursts` 600 at one time and 60 s later the next 600, `seconds` one each second, `minutes` one each 60 s. All
 * are refusals but every third.
 */
#include "sip_dialog.h"

#include <stdio.h>
#include <stdlib.h>
#include <string.h>

#define SECOND UINT64_C(1000000000)

static uint8_t run[SIP_DIALOG_RUN_SIZE];

/* The time of the nth verdict. */
static uint64_t time_of(size_t n, const char *kind)
{
    if (strcmp(kind, "seconds") == 0) {
        return n * SECOND;
    }
    if (strcmp(kind, "minutes") == 0) {
        return n * 60 * SECOND;
    }
    return strcmp(kind, "bursts") == 0 ? n / 600 * 60 * SECOND : 0;
}

/* Writes the run; its used length. */
static size_t prepare(size_t verdicts, const char *kind)
{
    size_t i;
    int byte;
    for (i = 0; i < verdicts; i++) {
        uint64_t time = time_of(i, kind);
        for (byte = 0; byte < 8; byte++) {
            run[i * SIP_DIALOG_ENTRY_SIZE + (size_t)byte] = (uint8_t)(time >> (56 - 8 * byte));
        }
        run[i * SIP_DIALOG_ENTRY_SIZE + 8] = i % 3 == 2 ? 0 : 11;
    }
    return verdicts * SIP_DIALOG_ENTRY_SIZE;
}

int main(int argc, char **argv)
{
    size_t used, refusals = 0;
    uint8_t found = 0, number;
    uint64_t start = 0;
    if (argc != 4) {
        printf("verdicts CALL VERDICTS KIND\n");
        return 2;
    }
    used = prepare(strtoul(argv[2], NULL, 10), argv[3]);
    if (strcmp(argv[1], "add_verdict") == 0) {
        number = sip_dialog_add_verdict(0, 11, run, sizeof run, &used);
    } else {
        number = sip_dialog_worst_minute(run, sizeof run, used, &refusals, &found, &start);
    }
    if (number != 0) {
        printf("verdicts: %s refused %u\n", argv[1], (unsigned)number);
        return 1;
    }
    return 0;
}
