/*
 * One reading of a tag, for callgrind.
 * tag KIND BYTES: sip_dialog_extract_tag of a value of so many bytes, all of that kind, which has no tag.
 */
#include "sip_dialog.h"

#include <stdio.h>
#include <stdlib.h>
#include <string.h>

enum { MOST = 8192 };

/* What a value begins with, and what is then repeated. */
static const struct {
    const char *kind;
    const char *first;
    const char *rest;
} kinds[] = {
    {"plain", "", "x"},
    {"quotes", "", "\""},
    {"brackets", "", "<"},
    {"pairs", "", "<>"},
    {"backslashes", "", "\\"},
    {"quoted", "\"", "x"},
    {"covered", "\"", "\\"},
    {"held", "\"", ";"},
    {"semicolons", "", ";"},
    {"segments", "", ";x"},
    {"parameters", "<sip:alice@example.org>", ";p=1"},
};

/* Fills a value of that kind; no where there is none. */
static int fill(const char *kind, uint8_t *value, size_t length)
{
    size_t k, i;
    for (k = 0; k < sizeof kinds / sizeof kinds[0]; k++) {
        if (strcmp(kind, kinds[k].kind) == 0) {
            size_t first = strlen(kinds[k].first);
            size_t rest = strlen(kinds[k].rest);
            for (i = 0; i < length; i++) {
                value[i] = (uint8_t)(i < first ? kinds[k].first[i] : kinds[k].rest[(i - first) % rest]);
            }
            return 1;
        }
    }
    return 0;
}

int main(int count, char **words)
{
    static uint8_t value[MOST];
    size_t length = count == 3 ? strtoul(words[2], NULL, 10) : 0;
    size_t place = 0, tag_length = 0;
    if (length < 1 || length > MOST || !fill(words[1], value, length)) {
        fprintf(stderr, "use: tag KIND BYTES\n");
        return 2;
    }
    return sip_dialog_extract_tag(value, length, &place, &tag_length) == 4 ? 0 : 1;
}
