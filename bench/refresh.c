/* One call of the refresh test: refresh CALL SECONDS ELAPSED, CALL being numbers or image. Prints its answer. */
#include "sip_dialog.h"
#include <inttypes.h>
#include <stdio.h>
#include <stdlib.h>
#include <string.h>

int main(int count, char **words)
{
    if (count != 4)
        return 2;
    uint32_t seconds = (uint32_t)strtoul(words[2], NULL, 10);
    uint64_t elapsed = strtoull(words[3], NULL, 10);
    if (strcmp(words[1], "numbers") == 0) {
        printf("%d\n", sip_dialog_needs_refresh(true, seconds, elapsed));
        return 0;
    }
    /* Document 01's example with session seconds, bit 10, in place of the remote number. */
    uint8_t image[] = "\x04\x7f\0\2c1\0\1L\0\1R\2\0\7sip:r@h\0\7sip:l@h\0\7sip:r@h\0\0\0\0";
    size_t length = sizeof image - 1;
    for (size_t i = 0; i < 4; i++)
        image[length - 4 + i] = (uint8_t)(seconds >> (24 - 8 * i));
    uint8_t due = 2;
    int refused = sip_dialog_image_needs_refresh(SIP_DIALOG_RUST_SETTINGS, image, length, elapsed, &due);
    printf("%d %d\n", refused, due);
    return refused;
}
