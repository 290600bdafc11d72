/*
 * One look-up of a header, for callgrind.
 * header SPELLING NAME: sip_dialog_header of NAME in the block of a BYE with eight lines, whose names are `full` or `short`.
 */
#include "sip_dialog.h"

#include <stdio.h>
#include <string.h>

static const char full[] = "Via: SIP/2.0/UDP 192.0.2.4;branch=z9hG4bKnashds7\r\n"
                           "Max-Forwards: 70\r\n"
                           "From: Bob <sip:bob@biloxi.example.org>;tag=a6c85cf\r\n"
                           "To: Alice <sip:alice@atlanta.example.org>;tag=1928301774\r\n"
                           "Call-ID: a84b4c76e66710\r\n"
                           "CSeq: 231 BYE\r\n"
                           "Contact: <sip:bob@192.0.2.4>\r\n"
                           "Content-Length: 0\r\n";

static const char brief[] = "Via: SIP/2.0/UDP 192.0.2.4;branch=z9hG4bKnashds7\r\n"
                            "Max-Forwards: 70\r\n"
                            "f: Bob <sip:bob@biloxi.example.org>;tag=a6c85cf\r\n"
                            "t: Alice <sip:alice@atlanta.example.org>;tag=1928301774\r\n"
                            "i: a84b4c76e66710\r\n"
                            "CSeq: 231 BYE\r\n"
                            "m: <sip:bob@192.0.2.4>\r\n"
                            "Content-Length: 0\r\n";

int main(int argc, char **argv)
{
    const char *block;
    uint8_t found = 0;
    size_t place = 0, length = 0;
    if (argc != 3) {
        fprintf(stderr, "usage: header full|short NAME\n");
        return 2;
    }
    block = strcmp(argv[1], "short") == 0 ? brief : full;
    if (sip_dialog_header((const uint8_t *)block, strlen(block), (const uint8_t *)argv[2], strlen(argv[2]), &found, &place, &length) != 0) {
        return 1;
    }
    printf("%d %.*s\n", found, (int)length, block + place);
    return 0;
}
