// Lowers the body on standard input, and prints the listing: the library from C.
#include <stdio.h>

#include "laxirbon.h"

int main(void) {
    static uint8_t document[1 << 20], out[1 << 20];
    size_t length = fread(document, 1, sizeof document, stdin), needed;
    uint32_t status = laxirbon_lower(LAXIRBON_BODY, document, length, out, sizeof out, &needed);
    if (status == LAXIRBON_TOO_SHORT) {
        fprintf(stderr, "the listing takes %zu bytes\n", needed);
    } else {
        fwrite(out, 1, needed, status == LAXIRBON_OK ? stdout : stderr);
    }
    return (int)status;
}
