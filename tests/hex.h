/* Bytes in the form of tests/regressions: a mark, and two hexadecimal digits for each byte. */
#ifndef HEX_H
#define HEX_H

#include <stddef.h>
#include <stdint.h>
#include <stdio.h>

static inline void print_hex(const char *mark, const uint8_t *bytes, size_t size)
{
    size_t place;

    printf("%s", mark);
    for (place = 0; place < size; place++) {
        printf(" %02X", bytes[place]);
    }
    printf("\n");
}

#endif
