/* Packs the terms of some certificates, reads one back, and shows a refusal by its name. */
#include <inttypes.h>
#include <stdio.h>

#include "stumpvessel.h"

#define TERMS 8

static void put_word(uint8_t *bytes, uint64_t word)
{
    int i;
    for (i = 0; i < 8; i++)
        bytes[i] = (uint8_t)(word >> (8 * i));
}

static uint64_t get_word(const uint8_t *bytes)
{
    uint64_t word = 0;
    int i;
    for (i = 0; i < 8; i++)
        word |= (uint64_t)bytes[i] << (8 * i);
    return word;
}

int main(void)
{
    const uint64_t terms[TERMS] = {12, 24, 0, 6, 36, 12, 1, 24};
    const uint64_t longest = 36;
    uint8_t list[8 * TERMS];
    uint8_t column[STUMPVESSEL_PACKED_BYTES(TERMS, 64)]; /* enough at any width */
    uint8_t value[8];
    uint8_t width = stumpvessel_width(longest);
    size_t size = STUMPVESSEL_PACKED_BYTES(TERMS, width);
    uint8_t answer;
    int i;

    for (i = 0; i < TERMS; i++)
        put_word(list + 8 * i, terms[i]);

    answer = stumpvessel_pack(list, sizeof list, width, column, sizeof column);
    printf("%d terms at %d bits into %zu bytes: %s\n", TERMS, width, size,
           stumpvessel_refusal_name(answer));
    if (answer != STUMPVESSEL_DONE)
        return 1;

    answer = stumpvessel_read(column, size, width, 4, value, sizeof value);
    printf("the term of diver 4: %s, %" PRIu64 " months\n", stumpvessel_refusal_name(answer),
           get_word(value));

    answer = stumpvessel_read(column, size, width, TERMS, value, sizeof value);
    printf("the term of diver %d: refused %d, %s\n", TERMS, answer,
           stumpvessel_refusal_name(answer));

    answer = stumpvessel_pack(list, sizeof list, 5, column, sizeof column);
    printf("the same terms at 5 bits: refused %d, %s\n", answer, stumpvessel_refusal_name(answer));
    return 0;
}
