/*
 * The three functions with one fault, put in the place of the real ones by the linker (--wrap), so that
 * the test which calls them is seen to tell it. FAULT says which.
 */
#include <string.h>

#include "stumpvessel.h"

/* What was looked at is kept: a read whose value nothing takes may be left out before it is watched. */
static volatile uint8_t looked_at;

uint8_t __real_stumpvessel_width(uint64_t amplitude);
uint8_t __real_stumpvessel_pack(const uint8_t *, size_t, uint8_t, uint8_t *, size_t);
uint8_t __real_stumpvessel_read(const uint8_t *, size_t, uint8_t, uint32_t, uint8_t *, size_t);
uint8_t __wrap_stumpvessel_width(uint64_t amplitude);
uint8_t __wrap_stumpvessel_pack(const uint8_t *, size_t, uint8_t, uint8_t *, size_t);
uint8_t __wrap_stumpvessel_read(const uint8_t *, size_t, uint8_t, uint32_t, uint8_t *, size_t);

uint8_t __wrap_stumpvessel_width(uint64_t amplitude)
{
    uint8_t width = __real_stumpvessel_width(amplitude);
    /* width 57 kept as 57 */
    return FAULT == 1 && amplitude >> 56 == 1 ? 57 : width;
}

uint8_t __wrap_stumpvessel_pack(const uint8_t *list, size_t list_bytes, uint8_t width, uint8_t *output,
                                size_t output_bytes)
{
    uint8_t answer;
    /* half a list is packed */
    if (FAULT == 2 && list_bytes >= 16)
        return __real_stumpvessel_pack(list, list_bytes - 8, width, output, output_bytes);
    answer = __real_stumpvessel_pack(list, list_bytes, width, output, output_bytes);
    /* a refusal that has written */
    if (FAULT == 3 && answer == STUMPVESSEL_TOO_WIDE && output_bytes > 0)
        output[0] ^= 1;
    /* a byte after the output */
    if (FAULT == 4 && answer == STUMPVESSEL_DONE && output_bytes > 0)
        output[output_bytes] ^= 1;
    /* the wrong refusal first */
    return FAULT == 5 && answer == STUMPVESSEL_OUT_OF_DATA ? STUMPVESSEL_TOO_WIDE : answer;
}

uint8_t __wrap_stumpvessel_read(const uint8_t *data, size_t data_bytes, uint8_t width, uint32_t index,
                                uint8_t *output, size_t output_bytes)
{
    uint8_t answer;
    /* a byte past the data is looked at, which only a tool that watches memory can tell */
    if (FAULT == 8 && data_bytes > 0)
        looked_at = data[data_bytes];
    answer = __real_stumpvessel_read(data, data_bytes, width, index, output, output_bytes);
    /* nine bytes written */
    if (FAULT == 6 && answer == STUMPVESSEL_DONE && output_bytes > 8)
        output[8] = 0;
    /* past the data a 0, as on the March night */
    if (FAULT == 7 && answer == STUMPVESSEL_OUT_OF_DATA && output_bytes >= 8) {
        memset(output, 0, 8);
        return STUMPVESSEL_DONE;
    }
    return answer;
}
