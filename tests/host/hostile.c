/*
 * Calls the three functions with random and edge arguments, beside a plain statement of document 01
 * written apart from the port, bit by bit. Every answer, every byte of every buffer and every guard
 * byte around them is compared. Before that, what the header has besides the functions: its numbers,
 * names and sizes.
 *
 *     hostile CALLS SEED
 *
 * Status 0: all as stated. 1: a call was not; it is printed.
 */
#include <inttypes.h>
#include <stdio.h>
#include <stdlib.h>
#include <string.h>

#include "stumpvessel.h"

/* What is tested of the header by itself; tests/host/run puts faults in the place of these. */
#ifndef PACKED_BYTES
#define PACKED_BYTES STUMPVESSEL_PACKED_BYTES
#endif
#ifndef REFUSAL_NAME
#define REFUSAL_NAME stumpvessel_refusal_name
#endif
#ifndef VERSION
#define VERSION STUMPVESSEL_VERSION
#endif

/* With EXACT the memory ends where a buffer does, so that a tool that watches memory sees a read past it. */
#ifdef EXACT
#define TAIL 0
#else
#define TAIL 32
#endif

enum { MOST = 600, GUARD = 32, GUARD_BYTE = 0x5c, LARGEST = GUARD + 8 + MOST + TAIL };

/* A buffer that starts at any address, between guard bytes. */
struct lent {
    uint8_t *room;
    uint8_t before[LARGEST];
    size_t size;
    uint8_t *start;
    size_t offset;
    size_t length;
};

static uint64_t state;

static uint64_t word(void)
{
    uint64_t z = state += UINT64_C(0x9e3779b97f4a7c15);
    z = (z ^ (z >> 30)) * UINT64_C(0xbf58476d1ce4e5b9);
    z = (z ^ (z >> 27)) * UINT64_C(0x94d049bb133111eb);
    return z ^ (z >> 31);
}

static size_t below(size_t n)
{
    return (size_t)(word() % n);
}

/* Lengths around eight, none, and any. */
static size_t any_length(size_t most)
{
    static const size_t edges[] = {0, 1, 7, 8, 9, 15, 16, 17, 63, 64, 65};
    size_t n = below(2) ? edges[below(sizeof edges / sizeof *edges)] : below(most + 1);
    return n > most ? most : n;
}

static uint8_t any_width(void)
{
    static const uint8_t edges[] = {0, 1, 8, 31, 32, 33, 55, 56, 57, 63, 64, 65, 128, 255};
    return below(3) ? (uint8_t)below(65) : edges[below(sizeof edges)];
}

/* Random bytes of a length, or no buffer at all. */
static void lend(struct lent *b, size_t length)
{
    size_t i;
    b->offset = GUARD + below(8);
    b->length = length;
    b->size = b->offset + length + TAIL;
    free(b->room);
    b->room = malloc(b->size);
    if (b->room == NULL)
        abort();
    memset(b->room, GUARD_BYTE, b->size);
    for (i = 0; i < length; i++)
        b->room[b->offset + i] = (uint8_t)word();
    memcpy(b->before, b->room, b->size);
    b->start = length == 0 && below(2) ? NULL : b->room + b->offset;
}

/* What the buffer should hold after the call is what it held before, with these bytes at its start. */
static int left_with(const struct lent *b, const uint8_t *bytes, size_t count)
{
    uint8_t expected[LARGEST];
    memcpy(expected, b->before, b->size);
    memcpy(expected + b->offset, bytes, count);
    return memcmp(expected, b->room, b->size) == 0;
}

static int untouched(const struct lent *b)
{
    return memcmp(b->before, b->room, b->size) == 0;
}

/* ---- document 01, one bit at a time */

static int bit_of(const uint8_t *bytes, uint64_t i)
{
    return bytes[i / 8] >> (i % 8) & 1;
}

static uint8_t stated_width(uint64_t amplitude)
{
    uint8_t bits = 0;
    while (amplitude != 0) {
        bits++;
        amplitude >>= 1;
    }
    return bits > 56 ? 64 : bits;
}

/* Whether a word of the list has a bit at the width or above. */
static int too_wide(const uint8_t *list, size_t length, uint8_t width)
{
    size_t i;
    for (i = 0; i < 8 * length; i++)
        if (i % 64 >= width && bit_of(list, i))
            return 1;
    return 0;
}

static uint8_t stated_pack(const struct lent *words_lent, uint8_t width, size_t room, uint8_t *packed, size_t *size)
{
    const uint8_t *bytes = words_lent->room + words_lent->offset;
    size_t words = words_lent->length / 8;
    size_t i, bit;
    *size = 0;
    if (width > 64)
        return 1;
    if (words_lent->length % 8 != 0)
        return 3;
    if (too_wide(bytes, words_lent->length, width))
        return 2;
    if (room < (words * width + 7) / 8)
        return 4;
    *size = (words * width + 7) / 8;
    memset(packed, 0, *size);
    for (i = 0; i < words; i++)
        for (bit = 0; bit < width; bit++)
            if (bit_of(bytes, 64 * i + bit))
                packed[(i * width + bit) / 8] |= (uint8_t)(1u << ((i * width + bit) % 8));
    return 0;
}

static uint8_t stated_read(const struct lent *column, uint8_t width, uint32_t index, size_t room, uint8_t value[8])
{
    const uint8_t *bytes = column->room + column->offset;
    uint64_t bit;
    if (width > 64 || (width > 56 && width < 64))
        return 1;
    if (((uint64_t)index + 1) * width > 8 * (uint64_t)column->length)
        return 3;
    if (room < 8)
        return 4;
    memset(value, 0, 8);
    for (bit = 0; bit < width; bit++)
        if (bit_of(bytes, (uint64_t)index * width + bit))
            value[bit / 8] |= (uint8_t)(1u << (bit % 8));
    return 0;
}

/* ---- the header by itself */

/* values * width can need more than 64 bits. */
__extension__ typedef unsigned __int128 wide;

static unsigned long sizes;

/* Of so many values at every width: the size that is stated, ceil(values * width / 8), wherever that is a size_t. */
static int sizes_hold(size_t values)
{
    int width;
    for (width = 0; width <= 64; width++) {
        wide bits = (wide)values * (wide)width, stated = bits / 8 + (bits % 8 != 0);
        if (stated > SIZE_MAX)
            continue;
        sizes++;
        /* The sums and the product tell a macro that does not keep its arguments, or itself, together. */
        if (3 * PACKED_BYTES(values - 1 + 1, width - 1 + 1) != (size_t)(3 * stated)) {
            printf("%zu values at width %d: %zu bytes\n", values, width, PACKED_BYTES(values, width));
            return 0;
        }
    }
    return 1;
}

static int try_sizes(void)
{
    /* no list of words has more */
    const size_t largest = SIZE_MAX / 8;
    size_t i;
    int power;
    for (i = 0; i <= 5000; i++)
        if (!sizes_hold(i) || !sizes_hold(largest - i) || !sizes_hold(SIZE_MAX - i) ||
            !sizes_hold((size_t)word() >> below(64)))
            return 0;
    for (power = 0; power < 64; power++)
        if (!sizes_hold(((size_t)1 << power) - 1) || !sizes_hold((size_t)1 << power) ||
            !sizes_hold(((size_t)1 << power) + 1))
            return 0;
    return 1;
}

static int try_names(void)
{
    static const char *const names[] = {"done",   "BadWidth",    "TooWide", "OutOfData", "NoRoom", "EntriesFull",
                                        "Closed", "NoSuchIndex", "Damaged"};
    static const int numbers[] = {STUMPVESSEL_DONE,        STUMPVESSEL_BAD_WIDTH,     STUMPVESSEL_TOO_WIDE,
                                  STUMPVESSEL_OUT_OF_DATA, STUMPVESSEL_NO_ROOM,       STUMPVESSEL_ENTRIES_FULL,
                                  STUMPVESSEL_CLOSED,      STUMPVESSEL_NO_SUCH_INDEX, STUMPVESSEL_DAMAGED};
    int answer;
    for (answer = 0; answer < 256; answer++) {
        const char *stated = answer < 9 ? names[answer] : "unknown";
        if (strcmp(REFUSAL_NAME((uint8_t)answer), stated) != 0 || (answer < 9 && numbers[answer] != answer)) {
            printf("%d has the name %s, stated %s\n", answer, REFUSAL_NAME((uint8_t)answer), stated);
            return 0;
        }
    }
    return 1;
}

static int try_version(void)
{
    char stated[64];
    snprintf(stated, sizeof stated, "%d.%d.%d", STUMPVESSEL_VERSION_MAJOR, STUMPVESSEL_VERSION_MINOR, STUMPVESSEL_VERSION_PATCH);
    if (strcmp(stated, VERSION) == 0)
        return 1;
    printf("version %s, by its numbers %s\n", VERSION, stated);
    return 0;
}

/* ---- the calls */

static unsigned long counts[3][5];

static int try_width(void)
{
    uint64_t amplitude = word() >> below(64);
    uint8_t answer;
    if (below(4) == 0)
        amplitude = (UINT64_C(1) << below(64)) - (uint64_t)below(2);
    answer = stumpvessel_width(amplitude);
    counts[0][0]++;
    if (answer == stated_width(amplitude))
        return 1;
    printf("width of %" PRIu64 ": %d\n", amplitude, answer);
    return 0;
}

/* A list whose words fit the width, most often but for one or none of its words. */
static void narrow_words(struct lent *words, uint8_t width)
{
    size_t i, wide = below(4) ? MOST : below(words->length / 8 + 1);
    uint8_t *bytes = words->room + words->offset;
    for (i = 0; i < 8 * words->length; i++)
        if (i % 64 >= width && i / 64 != wide)
            bytes[i / 8] &= (uint8_t)~(1u << (i % 8));
    memcpy(words->before, words->room, words->size);
}

static struct lent list, data, output;

static int try_pack(void)
{
    uint8_t packed[MOST];
    uint8_t width = any_width();
    size_t length = any_length(MOST - MOST % 8), size, needed;
    uint8_t answer, stated;
    if (below(8))
        length -= length % 8;
    lend(&list, length);
    narrow_words(&list, width);
    needed = (length / 8 * width + 7) / 8;
    lend(&output, below(2) && needed <= MOST ? needed - (needed > 0 && below(3) == 0) : any_length(MOST));
    stated = stated_pack(&list, width, output.length, packed, &size);
    answer = stumpvessel_pack(list.start, list.length, width, output.start, output.length);
    counts[1][stated]++;
    if (answer == stated && untouched(&list) && left_with(&output, packed, size))
        return 1;
    printf("pack of %zu bytes at width %d into %zu: %d, stated %d\n", list.length, width, output.length, answer, stated);
    return 0;
}

static int try_read(void)
{
    uint8_t value[8];
    uint8_t width = any_width();
    size_t values;
    uint32_t index;
    uint8_t answer, stated;
    lend(&data, any_length(MOST));
    lend(&output, below(4) ? 8 + below(20) : below(9));
    values = width == 0 ? 100 : 8 * data.length / width;
    index = below(8) == 0 ? (uint32_t)word() : (uint32_t)(below(values + 2));
    stated = stated_read(&data, width, index, output.length, value);
    answer = stumpvessel_read(data.start, data.length, width, index, output.start, output.length);
    counts[2][stated]++;
    if (answer == stated && untouched(&data) && left_with(&output, value, stated == 0 ? 8 : 0))
        return 1;
    printf("read of index %" PRIu32 " at width %d of %zu bytes into %zu: %d, stated %d\n", index, width, data.length,
           output.length, answer, stated);
    return 0;
}

int main(int argc, char **argv)
{
    static const char *const names[3] = {"width", "pack", "read"};
    unsigned long calls, i;
    int kind;
    if (argc != 3) {
        fprintf(stderr, "hostile CALLS SEED\n");
        return 2;
    }
    calls = strtoul(argv[1], NULL, 10);
    state = strtoul(argv[2], NULL, 10);
    if (!try_sizes() || !try_names() || !try_version()) {
        printf("the header by itself, seed %s\n", argv[2]);
        return 1;
    }
    printf("header %lu sizes, 256 names, version %s\n", sizes, VERSION);
    for (i = 0; i < calls; i++) {
        size_t which = below(10);
        if (!(which == 0 ? try_width() : which < 5 ? try_pack() : try_read())) {
            printf("call %lu, seed %s\n", i, argv[2]);
            return 1;
        }
    }
    free(list.room);
    free(data.room);
    free(output.room);
    for (kind = 0; kind < 3; kind++)
        printf("%-6s%lu done, refused 1: %lu, 2: %lu, 3: %lu, 4: %lu\n", names[kind], counts[kind][0], counts[kind][1],
               counts[kind][2], counts[kind][3], counts[kind][4]);
    return 0;
}
