/*
 * Packed columns: the width of an amplitude, packing a list, one read.
 *
 * A call that refuses answers the number of the refusal and has written nothing.
 *
 * Proved, for every input, are the three functions as Rattle source, against their contracts in
 * crates/stumpvessel/src/lib.rt, which this header puts in words. The proof does not cover the C in
 * this header (declarations, constants, the macro, the inline function) nor the compiler: these are
 * tested, by tests/host/run.
 *
 * What nothing can check for the caller:
 * - A pointer and the length behind it belong together: so many bytes are there, and they may be
 *   read, or in the case of an output written, during the call. No length is above PTRDIFF_MAX.
 * - Every length is a number of bytes, that of a list of words too: n words are 8 * n bytes.
 * - Buffers lent to one call do not overlap, unless both are only read.
 * - Nobody else writes to a lent buffer, or reads an output, during the call.
 * An empty buffer may be any pointer, NULL too, with the length 0. Nothing has to be aligned. The
 * functions keep no state: calls on different buffers may run at the same time, and so may calls
 * that share only buffers which all of them read.
 *
 * The archive, libstumpvessel.a, is for x86-64 and the System V calling convention. It needs no
 * function from outside, nor the C library.
 */
#ifndef STUMPVESSEL_H
#define STUMPVESSEL_H

#include <stddef.h>
#include <stdint.h>

/*
 * The version of this header and its archive. MAJOR rises where a program that was right may have
 * to be changed: a name, a parameter or an answer is another. MINOR rises where something is added.
 * PATCH rises for all else. As long as MAJOR is 0, MINOR rises in its place.
 */
#define STUMPVESSEL_VERSION_MAJOR 0
#define STUMPVESSEL_VERSION_MINOR 1
#define STUMPVESSEL_VERSION_PATCH 0
#define STUMPVESSEL_VERSION "0.1.0"

/*
 * Done, and all refusals of the project. stumpvessel_pack and stumpvessel_read answer one of 0 to 4;
 * stumpvessel_width answers a width and refuses nothing. No function here answers 5 to 8: they are the
 * store's, 8 also that of a forged packer or unpacker. A number has one name wherever it is met.
 */
/* Done. */
#define STUMPVESSEL_DONE 0
/* The width cannot be had: reading takes 0 to 56 and 64, packing 0 to 64. */
#define STUMPVESSEL_BAD_WIDTH 1
/* A value is 2^width or more. */
#define STUMPVESSEL_TOO_WIDE 2
/* The index lies past the data; or the list is not whole words of eight bytes. */
#define STUMPVESSEL_OUT_OF_DATA 3
/* The output is too short. */
#define STUMPVESSEL_NO_ROOM 4
/* The store has no entry left for one more block. */
#define STUMPVESSEL_ENTRIES_FULL 5
/* The store was closed by a flush and takes no more values. */
#define STUMPVESSEL_CLOSED 6
/* The store has no value at that index. */
#define STUMPVESSEL_NO_SUCH_INDEX 7
/* What was handed in cannot have been made by the project: its parts contradict each other. */
#define STUMPVESSEL_DAMAGED 8

/* The name of an answer: "done", "BadWidth" and so on, or "unknown" for a number that is none. */
static inline const char *stumpvessel_refusal_name(uint8_t answer)
{
    switch (answer) {
    case STUMPVESSEL_DONE:
        return "done";
    case STUMPVESSEL_BAD_WIDTH:
        return "BadWidth";
    case STUMPVESSEL_TOO_WIDE:
        return "TooWide";
    case STUMPVESSEL_OUT_OF_DATA:
        return "OutOfData";
    case STUMPVESSEL_NO_ROOM:
        return "NoRoom";
    case STUMPVESSEL_ENTRIES_FULL:
        return "EntriesFull";
    case STUMPVESSEL_CLOSED:
        return "Closed";
    case STUMPVESSEL_NO_SUCH_INDEX:
        return "NoSuchIndex";
    case STUMPVESSEL_DAMAGED:
        return "Damaged";
    default:
        return "unknown";
    }
}

/*
 * How many bytes so many values take when they are packed at a width of 0 to 64:
 * ceil(values * width / 8), as a size_t. It is counted by eights, since values * width could wrap.
 * It holds wherever the answer fits a size_t: at every width for up to SIZE_MAX / 8 values, which is
 * more than a list of words in memory can have, and at small widths for more.
 *
 * A constant expression where its arguments are, so that it can size an array. Each argument is
 * evaluated twice, and none may be negative.
 */
#define STUMPVESSEL_PACKED_BYTES(values, width) \
    ((size_t)(values) / 8 * (size_t)(width) + ((size_t)(values) % 8 * (size_t)(width) + 7) / 8)

#ifdef __cplusplus
extern "C" {
#endif

/*
 * The width in bits at which numbers from 0 to the amplitude can be packed and read: the smallest
 * of 0 to 56 and 64 that holds the amplitude. Refuses nothing.
 */
uint8_t stumpvessel_width(uint64_t amplitude);

/*
 * Packs a list of 64-bit words, each as eight bytes with the least first, at one width of 0 to 64
 * bits. The output then starts with the packed words, STUMPVESSEL_PACKED_BYTES(list_bytes / 8, width)
 * bytes, least bit first; its later bytes stay as they were.
 *
 * list_bytes is not the number of words. Whoever passes that, where it is a multiple of 8, packs only
 * an eighth of them and is answered 0 for it: no call can know that more was meant.
 *
 * Answers 0, or the first of these that holds: STUMPVESSEL_BAD_WIDTH where the width is above 64,
 * STUMPVESSEL_OUT_OF_DATA where list_bytes is not a multiple of 8, STUMPVESSEL_TOO_WIDE where a
 * word is 2^width or more, STUMPVESSEL_NO_ROOM where the output is shorter than the packed words.
 */
uint8_t stumpvessel_pack(const uint8_t *list, size_t list_bytes, uint8_t width, uint8_t *output,
                         size_t output_bytes);

/*
 * Reads the value at an index of packed data into the first eight bytes of the output, least byte
 * first; the output's later bytes stay as they were. Value i of width w is bits i * w to
 * i * w + w - 1 of the data; at width 0 every value is 0 at every index.
 *
 * Data does not tell how many values were packed: bits to spare in its last byte can be read as
 * further values of 0. The caller keeps the count. data_bytes is the packed bytes alone, not the
 * buffer in which they stand: whatever follows them there would be read as values too.
 *
 * Answers 0, or the first of these that holds: STUMPVESSEL_BAD_WIDTH where the width is 57 to 63 or
 * above 64, STUMPVESSEL_OUT_OF_DATA where the value does not lie in the data, STUMPVESSEL_NO_ROOM
 * where the output is shorter than eight bytes.
 */
uint8_t stumpvessel_read(const uint8_t *data, size_t data_bytes, uint8_t width, uint32_t index,
                         uint8_t *output, size_t output_bytes);

#ifdef __cplusplus
}
#endif

#endif
