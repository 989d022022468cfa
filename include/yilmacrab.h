/* Section graphs, swept and folded, for programs in C.
 *
 * The library reads a file, which is an ELF64 object or a section table, does some calls on a new pile over it, sweeps and folds it, and
 * writes the section table of what is left and the fold map into two buffers of the caller. docs/OBJECT.md, docs/TABLE.md, docs/PILE.md
 * and docs/MAP.md say what these are, docs/REFUSALS.md lists the refusals, and README.md says how to build and link the library.
 */
#ifndef YILMACRAB_H
#define YILMACRAB_H

#include <stddef.h>
#include <stdint.h>

#ifdef __cplusplus
extern "C" {
#endif

/* The kinds of calls, and what the two numbers of a call are. A number that a call does not take is not looked at. */
enum {
    YILMACRAB_BIND = 1,  /* first: an outside name; second: the section that it stands for from now on */
    YILMACRAB_PIN = 2,   /* first: a section, which keeps its number */
    YILMACRAB_ROOT = 3,  /* first: a section, which is one more root */
    YILMACRAB_SWEEP = 4, /* drop what no root reaches */
    YILMACRAB_FOLD = 5   /* join what is alike */
};

struct yilmacrab_call {
    uint16_t kind;
    uint16_t first;
    uint16_t second;
};

/* What became of it all. */
enum {
    YILMACRAB_WRITTEN = 0,     /* the table and the fold map stand at the fronts of the two buffers */
    YILMACRAB_REFUSED = 1,     /* the file, a call, or a buffer that is too short */
    YILMACRAB_NO_MEMORY = 2,   /* want of memory */
    YILMACRAB_UNKNOWN_CALL = 3 /* a call's kind is none of the five; `place` is the index of the first such call */
};

/* What is answered. A field that does not apply is 0. */
struct yilmacrab_reply {
    uint32_t status; /* as above */

    /* Where the status is YILMACRAB_REFUSED: the refusal's number, its place, and the layer it came from. 1 to 6 refuse the file, 7 to 10
     * a call, and 11 a buffer, with the length that is needed as the place. */
    uint32_t number;
    uint64_t place;
    uint32_t layer;

    /* Where the status is YILMACRAB_WRITTEN or the refusal 11: how many sections are present after the last fold, how many the last sweep
     * dropped and the last fold merged, its rounds, and how many bytes the table and the fold map have. */
    uint16_t present;
    uint16_t dropped;
    uint16_t merged;
    uint16_t rounds;
    size_t table_length;
    size_t map_length;
};

/* Reads the file, makes the calls in order, then a sweep and a fold, and writes both texts. Answers the status, which `reply` has too.
 *
 * The first refusal ends it: of a call that is none, then of the file, of a call, of a table buffer that is too short, of a map buffer
 * that is too short. Unless the status is YILMACRAB_WRITTEN both buffers stay as they were; if it is, the bytes behind the two texts do.
 * To learn the two lengths first, give no room: the answer is refusal 11, and `reply` has both lengths.
 *
 * The caller sees to it, since nothing checks, that
 * - each pointer points at as many elements as are said, is aligned for them, and is not NULL (with a length of 0 it may point at
 *   anything, as &reply);
 * - the two buffers and the reply overlap neither each other nor the file nor the calls, and nothing else writes or frees any of these,
 *   or reads the two buffers and the reply, while the call runs;
 * - no length is 2^63 bytes or more;
 * - malloc, realloc and free are of one allocator, and malloc aligns a block to each power of two up to 16 that divides its size;
 * - it is not called in a signal handler, nor in the forked child of a process with threads;
 * - there are 256 KiB of stack.
 * The library keeps nothing between calls, so several threads may call it at once, each with its own buffers and reply. */
uint32_t yilmacrab_fold(
    const uint8_t *file, size_t file_length,
    const struct yilmacrab_call *calls, size_t call_count,
    uint8_t *table, size_t table_room,
    uint8_t *map, size_t map_room,
    struct yilmacrab_reply *reply);

#ifdef __cplusplus
}
#endif

#endif
