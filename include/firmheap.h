/*
 * firmheap.h: a heap for firmware, proved. C99 and C++.
 *
 * The heap owns no memory. The caller lends it slices, each a pointer and a length, the same ones at every call:
 *
 *     arena     bytes               what payloads are taken from
 *     lists     words of 64 bits    FIRMHEAP_LISTS_LENGTH of them
 *     live      words of 64 bits    FIRMHEAP_LIVE_LENGTH(n) of them, for an arena of n bytes
 *     regions   words of 64 bits    FIRMHEAP_REGIONS_LENGTH(r) of them, with room for r regions
 *
 * Lengths are counted in elements. Longer tables do no harm. A payload is named by its offset, in bytes from the arena's start
 * on. First comes firmheap_init, then the arena, or parts of it, are given as regions; then payloads are taken, resized and
 * returned:
 *
 *     firmheap_init(arena, n, lists, nl, live, nv, regions, nr);
 *     firmheap_insert_free_block(arena, n, lists, nl, regions, nr, 0, n);
 *     uint64_t at = firmheap_allocate(arena, n, lists, nl, live, nv, 100, 8);
 *     if (!firmheap_is_refusal(at)) memset(arena + at, 0, 100);
 *
 * Every answer is one number. 1 to 6 are the refusals, and what is granted is never one of these. (The two calls that answer
 * lengths never refuse.) Whatever is in the slices and whatever the numbers are, a call comes back, reads and writes nothing
 * outside the slices, and does its work or refuses; a refusal changes no byte of them. This is proved of the program that the
 * library is compiled from; README.md says what is proved, and what is not.
 *
 * What the caller owes:
 *
 *   - Each slice is memory that may be read and written, as long as is said. With length 0 its pointer may be null.
 *   - The tables are aligned as uint64_t is. Offsets are aligned, and not addresses: the arena must begin at a multiple of
 *     every alignment that is asked for; and at a multiple of 8 where words can't be loaded from other places, as on aarch64
 *     while its memory management is off. On x86-64, on Linux and on riscv64 it may begin anywhere else.
 *   - The slices don't overlap, and nobody else uses them while a call runs: no other thread, and no interrupt.
 *   - Between calls only live payloads are written to, each within the bytes that were asked for. Who writes elsewhere may
 *     be refused with 5 from then on, may have wrong answers, and still gets none that leads out of the slices.
 */
#ifndef FIRMHEAP_H
#define FIRMHEAP_H

#include <stddef.h>
#include <stdint.h>

#if SIZE_MAX < UINT64_MAX
#error "the heap's calls take lengths of 64 bits"
#endif

#ifdef __cplusplus
extern "C" {
#endif

/* ---- refusals: what each says, and what to do ---- */

/*
 * allocate, reallocate: no free block is sure to be large enough.
 * Return payloads, give another region, or ask for less. A payload that was to be resized is as it was.
 */
#define FIRMHEAP_REFUSED_NO_LIST 1u

/*
 * allocate, deallocate, reallocate: the alignment is no power of two up to 4,096, or the size is close to 2^64; or the
 * alignment doesn't suit the payload, whose offset must be a multiple of it, of 32 where the alignment is 32 or more, and not
 * of 32 where it is less.
 * The caller's mistake: pass the alignment that the payload was taken with.
 */
#define FIRMHEAP_REFUSED_OUT_OF_RANGE 2u

/*
 * deallocate, reallocate: no live payload begins at this offset. It was returned before, has moved, or never was.
 * The caller's mistake.
 */
#define FIRMHEAP_REFUSED_NOT_LIVE 3u

/*
 * insert_free_block, append_free_block: the region has fewer than 64 bytes from its first multiple of 32 on, lies outside
 * the arena, or overlaps one that was given; one that is appended begins where no other ended.
 * The caller's mistake.
 */
#define FIRMHEAP_REFUSED_BAD_REGION 4u

/*
 * All calls but init: words in the arena or in the tables contradict each other, so somebody wrote where he must not.
 * Stop using this heap: what it says of other payloads may be wrong too. firmheap_init makes it empty again.
 */
#define FIRMHEAP_REFUSED_DAMAGED 5u

/*
 * The six calls: a table is shorter than it must be. Giving a region: the table of the regions has no room for one more.
 * Lend longer tables.
 */
#define FIRMHEAP_REFUSED_TOO_SHORT 6u

/* Whether an answer is one of the refusals. */
static inline int firmheap_is_refusal(uint64_t answer)
{
    return answer - 1 < 6;
}

/* ---- how long the tables must be, in words ---- */

/* As constants, for tables that are declared. */
#define FIRMHEAP_LISTS_LENGTH 195
#define FIRMHEAP_LIVE_LENGTH(arena_len) ((arena_len) / 1024 + 1)
#define FIRMHEAP_REGIONS_LENGTH(regions) (1 + 2 * (regions))

/* As calls. They never refuse. */
uint64_t firmheap_lists_length(void);
uint64_t firmheap_live_length(size_t arena_len);

/* ---- an empty heap, and its regions ---- */

/*
 * Makes the tables those of a heap to which nothing was given, whatever was in them. The arena is left as it is.
 * Answers 0, or 6.
 */
uint64_t firmheap_init(const uint8_t *arena, size_t arena_len, uint64_t *lists, size_t lists_len, uint64_t *live,
                       size_t live_len, uint64_t *regions, size_t regions_len);

/*
 * Gives the heap len bytes of the arena from start on. Of these it uses what lies between multiples of 32; each 131,072 of
 * them, and the rest, end in 32 bytes that no payload gets.
 * Answers the bytes used, counted from start on, 64 or more; or 4, 5, 6.
 */
uint64_t firmheap_insert_free_block(uint8_t *arena, size_t arena_len, uint64_t *lists, size_t lists_len, uint64_t *regions,
                                    size_t regions_len, size_t start, size_t len);

/*
 * The same, of a region that must begin where another ended: at its start and the bytes that were used of it. It is a region
 * of its own: no payload goes across.
 * Answers the bytes used, 64 or more; or 4, 5, 6.
 */
uint64_t firmheap_append_free_block(uint8_t *arena, size_t arena_len, uint64_t *lists, size_t lists_len, uint64_t *regions,
                                    size_t regions_len, size_t start, size_t len);

/* ---- payloads ---- */

/*
 * Takes a payload of size bytes, 0 too, at a multiple of align, a power of two up to 4,096.
 * Answers its offset, 16 or more; or 1, 2, 5, 6.
 */
uint64_t firmheap_allocate(uint8_t *arena, size_t arena_len, uint64_t *lists, size_t lists_len, uint64_t *live,
                           size_t live_len, size_t size, size_t align);

/*
 * Returns the payload at the offset payload, with the alignment that it was taken with.
 * Answers 0; or 2, 3, 5, 6.
 */
uint64_t firmheap_deallocate(uint8_t *arena, size_t arena_len, uint64_t *lists, size_t lists_len, uint64_t *live,
                             size_t live_len, size_t payload, size_t align);

/*
 * Gives the payload at the offset payload another size, where it is or elsewhere, with the alignment that it was taken with.
 * As many bytes as it had and is to have are kept, and go with it.
 * Answers its offset from now on, 16 or more, which may be the old one; or 1, 2, 3, 5, 6, and then it is as it was.
 */
uint64_t firmheap_reallocate(uint8_t *arena, size_t arena_len, uint64_t *lists, size_t lists_len, uint64_t *live,
                             size_t live_len, size_t payload, size_t size, size_t align);

#ifdef __cplusplus
}
#endif

#endif
