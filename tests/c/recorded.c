/* Makes recorded calls, and compares each answer with the recorded one: recorded FILE [CALLS].
 *
 * FILE is what the benchmark's option --record writes (rust/bench): 12 bytes a call, lowest first, which are kind, logarithm of
 * the alignment, slot (2), size (4) and answer (4). The whole arena of one MiB is one region. CALLS is how many of them are made,
 * all if it isn't there. The last line says how many takes, returns and resizes there were. */
#include "firmheap.h"
#include <stdint.h>
#include <stdio.h>
#include <stdlib.h>

enum { ARENA = 1 << 20, SLOTS = 1024, CALL = 12 };

static unsigned char arena[ARENA];
static uint64_t lists[FIRMHEAP_LISTS_LENGTH];
static uint64_t live[FIRMHEAP_LIVE_LENGTH(ARENA)];
static uint64_t regions[3];
static uint64_t slots[SLOTS];

static uint64_t number(const unsigned char *at, unsigned bytes)
{
    return bytes == 0 ? 0 : at[0] + 256 * number(at + 1, bytes - 1);
}

static uint64_t answer(const unsigned char *call)
{
    uint64_t *slot = &slots[number(call + 2, 2) % SLOTS];
    size_t size = (size_t)number(call + 4, 4), align = (size_t)1 << call[1];
    switch (call[0]) {
    case 0:
        return *slot = firmheap_allocate(arena, ARENA, lists, FIRMHEAP_LISTS_LENGTH, live, FIRMHEAP_LIVE_LENGTH(ARENA), size, align);
    case 1:
        return firmheap_deallocate(arena, ARENA, lists, FIRMHEAP_LISTS_LENGTH, live, FIRMHEAP_LIVE_LENGTH(ARENA), (size_t)*slot, align);
    default:
        return *slot = firmheap_reallocate(arena, ARENA, lists, FIRMHEAP_LISTS_LENGTH, live, FIRMHEAP_LIVE_LENGTH(ARENA), (size_t)*slot, size, align);
    }
}

int main(int count, char **words)
{
    unsigned long calls[3] = { 0, 0, 0 }, made = 0, most = count > 2 ? strtoul(words[2], 0, 10) : (unsigned long)-1;
    unsigned char call[CALL];
    FILE *file = count > 1 ? fopen(words[1], "rb") : 0;
    if (file == 0) {
        fputs("usage: recorded FILE [CALLS], where FILE is what bench --record wrote\n", stderr);
        return 2;
    }
    if (firmheap_init(arena, ARENA, lists, FIRMHEAP_LISTS_LENGTH, live, FIRMHEAP_LIVE_LENGTH(ARENA), regions, 3) != 0
        || firmheap_insert_free_block(arena, ARENA, lists, FIRMHEAP_LISTS_LENGTH, regions, 3, 0, ARENA) != ARENA) {
        fputs("recorded: FAILED: the arena is not given\n", stderr);
        return 1;
    }
    while (made < most && fread(call, CALL, 1, file) == 1) {
        uint64_t said = answer(call), recorded = number(call + 8, 4);
        if (said != recorded) {
            fprintf(stderr, "recorded: FAILED: call %lu answered %lu, and %lu is recorded\n", made, (unsigned long)said, (unsigned long)recorded);
            return 1;
        }
        calls[call[0] % 3]++;
        made++;
    }
    fclose(file);
    printf("%lu takes, %lu returns, %lu resizes, all as recorded\n", calls[0], calls[1], calls[2]);
    return made == 0;
}
