/* What the C tests share: counting, and heaps whose slices are blocks of their own, with nothing lent beyond them. */
#ifndef HEAP_H
#define HEAP_H

#include <stdio.h>
#include <stdlib.h>
#include <string.h>

#include "firmheap.h"

static int passed, failed;

static void check_at(int holds, int line, const char *what)
{
    if (holds) {
        passed++;
    } else {
        failed++;
        printf("FAILED, line %d: %s\n", line, what);
    }
}

#define CHECK(holds) check_at((holds) != 0, __LINE__, #holds)

/* The answer of a call is compared with a number, and both are said where they differ. */
static void answer_at(uint64_t answer, uint64_t expected, int line, const char *call)
{
    if (answer == expected) {
        passed++;
    } else {
        failed++;
        printf("FAILED, line %d: %s answered %llu, and not %llu\n", line, call, (unsigned long long)answer,
               (unsigned long long)expected);
    }
}

#define ANSWER(call, expected) answer_at(call, expected, __LINE__, #call)

struct heap {
    uint8_t *arena;
    uint64_t *lists, *live, *regions;
    size_t arena_len, lists_len, live_len, regions_len;
};

/* What the calls about payloads are lent, and those about regions. */
#define LENT(h) (h).arena, (h).arena_len, (h).lists, (h).lists_len, (h).live, (h).live_len
#define GIVEN(h) (h).arena, (h).arena_len, (h).lists, (h).lists_len, (h).regions, (h).regions_len
#define ALL(h) LENT(h), (h).regions, (h).regions_len

static void *block(size_t bytes)
{
    void *b = malloc(bytes > 0 ? bytes : 1);
    if (b == NULL) {
        printf("no memory\n");
        exit(2);
    }
    memset(b, 0xa5, bytes);
    return b;
}

/* Slices with anything in them. */
static struct heap slices(size_t arena_len, size_t lists_len, size_t live_len, size_t regions_len)
{
    struct heap h;
    h.arena = (uint8_t *)block(arena_len);
    h.lists = (uint64_t *)block(8 * lists_len);
    h.live = (uint64_t *)block(8 * live_len);
    h.regions = (uint64_t *)block(8 * regions_len);
    h.arena_len = arena_len;
    h.lists_len = lists_len;
    h.live_len = live_len;
    h.regions_len = regions_len;
    return h;
}

/* A heap to which nothing was given, with room for four regions. */
static struct heap empty_heap(size_t arena_len)
{
    struct heap h = slices(arena_len, FIRMHEAP_LISTS_LENGTH, FIRMHEAP_LIVE_LENGTH(arena_len), FIRMHEAP_REGIONS_LENGTH(4));
    ANSWER(firmheap_init(ALL(h)), 0);
    return h;
}

static void drop(struct heap h)
{
    free(h.arena);
    free(h.lists);
    free(h.live);
    free(h.regions);
}

static struct heap copy_of(struct heap h)
{
    struct heap c = slices(h.arena_len, h.lists_len, h.live_len, h.regions_len);
    memcpy(c.arena, h.arena, h.arena_len);
    memcpy(c.lists, h.lists, 8 * h.lists_len);
    memcpy(c.live, h.live, 8 * h.live_len);
    memcpy(c.regions, h.regions, 8 * h.regions_len);
    return c;
}

static int same(struct heap a, struct heap b)
{
    return memcmp(a.arena, b.arena, a.arena_len) == 0 && memcmp(a.lists, b.lists, 8 * a.lists_len) == 0
        && memcmp(a.live, b.live, 8 * a.live_len) == 0 && memcmp(a.regions, b.regions, 8 * a.regions_len) == 0;
}

/* A call on the heap h must be refused with this number, and leave every byte of h. */
#define REFUSED(h, call, number)                   \
    do {                                           \
        struct heap before_ = copy_of(h);          \
        ANSWER(call, number);                      \
        CHECK(firmheap_is_refusal(number));        \
        CHECK(same(h, before_));                   \
        drop(before_);                             \
    } while (0)

/* n bytes that only this name and this place have. */
static void fill(struct heap h, uint64_t at, size_t n, unsigned name)
{
    size_t i;
    for (i = 0; i < n; i++) {
        h.arena[at + i] = (uint8_t)(name + 7 * i + (i >> 8));
    }
}

static int filled(struct heap h, uint64_t at, size_t n, unsigned name)
{
    size_t i;
    for (i = 0; i < n; i++) {
        if (h.arena[at + i] != (uint8_t)(name + 7 * i + (i >> 8))) {
            return 0;
        }
    }
    return 1;
}

#endif
