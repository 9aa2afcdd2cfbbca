/* The calls from C: the documented run, sizes and alignments, resizes with their bytes, every refusal, odd and damaged slices. */
#include "heap.h"

/* ---- lengths and numbers ---- */

static void lengths(void)
{
    static const size_t arenas[] = { 0, 1, 31, 32, 1023, 1024, 1025, 4096, 65536, 1048576 };
    size_t i;
    ANSWER(firmheap_lists_length(), FIRMHEAP_LISTS_LENGTH);
    for (i = 0; i < sizeof arenas / sizeof arenas[0]; i++) {
        ANSWER(firmheap_live_length(arenas[i]), FIRMHEAP_LIVE_LENGTH(arenas[i]));
    }
    ANSWER(firmheap_live_length(SIZE_MAX), FIRMHEAP_LIVE_LENGTH(SIZE_MAX));
}

static void refusals(void)
{
    uint64_t i;
    for (i = 0; i < 100; i++) {
        CHECK(firmheap_is_refusal(i) == (1 <= i && i <= 6));
    }
    CHECK(!firmheap_is_refusal(UINT64_MAX));
    CHECK(FIRMHEAP_REFUSED_NO_LIST == 1 && FIRMHEAP_REFUSED_OUT_OF_RANGE == 2 && FIRMHEAP_REFUSED_NOT_LIVE == 3);
    CHECK(FIRMHEAP_REFUSED_BAD_REGION == 4 && FIRMHEAP_REFUSED_DAMAGED == 5 && FIRMHEAP_REFUSED_TOO_SHORT == 6);
}

/* ---- the documented run ---- */

/* Live payloads, each with its pattern. */
struct payload {
    uint64_t at;
    size_t size, align;
};

static struct payload live[26];

static void all_filled(struct heap h)
{
    unsigned name;
    for (name = 0; name < 26; name++) {
        if (live[name].at != 0) {
            CHECK(filled(h, live[name].at, live[name].size, name));
        }
    }
}

static void take(struct heap h, char letter, size_t size, size_t align, uint64_t expected)
{
    unsigned name = (unsigned)(letter - 'A');
    ANSWER(firmheap_allocate(LENT(h), size, align), expected);
    all_filled(h);
    live[name].at = expected;
    live[name].size = size;
    live[name].align = align;
    fill(h, expected, size, name);
}

static void give_back(struct heap h, char letter)
{
    unsigned name = (unsigned)(letter - 'A');
    ANSWER(firmheap_deallocate(LENT(h), live[name].at, live[name].align), 0);
    live[name].at = 0;
    all_filled(h);
}

static void resize(struct heap h, char letter, size_t size, uint64_t expected)
{
    unsigned name = (unsigned)(letter - 'A');
    ANSWER(firmheap_reallocate(LENT(h), live[name].at, size, live[name].align), expected);
    live[name].at = expected;
    if (size < live[name].size) {
        live[name].size = size;
    }
    all_filled(h);
    live[name].size = size;
    fill(h, expected, size, name);
}

static void documented_run(void)
{
    struct heap h = empty_heap(65536);
    memset(live, 0, sizeof live);
    ANSWER(firmheap_insert_free_block(GIVEN(h), 0, 65536), 65536);
    take(h, 'A', 100, 8, 16);
    take(h, 'B', 1000, 8, 144);
    take(h, 'C', 24, 64, 1216);
    take(h, 'D', 0, 1, 1264);
    take(h, 'E', 2000, 16, 1296);
    give_back(h, 'B');
    take(h, 'F', 900, 8, 144);
    give_back(h, 'A');
    give_back(h, 'F');
    take(h, 'J', 1008, 8, 16);
    resize(h, 'E', 3000, 1296);
    give_back(h, 'C');
    resize(h, 'D', 40, 1040);
    give_back(h, 'J');
    resize(h, 'E', 20000, 1296);
    REFUSED(h, firmheap_allocate(LENT(h), 65000, 8), FIRMHEAP_REFUSED_NO_LIST);
    give_back(h, 'D');
    give_back(h, 'E');
    /* one free block again, so that a new one is as large as the first was */
    ANSWER(firmheap_allocate(LENT(h), 60000, 8), 16);
    drop(h);
}

/* ---- a resize keeps its bytes, wherever it goes ---- */

static void resizes(void)
{
    struct heap h = empty_heap(4096);
    ANSWER(firmheap_insert_free_block(GIVEN(h), 0, 4096), 4096);
    /* elsewhere: what is behind it is in use */
    ANSWER(firmheap_allocate(LENT(h), 200, 8), 16);
    ANSWER(firmheap_allocate(LENT(h), 100, 8), 240);
    fill(h, 16, 200, 1);
    fill(h, 240, 100, 2);
    ANSWER(firmheap_reallocate(LENT(h), 16, 500, 8), 368);
    CHECK(filled(h, 368, 200, 1));
    CHECK(filled(h, 240, 100, 2));
    REFUSED(h, firmheap_deallocate(LENT(h), 16, 8), FIRMHEAP_REFUSED_NOT_LIVE);
    /* downwards: what is before it is free, and the payload overlaps its new place */
    ANSWER(firmheap_allocate(LENT(h), 2000, 8), 912);
    fill(h, 368, 500, 3);
    ANSWER(firmheap_deallocate(LENT(h), 240, 8), 0);
    ANSWER(firmheap_reallocate(LENT(h), 368, 800, 8), 16);
    CHECK(filled(h, 16, 500, 3));
    /* smaller, where it is */
    ANSWER(firmheap_reallocate(LENT(h), 16, 40, 8), 16);
    CHECK(filled(h, 16, 40, 3));
    /* too large for all that is free: as it was */
    REFUSED(h, firmheap_reallocate(LENT(h), 16, 4000, 8), FIRMHEAP_REFUSED_NO_LIST);
    CHECK(filled(h, 16, 40, 3));
    /* to nothing, and back */
    ANSWER(firmheap_reallocate(LENT(h), 16, 0, 8), 16);
    ANSWER(firmheap_reallocate(LENT(h), 16, 16, 8), 16);
    ANSWER(firmheap_deallocate(LENT(h), 16, 8), 0);
    ANSWER(firmheap_deallocate(LENT(h), 912, 8), 0);
    drop(h);
}

/* ---- all alignments ---- */

static void alignments(void)
{
    struct heap h = empty_heap(131072);
    uint64_t at[13];
    unsigned i;
    ANSWER(firmheap_insert_free_block(GIVEN(h), 0, 131072), 131072);
    for (i = 0; i < 13; i++) {
        size_t align = (size_t)1 << i;
        at[i] = firmheap_allocate(LENT(h), 300 + i, align);
        CHECK(!firmheap_is_refusal(at[i]));
        CHECK(at[i] >= 16 && at[i] % align == 0 && at[i] + 300 + i <= h.arena_len);
        fill(h, at[i], 300 + i, i);
    }
    for (i = 0; i < 13; i++) {
        CHECK(filled(h, at[i], 300 + i, i));
    }
    for (i = 0; i < 13; i++) {
        size_t align = (size_t)1 << i;
        at[i] = firmheap_reallocate(LENT(h), at[i], 2000, align);
        CHECK(!firmheap_is_refusal(at[i]));
        CHECK(at[i] >= 16 && at[i] % align == 0 && at[i] + 2000 <= h.arena_len);
        CHECK(filled(h, at[i], 300 + i, i));
    }
    for (i = 0; i < 13; i++) {
        ANSWER(firmheap_deallocate(LENT(h), at[i], (size_t)1 << i), 0);
    }
    drop(h);
}

/* ---- regions ---- */

static void regions(void)
{
    struct heap h = empty_heap(300000);
    /* the grains from 32 to 992; then behind it, and far behind, in three pieces */
    ANSWER(firmheap_insert_free_block(GIVEN(h), 7, 1000), 985);
    REFUSED(h, firmheap_append_free_block(GIVEN(h), 1000, 1000), FIRMHEAP_REFUSED_BAD_REGION);
    REFUSED(h, firmheap_append_free_block(GIVEN(h), 1024, 1000), FIRMHEAP_REFUSED_BAD_REGION);
    ANSWER(firmheap_append_free_block(GIVEN(h), 992, 100), 96);
    REFUSED(h, firmheap_insert_free_block(GIVEN(h), 992, 64), FIRMHEAP_REFUSED_BAD_REGION);
    REFUSED(h, firmheap_insert_free_block(GIVEN(h), 2000, 79), FIRMHEAP_REFUSED_BAD_REGION);
    REFUSED(h, firmheap_insert_free_block(GIVEN(h), 2048, 300000), FIRMHEAP_REFUSED_BAD_REGION);
    REFUSED(h, firmheap_insert_free_block(GIVEN(h), 2048, SIZE_MAX), FIRMHEAP_REFUSED_BAD_REGION);
    REFUSED(h, firmheap_insert_free_block(GIVEN(h), SIZE_MAX, SIZE_MAX), FIRMHEAP_REFUSED_BAD_REGION);
    ANSWER(firmheap_insert_free_block(GIVEN(h), 2048, 64), 64);
    ANSWER(firmheap_insert_free_block(GIVEN(h), 4096, 290000), 289984);
    /* the table has room for four */
    REFUSED(h, firmheap_insert_free_block(GIVEN(h), 3072, 256), FIRMHEAP_REFUSED_TOO_SHORT);
    REFUSED(h, firmheap_append_free_block(GIVEN(h), 2112, 64), FIRMHEAP_REFUSED_TOO_SHORT);
    /* each piece but the last is as large as a block can be */
    CHECK(!firmheap_is_refusal(firmheap_allocate(LENT(h), 120000, 8)));
    CHECK(!firmheap_is_refusal(firmheap_allocate(LENT(h), 120000, 8)));
    REFUSED(h, firmheap_allocate(LENT(h), 120000, 8), FIRMHEAP_REFUSED_NO_LIST);
    drop(h);
}

/* ---- bad arguments ---- */

static void bad_arguments(void)
{
    static const size_t bad_aligns[] = { 0, 3, 48, 100, 4097, 8192, SIZE_MAX };
    struct heap h = empty_heap(8192);
    uint64_t small, large;
    size_t i;
    ANSWER(firmheap_insert_free_block(GIVEN(h), 0, 8192), 8192);
    small = firmheap_allocate(LENT(h), 100, 8);
    large = firmheap_allocate(LENT(h), 100, 64);
    CHECK(!firmheap_is_refusal(small) && !firmheap_is_refusal(large));
    for (i = 0; i < sizeof bad_aligns / sizeof bad_aligns[0]; i++) {
        REFUSED(h, firmheap_allocate(LENT(h), 100, bad_aligns[i]), FIRMHEAP_REFUSED_OUT_OF_RANGE);
        REFUSED(h, firmheap_deallocate(LENT(h), small, bad_aligns[i]), FIRMHEAP_REFUSED_OUT_OF_RANGE);
        REFUSED(h, firmheap_reallocate(LENT(h), small, 100, bad_aligns[i]), FIRMHEAP_REFUSED_OUT_OF_RANGE);
    }
    REFUSED(h, firmheap_allocate(LENT(h), SIZE_MAX, 1), FIRMHEAP_REFUSED_OUT_OF_RANGE);
    REFUSED(h, firmheap_allocate(LENT(h), SIZE_MAX / 2, 1), FIRMHEAP_REFUSED_NO_LIST);
    REFUSED(h, firmheap_reallocate(LENT(h), small, SIZE_MAX, 8), FIRMHEAP_REFUSED_OUT_OF_RANGE);
    /* an alignment of the other kind */
    REFUSED(h, firmheap_deallocate(LENT(h), small, 32), FIRMHEAP_REFUSED_OUT_OF_RANGE);
    REFUSED(h, firmheap_deallocate(LENT(h), large, 8), FIRMHEAP_REFUSED_OUT_OF_RANGE);
    /* where no payload is */
    REFUSED(h, firmheap_deallocate(LENT(h), 0, 64), FIRMHEAP_REFUSED_NOT_LIVE);
    REFUSED(h, firmheap_deallocate(LENT(h), small + 1, 1), FIRMHEAP_REFUSED_NOT_LIVE);
    REFUSED(h, firmheap_deallocate(LENT(h), small + 32, 8), FIRMHEAP_REFUSED_NOT_LIVE);
    REFUSED(h, firmheap_deallocate(LENT(h), 8192 + 16, 8), FIRMHEAP_REFUSED_NOT_LIVE);
    REFUSED(h, firmheap_deallocate(LENT(h), SIZE_MAX - 15, 1), FIRMHEAP_REFUSED_NOT_LIVE);
    REFUSED(h, firmheap_reallocate(LENT(h), small + 32, 10, 8), FIRMHEAP_REFUSED_NOT_LIVE);
    /* a second return */
    ANSWER(firmheap_deallocate(LENT(h), small, 8), 0);
    REFUSED(h, firmheap_deallocate(LENT(h), small, 8), FIRMHEAP_REFUSED_NOT_LIVE);
    REFUSED(h, firmheap_reallocate(LENT(h), small, 10, 8), FIRMHEAP_REFUSED_NOT_LIVE);
    drop(h);
}

/* Tables that are one word too short, and slices of which there is nothing. */
static void short_tables(void)
{
    struct heap h = slices(4096, FIRMHEAP_LISTS_LENGTH - 1, FIRMHEAP_LIVE_LENGTH(4096), 3);
    REFUSED(h, firmheap_init(ALL(h)), FIRMHEAP_REFUSED_TOO_SHORT);
    REFUSED(h, firmheap_insert_free_block(GIVEN(h), 0, 4096), FIRMHEAP_REFUSED_TOO_SHORT);
    REFUSED(h, firmheap_append_free_block(GIVEN(h), 0, 4096), FIRMHEAP_REFUSED_TOO_SHORT);
    REFUSED(h, firmheap_allocate(LENT(h), 10, 8), FIRMHEAP_REFUSED_TOO_SHORT);
    REFUSED(h, firmheap_deallocate(LENT(h), 16, 8), FIRMHEAP_REFUSED_TOO_SHORT);
    REFUSED(h, firmheap_reallocate(LENT(h), 16, 10, 8), FIRMHEAP_REFUSED_TOO_SHORT);
    drop(h);
    h = slices(4096, FIRMHEAP_LISTS_LENGTH, FIRMHEAP_LIVE_LENGTH(4096) - 1, 3);
    REFUSED(h, firmheap_init(ALL(h)), FIRMHEAP_REFUSED_TOO_SHORT);
    REFUSED(h, firmheap_allocate(LENT(h), 10, 8), FIRMHEAP_REFUSED_TOO_SHORT);
    REFUSED(h, firmheap_deallocate(LENT(h), 16, 8), FIRMHEAP_REFUSED_TOO_SHORT);
    REFUSED(h, firmheap_reallocate(LENT(h), 16, 10, 8), FIRMHEAP_REFUSED_TOO_SHORT);
    drop(h);
    h = slices(4096, FIRMHEAP_LISTS_LENGTH, FIRMHEAP_LIVE_LENGTH(4096), 0);
    REFUSED(h, firmheap_init(ALL(h)), FIRMHEAP_REFUSED_TOO_SHORT);
    REFUSED(h, firmheap_insert_free_block(GIVEN(h), 0, 4096), FIRMHEAP_REFUSED_TOO_SHORT);
    drop(h);
    ANSWER(firmheap_init(NULL, 0, NULL, 0, NULL, 0, NULL, 0), FIRMHEAP_REFUSED_TOO_SHORT);
    ANSWER(firmheap_insert_free_block(NULL, 0, NULL, 0, NULL, 0, 0, 64), FIRMHEAP_REFUSED_TOO_SHORT);
    ANSWER(firmheap_append_free_block(NULL, 0, NULL, 0, NULL, 0, 0, 64), FIRMHEAP_REFUSED_TOO_SHORT);
    ANSWER(firmheap_allocate(NULL, 0, NULL, 0, NULL, 0, 1, 1), FIRMHEAP_REFUSED_TOO_SHORT);
    ANSWER(firmheap_deallocate(NULL, 0, NULL, 0, NULL, 0, 16, 1), FIRMHEAP_REFUSED_TOO_SHORT);
    ANSWER(firmheap_reallocate(NULL, 0, NULL, 0, NULL, 0, 16, 1, 1), FIRMHEAP_REFUSED_TOO_SHORT);
}

/* ---- odd slices ---- */

/* An arena that begins anywhere, and has a part of a grain at its end. */
static void odd_arenas(void)
{
    struct heap h = empty_heap(5000);
    struct heap odd = h;
    uint64_t a, b;
    odd.arena = h.arena + 3;
    odd.arena_len = 4997;
    ANSWER(firmheap_init(ALL(odd)), 0);
    REFUSED(h, firmheap_insert_free_block(GIVEN(odd), 5, 5030), FIRMHEAP_REFUSED_BAD_REGION);
    ANSWER(firmheap_insert_free_block(GIVEN(odd), 5, 4992), 4987);
    a = firmheap_allocate(LENT(odd), 1000, 16);
    b = firmheap_allocate(LENT(odd), 500, 128);
    CHECK(!firmheap_is_refusal(a) && !firmheap_is_refusal(b));
    fill(odd, a, 1000, 1);
    fill(odd, b, 500, 2);
    a = firmheap_reallocate(LENT(odd), a, 2000, 16);
    CHECK(!firmheap_is_refusal(a));
    CHECK(filled(odd, a, 1000, 1) && filled(odd, b, 500, 2));
    ANSWER(firmheap_deallocate(LENT(odd), a, 16), 0);
    ANSWER(firmheap_deallocate(LENT(odd), b, 128), 0);
    drop(h);
    /* an arena of nothing is a heap too */
    h = empty_heap(0);
    REFUSED(h, firmheap_insert_free_block(GIVEN(h), 0, 64), FIRMHEAP_REFUSED_BAD_REGION);
    REFUSED(h, firmheap_allocate(LENT(h), 0, 1), FIRMHEAP_REFUSED_NO_LIST);
    REFUSED(h, firmheap_deallocate(LENT(h), 16, 8), FIRMHEAP_REFUSED_NOT_LIVE);
    drop(h);
}

/* Bytes of all values, or of the smallest four alone. */
static uint64_t seed = 1;

static void scramble(void *slice, size_t bytes, int all)
{
    size_t i;
    for (i = 0; i < bytes; i++) {
        seed = seed * UINT64_C(6364136223846793005) + UINT64_C(1442695040888963407);
        ((uint8_t *)slice)[i] = (uint8_t)(seed >> (all ? 56 : 62));
    }
}

/* Slices that no heap ever was in: whatever is answered, a refusal leaves them, and what is granted lies in the arena. */
static void any_slices(void)
{
    int round;
    for (round = 0; round < 300; round++) {
        struct heap h = slices(2048, FIRMHEAP_LISTS_LENGTH, FIRMHEAP_LIVE_LENGTH(2048), FIRMHEAP_REGIONS_LENGTH(2));
        struct heap before;
        uint64_t answer;
        size_t payload;
        scramble(h.arena, h.arena_len, round % 3 == 0);
        scramble(h.lists, 8 * h.lists_len, round % 3 == 0);
        scramble(h.live, 8 * h.live_len, round % 3 == 0);
        scramble(h.regions, 8 * h.regions_len, round % 3 == 0);
        payload = 32 * (size_t)(seed >> 59) + 16;
        before = copy_of(h);
        switch (round % 4) {
        case 0:
            answer = firmheap_allocate(LENT(h), 40, 8);
            break;
        case 1:
            answer = firmheap_deallocate(LENT(h), payload, 8);
            break;
        case 2:
            answer = firmheap_reallocate(LENT(h), payload, 200, 8);
            break;
        default:
            answer = firmheap_insert_free_block(GIVEN(h), 256, 512);
        }
        if (firmheap_is_refusal(answer)) {
            CHECK(same(h, before));
        } else {
            CHECK(round % 4 == 1 ? answer == 0 : answer >= 16 && answer <= 2048);
        }
        drop(before);
        drop(h);
    }
}

/* ---- damage ---- */

static void damaged(void)
{
    struct heap h = empty_heap(4096);
    struct heap sound;
    size_t i;
    ANSWER(firmheap_insert_free_block(GIVEN(h), 0, 4096), 4096);
    ANSWER(firmheap_allocate(LENT(h), 100, 8), 16);
    ANSWER(firmheap_allocate(LENT(h), 100, 8), 144);
    sound = copy_of(h);
    /* somebody wrote beyond the end of the first payload: into the header of the second */
    memset(h.arena + 16, 0xff, 130);
    REFUSED(h, firmheap_deallocate(LENT(h), 16, 8), FIRMHEAP_REFUSED_DAMAGED);
    REFUSED(h, firmheap_reallocate(LENT(h), 16, 300, 8), FIRMHEAP_REFUSED_DAMAGED);
    memcpy(h.arena, sound.arena, 4096);
    /* the heads of all lists lead astray */
    for (i = 3; i < FIRMHEAP_LISTS_LENGTH; i++) {
        h.lists[i] = 8;
    }
    REFUSED(h, firmheap_allocate(LENT(h), 100, 8), FIRMHEAP_REFUSED_DAMAGED);
    memcpy(h.lists, sound.lists, 8 * h.lists_len);
    /* more regions are counted than there is room for */
    h.regions[0] = 5;
    REFUSED(h, firmheap_insert_free_block(GIVEN(h), 0, 64), FIRMHEAP_REFUSED_DAMAGED);
    REFUSED(h, firmheap_append_free_block(GIVEN(h), 0, 64), FIRMHEAP_REFUSED_DAMAGED);
    memcpy(h.regions, sound.regions, 8 * h.regions_len);
    /* all is well again, and a new beginning needs nothing of the old one */
    ANSWER(firmheap_deallocate(LENT(h), 144, 8), 0);
    memset(h.arena, 0xff, 4096);
    memset(h.lists, 0xff, 8 * h.lists_len);
    memset(h.live, 0xff, 8 * h.live_len);
    memset(h.regions, 0xff, 8 * h.regions_len);
    ANSWER(firmheap_init(ALL(h)), 0);
    ANSWER(firmheap_insert_free_block(GIVEN(h), 0, 4096), 4096);
    ANSWER(firmheap_allocate(LENT(h), 100, 8), 16);
    drop(sound);
    drop(h);
}

int main(void)
{
    lengths();
    refusals();
    documented_run();
    resizes();
    alignments();
    regions();
    bad_arguments();
    short_tables();
    odd_arenas();
    any_slices();
    damaged();
    printf("%d passed, %d failed\n", passed, failed);
    return failed != 0;
}
