/*
 * A heap in 8 KiB: a name is taken, gets more room, and is returned. From the repository's top:
 *
 *     tools/archive
 *     cc -Iinclude examples/c/main.c target/archive/$(uname -m)-unknown-linux-gnu/libfirmheap.a -o target/example
 *     target/example
 */
#include <stdio.h>
#include <string.h>

#include "firmheap.h"

/* What is lent. Only bytes are kept in this arena, so it may begin anywhere. */
static uint8_t arena[8192];
static uint64_t lists[FIRMHEAP_LISTS_LENGTH];
static uint64_t live[FIRMHEAP_LIVE_LENGTH(sizeof arena)];
static uint64_t regions[FIRMHEAP_REGIONS_LENGTH(1)];

#define LENGTH(table) (sizeof(table) / sizeof(table)[0])
#define HEAP arena, sizeof arena, lists, LENGTH(lists), live, LENGTH(live)
#define GIVEN arena, sizeof arena, lists, LENGTH(lists), regions, LENGTH(regions)

static uint64_t say(const char *call, uint64_t answer)
{
    printf("%-26s%s%llu\n", call, firmheap_is_refusal(answer) ? "refused with " : "", (unsigned long long)answer);
    return answer;
}

int main(void)
{
    uint64_t name;
    say("init", firmheap_init(HEAP, regions, LENGTH(regions)));
    say("insert_free_block", firmheap_insert_free_block(GIVEN, 0, sizeof arena));

    name = say("allocate 6 bytes", firmheap_allocate(HEAP, 6, 1));
    if (firmheap_is_refusal(name)) {
        return 1;
    }
    strcpy((char *)arena + name, "crane");

    say("allocate 100 bytes", firmheap_allocate(HEAP, 100, 16));
    name = say("reallocate to 500 bytes", firmheap_reallocate(HEAP, name, 500, 1));
    if (firmheap_is_refusal(name)) {
        return 1;
    }
    printf("the name is still %s\n", (char *)arena + name);

    say("deallocate", firmheap_deallocate(HEAP, name, 1));
    say("deallocate once more", firmheap_deallocate(HEAP, name, 1));
    say("allocate 10,000 bytes", firmheap_allocate(HEAP, 10000, 1));
    return 0;
}
