/* The calls on schedules: checked, counted, read step by step. */
#include "calls.h"

#include <stdlib.h>
#include <string.h>

/* The step at a place: how many there are from it on, and the step. */
static void read_at(const uint8_t *bytes, size_t length, size_t at)
{
    size_t steps = length < 3 ? 0 : (length - 3) / 3, left = at < steps ? steps - at : 0;
    const uint8_t *shown = show(bytes, length), *from = left ? bytes + 3 + 3 * at : NULL;
    uint8_t *kind = lend(NULL, 1);
    uint16_t *number = lend(NULL, 2);
    size_t *next = lend(NULL, sizeof *next);
    gave("schedule_read", muruapy_schedule_read(shown, length, at, kind, number, next), left, false);
    must(*kind == (from ? from[0] : 0), "another kind is read");
    must(*number == (from ? from[1] * 256 + from[2] : 0), "another number is read");
    must(*next == (from ? at + 1 : at), "another place comes next");
    take_back();
}

static void schedule_gives(const uint8_t *bytes, size_t length, uint32_t number)
{
    size_t steps = length < 3 ? 0 : (length - 3) / 3, at;
    const uint8_t *shown = show(bytes, length);
    answered("schedule_check", muruapy_schedule_check(shown, length), number, NULL);
    gave("schedule_steps", muruapy_schedule_steps(shown, length), steps, true);
    take_back();
    for (at = 0; at < steps + 2; at++)
        if (at < 4 || at + 3 > steps)
            read_at(bytes, length, at);
    read_at(bytes, length, SIZE_MAX);
    read_at(bytes, length, SIZE_MAX / 3);
    read_at(bytes, length, SIZE_MAX / 3 + 1);
}

static void short_ones(void)
{
    static const uint8_t none[] = {1, 0, 0, 9}, two[] = {1, 0, 6, 1, 0, 0, 2, 255, 255, 3};
    static const uint8_t version[] = {0, 0, 0}, kind_0[] = {1, 0, 3, 0, 0, 0};
    static const uint8_t kind_4[] = {1, 0, 6, 1, 0, 0, 4, 0, 0}, uneven[] = {1, 0, 2, 1, 0};
    size_t n;
    for (n = 0; n <= 4; n++)
        schedule_gives(none, n, n < 3 ? 51 : n == 3 ? 0 : 53);
    for (n = 0; n <= 10; n++)
        schedule_gives(two, n, n < 3 ? 51 : n == 9 ? 0 : 53);
    schedule_gives(version, 3, 52);
    schedule_gives(version, 2, 51);
    schedule_gives(kind_0, 6, 54);
    schedule_gives(kind_4, 9, 54);
    schedule_gives(uneven, 5, 53);
}

/* The longest, 21,845 steps, and what is longer. */
static void long_ones(void)
{
    size_t length = 3 + 3 * MURUAPY_STEPS, i;
    uint8_t *bytes = malloc(length + 8);
    must(bytes != NULL, "no memory");
    memset(bytes, 3, length + 8);
    bytes[0] = 1;
    bytes[1] = bytes[2] = 255;
    schedule_gives(bytes, length, 0);
    for (i = 1; i <= 3; i++) {
        schedule_gives(bytes, length - i, 53);
        schedule_gives(bytes, length + i, 53);
    }
    bytes[length - 3] = 4;
    schedule_gives(bytes, length, 54);
    free(bytes);
}

void schedule_calls(void)
{
    short_ones();
    long_ones();
}
