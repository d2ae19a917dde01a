/* Steps that are taken and recorded: alone, round by round, or in a drawn order; and written as schedules. */
#include "command.h"

#include <stdlib.h>
#include <string.h>

uint32_t record_step(struct record *r, uint8_t kind, uint16_t number)
{
    if (r->steps == r->room) {
        size_t room = r->room ? 2 * r->room : 4096;
        uint8_t *more = realloc(r->bytes, 3 * room);
        if (!more)
            exit(stop(FAILED, "no memory for %zu steps", room));
        r->bytes = more;
        r->room = room;
    }
    uint32_t refusal = take_step(&r->held, kind, number);
    if (refusal != MURUAPY_TAKEN)
        return refusal;
    uint8_t *at = r->bytes + 3 * r->steps++;
    at[0] = kind;
    at[1] = (uint8_t)(number >> 8);
    at[2] = (uint8_t)number;
    return MURUAPY_TAKEN;
}

/* How many messages steps of this kind and number could take now. */
static size_t held_for(const struct held *held, uint8_t kind, uint16_t number)
{
    size_t count = 0, all = waiting(held);
    for (size_t i = 0; i < all; i++)
        count += takes(held, kind, number, held->words[i]);
    return count;
}

/* Hands over all that each directed link holds when its turn comes, or serves as many as each queue holds then. */
static uint32_t half_round(struct record *r, uint8_t kind, uint16_t numbers)
{
    uint32_t refusal = MURUAPY_TAKEN;
    for (uint16_t n = 0; n < numbers && refusal == MURUAPY_TAKEN; n++)
        for (size_t left = held_for(&r->held, kind, n); left > 0 && refusal == MURUAPY_TAKEN; left--)
            refusal = record_step(r, kind, n);
    return refusal;
}

uint32_t to_rest_by_rounds(struct record *r, unsigned *rounds)
{
    uint32_t refusal = MURUAPY_TAKEN;
    for (*rounds = 0; refusal == MURUAPY_TAKEN && waiting(&r->held) > 0; ++*rounds) {
        refusal = half_round(r, MURUAPY_HAND_OVER, (uint16_t)(2 * r->held.field.plan.links));
        if (refusal == MURUAPY_TAKEN)
            refusal = half_round(r, MURUAPY_SERVE, r->held.field.plan.modules);
    }
    return refusal;
}

/* splitmix64: the same numbers from the same seed on every machine. */
static uint64_t draw(uint64_t *state)
{
    uint64_t z = *state += 0x9E3779B97F4A7C15u;
    z = (z ^ z >> 30) * 0xBF58476D1CE4E5B9u;
    z = (z ^ z >> 27) * 0x94D049BB133111EBu;
    return z ^ z >> 31;
}

/* A waiting message is drawn: if it is in the air its directed link hands over, else the module at its end serves. */
uint32_t to_rest_by_chance(struct record *r, uint64_t seed)
{
    uint32_t refusal = MURUAPY_TAKEN;
    for (size_t all = waiting(&r->held); all > 0 && refusal == MURUAPY_TAKEN; all = waiting(&r->held)) {
        uint64_t word = r->held.words[draw(&seed) % all];
        uint16_t directed = muruapy_word_link(word);
        if (muruapy_word_handed(word))
            refusal = record_step(r, MURUAPY_SERVE, to_module(&r->held.field.plan, directed));
        else
            refusal = record_step(r, MURUAPY_HAND_OVER, directed);
    }
    return refusal;
}

/* The bytes of a schedule: version, length, steps. Answers how many they are. */
static size_t schedule_bytes(const struct record *r, size_t schedule, uint8_t *bytes)
{
    size_t from = schedule * MURUAPY_STEPS, left = r->steps - from;
    size_t length = 3 * (left < MURUAPY_STEPS ? left : MURUAPY_STEPS);
    bytes[0] = 1;
    bytes[1] = (uint8_t)(length >> 8);
    bytes[2] = (uint8_t)length;
    /* without steps there is nothing to copy from */
    if (length > 0)
        memcpy(bytes + 3, r->bytes + 3 * from, length);
    return 3 + length;
}

int put_schedules(const struct record *r, const char *file, const char *input)
{
    enum { BYTES = 3 + 3 * MURUAPY_STEPS };
    /* no steps are a schedule too */
    size_t count = r->steps > 0 ? (r->steps - 1) / MURUAPY_STEPS + 1 : 1, room = strlen(file) + 24;
    struct output *files = calloc(count, sizeof *files);
    uint8_t *bytes = malloc(count * BYTES);
    char *names = malloc((count + 1) * room);
    int status = files && bytes && names ? DONE : stop(FAILED, "%s: no memory for its schedules", file);
    if (status == DONE) {
        strcpy(names, file);
        for (size_t i = 1; i <= count; i++)
            snprintf(names + i * room, room, "%s.%zu", file, i + 1);
        for (size_t i = 0; i < count; i++) {
            files[i].name = names + i * room;
            files[i].bytes = bytes + i * BYTES;
            files[i].length = schedule_bytes(r, i, bytes + i * BYTES);
        }
        status = put_files(files, count, input);
    }
    /* an older one that seems to go on with these would be refused in a replay behind them */
    if (status == DONE && is_there(names + count * room))
        stop(DONE, "%s is there and not of this rehearsal", names + count * room);
    free(names);
    free(bytes);
    free(files);
    return status;
}
