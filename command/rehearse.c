/* `rehearse`: wakes modules, takes the field to rest, and writes the schedule of the steps that it took. */
#include "command.h"

#include <stdlib.h>
#include <string.h>

/* Looks at the arguments before anything is read. */
static int look_at(const struct call *call, uint64_t *seed)
{
    uint64_t module;
    if (!call->output || strcmp(call->output, "-") == 0)
        return stop(MISUSED, "rehearse: -o with the schedule's file is missing");
    if (call->seed && (!read_number(call->seed, INT64_MAX, seed) || *seed > INT64_MAX))
        return stop(MISUSED, "rehearse: the seed is a number up to %lld, not %s", (long long)INT64_MAX, call->seed);
    for (int i = 1; i < call->count; i++)
        if (!read_number(call->names[i], UINT16_MAX, &module))
            return stop(MISUSED, "rehearse: %s is no module's number", call->names[i]);
    return DONE;
}

/* Wakes those that are named. A number of more than 16 bits is no module's, as one that the library refuses. */
static int wake_named(struct record *r, char **names, int count)
{
    uint64_t module;
    for (int i = 0; i < count; i++) {
        read_number(names[i], UINT16_MAX, &module);
        uint32_t refusal = MURUAPY_NO_MODULE;
        if (module <= UINT16_MAX)
            refusal = record_step(r, MURUAPY_WAKE, (uint16_t)module);
        if (refusal != MURUAPY_TAKEN)
            return stop(REFUSED, "wake %s: %u: %s", names[i], (unsigned)refusal, muruapy_refusal_text(refusal));
    }
    return DONE;
}

/* Where none is named: wakes the lowest module of each part, as the job does. */
static int wake_lowest(struct record *r, const muruapy_plan *plan)
{
    uint16_t lowest[MURUAPY_MODULES];
    find_parts(plan, lowest);
    for (uint16_t v = 0; v < plan->modules; v++) {
        uint32_t refusal = lowest[v] == v ? record_step(r, MURUAPY_WAKE, v) : MURUAPY_TAKEN;
        if (refusal != MURUAPY_TAKEN)
            return stop(FAILED, "internal error: wake %u: %u", (unsigned)v, (unsigned)refusal);
    }
    return DONE;
}

/* Whether the library's own rounds lead from the wakes to the same field, in as many rounds. */
static bool same_as_rounds(struct held *woken, const struct held *now, unsigned rounds)
{
    uint16_t done = 0;
    uint32_t refusal = muruapy_rounds(&woken->field, woken->words, woken->room, UINT16_MAX, &done);
    return refusal == MURUAPY_TAKEN && done == rounds && woken->field.sent == now->field.sent &&
           memcmp(woken->field.modules, now->field.modules, sizeof now->field.modules) == 0 &&
           memcmp(woken->field.marks, now->field.marks, sizeof now->field.marks) == 0 &&
           memcmp(woken->words, now->words, sizeof now->words) == 0;
}

/* Takes the field to rest, after the wakes, and makes sure that it came to the tree. None of these failures can come. */
static int to_rest(struct record *r, const char *seed, uint64_t value, unsigned *rounds)
{
    static struct held woken;
    woken = r->held;
    uint32_t refusal = seed ? to_rest_by_chance(r, value) : to_rest_by_rounds(r, rounds);
    if (refusal != MURUAPY_TAKEN)
        return stop(FAILED, "internal error: step %zu: %u", r->steps + 1, (unsigned)refusal);
    if (!seed && !same_as_rounds(&woken, &r->held, *rounds))
        return stop(FAILED, "internal error: the steps did not lead where the call for rounds does");
    if (!has_tree(&r->held.field))
        return stop(FAILED, "internal error: the field is at rest without the tree");
    return DONE;
}

static bool all_awake(const muruapy_field *field)
{
    for (uint16_t v = 0; v < field->plan.modules; v++)
        if (field->modules[v].status == 0)
            return false;
    return true;
}

static void tell(const struct record *r, const struct call *call, unsigned rounds)
{
    if (call->seed)
        printf("seed %s: ", call->seed);
    printf("%zu steps, ", r->steps);
    if (!call->seed)
        printf("%u rounds, ", rounds);
    printf("%u messages of %zu at most; at rest with the tree of %s\n", (unsigned)r->held.field.sent, r->held.room,
           all_awake(&r->held.field) ? "the plan" : "each part that was woken");
    printf("written: %s", call->output);
    for (size_t done = 1; done * MURUAPY_STEPS < r->steps; done++)
        printf(" %s.%zu", call->output, done + 1);
    putchar('\n');
}

int rehearse(const struct call *call)
{
    static muruapy_plan plan;
    static struct record r;
    uint64_t seed = 0;
    unsigned rounds = 0;
    int status = look_at(call, &seed);
    if (status == DONE)
        status = take_plan(call->names[0], &plan);
    if (status == DONE) {
        set_up(&plan, &r.held);
        status = call->count == 1 ? wake_lowest(&r, &plan) : wake_named(&r, call->names + 1, call->count - 1);
    }
    if (status == DONE)
        status = to_rest(&r, call->seed, seed, &rounds);
    if (status == DONE)
        status = put_schedules(&r, call->output, call->names[0]);
    if (status == DONE)
        tell(&r, call, rounds);
    free(r.bytes);
    return status;
}
