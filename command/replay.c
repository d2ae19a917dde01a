/* `replay`: schedules step by step in words. What a step did is read from the field before and after it. */
#include "command.h"

#include <stdlib.h>
#include <string.h>

/* Copies what a step may change and the words that wait. */
static void remember(const struct held *held, struct held *was)
{
    was->field = held->field;
    was->room = held->room;
    memcpy(was->words, held->words, held->room * sizeof held->words[0]);
}

/* The message that the step takes: the first that it can take. */
static uint64_t taken(const struct held *was, uint8_t kind, uint16_t number)
{
    size_t count = waiting(was);
    for (size_t i = 0; i < count; i++)
        if (takes(was, kind, number, was->words[i]))
            return was->words[i];
    return 0;
}

/* What a module did: it woke, marked links, sent the messages from `from` to `to`, halted. */
static void print_effects(const struct held *was, const struct held *now, uint16_t v, size_t from, size_t to)
{
    const muruapy_plan *plan = &now->field.plan;
    const char *before = "";
    if (was->field.modules[v].status == 0) {
        fputs("wakes", stdout);
        before = ", ";
    }
    for (uint16_t d = 0; d < 2 * plan->links; d++)
        if (was->field.marks[d / 2][d % 2] != now->field.marks[d / 2][d % 2]) {
            printf("%smarks link %u %s", before, d / 2u, mark_name(now->field.marks[d / 2][d % 2]));
            before = ", ";
        }
    for (size_t i = from; i < to; i++) {
        printf("%s%s", before, i == from ? "sends " : "");
        print_message(now->words[i]);
        printf(" to module %u", to_module(plan, muruapy_word_link(now->words[i])));
        before = ", ";
    }
    if (was->field.modules[v].halted != now->field.modules[v].halted) {
        printf("%shalts", before);
        before = ", ";
    }
    if (*before == 0)
        fputs("sends nothing", stdout);
}

static void print_served(const struct held *was, const struct held *now, uint16_t v)
{
    size_t count = waiting(now), sent = now->field.sent - was->field.sent;
    uint64_t word = taken(was, MURUAPY_SERVE, v);
    if (count == waiting(was) + sent) {
        /* put back: it is the last word, behind what a wake sent */
        print_put_back(&now->field, word);
        if (was->field.modules[v].status == 0) {
            fputs("; it ", stdout);
            print_effects(was, now, v, count - 1 - sent, count - 1);
        }
        return;
    }
    printf("module %u takes ", v);
    print_message(word);
    printf(" from module %u: ", from_module(&now->field.plan, muruapy_word_link(word)));
    print_effects(was, now, v, count - sent, count);
}

/* Where a step stands: among all steps, and in the schedule of this name. */
struct stand {
    size_t place, in_schedule;
    const char *name;
};

/* Takes a step and prints its line. */
static uint32_t tell_step(struct stand stand, struct held *held, uint8_t kind, uint16_t number)
{
    static struct held was;
    remember(held, &was);
    uint32_t refusal = take_step(held, kind, number);
    printf("step %zu", stand.place);
    if (refusal != MURUAPY_TAKEN)
        printf(" (step %zu of %s)", stand.in_schedule, called(stand.name));
    fputs(": ", stdout);
    print_step(kind, number);
    fputs(": ", stdout);
    if (refusal != MURUAPY_TAKEN) {
        printf("refused %u: %s", (unsigned)refusal, muruapy_refusal_text(refusal));
    } else if (kind == MURUAPY_WAKE) {
        printf("module %u ", number);
        print_effects(&was, held, number, waiting(&was), waiting(held));
    } else if (kind == MURUAPY_HAND_OVER) {
        print_message(taken(&was, kind, number));
        printf(" from module %u to module %u", from_module(&held->field.plan, number),
               to_module(&held->field.plan, number));
    } else {
        print_served(&was, held, number);
    }
    putchar('\n');
    return refusal;
}

uint32_t tell_steps(char **names, int count, const struct bytes *schedules, struct held *held)
{
    uint8_t kind;
    uint16_t number;
    struct stand stand = {0};
    for (int i = 0; i < count; i++) {
        const struct bytes *s = &schedules[i];
        stand.name = names[i];
        stand.in_schedule = 0;
        for (size_t at = 0, next; muruapy_schedule_read(s->at, s->length, at, &kind, &number, &next) > 0; at = next) {
            stand.place++;
            stand.in_schedule++;
            uint32_t refusal = tell_step(stand, held, kind, number);
            if (refusal != MURUAPY_TAKEN)
                return refusal;
        }
    }
    return MURUAPY_TAKEN;
}

int replay(const struct call *call)
{
    static muruapy_plan plan;
    static struct held held;
    struct bytes *schedules = NULL;
    int count = call->count - 1, status = take_plan(call->names[0], &plan);
    if (status == DONE)
        status = take_schedules(call->names + 1, count, &schedules);
    if (status == DONE) {
        set_up(&plan, &held);
        status = tell_steps(call->names + 1, count, schedules, &held) == MURUAPY_TAKEN ? DONE : REFUSED;
        print_field(&held);
    }
    free(schedules);
    return status;
}
