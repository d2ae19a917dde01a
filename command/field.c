/* A field with its words, and which message a step would take. */
#include "command.h"

#include <string.h>

void set_up(const muruapy_plan *plan, struct held *held)
{
    held->room = muruapy_ceiling(plan->modules, plan->links);
    memset(held->words, 0, sizeof held->words);
    muruapy_setup(plan, &held->field, held->words, held->room);
}

size_t waiting(const struct held *held)
{
    return muruapy_waiting(held->words, held->room);
}

uint32_t take_step(struct held *held, uint8_t kind, uint16_t number)
{
    return muruapy_step(&held->field, held->words, held->room, kind, number);
}

int take_steps(char **names, int count, const struct bytes *schedules, struct held *held)
{
    for (int i = 0; i < count; i++) {
        const struct bytes *s = &schedules[i];
        size_t steps;
        uint32_t refusal = muruapy_run(&held->field, held->words, held->room, s->at, s->length, &steps);
        if (refusal != MURUAPY_TAKEN)
            return stop(REFUSED, "%s: step %zu: %u: %s", called(names[i]), steps + 1, (unsigned)refusal,
                        muruapy_refusal_text(refusal));
    }
    return DONE;
}

uint16_t to_module(const muruapy_plan *plan, uint16_t directed)
{
    const muruapy_link *link = &plan->link[directed / 2];
    return directed % 2 == 0 ? link->higher : link->lower;
}

uint16_t from_module(const muruapy_plan *plan, uint16_t directed)
{
    return to_module(plan, directed ^ 1);
}

bool takes(const struct held *held, uint8_t kind, uint16_t number, uint64_t word)
{
    uint16_t directed = muruapy_word_link(word);
    if (kind == MURUAPY_HAND_OVER)
        return !muruapy_word_handed(word) && directed == number;
    return kind == MURUAPY_SERVE && muruapy_word_handed(word) && to_module(&held->field.plan, directed) == number;
}

bool has_tree(const muruapy_field *field)
{
    uint8_t tree[MURUAPY_LINKS];
    if (muruapy_tree(&field->plan, tree, field->plan.links) != MURUAPY_TAKEN)
        return false;
    for (uint16_t k = 0; k < field->plan.links; k++) {
        bool awake = field->modules[field->plan.link[k].lower].status != 0;
        for (int end = 0; end < 2; end++)
            if ((field->marks[k][end] == 1) != (awake && tree[k] == 1))
                return false;
    }
    return true;
}
