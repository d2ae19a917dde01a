/* `cue`: sends a cue from a module over the tree that a plan's field comes to, and prints how each module hears it:
 * those of the sender's part. */
#include "command.h"

/* Delivers copies until none waits: over branches, from modules that have heard to those that have not. */
static uint32_t to_all(const struct held *held, muruapy_cue *cues)
{
    const muruapy_plan *plan = &held->field.plan;
    for (bool more = true; more;) {
        more = false;
        for (uint16_t d = 0; d < 2 * plan->links; d++) {
            bool branch = held->field.marks[d / 2][0] == 1;
            if (!branch || !cues[from_module(plan, d)].heard || cues[to_module(plan, d)].heard)
                continue;
            muruapy_delivery delivery =
                muruapy_cue_deliver(&held->field, held->words, held->room, cues, plan->modules, d);
            if (delivery.refusal != MURUAPY_TAKEN)
                return delivery.refusal;
            more |= delivery.heard == 1;
        }
    }
    return MURUAPY_TAKEN;
}

static void print_cue(uint16_t module, const muruapy_cue *cue)
{
    printf("module %u ", (unsigned)module);
    if (!cue->heard) {
        puts("not reached");
        return;
    }
    printf("hops %u link ", (unsigned)cue->hops);
    if (cue->link == MURUAPY_NONE)
        puts("none");
    else
        printf("%u\n", (unsigned)cue->link);
}

int cue(const struct call *call)
{
    static muruapy_plan plan;
    static struct held held;
    static muruapy_cue cues[MURUAPY_MODULES];
    uint64_t sender;
    uint16_t rounds;
    if (!read_number(call->names[1], UINT16_MAX, &sender))
        return stop(MISUSED, "cue: %s is no module's number", call->names[1]);
    int status = take_plan(call->names[0], &plan);
    if (status != DONE)
        return status;
    held.room = muruapy_ceiling(plan.modules, plan.links);
    uint32_t refusal = muruapy_job(&plan, &held.field, held.words, held.room, &rounds);
    /* a number of more than 16 bits is no module's, as one that the library refuses */
    if (refusal == MURUAPY_TAKEN)
        refusal = sender > UINT16_MAX ? MURUAPY_NO_SENDER
                                      : muruapy_cue_start(&held.field, held.words, held.room, cues, plan.modules,
                                                          (uint16_t)sender, 0);
    if (refusal == MURUAPY_TAKEN)
        refusal = to_all(&held, cues);
    if (refusal != MURUAPY_TAKEN)
        return stop(REFUSED, "cue from %s: %u: %s", call->names[1], (unsigned)refusal, muruapy_refusal_text(refusal));
    for (uint16_t v = 0; v < plan.modules; v++)
        print_cue(v, &cues[v]);
    return DONE;
}
