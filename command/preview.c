/* `preview`: tells what a step would do, after the steps of schedules, without taking it. */
#include "command.h"

#include <stdlib.h>

/* Prints the answer and the messages, a line each. */
static int tell(const struct held *held, uint8_t kind, const char *word, uint64_t number)
{
    uint64_t buffer[MURUAPY_SENDS];
    /* a number of more than 16 bits is no module's and no directed link's, as one that the library refuses */
    muruapy_previewed shown = {kind == MURUAPY_HAND_OVER ? MURUAPY_NO_DIRECTED_LINK : MURUAPY_NO_MODULE, 0};
    if (number <= UINT16_MAX)
        shown = muruapy_preview(&held->field, held->words, held->room, kind, (uint16_t)number, buffer, MURUAPY_SENDS);
    printf("%s %s: ", step_name(kind), word);
    if (shown.refusal != MURUAPY_TAKEN) {
        printf("refused %u: %s\n", (unsigned)shown.refusal, muruapy_refusal_text(shown.refusal));
        return REFUSED;
    }
    printf("%s, %u message%s\n", muruapy_refusal_text(shown.refusal), (unsigned)shown.count,
           shown.count == 1 ? "" : "s");
    for (uint32_t i = 0; i < shown.count; i++) {
        uint16_t directed = muruapy_word_link(buffer[i]);
        fputs("sends ", stdout);
        print_message(buffer[i]);
        printf(" from module %u to module %u\n", from_module(&held->field.plan, directed),
               to_module(&held->field.plan, directed));
    }
    return DONE;
}

int preview(const struct call *call)
{
    static muruapy_plan plan;
    static struct held held;
    struct bytes *schedules = NULL;
    int count = call->count - 3;
    const char *step = call->names[count + 1], *word = call->names[count + 2];
    uint8_t kind = step_kind(step);
    uint64_t number;
    if (!kind)
        return stop(MISUSED, "preview: a step is wake, hand or serve, not %s", step);
    if (!read_number(word, UINT16_MAX, &number))
        return stop(MISUSED, "preview: %s is no number of a module or a directed link", word);
    int status = take_plan(call->names[0], &plan);
    if (status == DONE)
        status = take_schedules(call->names + 1, count, &schedules);
    if (status == DONE) {
        set_up(&plan, &held);
        status = take_steps(call->names + 1, count, schedules, &held);
    }
    free(schedules);
    return status == DONE ? tell(&held, kind, word, number) : status;
}
