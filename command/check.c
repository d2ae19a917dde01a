/* `show` and `check`. */
#include "command.h"

int show(const struct call *call)
{
    static struct bytes bytes;
    static muruapy_plan plan;
    static struct held held;
    static uint8_t report[MURUAPY_REPORT_BYTES];
    uint16_t rounds = 0;
    if (take_bytes(call->names[0], &bytes) != DONE)
        return FAILED;
    uint32_t refusal = muruapy_plan_read(bytes.at, bytes.length, &plan);
    if (refusal == MURUAPY_TAKEN)
        refusal = muruapy_job(&plan, &held.field, held.words, MURUAPY_WORDS, &rounds);
    if (refusal != MURUAPY_TAKEN) {
        printf("refused %u\n", (unsigned)refusal);
        return refuse(call->names[0], refusal, plan_place(refusal, &bytes));
    }
    size_t length = muruapy_report(&held.field, rounds, report, sizeof report);
    fwrite(report, 1, length, stdout);
    return DONE;
}

/* Says what the library's check answers, and where. */
static int answer(const struct bytes *bytes, uint32_t refusal, struct place (*where)(uint32_t, const struct bytes *))
{
    if (refusal == MURUAPY_TAKEN) {
        puts("taken");
        return DONE;
    }
    printf("%u: %s: %s\n", (unsigned)refusal, muruapy_refusal_text(refusal), where(refusal, bytes).words);
    return REFUSED;
}

int check(const struct call *call)
{
    static struct bytes bytes;
    if (call->schedule && call->frame)
        return stop(MISUSED, "check: a file is a schedule or a frame, not both");
    if (take_bytes(call->names[0], &bytes) != DONE)
        return FAILED;
    if (call->schedule)
        return answer(&bytes, muruapy_schedule_check(bytes.at, bytes.length), schedule_place);
    if (call->frame)
        return answer(&bytes, muruapy_frame_check(bytes.at, bytes.length), frame_place);
    return answer(&bytes, muruapy_plan_check(bytes.at, bytes.length), plan_place);
}
