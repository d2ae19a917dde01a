/* The preview of a step: two modules and a triangle, where every word is known, a module of 191 links for the largest count,
 * and fields that are refused. Each with buffers that are empty, too short, just long enough and longer. Field and words
 * cannot be written. */
#include "site.h"

#include <string.h>

static bool as_whole;
static struct state state;

/* ---- the call, on `state` ---- */

/* A preview with so many places, which answers this. Of the buffer it writes `count` words at its front and no more. */
static void preview_gives(uint8_t kind, uint16_t number, size_t places, uint32_t refusal, const uint64_t *words,
                          size_t count)
{
    struct site s = lend_site(&state, as_whole, READ);
    uint64_t *buffer = lend(NULL, places * sizeof *buffer);
    uint64_t behind[MURUAPY_SENDS + 2];
    muruapy_previewed got = do_preview(&s, kind, number, buffer, places);
    must(got.count == (refusal ? 0 : count), "another number of messages is told");
    if (refusal == 0) {
        must(count == 0 || memcmp(buffer, words, count * sizeof *buffer) == 0, "other words are shown");
        memset(behind, FILL, sizeof behind);
        must(memcmp(buffer + count, behind, (places - count) * sizeof *buffer) == 0, "the rest of the buffer is written");
    }
    gave("preview", got.refusal, refusal, refusal != 0 || count == 0);
    take_back();
}

/* With every kind of buffer: 75 where it is too short. */
static void shows(uint8_t kind, uint16_t number, const uint64_t *words, size_t count)
{
    size_t more;
    if (count > 0) {
        preview_gives(kind, number, 0, 75, NULL, 0);
        preview_gives(kind, number, count - 1, 75, NULL, 0);
    }
    for (more = 0; more < 3; more++)
        preview_gives(kind, number, count + more, 0, words, count);
}

static void refused(uint8_t kind, uint16_t number, uint32_t refusal)
{
    size_t places;
    for (places = 0; places < 3; places++)
        preview_gives(kind, number, places, refusal, NULL, 0);
}

static void step(uint8_t kind, uint16_t number)
{
    must(muruapy_step(&state.field, state.words, state.room, kind, number) == 0, "a step is refused");
}

static void set_up(const muruapy_plan *plan, size_t more)
{
    memset(&state, FILL, sizeof state);
    state.room = muruapy_ceiling(plan->modules, plan->links) + more;
    must(muruapy_setup(plan, &state.field, state.words, state.room) == 0, "the setup is refused");
}

static void two(size_t more)
{
    muruapy_plan value;
    sample("two-modules.plan", &value);
    set_up(&value, more);
}

/* ---- two modules from setup to rest: docs/FORMATS.md, "Steps" ---- */

static const struct told {
    uint8_t kind;
    uint16_t number;
    size_t count;
    uint64_t words[2];
} told[] = {
    {1, 0, 1, {0x20000ffff01u, 0}}, {2, 0, 0, {0, 0}},
    {3, 1, 2, {0x20001ffff01u, 0x2000100004au}}, {2, 1, 0, {0, 0}},
    {2, 1, 0, {0, 0}},              {3, 0, 1, {0x2000000004au, 0}},
    {3, 0, 1, {0x20000ffff06u, 0}}, {2, 0, 0, {0, 0}},
    {3, 1, 1, {0x20001ffff06u, 0}}, {2, 1, 0, {0, 0}},
    {2, 0, 0, {0, 0}},              {3, 0, 0, {0, 0}},
    {3, 1, 0, {0, 0}},
};

static void to_rest(void)
{
    size_t i, more;
    for (more = 0; more < 2; more++) {
        two(more);
        for (i = 0; i < sizeof told / sizeof *told; i++) {
            shows(told[i].kind, told[i].number, told[i].words, told[i].count);
            step(told[i].kind, told[i].number);
        }
        must(state.field.sent == 6 && muruapy_waiting(state.words, state.room) == 0, "two modules are not at rest");
    }
}

/* ---- put back: a triangle ---- */

static void put_back(void)
{
    static const uint64_t initiate[] = {0x2000000004au}, connect[] = {0x20005ffff01u};
    static const uint64_t before[] = {0x2000400000bu, 0x3000200000bu, 0};
    static const uint64_t after[] = {0x2000400000bu, 0x20005ffff01u, 0x3000200000bu, 0};
    static muruapy_plan plan;
    uint16_t rounds;
    sample("worse-reading.plan", &plan);
    set_up(&plan, 0);
    step(MURUAPY_WAKE, 0);
    step(MURUAPY_WAKE, 1);
    step(MURUAPY_HAND_OVER, 0);
    step(MURUAPY_HAND_OVER, 1);
    shows(MURUAPY_SERVE, 0, initiate, 1);
    step(MURUAPY_SERVE, 0);
    step(MURUAPY_SERVE, 1);
    must(muruapy_rounds(&state.field, state.words, state.room, 1, &rounds) == 0 && rounds == 1, "a round is refused");
    step(MURUAPY_HAND_OVER, 2);
    must(memcmp(state.words, before, sizeof before) == 0, "other words wait");
    shows(MURUAPY_HAND_OVER, 4, NULL, 0);
    shows(MURUAPY_SERVE, 2, connect, 1); /* a sleeper wakes, and puts the Test back */
    step(MURUAPY_SERVE, 2);
    must(memcmp(state.words, after, sizeof after) == 0, "other words wait");
    shows(MURUAPY_SERVE, 2, NULL, 0); /* awake it puts it back once more, and sends nothing */
}

/* ---- the largest count ---- */

/* Module 7 has 191 links, all branches but one of them at most, and takes an Initiate with Find from module 0: copies on all
 * other branches, then a Test on the link that is Basic, be it the Initiate's own. */
static void hub(uint16_t basic, size_t count)
{
    static muruapy_plan plan;
    uint64_t words[MURUAPY_SENDS];
    size_t sends = 0;
    uint16_t k;
    plan.modules = MURUAPY_MODULES;
    plan.links = MURUAPY_MODULES - 1;
    for (k = 0; k < plan.links; k++) {
        plan.link[k].lower = k < 7 ? k : 7;
        plan.link[k].higher = k < 7 ? 7 : (uint16_t)(k + 1);
    }
    set_up(&plan, 0);
    for (k = 0; k < plan.links; k++) {
        state.field.marks[k][k < 7] = k != basic;
        if (k > 0 && k != basic)
            words[sends++] = UINT64_C(0x20000000552) | (uint64_t)(2 * k + (k < 7)) << 24;
    }
    if (basic < plan.links)
        words[sends++] = UINT64_C(0x20000000513) | (uint64_t)(2 * basic + (basic < 7)) << 24;
    must(sends == count, "another number of messages is expected");
    state.field.modules[7].status = 2;
    state.field.sent = (uint32_t)(state.room - count);
    state.words[0] = 0x30000000552u;
    shows(MURUAPY_SERVE, 7, words, count);
    preview_gives(MURUAPY_SERVE, 7, 100, 75, NULL, 0);
    state.field.sent++;
    refused(MURUAPY_SERVE, 7, 33);
}

static void largest(void)
{
    hub(MURUAPY_NONE, 190);
    hub(190, 190);
    hub(0, MURUAPY_SENDS);
}

/* ---- refused ---- */

static void refusals(void)
{
    static const uint64_t connect[] = {0x20000ffff01u};
    two(0);
    refused(4, 0, 54);
    refused(0, 65535, 54);
    refused(255, 0, 54);
    refused(MURUAPY_WAKE, 2, 41);
    refused(MURUAPY_SERVE, 256, 41);
    refused(MURUAPY_HAND_OVER, 2, 42);
    refused(MURUAPY_HAND_OVER, 65535, 42);
    refused(MURUAPY_HAND_OVER, 0, 44);
    refused(MURUAPY_SERVE, 0, 45);
    state.field.sent = 11;
    shows(MURUAPY_WAKE, 0, connect, 1);
    state.field.sent = 12;
    refused(MURUAPY_WAKE, 0, 33);
    state.words[0] = 0x30000ffff04u; /* an Accept */
    refused(MURUAPY_SERVE, 1, 32);
    two(0);
    step(MURUAPY_WAKE, 0);
    refused(MURUAPY_WAKE, 0, 43);
}

static void spoilt(void)
{
    size_t i;
    for (i = 0; i < 8; i++) {
        two(0);
        if (i == 0)
            state.room--;
        else if (i == 1)
            state.room = 0;
        else if (i == 2)
            state.field.plan.modules = 65535;
        else if (i == 3)
            state.field.plan.links = 65535;
        else if (i == 4)
            state.field.marks[0][1] = 3;
        else if (i == 5)
            state.field.modules[1].waking = 0; /* of a sleeper */
        else if (i == 6) {
            state.field.modules[0].status = 2; /* awake, and there is no link 1 */
            state.field.modules[0].waking = 1;
        } else
            state.words[11] = 0x20000ffff01u;
        refused(MURUAPY_WAKE, 0, 31);
        refused(9, 65535, 31);
    }
}

/* One module, no word lent: it wakes and sends nothing. */
static void alone(void)
{
    muruapy_plan value;
    sample("single.plan", &value);
    set_up(&value, 0);
    shows(MURUAPY_WAKE, 0, NULL, 0);
    refused(MURUAPY_WAKE, 1, 41);
    refused(MURUAPY_SERVE, 0, 45);
    refused(MURUAPY_HAND_OVER, 0, 42);
}

void preview_calls(bool whole)
{
    as_whole = whole;
    to_rest();
    put_back();
    largest();
    refusals();
    spoilt();
    alone();
}
