/* The calls on cues: started and delivered on a triangle, where every record is known, on one module and on the largest
 * sample; fields, marks and records that are refused. Field and words cannot be written. */
#include "site.h"
#include "work.h"

#include <string.h>

static bool as_whole;
static struct state state;
static muruapy_cue cues[MURUAPY_MODULES + 2];
static size_t count;

static const muruapy_cue unheard = {0, 0, MURUAPY_NONE, 0};

/* ---- the calls, on `state` and `cues` ---- */

struct shown {
    const muruapy_field *field;
    const uint64_t *words;
    muruapy_cue *cues;
};

static struct shown lend_all(void)
{
    struct shown l;
    l.field = show(&state.field, sizeof state.field);
    l.words = show(state.words, state.room * sizeof *state.words);
    l.cues = lend(cues, count * sizeof *cues);
    return l;
}

static void all_back(const struct shown *l)
{
    memcpy(cues, l->cues, count * sizeof *cues);
    take_back();
}

/* A record that was written has these numbers. The byte between the first and the second means nothing, so it may be any. */
static void is(muruapy_cue *got, const muruapy_cue *want)
{
    must(got->heard == want->heard && got->cue == want->cue && got->link == want->link && got->hops == want->hops,
         "another record is written");
    ((uint8_t *)got)[1] = 0;
}

/* The records but those from `first` to before `last` are as they were. */
static void others_keep(const muruapy_cue *got, size_t first, size_t last)
{
    size_t i;
    for (i = 0; i < count; i++)
        must((i >= first && i < last) || memcmp(&got[i], &cues[i], sizeof *got) == 0, "a record did not keep");
}

static void start_gives(uint16_t sender, uint16_t cue, uint32_t refusal)
{
    struct shown l = lend_all();
    muruapy_cue sends = {1, 0, MURUAPY_NONE, 0};
    size_t v;
    uint32_t got = as_whole ? muruapy_cue_start(l.field, l.words, state.room, l.cues, count, sender, cue)
                            : muruapy_cue_start_value(*l.field, l.words, state.room, l.cues, count, sender, cue);
    sends.cue = cue;
    if (refusal == 0) {
        for (v = 0; v < state.field.plan.modules; v++)
            is(&l.cues[v], v == sender ? &sends : &unheard);
        others_keep(l.cues, 0, v);
    }
    answered("cue_start", got, refusal, NULL);
    all_back(&l);
}

/* `heard` is what the module that the link leads to then holds, NULL where nothing is written. */
static void deliver_gives(uint16_t link, uint32_t refusal, const muruapy_cue *heard)
{
    struct shown l = lend_all();
    muruapy_delivery got = as_whole
                               ? muruapy_cue_deliver(l.field, l.words, state.room, l.cues, count, link)
                               : muruapy_cue_deliver_value(*l.field, l.words, state.room, l.cues, count, link);
    must(got.heard == (heard != NULL), "heard or idle is told wrong");
    if (heard) {
        const muruapy_link *k = &state.field.plan.link[link / 2];
        size_t v = link % 2 ? k->lower : k->higher;
        is(&l.cues[v], heard);
        others_keep(l.cues, v, v + 1);
    }
    gave("cue_deliver", got.refusal, refusal, heard == NULL);
    all_back(&l);
}

/* ---- what they are made on ---- */

/* A field at rest, and so many records of any bytes. */
static void at_rest(const muruapy_plan *plan, size_t records)
{
    uint16_t rounds;
    memset(&state, 0, sizeof state);
    state.room = muruapy_ceiling(plan->modules, plan->links);
    must(muruapy_job(plan, &state.field, state.words, state.room, &rounds) == 0, "the job is refused");
    memset(cues, FILL, sizeof cues);
    count = records;
}

/* Its tree is links 0 and 2. */
static void triangle(size_t records)
{
    static muruapy_plan plan;
    sample("worse-reading.plan", &plan);
    at_rest(&plan, records);
}

/* ---- */

static void told(void)
{
    static const muruapy_cue first = {1, 7, 0, 1}, second = {1, 7, 2, 2}, back = {1, 65535, 0, 1};
    triangle(4);
    start_gives(0, 7, 0);
    deliver_gives(2, 0, NULL);
    deliver_gives(4, 0, NULL);
    deliver_gives(0, 0, &first);
    deliver_gives(0, 0, NULL);
    deliver_gives(4, 0, &second);
    deliver_gives(5, 0, NULL);
    deliver_gives(6, 42, NULL);
    deliver_gives(65535, 42, NULL);
    count = 3;
    start_gives(1, 65535, 0);
    deliver_gives(1, 0, &back);
}

static void wrong_numbers(void)
{
    size_t few;
    triangle(3);
    start_gives(3, 7, 72);
    start_gives(65535, 7, 72);
    start_gives(2, 7, 0);
    for (few = 0; few < 3; few++) {
        count = few;
        start_gives(2, 7, 73);
        start_gives(3, 7, 72);
        deliver_gives(0, 73, NULL);
        deliver_gives(6, 73, NULL);
    }
}

/* Records of the triangle in which one number is not as a start and deliveries leave it. */
static void wrong_records(void)
{
    static const struct wrong {
        size_t module;
        muruapy_cue record;
    } wrong[] = {
        {0, {0, 0, 65535, 0}}, {0, {1, 7, 65535, 1}}, {0, {1, 7, 0, 2}},     {0, {2, 7, 65535, 0}},
        {1, {1, 8, 0, 1}},     {1, {1, 7, 0, 65535}}, {1, {1, 7, 65535, 0}}, {1, {0, 7, 65535, 0}},
        {2, {1, 7, 2, 3}},     {2, {1, 7, 1, 1}},     {2, {1, 7, 0, 2}},     {2, {1, 7, 3, 2}},
        {2, {1, 7, 65534, 2}}, {2, {0, 0, 2, 0}},     {2, {0, 0, 65535, 1}}, {2, {255, 0, 65535, 0}},
    };
    static const muruapy_cue first = {1, 7, 0, 1}, second = {1, 7, 2, 2};
    size_t i;
    for (i = 0; i < sizeof wrong / sizeof *wrong; i++) {
        triangle(3);
        start_gives(0, 7, 0);
        deliver_gives(0, 0, &first);
        deliver_gives(4, 0, &second);
        cues[wrong[i].module] = wrong[i].record;
        deliver_gives(4, 73, NULL);
        deliver_gives(65535, 73, NULL);
    }
    triangle(3);
    deliver_gives(0, 73, NULL);
    for (i = 0; i < 3; i++)
        cues[i] = unheard;
    deliver_gives(0, 73, NULL);
}

static void refused(uint32_t number)
{
    start_gives(0, 7, number);
    start_gives(3, 7, number);
    deliver_gives(0, number, NULL);
    deliver_gives(6, number, NULL);
    count = 0;
    start_gives(3, 7, number);
    deliver_gives(6, number, NULL);
}

static void wrong_fields(void)
{
    size_t k, end;
    for (k = 0; k < 3; k++)
        for (end = 0; end < 2; end++) {
            triangle(3);
            state.field.marks[k][end] = k == 1 ? 1 : 2;
            refused(71);
            state.field.marks[k][end] = 3;
            refused(31);
        }
    triangle(3);
    state.room--;
    refused(31);
    state.room = 0;
    refused(31);
    triangle(3);
    state.field.plan.modules = 65535;
    refused(31);
    triangle(3);
    state.field.plan.links = 65535;
    refused(31);
    triangle(3);
    state.field.modules[0].waking = 2; /* another module's link */
    refused(31);
    triangle(3);
    state.field.modules[2].waking = 3;
    refused(31);
    triangle(3);
    state.field.modules[1].status = 0; /* a sleeper's waking link */
    refused(31);
    triangle(3);
    state.field.modules[0].waking = 0; /* in a circle with module 1 */
    start_gives(0, 7, 0);
    triangle(3);
    state.field.marks[1][0] = 0; /* Basic will do where no tree link is */
    start_gives(0, 7, 0);
}

/* One module, straight from setup and then at rest, with no word lent. */
static void alone(void)
{
    muruapy_plan value;
    sample("single.plan", &value);
    at_rest(&value, 1);
    must(muruapy_setup(&value, &state.field, state.words, state.room) == 0, "the setup is refused");
    start_gives(0, 7, 0);
    at_rest(&value, 1);
    start_gives(0, 0, 0);
    deliver_gives(0, 42, NULL);
    start_gives(1, 0, 72);
    count = 0;
    start_gives(0, 0, 73);
}

/* Two banks of a river: 71 while one of them sleeps; then the cue stays in its sender's part. */
static void banks(void)
{
    static const muruapy_cue heard = {1, 9, 1, 1};
    muruapy_plan value;
    uint16_t rounds, link;
    sample("two-banks.plan", &value);
    at_rest(&value, 4);
    must(muruapy_setup(&value, &state.field, state.words, state.room) == 0, "the setup is refused");
    must(muruapy_step(&state.field, state.words, state.room, MURUAPY_WAKE, 2) == 0, "the wake is refused");
    must(muruapy_rounds(&state.field, state.words, state.room, 65535, &rounds) == 0, "the rounds are refused");
    start_gives(2, 9, 71);
    must(muruapy_step(&state.field, state.words, state.room, MURUAPY_WAKE, 0) == 0, "the wake is refused");
    must(muruapy_rounds(&state.field, state.words, state.room, 65535, &rounds) == 0, "the rounds are refused");
    start_gives(2, 9, 0);
    deliver_gives(0, 0, NULL);
    deliver_gives(2, 0, &heard);
    for (link = 0; link < 4; link++)
        deliver_gives(link, 0, NULL);
    must(!cues[0].heard && !cues[1].heard, "the other bank hears");
}

/* To every module of the largest sample, in the order of links; then nothing waits anywhere. */
static void to_all(void)
{
    muruapy_plan value;
    size_t heard = 1;
    uint16_t link;
    sample("full-192.plan", &value);
    at_rest(&value, MURUAPY_MODULES + 2);
    start_gives(100, 4660, 0);
    while ((link = next_copy(&state.field, cues)) != MURUAPY_NONE) {
        muruapy_cue next = cues[link % 2 ? value.link[link / 2].higher : value.link[link / 2].lower];
        next.link = link / 2;
        next.hops++;
        deliver_gives(link, 0, &next);
        heard++;
    }
    must(heard == MURUAPY_MODULES, "not all have heard");
    for (link = 0; link < 2 * value.links; link = (uint16_t)(link + 97))
        deliver_gives(link, 0, NULL);
    deliver_gives((uint16_t)(2 * value.links), 42, NULL);
}

void cue_calls(bool whole)
{
    as_whole = whole;
    told();
    wrong_numbers();
    wrong_records();
    wrong_fields();
    alone();
    banks();
    to_all();
}
