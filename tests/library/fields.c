/* The calls on a field: setup, 31 by itself, steps, runs and rounds, on the two modules of the sample, whose every step is
 * known, on spoilt fields, and on a triangle, for who woke whom. */
#include "site.h"

#include <string.h>

static bool as_whole;
static struct state state, kept;

static void words_are(const uint64_t *want, size_t count)
{
    static const uint64_t none;
    size_t i;
    for (i = 0; i < state.room; i++)
        must(state.words[i] == (i < count ? want[i] : none), "other words wait");
}

/* ---- setup ---- */

static void setups(void)
{
    static const char *const names[] = {"single.plan", "two-modules.plan", "ring-12.plan", "full-192.plan"};
    static const size_t ceilings[] = {0, 12, 204, 7920};
    const struct refused_plan *from;
    muruapy_plan value;
    size_t i, room;
    for (i = 0; i < 4; i++) {
        sample(names[i], &value);
        setup_gives(&state, as_whole, &value, ceilings[i], 0);
        setup_gives(&state, as_whole, &value, ceilings[i] + 1, 0);
        for (room = 0; room < ceilings[i]; room += room == 1 ? ceilings[i] - 2 : 1)
            setup_gives(&state, as_whole, &value, room, 21);
    }
    for (from = refused_plans; from->number; from++) {
        refused_value(from, &value);
        for (room = 0; room <= 12; room += room == 1 ? 11 : 1)
            setup_gives(&state, as_whole, &value, room, from->number);
    }
}

static void two(size_t room)
{
    muruapy_plan value;
    sample("two-modules.plan", &value);
    setup_gives(&state, as_whole, &value, room, 0);
}

/* ---- the calls, on `state` ---- */

static void step_gives(uint8_t kind, uint16_t number, uint32_t refusal)
{
    struct site s = lend_site(&state, as_whole, OLD);
    answered("step", do_step(&s, kind, number), refusal, NULL);
    fetch(&s, &state);
    take_back();
}

/* A run that is refused whole alters nothing but the count of steps; one that ends at a step has done those before. */
static void run_gives(const uint8_t *bytes, size_t length, uint32_t refusal, size_t done)
{
    struct site s = lend_site(&state, as_whole, OLD);
    const uint8_t *shown = show(bytes, length);
    size_t *steps = lend(NULL, sizeof *steps);
    uint32_t got = do_run(&s, shown, length, steps);
    if (done > 0)
        gave("run", got, refusal, false);
    else
        answered("run", got, refusal, steps);
    must(*steps == done, "another number of steps is told");
    fetch(&s, &state);
    take_back();
}

static void rounds_give(uint16_t limit, uint32_t refusal, uint16_t done)
{
    struct site s = lend_site(&state, as_whole, OLD);
    uint16_t *rounds = lend(NULL, sizeof *rounds);
    answered("rounds", do_rounds(&s, limit, rounds), refusal, rounds);
    must(*rounds == done, "another number of rounds is told");
    fetch(&s, &state);
    take_back();
}

/* ---- 31 ---- */

static const struct spoil spoils[] = {
    SPOIL(field.plan.modules, 0),         SPOIL(field.plan.modules, 3),         SPOIL(field.plan.links, 601),
    SPOIL(field.plan.link[0].lower, 1),   SPOIL(field.plan.link[0].far, 2001),  SPOIL(field.modules[0].status, 3),
    SPOIL(field.modules[1].level, 2),     SPOIL(field.modules[1].identity, 0),  SPOIL(field.modules[0].best_weight, 1),
    SPOIL(field.modules[0].best_edge, 1), SPOIL(field.modules[1].test_edge, 1), SPOIL(field.modules[1].in_branch, 600),
    SPOIL(field.modules[0].find_count, 2), SPOIL(field.modules[1].halted, 2),   SPOIL(field.marks[0][0], 3),
    SPOIL(field.marks[0][1], 255),        SPOIL(field.sent, 13),                SPOIL(field.sent, 0xffffffffu),
    SPOIL(words[0], 1),                   SPOIL(words[0], 0x0000020000ffff01u), SPOIL(words[11], 0x0000020000ffff01u),
    SPOIL(room, 11),                      SPOIL(room, 0),
};
/* Nobody looks at these. */
static const struct spoil free_ones[] = {
    SPOIL(field.plan.link[1].far, 9999), SPOIL(field.modules[2].status, 9), SPOIL(field.modules[191].halted, 9),
    SPOIL(field.marks[1][0], 9),         SPOIL(field.marks[599][1], 9),     SPOIL(field.sent, 12),
};

static void spoil(const struct spoil *s)
{
    two(12);
    put_number(&state, s);
}

static void spoilt(void)
{
    static const uint8_t schedule[] = {1, 0, 3, 1, 0, 0};
    size_t i;
    for (i = 0; i < sizeof spoils / sizeof *spoils; i++) {
        spoil(&spoils[i]);
        check_gives(&state, as_whole, 31);
        step_gives(MURUAPY_WAKE, 0, 31);
        step_gives(9, 65535, 31);
        run_gives(schedule, 6, 31, 0);
        run_gives(schedule, 0, 31, 0);
        rounds_give(65535, 31, 0);
    }
    for (i = 0; i < sizeof free_ones / sizeof *free_ones; i++) {
        spoil(&free_ones[i]);
        check_gives(&state, as_whole, 0);
        rounds_give(65535, 0, 0);
    }
}

/* ---- steps ---- */

/* Two modules from setup to rest, with refused steps among them: docs/FORMATS.md, "Steps". */
static const struct told {
    uint8_t kind;
    uint16_t number;
    uint32_t refusal;
    uint64_t words[2];
} told[] = {
    {4, 0, 54, {0, 0}},
    {0, 0, 54, {0, 0}},
    {1, 2, 41, {0, 0}},
    {2, 2, 42, {0, 0}},
    {2, 65535, 42, {0, 0}},
    {3, 2, 41, {0, 0}},
    {1, 256, 41, {0, 0}},
    {2, 256, 42, {0, 0}},
    {3, 256, 41, {0, 0}},
    {2, 0, 44, {0, 0}},
    {3, 0, 45, {0, 0}},
    {1, 0, 0, {0x20000ffff01u, 0}},
    {1, 0, 43, {0x20000ffff01u, 0}},
    {2, 0, 0, {0x30000ffff01u, 0}},
    {3, 1, 0, {0x20001ffff01u, 0x2000100004au}},
    {2, 1, 0, {0x2000100004au, 0x30001ffff01u}},
    {2, 1, 0, {0x30001ffff01u, 0x3000100004au}},
    {3, 0, 0, {0x3000100004au, 0x2000000004au}},
    {3, 0, 0, {0x2000000004au, 0x20000ffff06u}},
    {2, 0, 0, {0x20000ffff06u, 0x3000000004au}},
    {3, 1, 0, {0x20000ffff06u, 0x20001ffff06u}},
    {2, 1, 0, {0x20000ffff06u, 0x30001ffff06u}},
    {2, 0, 0, {0x30001ffff06u, 0x30000ffff06u}},
    {3, 0, 0, {0x30000ffff06u, 0}},
    {3, 1, 0, {0, 0}},
    {1, 1, 43, {0, 0}},
};
enum { TOLD = sizeof told / sizeof *told };

static void steps(void)
{
    size_t i, room;
    for (room = 12; room <= 13; room++) {
        two(room);
        for (i = 0; i < TOLD; i++) {
            step_gives(told[i].kind, told[i].number, told[i].refusal);
            words_are(told[i].words, 2);
        }
        check_gives(&state, as_whole, 0);
        must(state.field.sent == 6, "two modules send not 6 messages");
        must(state.field.modules[0].halted == 1 && state.field.modules[1].halted == 1, "a module has not halted");
        must(state.field.marks[0][0] == 1 && state.field.marks[0][1] == 1, "the link is no branch");
    }
    kept = state;
}

/* 33: a wake when all messages were sent that may be, by a step and by a Connect or a Test. 32: a sleeper serves an
 * Accept. */
static void no_field_of_setup(void)
{
    static const uint64_t accept[] = {0x0000030000ffff04u}, wakes[] = {0x0000030000ffff01u, 0x000003000000000bu};
    static const uint8_t both[] = {1, 0, 6, 1, 0, 0, 3, 0, 1};
    size_t i;
    two(12);
    state.field.sent = 12;
    step_gives(MURUAPY_WAKE, 0, 33);
    for (i = 0; i < 2; i++) {
        state.words[0] = wakes[i];
        step_gives(MURUAPY_SERVE, 1, 33);
    }
    two(12);
    state.words[0] = accept[0];
    state.field.sent = 1;
    check_gives(&state, as_whole, 0);
    step_gives(MURUAPY_SERVE, 1, 32);
    rounds_give(65535, 32, 0);
    words_are(accept, 1);
    run_gives(both, 9, 32, 1);
    must(state.field.modules[0].status == 2 && state.field.sent == 2, "the step before the refused one does not stand");
}

/* ---- waking links ---- */

static void triangle(void)
{
    muruapy_plan value;
    sample("worse-reading.plan", &value);
    setup_gives(&state, as_whole, &value, 21, 0);
}

enum { NONE = MURUAPY_NONE };

/* The triangle's link 0 is 0-1, link 1 is 0-2, link 2 is 1-2: who is awake, by which links, and whether 31 takes it. */
static const struct woken {
    uint32_t number;
    uint16_t status[3], waking[3];
} woken[] = {
    {0, {2, 0, 0}, {NONE, NONE, NONE}},
    {0, {1, 0, 0}, {0, NONE, NONE}}, /* by a module that is asleep */
    {0, {2, 1, 0}, {0, 0, NONE}},    /* each by the other */
    {0, {2, 2, 2}, {0, 2, 1}},       /* in a circle */
    {0, {2, 2, 1}, {1, 0, 2}},
    {31, {2, 0, 0}, {2, NONE, NONE}}, /* another module's */
    {31, {2, 2, 2}, {NONE, 1, NONE}},
    {31, {2, 2, 1}, {NONE, 0, 0}},
    {31, {2, 0, 0}, {3, NONE, NONE}}, /* not below L */
    {31, {0, 0, 1}, {NONE, NONE, 256}},
    {31, {0, 2, 0}, {NONE, 65534, NONE}},
    {31, {0, 0, 0}, {0, NONE, NONE}}, /* a sleeper's */
    {31, {2, 2, 0}, {NONE, 0, 1}},
};

static void wakings(void)
{
    static const uint8_t nothing[] = {1, 0, 0};
    size_t i, v;
    for (i = 0; i < sizeof woken / sizeof *woken; i++) {
        triangle();
        for (v = 0; v < 3; v++) {
            state.field.modules[v].status = woken[i].status[v];
            state.field.modules[v].waking = woken[i].waking[v];
        }
        check_gives(&state, as_whole, woken[i].number);
        step_gives(MURUAPY_HAND_OVER, 0, woken[i].number ? 31 : 44);
        run_gives(nothing, 3, woken[i].number, 0);
        rounds_give(65535, woken[i].number, 0);
    }
}

/* Module 0 woken by a step, then rounds to rest: module 1 was woken by a Connect over link 0, module 2 by a Test over link
 * 1, which is not in the tree, and which it put back at first. */
static void who_woke_whom(void)
{
    static const muruapy_module want[3] = {
        {2, 1, 0, NONE, NONE, NONE, 0, 0, 1, NONE},
        {2, 1, 0, NONE, NONE, NONE, 0, 0, 1, 0},
        {2, 1, 0, NONE, NONE, NONE, 2, 0, 0, 1},
    };
    triangle();
    step_gives(MURUAPY_WAKE, 0, 0);
    must(state.field.modules[0].waking == NONE, "a wake step is told as a link");
    rounds_give(1, 0, 1);
    must(state.field.modules[1].waking == 0 && state.field.modules[2].waking == NONE, "another waking link");
    rounds_give(65535, 0, 7);
    must(memcmp(state.field.modules, want, sizeof want) == 0, "the triangle's modules have other values");
}

/* ---- runs and rounds ---- */

static void runs(void)
{
    static const uint8_t wrong[] = {1, 0, 6, 1, 0, 0, 4, 0, 0}, nothing[] = {1, 0, 0};
    static const uint8_t three[] = {1, 0, 9, 1, 0, 0, 2, 0, 0, 3, 0, 1};
    static const uint8_t stops[] = {1, 0, 9, 2, 0, 1, 3, 0, 5, 2, 0, 1}, version[] = {2, 0, 3, 1, 0, 0};
    static const uint64_t after_three[] = {0x20001ffff01u, 0x2000100004au};
    static const uint64_t after_stop[] = {0x2000100004au, 0x30001ffff01u};
    uint8_t all[3 + 3 * TOLD] = {1, 0, 0};
    size_t i, length = 3;
    two(12);
    for (i = 0; i < sizeof wrong; i++)
        run_gives(wrong, i, i < 3 ? 51 : 53, 0);
    run_gives(wrong, 9, 54, 0);
    run_gives(version, 6, 52, 0);
    run_gives(nothing, 3, 0, 0);
    run_gives(three, 12, 0, 3);
    words_are(after_three, 2);
    run_gives(stops, 12, 41, 1);
    words_are(after_stop, 2);
    /* All taken steps in one run leave what they left one by one. */
    for (i = 0; i < TOLD; i++)
        if (told[i].refusal == 0) {
            all[length++] = told[i].kind;
            all[length++] = (uint8_t)(told[i].number >> 8);
            all[length++] = (uint8_t)told[i].number;
        }
    all[2] = (uint8_t)(length - 3);
    two(13);
    run_gives(all, length, 0, (length - 3) / 3);
    must(memcmp(&state.field, &kept.field, sizeof kept.field) == 0, "a run leaves another field than its steps");
    words_are(NULL, 0);
    run_gives(all, length, 43, 0);
}

static void rounds(void)
{
    static const uint64_t first[] = {0x20001ffff01u, 0x2000100004au}, second[] = {0x2000000004au, 0x20000ffff06u};
    two(12);
    rounds_give(65535, 0, 0);
    step_gives(MURUAPY_WAKE, 0, 0);
    rounds_give(1, 0, 1);
    words_are(first, 2);
    rounds_give(0, 0, 0);
    words_are(first, 2);
    rounds_give(1, 0, 1);
    words_are(second, 2);
    rounds_give(256, 0, 2);
    words_are(NULL, 0);
    must(memcmp(&state.field, &kept.field, sizeof kept.field) == 0, "rounds leave another field than steps");
}

void field_calls(bool whole)
{
    as_whole = whole;
    setups();
    spoilt();
    steps();
    no_field_of_setup();
    wakings();
    who_woke_whom();
    runs();
    rounds();
}
