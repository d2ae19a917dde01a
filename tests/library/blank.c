/* The blank plan, without modules and links, through every function of the header that has to do with a plan or a field: its
 * bytes, its value, and fields of it from setup, of zeros, and of anything where nobody looks; with no byte, word or record
 * between two forbidden pages, and with more. Beside it what is refused: links without modules, and fields of it in which a
 * message was sent or waits.
 *
 * tests/library/run looks that each function of the header is called here, by itself or through site.c. These have nothing
 * to do with a plan or a field:
 *
 *     muruapy_refusal_text muruapy_header muruapy_header_kind muruapy_header_level muruapy_header_find
 *     muruapy_message_listed muruapy_frame_check muruapy_frame_read muruapy_frame_write
 *     muruapy_word_header muruapy_word_carried muruapy_word_link muruapy_word_handed
 *     muruapy_schedule_check muruapy_schedule_steps muruapy_schedule_read
 */
#include "site.h"

#include <stdlib.h>
#include <string.h>

enum { BYTES = 7 };
static const uint8_t blank_bytes[BYTES + 1] = {1, 0, 4, 0, 0, 0, 0, 0}; /* and a byte too many */
static const muruapy_plan zeros;

static bool as_whole;
static struct state state, back;

/* ---- bytes ---- */

static void bytes_give(const uint8_t *bytes, size_t length, uint32_t number)
{
    const uint8_t *shown = show(bytes, length);
    muruapy_plan *plan;
    answered("plan_check", muruapy_plan_check(shown, length), number, NULL);
    plan = lend(NULL, sizeof *plan);
    answered("plan_read", muruapy_plan_read(shown, length, plan), number, NULL);
    if (number == 0)
        must(memcmp(plan, &zeros, sizeof zeros) == 0, "the blank plan is not read as zeros");
    take_back();
}

static void plan_bytes(void)
{
    static const struct {
        uint32_t number;
        size_t length;
        uint8_t bytes[15];
    } refused[] = {
        {12, 7, {2, 0, 4}},
        {14, 7, {1, 0, 4, 0, 193}},
        {15, 7, {1, 0, 4, 0, 0, 0, 1}},                               /* one link, a length for none */
        {15, 15, {1, 0, 12, 0, 0, 0, 0, 0, 0, 0, 1, 0, 3, 0, 4}},     /* no link, a length for one */
        {15, 15, {1, 0, 12, 0, 0, 0, 2, 0, 0, 0, 1, 0, 3, 0, 4}},     /* two */
        {16, 15, {1, 0, 12, 0, 0, 0, 1, 0, 0, 0, 1, 0, 3, 0, 4}},
        {16, 15, {1, 0, 12, 0, 0, 0, 1}},                             /* from 0 to 0 */
        {16, 15, {1, 0, 12, 0, 0, 0, 1, 0, 0, 0, 1, 255, 255, 0, 4}}, /* before 18 */
    };
    struct file f = file("samples", "blank.plan");
    size_t n;
    must(f.length == BYTES && memcmp(f.bytes, blank_bytes, BYTES) == 0, "samples/blank.plan has other bytes");
    free(f.bytes);
    for (n = 0; n <= BYTES + 1; n++)
        bytes_give(blank_bytes, n, n < 3 ? 11 : n == BYTES ? 0 : 13);
    for (n = 0; n < sizeof refused / sizeof *refused; n++)
        bytes_give(refused[n].bytes, refused[n].length, refused[n].number);
}

/* ---- values ---- */

static void written(const muruapy_plan *value, size_t room, uint32_t number)
{
    const muruapy_plan *plan = show(value, sizeof *plan);
    uint8_t *to = lend(NULL, room);
    size_t i;
    answered("plan_write", muruapy_plan_write(plan, to, room), number, NULL);
    if (number == 0) {
        must(memcmp(to, blank_bytes, BYTES) == 0, "other bytes are written");
        for (i = BYTES; i < room; i++)
            must(to[i] == FILL, "a byte behind the plan is written");
    }
    take_back();
}

static void tree_built(const muruapy_plan *value, size_t room, uint32_t number)
{
    const muruapy_plan *plan = show(value, sizeof *plan);
    answered("tree", muruapy_tree(plan, lend(NULL, room), room), number, NULL);
    take_back();
}

/* Nobody is at either end of a path, or near another. */
static void no_path(const muruapy_plan *value, size_t room, uint32_t number)
{
    static const uint16_t modules[] = {0, 1, 191, 65535};
    size_t i;
    for (i = 0; i < sizeof modules / sizeof *modules; i++) {
        const muruapy_plan *plan = show(value, sizeof *plan);
        uint16_t *links = lend(NULL, room * sizeof *links);
        uint8_t *marks = lend(NULL, room);
        muruapy_path_found got = muruapy_path(plan, modules[i], modules[i], links, room);
        must(got.way == 0 && got.length == 0 && got.worst == MURUAPY_NONE, "a path where nobody is");
        answered("path", got.refusal, number, NULL);
        answered("path", muruapy_path(plan, 0, modules[i], links, room).refusal, number, NULL);
        answered("near", muruapy_near(plan, modules[i], i % 2 ? 0xffffffffu : 0, marks, room), number, NULL);
        take_back();
    }
}

/* A value without modules, with so many links of these bytes: it is refused by the number, or is the blank plan. */
static muruapy_plan value_gives(uint16_t links, uint8_t byte, uint32_t number)
{
    static const size_t rooms[] = {0, 1, BYTES - 1, BYTES, BYTES + 1, 600, MURUAPY_PLAN_BYTES};
    muruapy_plan value;
    size_t i;
    memset(&value, byte, sizeof value);
    value.modules = 0;
    value.links = links;
    answered("plan_value_check", muruapy_plan_value_check(show(&value, sizeof value)), number, NULL);
    take_back();
    for (i = 0; i < sizeof rooms / sizeof *rooms; i++) {
        written(&value, rooms[i], number ? number : rooms[i] < BYTES ? 22 : 0);
        tree_built(&value, rooms[i], number ? number : rooms[i] > 0 ? 20 : 0);
        no_path(&value, rooms[i], number ? number : 41);
    }
    return value;
}

static void no_cost(const muruapy_plan *value)
{
    static const uint16_t links[] = {0, 1, 599, 600, 65535};
    size_t i;
    for (i = 0; i < sizeof links / sizeof *links; i++) {
        gave("link_cost", muruapy_link_cost(show(value, sizeof *value), links[i]), MURUAPY_NONE, true);
        take_back();
    }
}

/* 0 times any logarithm is 0, so only links count. */
static void ceilings(void)
{
    static const uint16_t links[] = {0, 1, 600, 65535};
    size_t i;
    for (i = 0; i < sizeof links / sizeof *links; i++)
        gave("ceiling", muruapy_ceiling(0, links[i]), 2 * (uint32_t)links[i], true);
}

/* ---- setup and the whole job ---- */

static const size_t rooms[] = {0, 1, 5, MURUAPY_WORDS + 2};
enum { ROOMS = sizeof rooms / sizeof *rooms };

/* Nobody is woken, so the job leaves what setup leaves. */
static void job_gives(const muruapy_plan *value, size_t room, uint32_t number)
{
    struct site s;
    uint16_t *rounds;
    memset(&state, FILL, sizeof state);
    state.room = room;
    s = lend_site(&state, as_whole, NEW);
    rounds = lend(NULL, sizeof *rounds);
    answered("job", do_job(&s, show(value, sizeof *value), rounds), number, rounds);
    must(*rounds == 0, "rounds are told where nobody is");
    fetch(&s, &state);
    take_back();
    if (number == 0)
        is_fresh(&state, value);
}

static void values(void)
{
    static const struct {
        uint16_t links;
        uint32_t number;
    } some[] = {{0, 0}, {1, 16}, {600, 16}, {601, 15}, {65535, 15}};
    size_t i, room;
    unsigned byte;
    for (i = 0; i < sizeof some / sizeof *some; i++)
        for (byte = 0; byte < 256; byte += 85) { /* whatever stands where links could */
            muruapy_plan value = value_gives(some[i].links, (uint8_t)byte, some[i].number);
            if (some[i].number == 0)
                no_cost(&value);
            for (room = 0; room < ROOMS; room++) {
                setup_gives(&state, as_whole, &value, rooms[room], some[i].number);
                job_gives(&value, rooms[room], some[i].number);
            }
        }
    ceilings();
}

/* ---- the calls on a field, on `state`, which none of them alters ---- */

static void keeps(const struct site *s)
{
    static struct state now;
    now = state;
    fetch(s, &now);
    must(memcmp(&now, &state, sizeof now) == 0, "a field of nobody did not keep");
}

static void step_gives(uint8_t kind, uint16_t number, uint32_t refusal)
{
    struct site s = lend_site(&state, as_whole, OLD);
    answered("step", do_step(&s, kind, number), refusal, NULL);
    keeps(&s);
    take_back();
}

static void preview_gives(uint8_t kind, uint16_t number, uint32_t refusal)
{
    size_t places;
    for (places = 0; places < 4; places += 3) {
        struct site s = lend_site(&state, as_whole, READ);
        uint64_t *buffer = lend(NULL, places * sizeof *buffer);
        muruapy_previewed got = do_preview(&s, kind, number, buffer, places);
        must(got.count == 0, "messages are counted beside a refusal");
        answered("preview", got.refusal, refusal, NULL);
        take_back();
    }
}

static void run_gives(const uint8_t *schedule, size_t length, uint32_t refusal)
{
    struct site s = lend_site(&state, as_whole, OLD);
    const uint8_t *shown = show(schedule, length);
    size_t *steps = lend(NULL, sizeof *steps);
    answered("run", do_run(&s, shown, length, steps), refusal, steps);
    must(*steps == 0, "steps are told where nobody is");
    keeps(&s);
    take_back();
}

static void rounds_give(uint16_t limit, uint32_t refusal)
{
    struct site s = lend_site(&state, as_whole, OLD);
    uint16_t *rounds = lend(NULL, sizeof *rounds);
    answered("rounds", do_rounds(&s, limit, rounds), refusal, rounds);
    must(*rounds == 0, "rounds are told where nobody is");
    keeps(&s);
    take_back();
}

static void start_gives(uint16_t sender, size_t count, uint32_t refusal)
{
    const muruapy_field *field = show(&state.field, sizeof state.field);
    const uint64_t *words = show(state.words, state.room * sizeof *state.words);
    muruapy_cue *cues = lend(NULL, count * sizeof *cues);
    uint32_t got = as_whole ? muruapy_cue_start(field, words, state.room, cues, count, sender, 7)
                            : muruapy_cue_start_value(*field, words, state.room, cues, count, sender, 7);
    answered("cue_start", got, refusal, NULL);
    take_back();
}

/* The records are `cues`, or any bytes where that is NULL. */
static void deliver_gives(uint16_t link, const muruapy_cue *cues, size_t count, uint32_t refusal)
{
    const muruapy_field *field = show(&state.field, sizeof state.field);
    const uint64_t *words = show(state.words, state.room * sizeof *state.words);
    muruapy_cue *lent = lend(cues, count * sizeof *cues);
    muruapy_delivery got = as_whole ? muruapy_cue_deliver(field, words, state.room, lent, count, link)
                                    : muruapy_cue_deliver_value(*field, words, state.room, lent, count, link);
    must(got.heard == 0, "somebody has heard");
    answered("cue_deliver", got.refusal, refusal, NULL);
    take_back();
}

/* A point is saved in so many bytes, 16 with a name of one letter, found and restored; a field of nobody needs no word. */
static void point_gives(size_t size, size_t room, uint32_t refusal)
{
    static const uint8_t want[16] = {1, 0, 0, 0, 11, 1, 'a', 1, 0, 4, 0, 0, 0, 0, 0, 0};
    static uint8_t stored[20];
    struct site s = lend_site(&state, as_whole, READ);
    const uint8_t *name = show("a", 1);
    uint8_t *store;
    muruapy_found found;
    memset(stored, 0, sizeof stored);
    store = lend(stored, size);
    answered("save", do_save(&s, name, 1, store, size), refusal, NULL);
    if (size > 0)
        memcpy(stored, store, size);
    take_back();
    name = show("a", 1);
    store = (uint8_t *)(uintptr_t)show(stored, size);
    found = muruapy_find(store, size, name, 1);
    must(found.at == 0 && found.size == (refusal ? 0 : 16) && muruapy_shown(store, found) == store, "another place");
    gave("find", found.refusal, refusal ? 77 : 0, true);
    take_back();
    if (refusal)
        return;
    must(memcmp(stored, want, sizeof want) == 0, "other bytes are saved");
    memset(&back, FILL, sizeof back);
    back.room = room;
    name = show("a", 1);
    store = (uint8_t *)(uintptr_t)show(stored, size);
    s = lend_site(&back, as_whole, NEW);
    answered("restore", do_restore(store, size, name, 1, &s), 0, NULL);
    fetch(&s, &back);
    take_back();
    is_fresh(&back, &zeros);
}

/* ---- all of them, refused by the number, or each by its own where that is 0 ---- */

static uint32_t or_own(uint32_t number, uint32_t own)
{
    return number ? number : own;
}

static void steps(uint32_t number)
{
    static const struct {
        uint8_t kind;
        uint16_t number;
        uint32_t refusal;
    } told[] = {
        {MURUAPY_WAKE, 0, 41},      {MURUAPY_WAKE, 1, 41},      {MURUAPY_WAKE, 65535, 41},
        {MURUAPY_HAND_OVER, 0, 42}, {MURUAPY_HAND_OVER, 1, 42}, {MURUAPY_HAND_OVER, 65535, 42},
        {MURUAPY_SERVE, 0, 41},     {MURUAPY_SERVE, 191, 41},   {MURUAPY_SERVE, 65535, 41},
        {0, 0, 54},                 {4, 0, 54},                 {255, 65535, 54},
    };
    size_t i;
    for (i = 0; i < sizeof told / sizeof *told; i++) {
        step_gives(told[i].kind, told[i].number, or_own(number, told[i].refusal));
        preview_gives(told[i].kind, told[i].number, or_own(number, told[i].refusal));
    }
}

static void runs(uint32_t number)
{
    static const struct {
        uint32_t refusal;
        size_t length;
        uint8_t bytes[9];
    } told[] = {
        {0, 3, {1, 0, 0}},           {41, 6, {1, 0, 3, 1, 0, 0}}, {42, 6, {1, 0, 3, 2, 0, 0}},
        {41, 6, {1, 0, 3, 3, 0, 0}}, {41, 9, {1, 0, 6, 3, 255, 255, 2, 0, 0}}, {54, 9, {1, 0, 6, 1, 0, 0, 4, 0, 0}},
        {51, 0, {1, 0, 0}},          {51, 2, {1, 0, 0}},          {52, 3, {2, 0, 0}},
        {53, 3, {1, 0, 3}},
    };
    size_t i;
    for (i = 0; i < sizeof told / sizeof *told; i++)
        run_gives(told[i].bytes, told[i].length, or_own(number, told[i].refusal));
    rounds_give(0, number);
    rounds_give(1, number);
    rounds_give(65535, number);
}

static void cues(uint32_t number)
{
    static const uint16_t some[] = {0, 1, 191, 65535};
    static const muruapy_cue unheard[] = {{0, 0, MURUAPY_NONE, 0}, {0, 0, MURUAPY_NONE, 0}};
    static const muruapy_cue started[] = {{1, 7, MURUAPY_NONE, 0}, {0, 0, MURUAPY_NONE, 0}};
    size_t i, count;
    for (i = 0; i < sizeof some / sizeof *some; i++)
        for (count = 0; count < 3; count++) {
            start_gives(some[i], count, or_own(number, 72));
            deliver_gives(some[i], NULL, count, or_own(number, 73));
            deliver_gives(some[i], unheard, count, or_own(number, 73));
            deliver_gives(some[i], started, count, or_own(number, 73));
        }
}

static void points(uint32_t number)
{
    size_t size;
    for (size = 0; size <= 20; size++)
        point_gives(size, size % 3, or_own(number, size < 16 ? 78 : 0));
}

static void every_call(uint32_t number)
{
    check_gives(&state, as_whole, number);
    steps(number);
    runs(number);
    cues(number);
    points(number);
}

/* ---- the report ---- */

static void report(void)
{
    static const char text[] = "modules 0\nlinks 0\ntotal 0\ncore none\nmessages 0 of 0\nrounds 0\n";
    static const char many[] = "modules 0\nlinks 0\ntotal 0\ncore none\nmessages 0 of 0\nrounds 65535\n";
    size_t room;
    for (room = 0; room <= sizeof text; room++)
        report_gives(&state, as_whole, 0, room, text, sizeof text - 1);
    report_gives(&state, as_whole, 0, MURUAPY_REPORT_BYTES, text, sizeof text - 1);
    report_gives(&state, as_whole, 65535, MURUAPY_REPORT_BYTES, many, sizeof many - 1);
}

/* ---- fields of the blank plan ---- */

/* From setup; of zeros, as static memory is; of anything but for what is looked at: N, L, the sent count, the words. */
enum made { SET_UP, ZEROS, ANYTHING, MADE };

static void make(enum made how, size_t room)
{
    if (how == SET_UP) {
        setup_gives(&state, as_whole, &zeros, room, 0);
        return;
    }
    memset(&state, how == ZEROS ? 0 : FILL, sizeof state);
    memset(state.words, 0, sizeof state.words);
    state.field.plan.modules = state.field.plan.links = 0;
    state.field.sent = 0;
    state.room = room;
}

static void nothing_waits(void)
{
    gave("waiting", muruapy_waiting(show(state.words, state.room * sizeof *state.words), state.room), 0, true);
    take_back();
}

static void taken(void)
{
    int how;
    size_t i;
    for (how = 0; how < MADE; how++)
        for (i = 0; i < ROOMS; i++) {
            make((enum made)how, rooms[i]);
            nothing_waits();
            every_call(0);
            if (i == 0)
                report();
        }
}

static const struct spoil spoils[] = {
    SPOIL(field.sent, 1),         SPOIL(field.sent, 0xffffffffu),     SPOIL(field.plan.modules, 193),
    SPOIL(field.plan.links, 1),   SPOIL(field.plan.links, 600),       SPOIL(field.plan.links, 601),
    SPOIL(words[0], 1),           SPOIL(words[0], 0x20000ffff01u),    SPOIL(words[0], UINT64_MAX),
    SPOIL(words[4], 1),           SPOIL(words[4], 0x30000ffff01u),
};

/* A message sent, a link, too many modules, or a word within those that are lent: 31 in every call. */
static void spoilt(void)
{
    int how;
    size_t i, room;
    for (how = 0; how < MADE; how++)
        for (i = 0; i < sizeof spoils / sizeof *spoils; i++)
            for (room = 0; room <= 5; room += 5) {
                bool word = spoils[i].at >= offsetof(struct state, words);
                make((enum made)how, room);
                put_number(&state, &spoils[i]);
                every_call(word && room == 0 ? 0 : 31); /* a word that is not lent is none of the field's */
                if (word && room > 0) {
                    state.field.sent = 1;
                    every_call(31);
                }
            }
}

void blank_calls(bool whole)
{
    as_whole = whole;
    plan_bytes();
    values();
    taken();
    spoilt();
}
