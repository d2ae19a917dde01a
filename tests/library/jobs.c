/* The whole job and the report. What the job leaves is compared with setup, wakes and rounds, whole and one by one; the
 * report with what the reporting program prints; the marks with the tree. */
#include "site.h"

#include <stdlib.h>
#include <string.h>

static bool as_whole;
static struct state state, done;

static void job_gives(const muruapy_plan *value, size_t room, uint32_t number, uint16_t count)
{
    struct site s;
    uint16_t *rounds;
    memset(&state, FILL, sizeof state);
    state.room = room;
    s = lend_site(&state, as_whole, NEW);
    rounds = lend(NULL, sizeof *rounds);
    answered("job", do_job(&s, show(value, sizeof *value), rounds), number, rounds);
    must(*rounds == count, "another number of rounds is told");
    fetch(&s, &state);
    take_back();
}

static void step(uint8_t kind, uint16_t number)
{
    struct site s = lend_site(&state, as_whole, OLD);
    answered("step", do_step(&s, kind, number), 0, NULL);
    fetch(&s, &state);
    take_back();
}

/* Wakes the lowest module of each part, or the highest; a part is what is near one of its modules, however far. */
static void wake_parts(const muruapy_plan *value, bool lowest)
{
    bool seen[MURUAPY_MODULES] = {false};
    uint8_t part[MURUAPY_MODULES];
    uint16_t i, u;
    for (i = 0; i < value->modules; i++) {
        uint16_t v = lowest ? i : (uint16_t)(value->modules - 1 - i);
        if (seen[v])
            continue;
        answered("near", muruapy_near(value, v, value->modules, part, value->modules), 0, NULL);
        for (u = 0; u < value->modules; u++)
            seen[u] = seen[u] || part[u] == 1;
        step(MURUAPY_WAKE, v);
    }
}

/* Setup and the wakes, then rounds, at most `each` in a call: the same as the job. */
static void by_rounds(const muruapy_plan *value, uint16_t each, uint16_t count)
{
    uint16_t sum = 0;
    struct site s = lend_site(&state, as_whole, NEW);
    answered("setup", do_setup(&s, show(value, sizeof *value)), 0, NULL);
    fetch(&s, &state);
    take_back();
    wake_parts(value, true);
    while (muruapy_waiting(state.words, state.room) > 0) {
        uint16_t *rounds;
        s = lend_site(&state, as_whole, OLD);
        rounds = lend(NULL, sizeof *rounds);
        answered("rounds", do_rounds(&s, each, rounds), 0, NULL);
        must(*rounds > 0 && *rounds <= each, "no round, or too many");
        sum = (uint16_t)(sum + *rounds);
        fetch(&s, &state);
        take_back();
    }
    must(sum == count, "another number of rounds in several calls");
    must(memcmp(&state, &done, sizeof state) == 0, "the job leaves something else than its calls");
}

/* Each step of some other order, by itself; another order comes to the same tree. */
static void by_steps(const muruapy_plan *value)
{
    struct site s = lend_site(&state, as_whole, NEW);
    answered("setup", do_setup(&s, show(value, sizeof *value)), 0, NULL);
    fetch(&s, &state);
    take_back();
    wake_parts(value, false);
    while (muruapy_waiting(state.words, state.room) > 0) {
        uint64_t word = state.words[0];
        uint16_t link = muruapy_word_link(word);
        const muruapy_link *l = &value->link[link / 2];
        if (muruapy_word_handed(word))
            step(MURUAPY_SERVE, link % 2 ? l->lower : l->higher);
        else
            step(MURUAPY_HAND_OVER, link);
    }
    must(memcmp(state.field.marks, done.field.marks, sizeof done.field.marks) == 0, "another order gives another tree");
}

static void marks_are_the_tree(const muruapy_plan *value)
{
    uint8_t tree[MURUAPY_LINKS];
    size_t k;
    answered("tree", muruapy_tree(value, tree, value->links), 0, NULL);
    for (k = 0; k < value->links; k++) {
        uint8_t want = tree[k] ? 1 : 2;
        must(done.field.marks[k][0] == want && done.field.marks[k][1] == want, "the marks are not the tree");
    }
}

static void reports(uint16_t rounds, const struct file *want)
{
    size_t room;
    report_gives(&state, as_whole, rounds, MURUAPY_REPORT_BYTES, want->bytes, want->length);
    for (room = 0; room <= want->length + 1; room++)
        if (room < 20 || room + 20 > want->length)
            report_gives(&state, as_whole, rounds, room, want->bytes, want->length);
}

/* A field of any numbers has a report that the room holds. */
static void report_of_anything(uint8_t byte)
{
    static uint8_t once[MURUAPY_REPORT_BYTES + 1];
    size_t length;
    memset(&state.field, byte, sizeof state.field);
    memset(once, FILL, sizeof once);
    length = muruapy_report(&state.field, 65535, once, sizeof once);
    must(length > 0 && length <= MURUAPY_REPORT_BYTES, "MURUAPY_REPORT_BYTES are not enough");
    state.room = 0;
    report_gives(&state, as_whole, 65535, MURUAPY_REPORT_BYTES, once, length);
    report_gives(&state, as_whole, 65535, length, once, length);
    report_gives(&state, as_whole, 65535, length - 1, once, length);
}

static void job_of(const char *name, const char *reports_folder, uint16_t rounds, uint32_t sent)
{
    struct file want = file(reports_folder, name);
    muruapy_plan value;
    size_t ceiling, room;
    sample(name, &value);
    ceiling = muruapy_ceiling(value.modules, value.links);
    for (room = 0; room < ceiling; room += room == 1 ? ceiling - 2 : 1)
        job_gives(&value, room, 21, 0);
    job_gives(&value, ceiling + 1, 0, rounds);
    job_gives(&value, ceiling, 0, rounds);
    must(state.field.sent == sent, "another number of messages is sent");
    done = state;
    reports(rounds, &want);
    marks_are_the_tree(&value);
    by_rounds(&value, 65535, rounds);
    by_rounds(&value, 1, rounds);
    if (value.links < 100)
        by_steps(&value);
    free(want.bytes);
}

void job_calls(bool whole, const char *reports_folder)
{
    const struct refused_plan *from;
    muruapy_plan value;
    as_whole = whole;
    job_of("single.plan", reports_folder, 0, 0);
    job_of("two-modules.plan", reports_folder, 4, 6);
    job_of("two-banks.plan", reports_folder, 4, 12);
    job_of("two-apart.plan", reports_folder, 0, 0);
    job_of("ring-12.plan", reports_folder, 34, 58);
    job_of("full-192.plan", reports_folder, 140, 3771);
    for (from = refused_plans; from->number; from++) {
        refused_value(from, &value);
        job_gives(&value, 0, from->number, 0);
        job_gives(&value, 12, from->number, 0);
    }
    report_of_anything(0);
    report_of_anything(1);
    report_of_anything(0xff);
}
