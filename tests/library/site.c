#include "site.h"

#include <string.h>

/* A const pointer to pages that nobody may write is kept as a plain one; the calls below pass it as what it is. */
static void *piece_of(const void *content, size_t size, bool writable)
{
    return writable ? lend(content, size) : (void *)(uintptr_t)show(content, size);
}

struct site lend_site(const struct state *from, bool whole, enum lent how)
{
    const muruapy_field *f = &from->field;
    bool writable = how != READ;
    struct site s;
    memset(&s, 0, sizeof s);
    if (whole) {
        s.whole = piece_of(f, sizeof *f, writable);
    } else {
        s.plan = piece_of(&f->plan, sizeof f->plan, how == NEW);
        s.modules = piece_of(f->modules, sizeof f->modules, writable);
        s.marks = piece_of(f->marks, sizeof f->marks, writable);
        s.sent = piece_of(&f->sent, sizeof f->sent, writable);
    }
    s.room = from->room;
    s.words = piece_of(from->words, s.room * sizeof *s.words, writable);
    return s;
}

void fetch(const struct site *s, struct state *to)
{
    muruapy_field *f = &to->field;
    if (s->whole) {
        memcpy(f, s->whole, sizeof *f);
    } else {
        memcpy(&f->plan, s->plan, sizeof f->plan);
        memcpy(f->modules, s->modules, sizeof f->modules);
        memcpy(f->marks, s->marks, sizeof f->marks);
        f->sent = *s->sent;
    }
    memcpy(to->words, s->words, s->room * sizeof *s->words);
}

void is_fresh(const struct state *state, const muruapy_plan *plan)
{
    static const muruapy_module asleep = {0, 0, 65535, 65535, 65535, 65535, 65535, 0, 0, 65535};
    static const muruapy_link no_link;
    const muruapy_field *f = &state->field;
    size_t i;
    must(memcmp(&f->plan, plan, offsetof(muruapy_plan, link) + plan->links * sizeof *plan->link) == 0,
         "the field has another plan");
    for (i = plan->links; i < MURUAPY_LINKS; i++)
        must(memcmp(&f->plan.link[i], &no_link, sizeof no_link) == 0, "a link behind the last one is not 0");
    for (i = 0; i < MURUAPY_MODULES; i++)
        must(memcmp(&f->modules[i], &asleep, sizeof asleep) == 0, "a module is not as at setup");
    for (i = 0; i < MURUAPY_LINKS; i++)
        must(f->marks[i][0] == 0 && f->marks[i][1] == 0, "a mark is not as at setup");
    must(f->sent == 0, "something was sent at setup");
    for (i = 0; i < state->room; i++)
        must(state->words[i] == 0, "a word waits at setup");
}

uint32_t do_setup(const struct site *s, const muruapy_plan *plan)
{
    return s->whole ? muruapy_setup(plan, s->whole, s->words, s->room)
                    : muruapy_setup_parts(plan, s->plan, s->modules, s->marks, s->sent, s->words, s->room);
}

uint32_t do_check(const struct site *s)
{
    return s->whole ? muruapy_field_check(s->whole, s->words, s->room)
                    : muruapy_field_check_parts(s->plan, s->modules, (const uint8_t(*)[2])s->marks, *s->sent, s->words,
                                                s->room);
}

uint32_t do_step(const struct site *s, uint8_t kind, uint16_t number)
{
    return s->whole
               ? muruapy_step(s->whole, s->words, s->room, kind, number)
               : muruapy_step_parts(s->plan, s->modules, s->marks, s->sent, s->words, s->room, kind, number);
}

muruapy_previewed do_preview(const struct site *s, uint8_t kind, uint16_t number, uint64_t *buffer, size_t places)
{
    return s->whole ? muruapy_preview(s->whole, s->words, s->room, kind, number, buffer, places)
                    : muruapy_preview_parts(s->plan, s->modules, (const uint8_t(*)[2])s->marks, *s->sent, s->words,
                                            s->room, kind, number, buffer, places);
}

uint32_t do_run(const struct site *s, const uint8_t *bytes, size_t length, size_t *steps)
{
    return s->whole ? muruapy_run(s->whole, s->words, s->room, bytes, length, steps)
                    : muruapy_run_parts(s->plan, s->modules, s->marks, s->sent, s->words, s->room, bytes, length,
                                        steps);
}

uint32_t do_rounds(const struct site *s, uint16_t limit, uint16_t *rounds)
{
    return s->whole ? muruapy_rounds(s->whole, s->words, s->room, limit, rounds)
                    : muruapy_rounds_parts(s->plan, s->modules, s->marks, s->sent, s->words, s->room, limit, rounds);
}

uint32_t do_job(const struct site *s, const muruapy_plan *plan, uint16_t *rounds)
{
    return s->whole ? muruapy_job(plan, s->whole, s->words, s->room, rounds)
                    : muruapy_job_parts(plan, s->plan, s->modules, s->marks, s->sent, s->words, s->room, rounds);
}

size_t do_report(const struct site *s, uint16_t rounds, uint8_t *text, size_t room)
{
    return s->whole ? muruapy_report(s->whole, rounds, text, room)
                    : muruapy_report_parts(s->plan, s->modules, (const uint8_t(*)[2])s->marks, *s->sent, rounds, text,
                                           room);
}

uint32_t do_save(const struct site *s, const uint8_t *name, size_t letters, uint8_t *store, size_t size)
{
    return s->whole ? muruapy_save(s->whole, s->words, s->room, name, letters, store, size)
                    : muruapy_save_parts(s->plan, s->modules, (const uint8_t(*)[2])s->marks, *s->sent, s->words,
                                         s->room, name, letters, store, size);
}

uint32_t do_restore(const uint8_t *store, size_t size, const uint8_t *name, size_t letters, const struct site *s)
{
    return s->whole ? muruapy_restore(store, size, name, letters, s->whole, s->words, s->room)
                    : muruapy_restore_parts(store, size, name, letters, s->plan, s->modules, s->marks, s->sent,
                                            s->words, s->room);
}

void setup_gives(struct state *state, bool whole, const muruapy_plan *plan, size_t room, uint32_t number)
{
    struct site s;
    memset(state, FILL, sizeof *state);
    state->room = room;
    s = lend_site(state, whole, NEW);
    answered("setup", do_setup(&s, show(plan, sizeof *plan)), number, NULL);
    fetch(&s, state);
    take_back();
    if (number == 0)
        is_fresh(state, plan);
}

void check_gives(const struct state *state, bool whole, uint32_t number)
{
    struct site s = lend_site(state, whole, READ);
    answered("field_check", do_check(&s), number, NULL);
    take_back();
}

void report_gives(const struct state *state, bool whole, uint16_t rounds, size_t room, const void *text, size_t length)
{
    struct site s = lend_site(state, whole, READ);
    uint8_t *to = lend(NULL, room);
    size_t put = do_report(&s, rounds, to, room), i;
    must(put <= room && put <= length, "more is put than there is, or room for it");
    gave("report", put, room < length ? room : length, false);
    must(put == 0 || memcmp(to, text, put) == 0, "another text is put");
    for (i = put; i < room; i++)
        must(to[i] == FILL, "a byte behind the text is written");
    take_back();
}

void put_number(struct state *state, const struct spoil *from)
{
    memcpy((uint8_t *)state + from->at, &from->number, from->size);
}
