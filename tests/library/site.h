/* A field lent to a call: as one struct through the header's inline functions, or each of its parts as a guarded piece of
 * its own to the exports behind them. */
#ifndef SITE_H
#define SITE_H

#include "calls.h"

/* A field with its words, in plain memory. */
struct state {
    muruapy_field field;
    uint64_t words[MURUAPY_WORDS + 2];
    size_t room;
};

struct site {
    muruapy_field *whole; /* NULL: the parts below */
    muruapy_plan *plan;
    muruapy_module *modules;
    uint8_t (*marks)[2];
    uint32_t *sent;
    uint64_t *words;
    size_t room;
};

/* The state for a call that writes all of it, all but the plan, or nothing. */
enum lent { NEW, OLD, READ };
struct site lend_site(const struct state *from, bool whole, enum lent how);
/* What the call left goes into the state. */
void fetch(const struct site *s, struct state *to);

/* The state is what setup makes of a plan, all that there is room for and all words: so the plan has zeros behind its links. */
void is_fresh(const struct state *state, const muruapy_plan *plan);

uint32_t do_setup(const struct site *s, const muruapy_plan *plan);
uint32_t do_check(const struct site *s);
uint32_t do_step(const struct site *s, uint8_t kind, uint16_t number);
muruapy_previewed do_preview(const struct site *s, uint8_t kind, uint16_t number, uint64_t *buffer, size_t places);
uint32_t do_run(const struct site *s, const uint8_t *bytes, size_t length, size_t *steps);
uint32_t do_rounds(const struct site *s, uint16_t limit, uint16_t *rounds);
uint32_t do_job(const struct site *s, const muruapy_plan *plan, uint16_t *rounds);
size_t do_report(const struct site *s, uint16_t rounds, uint8_t *text, size_t room);
uint32_t do_save(const struct site *s, const uint8_t *name, size_t letters, uint8_t *store, size_t size);
uint32_t do_restore(const uint8_t *store, size_t size, const uint8_t *name, size_t letters, const struct site *s);

/* Setup, into memory that holds anything: it is refused by the number, or leaves what `is_fresh` asks for. */
void setup_gives(struct state *state, bool whole, const muruapy_plan *plan, size_t room, uint32_t number);
void check_gives(const struct state *state, bool whole, uint32_t number);
/* The report in so many bytes is the front of the text, all of it where there is room; the bytes behind keep. */
void report_gives(const struct state *state, bool whole, uint16_t rounds, size_t room, const void *text, size_t length);

/* A number at a place of a state. */
struct spoil {
    size_t at, size;
    uint64_t number;
};
#define SPOIL(member, number) {offsetof(struct state, member), sizeof ((struct state *)0)->member, number}
void put_number(struct state *state, const struct spoil *from);

#endif
