/* Named points: two modules, where every byte of a record is known; stores of every length about what is needed, cut at
 * every place and changed at every byte; names that are none; the largest plan. Field, words and name cannot be written
 * when a point is saved, store and name not when one is found or restored. */
#include "site.h"

#include <stdlib.h>
#include <string.h>

static bool as_whole;
static struct state state, back;

/* A store in plain memory, and how many bytes of it are lent. */
static uint8_t store[MURUAPY_RECORD_BYTES + 200];
static size_t size;

/* ---- the calls, on `state` and `store` ---- */

static void save_gives(const char *name, size_t letters, uint32_t refusal)
{
    struct site s = lend_site(&state, as_whole, READ);
    uint8_t *lent = lend(store, size);
    answered("save", do_save(&s, show(name, letters), letters, lent, size), refusal, NULL);
    if (size > 0)
        memcpy(store, lent, size);
    take_back();
}

static void find_gives(const char *name, size_t letters, uint32_t refusal, size_t at, size_t bytes)
{
    const uint8_t *lent = show(store, size);
    muruapy_found found = muruapy_find(lent, size, show(name, letters), letters);
    must(found.at == at && found.size == bytes, "another place is told");
    must(muruapy_shown(lent, found) == lent + at, "another part is shown");
    gave("find", found.refusal, refusal, true);
    take_back();
}

/* Into a field that holds anything and so many words; what it leaves goes to `back`. */
static void restore_gives(const char *name, size_t letters, size_t room, uint32_t refusal)
{
    struct site s;
    const uint8_t *lent = show(store, size), *shown = show(name, letters);
    memset(&back, FILL, sizeof back);
    back.room = room;
    s = lend_site(&back, as_whole, NEW);
    answered("restore", do_restore(lent, size, shown, letters, &s), refusal, NULL);
    fetch(&s, &back);
    take_back();
}

/* `back` is `state` with as many words as were lent: what waits, then zeros. */
static void is_back(void)
{
    size_t i, count = muruapy_waiting(state.words, state.room);
    must(memcmp(&back.field, &state.field, sizeof back.field) == 0, "another field comes back");
    for (i = 0; i < back.room; i++)
        must(back.words[i] == (i < count ? state.words[i] : 0), "other words come back");
}

static void set_up(const char *plan_name, size_t more)
{
    muruapy_plan plan;
    sample(plan_name, &plan);
    memset(&state, FILL, sizeof state);
    state.room = muruapy_ceiling(plan.modules, plan.links) + more;
    must(muruapy_setup(&plan, &state.field, state.words, state.room) == 0, "the setup is refused");
}

static void step(uint8_t kind, uint16_t number)
{
    must(muruapy_step(&state.field, state.words, state.room, kind, number) == 0, "a step is refused");
}

static void empty_store(size_t bytes)
{
    memset(store, 0, sizeof store);
    size = bytes;
}

/* ---- two modules: docs/FORMATS.md, "Named points" ---- */

enum { WOKEN = 77, SERVED = 85 };

static const uint8_t woken[WOKEN] = {
    1, 0, 0, 0, 72, 2, 'g', 'o', 1, 0, 12, 0, 2, 0, 1, 0, 0, 0, 1, 0, 3, 0, 4, 0, 1,          /* to the sent count */
    0, 2, 0, 0, 255, 255, 255, 255, 255, 255, 255, 255, 255, 255, 0, 0, 0, 0, 255, 255, 0, 1, /* module 0 */
    0, 0, 0, 0, 255, 255, 255, 255, 255, 255, 255, 255, 255, 255, 0, 0, 0, 0, 255, 255, 0, 0, /* module 1 */
    0, 0, 3, 0, 0, 255, 255, 1,
};

static void is_stored(const uint8_t *bytes, size_t length)
{
    size_t i;
    must(memcmp(store, bytes, length) == 0, "other bytes are saved");
    for (i = length; i < size; i++)
        must(store[i] == 0, "a byte behind the last record is not 0");
}

/* Module 0 awake, its Connect handed over. */
static void wake(void)
{
    set_up("two-modules.plan", 0);
    step(MURUAPY_WAKE, 0);
    step(MURUAPY_HAND_OVER, 0);
}

static void saved(void)
{
    static uint8_t before[160];
    wake();
    empty_store(160);
    save_gives("go", 2, 0);
    is_stored(woken, WOKEN);
    step(MURUAPY_SERVE, 1);
    save_gives("go", 2, 0);
    must(store[4] == 80 && store[24] == 3, "the first point is not replaced");
    find_gives("go", 2, 0, 0, SERVED);
    memcpy(before, store, size);
    save_gives("b", 1, 78);
    save_gives("go", 2, 0);
    is_stored(before, SERVED);
    find_gives("no", 2, 77, 0, 0);
    restore_gives("go", 2, 13, 0);
    is_back();
    restore_gives("go", 2, 12, 0);
    is_back();
    restore_gives("go", 2, 11, 21);
    restore_gives("go", 2, 0, 21);
    restore_gives("on", 2, 0, 77);
    state.field.sent = 13;
    save_gives("", 0, 31);
}

/* Stores of every length: empty ones between two forbidden pages too. */
static void lengths(void)
{
    size_t bytes;
    wake();
    for (bytes = 0; bytes < 90; bytes++) {
        empty_store(bytes);
        find_gives("go", 2, 77, 0, 0);
        save_gives("go", 2, bytes < WOKEN ? 78 : 0);
        if (bytes >= WOKEN) {
            is_stored(woken, WOKEN);
            find_gives("go", 2, 0, 0, WOKEN);
        }
    }
    /* cut: within the record it is none, at its begin nothing is held */
    for (bytes = 0; bytes <= WOKEN; bytes++) {
        empty_store(bytes);
        memcpy(store, woken, bytes);
        find_gives("go", 2, bytes == WOKEN ? 0 : bytes == 0 ? 77 : 76, 0, bytes == WOKEN ? WOKEN : 0);
        restore_gives("go", 2, 12, bytes == WOKEN ? 0 : bytes == 0 ? 77 : 76);
    }
}

static void names(void)
{
    static const struct {
        const char *name;
        size_t letters;
    } none[] = {{"", 0}, {"Go", 2}, {"g", 1}, {"gone", 4}, {"abcdefghijklm", 13}, {"g\0", 2}, {"{", 1}, {"`", 1}};
    static char many[300];
    size_t i;
    memset(many, 'a', sizeof many);
    wake();
    empty_store(400);
    save_gives("go", 2, 0);
    for (i = 0; i < sizeof none / sizeof *none; i++) {
        find_gives(none[i].name, none[i].letters, 77, 0, 0);
        restore_gives(none[i].name, none[i].letters, 0, 77);
        if (i != 2 && i != 3)
            save_gives(none[i].name, none[i].letters, 77);
    }
    for (i = 13; i <= sizeof many; i += i < 20 ? 1 : 40)
        save_gives(many, i, 77);
    for (i = 1; i <= 12; i++) {
        empty_store(75 + i);
        save_gives(many, i, 0);
        find_gives(many, i, 0, 0, 75 + i);
        find_gives(many, i - 1, 77, 0, 0);
    }
}

/* The others close up in their order, the new one stands last, zeros are behind it. */
static void replaced(void)
{
    wake();
    empty_store(250);
    save_gives("a", 1, 0);
    save_gives("go", 2, 0);
    save_gives("b", 1, 0);
    find_gives("go", 2, 0, 76, 77);
    set_up("single.plan", 0);
    save_gives("a", 1, 0);
    find_gives("go", 2, 0, 0, 77);
    find_gives("b", 1, 0, 77, 76);
    find_gives("a", 1, 0, 153, 36);
    must(memcmp(store, woken, WOKEN) == 0, "another record closes up");
    is_stored(store, 189);
    restore_gives("a", 1, 0, 0);
    is_back();
    restore_gives("go", 2, 12, 0);
    restore_gives("b", 1, 11, 21);
}

/* Each byte changed: no call but one that is refused by 76, or the store holds something else that is good. */
static void changed(void)
{
    static const uint8_t to[] = {0, 1, 2, 3, 'a', 'z', 128, 255};
    size_t at, i, taken = 0;
    wake();
    for (at = 0; at < 90; at++)
        for (i = 0; i < sizeof to; i++) {
            muruapy_found found;
            empty_store(90);
            memcpy(store, woken, WOKEN);
            store[at] = to[i];
            found = muruapy_find(store, size, (const uint8_t *)"go", 2);
            find_gives("go", 2, found.refusal, 0, found.refusal ? 0 : WOKEN);
            restore_gives("go", 2, 12, found.refusal);
            must(found.refusal == 0 || found.refusal == 76 || found.refusal == 77, "another refusal");
            taken += found.refusal == 0;
            if (found.refusal == 76)
                save_gives("go", 2, 76);
        }
    must(taken > 90 && taken < 200, "too many changes are taken, or too few");
}

/* ---- the largest plan ---- */

static void largest(void)
{
    uint16_t rounds;
    size_t count;
    set_up("full-192.plan", 2);
    step(MURUAPY_WAKE, 0);
    must(muruapy_rounds(&state.field, state.words, state.room, 40, &rounds) == 0, "rounds are refused");
    count = muruapy_waiting(state.words, state.room);
    empty_store(15 + 12 + 12 * 600 + 20 * 192 + 8 * count);
    save_gives("abcdefghijkl", 12, 0);
    find_gives("abcdefghijkl", 12, 0, 0, size);
    restore_gives("abcdefghijkl", 12, MURUAPY_WORDS, 0);
    is_back();
    restore_gives("abcdefghijkl", 12, MURUAPY_WORDS - 1, 21);
    size--;
    save_gives("abcdefghijkl", 12, 76);

    /* as many messages as there may be */
    for (count = 0; count < MURUAPY_WORDS; count++)
        state.words[count] = 0x20000ffff01u;
    state.field.sent = MURUAPY_WORDS;
    empty_store(MURUAPY_RECORD_BYTES);
    save_gives("abcdefghijkl", 12, 0);
    restore_gives("abcdefghijkl", 12, MURUAPY_WORDS, 0);
    is_back();
    empty_store(MURUAPY_RECORD_BYTES - 1);
    save_gives("abcdefghijkl", 12, 78);
}

/* ---- what is not saved ---- */

/* Numbers where 31 does not look: they play no part, and come back as at setup. */
static void beside(void)
{
    static struct state tidy;
    size_t k, v;
    wake();
    tidy = state;
    for (k = 1; k < MURUAPY_LINKS; k++)
        memset(&state.field.plan.link[k], FILL, sizeof state.field.plan.link[k]);
    memset(state.field.marks[1], FILL, sizeof state.field.marks - sizeof state.field.marks[0]);
    for (v = 2; v < MURUAPY_MODULES; v++)
        memset(&state.field.modules[v], FILL, sizeof state.field.modules[v]);
    empty_store(WOKEN);
    save_gives("go", 2, 0);
    is_stored(woken, WOKEN);
    restore_gives("go", 2, 12, 0);
    state = tidy;
    is_back();
}

void point_calls(bool whole)
{
    as_whole = whole;
    saved();
    lengths();
    names();
    replaced();
    changed();
    largest();
    beside();
}
