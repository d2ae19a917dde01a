/* Where a refusal applies. The number is always the library's; here the first place is looked for that it fits. */
#include "command.h"

#include <stdarg.h>
#include <string.h>

static uint16_t two_bytes(const uint8_t *bytes)
{
    return (uint16_t)(bytes[0] << 8 | bytes[1]);
}

static struct place words(uint16_t link, const char *format, ...)
{
    struct place place = {.link = link};
    va_list rest;
    va_start(rest, format);
    vsnprintf(place.words, sizeof place.words, format, rest);
    va_end(rest);
    return place;
}

/* How many bytes there are, as far as they were read. */
static struct place how_many(const struct bytes *bytes)
{
    const char *s = bytes->length == 1 ? "" : "s";
    return words(MURUAPY_NONE, "%zu byte%s%s", bytes->length, s, bytes->length == ENOUGH ? " or more" : "");
}

/* What 13 and 53 compare: the length that is told, and the bytes behind it. */
static struct place lengths(const struct bytes *bytes)
{
    size_t behind = bytes->length - 3;
    return words(MURUAPY_NONE, "length %u, %zu%s bytes behind it", two_bytes(bytes->at + 1), behind,
                 bytes->length == ENOUGH ? " or more" : "");
}

static bool ends_wrong(const muruapy_plan *plan, uint16_t k)
{
    const muruapy_link *link = &plan->link[k];
    return link->lower >= link->higher || link->higher >= plan->modules;
}

static bool order_wrong(const muruapy_plan *plan, uint16_t k)
{
    const muruapy_link *link = &plan->link[k], *before = link - 1;
    return k > 0 && (link->lower < before->lower || (link->lower == before->lower && link->higher <= before->higher));
}

static bool reading_wrong(const muruapy_plan *plan, uint16_t k)
{
    return plan->link[k].near > MURUAPY_READING || plan->link[k].far > MURUAPY_READING;
}

static struct place link_words(uint32_t refusal, const muruapy_plan *plan, uint16_t k)
{
    const muruapy_link *link = &plan->link[k], *before = link - 1;
    unsigned a = link->lower, b = link->higher;
    if (refusal == MURUAPY_LINK_ORDER)
        return words(k, "link %u (%u-%u), behind link %u (%u-%u)", k, a, b, k - 1u, before->lower, before->higher);
    if (refusal == MURUAPY_LINK_READING && link->near > MURUAPY_READING)
        return words(k, "link %u (%u-%u), reading %u at module %u", k, a, b, link->near, a);
    if (refusal == MURUAPY_LINK_READING)
        return words(k, "link %u (%u-%u), reading %u at module %u", k, a, b, link->far, b);
    if (a >= b)
        return words(k, "link %u (%u-%u), %u is not below %u", k, a, b, a, b);
    if (plan->modules == 0)
        return words(k, "link %u (%u-%u), there is no module", k, a, b);
    return words(k, "link %u (%u-%u), the last module is %u", k, a, b, plan->modules - 1u);
}

/* 16 to 18 look at one link after the other, so the first link that the number fits is the one. */
static struct place link_place(uint32_t refusal, const muruapy_plan *plan)
{
    for (uint16_t k = 0; k < plan->links; k++)
        if (refusal == MURUAPY_LINK_ENDS    ? ends_wrong(plan, k)
            : refusal == MURUAPY_LINK_ORDER ? order_wrong(plan, k)
                                            : reading_wrong(plan, k))
            return link_words(refusal, plan, k);
    return words(MURUAPY_NONE, "no such link was found");
}

struct place value_place(uint32_t refusal, const muruapy_plan *plan)
{
    switch (refusal) {
    case MURUAPY_PLAN_MODULES: return words(MURUAPY_NONE, "%u modules", plan->modules);
    case MURUAPY_PLAN_LINKS: return words(MURUAPY_NONE, "%u links", plan->links);
    default: return link_place(refusal, plan);
    }
}

/* The numbers of a plan that was refused by 16 to 18: its lengths are right, so all links are there. */
static const muruapy_plan *numbers_of(const struct bytes *bytes)
{
    static muruapy_plan plan;
    plan.modules = two_bytes(bytes->at + 3);
    plan.links = two_bytes(bytes->at + 5);
    for (size_t k = 0; k < plan.links; k++) {
        const uint8_t *from = bytes->at + 7 + 8 * k;
        plan.link[k] = (muruapy_link){two_bytes(from), two_bytes(from + 2), two_bytes(from + 4), two_bytes(from + 6)};
    }
    return &plan;
}

struct place plan_place(uint32_t refusal, const struct bytes *bytes)
{
    const uint8_t *at = bytes->at;
    switch (refusal) {
    case MURUAPY_PLAN_SHORT: return how_many(bytes);
    case MURUAPY_PLAN_VERSION: return words(MURUAPY_NONE, "version byte %u", at[0]);
    case MURUAPY_PLAN_LENGTH: return lengths(bytes);
    case MURUAPY_PLAN_MODULES: return words(MURUAPY_NONE, "%u modules", two_bytes(at + 3));
    case MURUAPY_PLAN_LINKS:
        return words(MURUAPY_NONE, "%u links, length %u", two_bytes(at + 5), two_bytes(at + 1));
    default: return value_place(refusal, numbers_of(bytes));
    }
}

struct place schedule_place(uint32_t refusal, const struct bytes *bytes)
{
    uint8_t kind = 1;
    uint16_t number;
    size_t at = 0, next;
    switch (refusal) {
    case MURUAPY_SCHEDULE_SHORT: return how_many(bytes);
    case MURUAPY_SCHEDULE_VERSION: return words(MURUAPY_NONE, "version byte %u", bytes->at[0]);
    case MURUAPY_SCHEDULE_LENGTH: return lengths(bytes);
    }
    while (muruapy_schedule_read(bytes->at, bytes->length, at, &kind, &number, &next) > 0 && kind >= 1 && kind <= 3)
        at = next;
    return words(MURUAPY_NONE, "step %zu, kind %u at byte %zu", at + 1, kind, 3 + 3 * at);
}

/* Why a header and a carried number are no message; the order is that of the header's bits from the top. */
static struct place no_message(uint8_t header, uint16_t carried)
{
    unsigned kind = muruapy_header_kind(header), level = muruapy_header_level(header);
    const char *name = kind_name((uint8_t)kind);
    bool leveled = kind == MURUAPY_INITIATE || kind == MURUAPY_TEST;
    if (header > 127)
        return words(MURUAPY_NONE, "header %u has bit 7 set", header);
    if (kind == 0)
        return words(MURUAPY_NONE, "header %u has kind 0", header);
    if (kind != MURUAPY_INITIATE && muruapy_header_find(header))
        return words(MURUAPY_NONE, "header %u is %s with the Find bit", header, name);
    if (kind != MURUAPY_CONNECT && leveled != (level > 0))
        return words(MURUAPY_NONE, "header %u is %s with level %u", header, name, level);
    return words(MURUAPY_NONE, "header %u is %s, carried number %u", header, name, carried);
}

struct place frame_place(uint32_t refusal, const struct bytes *bytes)
{
    const uint8_t *at = bytes->at;
    if (refusal == MURUAPY_FRAME_SIZE)
        return how_many(bytes);
    if (refusal == MURUAPY_FRAME_HEAD && at[0] != 1)
        return words(MURUAPY_NONE, "version byte %u", at[0]);
    if (refusal == MURUAPY_FRAME_HEAD)
        return words(MURUAPY_NONE, "length %u", two_bytes(at + 1));
    return no_message(at[3], two_bytes(at + 4));
}

struct place module_place(const char *word, const muruapy_plan *plan)
{
    if (plan->modules == 0)
        return words(MURUAPY_NONE, "module %s, there is no module", word);
    return words(MURUAPY_NONE, "module %s, the last module is %u", word, plan->modules - 1u);
}

/* ---- stores ---- */

static size_t four_bytes(const uint8_t *bytes)
{
    return (size_t)two_bytes(bytes) << 16 | two_bytes(bytes + 2);
}

static bool good_name(const uint8_t *name, size_t letters)
{
    bool good = letters > 0 && letters <= MURUAPY_NAME;
    for (size_t i = 0; good && i < letters; i++)
        good = name[i] >= 'a' && name[i] <= 'z';
    return good;
}

/* What is wrong with a record by itself, which has all of its bytes: name, plan, numbers, words, else the field. */
static struct place record_words(unsigned number, size_t at, const uint8_t *record, size_t size)
{
    size_t letters = size > 5 ? record[5] : 0, left = size > 5 ? size - 6 : 0;
    const uint8_t *plan = record + 6 + letters;
    if (letters > left || !good_name(record + 6, letters))
        return words(MURUAPY_NONE, "record %u at byte %zu, its name", number, at);
    left -= letters;
    size_t length = left < 3 ? left : 3u + two_bytes(plan + 1);
    uint32_t refusal = muruapy_plan_check(plan, length < left ? length : left);
    if (refusal != MURUAPY_TAKEN)
        return words(MURUAPY_NONE, "record %u at byte %zu, its plan is refused by %u", number, at, (unsigned)refusal);
    size_t numbers = 2 + 20u * two_bytes(plan + 3) + 4u * two_bytes(plan + 5);
    left -= length;
    if (left < numbers || (left - numbers) % 8 != 0)
        return words(MURUAPY_NONE, "record %u at byte %zu, %zu bytes behind its plan: %zu of the field, 8 a message",
                     number, at, left, numbers);
    return words(MURUAPY_NONE, "record %u at byte %zu, its field or what waits", number, at);
}

/* The first record that is cut off, wrong by itself, or has a name that is held; else what stands behind the last. */
static struct place records_place(const struct store *store)
{
    size_t at = 0;
    for (unsigned i = 1; at < store->length && store->at[at] != 0; i++) {
        const uint8_t *record = store->at + at;
        size_t left = store->length - at, length = left < 5 ? 0 : four_bytes(record + 1);
        if (record[0] != 1)
            return words(MURUAPY_NONE, "record %u at byte %zu, version byte %u", i, at, record[0]);
        if (left < 5)
            return words(MURUAPY_NONE, "record %u at byte %zu, %zu bytes of 5", i, at, left);
        if (length > left - 5)
            return words(MURUAPY_NONE, "record %u at byte %zu, length %zu, %zu bytes behind it", i, at, length,
                         left - 5);
        if (muruapy_find(record, 5 + length, record, 0).refusal == MURUAPY_STORE)
            return record_words(i, at, record, 5 + length);
        if (muruapy_find(store->at, at, record + 6, record[5]).refusal == MURUAPY_TAKEN)
            return words(MURUAPY_NONE, "record %u at byte %zu, a second %.*s", i, at, record[5],
                         (const char *)record + 6);
        at += 5 + length;
    }
    while (at < store->length && store->at[at] == 0)
        at++;
    return words(MURUAPY_NONE, "byte %zu is %u, behind the last record", at, at < store->length ? store->at[at] : 0u);
}

/* How many records a store that is whole has, and in how many bytes. */
static size_t records_of(const struct store *store, size_t *bytes)
{
    size_t count = 0;
    for (*bytes = 0; *bytes < store->length && store->at[*bytes] != 0; count++)
        *bytes += 5 + four_bytes(store->at + *bytes + 1);
    return count;
}

struct place store_place(uint32_t refusal, const struct store *store, const char *name, size_t needed)
{
    size_t bytes, count;
    const uint8_t *letters = (const uint8_t *)name;
    if (refusal == MURUAPY_STORE)
        return records_place(store);
    count = records_of(store, &bytes);
    if (refusal == MURUAPY_NAME_WRONG && good_name(letters, strlen(name)))
        return words(MURUAPY_NONE, "%s, among %zu", name, count);
    if (refusal == MURUAPY_NAME_WRONG)
        return words(MURUAPY_NONE, "\"%s\"", name);
    bytes -= muruapy_find(store->at, store->length, letters, strlen(name)).size;
    return words(MURUAPY_NONE, "%zu bytes, of %zu that are free", needed, store->length - bytes);
}

int refuse(const char *name, uint32_t refusal, struct place place)
{
    return stop(REFUSED, "%s: %u: %s: %s", called(name), (unsigned)refusal, muruapy_refusal_text(refusal), place.words);
}
