/* `save`, `find` and `restore`: named points of rehearsals, in a store that lies in a file. */
#include "command.h"

#include <stdlib.h>
#include <string.h>

/* The name of a point as the library takes it. */
static const uint8_t *letters(const char *name)
{
    return (const uint8_t *)name;
}

/* Reads a store, zeros behind it up to the end of its room. */
static int take_store(const char *name, struct store *store)
{
    FILE *file = opened(name);
    if (!file)
        return FAILED;
    memset(store->at, 0, sizeof store->at);
    store->length = fread(store->at, 1, sizeof store->at, file);
    if (closed(name, file) != DONE)
        return FAILED;
    if (store->length > STORE_MOST)
        return stop(FAILED, "%s: a store has at most %d bytes here", called(name), STORE_MOST);
    return DONE;
}

static int refuse_store(const char *file, uint32_t refusal, const struct store *store, const char *name, size_t needed)
{
    return refuse(file, refusal, store_place(refusal, store, name, needed));
}

/* Restores a point into as many words as every field has room in. */
static uint32_t take_point(const struct store *store, const uint8_t *name, size_t count, struct held *held)
{
    uint32_t refusal =
        muruapy_restore(store->at, store->length, name, count, &held->field, held->words, MURUAPY_WORDS);
    held->room = muruapy_ceiling(held->field.plan.modules, held->field.plan.links);
    return refusal;
}

/* A line on a point: where it stands, and what was saved. */
static uint32_t print_point(const struct store *store, const uint8_t *name, size_t count)
{
    static struct held held;
    muruapy_found found = muruapy_find(store->at, store->length, name, count);
    uint32_t refusal = found.refusal;
    if (refusal == MURUAPY_TAKEN)
        refusal = take_point(store, name, count, &held);
    if (refusal != MURUAPY_TAKEN)
        return refusal;
    printf("%.*s: at byte %zu, %zu bytes; %u modules, %u links; ", (int)count, (const char *)name, found.at, found.size,
           held.field.plan.modules, held.field.plan.links);
    print_messages(&held);
    return MURUAPY_TAKEN;
}

/* All points, in the order of their records. */
static uint32_t print_points(const struct store *store)
{
    size_t at = 0, count = 0;
    /* no point has the empty name: 77 of a store that is whole, before anything is printed */
    uint32_t refusal = muruapy_find(store->at, store->length, store->at, 0).refusal;
    if (refusal != MURUAPY_NAME_WRONG)
        return refusal;
    for (; at < store->length && store->at[at] != 0; count++) {
        const uint8_t *name = store->at + at + 6;
        size_t size = muruapy_find(store->at, store->length, name, name[-1]).size;
        refusal = print_point(store, name, name[-1]);
        if (refusal != MURUAPY_TAKEN)
            return refusal;
        at += size;
    }
    printf("%zu point%s, %zu of %zu bytes\n", count, count == 1 ? "" : "s", at, store->length);
    return MURUAPY_TAKEN;
}

int find(const struct call *call)
{
    static struct store store;
    const char *name = call->count > 1 ? call->names[1] : NULL;
    int status = take_store(call->names[0], &store);
    if (status != DONE)
        return status;
    uint32_t refusal = name ? print_point(&store, letters(name), strlen(name)) : print_points(&store);
    return refusal == MURUAPY_TAKEN ? DONE : refuse_store(call->names[0], refusal, &store, name ? name : "", 0);
}

int restore(const struct call *call)
{
    static struct store store;
    static struct held held;
    struct bytes *schedules = NULL;
    const char *name = call->names[1];
    int count = call->count - 2, status = take_store(call->names[0], &store);
    if (status == DONE)
        status = take_schedules(call->names + 2, count, &schedules);
    if (status == DONE) {
        uint32_t refusal = take_point(&store, letters(name), strlen(name), &held);
        if (refusal != MURUAPY_TAKEN)
            status = refuse_store(call->names[0], refusal, &store, name, 0);
    }
    if (status == DONE) {
        status = tell_steps(call->names + 2, count, schedules, &held) == MURUAPY_TAKEN ? DONE : REFUSED;
        print_field(&held);
    }
    free(schedules);
    return status;
}

/* ---- save ---- */

/* How many steps are taken at most, and how many bytes the store has: as many as it needs where no number is given. */
struct bounds {
    uint64_t steps, size;
};

/* Looks at the arguments before anything is read. */
static int look_at(const struct call *call, struct bounds *bounds)
{
    if (strcmp(call->names[0], "-") == 0)
        return stop(MISUSED, "save: a store is a file that can be written, not standard input");
    if (call->steps && !read_number(call->steps, INT64_MAX, &bounds->steps))
        return stop(MISUSED, "save: %s is no number of steps", call->steps);
    if (call->size && (!read_number(call->size, STORE_MOST, &bounds->size) || bounds->size > STORE_MOST))
        return stop(MISUSED, "save: the size is a number up to %d, not %s", STORE_MOST, call->size);
    for (int i = 2; i < call->count; i++)
        if (same_file(call->names[i], call->names[0]))
            return stop(MISUSED, "%s would be written over: it is an input", call->names[0]);
    return DONE;
}

/* Leaves so many steps in the schedules. */
static void cut_schedules(struct bytes *schedules, int count, uint64_t most)
{
    for (int i = 0; i < count; i++) {
        struct bytes *s = &schedules[i];
        size_t steps = muruapy_schedule_steps(s->at, s->length);
        steps = most < steps ? (size_t)most : steps;
        most -= steps;
        s->length = 3 + 3 * steps;
        s->at[1] = (uint8_t)(3 * steps >> 8);
        s->at[2] = (uint8_t)(3 * steps);
    }
}

/* Reads the store, or begins one where there is no file, and gives it its size: as many bytes as are asked for, else a
 * point more than the file has. */
static int lend_store(const struct call *call, uint64_t size, struct store *store, size_t *had)
{
    int status = is_there(call->names[0]) ? take_store(call->names[0], store) : DONE;
    *had = store->length;
    if (status != DONE)
        return status;
    if (!call->size) {
        store->length += MURUAPY_RECORD_BYTES;
        store->length = store->length > STORE_MOST ? STORE_MOST : store->length;
        return DONE;
    }
    for (size_t at = (size_t)size; at < store->length; at++)
        if (store->at[at] != 0)
            return stop(MISUSED, "save: %s has more than %s bytes, and byte %zu is not 0", call->names[0], call->size,
                        at);
    *had = store->length = (size_t)size;
    return DONE;
}

/* Saves the field, writes the file, tells the point. */
static int put_point(const struct call *call, struct store *store, size_t had, const struct held *held)
{
    const char *name = call->names[1];
    size_t count = strlen(name);
    size_t needed = 15 + count + 12u * held->field.plan.links + 20u * held->field.plan.modules + 8 * waiting(held);
    uint32_t refusal =
        muruapy_save(&held->field, held->words, held->room, letters(name), count, store->at, store->length);
    if (refusal != MURUAPY_TAKEN)
        return refuse_store(call->names[0], refusal, store, name, needed);
    /* the new point stands last */
    muruapy_found found = muruapy_find(store->at, store->length, letters(name), count);
    size_t used = found.at + found.size;
    store->length = used > had ? used : had;
    struct output file = {call->names[0], store->at, store->length, NULL};
    int status = put_files(&file, 1, call->names[2]);
    if (status != DONE)
        return status;
    print_point(store, letters(name), count);
    printf("written: %s, %zu of %zu bytes\n", call->names[0], used, store->length);
    return DONE;
}

int save(const struct call *call)
{
    static muruapy_plan plan;
    static struct store store;
    static struct held held;
    struct bytes *schedules = NULL;
    struct bounds bounds = {UINT64_MAX, 0};
    size_t had = 0;
    char **names = call->names + 3;
    int count = call->count - 3, status = look_at(call, &bounds);
    if (status == DONE)
        status = take_plan(call->names[2], &plan);
    if (status == DONE)
        status = take_schedules(names, count, &schedules);
    if (status == DONE)
        status = lend_store(call, bounds.size, &store, &had);
    if (status == DONE) {
        cut_schedules(schedules, count, bounds.steps);
        set_up(&plan, &held);
        status = take_steps(names, count, schedules, &held);
    }
    free(schedules);
    return status == DONE ? put_point(call, &store, had, &held) : status;
}
