/* Eight threads at once, each with a field and words of its own, all on the same plans, which nobody writes: what they leave
 * must be what one thread left alone. Run in the folder that has samples/.
 *
 * With -fsanitize=thread the archive itself is not instrumented; what it does through memcpy, memmove and memset is seen, and
 * all that the inline functions and this file do. */
#include "work.h"

#include <pthread.h>
#include <string.h>

#ifndef TIMES /* fewer where a sanitizer makes it slow */
#define TIMES 50
#endif
enum { THREADS = 8, PLANS = 6, BYTES = 65539 };

static const char *const names[PLANS] = {"samples/two-modules.plan", "samples/triangle.plan",    "samples/ring-12.plan",
                                         "samples/mesh-9.plan",      "samples/complete-10.plan", "samples/full-192.plan"};

/* A field with its words, as one way of running it leaves them. */
struct left {
    muruapy_field field;
    uint64_t words[MURUAPY_WORDS];
    uint16_t rounds;
};
struct result {
    struct left job, steps, rounds, restored;
    uint8_t store[MURUAPY_RECORD_BYTES];
    uint32_t previewed;
    uint8_t tree[MURUAPY_LINKS], text[MURUAPY_REPORT_BYTES];
    size_t length;
    uint16_t heard_by[MURUAPY_MODULES], hops[MURUAPY_MODULES];
    uint16_t path[MURUAPY_PATH_LINKS], worst;
    uint8_t near[MURUAPY_MODULES];
};

/* Written before the threads start, and only read by them. */
static struct shared {
    muruapy_plan plan;
    struct result alone;
} shared[PLANS];

/* Each step is previewed before it is taken; `sent` counts the words that previews showed. */
static uint32_t by_steps(const muruapy_plan *plan, struct left *l, size_t room, uint32_t *sent)
{
    uint64_t buffer[MURUAPY_SENDS];
    uint32_t refusal = muruapy_setup(plan, &l->field, l->words, room);
    uint8_t kind = MURUAPY_WAKE;
    uint16_t number = (uint16_t)(plan->modules - 1);
    while (refusal == 0) {
        muruapy_previewed p = muruapy_preview(&l->field, l->words, room, kind, number, buffer, MURUAPY_SENDS);
        *sent += p.count;
        refusal = p.refusal | muruapy_step(&l->field, l->words, room, kind, number);
        if (muruapy_waiting(l->words, room) == 0)
            break;
        kind = step_for(plan, l->words[0], &number);
    }
    return refusal;
}

/* The field half way, saved, run to rest, found, restored: it is again as it was. */
static uint32_t come_back(const muruapy_plan *plan, struct result *r, size_t room)
{
    static const uint8_t name[] = {'g', 'o'};
    struct left *l = &r->restored;
    uint32_t refusal = muruapy_setup(plan, &l->field, l->words, room);
    refusal |= muruapy_step(&l->field, l->words, room, MURUAPY_WAKE, 0);
    refusal |= muruapy_rounds(&l->field, l->words, room, 3, &l->rounds);
    refusal |= muruapy_save(&l->field, l->words, room, name, sizeof name, r->store, sizeof r->store);
    refusal |= muruapy_rounds(&l->field, l->words, room, 65535, &l->rounds);
    refusal |= muruapy_find(r->store, sizeof r->store, name, sizeof name).refusal;
    refusal |= muruapy_restore(r->store, sizeof r->store, name, sizeof name, &l->field, l->words, room);
    return refusal;
}

/* A cue from the last module to all. */
static uint32_t send_cue(struct result *r, size_t room)
{
    const muruapy_field *field = &r->job.field;
    muruapy_cue cues[MURUAPY_MODULES];
    uint16_t n = field->plan.modules, link, v;
    uint32_t refusal = muruapy_cue_start(field, r->job.words, room, cues, n, (uint16_t)(n - 1), 7);
    while (refusal == 0 && (link = next_copy(field, cues)) != MURUAPY_NONE)
        refusal = muruapy_cue_deliver(field, r->job.words, room, cues, n, link).refusal;
    for (v = 0; v < n; v++) {
        r->heard_by[v] = cues[v].link;
        r->hops[v] = cues[v].hops;
    }
    return refusal;
}

/* The path from the first module to the last, as long as the cue's way back, and the modules near it. */
static uint32_t find_path(const muruapy_plan *plan, struct result *r)
{
    uint16_t last = (uint16_t)(plan->modules - 1);
    muruapy_path_found found = muruapy_path(plan, 0, last, r->path, MURUAPY_PATH_LINKS);
    r->worst = found.worst;
    return found.refusal | (found.length != r->hops[0]) | muruapy_near(plan, last, 3, r->near, plan->modules);
}

static void work(const muruapy_plan *plan, struct result *r)
{
    size_t room = muruapy_ceiling(plan->modules, plan->links);
    uint32_t bad;
    memset(r, 0, sizeof *r);
    bad = muruapy_job(plan, &r->job.field, r->job.words, room, &r->job.rounds);
    bad |= muruapy_setup(plan, &r->rounds.field, r->rounds.words, room);
    bad |= muruapy_step(&r->rounds.field, r->rounds.words, room, MURUAPY_WAKE, 0);
    bad |= muruapy_rounds(&r->rounds.field, r->rounds.words, room, 65535, &r->rounds.rounds);
    /* step by step the largest plan takes too long for so many times */
    if (plan->links < 100)
        bad |= by_steps(plan, &r->steps, room, &r->previewed);
    bad |= r->previewed != r->steps.field.sent;
    bad |= muruapy_tree(plan, r->tree, plan->links);
    bad |= send_cue(r, room);
    bad |= find_path(plan, r);
    bad |= come_back(plan, r, room);
    r->length = muruapy_report(&r->job.field, r->job.rounds, r->text, sizeof r->text);
    need(bad == 0, "threads: a call is refused");
}

static void *thread(void *own)
{
    struct result *r = own;
    int time, i;
    for (time = 0; time < TIMES; time++)
        for (i = 0; i < PLANS; i++) {
            if (i == PLANS - 1 && time % 10 != 0)
                continue; /* the largest plan now and then */
            work(&shared[i].plan, r);
            need(memcmp(r, &shared[i].alone, sizeof *r) == 0, "threads: a thread leaves something else than one alone");
        }
    return NULL;
}

int main(void)
{
    static struct result own[THREADS];
    static uint8_t bytes[BYTES];
    pthread_t threads[THREADS];
    int i;
    for (i = 0; i < PLANS; i++) {
        size_t length = sample_bytes(names[i], bytes, sizeof bytes);
        need(muruapy_plan_read(bytes, length, &shared[i].plan) == 0, names[i]);
        work(&shared[i].plan, &shared[i].alone);
        need(memcmp(&shared[i].alone.job, &shared[i].alone.rounds, sizeof(struct left)) == 0,
             "threads: the job is not its calls");
    }
    for (i = 0; i < THREADS; i++)
        need(pthread_create(&threads[i], NULL, thread, &own[i]) == 0, "threads: no thread");
    for (i = 0; i < THREADS; i++)
        need(pthread_join(threads[i], NULL) == 0, "threads: no end");
    printf("%d threads, %d plans, %d times each\n", THREADS, PLANS, TIMES);
    return 0;
}
