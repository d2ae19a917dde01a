/* How much stack each call uses: a thread runs it on a stack that is painted before, and looks how far down the paint is
 * gone, counted from the frame that calls. Fails where a call uses more than the header says. Run in the folder that has
 * samples/; linked with -z now, so that no call looks up memcpy on its stack. */
#define _XOPEN_SOURCE 700 /* pthread_attr_setstack */
#include "work.h"

#include <pthread.h>
#include <string.h>

enum { STACK = 1 << 20, PAINT = 0xa5, BYTES = 65539 };

static muruapy_plan plan, refused;
static muruapy_field field, copy;
static uint64_t words[MURUAPY_WORDS];
static muruapy_cue cues[MURUAPY_MODULES];
static uint64_t previewed[MURUAPY_SENDS];
static uint16_t path_links[MURUAPY_PATH_LINKS];
static uint8_t bytes[BYTES], schedule[3 + 3 * MURUAPY_STEPS], buffer[BYTES], text[MURUAPY_REPORT_BYTES];
static size_t length, steps;
static uint16_t number;
static uint32_t bad; /* refusals of all calls but those that must be refused */

/* ---- the calls, on the largest plan; some on what is refused too ---- */

static void nothing(void) {}
static void plan_check(void) { bad |= muruapy_plan_check(bytes, length); }
static void plan_read(void) { bad |= muruapy_plan_read(bytes, length, &plan); }
static void plan_value_check(void) { bad |= muruapy_plan_value_check(&plan); }
static void plan_write(void) { bad |= muruapy_plan_write(&plan, buffer, sizeof buffer); }
static void plan_refused(void) { bad |= muruapy_plan_write(&refused, buffer, sizeof buffer) != MURUAPY_LINK_READING; }
static void tree(void) { bad |= muruapy_tree(&plan, buffer, plan.links); }
/* From each module to the last one. */
static void path(void)
{
    uint16_t v;
    for (v = 0; v < plan.modules; v++) {
        muruapy_path_found found = muruapy_path(&plan, v, (uint16_t)(plan.modules - 1), path_links, MURUAPY_PATH_LINKS);
        bad |= found.refusal != 0 || (found.length == 0) != (v + 1 == plan.modules);
    }
}
static void near_one(void)
{
    uint32_t h;
    for (h = 0; h < plan.modules; h++)
        bad |= muruapy_near(&plan, 0, h, buffer, plan.modules);
}
static void paths_refused(void)
{
    bad |= muruapy_path(&refused, 0, 1, path_links, MURUAPY_PATH_LINKS).refusal != MURUAPY_LINK_READING;
    bad |= muruapy_path(&plan, 0, plan.modules, path_links, MURUAPY_PATH_LINKS).refusal != MURUAPY_NO_MODULE;
    bad |= muruapy_path(&plan, 0, 1, path_links, 0).refusal != MURUAPY_PATH_BUFFER;
    bad |= muruapy_near(&refused, 0, 1, buffer, sizeof buffer) != MURUAPY_LINK_READING;
    bad |= muruapy_near(&plan, 0, 1, buffer, 191) != MURUAPY_PATH_BUFFER;
}
static void frames(void)
{
    uint8_t header;
    bad |= muruapy_frame_write(MURUAPY_CONNECT, MURUAPY_NONE, buffer, 6);
    bad |= muruapy_frame_check(buffer, 6);
    bad |= muruapy_frame_read(buffer, 6, &header, &number);
}
static void parts(void)
{
    uint8_t header = muruapy_header(MURUAPY_INITIATE, 3, 1);
    uint64_t word = UINT64_C(0x3000000004a);
    bad |= muruapy_header_kind(header) != MURUAPY_INITIATE || muruapy_header_level(header) != 3;
    bad |= muruapy_header_find(header) != 1 || !muruapy_message_listed(header, 0);
    bad |= muruapy_word_header(word) != 0x4a || muruapy_word_carried(word) != 0;
    bad |= muruapy_word_link(word) != 0 || !muruapy_word_handed(word);
    bad |= muruapy_link_cost(&plan, 600) != MURUAPY_NONE || muruapy_ceiling(192, 600) != MURUAPY_WORDS;
    bad |= muruapy_waiting(words, MURUAPY_WORDS) > MURUAPY_WORDS;
}
static void schedules(void)
{
    uint8_t kind;
    size_t next;
    bad |= muruapy_schedule_check(schedule, 3 + 3 * steps);
    bad |= muruapy_schedule_steps(schedule, 3 + 3 * steps) != steps;
    bad |= muruapy_schedule_read(schedule, 3 + 3 * steps, 0, &kind, &number, &next) != steps;
}
static void setup(void) { bad |= muruapy_setup(&plan, &field, words, MURUAPY_WORDS); }
static void field_check(void) { bad |= muruapy_field_check(&field, words, MURUAPY_WORDS); }
static void take(size_t count)
{
    size_t i;
    for (i = 0; i < count; i++) {
        const uint8_t *at = schedule + 3 + 3 * i;
        bad |= muruapy_step(&field, words, MURUAPY_WORDS, at[0], (uint16_t)(at[1] << 8 | at[2]));
    }
}
static void step(void) { take(steps); }
static void some_steps(void) { take(steps / 3); }
/* Every step that there is: some of each kind can be taken. */
static void preview(void)
{
    unsigned taken[4] = {0};
    uint8_t kind;
    uint16_t of;
    for (kind = MURUAPY_WAKE; kind <= MURUAPY_SERVE; kind++)
        for (of = 0; of < 2 * plan.links; of++) {
            uint32_t refusal =
                muruapy_preview(&field, words, MURUAPY_WORDS, kind, of, previewed, MURUAPY_SENDS).refusal;
            taken[kind] += refusal == MURUAPY_TAKEN;
            bad |= refusal != 0 && (refusal < MURUAPY_NO_MODULE || refusal > MURUAPY_EMPTY_QUEUE);
        }
    bad |= taken[MURUAPY_WAKE] == 0 || taken[MURUAPY_HAND_OVER] == 0 || taken[MURUAPY_SERVE] == 0;
}
static void preview_refused(void)
{
    bad |= muruapy_preview(&field, words, 0, MURUAPY_WAKE, 0, previewed, 0).refusal != MURUAPY_FIELD;
    bad |= muruapy_preview(&field, words, MURUAPY_WORDS, 9, 0, previewed, 0).refusal != MURUAPY_STEP_KIND;
    bad |= muruapy_preview(&field, words, MURUAPY_WORDS, MURUAPY_WAKE, 0, previewed, 0).refusal !=
           MURUAPY_PREVIEW_BUFFER;
}
static void run(void)
{
    size_t done;
    bad |= muruapy_run(&field, words, MURUAPY_WORDS, schedule, 3 + 3 * steps, &done);
}
static void rounds(void) { bad |= muruapy_rounds(&field, words, MURUAPY_WORDS, 65535, &number); }
static void job(void) { bad |= muruapy_job(&plan, &field, words, MURUAPY_WORDS, &number); }
static void job_refused(void)
{
    bad |= muruapy_job(&refused, &field, words, MURUAPY_WORDS, &number) != MURUAPY_LINK_READING;
}
static void cue_start(void)
{
    bad |= muruapy_cue_start(&field, words, MURUAPY_WORDS, cues, MURUAPY_MODULES, 0, 7);
}
static void cue_deliver(void)
{
    uint16_t link;
    while (bad == 0 && (link = next_copy(&field, cues)) != MURUAPY_NONE)
        bad |= muruapy_cue_deliver(&field, words, MURUAPY_WORDS, cues, MURUAPY_MODULES, link).heard != 1;
}
static void cues_refused(void)
{
    bad |= muruapy_cue_start(&field, words, MURUAPY_WORDS, cues, 0, 0, 7) != MURUAPY_CUES;
    bad |= muruapy_cue_deliver(&field, words, 0, cues, 0, 0).refusal != MURUAPY_FIELD;
    bad |= muruapy_cue_deliver(&field, words, MURUAPY_WORDS, cues, MURUAPY_MODULES, 65535).refusal !=
           MURUAPY_NO_DIRECTED_LINK;
}
static uint8_t store[3 * MURUAPY_RECORD_BYTES];
static const uint8_t names[] = "goneon"; /* three of two letters */
/* What the rehearsal is on its way to, under three names, the first of them twice. */
static void save(void)
{
    int i;
    for (i = 0; i < 4; i++)
        bad |= muruapy_save(&field, words, MURUAPY_WORDS, names + 2 * (i % 3), 2, store, sizeof store);
}
static void find(void) { bad |= muruapy_find(store, sizeof store, names, 2).refusal; }
static void restore(void) { bad |= muruapy_restore(store, sizeof store, names, 2, &field, words, MURUAPY_WORDS); }
static void points_refused(void)
{
    bad |= muruapy_save(&field, words, 0, names, 2, store, sizeof store) != MURUAPY_FIELD;
    bad |= muruapy_save(&field, words, MURUAPY_WORDS, names, 0, store, sizeof store) != MURUAPY_NAME_WRONG;
    bad |= muruapy_save(&field, words, MURUAPY_WORDS, names, 6, store, 0) != MURUAPY_STORE_FULL;
    bad |= muruapy_find(store, 9, names, 2).refusal != MURUAPY_STORE;
    bad |= muruapy_restore(store, 9, names, 2, &field, words, MURUAPY_WORDS) != MURUAPY_STORE;
    bad |= muruapy_restore(store, sizeof store, names, 2, &field, words, 9) != MURUAPY_TOO_FEW_WORDS;
}
static void report(void) { bad |= muruapy_report(&field, number, text, sizeof text) == 0; }

/* In this order: a call finds what those before it left. */
static const struct measured {
    const char *name;
    void (*call)(void);
    size_t most;
} all[] = {
    {"nothing", nothing, 1024},
    {"muruapy_plan_check", plan_check, MURUAPY_STACK_PLAN},
    {"muruapy_plan_read", plan_read, MURUAPY_STACK_PLAN},
    {"muruapy_plan_value_check", plan_value_check, MURUAPY_STACK_PLAN},
    {"muruapy_plan_write", plan_write, MURUAPY_STACK_PLAN},
    {"muruapy_plan_write, refused", plan_refused, MURUAPY_STACK_PLAN},
    {"muruapy_tree", tree, MURUAPY_STACK_PLAN},
    {"muruapy_path", path, MURUAPY_STACK_PLAN},
    {"muruapy_near", near_one, MURUAPY_STACK_PLAN},
    {"paths, refused", paths_refused, MURUAPY_STACK_PLAN},
    {"frames", frames, MURUAPY_STACK_PLAN},
    {"headers, words, cost, ceiling", parts, MURUAPY_STACK_PLAN},
    {"schedules", schedules, MURUAPY_STACK_PLAN},
    {"muruapy_setup", setup, MURUAPY_STACK_FIELD},
    {"muruapy_step", step, MURUAPY_STACK_FIELD},
    {"muruapy_field_check", field_check, MURUAPY_STACK_FIELD},
    {"muruapy_setup again", setup, MURUAPY_STACK_FIELD},
    {"previews, refused", preview_refused, MURUAPY_STACK_FIELD},
    {"muruapy_step, some", some_steps, MURUAPY_STACK_FIELD},
    {"muruapy_preview", preview, MURUAPY_STACK_FIELD},
    {"muruapy_save", save, MURUAPY_STACK_POINT},
    {"muruapy_find", find, MURUAPY_STACK_POINT},
    {"muruapy_restore", restore, MURUAPY_STACK_POINT},
    {"named points, refused", points_refused, MURUAPY_STACK_POINT},
    {"muruapy_setup once more", setup, MURUAPY_STACK_FIELD},
    {"muruapy_run", run, MURUAPY_STACK_FIELD},
    {"muruapy_rounds", rounds, MURUAPY_STACK_FIELD},
    {"muruapy_job", job, MURUAPY_STACK_JOB},
    {"muruapy_job, refused", job_refused, MURUAPY_STACK_JOB},
    {"muruapy_report", report, MURUAPY_STACK_FIELD},
    {"muruapy_cue_start", cue_start, MURUAPY_STACK_FIELD},
    {"muruapy_cue_deliver", cue_deliver, MURUAPY_STACK_FIELD},
    {"cues, refused", cues_refused, MURUAPY_STACK_FIELD},
};

/* ---- measuring ---- */

static uint8_t stack[STACK] __attribute__((aligned(4096)));
static size_t used;

static void *thread(void *call)
{
    const uint8_t *frame = __builtin_frame_address(0), *at = stack;
    ((const struct measured *)call)->call();
    while (*at == PAINT)
        at++;
    used = (size_t)(frame - at);
    return NULL;
}

static size_t measure(const struct measured *m)
{
    pthread_attr_t attributes;
    pthread_t id;
    memset(stack, PAINT, sizeof stack);
    need(pthread_attr_init(&attributes) == 0, "stack: no attributes");
    need(pthread_attr_setstack(&attributes, stack, sizeof stack) == 0, "stack: the stack is not taken");
    need(pthread_create(&id, &attributes, thread, (void *)(uintptr_t)m) == 0, "stack: no thread");
    need(pthread_join(id, NULL) == 0, "stack: no end");
    pthread_attr_destroy(&attributes);
    need(bad == 0, m->name);
    return used;
}

/* ---- what the calls are made on ---- */

static void note(uint8_t kind, uint16_t of)
{
    uint8_t *at = schedule + 3 + 3 * steps++;
    at[0] = kind;
    at[1] = (uint8_t)(of >> 8);
    at[2] = (uint8_t)of;
    need(muruapy_step(&copy, words, MURUAPY_WORDS, kind, of) == 0, "stack: a step of the rehearsal is refused");
}

/* A third of the modules woken, then what waits first, to rest or for 12,000 steps. */
static void rehearse(void)
{
    uint16_t of;
    need(muruapy_setup(&plan, &copy, words, MURUAPY_WORDS) == 0, "stack: setup is refused");
    for (of = 0; of < plan.modules; of = (uint16_t)(of + 3))
        if (copy.modules[of].status == 0)
            note(MURUAPY_WAKE, of);
    while (steps < 12000 && muruapy_waiting(words, MURUAPY_WORDS) > 0) {
        uint8_t kind = step_for(&plan, words[0], &of);
        note(kind, of);
    }
    schedule[0] = 1;
    schedule[1] = (uint8_t)(3 * steps >> 8);
    schedule[2] = (uint8_t)(3 * steps);
}

int main(void)
{
    size_t i;
    length = sample_bytes("samples/full-192.plan", bytes, sizeof bytes);
    plan_read();
    need(bad == 0, "stack: the plan is refused");
    /* a row of modules, but for a reading of its last link: 18, found when all was looked at */
    refused = plan;
    refused.links = (uint16_t)(refused.modules - 2);
    for (i = 0; i < refused.links; i++) {
        refused.link[i].lower = (uint16_t)i;
        refused.link[i].higher = (uint16_t)(i + 1);
    }
    refused.link[refused.links - 1].far = MURUAPY_READING + 1;
    rehearse();
    for (i = 0; i < sizeof all / sizeof *all; i++) {
        size_t most = measure(&all[i]);
        printf("    %6.1f KB  %s\n", (double)most / 1024, all[i].name);
        if (most > all[i].most) {
            printf("stack: %s uses %lu bytes, more than the %lu of include/muruapy.h\n", all[i].name, (unsigned long)most,
                   (unsigned long)all[i].most);
            return 1;
        }
    }
    printf("%lu groups of calls, %lu steps\n", (unsigned long)i, (unsigned long)steps);
    return 0;
}
