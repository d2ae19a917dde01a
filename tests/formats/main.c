/* Runs the examples of docs/FORMATS.md through the library: formats PAGE, in the folder that has samples/. The page says
 * itself what its fenced blocks mean ("Examples"). Fails at the first that does not hold, at a block that it does not
 * know, and where a page has fewer examples of a sort than it must have. */
#include "muruapy.h"

#include <stdarg.h>
#include <stdio.h>
#include <stdlib.h>
#include <string.h>

enum { MOST = 8192 };

static const char *page;
static unsigned long at; /* the line that is read */

static void fault(const char *form, ...)
{
    va_list rest;
    va_start(rest, form);
    printf("%s:%lu: ", page, at);
    vprintf(form, rest);
    puts("");
    va_end(rest);
    exit(1);
}

static void same(const char *what, unsigned long got, unsigned long said)
{
    if (got != said)
        fault("%s is %lu, not %lu", what, got, said);
}

/* ---- how many examples there are, by sort and number ---- */

enum sort {
    PLAN, PATH, NO_WAY, NEAR, FRAME, SCHEDULE, STEP, CALL, VALUES, PREVIEW, START, DELIVERY, SAVE, FIND, RESTORE, STORED,
    CEILING, ORDER, HEADER, WORD, REPORT, SORTS
};

static const char *const names[SORTS] = {
    "plan",           "path",     "no way",   "marks",
    "frame",          "schedule", "step",     "run or rounds",  "values",        "preview",
    "start of a cue", "delivery", "save",     "find",           "restore",       "bytes of a store", "ceiling",
    "order of links", "header",   "word",     "report",
};
static unsigned long seen[SORTS][100];

static const struct least {
    enum sort sort;
    unsigned first, last; /* of these numbers each */
    unsigned long count;
} least[] = {
    {PATH, 0, 0, 7}, {PATH, 41, 41, 5}, {PATH, 79, 79, 3}, {NEAR, 0, 0, 8}, {NEAR, 41, 41, 3}, {NEAR, 79, 79, 1},
    {PLAN, 0, 0, 7}, {PLAN, 11, 18, 1}, {NO_WAY, 0, 0, 3}, {FRAME, 0, 0, 8}, {FRAME, 61, 63, 2}, {SCHEDULE, 0, 0, 2},
    {SCHEDULE, 51, 54, 1}, {STEP, 0, 0, 20}, {STEP, 41, 45, 1}, {STEP, 54, 54, 1}, {CALL, 0, 0, 8}, {CALL, 41, 41, 2},
    {CALL, 54, 54, 1}, {CEILING, 0, 0, 8}, {HEADER, 0, 0, 6}, {WORD, 0, 0, 4}, {ORDER, 0, 0, 5}, {REPORT, 0, 0, 5},
    {START, 0, 0, 2}, {START, 71, 71, 2}, {START, 72, 73, 1}, {DELIVERY, 0, 0, 7}, {DELIVERY, 42, 42, 1},
    {PREVIEW, 0, 0, 8}, {PREVIEW, 41, 45, 1}, {PREVIEW, 54, 54, 1}, {PREVIEW, 75, 75, 4}, {VALUES, 0, 0, 13},
    {SAVE, 0, 0, 8}, {SAVE, 31, 31, 1}, {SAVE, 76, 76, 3}, {SAVE, 77, 77, 3}, {SAVE, 78, 78, 3}, {FIND, 0, 0, 7},
    {FIND, 76, 77, 2}, {RESTORE, 0, 0, 2}, {RESTORE, 21, 21, 1}, {RESTORE, 76, 77, 1}, {STORED, 0, 0, 15},
    /* those of the blank plan among them */
    {PLAN, 15, 15, 2}, {PLAN, 16, 16, 3},     {STEP, 41, 41, 4}, {STEP, 42, 42, 2}, {PREVIEW, 41, 41, 3},
    {PREVIEW, 42, 42, 2}, {START, 72, 72, 5}, {DELIVERY, 73, 73, 9},
};

static void count(enum sort sort, uint32_t number)
{
    if (number > 99)
        fault("no refusal has the number %lu", (unsigned long)number);
    seen[sort][number]++;
}

static unsigned long counted(void)
{
    unsigned long all = 0;
    for (size_t i = 0; i < sizeof least / sizeof least[0]; i++)
        for (unsigned n = least[i].first; n <= least[i].last; n++)
            if (seen[least[i].sort][n] < least[i].count)
                fault("%lu examples of %s %u are too few", seen[least[i].sort][n], names[least[i].sort], n);
    for (int sort = 0; sort < SORTS; sort++)
        for (int n = 0; n < 100; n++)
            all += seen[sort][n];
    return all;
}

/* ---- reading a line ---- */

/* The next word of a line, which is cut off it; NULL at the end. */
static char *word(char **line)
{
    char *start = *line + strspn(*line, " ");
    if (*start == 0)
        return NULL;
    *line = start + strcspn(start, " ");
    if (**line)
        *(*line)++ = 0;
    return start;
}

/* A number, in all of its word. */
static unsigned long long number(char **line, int base)
{
    char *text = word(line), *end;
    if (!text || !strchr("0123456789abcdef", *text))
        fault("a number is missing");
    unsigned long long value = strtoull(text, &end, base);
    if (*end)
        fault("%s is no number", text);
    return value;
}

static void no_more(char **line)
{
    const char *left = word(line);
    if (left)
        fault("%s is one word too many", left);
}

/* The word that has to come. */
static void expect(char **line, const char *said)
{
    const char *text = word(line);
    if (!text || strcmp(text, said) != 0)
        fault("%s has to come, not %s", said, text ? text : "nothing");
}

/* Memory of just this size, so that a checker of memory sees one byte too many; never NULL. */
static void *memory(size_t size)
{
    void *room = malloc(size ? size : 1);
    if (!room)
        fault("no memory");
    return room;
}

/* ---- bytes: plans, frames, schedules ---- */

struct bytes {
    uint8_t *at;
    size_t length;
};

static void more_bytes(struct bytes *b, char **line)
{
    for (char *text = word(line); text; text = word(line)) {
        char *rest = text;
        if (strlen(text) != 2 || b->length == MOST)
            fault("%s is no byte", text);
        b->at[b->length++] = (uint8_t)number(&rest, 16);
    }
}

/* A taken plan: read and written it is the same; each buffer that is too short, too long or too small is refused. */
static void taken_plan(struct bytes b, char **wanted)
{
    static muruapy_plan plan;
    static muruapy_field field;
    uint16_t rounds;
    same("the reader's answer", muruapy_plan_read(b.at, b.length, &plan), 0);
    same("the check of the value", muruapy_plan_value_check(&plan), 0);
    same("the length", b.length, 7 + 8ul * plan.links);
    uint8_t *out = memory(b.length);
    same("a short buffer", muruapy_plan_write(&plan, out, b.length - 1), MURUAPY_PLAN_BUFFER);
    same("the writer's answer", muruapy_plan_write(&plan, out, b.length), 0);
    if (memcmp(out, b.at, b.length) != 0)
        fault("the plan comes back as other bytes");

    uint8_t *tree = memory(plan.links + 1u);
    same("a long tree", muruapy_tree(&plan, tree, plan.links + 1u), MURUAPY_TREE_BUFFER);
    same("the builder's answer", muruapy_tree(&plan, tree, plan.links), 0);
    const char *more = word(wanted);
    if (more && strcmp(more, "tree") != 0)
        fault("%s is not known here", more);
    for (uint16_t k = 0; more && k < plan.links; k++)
        same("a link's byte in the tree", tree[k], (unsigned long)number(wanted, 10));

    size_t room = muruapy_ceiling(plan.modules, plan.links);
    uint64_t *words = memory(room * sizeof *words);
    if (room > 0)
        same("setup with a word too few", muruapy_setup(&plan, &field, words, room - 1), MURUAPY_TOO_FEW_WORDS);
    same("the job's answer", muruapy_job(&plan, &field, words, room, &rounds), 0);
    for (uint16_t k = 0; k < plan.links; k++)
        for (int end = 0; end < 2; end++)
            same("a mark at rest", field.marks[k][end], tree[k] ? 1 : 2);
    free(words);
    free(tree);
    free(out);
}

static void refused_plan(struct bytes b, uint32_t refusal)
{
    static muruapy_plan plan, before;
    memset(&plan, 0x5a, sizeof plan);
    before = plan;
    same("the reader's answer", muruapy_plan_read(b.at, b.length, &plan), refusal);
    if (memcmp(&plan, &before, sizeof plan) != 0)
        fault("a refused reader has altered the plan");
}

static void plan_bytes(struct bytes b, uint32_t refusal, char **wanted)
{
    same("the check's answer", muruapy_plan_check(b.at, b.length), refusal);
    if (refusal == 0)
        taken_plan(b, wanted);
    else
        refused_plan(b, refusal);
}

static void frame_bytes(struct bytes b, uint32_t refusal, char **wanted)
{
    uint8_t header = 0xee, out[7];
    uint16_t carried = 0xeeee;
    same("the check's answer", muruapy_frame_check(b.at, b.length), refusal);
    same("the reader's answer", muruapy_frame_read(b.at, b.length, &header, &carried), refusal);
    if (refusal != 0) {
        same("the header beside a refusal", header, 0xee);
        same("the carried number beside a refusal", carried, 0xeeee);
        if (refusal == MURUAPY_MESSAGE)
            same("the writer's answer", muruapy_frame_write(b.at[3], (uint16_t)(b.at[4] << 8 | b.at[5]), out, 6), refusal);
        return;
    }
    expect(wanted, "header");
    same("the header", header, (unsigned long)number(wanted, 16));
    expect(wanted, "carried");
    same("the carried number", carried, (unsigned long)number(wanted, 10));
    if (!muruapy_message_listed(header, carried))
        fault("the message is not listed");
    same("a long buffer", muruapy_frame_write(header, carried, out, 7), MURUAPY_FRAME_BUFFER);
    same("the writer's answer", muruapy_frame_write(header, carried, out, 6), 0);
    if (memcmp(out, b.at, 6) != 0)
        fault("the frame comes back as other bytes");
}

static void schedule_bytes(struct bytes b, uint32_t refusal, char **wanted)
{
    same("the check's answer", muruapy_schedule_check(b.at, b.length), refusal);
    if (refusal != 0)
        return;
    size_t place = 0, next;
    uint8_t kind;
    uint16_t step;
    while (muruapy_schedule_read(b.at, b.length, place, &kind, &step, &next) > 0) {
        same("a step's kind", kind, b.at[3 + 3 * place]);
        same("a step's number", step, (unsigned)(b.at[4 + 3 * place] << 8 | b.at[5 + 3 * place]));
        place = next;
    }
    expect(wanted, "steps");
    same("the number of steps", place, (unsigned long)number(wanted, 10));
}

/* A block `bytes`, as it ends; `wanted` is the rest of its first line. */
static void bytes_end(struct bytes b, char *wanted)
{
    char *sort = word(&wanted);
    uint32_t refusal = (uint32_t)number(&wanted, 10);
    struct bytes own = {memory(b.length), b.length};
    memcpy(own.at, b.at, b.length);
    if (strcmp(sort, "plan") == 0) {
        plan_bytes(own, refusal, &wanted);
        count(PLAN, refusal);
    } else if (strcmp(sort, "frame") == 0) {
        frame_bytes(own, refusal, &wanted);
        count(FRAME, refusal);
    } else if (strcmp(sort, "schedule") == 0) {
        schedule_bytes(own, refusal, &wanted);
        count(SCHEDULE, refusal);
    } else {
        fault("no such bytes: %s", sort);
    }
    no_more(&wanted);
    free(own.at);
}

/* ---- numbers ---- */

/* The links of a table that goes from the earliest on. */
static struct numbered {
    uint16_t number, near, far;
} rising[32];
static size_t rows;

/* Between three modules, beside a link of cost 0, the later of two links is out of the tree. */
static void earlier(struct numbered a, struct numbered b)
{
    int turned = a.number > b.number;
    struct numbered low = turned ? b : a, high = turned ? a : b;
    muruapy_plan three = {3, 3, {{0, 1, low.near, low.far}, {0, 2, high.near, high.far}, {1, 2, 0, 0}}};
    uint8_t tree[3];
    same("the tree's answer", muruapy_tree(&three, tree, 3), 0);
    if (!tree[turned] || tree[!turned])
        fault("link %u is not earlier than link %u", a.number, b.number);
}

static void order_line(char *line)
{
    struct numbered link;
    muruapy_plan two = {2, 1, {{0, 1, 0, 0}}};
    link.number = (uint16_t)number(&line, 10);
    two.link[0].near = link.near = (uint16_t)number(&line, 10);
    two.link[0].far = link.far = (uint16_t)number(&line, 10);
    same("the cost", muruapy_link_cost(&two, 0), (unsigned long)number(&line, 10));
    same("the sum", link.near + link.far, (unsigned long)number(&line, 10));
    for (size_t i = 0; i < rows; i++)
        earlier(rising[i], link);
    if (rows == sizeof rising / sizeof rising[0])
        fault("a table of too many links");
    rising[rows++] = link;
    count(ORDER, 0);
    no_more(&line);
}

static void numbers_line(const char *sort, char *line)
{
    if (strcmp(sort, "order") == 0) {
        order_line(line);
        return;
    }
    if (strcmp(sort, "ceiling") == 0) {
        uint16_t modules = (uint16_t)number(&line, 10), links = (uint16_t)number(&line, 10);
        same("the ceiling", muruapy_ceiling(modules, links), (unsigned long)number(&line, 10));
        count(CEILING, 0);
    } else if (strcmp(sort, "header") == 0) {
        uint8_t kind = (uint8_t)number(&line, 10);
        uint16_t level = (uint16_t)number(&line, 10);
        uint8_t find = (uint8_t)number(&line, 10), header = (uint8_t)number(&line, 16);
        same("the header", muruapy_header(kind, level, find), header);
        if (header != 0xff) {
            same("the kind", muruapy_header_kind(header), kind);
            same("the level", muruapy_header_level(header), level);
            same("the Find bit", muruapy_header_find(header), find);
        }
        count(HEADER, 0);
    } else if (strcmp(sort, "word") == 0) {
        uint64_t packed = number(&line, 16);
        same("the header", muruapy_word_header(packed), (unsigned long)number(&line, 16));
        same("the carried number", muruapy_word_carried(packed), (unsigned long)number(&line, 10));
        same("the directed link", muruapy_word_link(packed), (unsigned long)number(&line, 10));
        same("handed over", muruapy_word_handed(packed), (unsigned long)number(&line, 10));
        count(WORD, 0);
    } else {
        fault("no such numbers: %s", sort);
    }
    no_more(&line);
}

/* ---- calls ---- */

static muruapy_field field;
static uint64_t *words;
static size_t room;
static struct bytes planned;

/* The first call sets up the field of the plan. */
static void set_up(void)
{
    static muruapy_plan plan;
    if (words)
        return;
    same("the plan's answer", muruapy_plan_read(planned.at, planned.length, &plan), 0);
    room = muruapy_ceiling(plan.modules, plan.links);
    words = memory(room * sizeof *words);
    same("setup's answer", muruapy_setup(&plan, &field, words, room), 0);
}

/* The words that wait are those of the line's rest; all others are 0. */
static void compare_words(char **line)
{
    size_t i = 0;
    for (char *text = word(line); text; text = word(line), i++) {
        char *rest = text;
        uint64_t said = number(&rest, 16);
        if (i == room || words[i] != said)
            fault("word %lu is %llx", (unsigned long)i, i < room ? (unsigned long long)words[i] : 0ull);
    }
    same("the number of waiting words", muruapy_waiting(words, room), i);
    for (; i < room; i++)
        if (words[i] != 0)
            fault("a word behind the last is not 0");
    same("the field's own check", muruapy_field_check(&field, words, room), 0);
}

/* A module's values are those of the line's rest, - for none. False for another line. */
static int values_line(const char *call, char *line)
{
    uint16_t values[MURUAPY_WIDTH];
    if (strcmp(call, "module") != 0)
        return 0;
    unsigned long v = (unsigned long)number(&line, 10);
    if (v >= field.plan.modules)
        fault("there is no module %lu", v);
    memcpy(values, &field.modules[v], sizeof values);
    for (int i = 0; i < MURUAPY_WIDTH; i++) {
        char *text = word(&line);
        unsigned long said = MURUAPY_NONE;
        if (!text)
            fault("a value is missing");
        if (strcmp(text, "-") != 0)
            said = (unsigned long)number(&text, 10);
        if (values[i] != said)
            fault("value %d of module %lu is %u", i, v, values[i]);
    }
    count(VALUES, 0);
    no_more(&line);
    return 1;
}

/* The buffer that is lent to each preview. */
static uint64_t *lent_buffer;
static size_t places;

static void lend_buffer(char **line)
{
    uint64_t all[MURUAPY_SENDS];
    char *text;
    for (places = 0; places < MURUAPY_SENDS && (text = word(line)); places++)
        all[places] = number(&text, 16);
    free(lent_buffer);
    lent_buffer = memory(places * sizeof *lent_buffer);
    memcpy(lent_buffer, all, places * sizeof *all);
}

/* A step is previewed: its answer, the buffer then; field and words stay. False for another call. */
static int preview_line(const char *call, char *line)
{
    static muruapy_field before;
    if (strcmp(call, "preview") != 0)
        return 0;
    if (!lent_buffer)
        fault("no buffer is lent");
    uint64_t *buffer = memory(places * sizeof *buffer), *waited = memory(room * sizeof *waited);
    uint8_t kind = (uint8_t)number(&line, 10);
    uint16_t which = (uint16_t)number(&line, 10);
    memcpy(buffer, lent_buffer, places * sizeof *buffer);
    memcpy(waited, words, room * sizeof *waited);
    memcpy(&before, &field, sizeof field);
    muruapy_previewed previewed = muruapy_preview(&field, words, room, kind, which, buffer, places);
    expect(&line, "->");
    same("the preview's answer", previewed.refusal, (unsigned long)number(&line, 10));
    same("the number of messages", previewed.count, (unsigned long)number(&line, 10));
    for (size_t i = 0; i < places; i++)
        if (buffer[i] != number(&line, 16))
            fault("word %lu of the buffer is %llx", (unsigned long)i, (unsigned long long)buffer[i]);
    no_more(&line);
    if (memcmp(&before, &field, sizeof field) != 0 || memcmp(waited, words, room * sizeof *waited) != 0)
        fault("a preview has altered the field or its words");
    count(PREVIEW, previewed.refusal);
    free(waited);
    free(buffer);
    return 1;
}

/* The numbers and the bytes that are lent to each path and to each call for marks. */
static uint16_t *lent_links;
static uint8_t *lent_marks;
static size_t link_places, mark_places;

/* False for another line. */
static int lend_for_paths(const char *call, char *line)
{
    unsigned long all[MURUAPY_MODULES];
    size_t count = 0;
    char *text;
    if (strcmp(call, "links") != 0 && strcmp(call, "marks") != 0)
        return 0;
    for (; count < MURUAPY_MODULES && (text = word(&line)); count++)
        all[count] = (unsigned long)number(&text, 10);
    if (strcmp(call, "links") == 0) {
        free(lent_links);
        lent_links = memory(count * sizeof *lent_links);
        for (link_places = 0; link_places < count; link_places++)
            lent_links[link_places] = (uint16_t)all[link_places];
    } else {
        free(lent_marks);
        lent_marks = memory(count);
        for (mark_places = 0; mark_places < count; mark_places++)
            lent_marks[mark_places] = (uint8_t)all[mark_places];
    }
    return 1;
}

static void find_path(char *line)
{
    uint16_t *links = memory(link_places * sizeof *links);
    uint16_t from = (uint16_t)number(&line, 10), to = (uint16_t)number(&line, 10);
    if (!lent_links)
        fault("no links are lent");
    memcpy(links, lent_links, link_places * sizeof *links);
    muruapy_path_found found = muruapy_path(&field.plan, from, to, links, link_places);
    expect(&line, "->");
    same("the path's answer", found.refusal, (unsigned long)number(&line, 10));
    same("whether there is a way", found.way, (unsigned long)number(&line, 10));
    same("the length", found.length, (unsigned long)number(&line, 10));
    if (found.worst == MURUAPY_NONE)
        expect(&line, "-");
    else
        same("the worst link", found.worst, (unsigned long)number(&line, 10));
    for (size_t i = 0; i < link_places; i++)
        same("a link of the buffer", links[i], (unsigned long)number(&line, 10));
    no_more(&line);
    count(found.refusal == MURUAPY_TAKEN && !found.way ? NO_WAY : PATH, found.refusal);
    free(links);
}

static void mark_near(char *line)
{
    uint8_t *marks = memory(mark_places);
    uint16_t from = (uint16_t)number(&line, 10);
    uint32_t h = (uint32_t)number(&line, 10);
    if (!lent_marks)
        fault("no marks are lent");
    memcpy(marks, lent_marks, mark_places);
    uint32_t refusal = muruapy_near(&field.plan, from, h, marks, mark_places);
    expect(&line, "->");
    same("the answer of near", refusal, (unsigned long)number(&line, 10));
    for (size_t i = 0; i < mark_places; i++)
        same("a byte of the buffer", marks[i], (unsigned long)number(&line, 10));
    no_more(&line);
    count(NEAR, refusal);
    free(marks);
}

/* A path, or the marks near a module; false for another call. */
static int path_line(const char *call, char *line)
{
    int path = strcmp(call, "path") == 0, near = strcmp(call, "near") == 0;
    if (path)
        find_path(line);
    if (near)
        mark_near(line);
    return path || near;
}

/* The cue records that are lent. */
static muruapy_cue *cues;
static size_t records;

/* Takes the next record of a line, heard/cue/link/hops with - for none; 0 at its end. */
static int record(char **line, muruapy_cue *taken)
{
    unsigned heard, cue, link = MURUAPY_NONE, hops;
    int end = 0;
    const char *text = word(line);
    if (!text)
        return 0;
    if ((sscanf(text, "%u/%u/-/%u%n", &heard, &cue, &hops, &end) != 3 &&
         sscanf(text, "%u/%u/%u/%u%n", &heard, &cue, &link, &hops, &end) != 4) || text[end])
        fault("%s is no record", text);
    *taken = (muruapy_cue){(uint8_t)heard, (uint16_t)cue, (uint16_t)link, (uint16_t)hops};
    return 1;
}

static void lend_records(char **line)
{
    muruapy_cue all[MURUAPY_MODULES];
    for (records = 0; records < MURUAPY_MODULES && record(line, &all[records]);)
        records++;
    free(cues);
    cues = memory(records * sizeof *cues);
    memcpy(cues, all, records * sizeof *cues);
}

/* The lent records are those of the line's rest. */
static void compare_records(char **line)
{
    muruapy_cue want;
    size_t v = 0;
    for (; record(line, &want); v++)
        if (v == records || cues[v].heard != want.heard || cues[v].cue != want.cue || cues[v].link != want.link ||
            cues[v].hops != want.hops)
            fault("record %lu is another", (unsigned long)v);
    same("the number of records", v, records);
}

/* A cue is started, or a copy delivered; false for another call. */
static int cue_line(const char *call, char *line)
{
    uint32_t refusal;
    int starts = strcmp(call, "start") == 0;
    if (!starts && strcmp(call, "deliver") != 0)
        return 0;
    if (!cues)
        fault("no records are lent");
    uint16_t of = (uint16_t)number(&line, 10);
    if (starts) {
        refusal = muruapy_cue_start(&field, words, room, cues, records, of, (uint16_t)number(&line, 10));
        expect(&line, "->");
        same("the start's answer", refusal, (unsigned long)number(&line, 10));
    } else {
        muruapy_delivery delivery = muruapy_cue_deliver(&field, words, room, cues, records, of);
        refusal = delivery.refusal;
        expect(&line, "->");
        same("the delivery's answer", refusal, (unsigned long)number(&line, 10));
        same("heard", delivery.heard, (unsigned long)number(&line, 10));
    }
    count(starts ? START : DELIVERY, refusal);
    compare_records(&line);
    return 1;
}

/* The store that is lent. */
static struct bytes stored;

static void lend_store(char **line)
{
    free(stored.at);
    stored.length = (size_t)number(line, 10);
    stored.at = memory(stored.length);
    memset(stored.at, 0, stored.length);
    no_more(line);
}

/* Puts a byte into the store, or leaves so many bytes of it. False for another line. */
static int store_changes(const char *call, char *line)
{
    int cut = strcmp(call, "cut") == 0;
    if (!cut && strcmp(call, "byte") != 0)
        return 0;
    size_t place = (size_t)number(&line, 10);
    if (place >= stored.length)
        fault("the store has no byte %lu", (unsigned long)place);
    if (cut)
        stored.length = place;
    else
        stored.at[place] = (uint8_t)number(&line, 16);
    no_more(&line);
    return 1;
}

static void stored_byte(size_t place, unsigned long said)
{
    if (place >= stored.length || stored.at[place] != said)
        fault("byte %lu of the store is another", (unsigned long)place);
}

/* The store's bytes from a place on: those of the line, of `zeros` nothing else to the end. False for another line. */
static int stored_line(const char *call, char *line)
{
    int zeros = strcmp(call, "zeros") == 0;
    if (!zeros && strcmp(call, "holds") != 0)
        return 0;
    size_t place = (size_t)number(&line, 10);
    for (char *text = word(&line); text; text = word(&line))
        stored_byte(place++, (unsigned long)number(&text, 16));
    for (; zeros && place < stored.length; place++)
        stored_byte(place, 0);
    count(STORED, 0);
    return 1;
}

/* A name, - for one without letters. */
static struct bytes point_name(char **line)
{
    char *text = word(line);
    if (!text)
        fault("a name is missing");
    return (struct bytes){(uint8_t *)text, strcmp(text, "-") == 0 ? 0 : strlen(text)};
}

/* A copy of the store with nothing behind it, which a call that may not write must leave as it is. */
static uint8_t *lent_store(void)
{
    return memcpy(memory(stored.length), stored.at, stored.length);
}

static void save_line(struct bytes name, char **line)
{
    uint8_t *lent = lent_store();
    uint32_t refusal = muruapy_save(&field, words, room, name.at, name.length, lent, stored.length);
    expect(line, "->");
    same("the save's answer", refusal, (unsigned long)number(line, 10));
    if (refusal != 0 && memcmp(lent, stored.at, stored.length) != 0)
        fault("a refused save has altered the store");
    free(stored.at);
    stored.at = lent;
    count(SAVE, refusal);
}

static void find_line(struct bytes name, char **line)
{
    muruapy_found found = muruapy_find(stored.at, stored.length, name.at, name.length);
    expect(line, "->");
    same("the find's answer", found.refusal, (unsigned long)number(line, 10));
    same("the record's place", found.at, (unsigned long)number(line, 10));
    same("the record's bytes", found.size, (unsigned long)number(line, 10));
    if (muruapy_shown(stored.at, found) != stored.at + found.at)
        fault("another part is shown");
    count(FIND, found.refusal);
}

/* Into so many words, none of which is 0 before; on a refusal field and words keep. */
static void restore_line(struct bytes name, char **line)
{
    static muruapy_field before;
    size_t lent = (size_t)number(line, 10);
    uint64_t *fresh = memory(lent * sizeof *fresh);
    memset(fresh, 9, lent * sizeof *fresh);
    memcpy(&before, &field, sizeof field);
    uint32_t refusal = muruapy_restore(stored.at, stored.length, name.at, name.length, &field, fresh, lent);
    expect(line, "->");
    same("the restore's answer", refusal, (unsigned long)number(line, 10));
    for (size_t i = 0; refusal != 0 && i < lent; i++)
        if (fresh[i] != UINT64_C(0x0909090909090909) || memcmp(&before, &field, sizeof field) != 0)
            fault("a refused restore has altered the field or the words");
    if (refusal == 0) {
        free(words);
        words = fresh;
        room = lent;
    } else {
        free(fresh);
    }
    compare_words(line);
    count(RESTORE, refusal);
}

/* A point is saved, found or restored. False for another call. */
static int point_line(const char *call, char *line)
{
    static const struct {
        const char *call;
        void (*run)(struct bytes name, char **line);
    } calls[] = {{"save", save_line}, {"find", find_line}, {"restore", restore_line}};
    for (int i = 0; i < 3; i++)
        if (strcmp(call, calls[i].call) == 0) {
            if (!stored.at)
                fault("no store is lent");
            calls[i].run(point_name(&line), &line);
            no_more(&line);
            return 1;
        }
    return 0;
}

/* A step, a run of rounds or of a schedule. */
static void field_line(const char *call, char *line)
{
    uint32_t refusal;
    if (strcmp(call, "step") == 0) {
        uint8_t kind = (uint8_t)number(&line, 10);
        uint16_t which = (uint16_t)number(&line, 10);
        refusal = muruapy_step(&field, words, room, kind, which);
        expect(&line, "->");
        same("the step's answer", refusal, (unsigned long)number(&line, 10));
        count(STEP, refusal);
    } else {
        size_t steps = 0;
        uint16_t rounds = 0;
        if (strcmp(call, "rounds") == 0) {
            refusal = muruapy_rounds(&field, words, room, (uint16_t)number(&line, 10), &rounds);
            expect(&line, "->");
            steps = rounds;
        } else if (strcmp(call, "run") == 0) {
            char *arrow = strstr(line, "->");
            uint8_t lent[MOST];
            struct bytes schedule = {lent, 0};
            if (!arrow)
                fault("-> is missing");
            *arrow = 0;
            more_bytes(&schedule, &line);
            line = arrow + 2;
            refusal = muruapy_run(&field, words, room, schedule.at, schedule.length, &steps);
        } else {
            fault("no such call: %s", call);
            return;
        }
        same("the call's answer", refusal, (unsigned long)number(&line, 10));
        same("how many were done", steps, (unsigned long)number(&line, 10));
        count(CALL, refusal);
    }
    compare_words(&line);
}

static void calls_line(char *line)
{
    char *call = word(&line), *colon = line ? strchr(line, ':') : NULL;
    if (!call)
        return;
    if (strcmp(call, "plan") == 0) {
        more_bytes(&planned, &line);
        return;
    }
    if (strcmp(call, "buffer") == 0) {
        lend_buffer(&line);
        return;
    }
    if (strcmp(call, "records") == 0) {
        lend_records(&line);
        return;
    }
    if (strcmp(call, "store") == 0) {
        lend_store(&line);
        return;
    }
    if (strcmp(call, "sent") == 0) {
        field.sent = (uint32_t)number(&line, 10);
        return;
    }
    if (store_changes(call, line) || lend_for_paths(call, line))
        return;
    if (!colon)
        fault("a colon is missing");
    *colon = ' ';
    set_up();
    if (!values_line(call, line) && !path_line(call, line) && !preview_line(call, line) && !cue_line(call, line) &&
        !stored_line(call, line) && !point_line(call, line))
        field_line(call, line);
}

static void calls_end(void)
{
    set_up();
    free(words);
    free(cues);
    free(lent_buffer);
    free(stored.at);
    free(lent_links);
    free(lent_marks);
    words = NULL;
    lent_links = NULL;
    lent_marks = NULL;
    cues = NULL;
    lent_buffer = NULL;
    stored.at = NULL;
    planned.length = 0;
}

/* ---- report ---- */

static char reported[MURUAPY_REPORT_BYTES + 1];
static char said[MURUAPY_REPORT_BYTES + 1];

static void report_begin(const char *name)
{
    static uint8_t bytes[MURUAPY_PLAN_BYTES];
    static muruapy_plan plan;
    uint16_t rounds;
    FILE *file = fopen(name, "rb");
    if (!file)
        fault("cannot read %s", name);
    size_t length = fread(bytes, 1, sizeof bytes, file);
    fclose(file);
    same("the plan's answer", muruapy_plan_read(bytes, length, &plan), 0);
    size_t needed = muruapy_ceiling(plan.modules, plan.links);
    uint64_t *lent = memory(needed * sizeof *lent);
    same("the job's answer", muruapy_job(&plan, &field, lent, needed, &rounds), 0);
    free(lent);
    length = muruapy_report(&field, rounds, (uint8_t *)reported, MURUAPY_REPORT_BYTES);
    reported[length] = 0;
    said[0] = 0;
}

static void report_end(void)
{
    if (strcmp(reported, said) != 0)
        fault("the report is:\n%s", reported);
    count(REPORT, 0);
}

/* ---- the tables of limits and of refusals ---- */

static const struct limit {
    const char *name;
    unsigned long number;
} limits[] = {
#define LIMIT(name) {"| `" #name "` |", name}
    LIMIT(MURUAPY_MODULES), LIMIT(MURUAPY_LINKS),       LIMIT(MURUAPY_WIDTH),      LIMIT(MURUAPY_READING),
    LIMIT(MURUAPY_NONE),    LIMIT(MURUAPY_WORDS),       LIMIT(MURUAPY_PLAN_BYTES),
    LIMIT(MURUAPY_FRAME_BYTES), LIMIT(MURUAPY_PATH_LINKS), LIMIT(MURUAPY_STEPS), LIMIT(MURUAPY_SENDS),
    LIMIT(MURUAPY_REPORT_BYTES), LIMIT(MURUAPY_NAME),   LIMIT(MURUAPY_RECORD_BYTES),
};

enum { LIMITS = sizeof limits / sizeof limits[0] };

static int limit_met[LIMITS], refusal_met[100];

static void table_line(const char *line)
{
    char wanted[64];
    unsigned n;
    for (int i = 0; i < LIMITS; i++) {
        sprintf(wanted, "| %lu %s", limits[i].number, limits[i].name);
        if (strstr(line, limits[i].name)) {
            if (!strstr(line, wanted))
                fault("the header says %lu", limits[i].number);
            limit_met[i] = 1;
        }
    }
    if (sscanf(line, "| %2u | the %1s", &n, wanted) == 2)
        refusal_met[n]++;
}

static void tables_end(void)
{
    for (int i = 0; i < LIMITS; i++)
        if (!limit_met[i])
            fault("the table of limits lacks %s", limits[i].name);
    for (unsigned n = 1; n < 100; n++) {
        int known = strcmp(muruapy_refusal_text(n), muruapy_refusal_text(1000)) != 0;
        if (refusal_met[n] != known)
            fault("the table of refusals has %d rows for %u", refusal_met[n], n);
    }
}

/* ---- the page ---- */

/* A line within a block, without its comment. */
static void block_line(const char *kind, char *rest, struct bytes *b, char *line)
{
    char *comment = strchr(line, '#');
    if (comment && strcmp(kind, "report") != 0)
        *comment = 0;
    if (strcmp(kind, "bytes") == 0)
        more_bytes(b, &line);
    else if (strcmp(kind, "numbers") == 0)
        numbers_line(rest, line);
    else if (strcmp(kind, "calls") == 0)
        calls_line(line);
    else if (strcmp(kind, "report") == 0 && strlen(said) + strlen(line) + 2 < sizeof said)
        strcat(strcat(said, line), "\n");
}

static void block_end(const char *kind, char *rest, struct bytes b)
{
    if (strcmp(kind, "bytes") == 0)
        bytes_end(b, rest);
    else if (strcmp(kind, "calls") == 0)
        calls_end();
    else if (strcmp(kind, "report") == 0)
        report_end();
}

static void read_page(FILE *file)
{
    static uint8_t space[MOST], plan_space[MOST];
    static char line[1024], first[1024];
    struct bytes b = {space, 0};
    char *kind = NULL, *rest = NULL;
    planned.at = plan_space;
    while (fgets(line, sizeof line, file)) {
        at++;
        line[strcspn(line, "\n")] = 0;
        if (strncmp(line, "```", 3) != 0) {
            if (kind)
                block_line(kind, rest, &b, line);
            else
                table_line(line);
            continue;
        }
        if (kind) {
            block_end(kind, rest, b);
            kind = NULL;
            continue;
        }
        strcpy(first, line + 3);
        rest = first;
        b.length = 0;
        rows = 0;
        kind = word(&rest);
        if (!kind || (strcmp(kind, "bytes") && strcmp(kind, "numbers") && strcmp(kind, "calls") &&
                      strcmp(kind, "report") && strcmp(kind, "text")))
            fault("a block of no known sort");
        if (strcmp(kind, "report") == 0)
            report_begin(rest);
    }
    if (kind)
        fault("a block that does not end");
}

int main(int argc, char **argv)
{
    FILE *file = argc == 2 ? fopen(page = argv[1], "r") : NULL;
    if (!file) {
        fprintf(stderr, "usage: formats PAGE\n");
        return 2;
    }
    read_page(file);
    fclose(file);
    tables_end();
    printf("formats: %lu examples agree\n", counted());
    return 0;
}
