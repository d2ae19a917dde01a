/* Paths in the tree and the modules near one: samples in which every link of a path is known, all modules of some plans by a
 * way of its own, the longest path of 191 links, plans in two parts, and plans that are refused. Each with buffers that are
 * empty, too short, just long enough and longer. The plan cannot be written. */
#include "calls.h"

#include <string.h>

/* ---- the calls ---- */

/* A path with so many numbers lent, which answers this. Of the buffer it writes `length` links at its front and no more. */
static void path_gives(const muruapy_plan *value, uint16_t from, uint16_t to, size_t room, muruapy_path_found answer,
                       const uint16_t *want)
{
    const muruapy_plan *plan = show(value, sizeof *plan);
    uint16_t *links = lend(NULL, room * sizeof *links), behind;
    muruapy_path_found got = muruapy_path(plan, from, to, links, room);
    size_t i;
    memset(&behind, FILL, sizeof behind);
    must(got.way == answer.way, "a way is told where there is none, or none");
    must(got.length == answer.length, "another length is told");
    must(got.worst == answer.worst, "another worst link is told");
    must(answer.length == 0 || memcmp(links, want, answer.length * sizeof *links) == 0, "another path is told");
    for (i = answer.length; i < room; i++)
        must(links[i] == behind, "a number behind the path is written");
    gave("path", got.refusal, answer.refusal, answer.length == 0);
    take_back();
}

/* The marks of the modules near one, with so many bytes lent. */
static void near_gives(const muruapy_plan *value, uint16_t from, uint32_t h, size_t room, uint32_t refusal,
                       const uint8_t *want)
{
    const muruapy_plan *plan = show(value, sizeof *plan);
    uint8_t *marks = lend(NULL, room);
    size_t i;
    answered("near", muruapy_near(plan, from, h, marks, room), refusal, NULL);
    if (refusal == 0) {
        must(memcmp(marks, want, value->modules) == 0, "other modules are marked");
        for (i = value->modules; i < room; i++)
            must(marks[i] == FILL, "a byte behind the marks is written");
    }
    take_back();
}

static void path_refused(const muruapy_plan *plan, uint16_t from, uint16_t to, size_t room, uint32_t refusal)
{
    muruapy_path_found answer = {0, 0, 0, MURUAPY_NONE};
    answer.refusal = refusal;
    path_gives(plan, from, to, room, answer, NULL);
}

/* Between parts: an answer, whatever is lent. */
static void no_way(const muruapy_plan *plan, uint16_t from, uint16_t to)
{
    size_t room;
    for (room = 0; room < 3; room++)
        path_refused(plan, from, to, room, 0);
    path_refused(plan, from, to, MURUAPY_PATH_LINKS, 0);
}

/* With every kind of buffer: 79 where it is too short. */
static void path_is(const muruapy_plan *plan, uint16_t from, uint16_t to, const uint16_t *want, uint16_t length,
                    uint16_t worst)
{
    muruapy_path_found answer = {0, 1, 0, 0};
    size_t more;
    answer.length = length;
    answer.worst = worst;
    if (length > 0) {
        path_refused(plan, from, to, 0, 79);
        path_refused(plan, from, to, length - 1u, 79);
    }
    for (more = 0; more < 3; more++)
        path_gives(plan, from, to, length + more, answer, want);
    path_gives(plan, from, to, MURUAPY_PATH_LINKS, answer, want);
}

static void near_is(const muruapy_plan *plan, uint16_t from, uint32_t h, const uint8_t *want)
{
    size_t more;
    near_gives(plan, from, h, 0, 79, NULL);
    near_gives(plan, from, h, plan->modules - 1u, 79, NULL);
    for (more = 0; more < 3; more++)
        near_gives(plan, from, h, plan->modules + more, 0, want);
    near_gives(plan, from, h, MURUAPY_MODULES, 0, want);
}

/* Modules that are not there, whatever is lent. */
static void no_module(const muruapy_plan *plan)
{
    uint16_t past[3];
    size_t i, room;
    past[0] = plan->modules;
    past[1] = (uint16_t)(plan->modules + 1);
    past[2] = 65535;
    for (i = 0; i < 3; i++)
        for (room = 0; room <= MURUAPY_MODULES; room += MURUAPY_MODULES) {
            path_refused(plan, past[i], 0, room, 41);
            path_refused(plan, 0, past[i], room, 41);
            path_refused(plan, past[i], past[i], room, 41);
            near_gives(plan, past[i], 0, room, 41, NULL);
            near_gives(plan, past[i], 0xffffffffu, room, 41, NULL);
        }
}

/* ---- samples ---- */

static void worse_reading(void)
{
    static const uint16_t there[] = {0, 2}, back[] = {2, 0}, first[] = {0}, last[] = {2};
    static const uint8_t alone[] = {1, 0, 0}, beside[] = {1, 1, 0}, other[] = {0, 1, 1}, all[] = {1, 1, 1};
    muruapy_plan plan;
    uint16_t v;
    sample("worse-reading.plan", &plan);
    path_is(&plan, 0, 2, there, 2, 2);
    path_is(&plan, 2, 0, back, 2, 2);
    path_is(&plan, 0, 1, first, 1, 0);
    path_is(&plan, 1, 2, last, 1, 2);
    for (v = 0; v < 3; v++)
        path_is(&plan, v, v, NULL, 0, MURUAPY_NONE);
    near_is(&plan, 0, 0, alone);
    near_is(&plan, 0, 1, beside);
    near_is(&plan, 2, 1, other);
    near_is(&plan, 1, 1, all);
    near_is(&plan, 0, 2, all);
    near_is(&plan, 0, 0xffffffffu, all);
    no_module(&plan);
}

static void one_and_two(void)
{
    static const uint16_t link[] = {0};
    static const uint8_t marks[2][2] = {{1, 0}, {0, 1}}, both[] = {1, 1};
    muruapy_plan plan;
    uint16_t v;
    sample("single.plan", &plan);
    path_is(&plan, 0, 0, NULL, 0, MURUAPY_NONE);
    near_is(&plan, 0, 0, both);
    near_is(&plan, 0, 0xffffffffu, both);
    no_module(&plan);
    sample("two-modules.plan", &plan);
    for (v = 0; v < 2; v++) {
        path_is(&plan, v, (uint16_t)(1 - v), link, 1, 0);
        near_is(&plan, v, 0, marks[v]);
        near_is(&plan, v, 1, both);
    }
    no_module(&plan);
}

/* Two parts of two, and two of one: no way between them, and marks of one part alone. */
static void apart(void)
{
    static const uint16_t first[] = {0}, second[] = {1};
    static const uint8_t other[] = {0, 0, 1, 1}, alone[] = {0, 1};
    muruapy_plan plan;
    sample("two-banks.plan", &plan);
    no_way(&plan, 0, 2);
    no_way(&plan, 3, 1);
    path_is(&plan, 1, 0, first, 1, 0);
    path_is(&plan, 2, 3, second, 1, 1);
    near_is(&plan, 2, 5, other);
    near_is(&plan, 3, 0xffffffffu, other);
    no_module(&plan);
    sample("two-apart.plan", &plan);
    no_way(&plan, 0, 1);
    path_is(&plan, 1, 1, NULL, 0, MURUAPY_NONE);
    near_is(&plan, 1, 5, alone);
    no_module(&plan);
}

/* ---- any plan: the paths to one module by spreading over the tree's links ---- */

static bool is_later(const muruapy_plan *plan, uint16_t a, uint16_t b)
{
    const muruapy_link *x = &plan->link[a], *y = &plan->link[b];
    uint32_t cost_a = muruapy_link_cost(plan, a), cost_b = muruapy_link_cost(plan, b);
    if (cost_a != cost_b)
        return cost_a > cost_b;
    if (x->near + x->far != y->near + y->far)
        return x->near + x->far > y->near + y->far;
    return a > b;
}

/* Where each module goes on to, and how far it is; a module that is not reached, of another part in the end, has
 * NO_HOPS. */
enum { NO_HOPS = 65535 };
struct onward {
    uint16_t link[MURUAPY_MODULES], next[MURUAPY_MODULES], hops[MURUAPY_MODULES];
};

static void spread(const muruapy_plan *plan, uint16_t to, struct onward *way)
{
    uint8_t tree[MURUAPY_LINKS];
    uint16_t k;
    bool more = true;
    must(muruapy_tree(plan, tree, plan->links) == 0, "the tree is refused");
    memset(way, 0xff, sizeof *way);
    way->hops[to] = 0;
    while (more)
        for (more = false, k = 0; k < plan->links; k++) {
            uint16_t a = plan->link[k].lower, b = plan->link[k].higher, near, far;
            if (!tree[k] || (way->hops[a] == NO_HOPS) == (way->hops[b] == NO_HOPS))
                continue;
            near = way->hops[a] == NO_HOPS ? b : a;
            far = way->hops[a] == NO_HOPS ? a : b;
            way->link[far] = k;
            way->next[far] = near;
            way->hops[far] = (uint16_t)(way->hops[near] + 1);
            more = true;
        }
}

static void follow(const muruapy_plan *plan, const struct onward *way, uint16_t from, uint16_t to)
{
    uint16_t links[MURUAPY_PATH_LINKS], length = 0, worst = MURUAPY_NONE, at;
    if (way->hops[from] == NO_HOPS) {
        no_way(plan, from, to);
        return;
    }
    for (at = from; at != to; at = way->next[at]) {
        uint16_t k = way->link[at];
        if (worst == MURUAPY_NONE || is_later(plan, k, worst))
            worst = k;
        links[length++] = k;
    }
    path_is(plan, from, to, links, length, worst);
}

/* Paths to a module from every so many, and the marks near it. */
static void all_to(const muruapy_plan *plan, uint16_t to, uint16_t every)
{
    static const uint32_t more[] = {0, 1, 2, 3, 5, 8, 13, 40, 190, 191, 192, 255, 256, 0x10000, 0xffffffffu};
    struct onward way;
    uint8_t marks[MURUAPY_MODULES];
    uint16_t v;
    size_t i;
    spread(plan, to, &way);
    for (v = (uint16_t)(to % every); v < plan->modules; v = (uint16_t)(v + every))
        follow(plan, &way, v, to);
    for (i = 0; i < sizeof more / sizeof *more; i++) {
        for (v = 0; v < plan->modules; v++)
            marks[v] = way.hops[v] != NO_HOPS && way.hops[v] <= more[i];
        near_is(plan, to, more[i], marks);
    }
}

static void sample_paths(const char *name, uint16_t every)
{
    muruapy_plan plan;
    uint16_t to;
    sample(name, &plan);
    for (to = 0; to < plan.modules; to = (uint16_t)(to + every))
        all_to(&plan, to, every);
    no_module(&plan);
    /* What stands behind the last link means nothing. */
    memset(plan.link + plan.links, 0xff, (MURUAPY_LINKS - plan.links) * sizeof *plan.link);
    all_to(&plan, 0, every);
}

/* 192 modules in a row, the costs rising and falling: from end to end 191 links, and no number is left over. */
static void longest(void)
{
    muruapy_plan plan;
    uint16_t k;
    memset(&plan, 0, sizeof plan);
    plan.modules = MURUAPY_MODULES;
    plan.links = MURUAPY_PATH_LINKS;
    for (k = 0; k < plan.links; k++) {
        plan.link[k].lower = k;
        plan.link[k].higher = (uint16_t)(k + 1);
        plan.link[k].near = (uint16_t)(k < 96 ? 10 * k : 10 * (191 - k));
    }
    all_to(&plan, 0, 1);
    all_to(&plan, 191, 191);
    all_to(&plan, 95, 95);
}

/* ---- what is refused ---- */

/* The plan's number comes before the module's and the buffer's. */
static void refused_values(void)
{
    static const uint16_t modules[] = {0, 1, 192, 65535};
    const struct refused_plan *from;
    muruapy_plan value;
    size_t i, room;
    for (from = refused_plans; from->number; from++) {
        refused_value(from, &value);
        for (i = 0; i < sizeof modules / sizeof *modules; i++)
            for (room = 0; room <= MURUAPY_MODULES; room += MURUAPY_MODULES) {
                path_refused(&value, modules[i], modules[i], room, from->number);
                path_refused(&value, 0, modules[i], room, from->number);
                near_gives(&value, modules[i], 1, room, from->number, NULL);
            }
    }
}

void path_calls(void)
{
    one_and_two();
    worse_reading();
    apart();
    sample_paths("two-banks.plan", 1);
    sample_paths("two-apart.plan", 1);
    sample_paths("triangle.plan", 1);
    sample_paths("path-8.plan", 1);
    sample_paths("star-16.plan", 3);
    sample_paths("ring-12.plan", 1);
    sample_paths("mesh-9.plan", 1);
    sample_paths("full-192.plan", 37);
    longest();
    refused_values();
}
