/* The calls on plans: bytes of every length about the limits, values good and refused, buffers too short, exact, longer. */
#include "calls.h"

#include <stdlib.h>
#include <string.h>

/* The bytes checked and read: both answer the number. What is read is the value. */
static void bytes_give(const uint8_t *bytes, size_t length, uint32_t number, const muruapy_plan *value)
{
    muruapy_plan *plan;
    const uint8_t *shown = show(bytes, length);
    answered("plan_check", muruapy_plan_check(shown, length), number, NULL);
    plan = lend(NULL, sizeof *plan);
    answered("plan_read", muruapy_plan_read(shown, length, plan), number, NULL);
    if (number == 0)
        must(memcmp(plan, value, sizeof *plan) == 0, "another plan is read");
    take_back();
}

/* A sample's bytes whole, cut, and with a byte more. */
static void sample_bytes(const char *name, uint32_t number)
{
    struct file f = file("samples", name);
    muruapy_plan value;
    size_t n;
    sample(name, &value);
    bytes_give(f.bytes, f.length, number, &value);
    f.bytes[f.length] = 0;
    bytes_give(f.bytes, f.length + 1, 13, NULL);
    for (n = 0; n < f.length; n++)
        if (n < 20 || n + 9 > f.length)
            bytes_give(f.bytes, n, n < 3 ? 11 : 13, NULL);
    f.bytes[0] = 2;
    bytes_give(f.bytes, f.length, 12, NULL);
    free(f.bytes);
}

/* More bytes than a 16-bit length can tell of. */
static void endless_bytes(void)
{
    size_t n, most = 3 * 65536;
    uint8_t *bytes = calloc(most, 1);
    must(bytes != NULL, "no memory");
    memcpy(bytes, two_modules, sizeof two_modules);
    for (n = 65535; n <= 65539; n++)
        bytes_give(bytes, n, 13, NULL);
    bytes_give(bytes, 65536 + sizeof two_modules, 13, NULL);
    bytes_give(bytes, most, 13, NULL);
    free(bytes);
}

/* The value written into `room` bytes: the number, then the bytes at the front and the others as they were. */
static void written(const muruapy_plan *value, size_t room, uint32_t number, const struct file *want)
{
    size_t i;
    const muruapy_plan *plan = show(value, sizeof *plan);
    uint8_t *bytes = lend(NULL, room);
    answered("plan_write", muruapy_plan_write(plan, bytes, room), number, NULL);
    if (number == 0) {
        must(memcmp(bytes, want->bytes, want->length) == 0, "other bytes are written");
        for (i = want->length; i < room; i++)
            must(bytes[i] == FILL, "a byte behind the plan is written");
    }
    take_back();
}

static void tree_built(const muruapy_plan *value, size_t room, uint32_t number, const uint8_t *want)
{
    const muruapy_plan *plan = show(value, sizeof *plan);
    uint8_t *tree = lend(NULL, room);
    answered("tree", muruapy_tree(plan, tree, room), number, NULL);
    if (number == 0)
        must(memcmp(tree, want, room) == 0, "another tree is built");
    take_back();
}

static void cost_is(const muruapy_plan *value, uint16_t link, uint32_t want)
{
    const muruapy_plan *plan = show(value, sizeof *plan);
    gave("link_cost", muruapy_link_cost(plan, link), want, true);
    take_back();
}

static void value_checked(const muruapy_plan *value, uint32_t number)
{
    answered("plan_value_check", muruapy_plan_value_check(show(value, sizeof *value)), number, NULL);
    take_back();
}

static uint32_t larger(const muruapy_link *link)
{
    return link->near > link->far ? link->near : link->far;
}

/* A plan that is taken: each call on its value. `tree` has a digit for each link. */
static void good_value(const char *name, const char *tree)
{
    struct file f = file("samples", name);
    uint8_t want[MURUAPY_LINKS] = {0};
    muruapy_plan value;
    size_t L, k;
    sample(name, &value);
    L = value.links;
    must(strlen(tree) == L, "the tree has not one digit for each link");
    for (k = 0; k < L; k++)
        want[k] = (uint8_t)(tree[k] - '0');
    value_checked(&value, 0);
    tree_built(&value, L, 0, want);
    tree_built(&value, L + 1, 20, NULL);
    for (k = 0; k < L; k += L > 2 && k == 1 ? L - 2 : 1)
        tree_built(&value, k, 20, NULL);
    for (k = 0; k <= f.length + 1; k += k == 1 ? f.length - 2 : 1)
        written(&value, k, k < f.length ? 22 : 0, &f);
    for (k = 0; k < L; k++)
        cost_is(&value, (uint16_t)k, larger(&value.link[k]));
    cost_is(&value, (uint16_t)L, MURUAPY_NONE);
    cost_is(&value, 65535, MURUAPY_NONE);
    /* What stands behind the last link means nothing. */
    memset(value.link + L, 0xff, (MURUAPY_LINKS - L) * sizeof *value.link);
    value_checked(&value, 0);
    tree_built(&value, L, 0, want);
    written(&value, f.length, 0, &f);
    free(f.bytes);
}

static void refused_values(void)
{
    const struct refused_plan *from;
    muruapy_plan value;
    size_t room;
    for (from = refused_plans; from->number; from++) {
        refused_value(from, &value);
        value_checked(&value, from->number);
        for (room = 0; room <= 16; room += room ? 15 : 1)
            written(&value, room, from->number, NULL);
        for (room = 0; room <= 2; room++)
            tree_built(&value, room, from->number, NULL);
        tree_built(&value, 600, from->number, NULL);
    }
    /* Any numbers have a cost, up to the last link that there is room for. */
    memset(&value, 0xff, sizeof value);
    value_checked(&value, 14);
    value.link[598].near = 0;
    value.link[598].far = 65534;
    cost_is(&value, 598, 65534);
    value.link[599].near = 65534;
    value.link[599].far = 65533;
    cost_is(&value, 599, 65534);
    cost_is(&value, 600, MURUAPY_NONE);
    cost_is(&value, 65535, MURUAPY_NONE);
    /* Of a plan that is refused it may be the number of none. */
    cost_is(&value, 0, MURUAPY_NONE);
}

static void ceilings(void)
{
    static const uint16_t some[] = {0, 1, 2, 3, 4, 12, 127, 128, 192, 600, 32768, 65535};
    size_t i, j;
    for (i = 0; i < sizeof some / sizeof *some; i++)
        for (j = 0; j < sizeof some / sizeof *some; j++) {
            uint32_t log = 0, n = some[i];
            while (n >>= 1)
                log++;
            gave("ceiling", muruapy_ceiling(some[i], some[j]), (uint32_t)5 * some[i] * log + 2 * some[j], true);
        }
    gave("ceiling", muruapy_ceiling(192, 600), MURUAPY_WORDS, true);
}

/* The tree of the largest plan, by Kruskal's way. */
static void kruskal(const muruapy_plan *plan, char *tree)
{
    uint16_t part[MURUAPY_MODULES], done, i, k, best;
    memset(tree, '0', plan->links);
    tree[plan->links] = 0;
    for (i = 0; i < plan->modules; i++)
        part[i] = i;
    for (done = 1; done < plan->modules; done++) {
        uint32_t least = 0xffffffffu;
        for (best = 0, k = 0; k < plan->links; k++) {
            const muruapy_link *l = &plan->link[k];
            uint32_t key = 4096 * larger(l) + l->near + l->far; /* the sum is below 4096 */
            if (part[l->lower] != part[l->higher] && key < least) {
                least = key;
                best = k;
            }
        }
        tree[best] = '1';
        k = part[plan->link[best].higher];
        for (i = 0; i < plan->modules; i++)
            if (part[i] == k)
                part[i] = part[plan->link[best].lower];
    }
}

void plan_calls(void)
{
    static const char *const taken[] = {"single.plan", "two-modules.plan", "two-banks.plan", "two-apart.plan",
                                        "ring-12.plan", "full-192.plan"};
    char tree[MURUAPY_LINKS + 1];
    muruapy_plan full;
    size_t i;
    for (i = 0; i < sizeof taken / sizeof *taken; i++)
        sample_bytes(taken[i], 0);
    sample_bytes("refused-17-not-ascending.plan", 17);
    sample_bytes("refused-18-reading-2001.plan", 18);
    endless_bytes();
    good_value("single.plan", "");
    good_value("two-modules.plan", "1");
    good_value("triangle.plan", "110");
    good_value("worse-reading.plan", "101");
    good_value("two-banks.plan", "11");
    good_value("two-apart.plan", "");
    good_value("ring-12.plan", "111111111110");
    sample("full-192.plan", &full);
    kruskal(&full, tree);
    good_value("full-192.plan", tree);
    refused_values();
    ceilings();
}
