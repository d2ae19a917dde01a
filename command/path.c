/* `path` and `near`: the way between two modules over the tree of a plan, with its worst link, or `no way` where they are in
 * different parts, and the modules within some branches of one. */
#include "command.h"

/* A part is all that is near its lowest module, within any number of branches. */
void find_parts(const muruapy_plan *plan, uint16_t lowest[MURUAPY_MODULES])
{
    bool seen[MURUAPY_MODULES] = {false};
    uint8_t part[MURUAPY_MODULES];
    for (uint16_t v = 0; v < plan->modules; v++) {
        if (seen[v] || muruapy_near(plan, v, plan->modules, part, MURUAPY_MODULES) != MURUAPY_TAKEN)
            continue;
        for (uint16_t u = v; u < plan->modules; u++)
            if (part[u] == 1) {
                seen[u] = true;
                lowest[u] = v;
            }
    }
}

/* Reads the number of a module; false after a message. One of more than 16 bits is no module's, as one that the library
 * refuses. */
static bool read_module(const char *sub, const char *word, uint64_t *module)
{
    bool is = read_number(word, UINT16_MAX, module);
    if (!is)
        stop(MISUSED, "%s: %s is no module's number", sub, word);
    return is;
}

/* Says that a call about a module is refused. */
static int refuse_module(const char *sub, const char *module, uint32_t refusal, const muruapy_plan *plan)
{
    return stop(REFUSED, "%s: %u: %s: %s", sub, (unsigned)refusal, muruapy_refusal_text(refusal),
                module_place(module, plan).words);
}

/* The links from a module on, a line each, with the modules that they lead from and to, and the worst of them. */
static void print_path(const muruapy_plan *plan, uint16_t from, const uint16_t *links, muruapy_path_found found)
{
    uint16_t at = from;
    for (uint16_t i = 0; i < found.length; i++) {
        const muruapy_link *link = &plan->link[links[i]];
        uint16_t next = link->lower == at ? link->higher : link->lower;
        printf("link %u from module %u to module %u cost %u\n", (unsigned)links[i], (unsigned)at, (unsigned)next,
               (unsigned)muruapy_link_cost(plan, links[i]));
        at = next;
    }
    if (found.worst == MURUAPY_NONE)
        puts("worst none");
    else
        printf("worst link %u cost %u\n", (unsigned)found.worst, (unsigned)muruapy_link_cost(plan, found.worst));
}

int path(const struct call *call)
{
    static muruapy_plan plan;
    uint16_t links[MURUAPY_PATH_LINKS];
    uint64_t from, to;
    if (!read_module("path", call->names[1], &from) || !read_module("path", call->names[2], &to))
        return MISUSED;
    int status = take_plan(call->names[0], &plan);
    if (status != DONE)
        return status;
    muruapy_path_found found = {MURUAPY_NO_MODULE, 0, 0, MURUAPY_NONE};
    if (from <= UINT16_MAX && to <= UINT16_MAX)
        found = muruapy_path(&plan, (uint16_t)from, (uint16_t)to, links, MURUAPY_PATH_LINKS);
    if (found.refusal != MURUAPY_TAKEN)
        return refuse_module("path", call->names[from < plan.modules ? 2 : 1], found.refusal, &plan);
    if (found.way)
        print_path(&plan, (uint16_t)from, links, found);
    else
        puts("no way");
    return DONE;
}

int near(const struct call *call)
{
    static muruapy_plan plan;
    uint8_t marks[MURUAPY_MODULES];
    uint64_t from, h;
    if (!read_module("near", call->names[1], &from))
        return MISUSED;
    if (!read_number(call->names[2], UINT32_MAX, &h))
        return stop(MISUSED, "near: %s is no number of branches", call->names[2]);
    int status = take_plan(call->names[0], &plan);
    if (status != DONE)
        return status;
    /* no path has as many links as a number of 32 bits can tell */
    uint32_t most = h > UINT32_MAX ? UINT32_MAX : (uint32_t)h, refusal = MURUAPY_NO_MODULE;
    if (from <= UINT16_MAX)
        refusal = muruapy_near(&plan, (uint16_t)from, most, marks, MURUAPY_MODULES);
    if (refusal != MURUAPY_TAKEN)
        return refuse_module("near", call->names[1], refusal, &plan);
    for (uint16_t v = 0; v < plan.modules; v++)
        if (marks[v] == 1)
            printf("module %u\n", (unsigned)v);
    return DONE;
}
