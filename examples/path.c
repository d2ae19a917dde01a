/* Prints the way between two modules of a plan over links of the tree, the link to raise an antenna for, and how many modules
 * are reached from the first one within each number of branches up to there; or that no links join the two.
 *
 *     path PLAN MODULE MODULE
 *
 * MODULE is a number of 0 to 65535; where there is no such module, as in the blank plan, 41 refuses. No field is needed: the
 * library works the tree out of the plan. Exit 0 done, 1 refused, 2 wrong usage or a failed read or write. To build, at the
 * top of the repository after tools/build:
 *
 *     cc -std=c99 -Iinclude examples/path.c target/lib/libmuruapy.a -o path */
#include "muruapy.h"

#include <stdio.h>
#include <stdlib.h>

static muruapy_plan plan; /* large, so it does not lie on the stack */

/* What to exit with, after a line about a refusal. */
static int status_of(uint32_t refusal)
{
    if (refusal == MURUAPY_TAKEN)
        return 0;
    fprintf(stderr, "refused %lu: %s\n", (unsigned long)refusal, muruapy_refusal_text(refusal));
    return 1;
}

static int read_plan(const char *name)
{
    static uint8_t bytes[65539]; /* all that a 16-bit length can tell of, and one more */
    FILE *file = fopen(name, "rb");
    size_t length = file ? fread(bytes, 1, sizeof bytes, file) : 0;
    int failed = !file || ferror(file);
    if (failed)
        perror(name);
    if (file)
        fclose(file);
    return failed ? 2 : status_of(muruapy_plan_read(bytes, length, &plan));
}

static int read_number(const char *text, uint16_t *number)
{
    char *end;
    unsigned long value = strtoul(text, &end, 10);
    *number = (uint16_t)value;
    return text[0] >= '0' && text[0] <= '9' && *end == 0 && value <= 65535;
}

/* The links lead from the first module on; each ends at the module where the next one begins. */
static void print_path(uint16_t from, const uint16_t *links, muruapy_path_found found)
{
    uint16_t at = from, i;
    for (i = 0; i < found.length; i++) {
        const muruapy_link *link = &plan.link[links[i]];
        at = link->lower == at ? link->higher : link->lower;
        printf("over link %u to module %u, cost %lu%s\n", (unsigned)links[i], (unsigned)at,
               (unsigned long)muruapy_link_cost(&plan, links[i]), links[i] == found.worst ? ", the worst" : "");
    }
    if (found.worst == MURUAPY_NONE)
        printf("module %u is there already\n", (unsigned)from);
}

/* How many modules are within so many branches, from the module alone up to the length of the path. */
static int print_near(uint16_t from, uint16_t length)
{
    uint8_t marks[MURUAPY_MODULES];
    uint16_t h, v;
    for (h = 0; h <= length; h++) {
        unsigned count = 0;
        uint32_t refusal = muruapy_near(&plan, from, h, marks, sizeof marks);
        if (refusal != MURUAPY_TAKEN)
            return status_of(refusal);
        for (v = 0; v < plan.modules; v++)
            count += marks[v];
        printf("within %u: %u module%s\n", (unsigned)h, count, count == 1 ? "" : "s");
    }
    return 0;
}

int main(int argc, char **argv)
{
    uint16_t links[MURUAPY_PATH_LINKS], from, to;
    muruapy_path_found found;
    int status;

    if (argc != 4 || !read_number(argv[2], &from) || !read_number(argv[3], &to)) {
        fprintf(stderr, "usage: %s PLAN MODULE MODULE\n", argv[0]);
        return 2;
    }
    status = read_plan(argv[1]);
    if (status != 0)
        return status;
    found = muruapy_path(&plan, from, to, links, MURUAPY_PATH_LINKS);
    status = status_of(found.refusal);
    /* No way is an answer, and no refusal. */
    if (status == 0 && !found.way) {
        printf("no way from module %u to module %u\n", (unsigned)from, (unsigned)to);
    } else if (status == 0) {
        print_path(from, links, found);
        status = print_near(from, found.length);
    }
    return fflush(stdout) == 0 ? status : 2;
}
