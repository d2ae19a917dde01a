/* Reads a plan, lets its field come to its tree, and prints the tree.
 *
 *     tree PLAN
 *
 * First the tree as the wakeup of each part's lowest module and the messages after it leave it, link by link; then the
 * report that `muruapy show` prints. The blank plan has an empty tree. Exit 0 done, 1 refused, 2 wrong usage or a failed
 * read or write. To build, at the top of the repository after tools/build:
 *
 *     cc -std=c99 -Iinclude examples/tree.c target/lib/libmuruapy.a -o tree */
#include "muruapy.h"

#include <stdio.h>
#include <stdlib.h>

/* These are large, so they do not lie on the stack. */
static uint8_t bytes[65539]; /* all that a 16-bit length can tell of, and one more */
static muruapy_plan plan;
static muruapy_field field;
static uint8_t text[MURUAPY_REPORT_BYTES];

static int refused(uint32_t number)
{
    fprintf(stderr, "refused %lu: %s\n", (unsigned long)number, muruapy_refusal_text(number));
    return 1;
}

/* Reads a file's bytes; 0 where that fails, which has been said. */
static int take_bytes(const char *name, size_t *length)
{
    FILE *file = fopen(name, "rb");
    if (!file) {
        perror(name);
        return 0;
    }
    *length = fread(bytes, 1, sizeof bytes, file);
    if (ferror(file)) {
        perror(name);
        fclose(file);
        return 0;
    }
    fclose(file);
    return 1;
}

/* Both ends of a tree link now mark it Branch (1), both ends of every other link Rejected (2). */
static void print_tree(void)
{
    uint32_t total = 0;
    uint16_t k;
    for (k = 0; k < plan.links; k++) {
        if (field.marks[k][0] == 1 && field.marks[k][1] == 1) {
            uint32_t cost = muruapy_link_cost(&plan, k);
            printf("link %u: modules %u and %u, cost %lu\n", (unsigned)k, (unsigned)plan.link[k].lower,
                   (unsigned)plan.link[k].higher, (unsigned long)cost);
            total += cost;
        }
    }
    printf("total cost %lu\n\n", (unsigned long)total);
}

int main(int argc, char **argv)
{
    size_t length, room;
    uint32_t refusal;
    uint64_t *words;
    uint16_t rounds;

    if (argc != 2) {
        fprintf(stderr, "usage: %s PLAN\n", argv[0]);
        return 2;
    }
    if (!take_bytes(argv[1], &length))
        return 2;

    /* The bytes become a plan, or are refused. */
    refusal = muruapy_plan_read(bytes, length, &plan);
    if (refusal != MURUAPY_TAKEN)
        return refused(refusal);

    /* The field's messages wait in words that we lend: as many as the ceiling. (One for a plan that needs none, since
     * no pointer may be NULL.) */
    room = muruapy_ceiling(plan.modules, plan.links);
    words = (uint64_t *)malloc((room > 0 ? room : 1) * sizeof *words);
    if (!words)
        return 2;

    /* The whole job: set up, wake the lowest module of each part, rounds until no message waits. */
    refusal = muruapy_job(&plan, &field, words, room, &rounds);
    free(words);
    if (refusal != MURUAPY_TAKEN)
        return refused(refusal);

    print_tree();
    length = muruapy_report(&field, rounds, text, sizeof text);
    if (fwrite(text, 1, length, stdout) != length || fflush(stdout) != 0)
        return 2;
    return 0;
}
