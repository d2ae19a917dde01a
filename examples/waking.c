/* Wakes a module of a plan's field, lets the field run, and prints how the wake came to another module: who woke it, who
 * woke that one, and so on back to the module that was woken by a step; or that it still sleeps.
 *
 *     waking PLAN FIRST LATE ROUNDS
 *
 * FIRST and LATE are the two modules, numbers of 0 to 65535; where there is no such module, as in the blank plan, 41
 * refuses. The field runs ROUNDS rounds at most, 0 to 65535; with 65535 it comes to rest, and nobody of FIRST's part
 * sleeps. Exit 0 done, 1 refused, 2 wrong usage or a failed read or write. To build, at the top of the repository after
 * tools/build:
 *
 *     cc -std=c99 -Iinclude examples/waking.c target/lib/libmuruapy.a -o waking */
#include "muruapy.h"

#include <stdio.h>
#include <stdlib.h>

/* These are large, so they do not lie on the stack. */
static muruapy_plan plan;
static muruapy_field field;
static uint64_t words[MURUAPY_WORDS];

/* What to exit with, after a line about a refusal. */
static int status_of(uint32_t refusal)
{
    if (refusal == MURUAPY_TAKEN)
        return 0;
    fprintf(stderr, "refused %lu: %s\n", (unsigned long)refusal, muruapy_refusal_text(refusal));
    return 1;
}

static int read_plan(const char *name)
{
    static uint8_t bytes[65539]; /* all that a 16-bit length can tell of, and one more */
    FILE *file = fopen(name, "rb");
    size_t length = file ? fread(bytes, 1, sizeof bytes, file) : 0;
    int failed = !file || ferror(file);
    if (failed)
        perror(name);
    if (file)
        fclose(file);
    return failed ? 2 : status_of(muruapy_plan_read(bytes, length, &plan));
}

static int read_number(const char *text, uint16_t *number)
{
    char *end;
    unsigned long value = strtoul(text, &end, 10);
    *number = (uint16_t)value;
    return text[0] >= '0' && text[0] <= '9' && *end == 0 && value <= 65535;
}

/* From a module of a field that came from setup, no module is met twice, so this ends. */
static int print_chain(uint16_t module)
{
    if (module >= plan.modules)
        return status_of(MURUAPY_NO_MODULE);
    while (field.modules[module].waking != MURUAPY_NONE) {
        uint16_t k = field.modules[module].waking;
        const muruapy_link *link = &plan.link[k];
        uint16_t other = link->lower == module ? link->higher : link->lower;
        printf("module %u was woken over link %u by module %u\n", (unsigned)module, (unsigned)k, (unsigned)other);
        module = other;
    }
    if (field.modules[module].status == 0)
        printf("module %u is asleep\n", (unsigned)module);
    else
        printf("module %u was woken by a wake step\n", (unsigned)module);
    return 0;
}

int main(int argc, char **argv)
{
    uint16_t first, late, limit, rounds;
    int status;

    if (argc != 5 || !read_number(argv[2], &first) || !read_number(argv[3], &late) || !read_number(argv[4], &limit)) {
        fprintf(stderr, "usage: %s PLAN FIRST LATE ROUNDS\n", argv[0]);
        return 2;
    }
    status = read_plan(argv[1]);
    if (status == 0)
        status = status_of(muruapy_setup(&plan, &field, words, MURUAPY_WORDS));
    if (status == 0)
        status = status_of(muruapy_step(&field, words, MURUAPY_WORDS, MURUAPY_WAKE, first));
    if (status == 0)
        status = status_of(muruapy_rounds(&field, words, MURUAPY_WORDS, limit, &rounds));
    if (status == 0)
        status = print_chain(late);
    return fflush(stdout) == 0 ? status : 2;
}
