/* Wakes a module of a plan's field and serves its messages in the order in which they wait. Before each step it prints what
 * the step would send; then it takes the step.
 *
 *     preview PLAN MODULE
 *
 * MODULE is a number of 0 to 65535; where there is no such module, as in the blank plan, 41 refuses. Exit 0 done,
 * 1 refused, 2 wrong usage or a failed read or write. To build, at the top of the repository after tools/build:
 *
 *     cc -std=c99 -Iinclude examples/preview.c target/lib/libmuruapy.a -o preview */
#include "muruapy.h"

#include <stdio.h>
#include <stdlib.h>

/* These are large, so they do not lie on the stack. */
static muruapy_plan plan;
static muruapy_field field;
static uint64_t words[MURUAPY_WORDS];

/* What to exit with, after a line about a refusal. */
static int status_of(uint32_t refusal)
{
    if (refusal == MURUAPY_TAKEN)
        return 0;
    fprintf(stderr, "refused %lu: %s\n", (unsigned long)refusal, muruapy_refusal_text(refusal));
    return 1;
}

static int read_plan(const char *name)
{
    static uint8_t bytes[65539]; /* all that a 16-bit length can tell of, and one more */
    FILE *file = fopen(name, "rb");
    size_t length = file ? fread(bytes, 1, sizeof bytes, file) : 0;
    int failed = !file || ferror(file);
    if (failed)
        perror(name);
    if (file)
        fclose(file);
    return failed ? 2 : status_of(muruapy_plan_read(bytes, length, &plan));
}

/* The module that a directed link leads to. */
static uint16_t target(uint16_t directed)
{
    const muruapy_link *link = &plan.link[directed / 2];
    return directed % 2 == 0 ? link->higher : link->lower;
}

/* Shows the step, then takes it. */
static int show_and_take(uint8_t kind, uint16_t number)
{
    static const char *const steps[] = {"", "wake", "hand over", "serve"};
    static const char *const kinds[] = {"", "Connect", "Initiate", "Test", "Accept", "Reject", "Report", "Change-root"};
    uint64_t buffer[MURUAPY_SENDS];
    uint32_t i;
    muruapy_previewed shown = muruapy_preview(&field, words, MURUAPY_WORDS, kind, number, buffer, MURUAPY_SENDS);
    if (shown.refusal != MURUAPY_TAKEN)
        return status_of(shown.refusal);
    printf("%s %u: %lu to send", steps[kind], (unsigned)number, (unsigned long)shown.count);
    for (i = 0; i < shown.count; i++)
        printf("%s %s to module %u", i == 0 ? ":" : ",", kinds[muruapy_header_kind(muruapy_word_header(buffer[i]))],
               (unsigned)target(muruapy_word_link(buffer[i])));
    putchar('\n');
    return status_of(muruapy_step(&field, words, MURUAPY_WORDS, kind, number));
}

/* The first word that waits is handed over if it is in the air, else its receiver serves. */
static int next_step(void)
{
    uint16_t directed = muruapy_word_link(words[0]);
    if (muruapy_word_handed(words[0]))
        return show_and_take(MURUAPY_SERVE, target(directed));
    return show_and_take(MURUAPY_HAND_OVER, directed);
}

int main(int argc, char **argv)
{
    char *end = NULL;
    unsigned long module = argc == 3 ? strtoul(argv[2], &end, 10) : 0;
    int status;

    if (argc != 3 || argv[2][0] < '0' || argv[2][0] > '9' || *end != 0 || module > 65535) {
        fprintf(stderr, "usage: %s PLAN MODULE\n", argv[0]);
        return 2;
    }
    status = read_plan(argv[1]);
    if (status == 0)
        status = status_of(muruapy_setup(&plan, &field, words, MURUAPY_WORDS));
    if (status == 0)
        status = show_and_take(MURUAPY_WAKE, (uint16_t)module);
    while (status == 0 && muruapy_waiting(words, MURUAPY_WORDS) > 0)
        status = next_step();
    return fflush(stdout) == 0 ? status : 2;
}
