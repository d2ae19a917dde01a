/* Saves a point of a rehearsal to come back to. Wakes module 0 of a plan's field, if there is one, lets the field run some
 * rounds, saves it as "go", and lets it run to rest; then finds the point, restores it, and lets it run to rest again, which
 * must take it to the same end.
 *
 *     points PLAN ROUNDS
 *
 * ROUNDS is a number of 0 to 65535. Exit 0 done, 1 refused, 2 wrong usage or a failed read or write. To build, at the top of
 * the repository after tools/build:
 *
 *     cc -std=c99 -Iinclude examples/points.c target/lib/libmuruapy.a -o points */
#include "muruapy.h"

#include <stdio.h>
#include <stdlib.h>
#include <string.h>

/* These are large, so they do not lie on the stack. */
static muruapy_plan plan;
static muruapy_field field, first;
static uint64_t words[MURUAPY_WORDS];
/* The store: all zeros at first, which is one without points. Here it has room for one of any field. */
static uint8_t store[MURUAPY_RECORD_BYTES];

/* A name is letters and how many they are; no 0 ends it. */
static const uint8_t name[] = {'g', 'o'};

/* What to exit with, after a line about a refusal. */
static int status_of(uint32_t refusal)
{
    if (refusal == MURUAPY_TAKEN)
        return 0;
    fprintf(stderr, "refused %lu: %s\n", (unsigned long)refusal, muruapy_refusal_text(refusal));
    return 1;
}

static int read_plan(const char *file_name)
{
    static uint8_t bytes[65539]; /* all that a 16-bit length can tell of, and one more */
    FILE *file = fopen(file_name, "rb");
    size_t length = file ? fread(bytes, 1, sizeof bytes, file) : 0;
    int failed = !file || ferror(file);
    if (failed)
        perror(file_name);
    if (file)
        fclose(file);
    return failed ? 2 : status_of(muruapy_plan_read(bytes, length, &plan));
}

/* Runs rounds, at most so many, and says what came of them. */
static int run(uint16_t limit, const char *when)
{
    uint16_t rounds;
    uint32_t refusal = muruapy_rounds(&field, words, MURUAPY_WORDS, limit, &rounds);
    if (refusal == MURUAPY_TAKEN)
        printf("%s: %u rounds, %lu messages sent, %lu waiting\n", when, (unsigned)rounds, (unsigned long)field.sent,
               (unsigned long)muruapy_waiting(words, MURUAPY_WORDS));
    return status_of(refusal);
}

/* Setup, the wake, some rounds; then the field is saved. */
static int begin(uint16_t limit)
{
    int status = status_of(muruapy_setup(&plan, &field, words, MURUAPY_WORDS));
    if (status == 0 && plan.modules > 0)
        status = status_of(muruapy_step(&field, words, MURUAPY_WORDS, MURUAPY_WAKE, 0));
    if (status == 0)
        status = run(limit, "begun");
    if (status == 0)
        status = status_of(muruapy_save(&field, words, MURUAPY_WORDS, name, sizeof name, store, sizeof store));
    return status;
}

/* Where the point stands. What is shown is a part of the store itself: the name is read there. */
static int find(void)
{
    muruapy_found found = muruapy_find(store, sizeof store, name, sizeof name);
    const uint8_t *record = muruapy_shown(store, found);
    if (found.refusal == MURUAPY_TAKEN)
        printf("found: %.*s at byte %lu, %lu bytes\n", (int)record[5], (const char *)record + 6, (unsigned long)found.at,
               (unsigned long)found.size);
    return status_of(found.refusal);
}

int main(int argc, char **argv)
{
    char *rest = NULL;
    unsigned long limit = argc == 3 ? strtoul(argv[2], &rest, 10) : 0;
    int status;

    if (argc != 3 || argv[2][0] < '0' || argv[2][0] > '9' || *rest != 0 || limit > 65535) {
        fprintf(stderr, "usage: %s PLAN ROUNDS\n", argv[0]);
        return 2;
    }
    status = read_plan(argv[1]);
    if (status == 0)
        status = begin((uint16_t)limit);
    if (status == 0)
        status = run(65535, "to rest");
    memcpy(&first, &field, sizeof first); /* the first end */
    if (status == 0)
        status = find();
    /* The field and its words are again as they were saved; how they came to be otherwise since then plays no part. */
    if (status == 0)
        status = status_of(muruapy_restore(store, sizeof store, name, sizeof name, &field, words, MURUAPY_WORDS));
    if (status == 0)
        status = run(0, "restored");
    if (status == 0)
        status = run(65535, "to rest again");
    if (status == 0)
        puts(memcmp(&first, &field, sizeof first) == 0 ? "the same end" : "another end");
    return fflush(stdout) == 0 ? status : 2;
}
