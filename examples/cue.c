/* Lets the field of a plan come to its tree, sends a cue from one of its modules, and prints who heard it, and how: all of
 * the sender's part.
 *
 *     cue PLAN MODULE CUE
 *
 * MODULE and CUE are numbers of 0 to 65535; where there is no such module, as in the blank plan, 72 refuses.
 * Exit 0 done, 1 refused, 2 wrong usage or a failed read or write. To build, at the top of the repository after
 * tools/build:
 *
 *     cc -std=c99 -Iinclude examples/cue.c target/lib/libmuruapy.a -o cue */
#include "muruapy.h"

#include <stdio.h>
#include <stdlib.h>

/* These are large, so they do not lie on the stack. */
static muruapy_plan plan;
static muruapy_field field;
static uint64_t words[MURUAPY_WORDS];
static muruapy_cue cues[MURUAPY_MODULES];
static uint16_t heard[MURUAPY_MODULES]; /* the modules that have heard, in that order .. */
static size_t count;                     /* .. and how many they are */

/* What to exit with, after a line about a refusal. */
static int status_of(uint32_t refusal)
{
    if (refusal == MURUAPY_TAKEN)
        return 0;
    fprintf(stderr, "refused %lu: %s\n", (unsigned long)refusal, muruapy_refusal_text(refusal));
    return 1;
}

static int read_plan(const char *name)
{
    static uint8_t bytes[65539]; /* all that a 16-bit length can tell of, and one more */
    FILE *file = fopen(name, "rb");
    size_t length = file ? fread(bytes, 1, sizeof bytes, file) : 0;
    int failed = !file || ferror(file);
    if (failed)
        perror(name);
    if (file)
        fclose(file);
    return failed ? 2 : status_of(muruapy_plan_read(bytes, length, &plan));
}

static int read_number(const char *text, uint16_t *number)
{
    char *end;
    unsigned long value = strtoul(text, &end, 10);
    *number = (uint16_t)value;
    return text[0] >= '0' && text[0] <= '9' && *end == 0 && value <= 65535;
}

/* Each module that has heard passes a copy to its branches, one after the other; any other order would do. Over the
 * branch that it heard by no copy waits: that delivery is idle, and nobody hears. */
static int pass_on(uint16_t sender)
{
    size_t i;
    uint16_t k;
    heard[0] = sender;
    count = 1;
    for (i = 0; i < count; i++)
        for (k = 0; k < plan.links; k++) {
            const muruapy_link *link = &plan.link[k];
            int back = link->higher == heard[i]; /* against the link's direction */
            muruapy_delivery delivery;
            if (field.marks[k][0] != 1 || (!back && link->lower != heard[i]))
                continue;
            delivery = muruapy_cue_deliver(&field, words, MURUAPY_WORDS, cues, plan.modules, (uint16_t)(2 * k + back));
            if (delivery.refusal != MURUAPY_TAKEN)
                return status_of(delivery.refusal);
            if (delivery.heard)
                heard[count++] = back ? link->lower : link->higher;
        }
    return 0;
}

static void print_heard(void)
{
    uint16_t most = 0;
    size_t i;
    for (i = 0; i < count; i++) {
        const muruapy_cue *cue = &cues[heard[i]];
        if (cue->link == MURUAPY_NONE)
            printf("module %u sends cue %u\n", (unsigned)heard[i], (unsigned)cue->cue);
        else
            printf("module %u hears it by link %u, hops %u\n", (unsigned)heard[i], (unsigned)cue->link,
                   (unsigned)cue->hops);
        most = cue->hops > most ? cue->hops : most;
    }
    printf("%lu copies heard, at most %u hops\n", (unsigned long)(count - 1), (unsigned)most);
}

int main(int argc, char **argv)
{
    uint16_t sender, cue, rounds;
    int status;

    if (argc != 4 || !read_number(argv[2], &sender) || !read_number(argv[3], &cue)) {
        fprintf(stderr, "usage: %s PLAN MODULE CUE\n", argv[0]);
        return 2;
    }
    status = read_plan(argv[1]);
    /* The whole job: then the marks are those of the tree, and each module can send a cue. */
    if (status == 0)
        status = status_of(muruapy_job(&plan, &field, words, MURUAPY_WORDS, &rounds));
    if (status == 0)
        status = status_of(muruapy_cue_start(&field, words, MURUAPY_WORDS, cues, plan.modules, sender, cue));
    if (status == 0)
        status = pass_on(sender);
    if (status == 0)
        print_heard();
    return fflush(stdout) == 0 ? status : 2;
}
