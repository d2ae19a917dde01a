/* Calls every function of the header with guarded memory: calls REPORTS, in the folder that has samples/; the folder
 * REPORTS has what the reporting program prints of some samples. The forbidden page lies behind each piece and then before
 * it; a field is lent as one struct, and as its parts, each by itself. What the calls leave must not differ. */
#include "calls.h"

#include <stdio.h>
#include <stdlib.h>
#include <string.h>

const uint8_t two_modules[15] = {1, 0, 12, 0, 2, 0, 1, 0, 0, 0, 1, 0, 3, 0, 4};

const struct refused_plan refused_plans[] = {
    {14, 193, 1, {{0, 1, 3, 4}}},
    {14, 65535, 65535, {{0, 1, 3, 4}}},
    {15, 2, 601, {{0, 1, 3, 4}}},
    {15, 2, 65535, {{0, 1, 3, 4}}},
    {15, 0, 601, {{0, 1, 3, 4}}},
    {16, 0, 1, {{0, 1, 3, 4}}},
    {16, 0, 2, {{0, 1, 3, 4}, {0, 1, 3, 2001}}},
    {16, 2, 1, {{0, 2, 3, 4}}},
    {16, 2, 1, {{1, 1, 3, 4}}},
    {17, 2, 2, {{0, 1, 3, 4}, {0, 1, 3, 4}}},
    {18, 2, 1, {{0, 1, 2001, 4}}},
    {18, 2, 1, {{0, 1, 3, 65535}}},
    {0, 0, 0, {{0, 0, 0, 0}}},
};

void refused_value(const struct refused_plan *from, muruapy_plan *plan)
{
    memset(plan, 0, sizeof *plan);
    plan->modules = from->modules;
    plan->links = from->links;
    memcpy(plan->link, from->link, sizeof from->link);
}

struct file file(const char *folder, const char *name)
{
    struct file f;
    char path[4096];
    FILE *in;
    snprintf(path, sizeof path, "%s/%s", folder, name);
    in = fopen(path, "rb");
    must(in != NULL, path);
    f.bytes = malloc(70000);
    must(f.bytes != NULL, "no memory");
    f.length = fread(f.bytes, 1, 70000, in);
    fclose(in);
    return f;
}

static uint16_t two_bytes(const uint8_t *at)
{
    return (uint16_t)(at[0] << 8 | at[1]);
}

void sample(const char *name, muruapy_plan *plan)
{
    struct file f = file("samples", name);
    size_t k;
    memset(plan, 0, sizeof *plan);
    plan->modules = two_bytes(f.bytes + 3);
    plan->links = two_bytes(f.bytes + 5);
    for (k = 0; k < plan->links; k++) {
        const uint8_t *at = f.bytes + 7 + 8 * k;
        plan->link[k].lower = two_bytes(at);
        plan->link[k].higher = two_bytes(at + 2);
        plan->link[k].near = two_bytes(at + 4);
        plan->link[k].far = two_bytes(at + 6);
    }
    free(f.bytes);
}

/* A sentence for 0 and each number of the enum, all different; the same one for all others. */
static unsigned sentences(void)
{
    static const uint32_t numbers[] = {0,  11, 12, 13, 14, 15, 16, 17, 18, 20, 21, 22, 31, 32, 33, 41, 42, 43,
                                       44, 45, 51, 52, 53, 54, 61, 62, 63, 64, 71, 72, 73, 75, 76, 77, 78, 79};
    enum { COUNT = sizeof numbers / sizeof *numbers };
    static const char none[] = "no refusal has this number";
    uint32_t n, i = 0, j;
    for (n = 0; n <= 100; n++) {
        const char *text = muruapy_refusal_text(n);
        bool known = i < COUNT && numbers[i] == n;
        must(text[0] != 0 && text[strlen(text) - 1] != '.', "a sentence is empty or ends with a full stop");
        must((strcmp(text, none) != 0) == known, "a number has a sentence that should have none, or none");
        for (j = 0; known && j < i; j++)
            must(strcmp(text, muruapy_refusal_text(numbers[j])) != 0, "two numbers have one sentence");
        i += known;
    }
    must(i == COUNT && strcmp(muruapy_refusal_text(0), "taken") == 0, "0 is not told as taken");
    must(strcmp(muruapy_refusal_text(0xffffffffu), none) == 0, "the largest number has a sentence");
    return COUNT;
}

/* A pass begins: what the calls leave is counted from here. */
static void begin(void)
{
    digest = 14695981039346656037u;
}

/* A pass ends: it left what the first of its kind left. */
static void end(uint64_t *first)
{
    if (*first == 0)
        *first = digest;
    must(digest == *first, "the calls of this pass leave something else than those of the first");
}

int main(int argc, char **argv)
{
    uint64_t plain = 0, fields = 0;
    unsigned side, texts;
    int whole;
    if (argc != 2)
        return 2;
    watch();
    texts = sentences();
    for (side = 0; side < 2; side++) {
        place = side == 0 ? BEHIND : BEFORE;
        begin();
        plan_calls();
        message_calls();
        schedule_calls();
        path_calls();
        end(&plain);
        for (whole = 1; whole >= 0; whole--) {
            begin();
            field_calls(whole);
            job_calls(whole, argv[1]);
            preview_calls(whole);
            cue_calls(whole);
            point_calls(whole);
            blank_calls(whole);
            end(&fields);
        }
    }
    printf("%lu calls with guarded memory, %u sentences\n", calls, texts);
    return 0;
}
