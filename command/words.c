/* Messages, steps and fields in words. A message that waits is told as in "module 4 holds Test level 1 from module 2:
 * own level 0". */
#include "command.h"

#include <string.h>

static const char *const kinds[8] = {"", "Connect", "Initiate", "Test", "Accept", "Reject", "Report", "Change-root"};
static const char *const states[3] = {"asleep", "Find", "Found"};
static const char *const marks[3] = {"Basic", "Branch", "Rejected"};

/* Steps as they are told, and in one word as an argument. */
static const struct {
    const char *told, *word;
} steps[4] = {{"", ""}, {"wake", "wake"}, {"hand over", "hand"}, {"serve", "serve"}};

const char *kind_name(uint8_t kind)
{
    return kinds[kind % 8];
}

const char *mark_name(uint8_t mark)
{
    return marks[mark % 3];
}

const char *step_name(uint8_t kind)
{
    return steps[kind % 4].told;
}

uint8_t step_kind(const char *word)
{
    for (uint8_t kind = MURUAPY_WAKE; kind <= MURUAPY_SERVE; kind++)
        if (strcmp(word, steps[kind].word) == 0)
            return kind;
    return 0;
}

void print_message(uint64_t word)
{
    uint8_t header = muruapy_word_header(word), kind = muruapy_header_kind(header);
    unsigned level = muruapy_header_level(header), carried = muruapy_word_carried(word);
    fputs(kind_name(kind), stdout);
    if (kind == MURUAPY_CONNECT || kind == MURUAPY_INITIATE || kind == MURUAPY_TEST)
        printf(" level %u", level);
    if (kind == MURUAPY_INITIATE || kind == MURUAPY_TEST)
        printf(" identity %u", carried);
    if (kind == MURUAPY_INITIATE)
        fputs(muruapy_header_find(header) ? " Find" : " Found", stdout);
    if (kind == MURUAPY_REPORT && carried == MURUAPY_NONE)
        fputs(" none", stdout);
    else if (kind == MURUAPY_REPORT)
        printf(" link %u", carried);
}

void print_step(uint8_t kind, uint16_t number)
{
    printf("%s %u", step_name(kind), number);
}

void print_put_back(const muruapy_field *field, uint64_t word)
{
    uint16_t directed = muruapy_word_link(word), module = to_module(&field->plan, directed);
    uint8_t header = muruapy_word_header(word), kind = muruapy_header_kind(header);
    printf("module %u holds %s", module, kind_name(kind));
    if (kind != MURUAPY_REPORT)
        printf(" level %u", muruapy_header_level(header));
    printf(" from module %u: ", from_module(&field->plan, directed));
    if (kind == MURUAPY_CONNECT)
        fputs("link still basic", stdout);
    else if (kind == MURUAPY_TEST)
        printf("own level %u", field->modules[module].level);
    else
        fputs("still finding", stdout);
}

static void print_link(const char *name, uint16_t link)
{
    if (link == MURUAPY_NONE)
        printf(", %s none", name);
    else
        printf(", %s %u", name, link);
}

static void print_module(const muruapy_field *field, uint16_t v)
{
    const muruapy_module *module = &field->modules[v];
    printf("module %u: %s", v, states[module->status % 3]);
    if (module->status != 0) {
        printf(", level %u", module->level);
        print_link("identity", module->identity);
        print_link("best weight", module->best_weight);
        print_link("best edge", module->best_edge);
        print_link("test edge", module->test_edge);
        print_link("in-branch", module->in_branch);
        printf(", find-count %u%s", module->find_count, module->halted ? ", halted" : "");
        print_link("waking link", module->waking);
    }
    const char *before = "; ";
    for (uint16_t k = 0; k < field->plan.links; k++)
        for (uint16_t end = 0; end < 2; end++)
            if (from_module(&field->plan, (uint16_t)(2 * k + end)) == v) {
                printf("%slink %u to module %u %s", before, k, to_module(&field->plan, (uint16_t)(2 * k + end)),
                       mark_name(field->marks[k][end]));
                before = ", ";
            }
    putchar('\n');
}

void print_messages(const struct held *held)
{
    size_t count = waiting(held);
    printf("%zu waiting, %u messages sent of %zu at most%s\n", count, (unsigned)held->field.sent, held->room,
           count == 0 ? ", at rest" : "");
}

void print_field(const struct held *held)
{
    const muruapy_plan *plan = &held->field.plan;
    size_t count = waiting(held);
    for (uint16_t v = 0; v < plan->modules; v++)
        print_module(&held->field, v);
    for (size_t i = 0; i < count; i++) {
        uint64_t word = held->words[i];
        uint16_t directed = muruapy_word_link(word);
        fputs("waiting: ", stdout);
        print_message(word);
        printf(" from module %u to module %u, ", from_module(plan, directed), to_module(plan, directed));
        puts(muruapy_word_handed(word) ? "handed over" : "in the air");
    }
    print_messages(held);
}
