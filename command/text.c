/* `make` and `text`: a plan as lines.
 *
 *     # a comment
 *     modules 4
 *     link 0 1 350 412
 *
 * A link has its lower and its higher module and the reading at each, in tenths of a decibel. Links stand in the order
 * of the file. Blank lines, comments behind # and line ends of either kind are allowed. */
#include "command.h"

#include <string.h>

enum { LINE = 256, NUMBERS = 4 };

/* A text while it is read: the plan so far, the line of `modules` (0 for none yet) and of each link. */
struct reading {
    const char *name;
    FILE *file;
    size_t line;
    muruapy_plan plan;
    size_t modules_line;
    size_t link_line[MURUAPY_LINKS];
};

/* A word of the text as far as it is short and can be printed. */
static const char *shown(const char *word)
{
    static char made[25];
    size_t i = 0;
    for (; word[i] && i + 1 < sizeof made; i++)
        made[i] = word[i] > ' ' && word[i] <= '~' ? word[i] : '?';
    made[i] = 0;
    return made;
}

/* Says why the line is refused: what stands there, if anything is to be shown, and what is wrong with it. */
static int refused(const struct reading *r, const char *what, const char *wrong)
{
    return stop(REFUSED, "%s: line %zu: %s%s%s", called(r->name), r->line, what, *what ? ": " : "", wrong);
}

/* The next character. A carriage return right before a line feed is no character of its own. */
static int next_character(FILE *file)
{
    int c = getc(file);
    if (c != '\r')
        return c;
    int next = getc(file);
    if (next == '\n')
        return next;
    ungetc(next, file);
    return c;
}

/* Reads the next line without its comment. Answers DONE, REFUSED, or FAILED where the text ends or cannot be read. */
static int next_line(struct reading *r, char *line)
{
    size_t length = 0;
    bool comment = false;
    int c = next_character(r->file);
    if (c == EOF)
        return FAILED;
    r->line++;
    for (; c != EOF && c != '\n'; c = next_character(r->file)) {
        comment = comment || c == '#';
        if (c == 0)
            return refused(r, "a byte 0", "no text has one");
        if (!comment && length + 1 == LINE)
            return refused(r, "", "longer than 255 characters");
        if (!comment)
            line[length++] = (char)c;
    }
    line[length] = 0;
    return ferror(r->file) ? FAILED : DONE;
}

/* Cuts the next word off a line; NULL where there is none. */
static char *next_word(char **line)
{
    static const char space[] = " \t";
    char *word = *line + strspn(*line, space);
    if (*word == 0)
        return NULL;
    *line = word + strcspn(word, space);
    if (**line)
        *(*line)++ = 0;
    return word;
}

/* Reads just `count` numbers of 16 bits up to the line's end. */
static int take_numbers(const struct reading *r, char *line, int count, const char *form, uint16_t *numbers)
{
    uint64_t value;
    for (int i = 0; i < count; i++) {
        const char *word = next_word(&line);
        if (!word)
            return refused(r, "too few numbers", form);
        if (!read_number(word, UINT16_MAX, &value))
            return refused(r, shown(word), "no whole number");
        if (value > UINT16_MAX)
            return refused(r, shown(word), "above 65535");
        numbers[i] = (uint16_t)value;
    }
    return next_word(&line) ? refused(r, "too many words", form) : DONE;
}

static int take_modules(struct reading *r, char *line)
{
    if (r->modules_line != 0)
        return refused(r, "modules", "a second such line");
    r->modules_line = r->line;
    return take_numbers(r, line, 1, "the line is `modules NUMBER`", &r->plan.modules);
}

static int take_link(struct reading *r, char *line)
{
    uint16_t n[NUMBERS];
    if (r->plan.links == MURUAPY_LINKS)
        return refused(r, "15", "a plan has at most 600 links");
    int status = take_numbers(r, line, NUMBERS, "the line is `link LOWER HIGHER READING READING`", n);
    if (status != DONE)
        return status;
    r->link_line[r->plan.links] = r->line;
    r->plan.link[r->plan.links++] = (muruapy_link){n[0], n[1], n[2], n[3]};
    return DONE;
}

/* Reads all lines, whatever their numbers mean. */
static int take_lines(struct reading *r)
{
    char buffer[LINE];
    int status = next_line(r, buffer);
    for (; status == DONE; status = next_line(r, buffer)) {
        char *line = buffer, *word = next_word(&line);
        if (!word)
            continue;
        if (strcmp(word, "modules") == 0)
            status = take_modules(r, line);
        else if (strcmp(word, "link") == 0)
            status = take_link(r, line);
        else
            status = refused(r, shown(word), "a line begins with `modules`, `link` or #");
        if (status != DONE)
            return status;
    }
    if (status == REFUSED || ferror(r->file))
        return status;
    r->line += r->line == 0;
    return r->modules_line ? DONE : refused(r, "the end", "there is no line `modules NUMBER`");
}

/* The plan's own refusals, with the line concerned: that of the link, of `modules`, or the last. */
static int take_value(const struct reading *r)
{
    uint32_t refusal = muruapy_plan_value_check(&r->plan);
    if (refusal == MURUAPY_TAKEN)
        return DONE;
    struct place place = value_place(refusal, &r->plan);
    size_t line = refusal == MURUAPY_PLAN_MODULES ? r->modules_line : r->line;
    if (place.link != MURUAPY_NONE)
        line = r->link_line[place.link];
    return stop(REFUSED, "%s: line %zu: %u: %s: %s", called(r->name), line, (unsigned)refusal,
                muruapy_refusal_text(refusal), place.words);
}

int make(const struct call *call)
{
    static struct reading r;
    uint8_t bytes[MURUAPY_PLAN_BYTES];
    r.name = call->names[0];
    r.file = opened(r.name);
    if (!r.file)
        return FAILED;
    int status = take_lines(&r);
    if (closed(r.name, r.file) != DONE)
        return FAILED;
    if (status == DONE)
        status = take_value(&r);
    if (status != DONE)
        return status;
    size_t length = 7 + 8 * (size_t)r.plan.links;
    muruapy_plan_write(&r.plan, bytes, sizeof bytes);
    struct output file = {.name = call->output, .bytes = bytes, .length = length};
    if (call->output && strcmp(call->output, "-") != 0)
        return put_files(&file, 1, r.name);
    fwrite(bytes, 1, length, stdout);
    return DONE;
}

int text(const struct call *call)
{
    static muruapy_plan plan;
    int status = take_plan(call->names[0], &plan);
    if (status != DONE)
        return status;
    puts("# link: lower module, higher module, the reading at each in tenths of a decibel");
    printf("modules %u\n", plan.modules);
    for (uint16_t k = 0; k < plan.links; k++) {
        const muruapy_link *link = &plan.link[k];
        printf("link %u %u %u %u\n", link->lower, link->higher, link->near, link->far);
    }
    return DONE;
}
