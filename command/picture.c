/* `dot` and `svg`: the links of a plan and the tree that its field comes to. All numbers are whole or fixed-point, so
 * that every machine prints the same. */
#include "command.h"

/* Of the picture, in tenths of a pixel. */
enum { SPACING = 600, LEAST_RADIUS = 1400, MARGIN = 400, CAPTION = 300 };

/* A field that has come to rest. */
static int take_field(const char *name, muruapy_field *field)
{
    static muruapy_plan plan;
    static struct held held;
    uint16_t rounds;
    int status = take_plan(name, &plan);
    if (status != DONE)
        return status;
    if (muruapy_job(&plan, &held.field, held.words, MURUAPY_WORDS, &rounds) != MURUAPY_TAKEN)
        return stop(FAILED, "internal error: a plan that was taken is refused");
    *field = held.field;
    return DONE;
}

static bool in_tree(const muruapy_field *field, uint16_t link)
{
    return field->marks[link][0] == 1 && field->marks[link][1] == 1;
}

/* Both ends of a part's core have halted. A module alone halts too, but has no core. */
static bool is_core(const muruapy_field *field, uint16_t k)
{
    const muruapy_link *link = &field->plan.link[k];
    return in_tree(field, k) && field->modules[link->lower].halted && field->modules[link->higher].halted;
}

static bool core_end(const muruapy_field *field, uint16_t module)
{
    for (uint16_t k = 0; k < field->plan.links; k++)
        if (is_core(field, k) && (field->plan.link[k].lower == module || field->plan.link[k].higher == module))
            return true;
    return false;
}

/* The core of each part, by the part's lowest module; a part of one has none. */
static void print_cores(const muruapy_field *field)
{
    uint16_t lowest[MURUAPY_MODULES];
    bool none = true;
    find_parts(&field->plan, lowest);
    for (uint16_t v = 0; v < field->plan.modules; v++)
        for (uint16_t k = 0; k < field->plan.links; k++)
            if (lowest[field->plan.link[k].lower] == v && is_core(field, k)) {
                printf(", core %u %u", field->plan.link[k].lower, field->plan.link[k].higher);
                none = false;
            }
    if (none)
        fputs(", core none", stdout);
}

static void print_caption(const muruapy_field *field)
{
    unsigned long total = 0;
    for (uint16_t k = 0; k < field->plan.links; k++)
        total += in_tree(field, k) ? muruapy_link_cost(&field->plan, k) : 0;
    printf("%u modules, %u links, tree of cost %lu", field->plan.modules, field->plan.links, total);
    print_cores(field);
}

int dot(const struct call *call)
{
    static muruapy_field field;
    int status = take_field(call->names[0], &field);
    if (status != DONE)
        return status;
    fputs("graph muruapy {\n    label=\"", stdout);
    print_caption(&field);
    fputs("\";\n    node [shape=circle];\n", stdout);
    for (uint16_t v = 0; v < field.plan.modules; v++)
        printf("    %u%s;\n", v, core_end(&field, v) ? " [shape=doublecircle]" : "");
    for (uint16_t k = 0; k < field.plan.links; k++) {
        const muruapy_link *link = &field.plan.link[k];
        printf("    %u -- %u ", link->lower, link->higher);
        if (in_tree(&field, k))
            printf("[label=\"%u\"];\n", (unsigned)muruapy_link_cost(&field.plan, k));
        else
            puts("[style=dotted];");
    }
    puts("}");
    return DONE;
}

/* sin(x) and cos(x) from their series, for 0 <= x < pi / 2; x and the answers in units of 2^-28. */
static void series(int64_t x, int64_t *sine, int64_t *cosine)
{
    int64_t term = (int64_t)1 << 28;
    *sine = *cosine = 0;
    for (int i = 0; i < 16; i++) {
        int64_t *sum = i % 2 == 0 ? cosine : sine;
        *sum += i % 4 < 2 ? term : -term;
        term = (term * x / (i + 1)) >> 28;
    }
}

struct point {
    long x, y;
};

/* Where module i of n stands on a circle around the middle, module 0 on top, then clockwise. */
static struct point on_circle(long i, long n, long radius)
{
    const int64_t quarter = 421657428; /* pi / 2 */
    int64_t s, c;
    series(4 * i % n * quarter / n, &s, &c);
    const int64_t half = (int64_t)1 << 27;
    long sine = (long)((s * radius + half) >> 28), cosine = (long)((c * radius + half) >> 28);
    switch (4 * i / n) {
    case 0: return (struct point){sine, -cosine};
    case 1: return (struct point){cosine, sine};
    case 2: return (struct point){-sine, cosine};
    default: return (struct point){-cosine, -sine};
    }
}

/* The modules' places in a picture; the radius grows with their number. */
struct layout {
    long middle;
    struct point at[MURUAPY_MODULES];
};

static void lay_out(long n, struct layout *out)
{
    long radius = n * SPACING * 1000 / 6283;
    if (radius < LEAST_RADIUS)
        radius = LEAST_RADIUS;
    out->middle = radius + MARGIN;
    for (long i = 0; i < n; i++) {
        struct point p = on_circle(i, n, radius);
        out->at[i] = (struct point){out->middle + p.x, out->middle + p.y};
    }
}

/* An attribute in pixels with one decimal. No number here is negative. */
static void attribute(const char *name, long tenths)
{
    printf(" %s=\"%ld.%ld\"", name, tenths / 10, tenths % 10);
}

static void print_lines(const muruapy_field *field, const struct layout *out, bool tree)
{
    for (uint16_t k = 0; k < field->plan.links; k++) {
        struct point a = out->at[field->plan.link[k].lower], b = out->at[field->plan.link[k].higher];
        if (in_tree(field, k) != tree)
            continue;
        fputs("<line", stdout);
        attribute("x1", a.x);
        attribute("y1", a.y);
        attribute("x2", b.x);
        attribute("y2", b.y);
        puts("/>");
    }
}

/* The costs of the tree's links stand on their middles. Those between opposite modules all have one middle, so theirs
 * stand nearer to the lower module. */
static void print_costs(const muruapy_field *field, const struct layout *out)
{
    for (uint16_t k = 0; k < field->plan.links; k++) {
        const muruapy_link *link = &field->plan.link[k];
        struct point a = out->at[link->lower], b = out->at[link->higher];
        long part = 2 * (link->higher - link->lower) == field->plan.modules ? 4 : 5;
        if (!in_tree(field, k))
            continue;
        fputs("<text", stdout);
        attribute("x", a.x + (b.x - a.x) * part / 10);
        attribute("y", a.y + (b.y - a.y) * part / 10 + 35);
        printf(">%u</text>\n", (unsigned)muruapy_link_cost(&field->plan, k));
    }
}

static void print_disc(const struct point *at, long radius)
{
    fputs("<circle", stdout);
    attribute("cx", at->x);
    attribute("cy", at->y);
    attribute("r", radius);
    puts("/>");
}

static void print_modules(const muruapy_field *field, const struct layout *out)
{
    puts("<g fill=\"white\" stroke=\"black\">");
    for (uint16_t v = 0; v < field->plan.modules; v++) {
        if (core_end(field, v))
            print_disc(&out->at[v], 160);
        print_disc(&out->at[v], 125);
    }
    puts("</g>\n<g fill=\"black\">");
    for (uint16_t v = 0; v < field->plan.modules; v++) {
        fputs("<text", stdout);
        attribute("x", out->at[v].x);
        attribute("y", out->at[v].y + 40);
        printf(">%u</text>\n", v);
    }
    puts("</g>");
}

static void print_head(const muruapy_field *field, long width, long height)
{
    printf("<svg xmlns=\"http://www.w3.org/2000/svg\" width=\"%ld\" height=\"%ld\" viewBox=\"0 0 %ld %ld\" "
           "font-family=\"sans-serif\" font-size=\"11\" text-anchor=\"middle\">\n<title>",
           width / 10, height / 10, width / 10, height / 10);
    print_caption(field);
    puts("</title>\n<rect width=\"100%\" height=\"100%\" fill=\"white\"/>");
}

int svg(const struct call *call)
{
    static muruapy_field field;
    static struct layout out;
    int status = take_field(call->names[0], &field);
    if (status != DONE)
        return status;
    lay_out(field.plan.modules, &out);
    long width = 2 * out.middle, height = width + CAPTION;
    print_head(&field, width, height);
    puts("<g stroke=\"gray\" stroke-width=\"1\" stroke-dasharray=\"2 4\">");
    print_lines(&field, &out, false);
    puts("</g>\n<g stroke=\"black\" stroke-width=\"2\">");
    print_lines(&field, &out, true);
    puts("</g>\n<g fill=\"black\" stroke=\"white\" stroke-width=\"4\" paint-order=\"stroke\">");
    print_costs(&field, &out);
    puts("</g>");
    print_modules(&field, &out);
    fputs("<text", stdout);
    attribute("x", out.middle);
    attribute("y", width + CAPTION / 2);
    fputs(">", stdout);
    print_caption(&field);
    puts("</text>\n</svg>");
    return DONE;
}
