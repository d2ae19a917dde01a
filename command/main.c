/* The command `muruapy`: which subcommand is meant, with which arguments, and whether all of its output went out. */
#include "command.h"

#include <errno.h>
#include <limits.h>
#include <signal.h>
#include <string.h>

/* A subcommand: how it is called, the options that it knows (o, s, k, n, z as in `option`), how many names it takes. */
static const struct subcommand {
    const char *name;
    const char *arguments;
    const char *about;
    const char *options;
    int least, most;
    int (*run)(const struct call *call);
} subcommands[] = {
    {"show", "PLAN", "print the tree that the field of a plan comes to", "", 1, 1, show},
    {"check", "[--schedule | --frame] FILE", "say whether a file is taken, else why not and where", "k", 1, 1, check},
    {"make", "TEXT [-o FILE]", "write the plan of lines that a person wrote", "o", 1, 1, make},
    {"text", "PLAN", "print a plan as such lines", "", 1, 1, text},
    {"dot", "PLAN", "print the links and the tree for Graphviz", "", 1, 1, dot},
    {"svg", "PLAN", "print the links and the tree as a picture", "", 1, 1, svg},
    {"rehearse", "PLAN -o FILE [--seed N] [WAKE...]",
     "wake modules (if none is named, the lowest of each part), run to rest, write the schedule", "os", 1, INT_MAX, rehearse},
    {"path", "PLAN MODULE MODULE",
     "print the way between two modules over links of the tree, and its worst link, or no way", "", 3, 3, path},
    {"near", "PLAN MODULE H", "print the modules within H branches of this one", "", 3, 3, near},
    {"cue", "PLAN MODULE", "print how each module hears a cue that this one sends, if it does", "", 2, 2, cue},
    {"preview", "PLAN [SCHEDULE...] wake|hand|serve NUMBER",
     "tell what a step would send behind the steps of schedules, without taking it", "", 3, INT_MAX, preview},
    {"replay", "PLAN SCHEDULE...", "tell each step of schedules in words, then the field", "", 2, INT_MAX, replay},
    {"save", "STORE NAME PLAN [SCHEDULE...] [--steps N] [--size BYTES]",
     "take the steps of schedules, N at most, and save the field under a name", "nz", 3, INT_MAX, save},
    {"find", "STORE [NAME]", "tell the points that a store holds, or the one of a name", "", 1, 2, find},
    {"restore", "STORE NAME [SCHEDULE...]",
     "go on from a saved field: tell each step of schedules in words, then the field", "", 2, INT_MAX, restore},
};

enum { SUBCOMMANDS = sizeof subcommands / sizeof subcommands[0] };

static const char more[] = "A file named - is standard input. Exit status: 0 done, 1 refused, 2 wrong usage or a\n"
                           "failed read or write. -o writes a file whole, or leaves an older one as it was; a\n"
                           "symbolic link, a device or a pipe is written in place. A store is written like that;\n"
                           "it is made or lengthened where needed, unless --size says how many bytes it has. Plan,\n"
                           "schedule, frame and store are told in FORMATS.md.\n";

static const char usage_line[] = "usage: muruapy SUBCOMMAND ARGUMENTS, or muruapy SUBCOMMAND -h\n";

static void usage(FILE *out)
{
    fprintf(out, "%s\n", usage_line);
    for (int i = 0; i < SUBCOMMANDS; i++)
        fprintf(out, "  %s %s\n      %s\n", subcommands[i].name, subcommands[i].arguments, subcommands[i].about);
    fprintf(out, "\n%s", more);
}

static void usage_of(const struct subcommand *sub, FILE *out)
{
    fprintf(out, "usage: muruapy %s %s\n", sub->name, sub->arguments);
    if (out == stdout)
        fprintf(out, "       %s\n\n%s", sub->about, more);
}

static bool is(const char *word, const char *other)
{
    return strcmp(word, other) == 0;
}

/* Takes the option at *i with its value; false where the subcommand has no such option, or its value is missing. */
static bool option(const struct subcommand *sub, int argc, char **argv, int *i, struct call *call)
{
    const char *word = argv[*i], **value = NULL;
    bool kinds = strchr(sub->options, 'k'), schedule = kinds && is(word, "--schedule");
    bool frame = kinds && is(word, "--frame");
    call->schedule |= schedule;
    call->frame |= frame;
    if (schedule || frame)
        return true;
    if (strchr(sub->options, 'o') && is(word, "-o"))
        value = &call->output;
    if (strchr(sub->options, 's') && is(word, "--seed"))
        value = &call->seed;
    if (strchr(sub->options, 'n') && is(word, "--steps"))
        value = &call->steps;
    if (strchr(sub->options, 'z') && is(word, "--size"))
        value = &call->size;
    if (!value || *value || *i + 1 == argc)
        return false;
    *value = argv[++*i];
    return true;
}

/* The arguments behind the subcommand's name. `names` has room for all of them. */
static int arguments(const struct subcommand *sub, int argc, char **argv, struct call *call)
{
    bool options = true;
    int inputs = 0;
    for (int i = 2; i < argc; i++) {
        inputs += is(argv[i], "-");
        if (options && is(argv[i], "--"))
            options = false;
        else if (!options || argv[i][0] != '-' || argv[i][1] == 0)
            call->names[call->count++] = argv[i];
        else if (!option(sub, argc, argv, &i, call))
            return stop(MISUSED, "%s: wrong option, or its value is missing: %s", sub->name, argv[i]);
    }
    if (call->count < sub->least)
        return stop(MISUSED, "%s: an argument is missing", sub->name);
    if (call->count > sub->most)
        return stop(MISUSED, "%s: too many arguments", sub->name);
    if (inputs > 1)
        return stop(MISUSED, "%s: standard input can be read only once", sub->name);
    if (call->output && !is(call->output, "-") && same_file(call->names[0], call->output))
        return stop(MISUSED, "%s would be written over: it is the input", call->output);
    return DONE;
}

/* Whether help is asked for among the arguments from `first` on. */
static bool asks_help(int argc, char **argv, int first)
{
    for (int i = first; i < argc && !is(argv[i], "--"); i++)
        if (is(argv[i], "-h") || is(argv[i], "--help"))
            return true;
    return false;
}

static int run(int argc, char **argv)
{
    const struct subcommand *sub = subcommands;
    if (argc < 2) {
        usage(stderr);
        return FAILED;
    }
    if (asks_help(2, argv, 1)) {
        usage(stdout);
        return DONE;
    }
    while (sub < subcommands + SUBCOMMANDS && !is(argv[1], sub->name))
        sub++;
    if (sub == subcommands + SUBCOMMANDS) {
        stop(FAILED, "no subcommand %s: muruapy -h lists them", argv[1]);
        fputs(usage_line, stderr);
        return FAILED;
    }
    if (asks_help(argc, argv, 2)) {
        usage_of(sub, stdout);
        return DONE;
    }
    /* the names take the places of the arguments in front of them */
    struct call call = {.names = argv};
    int status = arguments(sub, argc, argv, &call);
    if (status == DONE)
        status = sub->run(&call);
    if (status != MISUSED)
        return status;
    usage_of(sub, stderr);
    return FAILED;
}

int main(int argc, char **argv)
{
    /* a closed pipe, or a file beyond the limit, is then a write that fails: it is told, and nothing is left behind */
    signal(SIGPIPE, SIG_IGN);
    signal(SIGXFSZ, SIG_IGN);
    int status = run(argc, argv);
    int bad = ferror(stdout);
    errno = 0;
    if (fclose(stdout) != 0 || bad)
        return stop(FAILED, "standard output: %s", errno ? strerror(errno) : "it could not all be written");
    return status;
}
