/* What the files of the command `muruapy` share. The command is plain C over the library: it reads and writes files,
 * puts numbers into words, and leaves every decision to the library. */
#ifndef COMMAND_H
#define COMMAND_H

#include "muruapy.h"

#include <stdio.h>

/* What the command exits with: done; refused by the rules; a failed read or write. MISUSED becomes FAILED once the
 * usage has been shown. */
enum { DONE = 0, REFUSED = 1, FAILED = 2, MISUSED = 3 };

/* The arguments of a subcommand, its options taken out. */
struct call {
    const char *output; /* of -o, or NULL */
    const char *seed;   /* of --seed, or NULL */
    const char *steps;  /* of --steps, or NULL */
    const char *size;   /* of --size, or NULL */
    bool schedule;      /* --schedule */
    bool frame;         /* --frame */
    char **names;       /* what is no option, in order */
    int count;
};

/* The subcommands; each answers what to exit with. */
int show(const struct call *call);
int check(const struct call *call);
int make(const struct call *call);
int text(const struct call *call);
int dot(const struct call *call);
int svg(const struct call *call);
int rehearse(const struct call *call);
int replay(const struct call *call);
int preview(const struct call *call);
int cue(const struct call *call);
int path(const struct call *call);
int near(const struct call *call);
int save(const struct call *call);
int find(const struct call *call);
int restore(const struct call *call);

/* ---- input.c: files that are read ---- */

/* More bytes than any plan or schedule has: the length behind the version byte tells at most 65,535. */
#define ENOUGH 65539

/* The front of a file, all of it unless it has ENOUGH bytes or more. */
struct bytes {
    size_t length;
    uint8_t at[ENOUGH];
};

/* Prints a line about what went wrong to standard error: "muruapy: ", then as printf. Answers the status. */
int stop(int status, const char *format, ...);

/* The number of decimal digits alone; what is above `most` becomes most + 1. False where the word is no number. */
bool read_number(const char *word, uint64_t most, uint64_t *value);

/* The name of a file as messages have it. */
const char *called(const char *name);

/* Opens a file to be read, "-" for standard input; NULL after a message. */
FILE *opened(const char *name);

/* Closes it; FAILED after a message where it could not be read to its end. */
int closed(const char *name, FILE *file);

/* Reads the front of a file: DONE, or FAILED after a message. */
int take_bytes(const char *name, struct bytes *bytes);

/* Reads a plan: DONE, REFUSED or FAILED, after a message to standard error. */
int take_plan(const char *name, muruapy_plan *plan);

/* Reads and checks all schedules, before the first step is taken: DONE, REFUSED or FAILED, after a message. What
 * `schedules` gets is to be freed, whatever the answer. */
int take_schedules(char **names, int count, struct bytes **schedules);

/* ---- output.c: files that are written ---- */

/* A file to be written. `fresh` is NULL at first. */
struct output {
    const char *name;
    const uint8_t *bytes;
    size_t length;
    char *fresh; /* the name that it has until all are written */
};

/* Whether an input, "-" for standard input, is the file that an output is, by whatever names. */
bool same_file(const char *input, const char *output);

bool is_there(const char *name);

/* Writes all of the files: DONE; FAILED after a message, and older files stay as they were, but for what is written in
 * place (symbolic links, devices, pipes) and for a new name refused after others were given; MISUSED after a message,
 * and nothing is written, where one of them is the input. */
int put_files(struct output *files, size_t count, const char *input);

/* ---- points.c: stores ---- */

/* Bytes of a store that is read or written, at most: some 28 points of the largest fields, hundreds of usual ones. */
#define STORE_MOST 2097152

/* A store, zeros behind its length. */
struct store {
    size_t length;
    uint8_t at[STORE_MOST + 1];
};

/* ---- where.c: where a refusal applies ---- */

/* The place in words, and the link concerned or MURUAPY_NONE. */
struct place {
    uint16_t link;
    char words[128];
};

/* For a number of 11 to 18 that the library answered for these bytes or this value; 51 to 54; 61 to 63. */
struct place plan_place(uint32_t refusal, const struct bytes *bytes);
struct place value_place(uint32_t refusal, const muruapy_plan *plan);
struct place schedule_place(uint32_t refusal, const struct bytes *bytes);
struct place frame_place(uint32_t refusal, const struct bytes *bytes);

/* For 41 of a module that was named by this word. */
struct place module_place(const char *word, const muruapy_plan *plan);

/* For 76 to 78 that the library answered for this store and name; a point to be saved needs so many bytes. */
struct place store_place(uint32_t refusal, const struct store *store, const char *name, size_t needed);

/* Says on standard error that a file is refused, by which number, and where. Answers REFUSED. */
int refuse(const char *name, uint32_t refusal, struct place place);

/* ---- field.c: a field with its words ---- */

/* The words are as many as the ceiling; the rest is not used. */
struct held {
    muruapy_field field;
    size_t room;
    uint64_t words[MURUAPY_WORDS];
};

/* Sets up a plan that was taken. */
void set_up(const muruapy_plan *plan, struct held *held);

/* How many messages wait. */
size_t waiting(const struct held *held);

/* Takes one step; the library's answer. */
uint32_t take_step(struct held *held, uint8_t kind, uint16_t number);

/* Takes all steps of the schedules, up to one that is refused: DONE, or REFUSED after a message. */
int take_steps(char **names, int count, const struct bytes *schedules, struct held *held);

/* The ends of a directed link. */
uint16_t from_module(const muruapy_plan *plan, uint16_t directed);
uint16_t to_module(const muruapy_plan *plan, uint16_t directed);

/* Whether a step could take this waiting message. It takes the first that it can. */
bool takes(const struct held *held, uint8_t kind, uint16_t number, uint64_t word);

/* Whether both ends of each link say Branch just where the plan's tree has it; at sleepers nothing is Branch. */
bool has_tree(const muruapy_field *field);

/* ---- record.c: steps taken and recorded ---- */

/* The steps so far, three bytes each as in a schedule, and the field that they lead to. */
struct record {
    uint8_t *bytes;
    size_t steps, room;
    struct held held;
};

/* Takes a step and records it where it is not refused. */
uint32_t record_step(struct record *record, uint8_t kind, uint16_t number);

/* Take a field to rest: by rounds as the library's call does, counting them, or in an order drawn from a seed. */
uint32_t to_rest_by_rounds(struct record *record, unsigned *rounds);
uint32_t to_rest_by_chance(struct record *record, uint64_t seed);

/* Writes the schedules FILE, FILE.2 and so on, one at least, as put_files does. Says so where an older one follows
 * them. */
int put_schedules(const struct record *record, const char *file, const char *input);

/* ---- path.c: parts ---- */

/* For each module of a plan that was taken the lowest module of its part. */
void find_parts(const muruapy_plan *plan, uint16_t lowest[MURUAPY_MODULES]);

/* ---- replay.c: steps told ---- */

/* Takes and prints all steps of the schedules, numbered through from 1, up to one that is refused: its refusal, or 0. */
uint32_t tell_steps(char **names, int count, const struct bytes *schedules, struct held *held);

/* ---- words.c: messages, steps and fields in words ---- */

const char *kind_name(uint8_t kind);
const char *mark_name(uint8_t mark);
const char *step_name(uint8_t kind);

/* The kind of a step by its word as an argument; 0 for another word. */
uint8_t step_kind(const char *word);

/* These print a part of a line. */
void print_message(uint64_t word);
void print_step(uint8_t kind, uint16_t number);

/* Why a message was put back, from the field after that. */
void print_put_back(const muruapy_field *field, uint64_t word);

/* Prints the line on how many messages wait and were sent. */
void print_messages(const struct held *held);

/* Prints lines: each module, each message that waits, how many. */
void print_field(const struct held *held);

#endif
