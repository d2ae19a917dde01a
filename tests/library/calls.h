/* The parts of the program calls: each calls a group of the library's functions, on guarded memory. */
#ifndef CALLS_H
#define CALLS_H

#include "guard.h"
#include "muruapy.h"

/* A file's bytes; for ever the same memory for the same file. */
struct file {
    uint8_t *bytes;
    size_t length;
};
struct file file(const char *folder, const char *name);
/* A plan of samples/, by its own reading of the bytes. */
void sample(const char *name, muruapy_plan *plan);

/* The two-module sample, as bytes. */
extern const uint8_t two_modules[15];

/* Plan values that are refused, the number of each, and 0 behind the last. */
extern const struct refused_plan {
    uint32_t number;
    uint16_t modules, links;
    muruapy_link link[2];
} refused_plans[];
void refused_value(const struct refused_plan *from, muruapy_plan *plan);

void plan_calls(void);
void message_calls(void);
void schedule_calls(void);
void path_calls(void);
void field_calls(bool whole);
void job_calls(bool whole, const char *reports);
void preview_calls(bool whole);
void cue_calls(bool whole);
void point_calls(bool whole);
void blank_calls(bool whole);

#endif
