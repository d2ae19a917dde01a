/* Files that are read, with a bound, every failure seen; and numbers. */
#include "command.h"

#include <errno.h>
#include <stdarg.h>
#include <stdlib.h>
#include <string.h>

int stop(int status, const char *format, ...)
{
    va_list rest;
    va_start(rest, format);
    fputs("muruapy: ", stderr);
    vfprintf(stderr, format, rest);
    fputc('\n', stderr);
    va_end(rest);
    return status;
}

bool read_number(const char *word, uint64_t most, uint64_t *value)
{
    uint64_t sum = 0;
    bool over = false;
    if (*word == 0)
        return false;
    for (; *word; word++) {
        if (*word < '0' || *word > '9')
            return false;
        uint64_t digit = (uint64_t)(*word - '0');
        over = over || sum > most / 10 || sum * 10 > most - digit;
        if (!over)
            sum = sum * 10 + digit;
    }
    *value = over ? most + 1 : sum;
    return true;
}

const char *called(const char *name)
{
    return strcmp(name, "-") == 0 ? "standard input" : name;
}

FILE *opened(const char *name)
{
    if (strcmp(name, "-") == 0)
        return stdin;
    FILE *file = fopen(name, "rb");
    if (!file)
        stop(FAILED, "%s: %s", name, strerror(errno));
    return file;
}

int closed(const char *name, FILE *file)
{
    int bad = ferror(file);
    if (bad)
        stop(FAILED, "%s: it cannot be read: %s", called(name), strerror(errno));
    if (file != stdin)
        fclose(file);
    return bad ? FAILED : DONE;
}

int take_bytes(const char *name, struct bytes *bytes)
{
    FILE *file = opened(name);
    if (!file)
        return FAILED;
    bytes->length = fread(bytes->at, 1, ENOUGH, file);
    return closed(name, file);
}

int take_plan(const char *name, muruapy_plan *plan)
{
    static struct bytes bytes;
    if (take_bytes(name, &bytes) != DONE)
        return FAILED;
    uint32_t refusal = muruapy_plan_read(bytes.at, bytes.length, plan);
    return refusal == MURUAPY_TAKEN ? DONE : refuse(name, refusal, plan_place(refusal, &bytes));
}

int take_schedules(char **names, int count, struct bytes **schedules)
{
    struct bytes *all = *schedules = calloc((size_t)count, sizeof *all);
    if (!all && count > 0)
        return stop(FAILED, "no memory for %d schedules", count);
    for (int i = 0; i < count; i++) {
        if (take_bytes(names[i], &all[i]) != DONE)
            return FAILED;
        uint32_t refusal = muruapy_schedule_check(all[i].at, all[i].length);
        if (refusal != MURUAPY_TAKEN)
            return refuse(names[i], refusal, schedule_place(refusal, &all[i]));
    }
    return DONE;
}
