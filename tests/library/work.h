/* A sample plan read, a rehearsal of its field, the copies of a cue: what the programs share. */
#ifndef WORK_H
#define WORK_H

#include "muruapy.h"

#include <stdio.h>
#include <stdlib.h>

static inline void need(bool holds, const char *what)
{
    if (holds)
        return;
    printf("%s\n", what);
    exit(1);
}

static inline size_t sample_bytes(const char *path, uint8_t *bytes, size_t room)
{
    FILE *in = fopen(path, "rb");
    size_t length;
    need(in != NULL, path);
    length = fread(bytes, 1, room, in);
    fclose(in);
    return length;
}

/* The step that the first waiting word needs: it is handed over, or its receiver serves. */
static inline uint8_t step_for(const muruapy_plan *plan, uint64_t word, uint16_t *number)
{
    uint16_t link = muruapy_word_link(word);
    *number = link;
    if (!muruapy_word_handed(word))
        return MURUAPY_HAND_OVER;
    *number = link % 2 ? plan->link[link / 2].lower : plan->link[link / 2].higher;
    return MURUAPY_SERVE;
}

/* The first directed link on which a copy waits, MURUAPY_NONE if there is none. */
static inline uint16_t next_copy(const muruapy_field *field, const muruapy_cue *cues)
{
    uint16_t k;
    for (k = 0; k < field->plan.links; k++) {
        int up = cues[field->plan.link[k].lower].heard, down = cues[field->plan.link[k].higher].heard;
        if (field->marks[k][0] == 1 && up != down)
            return (uint16_t)(2 * k + (up ? 0 : 1));
    }
    return MURUAPY_NONE;
}

#endif
