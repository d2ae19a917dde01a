/* Memory to lend to one call, with nothing beside it: each piece ends where a page begins that nobody may touch, or begins
 * where one ends. Reading or writing past that side, or writing what is only shown, ends the program. */
#ifndef GUARD_H
#define GUARD_H

#include <stdbool.h>
#include <stddef.h>
#include <stdint.h>

/* On which side of a piece the forbidden page lies. */
enum place { BEHIND, BEFORE };
extern enum place place;

/* A copy of the content that a call may write. NULL content: bytes of FILL. */
enum { FILL = 0xa5 };
void *lend(const void *content, size_t size);
/* A copy that may only be read. */
const void *show(const void *content, size_t size);

/* After a call: it answered what it must, all lent memory is as it was if that is a refusal (but for `told`, the piece that
 * gets the number of steps or rounds), and what lies around the pieces keeps in any case. */
void answered(const char *call, uint64_t got, uint64_t want, const void *told);
/* The same where a call has no refusal: whether lent memory must keep is told. */
void gave(const char *call, uint64_t got, uint64_t want, bool keeps);
/* The pieces are no more. */
void take_back(void);

/* Ends the program unless it holds. */
void must(bool holds, const char *what);

/* How many calls were looked at, and a number made of all that they left. */
extern unsigned long calls;
extern uint64_t digest;

/* A message where forbidden memory is touched. */
void watch(void);

#endif
