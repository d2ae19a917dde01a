/* Muruapy: link trees for the radio modules of a display field, from C.
 *
 * A plan says which modules there are and how well they hear each other. The modules of a field come, by messages
 * between neighbours, to one minimum spanning tree of the plan's links, or to one for each part where links do not join
 * all modules (below, "the tree" is all of these together); this library checks, reads and writes plans, frames
 * and schedules, builds the tree, tells the way between two modules in it and its worst link, takes a field through its
 * messages step by step, shows what a step would send, sends cues down the tree that the field comes to, and saves fields
 * under names to come back to. Formats, numbers and the rules of a module are told in docs/FORMATS.md, installed as
 * share/doc/muruapy/FORMATS.md.
 *
 * A plan may be in several parts, as on both banks of a river: modules are in one part if links lead from one to the
 * other. A module without links is a part of its own. Each part comes to its own tree once one of its modules is woken.
 *
 * A plan may have no module and no link: the blank plan, a show before modules are placed. It is taken as any other is;
 * only, nobody is there to be woken or to send a cue. Memory that is all zeros is the blank plan, or a field of it, so a
 * plan or a field that was cleared and never filled in is taken too.
 *
 * Linking. `cc -Iinclude program.c libmuruapy.a`, or `pkg-config --cflags --libs muruapy` once installed. The archive
 * needs memcpy, memmove and memset and nothing else. It is for x86-64 with the System V calling convention (Linux).
 *
 * Proofs. Each function that the archive exports is proved to answer and to leave in lent memory what a definition says,
 * for every input, refusals included. Not proved: what is `static inline` here (it only passes members on), and the
 * caller.
 *
 * Answers. A function of type uint32_t, but for muruapy_link_cost and muruapy_ceiling, answers a refusal: 0 for taken,
 * else the first number of `enum muruapy_refusal` that applies. muruapy_path, muruapy_preview, muruapy_cue_deliver and
 * muruapy_find have it as the first of several numbers.
 * A REFUSED CALL ALTERS NOTHING: every lent byte, word, field, record and number is as it was, but the number of steps
 * or rounds done is always told. In a run and in rounds the steps before the refused one stand.
 *
 * Memory. Nothing is allocated and nothing is kept between calls. What is lent to one call must not overlap, but for two
 * pointers to const. A pointer must point at memory of the size that is told for it, also where a length is 0: NULL is
 * never allowed. (The data() of an empty C++ vector may be NULL; pass the address of any object then.)
 *
 * Threads. Calls on different memory may run at the same time. Two calls that share memory may do so only if neither
 * writes it.
 *
 * Stack, as measured, rounded up to pages: a call uses at most MURUAPY_STACK_PLAN bytes of it on plans, paths, frames,
 * schedules and messages, MURUAPY_STACK_FIELD on a field, MURUAPY_STACK_JOB for the whole job, MURUAPY_STACK_POINT on a
 * store. */
#ifndef MURUAPY_H
#define MURUAPY_H

#include <stdbool.h>
#include <stddef.h>
#include <stdint.h>

/* The major number rises when the same plan may come to another tree (2 orders links by the larger reading), or when a
 * struct that a caller lends or gets changes, so that a program must be compiled anew (3 has the waking link in
 * muruapy_module, 4 has `way` in muruapy_path_found, and takes plans in several parts).
 * The minor number rises when there is more to call, or when something is taken that was refused. */
#define MURUAPY_VERSION_MAJOR 4
#define MURUAPY_VERSION_MINOR 0
#define MURUAPY_VERSION "4.0"

#ifdef __cplusplus
extern "C" {
#endif

/* Limits. */
#define MURUAPY_MODULES 192     /* modules of a plan, at most */
#define MURUAPY_LINKS 600       /* links of a plan, at most */
#define MURUAPY_WIDTH 10        /* numbers of a module's record, muruapy_module */
#define MURUAPY_READING 2000    /* the largest reading, in tenths of a decibel */
#define MURUAPY_NONE 65535      /* "none" where a link's number could stand */
#define MURUAPY_WORDS 7920      /* words that are enough for every plan: the largest ceiling */
#define MURUAPY_PLAN_BYTES 4807 /* bytes of the longest plan */
#define MURUAPY_FRAME_BYTES 6   /* bytes of every frame */
#define MURUAPY_STEPS 21845     /* steps of a schedule, at most */
#define MURUAPY_PATH_LINKS 191  /* links of a path in the tree, at most: numbers that are enough for every path */
#define MURUAPY_SENDS 191       /* messages that one step sends, at most: words that are enough for every preview */
#define MURUAPY_REPORT_BYTES 47157 /* bytes that are enough for every report */
#define MURUAPY_NAME 12            /* letters of a point's name, at most */
#define MURUAPY_RECORD_BYTES 74427 /* bytes of the longest record of a store: enough for one point of any field */

/* Bytes of stack that a call uses, at most. */
#define MURUAPY_STACK_PLAN 12288  /* plans, paths, frames, schedules, messages: 12 KB */
#define MURUAPY_STACK_FIELD 36864 /* fields, their report, previews, cues: 36 KB */
#define MURUAPY_STACK_JOB 77824   /* muruapy_job: 76 KB */
#define MURUAPY_STACK_POINT 98304 /* named points: 96 KB */

/* Why a call was refused; muruapy_refusal_text has a sentence for each. */
enum muruapy_refusal {
    MURUAPY_TAKEN = 0, /* not refused */
    /* the bytes of a plan; from 14 on its value too; 16 to 18 of one link, then of the next */
    MURUAPY_PLAN_SHORT = 11,   /* fewer than 3 bytes */
    MURUAPY_PLAN_VERSION = 12, /* the version byte */
    MURUAPY_PLAN_LENGTH = 13,  /* the length */
    MURUAPY_PLAN_MODULES = 14, /* too many modules */
    MURUAPY_PLAN_LINKS = 15,   /* the number of links */
    MURUAPY_LINK_ENDS = 16,    /* the two modules of a link */
    MURUAPY_LINK_ORDER = 17,   /* the order of the links */
    MURUAPY_LINK_READING = 18, /* a reading */
    /* what the caller lends */
    MURUAPY_TREE_BUFFER = 20,   /* not one byte for each link */
    MURUAPY_TOO_FEW_WORDS = 21, /* fewer words than the ceiling; in restoring behind 76 and 77 */
    MURUAPY_PLAN_BUFFER = 22,   /* fewer bytes than the plan's */
    /* a field; never where field and words are as setup and the calls since then left them */
    MURUAPY_FIELD = 31,          /* it is none */
    MURUAPY_RESPONSE = 32,       /* a message without a response */
    MURUAPY_CEILING_PASSED = 33, /* the sent count would pass the ceiling */
    /* a step; 41 for a path and the modules near one too, 42 for a delivery of a cue */
    MURUAPY_NO_MODULE = 41,            /* no module of this number */
    MURUAPY_NO_DIRECTED_LINK = 42,     /* no directed link of this number */
    MURUAPY_AWAKE = 43,                /* the module to wake is awake */
    MURUAPY_NOTHING_TO_HAND_OVER = 44, /* no message of the directed link is in the air */
    MURUAPY_EMPTY_QUEUE = 45,          /* the module to serve has no message */
    /* the bytes of a schedule, in this order; 54 for a step given alone too */
    MURUAPY_SCHEDULE_SHORT = 51,   /* fewer than 3 bytes */
    MURUAPY_SCHEDULE_VERSION = 52, /* the version byte */
    MURUAPY_SCHEDULE_LENGTH = 53,  /* the length */
    MURUAPY_STEP_KIND = 54,        /* the kind of a step */
    /* a frame, in this order */
    MURUAPY_FRAME_SIZE = 61,   /* not 6 bytes */
    MURUAPY_FRAME_HEAD = 62,   /* the version byte or the length */
    MURUAPY_MESSAGE = 63,      /* no message */
    MURUAPY_FRAME_BUFFER = 64, /* a lent buffer of not 6 bytes */
    /* a cue, in this order, behind 31; at a delivery 42 comes behind them */
    MURUAPY_NO_TREE = 71,   /* the marks are not those of the tree */
    MURUAPY_NO_SENDER = 72, /* no module of the sender's number */
    MURUAPY_CUES = 73,      /* the cue records: too few, or not as a start and deliveries leave them */
    /* a preview, behind all that its step is refused by */
    MURUAPY_PREVIEW_BUFFER = 75, /* fewer words than the step would send */
    /* a store of named points, in this order; in saving behind 31 */
    MURUAPY_STORE = 76,      /* it is none: not whole records with zeros behind, or one that no saving leaves */
    MURUAPY_NAME_WRONG = 77, /* no name; in finding and restoring also one that the store does not hold */
    MURUAPY_STORE_FULL = 78, /* fewer bytes than the records would take */
    /* a path in the tree, or the modules near one; behind 14 to 18 and 41 */
    MURUAPY_PATH_BUFFER = 79 /* fewer numbers than the path has links, or fewer bytes than there are modules */
};

/* One sentence for a refusal's number, without a full stop; for 0 "taken", for any other number "no refusal has this
 * number". */
static inline const char *muruapy_refusal_text(uint32_t number)
{
    switch (number) {
    case MURUAPY_TAKEN: return "taken";
    case MURUAPY_PLAN_SHORT: return "the plan has fewer than 3 bytes";
    case MURUAPY_PLAN_VERSION: return "the plan's version byte is not 1";
    case MURUAPY_PLAN_LENGTH: return "the plan's length is not that of the bytes behind it, or is below 4";
    case MURUAPY_PLAN_MODULES: return "the plan has more than 192 modules";
    case MURUAPY_PLAN_LINKS: return "the plan has more than 600 links, or as many as do not fit its length";
    case MURUAPY_LINK_ENDS: return "a link's lower module is not below its higher one, or the higher one is no module";
    case MURUAPY_LINK_ORDER: return "a link does not come after the link before it";
    case MURUAPY_LINK_READING: return "a reading is above 2000";
    case MURUAPY_TREE_BUFFER: return "the tree's buffer has not one byte for each link";
    case MURUAPY_TOO_FEW_WORDS: return "fewer words are lent than the ceiling of the plan that is set up or restored";
    case MURUAPY_PLAN_BUFFER: return "the buffer is too short for the plan";
    case MURUAPY_FIELD: return "this is no field: its plan, words, values, marks or sent count are not as they must be";
    case MURUAPY_RESPONSE: return "the module cannot answer this message in its state";
    case MURUAPY_CEILING_PASSED: return "more messages would be sent than the ceiling";
    case MURUAPY_NO_MODULE: return "there is no module of this number";
    case MURUAPY_NO_DIRECTED_LINK: return "there is no directed link of this number";
    case MURUAPY_AWAKE: return "the module is awake already";
    case MURUAPY_NOTHING_TO_HAND_OVER: return "the directed link has nothing to hand over";
    case MURUAPY_EMPTY_QUEUE: return "the module's queue is empty";
    case MURUAPY_SCHEDULE_SHORT: return "the schedule has fewer than 3 bytes";
    case MURUAPY_SCHEDULE_VERSION: return "the schedule's version byte is not 1";
    case MURUAPY_SCHEDULE_LENGTH: return "the schedule's length is not that of the bytes behind it, or no multiple of 3";
    case MURUAPY_STEP_KIND: return "a step's kind is not 1, 2 or 3";
    case MURUAPY_FRAME_SIZE: return "the frame has not 6 bytes";
    case MURUAPY_FRAME_HEAD: return "the frame's version byte is not 1, or its length is not 3";
    case MURUAPY_MESSAGE: return "header and carried number are those of no message";
    case MURUAPY_FRAME_BUFFER: return "the frame's buffer has not 6 bytes";
    case MURUAPY_NO_TREE: return "an end of a tree link is not marked Branch, or an end of another link is";
    case MURUAPY_NO_SENDER: return "there is no module of the sender's number";
    case MURUAPY_CUES: return "the cue records are fewer than the modules, or not as a start and deliveries leave them";
    case MURUAPY_PREVIEW_BUFFER: return "the buffer is too short for the words that the step would send";
    case MURUAPY_STORE: return "the store is not whole records with zeros behind, or a record's name or field is wrong";
    case MURUAPY_NAME_WRONG: return "the name is not 1 to 12 letters a to z, or the store has no point of this name";
    case MURUAPY_STORE_FULL: return "the store is too short for the point to be saved";
    case MURUAPY_PATH_BUFFER: return "the buffer is shorter than the path, or than the modules to be marked";
    default: return "no refusal has this number";
    }
}

/* ---- Plans ---- */

/* A link between two modules, with the path loss that each end reads, in tenths of a decibel. */
typedef struct muruapy_link {
    uint16_t lower;  /* the module of the lower number */
    uint16_t higher; /* the other one */
    uint16_t near;   /* reading at the lower module */
    uint16_t far;    /* reading at the higher module */
} muruapy_link;

/* A plan: the numbers of its file, in the file's order. All zeros is the blank plan. */
typedef struct muruapy_plan {
    uint16_t modules; /* how many modules, 0 to 192 */
    uint16_t links;   /* how many links, 0 to 600 */
    muruapy_link link[MURUAPY_LINKS]; /* the first `links` count, in rising order of (lower, higher), no pair twice */
} muruapy_plan;

/* Checks the bytes of a plan.
 *
 * bytes   the plan's bytes, only read
 * length  how many there are, any number; all of them have to be the plan
 *
 * Answers 0, or 11 to 18. */
uint32_t muruapy_plan_check(const uint8_t *bytes, size_t length);

/* Reads a plan. The links behind its last one become 0.
 *
 * bytes, length  as above
 * plan           gets the plan
 *
 * Answers 0, or 11 to 18. */
uint32_t muruapy_plan_read(const uint8_t *bytes, size_t length, muruapy_plan *plan);

/* Checks a plan's value.
 *
 * plan  any numbers, only read
 *
 * Answers 0, or 14 to 18. */
uint32_t muruapy_plan_value_check(const muruapy_plan *plan);

/* Writes a plan.
 *
 * plan   any numbers, only read
 * bytes  gets the plan at its front, 7 + 8 * links bytes; the bytes behind keep
 * room   how many bytes there are
 *
 * Answers 0, or 14 to 18, or 22. */
uint32_t muruapy_plan_write(const muruapy_plan *plan, uint8_t *bytes, size_t room);

/* The cost of a link, by which the tree is chosen first.
 *
 * plan  any numbers, only read; it is not checked
 * link  the link's number, any number
 *
 * Answers the larger of the link's two readings, or MURUAPY_NONE where `link` is not below both the plan's links and
 * 600. The cost of a link of a plan that is taken is 0 to 2000, below MURUAPY_NONE. Links of equal cost are ordered by the
 * sum of their readings, then by number. Refuses nothing. */
uint32_t muruapy_link_cost(const muruapy_plan *plan, uint16_t link);

/* The ceiling: how many messages a field sends at most, and how many words it needs.
 *
 * modules  how many modules there are, any number
 * links    how many links, any number
 *
 * Answers 5 * modules * log + 2 * links, where log is the whole part of the binary logarithm of modules (0 for 0). So
 * the blank plan's is 0, and its field needs no word. Refuses nothing. */
uint32_t muruapy_ceiling(uint16_t modules, uint16_t links);

/* The minimum spanning tree of a plan, worked out centrally: of a plan in several parts the trees of all of them.
 *
 * plan  any numbers, only read
 * tree  gets 1 for a link of the tree and 0 for another, by link number
 * room  how many bytes there are: just as many as links, 0 for the blank plan
 *
 * Answers 0, or 14 to 18, or 20. */
uint32_t muruapy_tree(const muruapy_plan *plan, uint8_t *tree, size_t room);

/* ---- Paths in the tree ---- */

/* What a path comes to. */
typedef struct muruapy_path_found {
    uint32_t refusal; /* 0 for taken, else the refusal */
    uint32_t way;     /* 1 if links join the two modules; 0 for "no way", an answer and no refusal, and beside a refusal */
    uint16_t length;  /* how many links the path has: 0 for the same module twice, without a way and beside a refusal */
    uint16_t worst;   /* the latest link of the path, in the order of muruapy_link_cost; MURUAPY_NONE where length is 0 */
} muruapy_path_found;

/* The way between two modules over links of the tree, and its worst link: the one to raise an antenna for. No way between
 * two different modules, over any links of the plan, has an earlier latest link. The path from `to` to `from` is this one
 * turned round. Between modules of different parts there is no way: then nothing is written, and no room is needed.
 *
 * plan   any numbers, only read
 * from   the first module, any number
 * to     the second one, any number; it may be the same
 * links  gets the path at its front, the numbers of its links from the first module on; the numbers behind keep
 * room   how many numbers there are, any: MURUAPY_PATH_LINKS are always enough, none for the same module twice
 *
 * Answers with refusal 0, way 1, the length and the worst link; or with refusal 0, way 0, length 0 and worst MURUAPY_NONE,
 * which is "no way"; or with refusal 14 to 18, 41 (either module) or 79, way 0, length 0 and worst MURUAPY_NONE. The blank
 * plan meets 41, since it has no module. */
muruapy_path_found muruapy_path(const muruapy_plan *plan, uint16_t from, uint16_t to, uint16_t *links, size_t room);

/* The modules within some branches of one: those whose path from it has at most h links. A branch is a link of the tree.
 *
 * plan   any numbers, only read
 * from   the module, any number
 * h      how many links at most, any number: 0 for the module alone; from modules - 1 on it is all of its part
 * marks  gets, at its front, a byte for each module by number: 1 within h branches, 0 otherwise, and in other parts; the
 *        bytes behind keep
 * room   how many bytes there are: as many as modules or more; MURUAPY_MODULES are always enough
 *
 * Answers 0, or 14 to 18, 41 or 79. The blank plan meets 41, since it has no module. */
uint32_t muruapy_near(const muruapy_plan *plan, uint16_t from, uint32_t h, uint8_t *marks, size_t room);

/* ---- Messages and frames ---- */

/* The kinds of messages. A message is a header byte, made of a kind, a level and a Find bit, and a carried number, the
 * number of a link or MURUAPY_NONE. Beside each kind: level; Find bit; carried number. */
enum muruapy_kind {
    MURUAPY_CONNECT = 1,    /* 0 to 7; 0; none */
    MURUAPY_INITIATE = 2,   /* 1 to 7; 0 or 1; the identity of a fragment, which is its core link, below 600 */
    MURUAPY_TEST = 3,       /* 1 to 7; 0; an identity, below 600 */
    MURUAPY_ACCEPT = 4,     /* 0; 0; none */
    MURUAPY_REJECT = 5,     /* 0; 0; none */
    MURUAPY_REPORT = 6,     /* 0; 0; the best weight: the link that has it, below 600, or none */
    MURUAPY_CHANGE_ROOT = 7 /* 0; 0; none */
};

/* Makes a header byte.
 *
 * kind   0 to 7; those of messages are in `enum muruapy_kind`
 * level  0 to 7
 * find   the Find bit, 0 or 1
 *
 * Answers the header byte, or 255, which no message has, where one of them is more. Refuses nothing. */
uint8_t muruapy_header(uint8_t kind, uint16_t level, uint8_t find);

/* The parts of a header byte.
 *
 * header  any byte
 *
 * Answer the kind (0 to 7), the level (0 to 7), the Find bit (0 or 1). */
uint8_t muruapy_header_kind(uint8_t header);
uint16_t muruapy_header_level(uint8_t header);
uint8_t muruapy_header_find(uint8_t header);

/* Whether two numbers are a message.
 *
 * header   its header byte, any byte
 * carried  its carried number, any number
 *
 * Answers true exactly for those of the list above; bit 7 of the header is 0 in all of them. */
bool muruapy_message_listed(uint8_t header, uint16_t carried);

/* Checks the bytes of a radio frame.
 *
 * bytes   the frame's bytes, only read
 * length  how many there are, any number
 *
 * Answers 0, or 61 to 63. */
uint32_t muruapy_frame_check(const uint8_t *bytes, size_t length);

/* Reads a frame.
 *
 * bytes, length  as above
 * header         gets the message's header byte
 * carried        gets its carried number
 *
 * Answers 0, or 61 to 63. */
uint32_t muruapy_frame_read(const uint8_t *bytes, size_t length, uint8_t *header, uint16_t *carried);

/* Writes the frame of a message.
 *
 * header, carried  the message, any numbers
 * bytes            gets the frame
 * room             how many bytes there are: 6
 *
 * Answers 0, or 63, or 64. */
uint32_t muruapy_frame_write(uint8_t header, uint16_t carried, uint8_t *bytes, size_t room);

/* ---- Fields ---- */

/* What a module knows. A link is told by its number, below the plan's links; none is MURUAPY_NONE; own links are those
 * that end at the module. Other numbers than those told below are refused by 31. The waking link is the one whose
 * message woke the module, none where a wake step did. Who woke the module is at the other end of that link: from setup,
 * going on like this from any awake module ends at one that a wake step woke, and comes to no module twice. (In a field
 * that was made by hand the waking links may run in a circle.) */
typedef struct muruapy_module {
    uint16_t status;      /* 0 asleep, 1 Find, 2 Found */
    uint16_t level;       /* 0 to the whole part of the binary logarithm of the number of modules */
    uint16_t identity;    /* of its fragment: a link or none; none exactly at level 0 */
    uint16_t best_weight; /* the link that has it, or none */
    uint16_t best_edge;   /* an own link or none */
    uint16_t test_edge;   /* an own link or none */
    uint16_t in_branch;   /* an own link or none */
    uint16_t find_count;  /* 0 to the number of own links */
    uint16_t halted;      /* 0 or 1 */
    uint16_t waking;      /* the waking link: an own link or none; none while asleep */
} muruapy_module;

/* A field. The messages that wait lie in words of the caller's, at least as many as the ceiling, beside the field: from
 * the front and without gaps, 0 behind the last. All zeros, with words that are all 0 or with none, is a field of the
 * blank plan: it is at rest, and nobody can be woken. */
typedef struct muruapy_field {
    muruapy_plan plan;                       /* its plan */
    muruapy_module modules[MURUAPY_MODULES]; /* by number; the first plan.modules count */
    uint8_t marks[MURUAPY_LINKS][2];         /* marks[k]: what link k's lower module, then its higher one, marks it: 0
                                                Basic, 1 Branch, 2 Rejected; the first plan.links count */
    uint32_t sent;                           /* how many messages were sent: the ceiling at most */
} muruapy_field;

/* What a preview of a step comes to. */
typedef struct muruapy_previewed {
    uint32_t refusal; /* 0 for taken, else the refusal */
    uint32_t count;   /* how many messages the step would send; 0 beside a refusal */
} muruapy_previewed;

/* What a module has heard of a cue. The caller lends a record for each module, by number. */
typedef struct muruapy_cue {
    uint8_t heard; /* 1 if it has heard, else 0, and then all else is 0 and none */
    uint16_t cue;  /* the cue, any number */
    uint16_t link; /* the link it came by; none at the sender */
    uint16_t hops; /* how many links from the sender; 0 there */
} muruapy_cue;

/* What a delivery comes to. */
typedef struct muruapy_delivery {
    uint32_t refusal; /* 0 for taken, else the refusal */
    uint32_t heard;   /* 1 if a module heard; 0 if no copy waited (idle), and beside a refusal */
} muruapy_delivery;

/* What finding a point comes to. */
typedef struct muruapy_found {
    uint32_t refusal; /* 0 for taken, else the refusal */
    size_t at;        /* the place of the point's record in the store, in bytes; 0 beside a refusal */
    size_t size;      /* how many bytes the record has; 0 beside a refusal */
} muruapy_found;

/* The kinds of steps, and what a step's number is. */
enum muruapy_step_kind {
    MURUAPY_WAKE = 1,      /* wakes a module, which must be asleep; the module's number */
    MURUAPY_HAND_OVER = 2, /* moves a message from the air to its receiver's queue; the directed link's number */
    MURUAPY_SERVE = 3      /* a module takes the first message of its queue; the module's number */
};

/* The parts of a word.
 *
 * word  any word
 *
 * Answer the message's header byte, its carried number, the directed link that it goes by (2 * k from link k's lower
 * module to the higher one, 2 * k + 1 back), and whether it has been handed over. */
uint8_t muruapy_word_header(uint64_t word);
uint16_t muruapy_word_carried(uint64_t word);
uint16_t muruapy_word_link(uint64_t word);
bool muruapy_word_handed(uint64_t word);

/* How many words wait.
 *
 * words  any words, only read
 * room   how many there are
 *
 * Answers how many stand before the first that is 0: at rest none, `room` where no word is 0. */
size_t muruapy_waiting(const uint64_t *words, size_t room);

/* The exports below take a field in its parts. Each does what the inline function of the same name without `_parts`
 * does, which is told there: the lengths that it asks for, what it leaves, its refusals and answers. That one passes
 *
 * plan     &field->plan; in setup and the job the plan that is given
 * held     &field->plan, in setup and the job
 * modules  field->modules, all 192
 * marks    field->marks, all 600
 * sent     &field->sent, or the number itself where it is only read
 *
 * and its other arguments as they are. Use the inline functions. */
uint32_t muruapy_setup_parts(const muruapy_plan *plan, muruapy_plan *held, muruapy_module *modules, uint8_t (*marks)[2],
                             uint32_t *sent, uint64_t *words, size_t room);
uint32_t muruapy_field_check_parts(const muruapy_plan *plan, const muruapy_module *modules, const uint8_t (*marks)[2],
                                   uint32_t sent, const uint64_t *words, size_t room);
uint32_t muruapy_step_parts(const muruapy_plan *plan, muruapy_module *modules, uint8_t (*marks)[2], uint32_t *sent,
                            uint64_t *words, size_t room, uint8_t kind, uint16_t number);
muruapy_previewed muruapy_preview_parts(const muruapy_plan *plan, const muruapy_module *modules,
                                        const uint8_t (*marks)[2], uint32_t sent, const uint64_t *words, size_t room,
                                        uint8_t kind, uint16_t number, uint64_t *buffer, size_t places);
uint32_t muruapy_run_parts(const muruapy_plan *plan, muruapy_module *modules, uint8_t (*marks)[2], uint32_t *sent,
                           uint64_t *words, size_t room, const uint8_t *bytes, size_t length, size_t *steps);
uint32_t muruapy_rounds_parts(const muruapy_plan *plan, muruapy_module *modules, uint8_t (*marks)[2], uint32_t *sent,
                              uint64_t *words, size_t room, uint16_t limit, uint16_t *rounds);
uint32_t muruapy_job_parts(const muruapy_plan *plan, muruapy_plan *held, muruapy_module *modules, uint8_t (*marks)[2],
                           uint32_t *sent, uint64_t *words, size_t room, uint16_t *rounds);
size_t muruapy_report_parts(const muruapy_plan *plan, const muruapy_module *modules, const uint8_t (*marks)[2],
                            uint32_t sent, uint16_t rounds, uint8_t *text, size_t room);
uint32_t muruapy_save_parts(const muruapy_plan *plan, const muruapy_module *modules, const uint8_t (*marks)[2],
                            uint32_t sent, const uint64_t *words, size_t room, const uint8_t *name, size_t letters,
                            uint8_t *store, size_t size);
uint32_t muruapy_restore_parts(const uint8_t *store, size_t size, const uint8_t *name, size_t letters,
                               muruapy_plan *plan, muruapy_module *modules, uint8_t (*marks)[2], uint32_t *sent,
                               uint64_t *words, size_t room);

/* The two on cues take a whole field by value: they only read it, and this is the form that is proved. The inline
 * functions of the same names without `_value` pass *field, and their other arguments as they are. Use those. */
uint32_t muruapy_cue_start_value(muruapy_field field, const uint64_t *words, size_t room, muruapy_cue *cues,
                                 size_t count, uint16_t sender, uint16_t cue);
muruapy_delivery muruapy_cue_deliver_value(muruapy_field field, const uint64_t *words, size_t room, muruapy_cue *cues,
                                           size_t count, uint16_t link);

/* Sets up the field of a plan: all modules asleep, no word waiting.
 *
 * plan   any numbers, only read; not the plan within `field`
 * field  gets the field, the plan too, with 0 for the links behind its last one
 * words  all become 0
 * room   how many words there are: the ceiling or more; for the blank plan any number
 *
 * Answers 0, or 14 to 18, or 21. */
static inline uint32_t muruapy_setup(const muruapy_plan *plan, muruapy_field *field, uint64_t *words, size_t room)
{
    return muruapy_setup_parts(plan, &field->plan, field->modules, field->marks, &field->sent, words, room);
}

/* Checks a field and its words.
 *
 * field  the field, however it was made, only read
 * words  its words, any, only read
 * room   how many words there are, any number
 *
 * Answers 0, or 31: then muruapy_step, muruapy_run and muruapy_rounds on this field are refused by 31, and so are
 * muruapy_preview, muruapy_cue_start, muruapy_cue_deliver and muruapy_save. Of a field without modules the number of
 * links, the sent count and all words must be 0, and nothing else is looked at. */
static inline uint32_t muruapy_field_check(const muruapy_field *field, const uint64_t *words, size_t room)
{
    return muruapy_field_check_parts(&field->plan, field->modules, field->marks, field->sent, words, room);
}

/* Takes one step.
 *
 * field   the field, however it was made; gets what the step leaves, but for its plan, which is only read
 * words   its words, any; get what the step leaves
 * room    how many words there are, any number
 * kind    of `enum muruapy_step_kind`; any other is refused by 54
 * number  of the module or the directed link, any number
 *
 * Answers 0, or 31, 54, 41 to 45, 32 or 33 (31 to 33 never where field and words are as setup and the calls since then
 * left them). */
static inline uint32_t muruapy_step(muruapy_field *field, uint64_t *words, size_t room, uint8_t kind, uint16_t number)
{
    return muruapy_step_parts(&field->plan, field->modules, field->marks, &field->sent, words, room, kind, number);
}

/* Shows what a step would do, and does not take it. What it answers and writes is what muruapy_step would come to on a
 * copy: the same refusal; else as many messages as the sent count would grow by, in the order in which they would wait. A
 * hand-over sends none; a message that is put back is not sent, and the Connect of a module that wakes is.
 *
 * field   the field, however it was made, only read
 * words   its words, any, only read
 * room    how many words there are, any number
 * kind    of `enum muruapy_step_kind`; any other is refused by 54
 * number  of the module or the directed link, any number
 * buffer  gets the words of the messages at its front, as they would wait in the air (muruapy_word_header and its like
 *         tell their parts); the words behind keep
 * places  how many words the buffer has, any number: MURUAPY_SENDS are always enough, none for a step that sends nothing
 *
 * Answers with refusal 0 and the count of messages; or with refusal 31, 54, 41 to 45, 32 or 33, as the step would be
 * refused, or 75 (too few places), and count 0. */
static inline muruapy_previewed muruapy_preview(const muruapy_field *field, const uint64_t *words, size_t room,
                                                uint8_t kind, uint16_t number, uint64_t *buffer, size_t places)
{
    return muruapy_preview_parts(&field->plan, field->modules, field->marks, field->sent, words, room, kind, number,
                                 buffer, places);
}

/* Runs a schedule, up to its first step that is refused.
 *
 * field, words, room  as above
 * bytes               the schedule's bytes, only read
 * length              how many there are, any number
 * steps               gets the number of steps done; 0 where the call is refused whole, by 31 or 51 to 54
 *
 * Answers 0, or the refusal: of the whole call (31, 51 to 54), or of the step that ended it (41 to 45, 32, 33); then
 * the steps before it stand. */
static inline uint32_t muruapy_run(muruapy_field *field, uint64_t *words, size_t room, const uint8_t *bytes,
                                   size_t length, size_t *steps)
{
    return muruapy_run_parts(&field->plan, field->modules, field->marks, &field->sent, words, room, bytes, length, steps);
}

/* Runs rounds until the field is at rest. A round hands over all that waits in the air and lets each module serve all
 * that its queue then holds.
 *
 * field, words, room  as above
 * limit               rounds at most, any number
 * rounds              gets the number of rounds completed; 0 where the call is refused by 31
 *
 * Answers 0 at rest or at the limit, or 31, or the refusal of the step that ended it (32 or 33; neither from setup);
 * then the steps before it stand. */
static inline uint32_t muruapy_rounds(muruapy_field *field, uint64_t *words, size_t room, uint16_t limit,
                                      uint16_t *rounds)
{
    return muruapy_rounds_parts(&field->plan, field->modules, field->marks, &field->sent, words, room, limit, rounds);
}

/* The whole job: sets up the field of a plan, wakes the lowest module of each part, runs rounds to rest. Then every module
 * marks exactly the links that muruapy_tree writes. In the blank plan nobody is woken.
 *
 * plan, field, words, room  as for muruapy_setup; field and words get what the last round leaves
 * rounds                    gets the number of rounds; 0 for the blank plan, and where the call is refused
 *
 * Answers 0, or 14 to 18, or 21. */
static inline uint32_t muruapy_job(const muruapy_plan *plan, muruapy_field *field, uint64_t *words, size_t room,
                                   uint16_t *rounds)
{
    return muruapy_job_parts(plan, &field->plan, field->modules, field->marks, &field->sent, words, room, rounds);
}

/* The report of a field as text, as the command `muruapy show` prints it. It has a core line for each part; of a field
 * whose plan would be refused it has one, `core none`.
 *
 * field   any numbers, only read
 * rounds  the number for its last line, any
 * text    gets the text at its front, without a 0 behind it; the bytes behind keep
 * room    how many bytes there are: MURUAPY_REPORT_BYTES are always enough; with fewer the text may be cut off
 *
 * Answers the number of bytes put. Refuses nothing. */
static inline size_t muruapy_report(const muruapy_field *field, uint16_t rounds, uint8_t *text, size_t room)
{
    return muruapy_report_parts(&field->plan, field->modules, field->marks, field->sent, rounds, text, room);
}

/* ---- Cues ---- */

/* Starts a cue at a module: of as many records as there are modules, the sender's says that it has heard, all others
 * that they have not. A copy then waits on each branch of the sender. A cue that was under way is gone.
 *
 * field   the field, however it was made, only read: it must be marked with the plan's tree, as the job leaves it;
 *         while a part of the plan is not, no cue can be sent in any
 * words   its words, any, only read
 * room    how many words there are, any number
 * cues    the records, any; the first field->plan.modules are written, those behind keep
 * count   how many records there are: the number of modules or more
 * sender  the number of the module that the cue starts from, any number
 * cue     the cue, any number
 *
 * Answers 0, or 31, 71, 72 or 73 (too few records). A field of the blank plan that 31 lets pass meets 72, since no
 * module can send. */
static inline uint32_t muruapy_cue_start(const muruapy_field *field, const uint64_t *words, size_t room,
                                         muruapy_cue *cues, size_t count, uint16_t sender, uint16_t cue)
{
    return muruapy_cue_start_value(*field, words, room, cues, count, sender, cue);
}

/* Delivers the copy that waits on a directed link: the module there hears the cue, by this link and a hop further than
 * the one before it, and passes a copy to each other branch of its own. A copy waits where the link is in the tree, the
 * module that the directed link leaves has heard, and the one that it leads to has not. In any order of deliveries each
 * module hears the cue once at most; when no copy waits, all of the sender's part have heard it, and nobody else.
 *
 * field, words, room  as above
 * cues                the records, as a start and the deliveries since then left them; only that of the module that
 *                     hears is written
 * count               how many records there are: the number of modules or more; those behind are not looked at
 * link                the directed link, any number: 2 * k from link k's lower module to the higher one, 2 * k + 1 back
 *
 * Answers with refusal 0, and heard 1 if a module heard, 0 if no copy waited there (then all records keep); or with
 * refusal 31, 71, 73 or 42, and heard 0. A field of the blank plan that 31 lets pass meets 73, since no cue can be
 * under way. */
static inline muruapy_delivery muruapy_cue_deliver(const muruapy_field *field, const uint64_t *words, size_t room,
                                                   muruapy_cue *cues, size_t count, uint16_t link)
{
    return muruapy_cue_deliver_value(*field, words, room, cues, count, link);
}

/* ---- Named points ---- */

/* A store is bytes of the caller's that hold fields under names, each with the words that wait: a record for each, one
 * behind the other, and zeros behind the last. A store without a point is all zeros, or empty. A name is 1 to 12 letters a
 * to z, given with how many they are: no 0 ends it. A record has 15 + letters + 12 * links + 20 * modules bytes, and 8 for
 * each word that waits. docs/FORMATS.md has its layout. It is the same on every machine, so a store may be kept in a file.
 * Each call below first looks through all of the store, for 76. */

/* Saves a field under a name. A point that the name had is gone, those behind it close up, the new one stands last, and
 * the bytes behind it are 0.
 *
 * field    the field, however it was made, only read
 * words    its words, any, only read
 * room     how many words there are, any number
 * name     the name, any bytes, only read
 * letters  how many bytes the name has, any number
 * store    the store; gets the point
 * size     how many bytes the store has, any number
 *
 * Answers 0, or 31, 76, 77 (no name) or 78; on 78 the name keeps its old point. What 31 does not look at is not saved:
 * links from plan.links on, modules from plan.modules on. */
static inline uint32_t muruapy_save(const muruapy_field *field, const uint64_t *words, size_t room, const uint8_t *name,
                                    size_t letters, uint8_t *store, size_t size)
{
    return muruapy_save_parts(&field->plan, field->modules, field->marks, field->sent, words, room, name, letters,
                              store, size);
}

/* Finds the point of a name.
 *
 * store, size, name, letters  as above, only read
 *
 * Answers with refusal 0, and where the point's record stands in the store; or with refusal 76 or 77, and 0 and 0. */
muruapy_found muruapy_find(const uint8_t *store, size_t size, const uint8_t *name, size_t letters);

/* Shows the record that was found, as the part of the store that it is: nothing is copied.
 *
 * store  the store in which it was found, and not saved to since
 * found  what muruapy_find answered
 *
 * Answers a pointer to the found.size bytes of the record; beside a refusal to the store, and there are 0. */
static inline const uint8_t *muruapy_shown(const uint8_t *store, muruapy_found found)
{
    return store + found.at;
}

/* Restores the point of a name: the field and its words are as they were saved, and a run goes on from there.
 *
 * store, size, name, letters  as above, only read
 * field                       gets the field, the plan too; what it was is not looked at. What is not saved becomes as at
 *                             setup: 0 for links behind the last one, modules behind the last one asleep
 * words                       get the words that waited, and 0 behind them, up to the last one that is lent
 * room                        how many words there are: the ceiling of the plan that was saved, or more
 *
 * Answers 0, or 76, 77, or 21. */
static inline uint32_t muruapy_restore(const uint8_t *store, size_t size, const uint8_t *name, size_t letters,
                                       muruapy_field *field, uint64_t *words, size_t room)
{
    return muruapy_restore_parts(store, size, name, letters, &field->plan, field->modules, field->marks, &field->sent,
                                 words, room);
}

/* ---- Schedules ---- */

/* Checks the bytes of a schedule.
 *
 * bytes   the schedule's bytes, only read
 * length  how many there are, any number
 *
 * Answers 0, or 51 to 54. */
uint32_t muruapy_schedule_check(const uint8_t *bytes, size_t length);

/* How many steps a schedule has. It does not check the bytes.
 *
 * bytes, length  as above
 *
 * Answers (length - 3) / 3, the whole steps behind the first three bytes, also for bytes that the check refuses; 0 for
 * fewer than 3 bytes. Refuses nothing. */
size_t muruapy_schedule_steps(const uint8_t *bytes, size_t length);

/* Reads the step at a place of a schedule. It does not check the bytes.
 *
 * bytes, length  as above
 * at             the place: the number of the step, from 0; any number
 * kind           gets the step's kind; 0 past the last step
 * number         gets the number of its module or directed link; 0 past the last step
 * next           gets the place behind it; past the last step `at` itself
 *
 * Answers how many steps there are from `at` on: 0 past the last one. Refuses nothing. */
size_t muruapy_schedule_read(const uint8_t *bytes, size_t length, size_t at, uint8_t *kind, uint16_t *number,
                             size_t *next);

#ifdef __cplusplus
}
#endif

#endif
