/* Turn-taking between test benches, for hosts in C and Rust: link librybostan.a.
 *
 * A pointer is never null, also where its length is 0, and points to as many
 * words or bytes as stated; a table and an output are lent to one call at a time,
 * and no two buffers of a call overlap, but for the two stamps that are compared,
 * which are only read. Beyond that each call takes every input, and answers with 0
 * or a number for no. */
#ifndef RYBOSTAN_H
#define RYBOSTAN_H

#include <stdbool.h>
#include <stddef.h>
#include <stdint.h>

/* The words of a table, the most benches, and the most messages in a channel. */
#define RYBOSTAN_WORDS 10514
#define RYBOSTAN_MOST 8
#define RYBOSTAN_SLOTS 16

/* Where the readings of bench p stand: its clock, its phase, its entry for q,
 * and the largest stamp that it has heard from q. */
#define RYBOSTAN_CLOCK(p) (2 + (p))
#define RYBOSTAN_PHASE(p) (10 + (p))
#define RYBOSTAN_ENTRY(p, q) (18 + 8 * (p) + (q))
#define RYBOSTAN_HEARD(p, q) (82 + 8 * (p) + (q))

/* Where the counts of events stand: how many of bench q bench p knows of, and how
 * many of bench a the message in slot i of the channel from p to q brings. */
#define RYBOSTAN_COUNT(p, q) (2258 + 8 * (p) + (q))
#define RYBOSTAN_BROUGHT(p, q, i, a) (2322 + 8 * (16 * (8 * (p) + (q)) + (i)) + (a))

/* The phases. */
#define RYBOSTAN_IDLE 0
#define RYBOSTAN_WAITING 1
#define RYBOSTAN_HOLDING 2

/* The answers: done, or the first of the refusals that applies. */
enum rybostan_answer {
    RYBOSTAN_DONE = 0,
    RYBOSTAN_MALFORMED = 1,     /* the table isn't well formed */
    RYBOSTAN_NO_SUCH_BENCH = 2, /* a bench number is n or more */
    RYBOSTAN_TO_ITSELF = 3,     /* carry from a bench to itself */
    RYBOSTAN_NOT_ADMITTED = 4,  /* the phase doesn't admit the step */
    RYBOSTAN_NOTHING_THERE = 5, /* carry on an empty channel */
    RYBOSTAN_NOT_YET = 6,       /* enter, and the entry rule isn't met */
    RYBOSTAN_CHANNEL_FULL = 7,  /* a message must be sent on a full channel */
    RYBOSTAN_CLOCK_SPENT = 8,   /* a clock or a count would pass 4294967295 */
    RYBOSTAN_BAD_SIZES = 9,     /* benches not 1 to 8, or capacity not 1 to 16 */
    RYBOSTAN_BAD_LINE = 10,     /* a line of the schedule is none */
    RYBOSTAN_NO_ROOM = 11,      /* less than 32 bytes of output for each line */
    RYBOSTAN_TOO_LONG = 12      /* a schedule of more than 12,288 bytes */
};

/* Makes a fresh table. Bad sizes give 9 and a table that is all zero. */
uint32_t rybostan_fresh(uint32_t *table, uint32_t benches, uint32_t capacity, uint32_t start);

/* Whether the words are a table. */
bool rybostan_well_formed(const uint32_t *table);

/* The five steps: 0, or a refusal from 1 to 8, which leaves every word as it was. */
uint32_t rybostan_ask(uint32_t *table, uint32_t bench);
uint32_t rybostan_carry(uint32_t *table, uint32_t sender, uint32_t receiver);
uint32_t rybostan_enter(uint32_t *table, uint32_t bench);
uint32_t rybostan_leave(uint32_t *table, uint32_t bench);
uint32_t rybostan_mark(uint32_t *table, uint32_t bench);

/* Writes a bench's counts over the eight words of `counts`: the stamp of its last event,
 * which is the acknowledgement after a carried request, and all zero before any event.
 * Gives 0; or 1 or 2, and then writes nothing. */
uint32_t rybostan_counts(const uint32_t *table, uint32_t bench, uint32_t *counts);

/* How one stamp stands to another: its event happened before the other's, and so may have
 * influenced it; after it; it is the same; or none of these. */
enum rybostan_order {
    RYBOSTAN_BEFORE = 0,
    RYBOSTAN_AFTER = 1,
    RYBOSTAN_SAME = 2,
    RYBOSTAN_NEITHER = 3
};

/* Compares two stamps of eight counts each, and gives an enum rybostan_order: a stamp is
 * before another when no count of it is larger and some is smaller. Stamps tell of events
 * only where both are of one table from its making on; any others are compared as well. */
uint32_t rybostan_compare(const uint32_t *a, const uint32_t *b);

/* 0 and the bytes written; or a refusal from 9 to 12 with its line, which is 0
 * for 11 and 12, and 0 bytes. */
struct rybostan_ran {
    uint32_t answer;
    size_t line;
    size_t bytes;
};

/* Runs a schedule for at most `budget` steps, and writes the listing over the front
 * of the output. What is behind the listing stays, and so does all for a refusal. */
struct rybostan_ran rybostan_run(const uint8_t *schedule, size_t schedule_length, size_t budget,
                                 uint8_t *output, size_t output_length);

#endif
