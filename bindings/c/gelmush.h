/* Gelmush for C on x86-64 Linux. Link target/staticlib/libgelmush.a, which `make archive` writes.
 *
 * The caller owns the memory: a table, and the words of a plan. A call finds the table where the caller keeps it, and leaves the
 * table after it there. Every answer is a number of the rules: 0, or that of the first refusal that applies. A refused call leaves
 * the table and the plan as they were. Numbers may have any value.
 *
 * What the caller keeps, since no call can see it:
 * - a pointer points to as many words as the parameter says, aligned for uint32_t, every one of them written before, with any value;
 * - a table, a plan and an answer do not overlap, and nothing else uses them during a call;
 * - offer, withdraw, enquire and beacon are handed no table but one for which gelmush_open answered 0 and that these calls alone have
 *   changed since. A copy of such a table is one.
 */
#ifndef GELMUSH_H
#define GELMUSH_H

#include <stddef.h>
#include <stdint.h>

#ifdef __cplusplus
extern "C" {
#endif

#define GELMUSH_TABLE_WORDS 354  /* the slots of an interval and of its header, and 11 words for each of 32 places */
#define GELMUSH_PLAN_WORDS 4096  /* the least memory for a plan: 1,024 records */
#define GELMUSH_RECORD_WORDS 4   /* stream, job, start, length */

/* A table. Its words are the planner's: only their number is promised. */
typedef struct {
    uint32_t words[GELMUSH_TABLE_WORDS];
} gelmush_table;

/* A held request. The period field of its offer is parts for kind 1 and period for the others; the one not meant is 0. Amounts are in
 * slots, the rest in intervals. */
typedef struct {
    uint32_t stream, kind, parts, period, min, max, life, life_left, owed, given, left;
} gelmush_entry;

typedef struct {
    uint32_t answer;
    gelmush_entry entry;  /* zeros where refused */
} gelmush_found;

typedef struct {
    uint32_t answer;
    size_t count;  /* records written */
} gelmush_sent;

/* A part of a plan: so many words, from plan[first] on. */
typedef struct {
    size_t first, words;
} gelmush_place;

/* Intervals of so many time units, the first slots of which are their header's, given to nobody. Asks nothing of what lies in the table.
 * Refused (1, 61), it lies there still. */
uint32_t gelmush_open(gelmush_table *table, uint32_t units, uint32_t header);

/* 10 to 17. */
uint32_t gelmush_offer(gelmush_table *table, uint32_t stream, uint32_t kind, uint32_t period, uint32_t min, uint32_t max, uint32_t life);

/* 20. */
uint32_t gelmush_withdraw(gelmush_table *table, uint32_t stream);

/* 20. */
gelmush_found gelmush_enquire(const gelmush_table *table, uint32_t stream);

/* 30 under GELMUSH_PLAN_WORDS words. Writes the first GELMUSH_RECORD_WORDS * count words, and no other. */
gelmush_sent gelmush_beacon(gelmush_table *table, uint32_t *plan, size_t words);

/* 40 to 42, in *answer; the part is empty then. Takes no table, and any plan. */
gelmush_place gelmush_window(const uint32_t *plan, size_t words, size_t count, uint32_t from, uint32_t until, uint32_t *answer);

#ifdef __cplusplus
}
#endif

#endif
