/* bench.h: what the parts of the benchmark share. */
#ifndef BENCH_H
#define BENCH_H

#include "harukdalis.h"

/* Calls of a batch: short, so that a busy machine seldom interrupts one. */
enum { CALLS = 256, PAGE = 4096 };

/* An engine by one scheme behind the same calls. A state is a record, or the independent engine's own. */
typedef struct engine {
    void *(*start)(uint32_t cells);
    void *(*copy)(const void *state);
    void (*drop)(void *state);
    uint32_t (*call)(void *state, uint32_t *cells, size_t cell_count, const uint32_t *event, size_t event_words,
                     uint32_t *room, size_t room_words, uint32_t *answers);
} engine;

extern const engine proved, independent;                   /* by speculation */
extern const engine proved_blocking, independent_blocking; /* by blocking */

/* By how much the records of a round are moved within a page: see in_round. */
extern size_t moved;

/* An event, prepared before any timing, and what must come back. */
typedef struct step {
    uint32_t event[HARUKDALIS_EVENT_WORDS];
    uint32_t returned, answers;
} step;

/*
 * The work of a row: steps that reach a state, and the steps that are timed. They are timed on that many copies of the
 * state, one after the other; a copy is made before the timing.
 */
typedef struct plan {
    uint32_t cells, copies;
    uint32_t together; /* calls that are shown as one: 1, or those of a run */
    step *before, *timed;
    size_t before_count, timed_count;
    uint32_t *contents; /* the first contents of the cells */
    uint32_t *expected; /* and those after all steps */
} plan;

/* Whether a fragment's changes are in the cells when all steps are done. */
typedef enum effect { LOST, KEPT } effect;

/* Whether a fragment can fail by its codes: it adds, or it sets and raises in turn. */
typedef enum codes { MAY_FAIL, CANT_FAIL } codes;

/* A plan to add steps to: any step, or a fragment of so many adds, which is accepted. */
plan *plan_new(uint32_t cells, uint32_t copies);
step *plan_step(plan *p, int timed, uint32_t kind, uint32_t number, uint32_t returned, uint32_t answers);
step *plan_adds(plan *p, int timed, uint32_t number, uint32_t flags, uint32_t operations, effect e, uint32_t answers);

plan *plan_refusal_4(uint32_t calls);
plan *plan_refusal_14(uint32_t calls);
plan *plan_idle(uint32_t cells, uint32_t operations, codes c, uint32_t calls);
plan *plan_mix(uint32_t cycles);
plan *plan_commit(uint32_t waiting, codes c, uint32_t copies);
plan *plan_abort(uint32_t speculated, uint32_t copies);
plan *plan_join(uint32_t waiting, uint32_t copies);
void plan_drop(plan *p);

/* What a plan's first steps leave, for one engine. */
typedef struct prepared {
    const engine *by;
    void *state;
    uint32_t *cells;
} prepared;

prepared set_up(const char *name, const plan *p, const engine *e);
void take_down(prepared *made);
uint32_t step_on(const engine *e, void *state, uint32_t *cells, const plan *p, const step *s, uint32_t *room,
                 uint32_t *answers);

/*
 * The clock, in nanoseconds, and the processor time that this program took: that is not disturbed by what else runs,
 * but it takes longer to read, so it is for long batches.
 */
double now(void);
double taken(void);

/* One batch of a plan's timed steps on copies of what is prepared: nanoseconds a call, or a run of them. */
double batch(const char *name, const plan *p, const prepared *from, double (*clock)(void));

/* Both engines side by side, all words of all answers and cells compared; the sum of all numbers that were answered. */
uint64_t compare(const char *name, const plan *p, const engine *one, const engine *other);

/* (a): the unit, in a file of its own so that no copy is elided, and a batch of it: nanoseconds a call. */
harukdalis_record by_value(harukdalis_record record);
double unit_batch(void);

void in_round(size_t round, void (*work)(void *), void *with);
int rising(const void *one, const void *other);

/*
 * So many partitions of 4,096 cells on one engine, called in a shuffled order by idle singles of 2: partitions.c. A
 * batch is of so many calls. Fleets of one seed get the same calls.
 */
typedef struct fleet fleet;
fleet *fleet_new(const engine *e, size_t partitions, size_t calls, uint64_t seed);
void fleet_drop(fleet *f);
void fleet_warm(fleet *f);                        /* calls each partition once */
double fleet_batch(fleet *f);                     /* nanoseconds a call */
void fleets_compare(fleet *one, fleet *other);    /* the next batch on both: all words of answers and cells */
void fleet_check(const fleet *f);                 /* the cells hold what was added, and no more */

/*
 * So many threads at once, each with a proved fleet of its own and no memory in common: nanoseconds for each call of
 * all of them. And how many processors they may run on.
 */
enum { MOST_THREADS = 2 };
double threads_batch(fleet *const *fleets, size_t threads);
size_t processors(void);

/* The two schemes under one load, over the share of aborts: schemes.c. As CSV, or with 0 rounds only compared. */
size_t compare_schemes(size_t rounds, size_t warmup);

/* (c): the timed steps of an idle plan in SQLite. Opened once; NULL where SQLite was left out. */
typedef struct stock stock;
const char *stock_version(void);
stock *stock_open(const plan *p);
void stock_reset(stock *s, const plan *p);
uint64_t stock_run(stock *s, const plan *p); /* the sum of all contents that were read */
int stock_equal(stock *s, const uint32_t *contents, uint32_t cells);
void stock_close(stock *s);

/* Ends the program with status 1 where something is not as it must be. */
void must(int holds, const char *row, const char *what);
void *room_for(size_t count, size_t bytes);

#endif
