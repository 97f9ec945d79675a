/* plans.c: the work of each row, as events with what must come back and the contents that the cells must have then. */
#include "bench.h"

#include <stdlib.h>
#include <string.h>

enum { COORDINATOR = 1, CELLS = 256, ROOM_OF_STEPS = 4096 };

plan *plan_new(uint32_t cells, uint32_t copies)
{
    uint32_t i;
    plan *p = room_for(1, sizeof *p);
    *p = (plan){.cells = cells, .copies = copies, .together = 1};
    p->before = room_for(ROOM_OF_STEPS, sizeof(step));
    p->timed = room_for(ROOM_OF_STEPS, sizeof(step));
    p->contents = room_for(cells, sizeof(uint32_t));
    p->expected = room_for(cells, sizeof(uint32_t));
    for (i = 0; i < cells; i++) {
        p->contents[i] = p->expected[i] = 1000 + i;
    }
    return p;
}

void plan_drop(plan *p)
{
    free(p->before);
    free(p->timed);
    free(p->contents);
    free(p->expected);
    free(p);
}

/* The next step of the setting up, or of the timed part. */
step *plan_step(plan *p, int timed, uint32_t kind, uint32_t number, uint32_t returned, uint32_t answers)
{
    size_t *count = timed ? &p->timed_count : &p->before_count;
    step *s = &(timed ? p->timed : p->before)[*count];
    must(*count < ROOM_OF_STEPS, "a plan", "the number of steps");
    *count += 1;
    *s = (step){.returned = returned, .answers = answers};
    s->event[HARUKDALIS_EVENT_KIND] = kind;
    s->event[HARUKDALIS_EVENT_NUMBER] = number;
    return s;
}

/* A fragment on so many cells, spread over all: adds of 1, or sets and raises. */
static step *fragment(plan *p, int timed, uint32_t number, uint32_t flags, uint32_t operations, codes c, effect e,
                      uint32_t answers)
{
    uint32_t i;
    step *s = plan_step(p, timed, HARUKDALIS_FRAGMENT, number, HARUKDALIS_ACCEPTED, answers);
    s->event[HARUKDALIS_EVENT_FLAGS] = flags;
    s->event[HARUKDALIS_EVENT_COORDINATOR] = flags & HARUKDALIS_MULTI ? COORDINATOR : 0;
    s->event[HARUKDALIS_EVENT_COUNT] = operations;
    for (i = 0; i < operations; i++) {
        uint32_t *o = &s->event[HARUKDALIS_EVENT_OPERATIONS + i * HARUKDALIS_OPERATION_WORDS];
        uint32_t cell = (number * 37 + i * 11) % p->cells, amount = c == MAY_FAIL ? 1 : 1000 + number, after;
        o[HARUKDALIS_OPERATION_CELL] = cell;
        o[HARUKDALIS_OPERATION_AMOUNT] = amount;
        if (c == MAY_FAIL) {
            o[HARUKDALIS_OPERATION_CODE] = HARUKDALIS_ADD;
            after = p->expected[cell] + amount;
        } else if (i % 2 == 0) {
            o[HARUKDALIS_OPERATION_CODE] = HARUKDALIS_SET;
            after = amount;
        } else {
            o[HARUKDALIS_OPERATION_CODE] = HARUKDALIS_RAISE;
            after = p->expected[cell] > amount ? p->expected[cell] : amount;
        }
        p->expected[cell] = e == KEPT ? after : p->expected[cell];
    }
    return s;
}

step *plan_adds(plan *p, int timed, uint32_t number, uint32_t flags, uint32_t operations, effect e, uint32_t answers)
{
    return fragment(p, timed, number, flags, operations, MAY_FAIL, e, answers);
}

static void single(plan *p, int timed, uint32_t number, uint32_t operations, effect e, uint32_t answers)
{
    plan_adds(p, timed, number, HARUKDALIS_LAST, operations, e, answers);
}

static void multi(plan *p, int timed, uint32_t number, uint32_t last, effect e)
{
    plan_adds(p, timed, number, HARUKDALIS_MULTI | last, 1, e, 1);
}

/* Early: an event of kind 0. */
plan *plan_refusal_4(uint32_t calls)
{
    plan *p = plan_new(CELLS, 1);
    while (calls-- > 0) {
        plan_step(p, 1, 0, 0, HARUKDALIS_NOT_WELL_FORMED, 0);
    }
    return p;
}

/* Late: the commit of a failed front, which stays. */
plan *plan_refusal_14(uint32_t calls)
{
    plan *p = plan_new(CELLS, 1);
    multi(p, 0, 1, HARUKDALIS_LAST, LOST);
    p->before[0].event[HARUKDALIS_EVENT_OPERATIONS + HARUKDALIS_OPERATION_AMOUNT] = HARUKDALIS_TOP;
    while (calls-- > 0) {
        plan_step(p, 1, HARUKDALIS_COMMIT, 1, HARUKDALIS_FAILED, 0);
    }
    return p;
}

/* Singles with nothing live: each settles and is answered at once. */
plan *plan_idle(uint32_t cells, uint32_t operations, codes c, uint32_t calls)
{
    uint32_t number;
    plan *p = plan_new(cells, 1);
    for (number = 1; number <= calls; number++) {
        fragment(p, 1, number, HARUKDALIS_LAST, operations, c, KEPT, 1);
    }
    return p;
}

/*
 * Nine singles to one multi, each of one operation. Four singles are speculated behind the multi and answered by its
 * decision, five come after it. Every tenth decision is an abort: then the four run twice.
 */
plan *plan_mix(uint32_t cycles)
{
    uint32_t cycle, i, number = 0;
    plan *p = plan_new(CELLS, 1);
    for (cycle = 1; cycle <= cycles; cycle++) {
        uint32_t front = ++number;
        int commits = cycle % 10 != 0;
        multi(p, 1, front, HARUKDALIS_LAST, commits ? KEPT : LOST);
        for (i = 0; i < 4; i++) {
            single(p, 1, ++number, 1, KEPT, 0);
        }
        plan_step(p, 1, commits ? HARUKDALIS_COMMIT : HARUKDALIS_ABORT, front, HARUKDALIS_ACCEPTED, 4);
        for (i = 0; i < 5; i++) {
            single(p, 1, ++number, 1, KEPT, 1);
        }
    }
    return p;
}

/*
 * Singles wait behind a front that is not finished. Its last fragment lets 15 of them be speculated, its commit settles
 * those and drains the others: that call is timed.
 */
plan *plan_commit(uint32_t waiting, codes c, uint32_t copies)
{
    uint32_t i;
    plan *p = plan_new(CELLS, copies);
    multi(p, 0, 1, 0, KEPT);
    for (i = 0; i < waiting; i++) {
        fragment(p, 0, 2 + i, HARUKDALIS_LAST, 1, c, KEPT, 0);
    }
    multi(p, 0, 1, HARUKDALIS_LAST, KEPT);
    plan_step(p, 1, HARUKDALIS_COMMIT, 1, HARUKDALIS_ACCEPTED, waiting);
    return p;
}

/* A finished front with singles speculated behind it. Its abort undoes all and runs the singles again: timed. */
plan *plan_abort(uint32_t speculated, uint32_t copies)
{
    uint32_t i;
    plan *p = plan_new(CELLS, copies);
    multi(p, 0, 1, HARUKDALIS_LAST, LOST);
    for (i = 0; i < speculated; i++) {
        single(p, 0, 2 + i, 1, KEPT, 0);
    }
    plan_step(p, 1, HARUKDALIS_ABORT, 1, HARUKDALIS_ACCEPTED, speculated);
    return p;
}

/* A single that only joins so many that wait behind a front that is not finished. */
plan *plan_join(uint32_t waiting, uint32_t copies)
{
    uint32_t i;
    plan *p = plan_new(CELLS, copies);
    multi(p, 0, 1, 0, KEPT);
    for (i = 0; i < waiting; i++) {
        single(p, 0, 2 + i, 1, LOST, 0);
    }
    single(p, 1, 2 + waiting, 1, LOST, 0);
    return p;
}
