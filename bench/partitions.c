/*
 * partitions.c: many partitions, each with a record and cells of its own, called at random, and threads that call their
 * own. Every call is an idle single of 2: adds to any two cells. Order and cells are drawn from a fixed seed.
 */
#define _GNU_SOURCE
#include "bench.h"

#include <pthread.h>
#include <sched.h>
#include <stdatomic.h>
#include <stdlib.h>
#include <string.h>

enum { OPERATIONS = 2, CELLS = HARUKDALIS_MOST_CELLS };

/* A call that is laid out. */
typedef struct laid {
    void *state;
    uint32_t *cells;
    uint32_t event[HARUKDALIS_EVENT_WORDS];
} laid;

struct fleet {
    const engine *by;
    size_t partitions, calls, at;
    char *areas;     /* of each partition its record, if it is the proved engine's, and its cells right behind it */
    size_t stride;
    void **states;
    uint32_t *order; /* a shuffle of the partitions; `at` is the next one */
    uint32_t *adds;  /* what each partition's cells must add up to */
    laid *next;
    uint32_t *room;
    uint32_t number;
    uint64_t seed;
};

static uint32_t *cells_of(const fleet *f, size_t i)
{
    return (uint32_t *)(f->areas + (i + 1) * f->stride) - CELLS;
}

static uint64_t draw(fleet *f)
{
    f->seed ^= f->seed << 13;
    f->seed ^= f->seed >> 7;
    f->seed ^= f->seed << 17;
    return f->seed >> 11;
}

/* Every word is written once: a page that was never touched would be another one's cost. */
fleet *fleet_new(const engine *e, size_t partitions, size_t calls, uint64_t seed)
{
    fleet *f = room_for(1, sizeof *f);
    int in_place = e == &proved;
    size_t i;
    *f = (fleet){.by = e, .partitions = partitions, .calls = calls, .at = partitions, .seed = seed};
    f->stride = (in_place ? sizeof(harukdalis_record) : 0) + CELLS * sizeof(uint32_t);
    f->areas = room_for(partitions, f->stride);
    memset(f->areas, 0, partitions * f->stride);
    f->states = room_for(partitions, sizeof(void *));
    f->order = room_for(partitions, sizeof(uint32_t));
    f->adds = room_for(partitions, sizeof(uint32_t));
    f->next = room_for(calls, sizeof(laid));
    /* A page to itself, so that two threads share no line. */
    f->room = aligned_alloc(PAGE, HARUKDALIS_LEAST_ROOM * sizeof(uint32_t));
    must(f->room != NULL, "memory", "allocation");
    memset(f->room, 0, HARUKDALIS_LEAST_ROOM * sizeof(uint32_t));
    for (i = 0; i < partitions; i++) {
        f->order[i] = (uint32_t)i;
        f->states[i] = in_place ? f->areas + i * f->stride : e->start(CELLS);
        must(!in_place || harukdalis_start(f->states[i], CELLS) == HARUKDALIS_ACCEPTED, "partitions", "a start");
    }
    return f;
}

void fleet_drop(fleet *f)
{
    size_t i;
    for (i = 0; i < f->partitions && f->by != &proved; i++) {
        f->by->drop(f->states[i]);
    }
    free(f->areas);
    free(f->states);
    free(f->order);
    free(f->adds);
    free(f->next);
    free(f->room);
    free(f);
}

/* All partitions are called once, in any order, before one is called again. */
static size_t pick(fleet *f)
{
    size_t i, other;
    if (f->at == f->partitions) {
        for (i = f->partitions - 1; i > 0; i--) {
            uint32_t kept = f->order[i];
            other = draw(f) % (i + 1);
            f->order[i] = f->order[other];
            f->order[other] = kept;
        }
        f->at = 0;
    }
    return f->order[f->at++];
}

/* Lays out the next calls. Numbers rise over all partitions. */
static void lay_out(fleet *f)
{
    size_t i, place;
    for (i = 0; i < f->calls; i++) {
        laid *l = &f->next[i];
        size_t partition = pick(f);
        l->state = f->states[partition];
        l->cells = cells_of(f, partition);
        l->event[HARUKDALIS_EVENT_KIND] = HARUKDALIS_FRAGMENT;
        l->event[HARUKDALIS_EVENT_NUMBER] = ++f->number;
        l->event[HARUKDALIS_EVENT_FLAGS] = HARUKDALIS_LAST;
        l->event[HARUKDALIS_EVENT_COUNT] = OPERATIONS;
        for (place = 0; place < OPERATIONS; place++) {
            uint32_t *o = &l->event[HARUKDALIS_EVENT_OPERATIONS + place * HARUKDALIS_OPERATION_WORDS];
            o[HARUKDALIS_OPERATION_CODE] = HARUKDALIS_ADD;
            o[HARUKDALIS_OPERATION_CELL] = (uint32_t)(draw(f) % CELLS);
            o[HARUKDALIS_OPERATION_AMOUNT] = 1;
        }
        f->adds[partition] += OPERATIONS;
    }
}

static uint32_t call(const fleet *f, const laid *l, uint32_t *answers)
{
    return f->by->call(l->state, l->cells, CELLS, l->event, HARUKDALIS_EVENT_WORDS, f->room, HARUKDALIS_LEAST_ROOM,
                       answers);
}

/* All calls that are laid out; 0 if each was accepted and answered. */
static uint32_t call_all(const fleet *f)
{
    uint32_t wrong = 0;
    size_t i;
    for (i = 0; i < f->calls; i++) {
        uint32_t answers, returned = call(f, &f->next[i], &answers);
        wrong |= returned | (answers ^ 1);
    }
    return wrong;
}

__attribute__((noinline)) double fleet_batch(fleet *f)
{
    double began, ended;
    uint32_t wrong;
    lay_out(f);
    began = now();
    wrong = call_all(f);
    ended = now();
    must(wrong == 0, "partitions", "a returned number or a count of answers");
    return (ended - began) / (double)f->calls;
}

void fleet_warm(fleet *f)
{
    size_t done;
    for (done = 0; done < f->partitions; done += f->calls) {
        fleet_batch(f);
    }
}

/* Words of the first answer and the first behind it are enough: these calls have one. */
void fleets_compare(fleet *one, fleet *other)
{
    size_t i, words = (HARUKDALIS_ANSWER_WORDS + 1) * sizeof(uint32_t);
    lay_out(one);
    lay_out(other);
    for (i = 0; i < one->calls; i++) {
        uint32_t answers, returned, other_answers, other_returned;
        memset(one->room, 0, words);
        memset(other->room, 0, words);
        returned = call(one, &one->next[i], &answers);
        other_returned = call(other, &other->next[i], &other_answers);
        must((returned | other_returned) == HARUKDALIS_ACCEPTED && answers == 1 && other_answers == 1, "partitions",
             "a returned number or a count of answers");
        must(memcmp(one->room, other->room, words) == 0, "partitions", "the words of an answer");
    }
    for (i = 0; i < one->partitions; i++) {
        must(memcmp(cells_of(one, i), cells_of(other, i), CELLS * sizeof(uint32_t)) == 0, "partitions", "the cells");
    }
}

void fleet_check(const fleet *f)
{
    size_t i, cell;
    for (i = 0; i < f->partitions; i++) {
        const uint32_t *cells = cells_of(f, i);
        uint32_t sum = 0;
        for (cell = 0; cell < CELLS; cell++) {
            sum += cells[cell];
        }
        must(sum == f->adds[i], "partitions", "what the cells add up to");
    }
}

typedef struct thread {
    pthread_t is;
    fleet *own;
    atomic_size_t *ready;
    size_t threads;
    double began, ended;
    uint32_t wrong;
} thread;

/* Each lays out its own calls, then all begin at once. */
static void *work(void *with)
{
    thread *t = with;
    lay_out(t->own);
    atomic_fetch_add(t->ready, 1);
    while (atomic_load(t->ready) < t->threads) {
        sched_yield();
    }
    t->began = now();
    t->wrong = call_all(t->own);
    t->ended = now();
    return NULL;
}

double threads_batch(fleet *const *fleets, size_t threads)
{
    thread all[MOST_THREADS];
    atomic_size_t ready = 0;
    double began = 0, ended = 0;
    size_t i;
    for (i = 0; i < threads; i++) {
        all[i] = (thread){.own = fleets[i], .ready = &ready, .threads = threads};
        must(pthread_create(&all[i].is, NULL, work, &all[i]) == 0, "threads", "a start");
    }
    for (i = 0; i < threads; i++) {
        must(pthread_join(all[i].is, NULL) == 0 && all[i].wrong == 0, "threads",
             "a returned number or a count of answers");
        began = i == 0 || all[i].began < began ? all[i].began : began;
        ended = i == 0 || all[i].ended > ended ? all[i].ended : ended;
    }
    return (ended - began) / (double)(threads * fleets[0]->calls);
}

size_t processors(void)
{
    cpu_set_t ours;
    return sched_getaffinity(0, sizeof ours, &ours) == 0 ? (size_t)CPU_COUNT(&ours) : 1;
}
