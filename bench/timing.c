/*
 * timing.c: a plan on an engine, compared and timed, and the unit. Whatever comes back is compared in every round; the
 * first wrong thing ends the program with status 1.
 */
#define _POSIX_C_SOURCE 199309L
#include "bench.h"

#include <stdio.h>
#include <stdlib.h>
#include <string.h>
#include <time.h>

static uint32_t room[HARUKDALIS_LEAST_ROOM], other_room[HARUKDALIS_LEAST_ROOM];

void must(int holds, const char *row, const char *what)
{
    if (!holds) {
        fprintf(stderr, "bench: %s: %s: not as it must be\n", row, what);
        exit(1);
    }
}

void *room_for(size_t count, size_t bytes)
{
    void *room_made = calloc(count, bytes);
    must(room_made != NULL, "memory", "allocation");
    return room_made;
}

static double read_clock(clockid_t which)
{
    struct timespec t;
    clock_gettime(which, &t);
    return (double)t.tv_sec * 1e9 + (double)t.tv_nsec;
}

double now(void)
{
    return read_clock(CLOCK_MONOTONIC);
}

double taken(void)
{
    return read_clock(CLOCK_PROCESS_CPUTIME_ID);
}

int rising(const void *one, const void *other)
{
    double a = *(const double *)one, b = *(const double *)other;
    return (a > b) - (a < b);
}

/*
 * Where the stack and the record happen to lie changes the cost of a call by some percent, from one start of the
 * program to the next and from one row to the next. So each round has them at another place, and 256 rounds have each
 * at every one of a page.
 */
__attribute__((noinline)) void in_round(size_t round, void (*work)(void *), void *with)
{
    volatile unsigned char shift[16 + round * 208 % PAGE];
    shift[0] = 0;
    moved = round * 1328 % PAGE;
    work(with);
    moved = 0;
    (void)shift[0]; /* after the work, so that the array is there while it is done */
}

uint32_t step_on(const engine *e, void *state, uint32_t *cells, const plan *p, const step *s, uint32_t *answer_room,
                 uint32_t *answers)
{
    return e->call(state, cells, p->cells, s->event, HARUKDALIS_EVENT_WORDS, answer_room, HARUKDALIS_LEAST_ROOM,
                   answers);
}

prepared set_up(const char *name, const plan *p, const engine *e)
{
    size_t i;
    prepared made = {e, e->start(p->cells), room_for(p->cells, sizeof(uint32_t))};
    memcpy(made.cells, p->contents, p->cells * sizeof(uint32_t));
    for (i = 0; i < p->before_count; i++) {
        uint32_t answers, returned = step_on(e, made.state, made.cells, p, &p->before[i], room, &answers);
        must(returned == p->before[i].returned && answers == p->before[i].answers, name, "a step before the timing");
    }
    return made;
}

void take_down(prepared *made)
{
    made->by->drop(made->state);
    free(made->cells);
}

/* All copies are made before the clock is read. */
__attribute__((noinline)) double batch(const char *name, const plan *p, const prepared *from,
                                       double (*clock)(void))
{
    const engine *e = from->by;
    size_t size = p->cells * sizeof(uint32_t), copy, i;
    uint32_t wrong = 0, *cells = room_for(p->copies, size);
    void **states = room_for(p->copies, sizeof(void *));
    double began, ended;
    for (copy = 0; copy < p->copies; copy++) {
        states[copy] = e->copy(from->state);
        memcpy(cells + copy * p->cells, from->cells, size);
    }
    began = clock();
    for (copy = 0; copy < p->copies; copy++) {
        for (i = 0; i < p->timed_count; i++) {
            const step *s = &p->timed[i];
            uint32_t answers, returned = step_on(e, states[copy], cells + copy * p->cells, p, s, room, &answers);
            wrong |= (returned ^ s->returned) | (answers ^ s->answers);
        }
    }
    ended = clock();
    must(wrong == 0, name, "a returned number or a count of answers");
    for (copy = 0; copy < p->copies; copy++) {
        must(memcmp(cells + copy * p->cells, p->expected, size) == 0, name, "the cells");
        e->drop(states[copy]);
    }
    free(states);
    free(cells);
    return (ended - began) * p->together / (double)(p->copies * p->timed_count);
}

uint64_t compare(const char *name, const plan *p, const engine *e, const engine *other_engine)
{
    prepared one = set_up(name, p, e), other = set_up(name, p, other_engine);
    uint64_t sum = 0;
    size_t size = p->cells * sizeof(uint32_t), i;
    uint32_t answer, place;
    for (i = 0; i < p->timed_count; i++) {
        const step *s = &p->timed[i];
        uint32_t answers, returned;
        /* Cleared for each, so that no engine is lent the other's answers. */
        memset(room, 0, sizeof room);
        returned = step_on(other_engine, other.state, other.cells, p, s, room, &answers);
        must(returned == s->returned && answers == s->answers, name, "a call of the independent engine");
        memcpy(other_room, room, sizeof room);
        memset(room, 0, sizeof room);
        returned = step_on(e, one.state, one.cells, p, s, room, &answers);
        must(returned == s->returned && answers == s->answers, name, "a call of the proved engine");
        must(memcmp(other_room, room, sizeof room) == 0, name, "the words of an answer");
        for (answer = 0; answer < answers; answer++) {
            for (place = 0; place < HARUKDALIS_MOST_OPERATIONS; place++) {
                sum += room[answer * HARUKDALIS_ANSWER_WORDS + HARUKDALIS_ANSWER_NUMBERS + place];
            }
        }
    }
    must(memcmp(one.cells, p->expected, size) == 0 && memcmp(other.cells, p->expected, size) == 0, name, "the cells");
    take_down(&one);
    take_down(&other);
    return sum;
}

__attribute__((noinline)) double unit_batch(void)
{
    static harukdalis_record record;
    double began, ended;
    uint32_t i;
    record.largest = 0;
    began = now();
    for (i = 0; i < CALLS; i++) {
        record = by_value(record);
    }
    ended = now();
    must(record.largest == CALLS, "by value", "the word");
    return (ended - began) / CALLS;
}
