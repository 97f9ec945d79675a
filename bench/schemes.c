/*
 * schemes.c: speculation and blocking under one load, over the share of multis that are aborted.
 *
 * Time goes in slots, and nothing here reads the clock but the timing. In a slot the next transaction arrives, unless
 * as many are live as there are clients, each of whom waits for an answer. Then come the decisions that are due: the
 * front's, so many slots after the answer that it is decided on. That delay stands for the coordinator and the other
 * partitions. All multis have one fragment and one coordinator.
 *
 * Both schemes get the same transactions in the same order, and for each multi the same decision. Only when it comes
 * differs: by blocking a multi is answered when all ahead of it are decided, by speculation often before. So by
 * blocking more are live, and each call looks at all of them. To tell that from the work of the schemes themselves,
 * blocking is handed the very calls of speculation too: then as many are live, though no coordinator could decide so
 * soon.
 */
#include "bench.h"

#include <stdio.h>
#include <stdlib.h>
#include <string.h>

enum { TRANSACTIONS = 2000, CLIENTS = 40, DELAY = 8, OPERATIONS = 2, CELLS = 256 };

static const uint32_t shares_of_multis[] = {10, 30};
static const uint32_t shares_of_aborts[] = {0, 5, 10, 20, 30, 40, 50, 60, 70, 80, 90, 100};
enum {
    MIXES = sizeof shares_of_multis / sizeof *shares_of_multis,
    ABORTS = sizeof shares_of_aborts / sizeof *shares_of_aborts
};

typedef enum fate { SINGLE, COMMITS, ABORTED } fate;

/* What a load came to by one scheme. Transaction n is at place n, so place 0 is not used. */
typedef struct tally {
    uint32_t settled, aborts, runs, undone, slots;
    uint64_t waited;              /* slots from each single's arrival to its answer, added up */
    uint32_t order[TRANSACTIONS]; /* those that settled, as they did */
    uint32_t arrived[TRANSACTIONS + 1], answered[TRANSACTIONS + 1]; /* the slots; 0 where there is no valid answer */
    uint32_t attempt[TRANSACTIONS + 1]; /* of the last answer */
    uint32_t of_single[TRANSACTIONS + 1][HARUKDALIS_ANSWER_WORDS];
} tally;

enum { SPECULATION, BLOCKING, SAME_CALLS, WAYS };
static const char *const way_name[WAYS] = {"speculation", "blocking", "blocking on the same calls"};
static const engine *const by[WAYS] = {&proved, &proved_blocking, &proved_blocking};
static const engine *const by_independent[WAYS] = {&independent, &independent_blocking, &independent_blocking};

/* A point: one load in each way, and its times in nanoseconds for each settled transaction. */
typedef struct point {
    char name[64];
    uint32_t multis, aborts, singles;
    plan *work[WAYS];
    tally *came[WAYS];
    double *times[WAYS];
} point;

static uint32_t room[HARUKDALIS_LEAST_ROOM];

/* Always the same numbers, so that every run has the same load. */
static uint32_t drawn(uint32_t *seed, uint32_t below)
{
    *seed = *seed * 1664525u + 1013904223u;
    return (uint32_t)((uint64_t)*seed * below >> 32);
}

static void shuffle(uint32_t *places, uint32_t count, uint32_t *seed)
{
    uint32_t i;
    for (i = count; i > 1; i--) {
        uint32_t with = drawn(seed, i), kept = places[i - 1];
        places[i - 1] = places[with];
        places[with] = kept;
    }
}

/*
 * Exactly these shares, at places that are drawn. The multis are the same for each share of aborts, and whoever is
 * aborted at one share is at every larger one: so two points differ by nothing but the decisions between them.
 */
static void draw(fate *fates, uint32_t multis, uint32_t aborts)
{
    static uint32_t places[TRANSACTIONS];
    uint32_t i, seed = 1, count = TRANSACTIONS * multis / 100;
    for (i = 0; i < TRANSACTIONS; i++) {
        places[i] = i + 1;
        fates[i + 1] = SINGLE;
    }
    shuffle(places, TRANSACTIONS, &seed);
    for (i = 0; i < count; i++) {
        fates[places[i]] = i * 100 < aborts * count ? ABORTED : COMMITS;
    }
}

/*
 * One call, laid down as a step with what came back. Every fragment here is a first one, so whatever left the waiting
 * queue in this call ran once, and nothing else did.
 */
static void take(tally *t, const plan *p, step *s, const fate *fates, const engine *e, harukdalis_record *record,
                 uint32_t *cells)
{
    uint32_t kind = s->event[HARUKDALIS_EVENT_KIND], number = s->event[HARUKDALIS_EVENT_NUMBER], i;
    uint32_t undone = kind == HARUKDALIS_ABORT ? record->uncommitted - 1 : 0;
    uint32_t to_run = record->waiting + undone + (kind == HARUKDALIS_FRAGMENT);
    must(step_on(e, record, cells, p, s, room, &s->answers) == HARUKDALIS_ACCEPTED, "a load", "a returned number");
    t->runs += to_run - record->waiting;
    t->undone += undone;
    if (kind == HARUKDALIS_ABORT) {
        t->aborts++;
        /* Every answer that a coordinator has to a larger number is of an attempt that is over. */
        memset(&t->answered[number], 0, (TRANSACTIONS + 1 - number) * sizeof(uint32_t));
    } else if (kind == HARUKDALIS_COMMIT) {
        t->order[t->settled++] = number;
    }
    for (i = 0; i < s->answers; i++) {
        const uint32_t *answer = &room[i * HARUKDALIS_ANSWER_WORDS];
        uint32_t whose = answer[HARUKDALIS_ANSWER_TRANSACTION];
        t->answered[whose] = t->slots;
        t->attempt[whose] = answer[HARUKDALIS_ANSWER_ATTEMPT];
        if (fates[whose] == SINGLE) {
            t->order[t->settled++] = whose;
            t->waited += t->slots - t->arrived[whose];
            memcpy(t->of_single[whose], answer, sizeof t->of_single[whose]);
            t->of_single[whose][HARUKDALIS_ANSWER_ATTEMPT] = 0; /* the schemes agree on all else */
        }
    }
}

/* The whole load by one scheme, until nothing is live: its calls, as a plan, and what it came to. */
static plan *play(const fate *fates, const engine *e, tally *t)
{
    plan *p = plan_new(CELLS, 1);
    prepared made = set_up("a load", p, e);
    harukdalis_record *record = made.state;
    uint32_t next = 1, undecided = 1;
    while (next <= TRANSACTIONS || record->uncommitted + record->waiting > 0) {
        t->slots++;
        must(t->slots <= TRANSACTIONS * (1 + DELAY), "a load", "its end");
        if (next <= TRANSACTIONS && record->uncommitted + record->waiting < CLIENTS) {
            uint32_t flags = HARUKDALIS_LAST | (fates[next] == SINGLE ? 0 : HARUKDALIS_MULTI);
            effect kept = fates[next] == ABORTED ? LOST : KEPT;
            t->arrived[next] = t->slots;
            take(t, p, plan_adds(p, 1, next, flags, OPERATIONS, kept, 0), fates, e, record, made.cells);
            next++;
        }
        for (; undecided < next; undecided++) {
            uint32_t kind = fates[undecided] == COMMITS ? HARUKDALIS_COMMIT : HARUKDALIS_ABORT;
            if (fates[undecided] == SINGLE) {
                continue;
            }
            if (t->answered[undecided] == 0 || t->slots < t->answered[undecided] + DELAY) {
                break;
            }
            take(t, p, plan_step(p, 1, kind, undecided, HARUKDALIS_ACCEPTED, 0), fates, e, record, made.cells);
        }
    }
    take_down(&made);
    return p;
}

/* The calls of a plan on another engine. */
static plan *same_calls(const plan *from, const fate *fates, const engine *e, tally *t)
{
    plan *p = plan_new(CELLS, 1);
    prepared made = set_up("a load", p, e);
    memcpy(p->timed, from->timed, from->timed_count * sizeof(step));
    memcpy(p->expected, from->expected, CELLS * sizeof(uint32_t));
    for (p->timed_count = 0; p->timed_count < from->timed_count; p->timed_count++) {
        take(t, p, &p->timed[p->timed_count], fates, e, made.state, made.cells);
    }
    take_down(&made);
    return p;
}

/* Each undoing is one more attempt of one transaction, and the last answer of each is that of its last attempt. */
static uint32_t attempts_over(const tally *t)
{
    uint32_t number, sum = 0;
    for (number = 1; number <= TRANSACTIONS; number++) {
        sum += t->attempt[number] - 1;
    }
    return sum;
}

/* What both schemes owe each other and the rules, over one load. */
static void must_agree(const point *o)
{
    const tally *one = o->came[SPECULATION];
    int way;
    for (way = 0; way < WAYS; way++) {
        must(attempts_over(o->came[way]) == o->came[way]->undone, o->name, "the attempts");
    }
    must(one->settled + one->aborts == TRANSACTIONS, o->name, "settled and aborted");
    must(one->runs == TRANSACTIONS + one->undone, o->name, "runs by speculation");
    must(one->undone <= (HARUKDALIS_DEPTH - 1) * one->aborts, o->name, "what aborts undo");
    for (way = BLOCKING; way < WAYS; way++) {
        const tally *other = o->came[way];
        must(one->settled == other->settled && memcmp(one->order, other->order, sizeof one->order) == 0, o->name,
             "the order of settling by both schemes");
        must(memcmp(one->of_single, other->of_single, sizeof one->of_single) == 0, o->name,
             "the answers of singles by both schemes");
        must(other->runs == TRANSACTIONS, o->name, "runs by blocking");
    }
}

static void make(point *o, uint32_t multis, uint32_t aborts)
{
    static fate fates[TRANSACTIONS + 1];
    int way;
    *o = (point){.multis = multis, .aborts = aborts, .singles = TRANSACTIONS - TRANSACTIONS * multis / 100};
    snprintf(o->name, sizeof o->name, "%u %% multis, %u %% aborted", (unsigned)multis, (unsigned)aborts);
    draw(fates, multis, aborts);
    for (way = 0; way < WAYS; way++) {
        const engine *e = by[way];
        tally *t = o->came[way] = room_for(1, sizeof(tally));
        o->work[way] = way == SAME_CALLS ? same_calls(o->work[SPECULATION], fates, e, t) : play(fates, e, t);
        compare(o->name, o->work[way], e, by_independent[way]);
    }
    must_agree(o);
}

/* One round: the unit and all ways side by side. */
typedef struct one_round {
    const point *of;
    const prepared *from;
    size_t at;
    double *unit;
} one_round;

static void do_round(void *with)
{
    const one_round *o = with;
    int way;
    o->unit[o->at] = unit_batch();
    for (way = 0; way < WAYS; way++) {
        const plan *p = o->of->work[way];
        double ns = batch(o->of->name, p, &o->from[way], taken);
        o->of->times[way][o->at] = ns * (double)p->timed_count / o->of->came[way]->settled;
    }
}

static void measure(point *o, size_t rounds, size_t warmup, double *unit)
{
    prepared from[WAYS];
    one_round r = {.of = o, .from = from, .unit = unit};
    size_t round;
    int way;
    for (way = 0; way < WAYS; way++) {
        from[way] = set_up(o->name, o->work[way], by[way]);
        o->times[way] = room_for(rounds, sizeof(double));
    }
    for (round = 0; round < warmup + rounds; round++) {
        r.at = round < warmup ? 0 : round - warmup;
        in_round(round, do_round, &r);
    }
    for (way = 0; way < WAYS; way++) {
        qsort(o->times[way], rounds, sizeof(double), rising);
        take_down(&from[way]);
    }
}

static void write_points(const point *points, size_t count, size_t rounds, double *unit)
{
    size_t units = count * rounds, i;
    int way;
    qsort(unit, units, sizeof(double), rising);
    printf("# rounds: %zu after warm-up, of %d transactions of %d operations\n", rounds, TRANSACTIONS, OPERATIONS);
    printf("# load: %d clients, a multi decided %d slots after its answer\n", CLIENTS, DELAY);
    printf("multis,aborts,scheme,best_ns,median_ns,best_ratio,median_ratio,runs,single_waits,settled_a_slot\n");
    for (i = 0; i < count; i++) {
        for (way = 0; way < WAYS; way++) {
            const point *o = &points[i];
            const tally *t = o->came[way];
            double best = o->times[way][0], median = o->times[way][rounds / 2];
            printf("%u,%u,%s,%.1f,%.1f,%.3f,%.3f,%.3f,", (unsigned)o->multis, (unsigned)o->aborts, way_name[way], best,
                   median, best / unit[0], median / unit[units / 2], (double)t->runs / t->settled);
            if (way == SAME_CALLS) {
                printf(",\n"); /* its slots are not its own */
            } else {
                printf("%.2f,%.3f\n", (double)t->waited / o->singles, (double)t->settled / t->slots);
            }
        }
    }
}

size_t compare_schemes(size_t rounds, size_t warmup)
{
    static point points[MIXES * ABORTS];
    double *unit = room_for(MIXES * ABORTS * rounds + 1, sizeof(double));
    size_t count = 0, mix, share;
    int way;
    for (mix = 0; mix < MIXES; mix++) {
        for (share = 0; share < ABORTS; share++, count++) {
            make(&points[count], shares_of_multis[mix], shares_of_aborts[share]);
            if (rounds > 0) {
                fprintf(stderr, "%2zu of %d: %s\n", count + 1, MIXES * ABORTS, points[count].name);
                measure(&points[count], rounds, warmup, unit + count * rounds);
            }
        }
    }
    if (rounds > 0) {
        write_points(points, count, rounds, unit);
    }
    while (count-- > 0) {
        for (way = 0; way < WAYS; way++) {
            plan_drop(points[count].work[way]);
            free(points[count].came[way]);
            free(points[count].times[way]);
        }
    }
    free(unit);
    return MIXES * ABORTS;
}
