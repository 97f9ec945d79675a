/*
 * main.c: the rows, the rounds and their CSV. Built and run by bench/run.
 *
 *   bench rows ROUNDS WARMUP      progress to standard error, the CSV of the rows to standard output; partitions and
 *                                 threads are among them: partitions.c
 *   bench schemes ROUNDS WARMUP   the same of the two schemes over the share of aborts: schemes.c
 *   bench --check                 the work of both once, and nothing of the clock
 */
#include "bench.h"

#include <stdio.h>
#include <stdlib.h>
#include <string.h>

/* Copies: 64 records are 636 KB. A thread calls long enough that how it starts makes no odds. */
enum { CYCLES = 20, COPIES = 64, RUN = 8, THREAD_PARTITIONS = 100, THREAD_CALLS = 6400, MOST_ROWS = 64 };

/* Of what is drawn for partitions and threads. */
static const uint64_t SEED = 0x9e3779b97f4a7c15;

/* Those that a row is timed with. */
enum { PROVED, INDEPENDENT, BLOCKING, TIMED };
static const char *const engine_name[TIMED] = {"proved", "independent", "blocking"};

/*
 * A row, and its times in nanoseconds a call. Bounds are upper ones on the ratio to (a), 0 where there is none. The
 * work is a plan, or idle singles on as many partitions as x says.
 */
typedef struct row {
    const char *group, *name;
    uint32_t x;
    plan *work;
    int blocking; /* timed by blocking too; the same must come back */
    double target, beyond;
    double *times[TIMED];
} row;

static row rows[MOST_ROWS];
static size_t row_count;

static double stock_batch(stock *s, const row *r, uint64_t sum)
{
    double began, ended;
    uint64_t got;
    stock_reset(s, r->work);
    began = now();
    got = stock_run(s, r->work);
    ended = now();
    must(got == sum && stock_equal(s, r->work->expected, r->work->cells), "SQLite", "the contents");
    return (ended - began) / (double)r->work->timed_count;
}

/* One round: all side by side, so that what disturbs one disturbs the others too. */
typedef struct one_round {
    const row *of;
    const prepared *from;
    fleet *const *fleets;
    size_t at;
    stock *s;
    uint64_t sum;
    double *unit, *of_stock;
} one_round;

static void do_round(void *with)
{
    const one_round *o = with;
    const row *r = o->of;
    size_t e;
    o->unit[o->at] = unit_batch();
    for (e = 0; e < TIMED; e++) {
        if (r->times[e] != NULL) {
            r->times[e][o->at] =
                r->work != NULL ? batch(r->name, r->work, &o->from[e], now) : fleet_batch(o->fleets[e]);
        }
    }
    if (o->s != NULL) {
        o->of_stock[o->at] = stock_batch(o->s, r, o->sum);
    }
}

/* The first of sorted times is the best, the middle one the median. */
static void write_row(const row *r, const char *name, double best, double median, const double *unit, size_t units)
{
    printf("%s,%s,%u,%s,%.1f,%.1f,%.3f,%.3f,", r->group, r->name, (unsigned)r->x, name, best, median, best / unit[0],
           median / unit[units / 2]);
    printf(r->target > 0 ? "%.2f," : ",", r->target);
    printf(r->beyond > 0 ? "%.2f\n" : "\n", r->beyond);
}

static row *add(const char *group, const char *name, uint32_t x, plan *work)
{
    row *r = &rows[row_count++];
    must(row_count <= MOST_ROWS, "rows", "their number");
    *r = (row){.group = group, .name = name, .x = x, .work = work};
    return r;
}

static row *idle_of_2;

/* The cost of one more drained transaction: 32 more wait, and by speculation the same 15 were speculated. */
typedef struct slope {
    const char *name;
    const row *less, *most;
    double target;
} slope;

static slope slopes[] = {{.name = "one more drained transaction", .target = 0.10},
                         {.name = "one more drained that can't fail"}};

static void add_rows(void)
{
    static const uint32_t cells[] = {1, 16, 256, 1024, 4096}, partitions[] = {1, 100, 10000};
    uint32_t i;
    row *r;
    r = add("row", "refusal 4", 0, plan_refusal_4(CALLS));
    r->target = 0.03;
    r->blocking = 1;
    add("row", "refusal 14", 0, plan_refusal_14(CALLS));
    add("row", "idle single of 1", 0, plan_idle(256, 1, MAY_FAIL, CALLS));
    r = idle_of_2 = add("row", "idle single of 2", 0, plan_idle(256, 2, MAY_FAIL, CALLS));
    r->target = 0.10;
    r->blocking = 1;
    add("row", "idle single of 2 that can't fail", 0, plan_idle(256, 2, CANT_FAIL, CALLS));
    add("row", "idle single of 8", 0, plan_idle(256, 8, MAY_FAIL, CALLS));
    r = add("row", "run of 8 idle singles of 2", 0, plan_idle(256, 2, MAY_FAIL, CALLS));
    r->work->together = RUN;
    r = add("row", "nine singles to one multi", 0, plan_mix(CYCLES));
    r->target = 0.26;
    r->beyond = 0.19;
    r->blocking = 1;
    r = add("row", "commit that drains 31", 0, plan_commit(31, MAY_FAIL, COPIES));
    slopes[0].less = r;
    r->blocking = 1;
    r = add("row", "commit that drains 63", 0, plan_commit(63, MAY_FAIL, COPIES));
    slopes[0].most = r;
    r->blocking = 1;
    slopes[1].less = add("row", "commit that drains 31 that can't fail", 0, plan_commit(31, CANT_FAIL, COPIES));
    slopes[1].most = add("row", "commit that drains 63 that can't fail", 0, plan_commit(63, CANT_FAIL, COPIES));
    r = add("row", "abort that undoes 15", 0, plan_abort(15, COPIES));
    r->target = 2.3;
    r->blocking = 1;
    for (i = 0; i < sizeof cells / sizeof *cells; i++) {
        add("cells", "idle single of 2", cells[i], plan_idle(cells[i], 2, MAY_FAIL, CALLS));
    }
    for (i = 0; i <= 60; i += 10) {
        add("waiting", "single that joins", i, plan_join(i, COPIES));
    }
    for (i = 1; i <= HARUKDALIS_MOST_OPERATIONS; i++) {
        add("operations", "idle single", i, plan_idle(256, i, MAY_FAIL, CALLS));
    }
    for (i = 0; i < sizeof partitions / sizeof *partitions; i++) {
        add("partitions", "idle single of 2", partitions[i], NULL);
    }
}

static void write_all(size_t rounds, double *unit, size_t units, double *of_stock, double *const *of_threads)
{
    size_t i, e, middle = rounds / 2;
    row by = {.group = "row", .name = "by value"}, in_stock = {.group = "row", .name = "idle single of 2"};
    qsort(unit, units, sizeof(double), rising);
    printf("# rounds: %zu after warm-up, of %d calls, %d in the mix, or %d calls on copies\n", rounds, CALLS,
           CYCLES * 11, COPIES);
    printf("# sqlite: %s\n", stock_version() != NULL ? stock_version() : "left out, since sqlite3.h was not there");
    if (processors() < MOST_THREADS) {
        printf("# threads: left out, since there is one processor\n");
    }
    printf("group,row,x,engine,best_ns,median_ns,best_ratio,median_ratio,target,beyond\n");
    write_row(&by, "by value", unit[0], unit[units / 2], unit, units);
    for (i = 0; i < row_count; i++) {
        row *r = &rows[i], plain = {.group = r->group, .name = r->name, .x = r->x};
        for (e = 0; e < TIMED; e++) {
            if (r->times[e] != NULL) {
                qsort(r->times[e], rounds, sizeof(double), rising);
                write_row(e == PROVED ? r : &plain, engine_name[e], r->times[e][0], r->times[e][middle], unit, units);
            }
        }
    }
    for (i = 0; i < sizeof slopes / sizeof *slopes; i++) {
        for (e = 0; e < TIMED; e++) {
            const double *most = slopes[i].most->times[e], *less = slopes[i].less->times[e];
            row r = {.group = "row", .name = slopes[i].name, .target = e == PROVED ? slopes[i].target : 0};
            if (most != NULL) {
                double best = (most[0] - less[0]) / 32, median = (most[middle] - less[middle]) / 32;
                write_row(&r, engine_name[e], best, median, unit, units);
            }
        }
    }
    if (stock_version() != NULL) {
        qsort(of_stock, rounds, sizeof(double), rising);
        write_row(&in_stock, "sqlite", of_stock[0], of_stock[middle], unit, units);
    }
    for (i = 0; i < MOST_THREADS && processors() >= MOST_THREADS; i++) {
        row r = {.group = "threads", .name = "idle single of 2", .x = (uint32_t)i + 1};
        qsort(of_threads[i], rounds, sizeof(double), rising);
        write_row(&r, engine_name[PROVED], of_threads[i][0], of_threads[i][middle], unit, units);
    }
}

/* So many rounds of one row, whose work is prepared. */
static void do_rounds(one_round *o, size_t rounds, size_t warmup)
{
    size_t round;
    for (round = 0; round < warmup + rounds; round++) {
        o->at = round < warmup ? 0 : round - warmup;
        in_round(round, do_round, o);
    }
}

static void do_plan(one_round *o, size_t rounds, size_t warmup)
{
    static const engine *const timed[TIMED] = {&proved, &independent, &proved_blocking};
    const row *r = o->of;
    prepared from[TIMED];
    size_t e;
    o->from = from;
    o->sum = compare(r->name, r->work, &proved, &independent);
    o->s = r == idle_of_2 ? stock_open(r->work) : NULL;
    if (r->blocking) {
        compare(r->name, r->work, &proved_blocking, &independent_blocking);
    }
    for (e = 0; e < TIMED; e++) {
        from[e] = set_up(r->name, r->work, timed[e]);
    }
    do_rounds(o, rounds, warmup);
    if (o->s != NULL) {
        stock_close(o->s);
    }
    for (e = 0; e < TIMED; e++) {
        take_down(&from[e]);
    }
}

static void do_partitions(one_round *o, size_t rounds, size_t warmup)
{
    fleet *fleets[TIMED] = {fleet_new(&proved, o->of->x, CALLS, SEED), fleet_new(&independent, o->of->x, CALLS, SEED)};
    size_t e;
    o->fleets = fleets;
    fleets_compare(fleets[PROVED], fleets[INDEPENDENT]);
    for (e = PROVED; e <= INDEPENDENT; e++) {
        fleet_warm(fleets[e]);
    }
    do_rounds(o, rounds, warmup);
    for (e = PROVED; e <= INDEPENDENT; e++) {
        fleet_check(fleets[e]);
        fleet_drop(fleets[e]);
    }
}

/* One thread and two, one after the other in each round. */
typedef struct thread_round {
    fleet *fleets[MOST_THREADS];
    double *const *times;
    size_t at;
} thread_round;

static void do_thread_round(void *with)
{
    const thread_round *t = with;
    size_t threads;
    for (threads = 1; threads <= MOST_THREADS; threads++) {
        t->times[threads - 1][t->at] = threads_batch(t->fleets, threads);
    }
}

static void do_threads(double *const *times, size_t rounds, size_t warmup)
{
    thread_round t = {.times = times};
    size_t i, round;
    for (i = 0; i < MOST_THREADS; i++) {
        t.fleets[i] = fleet_new(&proved, THREAD_PARTITIONS, THREAD_CALLS, SEED + i);
    }
    for (round = 0; round < warmup + rounds; round++) {
        t.at = round < warmup ? 0 : round - warmup;
        in_round(round, do_thread_round, &t);
    }
    for (i = 0; i < MOST_THREADS; i++) {
        fleet_check(t.fleets[i]);
        fleet_drop(t.fleets[i]);
    }
}

/* Every row, compared and in so many rounds; as CSV unless it is only a check. */
static void do_rows(int check, size_t rounds, size_t warmup)
{
    double *unit, *of_stock, *of_threads[MOST_THREADS];
    size_t units = 0, i, e;
    add_rows();
    unit = room_for(row_count * rounds, sizeof(double));
    of_stock = room_for(rounds, sizeof(double));
    for (i = 0; i < row_count; i++) {
        row *r = &rows[i];
        one_round o = {.of = r, .unit = unit + units, .of_stock = of_stock};
        for (e = 0; e < TIMED; e++) {
            r->times[e] = e != BLOCKING || r->blocking ? room_for(rounds, sizeof(double)) : NULL;
        }
        if (!check) {
            fprintf(stderr, "%2zu of %zu: %s", i + 1, row_count, r->name);
            fprintf(stderr, strcmp(r->group, "row") == 0 ? "\n" : ", %s %u\n", r->group, (unsigned)r->x);
        }
        if (r->work != NULL) {
            do_plan(&o, rounds, warmup);
        } else {
            do_partitions(&o, rounds, warmup);
        }
        units += rounds;
    }
    for (i = 0; i < MOST_THREADS; i++) {
        of_threads[i] = room_for(rounds, sizeof(double));
    }
    /* What they give is asked on one processor too. */
    if (check || processors() >= MOST_THREADS) {
        do_threads(of_threads, rounds, warmup);
    }
    if (!check) {
        write_all(rounds, unit, units, of_stock, of_threads);
    }
    for (i = 0; i < row_count; i++) {
        if (rows[i].work != NULL) {
            plan_drop(rows[i].work);
        }
        for (e = 0; e < TIMED; e++) {
            free(rows[i].times[e]);
        }
    }
    for (i = 0; i < MOST_THREADS; i++) {
        free(of_threads[i]);
    }
    free(unit);
    free(of_stock);
}

int main(int argc, char **argv)
{
    int check = argc == 2 && strcmp(argv[1], "--check") == 0;
    size_t rounds = argc == 4 ? strtoul(argv[2], NULL, 10) : 0, warmup = argc == 4 ? strtoul(argv[3], NULL, 10) : 0;
    must(harukdalis_record_bytes() == sizeof(harukdalis_record), "the archive", "the size of a record");
    if (check) {
        size_t points = compare_schemes(0, 0);
        do_rows(check, 1, 0);
        printf("bench: %zu rows, %d threads and %zu loads by both schemes give what they must, %s\n", row_count,
               MOST_THREADS, points, stock_version() != NULL ? "SQLite too" : "SQLite is left out");
    } else if (rounds > 0 && strcmp(argv[1], "rows") == 0) {
        do_rows(check, rounds, warmup);
    } else if (rounds > 0 && strcmp(argv[1], "schemes") == 0) {
        compare_schemes(rounds, warmup);
    } else {
        fprintf(stderr, "usage: bench rows|schemes ROUNDS WARMUP | bench --check\n");
        return 2;
    }
    return 0;
}
