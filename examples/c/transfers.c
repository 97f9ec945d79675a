/*
 * transfers.c: two partitions, one or two coordinators and their clients in one process, and between them a network
 * that delays, reorders, doubles and loses every message. Clients sell and take in stock at one partition (singles) and
 * move stock between shelves (multis of one to three rounds, whose amounts depend on the answers of the round before).
 * Some fail, and some are given up when their time is over.
 *
 * What a host needs is in "A partition's host" and "A coordinator": docs/INTEGRATION.md has the same rules in words.
 * The rest is the world around them, and at the end the proof of the rules: everything is decided, no stock is lost,
 * and all shelves and every answer that anybody acted on are those of a run one at a time of what committed. Anything
 * else ends the program with status 1. The same words on the command line print the same lines, in C and in Rust.
 *
 * tools/archive
 * cc -std=c99 -Wall -Wextra -Werror -O2 -Iinclude examples/c/transfers.c target/archive/libharukdalis.a \
 *    -o target/transfers
 * target/transfers | cmp - examples/c/transfers.expected
 *
 * transfers [--transactions N] [--seed S] [--scheme speculation|blocking|mixed] [--coordinators 1|2] [--old-rule]
 *
 * With --old-rule the coordinators go by counts of aborts and not by attempts, as they had to before answers had any.
 * That rule rests on the order of messages: where it reads a dependence, the run fails.
 */
#include "harukdalis.h"

#include <stdarg.h>
#include <stdbool.h>
#include <stdio.h>
#include <stdlib.h>
#include <string.h>

enum {
    PARTITIONS = 2,
    COORDINATORS = 2, /* at most; they are 1 and 2, as the engine has them */
    SHELVES = 6,      /* of a partition: few, so that the transactions meet */
    STOCK = 60,       /* of a shelf at the start */
    ROUNDS = 3,       /* of a multi, at most; each has a fragment for every partition that takes part */
    OPS = 2,          /* of a fragment, at most */
    IN_FLIGHT = 100,  /* transactions at once: at times a partition has more than it takes (10) */
    MOST_TRANSACTIONS = 1000000
};

typedef enum scheme { SPECULATION, BLOCKING, MIXED } scheme;

/* What the command line says. */
static uint32_t asked = 2000;
static uint64_t seed = 1;
static scheme by = SPECULATION;
static uint32_t coordinator_count = 1;
static bool old_rule = false;

/* What the last lines tell. */
static struct {
    uint64_t sold, failed_singles, committed, failed_multis, given_up;
    uint64_t believed, stale, old, late;
    uint32_t largest_attempt;
    uint64_t messages, copies, lost, overtaken;
    uint64_t refusals[HARUKDALIS_FAILED + 1];
    uint64_t put_in, taken_out;
} counts;

/* Something is not as it must be. */
static void fail(const char *words, ...)
{
    va_list values;
    va_start(values, words);
    fflush(stdout);
    fprintf(stderr, "transfers: ");
    vfprintf(stderr, words, values);
    fprintf(stderr, "\n");
    va_end(values);
    exit(1);
}

/* ---- Dice: splitmix64, so that a run is the same everywhere. ----------------------------------------------------- */

typedef struct dice {
    uint64_t state;
} dice;

/* A number below n. */
static uint32_t below(dice *d, uint32_t n)
{
    uint64_t z = d->state += 0x9e3779b97f4a7c15u;
    z = (z ^ (z >> 30)) * 0xbf58476d1ce4e5b9u;
    z = (z ^ (z >> 27)) * 0x94d049bb133111ebu;
    z ^= z >> 31;
    return (uint32_t)(((z >> 32) * n) >> 32);
}

static bool one_in(dice *d, uint32_t n)
{
    return below(d, n) == 0;
}

/* ---- The network ------------------------------------------------------------------------------------------------- */

/* Addresses: the partitions from 0, the clients, the coordinators. A fragment is from CLIENTS + its coordinator. */
enum { CLIENTS = PARTITIONS, ADDRESSES = CLIENTS + 1 + COORDINATORS };

typedef enum kind { FRAGMENT, DECISION, ANSWER, ACKNOWLEDGEMENT, ALARM } kind;

typedef struct message {
    struct message *next;
    kind kind;
    uint32_t from, to;
    uint32_t order;  /* among those on its way */
    uint32_t number; /* of the transaction */
    /* Which of its transaction's fragments at that partition this is, or answers, from 1. No word of an event or of an
     * answer tells it, so it travels beside them. */
    uint32_t fragment;
    uint32_t after;  /* with a first fragment: the number that is ahead of it in that partition's line */
    uint32_t aborts; /* with what a partition sends, for the old rule alone: how many aborts it has accepted */
    uint32_t words[HARUKDALIS_EVENT_WORDS]; /* an event, or an answer */
} message;

enum { DAYS = 4096, TRIES = 6 }; /* nothing is under way for DAYS ticks or more */

static struct {
    dice dice;
    uint32_t slowest, doubled, lost; /* the weather of this run: ticks, and one in so many */
    uint64_t now;
    struct day {
        message *first, **end;
    } days[DAYS];
    uint64_t under_way;
    uint32_t sent[ADDRESSES][ADDRESSES], arrived[ADDRESSES][ADDRESSES];
} net;

static void start_network(void)
{
    uint32_t i;
    net.dice.state = seed;
    net.slowest = 2u << below(&net.dice, 7);
    net.doubled = 2u << below(&net.dice, 4);
    net.lost = 4u << below(&net.dice, 5);
    for (i = 0; i < DAYS; i++) {
        net.days[i].end = &net.days[i].first;
    }
}

static void put(const message *m, uint32_t ticks)
{
    struct day *day = &net.days[(net.now + ticks) % DAYS];
    message *copy = malloc(sizeof *copy);
    if (copy == NULL) {
        fail("no memory");
    }
    *copy = *m;
    copy->next = NULL;
    *day->end = copy;
    day->end = &copy->next;
    net.under_way++;
}

/* A copy goes out, after some ticks. Now and then one takes much longer than the others. */
static void send_copy(const message *m, uint32_t ticks)
{
    uint32_t slowest = one_in(&net.dice, 16) ? 8 * net.slowest : net.slowest;
    put(m, ticks + 1 + below(&net.dice, slowest));
    counts.copies++;
}

/*
 * All that the rules ask of a network is that each message arrives at least once, at some time. So its sender sends it
 * again until it has a receipt: what is lost comes later, and what arrived is doubled where only its receipt was lost.
 * Of the receipts just this is played here.
 */
static void post(message m)
{
    uint32_t try, again = 2 * net.slowest;
    bool receipt = false;
    m.order = ++net.sent[m.from][m.to];
    counts.messages++;
    for (try = 0; !receipt; try++) {
        bool last = try + 1 == TRIES;
        if (!one_in(&net.dice, net.lost) || last) {
            send_copy(&m, try * again);
            receipt = !one_in(&net.dice, net.lost) || last;
        } else {
            counts.lost++;
        }
    }
    if (one_in(&net.dice, net.doubled)) {
        send_copy(&m, 0);
    }
}

/* ---- Transactions ------------------------------------------------------------------------------------------------ */

typedef struct op {
    uint32_t code, cell, amount;
} op;

typedef struct fragment {
    uint32_t count;
    op ops[OPS];
} fragment;

/* What a fragment gave: a place and the number found, or a number for each operation. */
typedef struct outcome {
    uint32_t place, count, numbers[OPS];
} outcome;

/* What a transaction is to one of its partitions. A round's fragment is in place round - 1. */
typedef struct part {
    fragment fragments[ROUNDS];
    outcome told[ROUNDS]; /* what was acted on: used for an amount, for a decision, or shown to a client */
    uint32_t believed;    /* how many rounds of these there are */
    uint32_t after;       /* the number ahead of it in this partition's line */
    uint32_t newest;      /* the largest attempt in an answer to this round; 0 before there is one */
    bool kept;            /* that answer has not been judged yet */
    uint32_t answer[HARUKDALIS_ANSWER_WORDS];
    bool acknowledged; /* the decision was carried out */
} part;

typedef struct transaction {
    uint32_t coordinator; /* 0 for a single */
    uint32_t next;        /* the next multi of its coordinator */
    uint32_t rounds, round;
    uint32_t from, from_shelf, to, to_shelf; /* partitions and shelves of a transfer */
    uint32_t amount, floor; /* what is moved in one round; what must be left after each of several */
    uint32_t limit;         /* ticks until it is given up; 0 for never */
    bool given_up;
    uint32_t decision; /* 0, HARUKDALIS_COMMIT or HARUKDALIS_ABORT */
    part parts[PARTITIONS];
} transaction;

static transaction *transactions; /* by number, from 1 */
static uint32_t in_flight;

static bool takes_part(const transaction *t, uint32_t partition)
{
    return t->parts[partition].fragments[0].count > 0;
}

static outcome outcome_of(const uint32_t *answer)
{
    outcome told = {answer[HARUKDALIS_ANSWER_PLACE], answer[HARUKDALIS_ANSWER_COUNT], {0}};
    memcpy(told.numbers, answer + HARUKDALIS_ANSWER_NUMBERS, sizeof told.numbers);
    return told;
}

static void believe(part *p, const uint32_t *answer)
{
    p->told[p->believed++] = outcome_of(answer);
    counts.believed++;
}

/* One operation more in this round's fragment. */
static void ask(transaction *t, uint32_t partition, uint32_t code, uint32_t cell, uint32_t amount)
{
    fragment *f = &t->parts[partition].fragments[t->round - 1];
    op *o = &f->ops[f->count++];
    o->code = code;
    o->cell = cell;
    o->amount = amount;
}

/* The content of a shelf, as the answer of the round before tells it. */
static uint32_t content(const part *p)
{
    return p->told[p->believed - 1].numbers[0];
}

/* What a multi asks in its next round. In one round it moves its amount. In several it first reads, and then moves
 * stock from the fuller shelf to the emptier one: in each round a part of the difference that the last answers tell. */
static void plan_round(transaction *t)
{
    t->round++;
    if (t->rounds == 1) {
        ask(t, t->from, HARUKDALIS_TAKE, t->from_shelf, t->amount);
        ask(t, t->to, HARUKDALIS_ADD, t->to_shelf, t->amount);
    } else if (t->round == 1) {
        ask(t, t->from, HARUKDALIS_READ, t->from_shelf, 0);
        ask(t, t->to, HARUKDALIS_READ, t->to_shelf, 0);
    } else {
        uint32_t a = content(&t->parts[t->from]), b = content(&t->parts[t->to]);
        uint32_t amount = (a > b ? a - b : b - a) / (t->rounds - t->round + 2);
        ask(t, t->from, a > b ? HARUKDALIS_TAKE : HARUKDALIS_ADD, t->from_shelf, amount);
        ask(t, t->to, a > b ? HARUKDALIS_ADD : HARUKDALIS_TAKE, t->to_shelf, amount);
        ask(t, a > b ? t->from : t->to, HARUKDALIS_NEED, a > b ? t->from_shelf : t->to_shelf, t->floor);
    }
}

/* Sends this round's fragments, from the clients or from the coordinator. */
static void send_round(uint32_t number)
{
    transaction *t = &transactions[number];
    uint32_t p, i;
    for (p = 0; p < PARTITIONS; p++) {
        const fragment *f = &t->parts[p].fragments[t->round - 1];
        message m = {.kind = FRAGMENT, .from = CLIENTS + t->coordinator, .to = p, .number = number,
                     .fragment = t->round, .after = t->parts[p].after};
        if (!takes_part(t, p)) {
            continue;
        }
        t->parts[p].newest = 0;
        t->parts[p].kept = false;
        m.words[HARUKDALIS_EVENT_KIND] = HARUKDALIS_FRAGMENT;
        m.words[HARUKDALIS_EVENT_NUMBER] = number;
        m.words[HARUKDALIS_EVENT_FLAGS] = (t->coordinator != 0 ? HARUKDALIS_MULTI : 0) +
                                          (t->round == t->rounds ? HARUKDALIS_LAST : 0);
        m.words[HARUKDALIS_EVENT_COORDINATOR] = t->coordinator;
        m.words[HARUKDALIS_EVENT_COUNT] = f->count;
        for (i = 0; i < f->count; i++) {
            uint32_t *at = m.words + HARUKDALIS_EVENT_OPERATIONS + i * HARUKDALIS_OPERATION_WORDS;
            at[HARUKDALIS_OPERATION_CODE] = f->ops[i].code;
            at[HARUKDALIS_OPERATION_CELL] = f->ops[i].cell;
            at[HARUKDALIS_OPERATION_AMOUNT] = f->ops[i].amount;
        }
        post(m);
    }
}

/* ---- A partition's host ------------------------------------------------------------------------------------------ */

/* What the host knows of a transaction until it is over. */
typedef struct seat {
    uint8_t coordinator; /* where its answers go */
    uint8_t fragments;   /* how many were accepted */
} seat;

typedef struct partition {
    harukdalis_record record;
    uint32_t cells[SHELVES];
    dice dice;        /* for the scheme of each call, where they are mixed */
    uint32_t largest; /* the largest number accepted */
    seat *seats;      /* by number */
    uint32_t aborts;  /* how many were accepted */
    message *line;    /* first fragments that are early or were refused by 10; in number order */
    message *early;   /* later fragments and decisions for one that is not the front yet; in number order */
} partition;

static partition partitions[PARTITIONS];
static uint32_t room[HARUKDALIS_LEAST_ROOM]; /* one for all: the answers are taken away before it is lent again */

static uint32_t call(partition *host, const message *m, uint32_t *answers)
{
    bool blocks = by == BLOCKING || (by == MIXED && one_in(&host->dice, 2));
    uint32_t number = (blocks ? harukdalis_call_blocking : harukdalis_call)(
        &host->record, host->cells, SHELVES, m->words, HARUKDALIS_EVENT_WORDS, room, HARUKDALIS_LEAST_ROOM, answers);
    counts.refusals[number]++;
    return number;
}

/* Sends each answer to where its own transaction came from: it need not be the one whose message made the call. */
static void send_answers(partition *host, uint32_t answers)
{
    uint32_t i;
    for (i = 0; i < answers; i++) {
        const uint32_t *words = room + i * HARUKDALIS_ANSWER_WORDS;
        uint32_t number = words[HARUKDALIS_ANSWER_TRANSACTION];
        /* The newest fragment is the one that is answered: a second one is only accepted of a front, and answered in
         * its own call; whatever runs again has had its first one only. */
        message m = {.kind = ANSWER, .from = (uint32_t)(host - partitions),
                     .to = CLIENTS + host->seats[number].coordinator, .number = number,
                     .fragment = host->seats[number].fragments, .aborts = host->aborts};
        memcpy(m.words, words, HARUKDALIS_ANSWER_WORDS * sizeof *words);
        if (words[HARUKDALIS_ANSWER_ATTEMPT] > counts.largest_attempt) {
            counts.largest_attempt = words[HARUKDALIS_ANSWER_ATTEMPT];
        }
        post(m);
    }
}

/* Hands a fragment or a decision to the engine, each fragment once. False if it is early, and is to be tried again. */
static bool deliver(partition *host, const message *m)
{
    uint32_t answers, number;
    if (m->kind == FRAGMENT) {
        if (m->fragment == 1) {
            if (m->number <= host->largest) {
                return true; /* doubled */
            }
            if (m->after != host->largest) {
                return false; /* a smaller number is still to come, and would be skipped */
            }
        } else if (m->fragment <= host->seats[m->number].fragments) {
            return true; /* doubled: the engine would take it for the next one */
        }
    }
    number = call(host, m, &answers);
    switch (number) {
    case HARUKDALIS_ACCEPTED:
    case HARUKDALIS_NOT_LIVE: /* over: a doubled decision, or a fragment that came behind an abort */
        break;
    case HARUKDALIS_NOT_FRONT:
    case HARUKDALIS_TOO_MANY_LIVE:
    case HARUKDALIS_NOT_YET_ACCEPTED:
        return false;
    default: /* no other one can come where all keep to the rules */
        fail("the %s of %lu was refused by %lu", m->kind == FRAGMENT ? "fragment" :
             m->words[HARUKDALIS_EVENT_KIND] == HARUKDALIS_COMMIT ? "commit" : "abort",
             (unsigned long)m->number, (unsigned long)number);
    }
    if (number == HARUKDALIS_ACCEPTED && m->kind == FRAGMENT) {
        host->seats[m->number].coordinator = (uint8_t)m->words[HARUKDALIS_EVENT_COORDINATOR];
        host->seats[m->number].fragments = (uint8_t)m->fragment;
        if (m->fragment == 1) {
            host->largest = m->number;
        }
    }
    if (number == HARUKDALIS_ACCEPTED && m->words[HARUKDALIS_EVENT_KIND] == HARUKDALIS_ABORT) {
        host->aborts++;
    }
    if (m->kind == DECISION) {
        post((message){.kind = ACKNOWLEDGEMENT, .from = m->to, .to = m->from, .number = m->number,
                       .aborts = host->aborts});
    }
    send_answers(host, answers);
    return true;
}

/* Only the first of a row can be accepted next: first fragments go in by number, and the front is the smallest number
 * that is undecided here. */
static bool deliver_first(partition *host, message **row)
{
    message *first = *row;
    if (first == NULL || !deliver(host, first)) {
        return false;
    }
    *row = first->next;
    free(first);
    return true;
}

static void keep(message **row, message *m)
{
    while (*row != NULL && (*row)->number <= m->number) {
        row = &(*row)->next;
    }
    m->next = *row;
    *row = m;
}

/* What was early may be in time after any accepted call. */
static void at_partition(partition *host, message *m)
{
    keep(m->kind == FRAGMENT && m->fragment == 1 ? &host->line : &host->early, m);
    while (deliver_first(host, &host->line) || deliver_first(host, &host->early)) {
    }
}

/* ---- A coordinator ----------------------------------------------------------------------------------------------- */

typedef struct coordinator {
    uint32_t first, newest; /* its undecided multis, linked in number order; 0 for none */
    /*
     * The last multi that it committed at each partition, and the attempt in which it was answered there. A dependence
     * that holds can be on no other: it is on the nearest multi ahead there, and those ahead are all this coordinator's
     * and decided in number order.
     */
    struct {
        uint32_t number, attempt;
    } committed[PARTITIONS];
    uint32_t aborts[PARTITIONS]; /* for the old rule alone: the largest count acknowledged */
} coordinator;

static coordinator coordinators[1 + COORDINATORS]; /* from 1 */

/* By what an answer is newer than another to the same fragment. */
static uint32_t newness(const message *m)
{
    return old_rule ? 1 + m->aborts : m->words[HARUKDALIS_ANSWER_ATTEMPT];
}

/* Whether the newest answer of the oldest undecided multi holds. What it depends on is decided: it does, or never
 * will. */
static bool holds(const coordinator *c, uint32_t partition, const part *here)
{
    const uint32_t *answer = here->answer;
    uint32_t dependence = answer[HARUKDALIS_ANSWER_DEPENDENCE];
    if (dependence == 0) {
        return true; /* it was the front: nothing but its own abort can undo it */
    }
    if (dependence != c->committed[partition].number) {
        return false; /* it was aborted */
    }
    if (old_rule) {
        return here->newest > c->aborts[partition]; /* no abort was acknowledged that came behind this answer */
    }
    return answer[HARUKDALIS_ANSWER_DEPENDENCE_ATTEMPT] == c->committed[partition].attempt;
}

/* The time of a multi runs from when it is the oldest: before that it could not be decided. */
static void set_alarm(const coordinator *c)
{
    if (c->first != 0 && transactions[c->first].limit != 0) {
        message m = {.kind = ALARM, .to = CLIENTS + (uint32_t)(c - coordinators), .number = c->first};
        put(&m, transactions[c->first].limit);
    }
}

/* A decision goes to all that take part, also to one that failed and to those that have not answered. */
static void decide(coordinator *c, uint32_t decision)
{
    uint32_t number = c->first, p;
    transaction *t = &transactions[number];
    t->decision = decision;
    for (p = 0; p < PARTITIONS; p++) {
        message m = {.kind = DECISION, .from = CLIENTS + t->coordinator, .to = p, .number = number};
        if (!takes_part(t, p)) {
            continue;
        }
        if (decision == HARUKDALIS_COMMIT) {
            c->committed[p].number = number;
            c->committed[p].attempt = t->parts[p].answer[HARUKDALIS_ANSWER_ATTEMPT];
        }
        m.words[HARUKDALIS_EVENT_KIND] = decision;
        m.words[HARUKDALIS_EVENT_NUMBER] = number;
        post(m);
    }
    c->first = t->next;
    in_flight--;
    set_alarm(c);
}

/* Takes the oldest undecided multi as far as its answers go. True if it is decided now. */
static bool advance(coordinator *c)
{
    uint32_t number = c->first, p;
    transaction *t = &transactions[number];
    bool complete = true, failed = false;
    for (p = 0; p < PARTITIONS; p++) {
        part *here = &t->parts[p];
        if (!takes_part(t, p)) {
            continue;
        }
        if (here->kept) {
            here->kept = false;
            if (holds(c, p, here)) {
                believe(here, here->answer);
                failed = failed || here->answer[HARUKDALIS_ANSWER_PLACE] != 0;
            } else {
                counts.stale++; /* nothing to do: the partition has run it again, or will, and answers again */
            }
        }
        complete = complete && here->believed == t->round;
    }
    if (failed || t->given_up) {
        *(failed ? &counts.failed_multis : &counts.given_up) += 1;
        decide(c, HARUKDALIS_ABORT);
        return true;
    }
    if (complete && t->round == t->rounds) {
        counts.committed++;
        decide(c, HARUKDALIS_COMMIT);
        return true;
    }
    if (complete) {
        plan_round(t);
        send_round(number);
    }
    return false;
}

/* Keeps the newest answer of each partition to this round. */
static void take_answer(const message *m)
{
    transaction *t = &transactions[m->number];
    part *here = &t->parts[m->from];
    if (t->decision != 0) {
        counts.late++;
    } else if (m->fragment != t->round || here->believed == t->round || newness(m) <= here->newest) {
        counts.old++;
    } else {
        here->newest = newness(m);
        here->kept = true;
        memcpy(here->answer, m->words, sizeof here->answer);
    }
}

static void at_coordinator(coordinator *c, const message *m)
{
    transaction *t = &transactions[m->number];
    if (m->kind == ANSWER) {
        take_answer(m);
    } else if (m->kind == ACKNOWLEDGEMENT) {
        t->parts[m->from].acknowledged = true;
        c->aborts[m->from] = m->aborts > c->aborts[m->from] ? m->aborts : c->aborts[m->from];
    } else {
        t->given_up = t->decision == 0;
    }
    while (c->first != 0 && advance(c)) {
    }
}

/* ---- Clients, and the front door that numbers what they ask ------------------------------------------------------ */

static struct {
    dice dice;
    uint32_t number;           /* the last one given: one source for all, as a partition takes rising numbers only */
    uint32_t last[PARTITIONS]; /* the last one given for each partition */
    uint32_t coordinator;      /* of the multis of this batch */
} door;

static void ask_single(transaction *t)
{
    uint32_t p = below(&door.dice, PARTITIONS), shelf = below(&door.dice, SHELVES), what = below(&door.dice, 6);
    t->rounds = t->round = 1;
    if (what == 0) {
        ask(t, p, HARUKDALIS_READ, shelf, 0);
    } else if (what < 4) {
        ask(t, p, HARUKDALIS_TAKE, shelf, 1 + below(&door.dice, 20));
    } else {
        ask(t, p, HARUKDALIS_ADD, shelf, 1 + below(&door.dice, 28));
    }
    ask(t, p, HARUKDALIS_READ, (shelf + 1) % SHELVES, 0);
}

static void ask_multi(transaction *t)
{
    /* In batches, so that speculation finds several of one coordinator in a row. */
    if (door.coordinator == 0 || one_in(&door.dice, 8)) {
        door.coordinator = 1 + below(&door.dice, coordinator_count);
    }
    t->coordinator = door.coordinator;
    t->rounds = one_in(&door.dice, 4) ? 2 + below(&door.dice, ROUNDS - 1) : 1;
    t->from = below(&door.dice, PARTITIONS);
    t->from_shelf = below(&door.dice, SHELVES);
    t->to_shelf = below(&door.dice, SHELVES);
    t->to = t->rounds == 1 && one_in(&door.dice, 4) ? t->from : (t->from + 1) % PARTITIONS;
    t->amount = 1 + below(&door.dice, 24);
    t->floor = below(&door.dice, 12);
    t->limit = one_in(&door.dice, 4) ? net.slowest * (1 + below(&door.dice, 24)) : 0;
    plan_round(t);
}

static void start_transaction(void)
{
    uint32_t number = ++door.number, p;
    transaction *t = &transactions[number];
    if (one_in(&door.dice, 3)) {
        ask_multi(t);
    } else {
        ask_single(t);
    }
    for (p = 0; p < PARTITIONS; p++) {
        if (takes_part(t, p)) {
            t->parts[p].after = door.last[p];
            door.last[p] = number;
        }
    }
    in_flight++;
    if (t->coordinator != 0) {
        coordinator *c = &coordinators[t->coordinator];
        if (c->first == 0) {
            c->first = number;
            set_alarm(c);
        } else {
            transactions[c->newest].next = number;
        }
        c->newest = number;
    }
    send_round(number);
}

/* A single's answer is final, and is sent once. The client that has it drops what the network doubles. */
static void at_clients(const message *m)
{
    part *here = &transactions[m->number].parts[m->from];
    if (here->believed != 0) {
        counts.late++;
        return;
    }
    believe(here, m->words);
    *(m->words[HARUKDALIS_ANSWER_PLACE] == 0 ? &counts.sold : &counts.failed_singles) += 1;
    in_flight--;
}

/* ---- One tick after the other ------------------------------------------------------------------------------------ */

static void arrive(message *m)
{
    net.under_way--;
    if (m->kind != ALARM) {
        uint32_t *arrived = &net.arrived[m->from][m->to];
        counts.overtaken += m->order < *arrived;
        *arrived = m->order > *arrived ? m->order : *arrived;
    }
    if (m->to < PARTITIONS) {
        at_partition(&partitions[m->to], m); /* which frees it */
        return;
    }
    if (m->to == CLIENTS) {
        at_clients(m);
    } else {
        at_coordinator(&coordinators[m->to - CLIENTS], m);
    }
    free(m);
}

static void run(void)
{
    while (net.under_way > 0 || (door.number < asked && in_flight < IN_FLIGHT)) {
        struct day *day = &net.days[net.now % DAYS];
        message *today = day->first;
        uint32_t more = below(&door.dice, 3);
        day->first = NULL;
        day->end = &day->first;
        while (today != NULL) {
            message *m = today;
            today = m->next;
            arrive(m);
        }
        for (; more > 0 && door.number < asked && in_flight < IN_FLIGHT; more--) {
            start_transaction();
        }
        net.now++;
    }
}

/* ---- The check --------------------------------------------------------------------------------------------------- */

/* One operation; false if it fails. The number is what it gives, or what it found. */
static bool operate(uint32_t *cells, const op *o, uint32_t *number)
{
    uint32_t *cell = &cells[o->cell];
    *number = *cell;
    if ((o->code == HARUKDALIS_TAKE || o->code == HARUKDALIS_NEED) && *cell < o->amount) {
        return false;
    }
    *cell = o->code == HARUKDALIS_TAKE ? *cell - o->amount : o->code == HARUKDALIS_ADD ? *cell + o->amount : *cell;
    *number = *cell;
    return true;
}

static outcome run_fragment(uint32_t *cells, const fragment *f)
{
    outcome told = {0, f->count, {0}};
    uint32_t i, number;
    for (i = 0; i < f->count; i++) {
        if (!operate(cells, &f->ops[i], &number)) {
            return (outcome){i + 1, 1, {number}};
        }
        told.numbers[i] = number;
    }
    return told;
}

/* Runs what a transaction was asked at a partition; false if it fails. What was believed must be what comes out. */
static bool run_alone(uint32_t number, uint32_t partition, uint32_t *cells)
{
    const transaction *t = &transactions[number];
    const part *here = &t->parts[partition];
    uint32_t i;
    for (i = 0; i < t->round; i++) {
        outcome told = run_fragment(cells, &here->fragments[i]);
        if (i < here->believed && memcmp(&told, &here->told[i], sizeof told) != 0) {
            const outcome *was = &here->told[i];
            fail("the answer of %lu at partition %lu in round %lu differs: it was place %lu and %lu %lu, and one at a "
                 "time it is place %lu and %lu %lu", (unsigned long)number, (unsigned long)partition,
                 (unsigned long)i + 1, (unsigned long)was->place, (unsigned long)was->numbers[0],
                 (unsigned long)was->numbers[1], (unsigned long)told.place, (unsigned long)told.numbers[0],
                 (unsigned long)told.numbers[1]);
        }
        if (told.place != 0) {
            return false;
        }
    }
    return true;
}

/* What committed, one at a time in number order. Each one that was aborted is tried too: what was believed of it before
 * must be what it would have given there. */
static void check_partition(uint32_t partition)
{
    uint32_t cells[SHELVES], before[SHELVES], number, i;
    for (i = 0; i < SHELVES; i++) {
        cells[i] = STOCK;
    }
    for (number = 1; number <= asked; number++) {
        const transaction *t = &transactions[number];
        bool done;
        if (!takes_part(t, partition)) {
            continue;
        }
        memcpy(before, cells, sizeof cells);
        done = run_alone(number, partition, cells);
        if (!done && t->decision == HARUKDALIS_COMMIT) {
            fail("%lu was committed, and one at a time it fails", (unsigned long)number);
        }
        if (!done || t->decision == HARUKDALIS_ABORT) {
            memcpy(cells, before, sizeof cells);
        } else if (t->coordinator == 0) {
            const op *o = &t->parts[partition].fragments[0].ops[0];
            counts.put_in += o->code == HARUKDALIS_ADD ? o->amount : 0;
            counts.taken_out += o->code == HARUKDALIS_TAKE ? o->amount : 0;
        }
    }
    for (i = 0; i < SHELVES; i++) {
        if (partitions[partition].cells[i] != cells[i]) {
            fail("shelf %lu of partition %lu differs: it has %lu, and one at a time it is %lu", (unsigned long)i,
                 (unsigned long)partition, (unsigned long)partitions[partition].cells[i], (unsigned long)cells[i]);
        }
    }
}

/* Nothing is under way any more, so whatever is not over is stuck. */
static void check_over(void)
{
    uint32_t number, p;
    for (number = 1; number <= asked; number++) {
        const transaction *t = &transactions[number];
        for (p = 0; p < PARTITIONS; p++) {
            const part *here = &t->parts[p];
            if (number > door.number || (takes_part(t, p) && (t->coordinator == 0 ? here->believed != 1
                                                                                   : !here->acknowledged))) {
                fail("nothing is under way, and %lu is not over: it is stuck", (unsigned long)number);
            }
        }
    }
}

static uint64_t stock(void)
{
    uint64_t sum = 0;
    uint32_t p, i;
    for (p = 0; p < PARTITIONS; p++) {
        for (i = 0; i < SHELVES; i++) {
            sum += partitions[p].cells[i];
        }
    }
    return sum;
}

/* ---- The program ------------------------------------------------------------------------------------------------- */

static const char *const scheme_names[] = {"speculation", "blocking", "mixed"};

static void print_summary(void)
{
    uint32_t i;
    printf("%lu transactions from seed %llu by %s, coordinators: %lu\n", (unsigned long)asked, (unsigned long long)seed,
           scheme_names[by], (unsigned long)coordinator_count);
    printf("network: up to %lu ticks and at times eightfold, one in %lu doubled, one in %lu lost\n",
           (unsigned long)net.slowest, (unsigned long)net.doubled, (unsigned long)net.lost);
    printf("singles: %llu done, %llu failed\n", (unsigned long long)counts.sold,
           (unsigned long long)counts.failed_singles);
    printf("multis: %llu committed, %llu aborted since one failed, %llu given up\n",
           (unsigned long long)counts.committed, (unsigned long long)counts.failed_multis,
           (unsigned long long)counts.given_up);
    printf("answers: %llu acted on, %llu stale, %llu old, %llu late; largest attempt %lu\n",
           (unsigned long long)counts.believed, (unsigned long long)counts.stale, (unsigned long long)counts.old,
           (unsigned long long)counts.late, (unsigned long)counts.largest_attempt);
    printf("messages: %llu, in %llu copies, %llu lost, %llu overtaken\n", (unsigned long long)counts.messages,
           (unsigned long long)counts.copies, (unsigned long long)counts.lost, (unsigned long long)counts.overtaken);
    printf("calls: %llu accepted", (unsigned long long)counts.refusals[HARUKDALIS_ACCEPTED]);
    for (i = 1; i <= HARUKDALIS_FAILED; i++) {
        if (counts.refusals[i] != 0) {
            printf(", %llu refused by %lu", (unsigned long long)counts.refusals[i], (unsigned long)i);
        }
    }
    printf("\nstock: %llu, put in %llu, taken out %llu, left %llu\n",
           (unsigned long long)PARTITIONS * SHELVES * STOCK, (unsigned long long)counts.put_in,
           (unsigned long long)counts.taken_out, (unsigned long long)stock());
    printf("every shelf and every answer that was acted on is as one at a time\n");
}

/* A number of the command line, at most as large as said. */
static bool number_in(const char *word, uint64_t most, uint64_t *number)
{
    *number = 0;
    if (*word == 0) {
        return false;
    }
    for (; *word != 0; word++) {
        uint64_t digit = (uint64_t)(*word - '0');
        if (*word < '0' || *word > '9' || *number > (UINT64_MAX - digit) / 10) {
            return false;
        }
        *number = *number * 10 + digit;
    }
    return *number <= most;
}

static bool read_words(int count, char **words)
{
    int i;
    for (i = 1; i < count; i++) {
        const char *value = i + 1 < count ? words[i + 1] : "";
        uint64_t number;
        if (strcmp(words[i], "--old-rule") == 0) {
            old_rule = true;
            continue;
        }
        if (strcmp(words[i], "--transactions") == 0 && number_in(value, MOST_TRANSACTIONS, &number)) {
            asked = (uint32_t)number;
        } else if (strcmp(words[i], "--seed") == 0 && number_in(value, UINT64_MAX, &number)) {
            seed = number;
        } else if (strcmp(words[i], "--coordinators") == 0 && number_in(value, COORDINATORS, &number) && number > 0) {
            coordinator_count = (uint32_t)number;
        } else if (strcmp(words[i], "--scheme") == 0) {
            for (by = SPECULATION; by <= MIXED && strcmp(value, scheme_names[by]) != 0; by++) {
            }
            if (by > MIXED) {
                return false;
            }
        } else {
            return false;
        }
        i++;
    }
    return true;
}

int main(int count, char **words)
{
    uint32_t p, i;
    if (!read_words(count, words)) {
        fprintf(stderr, "transfers [--transactions N] [--seed S] [--scheme speculation|blocking|mixed] "
                        "[--coordinators 1|2] [--old-rule]\n");
        return 2;
    }
    if (harukdalis_record_bytes() != sizeof(harukdalis_record)) {
        fail("the archive is of another version than the header");
    }
    start_network();
    door.dice.state = ~seed;
    transactions = calloc((size_t)asked + 1, sizeof *transactions);
    for (p = 0; p < PARTITIONS; p++) {
        partitions[p].dice.state = seed + 1 + p;
        partitions[p].seats = calloc((size_t)asked + 1, sizeof *partitions[p].seats);
        if (transactions == NULL || partitions[p].seats == NULL ||
            harukdalis_start(&partitions[p].record, SHELVES) != HARUKDALIS_ACCEPTED) {
            fail("no start");
        }
        for (i = 0; i < SHELVES; i++) {
            partitions[p].cells[i] = STOCK;
        }
    }
    run();
    check_over();
    for (p = 0; p < PARTITIONS; p++) {
        check_partition(p);
    }
    if (stock() + counts.taken_out != (uint64_t)PARTITIONS * SHELVES * STOCK + counts.put_in) {
        fail("stock was lost or found");
    }
    print_summary();
    return fflush(stdout) == 0 ? 0 : 1;
}
