/*
 * reserve.c: a partition of four shelves on a busy morning. A sale, a reservation that spans depots, a sale behind it
 * whose answer is held, a second reservation answered under a dependence, a commit, an abort. Every number that comes
 * back is compared with the one that must come; the first other one ends the program with status 1.
 *
 * tools/archive
 * cc -std=c99 -Wall -Wextra -Werror -O2 -Iinclude examples/c/reserve.c target/archive/libharukdalis.a -o target/reserve
 * target/reserve | cmp - examples/c/reserve.expected
 */
#include "harukdalis.h"

#include <stdio.h>
#include <stdlib.h>
#include <string.h>

enum { PADS, FILTERS, WIPERS, RESERVED, SHELVES };

typedef struct op {
    uint32_t code, cell, amount;
} op;

/* What the host owns: the engine keeps nothing of its own. */
static harukdalis_record record;
static uint32_t cells[SHELVES] = {12, 5, 40, 0};
static uint32_t room[HARUKDALIS_LEAST_ROOM];

static const char *in_words(uint32_t number)
{
    switch (number) {
    case HARUKDALIS_ACCEPTED: return "accepted";
    case HARUKDALIS_UNSOUND_RECORD: return "unsound record";
    case HARUKDALIS_SMALL_ROOM: return "small room";
    case HARUKDALIS_WRONG_CELLS: return "wrong cells";
    case HARUKDALIS_NOT_WELL_FORMED: return "not well formed";
    case HARUKDALIS_CELL_OUTSIDE: return "cell outside";
    case HARUKDALIS_NOT_LIVE: return "not live";
    case HARUKDALIS_NOT_FRONT: return "not the front";
    case HARUKDALIS_FRONT_FINISHED: return "front finished";
    case HARUKDALIS_OTHER_COORDINATOR: return "other coordinator";
    case HARUKDALIS_TOO_MANY_LIVE: return "too many live";
    case HARUKDALIS_TOO_MANY_FRAGMENTS: return "too many fragments";
    case HARUKDALIS_NOT_YET_ACCEPTED: return "not yet accepted";
    case HARUKDALIS_NOT_FINISHED: return "not finished";
    case HARUKDALIS_FAILED: return "failed";
    default: return "a number that no call returns";
    }
}

static void unexpected(const char *what, uint32_t got, uint32_t expected)
{
    fprintf(stderr, "reserve: %s is %lu, expected %lu\n", what, (unsigned long)got, (unsigned long)expected);
    exit(1);
}

static void expect(const char *what, uint32_t got, uint32_t expected)
{
    if (got != expected) {
        unexpected(what, got, expected);
    }
}

static void print_answer(const uint32_t *answer)
{
    uint32_t i;
    printf("  transaction %lu, attempt %lu", (unsigned long)answer[HARUKDALIS_ANSWER_TRANSACTION],
           (unsigned long)answer[HARUKDALIS_ANSWER_ATTEMPT]);
    if (answer[HARUKDALIS_ANSWER_DEPENDENCE] != 0) {
        printf(", if %lu commits in attempt %lu", (unsigned long)answer[HARUKDALIS_ANSWER_DEPENDENCE],
               (unsigned long)answer[HARUKDALIS_ANSWER_DEPENDENCE_ATTEMPT]);
    }
    if (answer[HARUKDALIS_ANSWER_PLACE] != 0) {
        printf(": failed at operation %lu, which found %lu\n", (unsigned long)answer[HARUKDALIS_ANSWER_PLACE],
               (unsigned long)answer[HARUKDALIS_ANSWER_NUMBERS]);
        return;
    }
    printf(":");
    for (i = 0; i < answer[HARUKDALIS_ANSWER_COUNT]; i++) {
        printf(" %lu", (unsigned long)answer[HARUKDALIS_ANSWER_NUMBERS + i]);
    }
    printf("\n");
}

/* One call, told in words, with what must come back. */
static void call(const char *story, const uint32_t *event, uint32_t number, uint32_t count)
{
    uint32_t answers, i;
    uint32_t got = harukdalis_call(&record, cells, SHELVES, event, HARUKDALIS_EVENT_WORDS, room, HARUKDALIS_LEAST_ROOM,
                                   &answers);
    printf("%s: %s\n", story, in_words(got));
    expect("the returned number", got, number);
    expect("the count of answers", answers, count);
    for (i = 0; i < answers; i++) {
        print_answer(room + i * HARUKDALIS_ANSWER_WORDS);
    }
    if (answers == 0 && got == HARUKDALIS_ACCEPTED) {
        printf("  no answer yet\n");
    }
}

/*
 * An answer of the last call: its transaction, its attempt, its dependence, its place, its count and its first number.
 * What is depended on in this story is never undone.
 */
static void expect_answer(uint32_t i, uint32_t transaction, uint32_t attempt, uint32_t dependence, uint32_t place,
                          uint32_t count, uint32_t first)
{
    const uint32_t *answer = room + i * HARUKDALIS_ANSWER_WORDS;
    expect("the transaction", answer[HARUKDALIS_ANSWER_TRANSACTION], transaction);
    expect("the attempt", answer[HARUKDALIS_ANSWER_ATTEMPT], attempt);
    expect("the dependence", answer[HARUKDALIS_ANSWER_DEPENDENCE], dependence);
    expect("the dependence's attempt", answer[HARUKDALIS_ANSWER_DEPENDENCE_ATTEMPT], dependence == 0 ? 0 : 1);
    expect("the place", answer[HARUKDALIS_ANSWER_PLACE], place);
    expect("the count of numbers", answer[HARUKDALIS_ANSWER_COUNT], count);
    expect("the first number", answer[HARUKDALIS_ANSWER_NUMBERS], first);
}

/* Lays out a fragment; coordinator 0 makes it a single. Every fragment of this story is its transaction's last. */
static const uint32_t *fragment(uint32_t number, uint32_t coordinator, const op *ops, uint32_t count)
{
    static uint32_t event[HARUKDALIS_EVENT_WORDS];
    uint32_t i;
    memset(event, 0, sizeof event);
    event[HARUKDALIS_EVENT_KIND] = HARUKDALIS_FRAGMENT;
    event[HARUKDALIS_EVENT_NUMBER] = number;
    event[HARUKDALIS_EVENT_FLAGS] = coordinator == 0 ? HARUKDALIS_LAST : HARUKDALIS_MULTI + HARUKDALIS_LAST;
    event[HARUKDALIS_EVENT_COORDINATOR] = coordinator;
    event[HARUKDALIS_EVENT_COUNT] = count;
    for (i = 0; i < count && i < HARUKDALIS_MOST_OPERATIONS; i++) {
        uint32_t *at = event + HARUKDALIS_EVENT_OPERATIONS + i * HARUKDALIS_OPERATION_WORDS;
        at[HARUKDALIS_OPERATION_CODE] = ops[i].code;
        at[HARUKDALIS_OPERATION_CELL] = ops[i].cell;
        at[HARUKDALIS_OPERATION_AMOUNT] = ops[i].amount;
    }
    return event;
}

static const uint32_t *decision(uint32_t kind, uint32_t number)
{
    static uint32_t event[HARUKDALIS_EVENT_WORDS];
    memset(event, 0, sizeof event);
    event[HARUKDALIS_EVENT_KIND] = kind;
    event[HARUKDALIS_EVENT_NUMBER] = number;
    return event;
}

int main(void)
{
    static const uint32_t left[SHELVES] = {1, 4, 40, 3};
    const op sale[] = {{HARUKDALIS_TAKE, PADS, 2}, {HARUKDALIS_READ, FILTERS, 0}};
    const op reservation[] = {{HARUKDALIS_TAKE, PADS, 3}, {HARUKDALIS_ADD, RESERVED, 3}};
    const op held[] = {{HARUKDALIS_TAKE, PADS, 1}, {HARUKDALIS_TAKE, FILTERS, 1}};
    const op second[] = {{HARUKDALIS_TAKE, PADS, 2}, {HARUKDALIS_ADD, RESERVED, 2}};
    const op large[] = {{HARUKDALIS_NEED, WIPERS, 30}, {HARUKDALIS_TAKE, PADS, 5}};
    const op beyond[] = {{HARUKDALIS_READ, SHELVES, 0}};
    const op too_much[] = {{HARUKDALIS_TAKE, WIPERS, 10}, {HARUKDALIS_TAKE, PADS, 2}};
    uint32_t i;

    /* The archive that was linked must be the one that this header describes. */
    expect("the bytes of a record", harukdalis_record_bytes(), sizeof record);
    expect("the words of an event", harukdalis_event_words(), HARUKDALIS_EVENT_WORDS);
    expect("the words of an answer", harukdalis_answer_words(), HARUKDALIS_ANSWER_WORDS);
    expect("the least room", harukdalis_least_room(), HARUKDALIS_LEAST_ROOM);
    expect("the most cells", harukdalis_most_cells(), HARUKDALIS_MOST_CELLS);

    expect("a start with no cells", harukdalis_start(&record, 0), HARUKDALIS_WRONG_CELLS);
    expect("the start", harukdalis_start(&record, SHELVES), HARUKDALIS_ACCEPTED);
    printf("four shelves: 12 pads, 5 filters, 40 wipers, 0 reserved\n");

    call("1 sells 2 pads", fragment(1, 0, sale, 2), HARUKDALIS_ACCEPTED, 1);
    expect_answer(0, 1, 1, 0, 0, 2, 10);

    /* A multi: it is answered, and stays undecided until its coordinator has heard all depots. */
    call("2 reserves 3 pads across depots", fragment(2, 1, reservation, 2), HARUKDALIS_ACCEPTED, 1);
    expect_answer(0, 2, 1, 0, 0, 2, 7);

    /* A single behind it runs, but a customer must not hear of pads that 2 may give back. */
    call("3 sells 1 pad and 1 filter, behind 2", fragment(3, 0, held, 2), HARUKDALIS_ACCEPTED, 0);

    /*
     * A multi of the same coordinator is answered at once: that coordinator knows what becomes of 2, and in which attempt
     * 2 was answered last.
     */
    call("4 reserves 2 pads, behind 2", fragment(4, 1, second, 2), HARUKDALIS_ACCEPTED, 1);
    expect_answer(0, 4, 1, 2, 0, 2, 4);

    /* The network delivers twice, a clerk mistypes, a coordinator is early: nothing changes. */
    call("2's fragment comes again", fragment(2, 1, reservation, 2), HARUKDALIS_FRONT_FINISHED, 0);
    call("5 asks for a shelf that is not there", fragment(5, 0, beyond, 1), HARUKDALIS_CELL_OUTSIDE, 0);
    call("4 is committed ahead of 2", decision(HARUKDALIS_COMMIT, 4), HARUKDALIS_NOT_FRONT, 0);

    /*
     * 3 settles and is answered. 4 is the front now; its answer was sent and holds, as 2 was answered in attempt 1 and in
     * no other, so it is not sent again.
     */
    call("2 is committed", decision(HARUKDALIS_COMMIT, 2), HARUKDALIS_ACCEPTED, 1);
    expect_answer(0, 3, 1, 0, 0, 2, 6);

    /* 6 needs 5 pads, and while 4 has its 2 there are 4: it fails, for now. Its failure is held like any answer. */
    call("6 sells 5 pads, behind 4", fragment(6, 0, large, 2), HARUKDALIS_ACCEPTED, 0);

    /* 4 gives its pads back, 6 is requeued, runs again and finds enough: its second attempt. */
    call("4 is aborted", decision(HARUKDALIS_ABORT, 4), HARUKDALIS_ACCEPTED, 1);
    expect_answer(0, 6, 2, 0, 0, 2, 40);

    /* All of a failed transaction is taken back: the wipers too. Its answer tells what the failing operation found. */
    call("7 sells 10 wipers and 2 pads", fragment(7, 0, too_much, 2), HARUKDALIS_ACCEPTED, 1);
    expect_answer(0, 7, 1, 0, 2, 1, 1);
    call("4's abort comes again", decision(HARUKDALIS_ABORT, 4), HARUKDALIS_NOT_LIVE, 0);

    printf("shelves:");
    for (i = 0; i < SHELVES; i++) {
        printf(" %lu", (unsigned long)cells[i]);
        expect("a shelf", cells[i], left[i]);
    }
    printf("\n");
    return fflush(stdout) == 0 ? 0 : 1;
}
