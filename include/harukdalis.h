/*
 * harukdalis.h: the engine of one partition of a stock database, for a host in C or C++.
 *
 * The host owns everything: the record, the cells and the room for answers. The engine keeps nothing between calls, and
 * has no threads, no global state, no allocation and no input or output. Calls on different records may run at once;
 * two calls on one record, or on one set of cells, may not.
 *
 * What the host promises in every call, and nothing else:
 *   - each pointer is not null, also where its length is 0, and is aligned for uint32_t;
 *   - each pointer points to as many 32-bit words as its length says, or to one record, or to one word;
 *   - the record, the cells, the room and the word for the count of answers, which are written, overlap no other area.
 * Whatever the words say is the engine's to check: any record, any event, any lengths.
 *
 * docs/INTEGRATION.md says what to do on each refusal and what a dependence means for a coordinator.
 */
#ifndef HARUKDALIS_H
#define HARUKDALIS_H

#include <stddef.h>
#include <stdint.h>

#ifdef __cplusplus
extern "C" {
#endif

/* Limits. */
#define HARUKDALIS_TOP 4294967295u       /* the largest content of a cell, amount and transaction number */
#define HARUKDALIS_MOST_CELLS 4096u      /* a partition has 1 to this many cells */
#define HARUKDALIS_MOST_OPERATIONS 8u    /* a fragment has 1 to this many operations */
#define HARUKDALIS_MOST_FRAGMENTS 8u     /* a multi runs at most this many fragments here */
#define HARUKDALIS_MOST_COORDINATOR 255u /* a multi's coordinator is 1 to this, a single's is 0 */
#define HARUKDALIS_DEPTH 16u             /* at most this many are uncommitted, the front counted */
#define HARUKDALIS_MOST_LIVE 64u         /* at most this many are live: uncommitted or waiting */
#define HARUKDALIS_MOST_ENTRIES 184u     /* at most this many undo entries */
#define HARUKDALIS_LEAST_ROOM 1024u      /* words that every call must lend for answers */
#define HARUKDALIS_ANSWER_WORDS 16u      /* words of an answer */
#define HARUKDALIS_EVENT_WORDS 29u       /* words of an event */
#define HARUKDALIS_RECORD_BYTES 9936u    /* bytes of a record */

/* Kinds of an event. A decision (commit or abort) is its kind, its number and 27 zeros. */
#define HARUKDALIS_FRAGMENT 1u
#define HARUKDALIS_COMMIT 2u
#define HARUKDALIS_ABORT 3u

/* Flags of a fragment, added up: a single is LAST alone, a multi is MULTI, with LAST on its last fragment here. */
#define HARUKDALIS_MULTI 1u
#define HARUKDALIS_LAST 2u

/*
 * Codes of an operation on a cell c with an amount v. One that does not fail gives c's content after it, one that fails
 * the content that it found.
 */
#define HARUKDALIS_READ 1u  /* nothing; v is 0 */
#define HARUKDALIS_SET 2u   /* c becomes v */
#define HARUKDALIS_ADD 3u   /* c + v; fails above TOP */
#define HARUKDALIS_TAKE 4u  /* c - v; fails if c < v */
#define HARUKDALIS_NEED 5u  /* nothing; fails if c < v */
#define HARUKDALIS_MATCH 6u /* nothing; fails if c is not v */
#define HARUKDALIS_RAISE 7u /* the larger of c and v */
#define HARUKDALIS_LOWER 8u /* the smaller of c and v */

/* Places of an event's words. Operation i, from 0, starts at EVENT_OPERATIONS + i * OPERATION_WORDS; the rest is 0. */
#define HARUKDALIS_EVENT_KIND 0u
#define HARUKDALIS_EVENT_NUMBER 1u
#define HARUKDALIS_EVENT_FLAGS 2u
#define HARUKDALIS_EVENT_COORDINATOR 3u
#define HARUKDALIS_EVENT_COUNT 4u
#define HARUKDALIS_EVENT_OPERATIONS 5u

/* Places of an operation's words, from the operation's first. */
#define HARUKDALIS_OPERATION_CODE 0u
#define HARUKDALIS_OPERATION_CELL 1u
#define HARUKDALIS_OPERATION_AMOUNT 2u
#define HARUKDALIS_OPERATION_WORDS 3u

/*
 * Places of an answer's words. Answer i of a call, from 0, starts at word i * ANSWER_WORDS of the room.
 *
 * Where the place is 0 there is a number for each operation of the fragment: the cell's content after it. Else the
 * transaction failed, all that it changed is taken back, and the count is 1: the number is the content that the failing
 * operation found in its cell. Earlier changes of its own transaction are in it, although they are taken back.
 * docs/INTEGRATION.md says when to show it.
 *
 * A transaction's attempt is 1, and one more after each undoing: an abort raises it for each one behind the front that
 * it undoes and requeues. A further fragment of the front does not. Of a transaction's answers to the same fragment the
 * one of the largest attempt is the newest. An answer with a dependence is right if the dependence commits in the
 * attempt that the answer names, which is so if that is the attempt of the last answer sent for it before its commit.
 * Else another answer comes. No word tells which of its transaction's fragments an answer is to. The last two words
 * are 0.
 */
#define HARUKDALIS_ANSWER_TRANSACTION 0u
#define HARUKDALIS_ANSWER_DEPENDENCE 1u          /* 0, or the number that must commit, in the attempt below */
#define HARUKDALIS_ANSWER_PLACE 2u               /* 0, or the place 1 to 8 of the operation that failed */
#define HARUKDALIS_ANSWER_COUNT 3u               /* how many numbers follow, at most 8; 1 where the place is not 0 */
#define HARUKDALIS_ANSWER_NUMBERS 4u             /* eight words; those beyond the count are 0 */
#define HARUKDALIS_ANSWER_ATTEMPT 12u            /* the transaction's attempt: 1, and one more after each undoing */
#define HARUKDALIS_ANSWER_DEPENDENCE_ATTEMPT 13u /* the attempt in which the dependence must commit; 0 for none */

/* What a call returns: the first that applies. Every refusal leaves all as it was and sends no answer. */
#define HARUKDALIS_ACCEPTED 0u
#define HARUKDALIS_UNSOUND_RECORD 1u      /* the record is none that a call left */
#define HARUKDALIS_SMALL_ROOM 2u          /* the room has under LEAST_ROOM words */
#define HARUKDALIS_WRONG_CELLS 3u         /* no cells, or not as many as at the start */
#define HARUKDALIS_NOT_WELL_FORMED 4u     /* the event breaks a rule of its form, or has not EVENT_WORDS words */
#define HARUKDALIS_CELL_OUTSIDE 5u        /* an operation names a cell that is not there */
#define HARUKDALIS_NOT_LIVE 6u            /* the number is over: settled, aborted or skipped */
#define HARUKDALIS_NOT_FRONT 7u           /* the number is live, but not the front */
#define HARUKDALIS_FRONT_FINISHED 8u      /* a fragment for a front that has run its last, or failed */
#define HARUKDALIS_OTHER_COORDINATOR 9u   /* a fragment for the front from another coordinator, or a single's */
#define HARUKDALIS_TOO_MANY_LIVE 10u      /* a new number while MOST_LIVE are live */
#define HARUKDALIS_TOO_MANY_FRAGMENTS 11u /* the front has run MOST_FRAGMENTS */
#define HARUKDALIS_NOT_YET_ACCEPTED 12u   /* a decision for a number above the largest accepted */
#define HARUKDALIS_NOT_FINISHED 13u       /* a commit of a front that has not run its last fragment */
#define HARUKDALIS_FAILED 14u             /* a commit of a front that failed */

/*
 * The engine's record. The host keeps it between calls and hands it back as it was; it has no pointers, so it may be
 * copied, moved and stored. Its fields are the engine's own: a host need not read them and should not change them. Any
 * words are a record that may be handed in; a call refuses those that are not sound. Where a record did not come from a
 * start by calls alone, do not compare it by its bytes: what stands in unused places means nothing, and may stay.
 */
typedef struct harukdalis_record {
    uint32_t count;       /* cells, as given at the start */
    uint32_t largest;     /* the largest number accepted */
    uint32_t uncommitted; /* how many are uncommitted */
    uint32_t waiting;     /* how many wait */
    uint32_t live[1856];  /* 64 rows of 29: the uncommitted ones, then the waiting ones */
    uint32_t runs[256];   /* 16 rows of 16, one beside each uncommitted one */
    uint32_t undo[368];   /* 184 pairs of cell and old number, oldest first */
} harukdalis_record;

#if defined(__cplusplus) && __cplusplus >= 201103L
static_assert(sizeof(harukdalis_record) == HARUKDALIS_RECORD_BYTES, "a record is 9936 bytes");
#elif defined(__STDC_VERSION__) && __STDC_VERSION__ >= 201112L
_Static_assert(sizeof(harukdalis_record) == HARUKDALIS_RECORD_BYTES, "a record is 9936 bytes");
#else
typedef char harukdalis_record_is_9936_bytes[sizeof(harukdalis_record) == HARUKDALIS_RECORD_BYTES ? 1 : -1];
#endif

/*
 * Starts a partition with nothing live. Writes the whole record, whatever it held; the cells are not part of it, and
 * their first contents are whatever the host puts there.
 *
 * Returns HARUKDALIS_ACCEPTED, or HARUKDALIS_WRONG_CELLS where cells is 0 or above HARUKDALIS_MOST_CELLS. In that case
 * the record is the one of 0 cells, which every later call refuses.
 */
uint32_t harukdalis_start(harukdalis_record *record, uint32_t cells);

/*
 * Hands one event to the partition and takes it as far as it goes, by speculation.
 *
 * record   read; written if the event is accepted. Start it once, then lend the same one each time.
 * cells    read; written if the event is accepted. Lend the cells that the last accepted call left, cell_count of them
 *          as at the start. They have speculated changes in them: see docs/INTEGRATION.md before showing them.
 * event    read only. event_words is HARUKDALIS_EVENT_WORDS.
 * room     written from its start: HARUKDALIS_ANSWER_WORDS words for each answer, and the rest stays as it was. It must
 *          have HARUKDALIS_LEAST_ROOM words or more, which is enough for every call. What it held is not read. The
 *          answers are the host's to take away before it lends the room again.
 * answers  written in every case: how many answers the room has, 0 on a refusal, at most HARUKDALIS_MOST_LIVE.
 *
 * Returns HARUKDALIS_ACCEPTED or the refusal, 1 to 14. On a refusal record, cells and room are as they were.
 */
uint32_t harukdalis_call(harukdalis_record *record,
                         uint32_t *cells, size_t cell_count,
                         const uint32_t *event, size_t event_words,
                         uint32_t *room, size_t room_words,
                         uint32_t *answers);

/*
 * The same by blocking: waiting ones run only while nothing is uncommitted. All that is said above holds of it too.
 *
 * Where at most one is uncommitted, no answer that it sends has a dependence, and at most one is uncommitted after it:
 * so none has a dependence where all calls since the start were by blocking. Where speculation has left more of them, a
 * commit by blocking settles and answers behind the front as one by speculation does: held answers of multis that it
 * releases have their dependences.
 *
 * A record keeps no scheme, so any call on it may be either one. The same events from the same start bring the same
 * returned numbers by both, the same answers to singles in the same calls, attempts aside, and the same cells whenever
 * nothing is live; the answers of multis may differ. docs/INTEGRATION.md says when to take which.
 */
uint32_t harukdalis_call_blocking(harukdalis_record *record,
                                  uint32_t *cells, size_t cell_count,
                                  const uint32_t *event, size_t event_words,
                                  uint32_t *room, size_t room_words,
                                  uint32_t *answers);

/*
 * The constants that the linked archive was built with, so that a host can compare them with this header's before its
 * first call, or allocate by them where it has no header.
 */
uint32_t harukdalis_record_bytes(void); /* HARUKDALIS_RECORD_BYTES */
uint32_t harukdalis_event_words(void);  /* HARUKDALIS_EVENT_WORDS */
uint32_t harukdalis_answer_words(void); /* HARUKDALIS_ANSWER_WORDS */
uint32_t harukdalis_least_room(void);   /* HARUKDALIS_LEAST_ROOM, in words */
uint32_t harukdalis_most_cells(void);   /* HARUKDALIS_MOST_CELLS */

#ifdef __cplusplus
}
#endif

#endif
