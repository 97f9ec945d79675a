/* engines.c: the proved engine and the independent one, by each scheme, behind the same calls. */
#include "bench.h"

#include <stdlib.h>

size_t moved;

/* The record lies so far into its room, and the address of the room just ahead of it. */
static harukdalis_record *proved_room(void)
{
    char *room = room_for(1, sizeof(max_align_t) + PAGE + sizeof(harukdalis_record));
    void **record = (void **)(room + sizeof(max_align_t) + moved);
    record[-1] = room;
    return (harukdalis_record *)record;
}

static void proved_drop(void *state)
{
    free(((void **)state)[-1]);
}

static void *proved_start(uint32_t cells)
{
    harukdalis_record *record = proved_room();
    harukdalis_start(record, cells);
    return record;
}

static void *proved_copy(const void *state)
{
    harukdalis_record *record = proved_room();
    *record = *(const harukdalis_record *)state;
    return record;
}

static uint32_t proved_call(void *state, uint32_t *cells, size_t cell_count, const uint32_t *event, size_t event_words,
                            uint32_t *room, size_t room_words, uint32_t *answers)
{
    return harukdalis_call(state, cells, cell_count, event, event_words, room, room_words, answers);
}

static uint32_t proved_call_blocking(void *state, uint32_t *cells, size_t cell_count, const uint32_t *event,
                                     size_t event_words, uint32_t *room, size_t room_words, uint32_t *answers)
{
    return harukdalis_call_blocking(state, cells, cell_count, event, event_words, room, room_words, answers);
}

void *independent_start(uint32_t cells);
void *independent_copy(const void *state);
void independent_drop(void *state);
uint32_t independent_call(void *state, uint32_t *cells, size_t cell_count, const uint32_t *event, size_t event_words,
                          uint32_t *room, size_t room_words, uint32_t *answers);
uint32_t independent_call_blocking(void *state, uint32_t *cells, size_t cell_count, const uint32_t *event,
                                   size_t event_words, uint32_t *room, size_t room_words, uint32_t *answers);

const engine proved = {proved_start, proved_copy, proved_drop, proved_call};
const engine proved_blocking = {proved_start, proved_copy, proved_drop, proved_call_blocking};
const engine independent = {independent_start, independent_copy, independent_drop, independent_call};
const engine independent_blocking = {independent_start, independent_copy, independent_drop, independent_call_blocking};
