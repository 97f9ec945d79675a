/* by_value.c: (a), a function that takes and returns a struct of the record's size by value and changes one word. */
#include "bench.h"

__attribute__((noinline)) harukdalis_record by_value(harukdalis_record record)
{
    record.largest += 1;
    return record;
}
