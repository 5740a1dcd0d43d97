/*
 * The compiled register over lent memory, call by call: what each call answers
 * by document 01, that a refused call changes no byte, and that an accepted one
 * changes the bytes that it is to change and no other, of the run, of the
 * buffer and of all that lies around them.
 *
 * It prints the number of calls, or the first that went wrong.  tests/lent
 * builds and runs it.
 */

#include <stdbool.h>
#include <stdio.h>
#include <stdlib.h>
#include <string.h>

#include "proved.h"

#include "lent_memory.c"
#include "lent_broken.c"
#include "lent_refused.c"
#include "lent_accepted.c"

/* The memory lies at a place that only a record's own alignment allows, and at one that suits every access. */
int main(void)
{
    static _Alignas(64) uint8_t one[sizeof(struct memory) + 64], other[sizeof(struct memory)];
    expected = (struct memory *)(void *)other;
    for (size_t shift = 0; shift <= 4; shift += 4) {
        now = (struct memory *)(void *)(one + shift);
        try_broken_registers();
        try_refused_reports();
        try_refused_strikes();
        try_refused_forms();
        try_accepted_calls();
    }
    printf("the compiled register: %lu calls, each answers by document 01 and changes no other byte\n", calls_made);
    return 0;
}
