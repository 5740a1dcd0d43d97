/*
 * The second program: one board, one register of motors and one line reader
 * behind the console language of BENCH.md.  It follows document 01, requests
 * 2026-01 to 2026-04 of document 02, and BENCH.md, shares nothing with the
 * bench, and is compared with it row by row.
 *
 *   second                      the console, over standard input and output
 *   second script SEED COUNT    writes a random script of COUNT answered lines
 *
 * Rules quoted in the comments are those of document 01 unless said otherwise.
 */

#include <stdint.h>
#include <stdio.h>
#include <string.h>

#include "console.h"
#include "script.h"
#include "words.h"

int main(int count, char **arguments)
{
    uint32_t seed;
    uint32_t lines;
    if (count == 1) {
        run_console();
        return 0;
    }
    if (count == 4 && strcmp(arguments[1], "script") == 0 && read_argument(arguments[2], &seed)
        && read_argument(arguments[3], &lines)) {
        write_script(seed, lines);
        return 0;
    }
    fputs("usage: second [script SEED COUNT]\n", stderr);
    return 2;
}
