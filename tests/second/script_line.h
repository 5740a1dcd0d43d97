/* The writer of a script: its state, draws by chance, and the line being built. */

#ifndef SECOND_SCRIPT_LINE_H
#define SECOND_SCRIPT_LINE_H

#include <stdbool.h>
#include <stddef.h>
#include <stdint.h>

#include "console.h"
#include "rows.h"
#include "words.h"

enum { BOARD_PHASE, FILL_PHASE, READER_PHASE, MIXED_PHASE, PHASES };

/* A bundle that need not be a frame, so it may be longer than one. */
struct loose_bundle {
    uint8_t bytes[64];
    size_t count;
};

struct script {
    uint64_t chance;
    struct console console;  /* follows every line, so that deep states are known */
    struct rows rows;
    uint8_t line[2 * LINE_LONGEST];
    size_t length;
    struct loose_bundle pending;  /* bytes still to be fed to the line reader */
    size_t pending_at;
    size_t looks_left;  /* lines still to come that show what was set up or stored */
    uint32_t favourite;  /* the number that a fitter stored last */
    size_t visit_left;  /* lines still to come of that fitter's visit */
    int phase;
    size_t phase_left;
    size_t answered;
    size_t wanted;
};

uint32_t below(struct script *script, uint32_t bound);
uint32_t between(struct script *script, uint32_t least, uint32_t most);
bool chance(struct script *script, uint32_t of_hundred);
uint8_t any_byte(struct script *script);
uint32_t pick(struct script *script, const uint32_t *values, size_t count);

/* One of the values listed; a value listed twice comes twice as often. */
#define ONE_OF(script, ...)                                \
    pick((script), (const uint32_t[]){__VA_ARGS__},        \
         sizeof((const uint32_t[]){__VA_ARGS__}) / sizeof(uint32_t))

void put_text(struct script *script, const char *text);
void start_line(struct script *script, const char *command);
void put_decimal(struct script *script, uint32_t value);
void put_hex(struct script *script, const uint8_t *bytes, size_t count);
void put_hex_byte(struct script *script, uint8_t byte);
void put_id(struct script *script, uint32_t id);

#endif
