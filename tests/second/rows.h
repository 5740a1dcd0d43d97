/* The rows that answer a line. */

#ifndef SECOND_ROWS_H
#define SECOND_ROWS_H

#include <stddef.h>
#include <stdint.h>

#include "board.h"
#include "reader.h"
#include "refusal.h"
#include "register.h"
#include "rts.h"

/* The rows that answer one line; the longest is a full register. */
struct rows {
    char text[16384];
    size_t length;
};

void say(struct rows *rows, const char *format, ...) __attribute__((format(printf, 2, 3)));
void say_hex(struct rows *rows, const char *name, const uint8_t *bytes, size_t count);
void say_outcome(struct rows *rows, enum refusal refusal, const char *accepted);
void say_bundle(struct rows *rows, const struct bundle_answer *answer);
void say_motor(struct rows *rows, const struct motor *motor);
void say_rts(struct rows *rows, const struct rts *rts);
void say_board(struct rows *rows, const struct board *board);

#endif
