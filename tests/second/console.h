/* The console: its state, and the lines that it answers. */

#ifndef SECOND_CONSOLE_H
#define SECOND_CONSOLE_H

#include <stdbool.h>
#include <stddef.h>
#include <stdint.h>

#include "board.h"
#include "reader.h"
#include "register.h"
#include "rows.h"

/* All zeros is a fresh start: no board, an empty register, a fresh line reader. */
struct console {
    bool has_board;
    struct board board;
    struct motor_register held;
    struct line_reader reader;
};

bool is_passed_over(const uint8_t *line, size_t length);
void answer_line(struct console *console, const uint8_t *line, size_t length, struct rows *rows);
void run_console(void);

#endif
