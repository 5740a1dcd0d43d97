/* The register of motors: reports are filed, motors are struck out. */

#ifndef SECOND_REGISTER_H
#define SECOND_REGISTER_H

#include <stdbool.h>
#include <stddef.h>
#include <stdint.h>

#include "refusal.h"

enum {
    LINE_LAST = 3,
    MOTORS_MOST = 256
};

struct reading {
    bool exists;
    uint16_t pulse;
    uint8_t percent;
    uint8_t favourite;
};

struct motor {
    uint8_t line;
    uint32_t node_id;
    struct reading reading;
};

struct motor_register {
    struct motor motors[MOTORS_MOST];
    size_t count;
};

bool is_before(const struct motor *one, uint8_t line, uint32_t node_id);
size_t place_of(const struct motor_register *held, uint8_t line, uint32_t node_id);
bool is_held_at(const struct motor_register *held, size_t place, uint8_t line, uint32_t node_id);
void enter_motor(struct motor_register *held, size_t place, uint8_t line, uint32_t node_id);
bool is_percent_and_favourite(uint8_t percent, uint8_t favourite);

enum refusal bundle_to_register(struct motor_register *held, uint8_t line,
                                const uint8_t *bundle, size_t count);
enum refusal strike_out(struct motor_register *held, uint8_t line, uint32_t node_id);

#endif
