/* The stored form of a register, written and read. */

#ifndef SECOND_FORM_H
#define SECOND_FORM_H

#include <stddef.h>
#include <stdint.h>

#include "refusal.h"
#include "register.h"

enum {
    FORM_HEAD = 3,
    FORM_CONTENT = 6,
    FORM_BODY = 5,
    FORM_LONGEST = FORM_HEAD + (FORM_CONTENT + FORM_BODY) * MOTORS_MOST
};

struct form {
    uint8_t bytes[FORM_LONGEST];
    size_t length;
};

size_t form_length(size_t count);
size_t content_place(size_t number);
size_t body_place(size_t count, size_t number);
void put_content(uint8_t *content, const struct motor *motor, size_t place);

void write_form(const struct motor_register *held, struct form *form);
enum refusal read_form(const uint8_t *bytes, size_t length, struct motor_register *held);

#endif
