/* The stored form. */

#include "form.h"

#include <stdbool.h>
#include <string.h>

#include "frame.h"

size_t form_length(size_t count)
{
    return FORM_HEAD + (FORM_CONTENT + FORM_BODY) * count;
}

size_t content_place(size_t number)
{
    return FORM_HEAD + FORM_CONTENT * number;
}

/* Bodies stand behind all the contents, in the same order and without holes. */
size_t body_place(size_t count, size_t number)
{
    return FORM_HEAD + FORM_CONTENT * count + FORM_BODY * number;
}

void put_content(uint8_t *content, const struct motor *motor, size_t place)
{
    content[0] = motor->line;
    put_three_bytes(content + 1, motor->node_id);
    put_two_bytes(content + 4, (uint16_t)place);
}

static void put_body(uint8_t *body, const struct reading *reading)
{
    memset(body, 0, FORM_BODY);
    if (!reading->exists)
        return;
    body[0] = 1;
    put_two_bytes(body + 1, reading->pulse);
    body[3] = reading->percent;
    body[4] = reading->favourite;
}

void write_form(const struct motor_register *held, struct form *form)
{
    form->bytes[0] = 1;
    put_two_bytes(form->bytes + 1, (uint16_t)held->count);
    for (size_t at = 0; at < held->count; at++) {
        size_t place = body_place(held->count, at);
        put_content(form->bytes + content_place(at), &held->motors[at], place);
        put_body(form->bytes + place, &held->motors[at].reading);
    }
    form->length = form_length(held->count);
}

static bool is_content(const uint8_t *content, size_t place)
{
    return content[0] <= LINE_LAST && is_node_id(three_bytes(content + 1))
        && two_bytes(content + 4) == place;
}

static bool is_content_after(const uint8_t *content, const uint8_t *earlier)
{
    struct motor before = {.line = earlier[0], .node_id = three_bytes(earlier + 1)};
    return is_before(&before, content[0], three_bytes(content + 1));
}

static bool are_contents(const uint8_t *bytes, size_t count)
{
    for (size_t at = 0; at < count; at++) {
        const uint8_t *content = bytes + content_place(at);
        if (!is_content(content, body_place(count, at)))
            return false;
        if (at > 0 && !is_content_after(content, content - FORM_CONTENT))
            return false;
    }
    return true;
}

static bool is_body(const uint8_t *body)
{
    static const uint8_t no_reading[FORM_BODY] = {0};
    if (body[0] == 1)
        return is_percent_and_favourite(body[3], body[4]);
    return memcmp(body, no_reading, FORM_BODY) == 0;
}

static bool are_bodies(const uint8_t *bytes, size_t count)
{
    for (size_t at = 0; at < count; at++)
        if (!is_body(bytes + body_place(count, at)))
            return false;
    return true;
}

/* Rows 40 to 44. */
static enum refusal check_form(const uint8_t *bytes, size_t length)
{
    if (length < FORM_HEAD || bytes[0] != 1)
        return FORM_START;
    size_t count = two_bytes(bytes + 1);
    if (count > MOTORS_MOST)
        return FORM_COUNT;
    if (length != form_length(count))
        return FORM_LENGTH;
    if (!are_contents(bytes, count))
        return FORM_CONTENTS;
    if (!are_bodies(bytes, count))
        return FORM_BODIES;
    return ACCEPTED;
}

static struct motor motor_of(const uint8_t *content, const uint8_t *body)
{
    struct motor motor = {.line = content[0], .node_id = three_bytes(content + 1)};
    if (body[0] == 1)
        motor.reading = (struct reading){
            .exists = true, .pulse = two_bytes(body + 1), .percent = body[3], .favourite = body[4]};
    return motor;
}

/* Reading a form sets all 256 places. */
enum refusal read_form(const uint8_t *bytes, size_t length, struct motor_register *held)
{
    enum refusal refusal = check_form(bytes, length);
    if (refusal != ACCEPTED)
        return refusal;
    *held = (struct motor_register){.count = two_bytes(bytes + 1)};
    for (size_t at = 0; at < held->count; at++)
        held->motors[at] = motor_of(bytes + content_place(at), bytes + body_place(held->count, at));
    return ACCEPTED;
}
