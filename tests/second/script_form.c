/* Lines about stored forms. */

#include "script_form.h"

#include <stddef.h>
#include <stdint.h>
#include <string.h>

#include "form.h"
#include "frame.h"
#include "register.h"
#include "script_register.h"
#include "travel.h"
#include "words.h"

void store_line(struct script *script)
{
    start_line(script, "store");
}

static struct reading any_reading(struct script *script)
{
    if (chance(script, 40))
        return (struct reading){0};
    return (struct reading){
        .exists = true,
        .pulse = (uint16_t)below(script, 65536),
        .percent = (uint8_t)ONE_OF(script, 0, 100, below(script, 101)),
        .favourite = (uint8_t)ONE_OF(script, 1, 16, NO_FAVOURITE, between(script, 1, 16)),
    };
}

static void make_up_register(struct script *script, struct motor_register *held)
{
    size_t count = ONE_OF(script, 0, 1, 1, 2, 2, 3, 3, 5, 5, 10, 10, 20, 100, 255, 256);
    *held = (struct motor_register){.count = 0};
    while (held->count < count) {
        uint8_t line = (uint8_t)below(script, 4);
        uint32_t node_id = any_motor_id(script);
        size_t place = place_of(held, line, node_id);
        if (is_held_at(held, place, line, node_id))
            continue;
        enter_motor(held, place, line, node_id);
        held->motors[place].reading = any_reading(script);
    }
}

/* A form of one motor more than the register holds, right but for that. */
static void form_of_257(struct bytes *form)
{
    size_t count = MOTORS_MOST + 1;
    memset(form->bytes, 0, form_length(count));
    form->bytes[0] = 1;
    put_two_bytes(form->bytes + 1, (uint16_t)count);
    for (size_t at = 0; at < count; at++) {
        struct motor motor = {.line = 0, .node_id = (uint32_t)at + 1};
        put_content(form->bytes + content_place(at), &motor, body_place(count, at));
    }
    form->count = form_length(count);
}

static void swap_bytes(uint8_t *one, uint8_t *other, size_t count)
{
    for (size_t at = 0; at < count; at++) {
        uint8_t kept = one[at];
        one[at] = other[at];
        other[at] = kept;
    }
}

/* Every place is moved on by one, with or without a byte to fill the hole. */
static void make_hole(struct script *script, struct bytes *form, size_t count)
{
    for (size_t at = 0; at < count; at++) {
        uint8_t *place = form->bytes + content_place(at) + 4;
        put_two_bytes(place, (uint16_t)(two_bytes(place) + 1));
    }
    if (chance(script, 50)) {
        size_t hole = content_place(count);
        memmove(form->bytes + hole + 1, form->bytes + hole, form->count - hole);
        form->bytes[hole] = 0;
        form->count++;
    }
}

static void damage_content(struct script *script, struct bytes *form, size_t count)
{
    size_t number = below(script, (uint32_t)count);
    uint8_t *content = form->bytes + content_place(number);
    uint8_t *neighbour = form->bytes + content_place(number > 0 ? number - 1 : count - 1);
    switch (below(script, 6)) {
    case 0:
        content[0] = (uint8_t)ONE_OF(script, 4, 255, below(script, 4));
        break;
    case 1:
        put_three_bytes(content + 1, ONE_OF(script, 0x000000, 0xFFFF00, 0xFFFFFF));
        break;
    case 2:
        content[4 + below(script, 2)] ^= (uint8_t)between(script, 1, 255);
        break;
    case 3:
        swap_bytes(content, neighbour, 4);
        break;
    case 4:
        memcpy(content, (uint8_t[]){neighbour[0], neighbour[1], neighbour[2], neighbour[3]}, 4);
        break;
    default:
        make_hole(script, form, count);
        break;
    }
}

static void damage_body(struct script *script, struct bytes *form, size_t count)
{
    uint8_t *body = form->bytes + body_place(count, below(script, (uint32_t)count));
    switch (below(script, 4)) {
    case 0:
        body[0] = (uint8_t)ONE_OF(script, 0, 1, 2, 255);
        break;
    case 1:
        body[3] = (uint8_t)ONE_OF(script, 100, 101, 102, 255);
        break;
    case 2:
        body[4] = (uint8_t)ONE_OF(script, 0, 1, 16, 17, 0xFE, 0xFF);
        break;
    default:
        body[below(script, FORM_BODY)] ^= (uint8_t)between(script, 1, 255);
        break;
    }
}

static void damage_form_head(struct script *script, struct bytes *form)
{
    switch (below(script, 6)) {
    case 0:
        form->bytes[0] = (uint8_t)ONE_OF(script, 0, 2, 255);
        break;
    case 1:
        form->bytes[2] ^= (uint8_t)between(script, 1, 255);
        break;
    case 2:
        form->bytes[1] = (uint8_t)(form->bytes[1] + ONE_OF(script, 1, 255));
        break;
    case 3:
        form->bytes[form->count++] = any_byte(script);
        break;
    case 4:
        form->count--;
        break;
    default:
        form->count = below(script, FORM_HEAD + 1);
        break;
    }
}

static void damage_form(struct script *script, struct bytes *form, size_t count)
{
    if (count > 0 && chance(script, 55))
        damage_content(script, form, count);
    if (count > 0 && chance(script, 45))
        damage_body(script, form, count);
    if (chance(script, 30))
        damage_form_head(script, form);
}

void load_line(struct script *script)
{
    struct motor_register made_up;
    struct bytes form;
    struct form whole;
    const struct motor_register *held = &script->console.held;
    if (script->phase != FILL_PHASE && chance(script, 70)) {
        make_up_register(script, &made_up);
        held = &made_up;
    }
    write_form(held, &whole);
    memcpy(form.bytes, whole.bytes, whole.length);
    form.count = whole.length;
    if (chance(script, 60))
        damage_form(script, &form, held->count);
    if (chance(script, 2))
        form_of_257(&form);
    start_line(script, "load");
    put_hex(script, form.bytes, form.count);
}
