/* Lines about the register of motors. */

#include "script_register.h"

#include <stdbool.h>
#include <stddef.h>

#include "register.h"
#include "script_frame.h"
#include "travel.h"

/* 96 NodeIDs on four lines are more motors than the register holds. */
uint32_t any_motor_id(struct script *script)
{
    static const uint32_t first[] = {0x000001, 0x0000FF, 0x000100, 0x030405, 0x050403, 0xFFFEFE, 0xFFFEFF};
    uint32_t number = below(script, 96);
    if (number < sizeof first / sizeof first[0])
        return first[number];
    return (number * UINT32_C(0x9E3779) & 0xFFFFFF) % NODE_ID_LAST + 1;
}

static uint8_t any_line(struct script *script)
{
    return (uint8_t)(chance(script, 95) ? below(script, 4) : ONE_OF(script, 4, 5, 255));
}

/* Looks on one line for a motor that is not yet held, without insisting. */
static void choose_motor(struct script *script, bool prefer_new, uint8_t *line, uint32_t *node_id)
{
    const struct motor_register *held = &script->console.held;
    *line = any_line(script);
    for (int attempt = 0; attempt < 20; attempt++) {
        *node_id = any_motor_id(script);
        if (!prefer_new || !is_held_at(held, place_of(held, *line, *node_id), *line, *node_id))
            return;
    }
}

void reading_data(struct script *script, uint8_t *data)
{
    put_two_bytes(data, (uint16_t)ONE_OF(script, 0, 333, 65535, below(script, 65536)));
    data[2] = (uint8_t)ONE_OF(script, 0, 100, below(script, 101), below(script, 101));
    data[3] = any_byte(script);
    data[4] = (uint8_t)ONE_OF(script, 1, 16, NO_FAVOURITE, NO_FAVOURITE, between(script, 1, 16));
    if (chance(script, 7))
        data[2] = (uint8_t)ONE_OF(script, 101, 102, 255);
    if (chance(script, 7))
        data[4] = (uint8_t)ONE_OF(script, 0, 17, 0xFE);
}

/* A motor's 60h or 0Dh, mostly in order. */
struct frame any_report(struct script *script, uint32_t node_id)
{
    struct frame report = {.header = {.source = node_id, .destination = 0xFFFF00}};
    choose_types(script, &report.header);
    for (size_t at = 0; at < DATA_MOST; at++)
        report.data[at] = any_byte(script);
    reading_data(script, report.data);
    report.header.acknowledge = chance(script, 10);
    report.header.message = POST_NODE_ADDR;
    if (chance(script, 55)) {
        report.header.message = POST_MOTOR_POSITION;
        report.data_count = any_data_count(script, 5);
    }
    if (chance(script, 4))
        report.header.message = any_message(script);
    if (chance(script, 4))
        report.header.source = ONE_OF(script, 0x000000, 0xFFFF00, 0xFFFFFE, 0xFFFFFF);
    if (chance(script, 8))
        report.header.destination = ONE_OF(script, 0x000000, 0x000000, 0xFFFFFF, 0x000001);
    if (chance(script, 8))
        report.data_count = below(script, DATA_MOST + 1);
    return report;
}

static void put_report(struct script *script, bool damaged)
{
    uint8_t line;
    uint32_t node_id;
    choose_motor(script, script->phase == FILL_PHASE && chance(script, 70), &line, &node_id);
    struct frame report = any_report(script, node_id);
    struct loose_bundle bundle = bundle_of(&report);
    if (damaged)
        damage_bundle(script, &bundle);
    start_line(script, "line");
    put_decimal(script, line);
    put_hex(script, bundle.bytes, bundle.count);
}

void report_line(struct script *script)
{
    put_report(script, false);
}

void damaged_report_line(struct script *script)
{
    put_report(script, true);
}

void strike_line(struct script *script)
{
    const struct motor_register *held = &script->console.held;
    uint8_t line;
    uint32_t node_id;
    choose_motor(script, false, &line, &node_id);
    if (held->count > 0 && chance(script, 60)) {
        const struct motor *motor = &held->motors[below(script, (uint32_t)held->count)];
        line = motor->line;
        node_id = motor->node_id;
    }
    if (chance(script, 4))
        node_id = ONE_OF(script, 0x000000, 0xFFFF00, 0xFFFFFF);
    start_line(script, "strike");
    put_decimal(script, line);
    put_id(script, node_id);
}

void motors_line(struct script *script)
{
    start_line(script, "motors");
}
