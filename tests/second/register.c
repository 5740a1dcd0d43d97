/* The register of motors. */

#include "register.h"

#include <string.h>

#include "frame.h"
#include "travel.h"

/* Ascending order of line, then NodeID as a number. */
bool is_before(const struct motor *one, uint8_t line, uint32_t node_id)
{
    return one->line < line || (one->line == line && one->node_id < node_id);
}

/* The place a motor has, or would have if it were entered. */
size_t place_of(const struct motor_register *held, uint8_t line, uint32_t node_id)
{
    size_t place = 0;
    while (place < held->count && is_before(&held->motors[place], line, node_id))
        place++;
    return place;
}

bool is_held_at(const struct motor_register *held, size_t place, uint8_t line, uint32_t node_id)
{
    return place < held->count && held->motors[place].line == line
        && held->motors[place].node_id == node_id;
}

void enter_motor(struct motor_register *held, size_t place, uint8_t line, uint32_t node_id)
{
    struct motor *motors = held->motors;
    memmove(motors + place + 1, motors + place, (held->count - place) * sizeof *motors);
    motors[place] = (struct motor){.line = line, .node_id = node_id};
    held->count++;
}

bool is_percent_and_favourite(uint8_t percent, uint8_t favourite)
{
    return percent <= PERCENT_MOST && (is_favourite_number(favourite) || favourite == NO_FAVOURITE);
}

/* DATA of 0Dh: pulse 16, percent, reserved, IP. */
static bool is_reading(const struct frame *frame)
{
    return frame->data_count >= 5 && is_percent_and_favourite(frame->data[2], frame->data[4]);
}

/* Rows 20 to 23. */
static enum refusal check_report(uint8_t line, const struct frame *frame)
{
    uint8_t message = frame->header.message;
    if (line > LINE_LAST)
        return REGISTER_LINE;
    if (!is_node_id(frame->header.source) || frame->header.destination == GROUP_MARK)
        return REGISTER_SENDER;
    if (message != POST_NODE_ADDR && message != POST_MOTOR_POSITION)
        return REGISTER_MESSAGE;
    if (message == POST_MOTOR_POSITION && !is_reading(frame))
        return REGISTER_READING;
    return ACCEPTED;
}

static struct reading reading_of(const uint8_t *data)
{
    return (struct reading){
        .exists = true, .pulse = two_bytes(data), .percent = data[2], .favourite = data[4]};
}

/* 60h enrols the motor; 0Dh enrols it if new and keeps its reading. */
static enum refusal file_report(struct motor_register *held, uint8_t line, const struct frame *frame)
{
    uint32_t node_id = frame->header.source;
    size_t place = place_of(held, line, node_id);
    if (!is_held_at(held, place, line, node_id)) {
        if (held->count == MOTORS_MOST)
            return REGISTER_FULL;
        enter_motor(held, place, line, node_id);
    }
    if (frame->header.message == POST_MOTOR_POSITION)
        held->motors[place].reading = reading_of(frame->data);
    return ACCEPTED;
}

enum refusal bundle_to_register(struct motor_register *held, uint8_t line,
                                const uint8_t *bundle, size_t count)
{
    struct frame frame;
    enum refusal refusal = read_frame(bundle, count, &frame);
    if (refusal == ACCEPTED)
        refusal = check_report(line, &frame);
    if (refusal == ACCEPTED)
        refusal = file_report(held, line, &frame);
    return refusal;
}

/* Striking out gives the place back; places beyond the count are all zeros. */
enum refusal strike_out(struct motor_register *held, uint8_t line, uint32_t node_id)
{
    if (line > LINE_LAST)
        return REGISTER_LINE;
    size_t place = place_of(held, line, node_id);
    if (!is_held_at(held, place, line, node_id))
        return MOTOR_NOT_HELD;
    struct motor *motors = held->motors;
    held->count--;
    memmove(motors + place, motors + place + 1, (held->count - place) * sizeof *motors);
    motors[held->count] = (struct motor){0};
    return ACCEPTED;
}
