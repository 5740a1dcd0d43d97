/* Messages of the RTS transmitter: their counts, their ranges, reading and writing. */

#include "rts.h"

_Static_assert(sizeof((union rts_fields *)0)->mode == 4 && sizeof((union rts_fields *)0)->step == 3
                   && sizeof((union rts_fields *)0)->position == 2, "fields of one byte lie side by side, as in DATA");

/* How many DATA bytes a message has, which decides over the LEN column of 002; or NOT_LISTED. */
int rts_data_count(uint8_t message)
{
    switch (message) {
    case GET_DCT_LOCK:
        return 0;
    case SET_CHANNEL:
    case SET_OPEN_PROG:
    case SET_IP:
    case GET_CHANNEL_MODE:
    case GET_TILT_FRAMECOUNT:
    case GET_DIM_FRAMECOUNT:
    case POST_DCT_LOCK:
        return 1;
    case CTRL_POSITION:
    case SET_DIM_FRAMECOUNT:
    case SET_SUN_AUTO:
    case SET_DCT_LOCK:
    case POST_DIM_FRAMECOUNT:
        return 2;
    case CTRL_TILT:
    case CTRL_DIM:
    case SET_TILT_FRAMECOUNT:
    case POST_TILT_FRAMECOUNT:
        return 3;
    case SET_CHANNEL_MODE:
    case POST_CHANNEL_MODE:
        return 4;
    default:
        return NOT_LISTED;
    }
}

/* The whole frame's length of a message of the list. */
size_t rts_length(uint8_t message)
{
    return frame_length((size_t)rts_data_count(message));
}

static bool is_channel(uint8_t value)
{
    return value <= CHANNEL_LAST;
}

static bool is_within(uint8_t value, uint8_t least, uint8_t most)
{
    return value >= least && value <= most;
}

/* Every field within its range; a POST has its SET's ranges, and B4h the bits of its inputs only. */
static bool is_in_range(uint8_t message, const union rts_fields *fields)
{
    switch (message) {
    case CTRL_POSITION:
        return is_channel(fields->position.channel)
            && is_within(fields->position.order, POSITION_UP, POSITION_FAVOURITE);
    case CTRL_TILT:
    case CTRL_DIM:
        return is_channel(fields->step.channel) && fields->step.direction <= STEP_MINUS
            && is_within(fields->step.value, STEP_LEAST, STEP_MOST);
    case SET_CHANNEL_MODE:
    case POST_CHANNEL_MODE:
        return is_channel(fields->mode.channel) && fields->mode.ergonomics <= MODE_US
            && fields->mode.tilting <= MODE_TILTING && fields->mode.modulis <= MODE_MODULIS;
    case SET_TILT_FRAMECOUNT:
    case POST_TILT_FRAMECOUNT:
        return is_channel(fields->tilt.channel) && fields->tilt.us_count >= US_COUNT_LEAST
            && is_within(fields->tilt.ce_count, CE_COUNT_LEAST, CE_COUNT_MOST);
    case SET_DIM_FRAMECOUNT:
    case POST_DIM_FRAMECOUNT:
        return is_channel(fields->dim.channel) && fields->dim.count >= DIM_COUNT_LEAST;
    case SET_SUN_AUTO:
        return is_channel(fields->sun_auto.channel) && fields->sun_auto.off <= SUN_AUTO_OFF;
    case SET_DCT_LOCK:
        return fields->contact.input <= INPUT_LAST && fields->contact.locked <= INPUT_LOCK;
    case SET_CHANNEL:
    case SET_OPEN_PROG:
    case SET_IP:
    case GET_CHANNEL_MODE:
    case GET_TILT_FRAMECOUNT:
    case GET_DIM_FRAMECOUNT:
        return is_channel(fields->channel);
    case GET_DCT_LOCK:
        return true;
    case POST_DCT_LOCK:
        return (fields->locked_inputs & ~INPUT_BITS) == 0;
    default:
        return false;
    }
}

/* Rows 1 to 6, then 18, 16 and 15; a refusal leaves what was there. */
enum refusal read_rts(const uint8_t *bundle, size_t count, struct rts *rts)
{
    enum refusal refusal = check_bundle(bundle, count);
    if (refusal != ACCEPTED)
        return refusal;
    uint8_t message = inverted(bundle[0]);
    int data_count = rts_data_count(message);
    if (data_count == NOT_LISTED)
        return RTS_MESSAGE;
    if (count != frame_length((size_t)data_count))
        return RTS_DATA_COUNT;
    union rts_fields fields = {.data = {0}};
    for (int at = 0; at < data_count; at++)
        fields.data[at] = inverted(bundle[HEADER_LENGTH + at]);
    if (!is_in_range(message, &fields))
        return RTS_FIELD;
    take_header(bundle, &rts->header);
    rts->fields = fields;
    return ACCEPTED;
}

/* A message of the list, into a buffer of so many bytes from the place on: rows 10 and 11, then 15 and 14. */
enum refusal write_rts(const struct rts *rts, uint8_t *buffer, size_t room, size_t place)
{
    size_t data_count = (size_t)rts_data_count(rts->header.message);
    enum refusal refusal = check_writing(&rts->header, data_count);
    if (refusal != ACCEPTED)
        return refusal;
    if (!is_in_range(rts->header.message, &rts->fields))
        return RTS_FIELD;
    refusal = check_room(room, place, frame_length(data_count));
    if (refusal != ACCEPTED)
        return refusal;
    put_frame(buffer + place, &rts->header, rts->fields.data, data_count);
    return ACCEPTED;
}
