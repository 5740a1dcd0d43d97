/* What requests and reports share, and bundles whole and damaged. */

#include "script_frame.h"

#include <string.h>

#include "messages.h"

static uint8_t own_type(const struct script *script)
{
    return script->console.has_board ? script->console.board.type : 2;
}

void choose_types(struct script *script, struct header *header)
{
    header->sender_type = (uint8_t)ONE_OF(script, 0, 0, below(script, 16));
    header->receiver_type = (uint8_t)ONE_OF(script, 0, 0, 0, 0, own_type(script), own_type(script),
                                            own_type(script), below(script, 16));
}

/* Mostly of the node's table, with moves and locks put forward; else a reply or an unknown one. */
uint8_t any_message(struct script *script)
{
    if (chance(script, 40))
        return (uint8_t)ONE_OF(script, MOVETO, MOVETO, MOVETO, STOP, SET_MOTOR_IP, SET_NETWORK_LOCK, GET_MOTOR_STATUS,
                               GET_NETWORK_LOCK);
    if (chance(script, 85))
        return row_at(below(script, MESSAGES))->message;
    return (uint8_t)ONE_OF(script, 0x0D, 0x0F, 0x33, 0x35, 0x36, 0x37, 0x60, 0x61, 0x65, 0x6C, 0x6F, 0x71,
                           0x75, 0x7F, 0x00, 0x01, 0x04, 0x05, 0x13, 0x17, 0x1F, 0x23, 0x27, 0x44, 0x4B,
                           0x54, 0x56, 0x70, 0x70, 0x73, 0x80, 0x90, 0xA0, 0xB0, 0xB1, 0xB2, 0xB4, 0xFE,
                           below(script, 255));
}

/* Exactly the least, one less, or more. */
size_t any_data_count(struct script *script, size_t least)
{
    uint32_t kind = below(script, 100);
    if (kind < 80)
        return least;
    if (kind < 87 && least > 0)
        return least - 1;
    return kind < 97 ? between(script, (uint32_t)least, DATA_MOST) : below(script, DATA_MOST + 1);
}

struct loose_bundle bundle_of(const struct frame *frame)
{
    struct loose_bundle bundle = {.count = 0};
    struct wire wire;
    if (write_frame(&frame->header, frame->data, frame->data_count, &wire) == ACCEPTED) {
        memcpy(bundle.bytes, wire.bytes, wire.count);
        bundle.count = wire.count;
    }
    return bundle;
}

/* Makes the checksum right again after a byte before it was changed. */
void reseal(struct loose_bundle *bundle)
{
    size_t summed = bundle->count - CHECKSUM_LENGTH;
    uint16_t sum = sum_of(bundle->bytes, summed);
    bundle->bytes[summed] = (uint8_t)(sum >> 8);
    bundle->bytes[summed + 1] = (uint8_t)sum;
}

static void lose_from_bundle(struct loose_bundle *bundle, size_t place)
{
    bundle->count--;
    memmove(bundle->bytes + place, bundle->bytes + place + 1, bundle->count - place);
}

static void insert_in_bundle(struct loose_bundle *bundle, size_t place, uint8_t byte)
{
    memmove(bundle->bytes + place + 1, bundle->bytes + place, bundle->count - place);
    bundle->bytes[place] = byte;
    bundle->count++;
}

/* Random bytes behind what is there, up to a count at the edges of rows 1 and 2. */
static void stretch_bundle(struct script *script, struct loose_bundle *bundle)
{
    size_t count = ONE_OF(script, 9, 10, 11, 31, 32, 33, 40);
    for (size_t at = bundle->count; at < count; at++)
        bundle->bytes[at] = any_byte(script);
    bundle->count = count;
    if (chance(script, 50)) {
        bundle->bytes[1] = inverted((uint8_t)(count & LEN_BITS));
        reseal(bundle);
    }
}

/* A changed LEN, EXT or MSG under a right checksum. */
static void change_field(struct script *script, struct loose_bundle *bundle)
{
    switch (below(script, 4)) {
    case 0:
        bundle->bytes[1] ^= (uint8_t)ONE_OF(script, 0x20, 0x40, 0x60);
        break;
    case 1:
        bundle->bytes[1] ^= (uint8_t)between(script, 1, LEN_BITS);
        break;
    case 2:
        bundle->bytes[0] = inverted(NO_FRAME);
        break;
    default:
        insert_in_bundle(bundle, 0, inverted(NO_FRAME));
        break;
    }
    reseal(bundle);
}

void damage_bundle(struct script *script, struct loose_bundle *bundle)
{
    size_t place = below(script, (uint32_t)bundle->count);
    switch (below(script, 8)) {
    case 0:
        bundle->bytes[place] ^= (uint8_t)between(script, 1, 255);
        break;
    case 1:
        lose_from_bundle(bundle, place);
        break;
    case 2:
        insert_in_bundle(bundle, place, any_byte(script));
        break;
    case 3:
        bundle->count = place;
        break;
    case 4:
        bundle->bytes[bundle->count - 1] ^= (uint8_t)ONE_OF(script, 1, 0x80, 0xFF);
        break;
    case 5:
        stretch_bundle(script, bundle);
        break;
    default:
        change_field(script, bundle);
        break;
    }
}
