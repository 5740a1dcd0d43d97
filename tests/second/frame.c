/* From wire to frame, and back. */

#include "frame.h"

bool is_node_id(uint32_t address)
{
    return address >= NODE_ID_FIRST && address <= NODE_ID_LAST;
}

/* Fields of several bytes go low byte first. */
uint16_t two_bytes(const uint8_t *bytes)
{
    return (uint16_t)(bytes[0] | bytes[1] << 8);
}

uint32_t three_bytes(const uint8_t *bytes)
{
    return bytes[0] | (uint32_t)bytes[1] << 8 | (uint32_t)bytes[2] << 16;
}

void put_two_bytes(uint8_t *bytes, uint16_t value)
{
    bytes[0] = (uint8_t)value;
    bytes[1] = (uint8_t)(value >> 8);
}

void put_three_bytes(uint8_t *bytes, uint32_t value)
{
    bytes[0] = (uint8_t)value;
    bytes[1] = (uint8_t)(value >> 8);
    bytes[2] = (uint8_t)(value >> 16);
}

/* The checksum is the sum of the inverted bytes, as they stand on the wire. */
uint16_t sum_of(const uint8_t *bytes, size_t count)
{
    uint32_t sum = 0;
    for (size_t at = 0; at < count; at++)
        sum += bytes[at];
    return (uint16_t)sum;
}

/* The checksum's own two bytes: high byte first, not inverted. */
static uint16_t checksum_at(const uint8_t *bytes)
{
    return (uint16_t)(bytes[0] << 8 | bytes[1]);
}

/* Rows 1 to 6, the first that applies. */
enum refusal check_bundle(const uint8_t *bundle, size_t count)
{
    if (count < BUNDLE_SHORTEST)
        return BUNDLE_TOO_SHORT;
    if (count > BUNDLE_LONGEST)
        return BUNDLE_TOO_LONG;
    uint8_t length = inverted(bundle[1]);
    if ((length & EXT_BITS) != 0)
        return EXT_NOT_ZERO;
    if ((length & LEN_BITS) != (int)count)
        return LEN_WRONG;
    size_t summed = count - CHECKSUM_LENGTH;
    if (sum_of(bundle, summed) != checksum_at(bundle + summed))
        return CHECKSUM_WRONG;
    if (inverted(bundle[0]) == NO_FRAME)
        return MESSAGE_NEVER;
    return ACCEPTED;
}

/* The header of a bundle that check_bundle takes. */
void take_header(const uint8_t *bundle, struct header *header)
{
    uint8_t types = inverted(bundle[2]);
    header->message = inverted(bundle[0]);
    header->acknowledge = (inverted(bundle[1]) & ACK_BIT) != 0;
    header->sender_type = types >> 4;
    header->receiver_type = types & 0x0F;
    header->source = three_bytes(bundle + 3) ^ ADDRESS_LAST;
    header->destination = three_bytes(bundle + 6) ^ ADDRESS_LAST;
}

enum refusal read_frame(const uint8_t *bundle, size_t count, struct frame *frame)
{
    enum refusal refusal = check_bundle(bundle, count);
    if (refusal != ACCEPTED)
        return refusal;
    take_header(bundle, &frame->header);
    frame->data_count = count - frame_length(0);
    for (size_t at = 0; at < frame->data_count; at++)
        frame->data[at] = inverted(bundle[HEADER_LENGTH + at]);
    return ACCEPTED;
}

/* Rows 10 to 13. */
enum refusal check_writing(const struct header *header, size_t data_count)
{
    if (header->source > ADDRESS_LAST || header->destination > ADDRESS_LAST)
        return WRITE_ADDRESS;
    if (header->sender_type > NODE_TYPE_LAST || header->receiver_type > NODE_TYPE_LAST)
        return WRITE_NODE_TYPE;
    if (data_count > DATA_MOST)
        return WRITE_DATA;
    if (header->message == NO_FRAME)
        return WRITE_MESSAGE;
    return ACCEPTED;
}

/* Row 14: less room from the place on than the frame needs, or a place past the end. */
enum refusal check_room(size_t room, size_t place, size_t length)
{
    return place <= room && room - place >= length ? ACCEPTED : WRITE_ROOM;
}

/* The bytes of a frame that check_writing takes, and no others: inverted, and then their sum. */
void put_frame(uint8_t *bytes, const struct header *header, const uint8_t *data, size_t data_count)
{
    size_t length = frame_length(data_count);
    size_t summed = length - CHECKSUM_LENGTH;
    bytes[0] = inverted(header->message);
    bytes[1] = inverted((uint8_t)(length | (header->acknowledge ? ACK_BIT : 0)));
    bytes[2] = inverted((uint8_t)(header->sender_type << 4 | header->receiver_type));
    put_three_bytes(bytes + 3, ~header->source);
    put_three_bytes(bytes + 6, ~header->destination);
    for (size_t at = 0; at < data_count; at++)
        bytes[HEADER_LENGTH + at] = inverted(data[at]);
    uint16_t sum = sum_of(bytes, summed);
    bytes[summed] = (uint8_t)(sum >> 8);
    bytes[summed + 1] = (uint8_t)sum;
}

/* Row 14 cannot arise, a wire has room for every frame. */
enum refusal write_frame(const struct header *header, const uint8_t *data,
                         size_t data_count, struct wire *wire)
{
    enum refusal refusal = check_writing(header, data_count);
    if (refusal != ACCEPTED)
        return refusal;
    put_frame(wire->bytes, header, data, data_count);
    wire->count = frame_length(data_count);
    return ACCEPTED;
}
