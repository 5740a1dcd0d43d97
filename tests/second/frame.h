/* Frames: limits, addresses, message numbers, and the way from wire to frame and back. */

#ifndef SECOND_FRAME_H
#define SECOND_FRAME_H

#include <stdbool.h>
#include <stddef.h>
#include <stdint.h>

#include "refusal.h"

enum {
    BUNDLE_SHORTEST = 11,
    BUNDLE_LONGEST = 31,
    HEADER_LENGTH = 9,
    CHECKSUM_LENGTH = 2,
    DATA_MOST = BUNDLE_LONGEST - HEADER_LENGTH - CHECKSUM_LENGTH,

    ACK_BIT = 0x80,
    EXT_BITS = 0x60,
    LEN_BITS = 0x1F,
    NODE_TYPE_LAST = 15,

    GROUP_MARK = 0x000000,      /* DEST of a group frame, and an empty entry */
    BROADCAST_MARK = 0xFFFFFF,
    ADDRESS_LAST = 0xFFFFFF,
    NODE_ID_FIRST = 0x000001,
    NODE_ID_LAST = 0xFFFEFF
};

enum message {
    STOP = 0x02,
    MOVETO = 0x03,
    GET_MOTOR_POSITION = 0x0C,
    POST_MOTOR_POSITION = 0x0D,
    GET_MOTOR_STATUS = 0x0E,
    POST_MOTOR_STATUS = 0x0F,
    SET_MOTOR_IP = 0x15,
    SET_NETWORK_LOCK = 0x16,
    GET_MOTOR_IP = 0x25,
    GET_NETWORK_LOCK = 0x26,
    POST_MOTOR_IP = 0x35,
    POST_NETWORK_LOCK = 0x36,
    GET_NODE_ADDR = 0x40,
    GET_GROUP_ADDR = 0x41,
    GET_NODE_LABEL = 0x45,
    GET_NODE_SERIAL_NUMBER = 0x4C,
    SET_GROUP_ADDR = 0x51,
    SET_NODE_LABEL = 0x55,
    POST_NODE_ADDR = 0x60,
    POST_GROUP_ADDR = 0x61,
    POST_NODE_LABEL = 0x65,
    POST_NODE_SERIAL_NUMBER = 0x6C,
    NACK = 0x6F,
    GET_NODE_APP_VERSION = 0x74,
    POST_NODE_APP_VERSION = 0x75,
    ACK = 0x7F,
    NO_FRAME = 0xFF
};

struct header {
    uint8_t message;
    bool acknowledge;
    uint8_t sender_type;
    uint8_t receiver_type;
    uint32_t source;
    uint32_t destination;
};

struct frame {
    struct header header;
    uint8_t data[DATA_MOST];
    size_t data_count;
};

/* The bytes of one frame as they go over the wire. */
struct wire {
    uint8_t bytes[BUNDLE_LONGEST];
    size_t count;
};

bool is_node_id(uint32_t address);

static inline uint8_t inverted(uint8_t byte)
{
    return (uint8_t)~byte;
}

/* The whole frame's length, which LEN tells. */
static inline size_t frame_length(size_t data_count)
{
    return HEADER_LENGTH + data_count + CHECKSUM_LENGTH;
}

uint16_t two_bytes(const uint8_t *bytes);
uint32_t three_bytes(const uint8_t *bytes);
void put_two_bytes(uint8_t *bytes, uint16_t value);
void put_three_bytes(uint8_t *bytes, uint32_t value);
uint16_t sum_of(const uint8_t *bytes, size_t count);

enum refusal check_bundle(const uint8_t *bundle, size_t count);
void take_header(const uint8_t *bundle, struct header *header);
enum refusal read_frame(const uint8_t *bundle, size_t count, struct frame *frame);

enum refusal check_writing(const struct header *header, size_t data_count);
enum refusal check_room(size_t room, size_t place, size_t length);
void put_frame(uint8_t *bytes, const struct header *header, const uint8_t *data, size_t data_count);
enum refusal write_frame(const struct header *header, const uint8_t *data,
                         size_t data_count, struct wire *wire);

#endif
