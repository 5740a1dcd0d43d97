/* Messages of the RTS transmitter (2026-04, source document 002), each with its own fields. */

#ifndef SECOND_RTS_H
#define SECOND_RTS_H

#include <stdbool.h>
#include <stddef.h>
#include <stdint.h>

#include "frame.h"
#include "refusal.h"

enum rts_message {
    CTRL_POSITION = 0x80,
    CTRL_TILT = 0x81,
    CTRL_DIM = 0x82,
    SET_CHANNEL_MODE = 0x90,
    SET_TILT_FRAMECOUNT = 0x91,
    SET_DIM_FRAMECOUNT = 0x92,
    SET_SUN_AUTO = 0x93,
    SET_DCT_LOCK = 0x94,
    SET_CHANNEL = 0x97,
    SET_OPEN_PROG = 0x98,
    SET_IP = 0x9A,
    GET_CHANNEL_MODE = 0xA0,
    GET_TILT_FRAMECOUNT = 0xA1,
    GET_DIM_FRAMECOUNT = 0xA2,
    GET_DCT_LOCK = 0xA4,
    POST_CHANNEL_MODE = 0xB0,
    POST_TILT_FRAMECOUNT = 0xB1,
    POST_DIM_FRAMECOUNT = 0xB2,
    POST_DCT_LOCK = 0xB4
};

enum {
    RTS_DATA_MOST = 4,
    NOT_LISTED = -1,

    CHANNEL_LAST = 15,
    POSITION_UP = 1,
    POSITION_DOWN = 2,
    POSITION_STOP = 3,
    POSITION_FAVOURITE = 4,
    STEP_PLUS = 0,
    STEP_MINUS = 1,
    STEP_LEAST = 1,
    STEP_MOST = 127,
    MODE_CE = 0,
    MODE_US = 1,
    MODE_ROLLING = 0,
    MODE_TILTING = 1,
    MODE_NORMAL = 0,
    MODE_MODULIS = 1,
    US_COUNT_LEAST = 4,
    CE_COUNT_LEAST = 2,
    CE_COUNT_MOST = 13,
    DIM_COUNT_LEAST = 4,
    SUN_AUTO_ON = 0,
    SUN_AUTO_OFF = 1,
    ALL_INPUTS = 0,
    INPUT_LAST = 5,
    INPUT_UNLOCK = 0,
    INPUT_LOCK = 1,
    INPUT_BITS = 0x3E  /* bit i is input i, 1 to 5 */
};

/* Each message has one of the parts; every field is one byte, and they lie in the order of DATA. */
union rts_fields {
    uint8_t data[RTS_DATA_MOST];                                    /* as they stand in DATA */
    uint8_t channel;                                                /* 97h, 98h, 9Ah, A0h to A2h */
    struct { uint8_t channel, order; } position;                    /* 80h */
    struct { uint8_t channel, direction, value; } step;             /* 81h, 82h */
    struct { uint8_t channel, ergonomics, tilting, modulis; } mode; /* 90h, B0h */
    struct { uint8_t channel, us_count, ce_count; } tilt;           /* 91h, B1h */
    struct { uint8_t channel, count; } dim;                         /* 92h, B2h */
    struct { uint8_t channel, off; } sun_auto;                      /* 93h */
    struct { uint8_t input, locked; } contact;                      /* 94h */
    uint8_t locked_inputs;                                          /* B4h */
};

/* A message with its header, whose message number says which part of the fields is meant. */
struct rts {
    struct header header;
    union rts_fields fields;
};

int rts_data_count(uint8_t message);
size_t rts_length(uint8_t message);

enum refusal read_rts(const uint8_t *bundle, size_t count, struct rts *rts);
enum refusal write_rts(const struct rts *rts, uint8_t *buffer, size_t room, size_t place);

#endif
