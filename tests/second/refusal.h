/* The rows of "Numbers given back" that are given here; all but 14 the console can reach. */

#ifndef SECOND_REFUSAL_H
#define SECOND_REFUSAL_H

enum refusal {
    ACCEPTED = 0,
    BUNDLE_TOO_SHORT = 1,
    BUNDLE_TOO_LONG = 2,
    EXT_NOT_ZERO = 3,
    LEN_WRONG = 4,
    CHECKSUM_WRONG = 5,
    MESSAGE_NEVER = 6,
    WRITE_ADDRESS = 10,
    WRITE_NODE_TYPE = 11,
    WRITE_DATA = 12,
    WRITE_MESSAGE = 13,
    WRITE_ROOM = 14,
    RTS_FIELD = 15,
    RTS_DATA_COUNT = 16,
    RTS_MESSAGE = 18,
    REGISTER_LINE = 20,
    REGISTER_SENDER = 21,
    REGISTER_MESSAGE = 22,
    REGISTER_READING = 23,
    REGISTER_FULL = 24,
    MOTOR_NOT_HELD = 25,
    PULSE_BEYOND_TRAVEL = 30,
    BLOCKING_CAUSE = 31,
    SET_UP = 32,
    FORM_START = 40,
    FORM_COUNT = 41,
    FORM_LENGTH = 42,
    FORM_CONTENTS = 43,
    FORM_BODIES = 44
};

#endif
