/* What a fitter reads from the board: its plate, a setting, and its label, which 55h changes. */

#ifndef SECOND_PLATE_H
#define SECOND_PLATE_H

#include <stdbool.h>
#include <stdint.h>

enum {
    REFERENCE_LAST = 0xFFFFFF,
    LETTER_FIRST = 0x41,  /* capital letters, of the version and of the maker */
    LETTER_LAST = 0x5A,
    DIGIT_FIRST = 0x30,
    DIGIT_LAST = 0x39,
    WEEK_FIRST = 1,
    WEEK_LAST = 53,

    LABEL_LENGTH = 16,
    LABEL_BYTE_FIRST = 0x20,
    LABEL_BYTE_LAST = 0x7E,
    SPACE = 0x20
};

/* The characters of the plate, two each, as they stand at the end of the serial number. */
enum { MAKER = 0, YEAR = 2, WEEK = 4, PLATE_CHARACTERS = 6 };

struct plate {
    uint32_t reference;
    uint8_t letter;
    uint8_t number;
    uint8_t characters[PLATE_CHARACTERS];
};

extern const struct plate plain_plate;

bool is_plate(const struct plate *plate);
bool is_label(const uint8_t *bytes);

#endif
