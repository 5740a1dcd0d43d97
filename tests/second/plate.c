/* The ranges of the plate and of the label. */

#include "plate.h"

#include <stddef.h>

/* The plate of a set-up that names none. */
const struct plate plain_plate = {
    .reference = 0,
    .letter = 'A',
    .number = 0,
    .characters = {'A', 'A', '0', '0', '0', '1'},
};

static bool is_letter(uint8_t character)
{
    return character >= LETTER_FIRST && character <= LETTER_LAST;
}

static bool is_digit(uint8_t character)
{
    return character >= DIGIT_FIRST && character <= DIGIT_LAST;
}

static bool are_two_letters(const uint8_t *characters)
{
    return is_letter(characters[0]) && is_letter(characters[1]);
}

static bool are_two_digits(const uint8_t *characters)
{
    return is_digit(characters[0]) && is_digit(characters[1]);
}

static bool is_week(const uint8_t *characters)
{
    if (!are_two_digits(characters))
        return false;
    int number = 10 * (characters[0] - DIGIT_FIRST) + (characters[1] - DIGIT_FIRST);
    return number >= WEEK_FIRST && number <= WEEK_LAST;
}

/* What row 32 asks of a plate; the number may be any byte. */
bool is_plate(const struct plate *plate)
{
    return plate->reference <= REFERENCE_LAST && is_letter(plate->letter)
        && are_two_letters(plate->characters + MAKER) && are_two_digits(plate->characters + YEAR)
        && is_week(plate->characters + WEEK);
}

/* Sixteen bytes, each 20h to 7Eh. */
bool is_label(const uint8_t *bytes)
{
    for (size_t at = 0; at < LABEL_LENGTH; at++)
        if (bytes[at] < LABEL_BYTE_FIRST || bytes[at] > LABEL_BYTE_LAST)
            return false;
    return true;
}
