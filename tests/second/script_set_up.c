/* Lines that set up a board. */

#include "script_set_up.h"

#include <stdbool.h>
#include <stddef.h>
#include <stdint.h>

#include "frame.h"
#include "plate.h"

/* ------------------------------------------------------------------------
 * Numbers
 * ------------------------------------------------------------------------ */

struct numbers {
    uint32_t node_id;
    uint32_t type;
    uint32_t travel;
};

static struct numbers any_numbers(struct script *script)
{
    return (struct numbers){
        .node_id = ONE_OF(script, 0x000001, 0x000100, 0x010203, 0x050403, 0x050002, 0xABCDEF, NODE_ID_LAST,
                          between(script, NODE_ID_FIRST, NODE_ID_LAST), between(script, NODE_ID_FIRST, NODE_ID_LAST)),
        .type = between(script, 1, NODE_TYPE_LAST),
        .travel = ONE_OF(script, 100, 101, 199, 200, 201, 255, 256, 1000, 32767, 32768, 65534, 65535,
                         between(script, 100, 1000), between(script, 100, 65535)),
    };
}

static void spoil_numbers(struct script *script, struct numbers *numbers)
{
    if (chance(script, 40))
        numbers->node_id = ONE_OF(script, 0x000000, 0xFFFF00, 0xFFFFFE, 0xFFFFFF);
    if (chance(script, 40))
        numbers->type = ONE_OF(script, 0, 16, 255);
    if (chance(script, 40))
        numbers->travel = ONE_OF(script, 0, 1, 99);
}

static void put_numbers(struct script *script, const struct numbers *numbers)
{
    put_id(script, numbers->node_id);
    put_decimal(script, numbers->type);
    put_decimal(script, numbers->travel);
}

/* ------------------------------------------------------------------------
 * Plates
 * ------------------------------------------------------------------------ */

static uint8_t any_letter(struct script *script)
{
    return (uint8_t)ONE_OF(script, LETTER_FIRST, LETTER_LAST, between(script, LETTER_FIRST, LETTER_LAST));
}

static uint8_t any_digit(struct script *script)
{
    return (uint8_t)ONE_OF(script, DIGIT_FIRST, DIGIT_LAST, between(script, DIGIT_FIRST, DIGIT_LAST));
}

static uint8_t not_a_letter(struct script *script)
{
    return (uint8_t)ONE_OF(script, LETTER_FIRST - 1, LETTER_FIRST - 1, LETTER_FIRST - 1, LETTER_LAST + 1,
                           LETTER_LAST + 1, LETTER_LAST + 1, 0x61, 0xC1, below(script, LETTER_FIRST),
                           between(script, LETTER_LAST + 1, 255));
}

static uint8_t not_a_digit(struct script *script)
{
    return (uint8_t)ONE_OF(script, DIGIT_FIRST - 1, DIGIT_FIRST - 1, DIGIT_FIRST - 1, DIGIT_LAST + 1, DIGIT_LAST + 1,
                           DIGIT_LAST + 1, SPACE, LETTER_FIRST, below(script, DIGIT_FIRST),
                           between(script, DIGIT_LAST + 1, 255));
}

static void put_week(struct plate *plate, uint32_t number)
{
    plate->characters[WEEK] = (uint8_t)(DIGIT_FIRST + number / 10);
    plate->characters[WEEK + 1] = (uint8_t)(DIGIT_FIRST + number % 10);
}

/* A plate that set-up takes. */
static struct plate any_plate(struct script *script)
{
    struct plate plate = {
        .reference = ONE_OF(script, 0, 1, 0xFF, 0x100, 0x4D433E, 0x010203, 0xFFFFFE, REFERENCE_LAST, REFERENCE_LAST,
                            below(script, REFERENCE_LAST + 1), below(script, REFERENCE_LAST + 1)),
        .letter = any_letter(script),
        .number = any_byte(script),
    };
    for (size_t at = MAKER; at < YEAR; at++)
        plate.characters[at] = any_letter(script);
    for (size_t at = YEAR; at < WEEK; at++)
        plate.characters[at] = any_digit(script);
    put_week(&plate, ONE_OF(script, WEEK_FIRST, 9, 10, WEEK_LAST - 1, WEEK_LAST, WEEK_LAST,
                            between(script, WEEK_FIRST, WEEK_LAST), between(script, WEEK_FIRST, WEEK_LAST)));
    return plate;
}

/* One field leaves its range, so that row 32 has this one cause. */
static void spoil_plate(struct script *script, struct plate *plate)
{
    size_t which = below(script, 2);
    switch (below(script, 10)) {
    case 0:
        plate->reference = ONE_OF(script, REFERENCE_LAST + 1, REFERENCE_LAST + 1, REFERENCE_LAST + 2, UINT32_MAX,
                                  UINT32_MAX, between(script, REFERENCE_LAST + 1, UINT32_MAX));
        break;
    case 1:
        plate->letter = not_a_letter(script);
        break;
    case 2:
    case 3:
        plate->characters[MAKER + which] = not_a_letter(script);
        break;
    case 4:
    case 5:
        plate->characters[YEAR + which] = not_a_digit(script);
        break;
    case 6:
    case 7:
        plate->characters[WEEK + which] = not_a_digit(script);
        break;
    default:
        put_week(plate, ONE_OF(script, 0, 0, WEEK_LAST + 1, WEEK_LAST + 1, between(script, WEEK_LAST + 1, 59),
                               between(script, 60, 99), between(script, 60, 99)));
        break;
    }
}

/* The four words of a set-up that names its plate. */
static void put_plate(struct script *script, const struct plate *plate)
{
    put_decimal(script, plate->reference);
    put_hex_byte(script, plate->letter);
    put_hex_byte(script, plate->number);
    put_hex(script, plate->characters, PLATE_CHARACTERS);
}

/* ------------------------------------------------------------------------
 * Set-up
 * ------------------------------------------------------------------------ */

/* Mostly right; else what is wrong lies in the plate, where one is named, or in the numbers before it. */
void node_line(struct script *script)
{
    struct numbers numbers = any_numbers(script);
    struct plate plate = any_plate(script);
    bool names_plate = chance(script, 75);
    bool wrong = chance(script, 45);
    if (wrong && names_plate && chance(script, 80))
        spoil_plate(script, &plate);
    else if (wrong)
        spoil_numbers(script, &numbers);
    start_line(script, "node");
    put_numbers(script, &numbers);
    if (names_plate)
        put_plate(script, &plate);
    script->looks_left = 3;
}
