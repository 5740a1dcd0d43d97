/* The words of a line. */

#include "words.h"

#include <string.h>

/* Splits at single spaces, with an empty word behind the last; 0 when a word is empty or there are too many. */
size_t split_words(const uint8_t *line, size_t length, struct word words[WORDS_MOST + 1])
{
    size_t count = 0;
    size_t start = 0;
    for (size_t at = 0; at <= length; at++) {
        if (at < length && line[at] != ' ')
            continue;
        if (at == start || count == WORDS_MOST)
            return 0;
        words[count++] = (struct word){.start = line + start, .length = at - start};
        start = at + 1;
    }
    words[count] = (struct word){.start = line + length, .length = 0};
    return count;
}

bool is_word(const struct word *word, const char *text)
{
    return word->length == strlen(text) && memcmp(word->start, text, word->length) == 0;
}

/* DEC: 1 to 10 digits without sign, no more than the type meant can hold. */
static bool read_decimal(const struct word *word, uint32_t most, uint32_t *value)
{
    uint64_t number = 0;
    if (word->length < 1 || word->length > DECIMAL_DIGITS_MOST)
        return false;
    for (size_t at = 0; at < word->length; at++) {
        if (word->start[at] < '0' || word->start[at] > '9')
            return false;
        number = number * 10 + (uint64_t)(word->start[at] - '0');
    }
    *value = (uint32_t)number;
    return number <= most;
}

/* The value of a hexadecimal digit of either case, or -1. */
static int digit_of(uint8_t character)
{
    if (character >= '0' && character <= '9')
        return character - '0';
    if (character >= 'A' && character <= 'F')
        return character - 'A' + 10;
    if (character >= 'a' && character <= 'f')
        return character - 'a' + 10;
    return -1;
}

/* An even number of digits, two a byte. */
static bool read_digits(const struct word *word, struct bytes *bytes)
{
    bytes->count = 0;
    if (word->length % 2 != 0)
        return false;
    for (size_t at = 0; at < word->length; at += 2) {
        int high = digit_of(word->start[at]);
        int low = digit_of(word->start[at + 1]);
        if (high < 0 || low < 0)
            return false;
        bytes->bytes[bytes->count++] = (uint8_t)(high * 16 + low);
    }
    return true;
}

/* HEX that may be empty, written "-". */
bool read_hex(const struct word *word, struct bytes *bytes)
{
    bytes->count = 0;
    return is_word(word, "-") || read_digits(word, bytes);
}

/* HEX of so many bytes, no more and no less. */
bool read_exactly(const struct word *word, uint8_t *bytes, size_t count)
{
    struct bytes all;
    if (word->length != 2 * count || !read_digits(word, &all))
        return false;
    memcpy(bytes, all.bytes, count);
    return true;
}

bool read_byte(const struct word *word, uint8_t *byte)
{
    return read_exactly(word, byte, 1);
}

/* ID: the number as printed on the label, high byte first. */
bool read_id(const struct word *word, uint32_t *id)
{
    uint8_t bytes[3];
    if (!read_exactly(word, bytes, sizeof bytes))
        return false;
    *id = (uint32_t)bytes[0] << 16 | (uint32_t)bytes[1] << 8 | bytes[2];
    return true;
}

bool read_u8(const struct word *word, uint8_t *value)
{
    uint32_t number;
    if (!read_decimal(word, UINT8_MAX, &number))
        return false;
    *value = (uint8_t)number;
    return true;
}

bool read_u16(const struct word *word, uint16_t *value)
{
    uint32_t number;
    if (!read_decimal(word, UINT16_MAX, &number))
        return false;
    *value = (uint16_t)number;
    return true;
}

bool read_u32(const struct word *word, uint32_t *value)
{
    return read_decimal(word, UINT32_MAX, value);
}

bool read_flag(const struct word *word, bool *flag)
{
    uint32_t number;
    if (!read_decimal(word, 1, &number))
        return false;
    *flag = number == 1;
    return true;
}

/* A DEC of the command line. */
bool read_argument(const char *argument, uint32_t *value)
{
    struct word word = {.start = (const uint8_t *)argument, .length = strlen(argument)};
    return read_u32(&word, value);
}
