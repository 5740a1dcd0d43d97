/* The words of a line, and the values that they stand for. */

#ifndef SECOND_WORDS_H
#define SECOND_WORDS_H

#include <stdbool.h>
#include <stddef.h>
#include <stdint.h>

enum {
    LINE_LONGEST = 8192,
    WORDS_MOST = 11,
    DECIMAL_DIGITS_MOST = 10
};

struct word {
    const uint8_t *start;
    size_t length;
};

struct bytes {
    uint8_t bytes[LINE_LONGEST / 2];
    size_t count;
};

size_t split_words(const uint8_t *line, size_t length, struct word words[WORDS_MOST + 1]);
bool is_word(const struct word *word, const char *text);

bool read_hex(const struct word *word, struct bytes *bytes);
bool read_exactly(const struct word *word, uint8_t *bytes, size_t count);
bool read_byte(const struct word *word, uint8_t *byte);
bool read_id(const struct word *word, uint32_t *id);
bool read_u8(const struct word *word, uint8_t *value);
bool read_u16(const struct word *word, uint16_t *value);
bool read_u32(const struct word *word, uint32_t *value);
bool read_flag(const struct word *word, bool *flag);
bool read_argument(const char *argument, uint32_t *value);

#endif
