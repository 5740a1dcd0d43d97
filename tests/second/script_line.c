/* The writer of a script: draws by chance, and the line being built. */

#include "script_line.h"

#include <stdio.h>
#include <string.h>

/* splitmix64 */
static uint64_t next_number(struct script *script)
{
    script->chance += UINT64_C(0x9E3779B97F4A7C15);
    uint64_t mixed = script->chance;
    mixed = (mixed ^ mixed >> 30) * UINT64_C(0xBF58476D1CE4E5B9);
    mixed = (mixed ^ mixed >> 27) * UINT64_C(0x94D049BB133111EB);
    return mixed ^ mixed >> 31;
}

uint32_t below(struct script *script, uint32_t bound)
{
    return (uint32_t)(next_number(script) % bound);
}

uint32_t between(struct script *script, uint32_t least, uint32_t most)
{
    return least + (uint32_t)(next_number(script) % ((uint64_t)most - least + 1));
}

/* True in so many of a hundred cases. */
bool chance(struct script *script, uint32_t of_hundred)
{
    return below(script, 100) < of_hundred;
}

uint8_t any_byte(struct script *script)
{
    return (uint8_t)below(script, 256);
}

uint32_t pick(struct script *script, const uint32_t *values, size_t count)
{
    return values[below(script, (uint32_t)count)];
}

void put_text(struct script *script, const char *text)
{
    size_t length = strlen(text);
    memcpy(script->line + script->length, text, length);
    script->length += length;
}

void start_line(struct script *script, const char *command)
{
    script->length = 0;
    put_text(script, command);
}

/* A DEC, now and then with zeros in front, up to ten digits. */
void put_decimal(struct script *script, uint32_t value)
{
    char text[DECIMAL_DIGITS_MOST + 1];
    int digits = chance(script, 4) ? (int)between(script, 1, DECIMAL_DIGITS_MOST) : 1;
    snprintf(text, sizeof text, "%0*lu", digits, (unsigned long)value);
    put_text(script, " ");
    put_text(script, text);
}

/* HEX in capitals, in small letters, or mixed byte by byte. */
void put_hex(struct script *script, const uint8_t *bytes, size_t count)
{
    uint32_t small_letters = ONE_OF(script, 0, 0, 100, 50);
    put_text(script, " ");
    for (size_t at = 0; at < count; at++) {
        char text[3];
        snprintf(text, sizeof text, chance(script, small_letters) ? "%02x" : "%02X", (unsigned)bytes[at]);
        put_text(script, text);
    }
    if (count == 0)
        put_text(script, "-");
}

void put_hex_byte(struct script *script, uint8_t byte)
{
    put_hex(script, &byte, 1);
}

void put_id(struct script *script, uint32_t id)
{
    uint8_t bytes[3] = {(uint8_t)(id >> 16), (uint8_t)(id >> 8), (uint8_t)id};
    put_hex(script, bytes, sizeof bytes);
}
