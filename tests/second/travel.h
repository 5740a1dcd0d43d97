/* Pulses, percents and the numbers of favourites, and the conversions between them. */

#ifndef SECOND_TRAVEL_H
#define SECOND_TRAVEL_H

#include <stdbool.h>
#include <stddef.h>
#include <stdint.h>

enum {
    FAVOURITES = 16,            /* the sixteen IPs, intermediate positions */
    NO_FAVOURITE = 0xFF,
    TRAVEL_LEAST = 100,
    PERCENT_MOST = 100
};

uint8_t percent_of_pulse(uint16_t pulse, uint16_t travel);
uint16_t pulse_of_percent(uint32_t percent, uint16_t travel);
bool is_favourite_number(uint16_t number);
size_t favourite_place(uint16_t number);

#endif
