/* Pulses, percents and the numbers of favourites. */

#include "travel.h"

/* 100 x pulse / travel to the nearest whole, halves up. */
uint8_t percent_of_pulse(uint16_t pulse, uint16_t travel)
{
    uint32_t twice = 2u * travel;
    return (uint8_t)((200u * pulse + travel) / twice);
}

/* percent x travel / 100, same rounding. */
uint16_t pulse_of_percent(uint32_t percent, uint16_t travel)
{
    return (uint16_t)((percent * travel + 50u) / 100u);
}

/* All 16 bits count: MOVETO names a favourite in two bytes, and 0101h is not favourite 1. */
bool is_favourite_number(uint16_t number)
{
    return number >= 1 && number <= FAVOURITES;
}

/* Where the favourite of this number, 1 to 16, stands; every message counts them so (2026-03). */
size_t favourite_place(uint16_t number)
{
    return number - 1u;
}
