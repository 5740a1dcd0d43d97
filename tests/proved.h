/* The proved code that C can call, of the crate `speed`: a lent slice is its start and its length. */

#ifndef PROVED_H
#define PROVED_H

#include <stddef.h>
#include <stdint.h>

/* The register's calls answer the count held, or the bytes written, or REFUSED and the refusal's number. */
enum { PLACES = 256, REFUSED = 1000 };

/* A place of the register's lent run. It has no padding, and is all zeros where no motor is held. */
struct record {
    uint32_t node;
    uint32_t line;
    uint32_t mark; /* 1 where a reading exists; else 0, and then pulse, percent and ip are zeros */
    uint16_t pulse;
    uint8_t percent;
    uint8_t ip;
};

_Static_assert(sizeof(struct record) == 16, "a record has no padding");

uint64_t speed_reader(const uint8_t *bytes, size_t count, const uint16_t *silences, size_t silence_count);
uint64_t speed_bundles(const uint8_t *slots, size_t size, uint8_t *buffer, size_t room);
uint64_t speed_messages(const uint8_t *slots, size_t size, uint8_t *buffer, size_t room);
uint64_t speed_board(const uint8_t *slots, size_t size, uint32_t node_id, uint8_t type, uint16_t travel);
uint64_t speed_file(struct record *run, size_t places, size_t held, uint8_t line, const uint8_t *bundle, size_t count);
uint64_t speed_strike(struct record *run, size_t places, size_t held, uint8_t line, uint32_t node);
uint64_t speed_read_form(struct record *run, size_t places, const uint8_t *bytes, size_t count);
uint64_t speed_write_form(const struct record *run, size_t places, size_t held, uint8_t *buffer, size_t room);

#endif
