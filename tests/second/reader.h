/* The line reader: a byte with the silence before it, and the bundles that silences end. */

#ifndef SECOND_READER_H
#define SECOND_READER_H

#include <stdbool.h>
#include <stddef.h>
#include <stdint.h>

#include "frame.h"
#include "refusal.h"

enum { SILENCE_THAT_ENDS = 30 };  /* tenths of a millisecond */

/* At most 31 bytes kept, the bundle's first, then zeros. */
struct line_reader {
    uint8_t kept[BUNDLE_LONGEST];
    size_t count;
};

/* What a step gives: nothing, or the answer about the bundle that ended. */
struct bundle_answer {
    bool ended;
    enum refusal refusal;
    struct wire bundle;
};

struct bundle_answer end_bundle(struct line_reader *reader);
struct bundle_answer step(struct line_reader *reader, uint8_t byte, uint16_t silence);

#endif
