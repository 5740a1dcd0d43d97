/* The line reader. */

#include "reader.h"

#include <string.h>

enum { TOO_LONG = 32 };  /* a count that stands for too long */

static void keep_byte(struct line_reader *reader, uint8_t byte)
{
    if (reader->count < BUNDLE_LONGEST)
        reader->kept[reader->count] = byte;
    if (reader->count < TOO_LONG)
        reader->count++;
}

/* Ends an open bundle, if there is one, and leaves the reader fresh. */
struct bundle_answer end_bundle(struct line_reader *reader)
{
    struct bundle_answer answer = {.ended = reader->count > 0};
    if (answer.ended)
        answer.refusal = check_bundle(reader->kept, reader->count);
    if (answer.ended && answer.refusal == ACCEPTED) {
        memcpy(answer.bundle.bytes, reader->kept, reader->count);
        answer.bundle.count = reader->count;
    }
    *reader = (struct line_reader){0};
    return answer;
}

struct bundle_answer step(struct line_reader *reader, uint8_t byte, uint16_t silence)
{
    struct bundle_answer answer = {.ended = false};
    if (silence >= SILENCE_THAT_ENDS)
        answer = end_bundle(reader);
    keep_byte(reader, byte);
    return answer;
}
