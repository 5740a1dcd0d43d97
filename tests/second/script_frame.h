/* Frames of a script: what requests and reports share, and bundles whole and damaged. */

#ifndef SECOND_SCRIPT_FRAME_H
#define SECOND_SCRIPT_FRAME_H

#include <stddef.h>
#include <stdint.h>

#include "frame.h"
#include "script_line.h"

void choose_types(struct script *script, struct header *header);
uint8_t any_message(struct script *script);
size_t any_data_count(struct script *script, size_t least);

struct loose_bundle bundle_of(const struct frame *frame);
void reseal(struct loose_bundle *bundle);
void damage_bundle(struct script *script, struct loose_bundle *bundle);

#endif
