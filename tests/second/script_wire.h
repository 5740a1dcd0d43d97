/* Lines of a script about the line reader and the writer of frames. */

#ifndef SECOND_SCRIPT_WIRE_H
#define SECOND_SCRIPT_WIRE_H

#include "script_line.h"

void close_line(struct script *script);
void pending_byte_line(struct script *script);
void start_bundle_line(struct script *script);
void write_line(struct script *script);

#endif
