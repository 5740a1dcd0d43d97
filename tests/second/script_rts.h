/* Lines of a script about the messages of the RTS transmitter. */

#ifndef SECOND_SCRIPT_RTS_H
#define SECOND_SCRIPT_RTS_H

#include "script_line.h"

void rts_line(struct script *script);

#endif
