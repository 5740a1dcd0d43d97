/* Lines of a script that set up a board, with the plate named or not. */

#ifndef SECOND_SCRIPT_SET_UP_H
#define SECOND_SCRIPT_SET_UP_H

#include "script_line.h"

void node_line(struct script *script);

#endif
