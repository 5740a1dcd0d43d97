/* Lines of a script about the board: requests, events and its state. */

#ifndef SECOND_SCRIPT_BOARD_H
#define SECOND_SCRIPT_BOARD_H

#include "frame.h"
#include "script_line.h"

struct frame any_request(struct script *script);
struct frame unlocking_request(struct script *script);

void board_frame_line(struct script *script);
void damaged_frame_line(struct script *script);
void pulse_line(struct script *script);
void blocked_line(struct script *script);
void cleared_line(struct script *script);
void power_line(struct script *script);
void state_line(struct script *script);
void look_line(struct script *script);
void store_favourite_line(struct script *script);
void visit_line(struct script *script);

#endif
