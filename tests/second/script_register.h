/* Lines of a script about the register of motors. */

#ifndef SECOND_SCRIPT_REGISTER_H
#define SECOND_SCRIPT_REGISTER_H

#include <stdint.h>

#include "frame.h"
#include "script_line.h"

uint32_t any_motor_id(struct script *script);
void reading_data(struct script *script, uint8_t *data);
struct frame any_report(struct script *script, uint32_t node_id);

void report_line(struct script *script);
void damaged_report_line(struct script *script);
void strike_line(struct script *script);
void motors_line(struct script *script);

#endif
