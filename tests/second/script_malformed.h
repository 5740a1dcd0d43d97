/* Lines of a script that are malformed, and lines passed over. */

#ifndef SECOND_SCRIPT_MALFORMED_H
#define SECOND_SCRIPT_MALFORMED_H

#include "script_line.h"

void spoil_line(struct script *script);
void malformed_line(struct script *script);
void long_line(struct script *script);
void passed_over_line(struct script *script);

#endif
