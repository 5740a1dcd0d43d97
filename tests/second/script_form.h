/* Lines of a script about stored forms. */

#ifndef SECOND_SCRIPT_FORM_H
#define SECOND_SCRIPT_FORM_H

#include "script_line.h"

void store_line(struct script *script);
void load_line(struct script *script);

#endif
