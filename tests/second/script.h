/* A random script. */

#ifndef SECOND_SCRIPT_H
#define SECOND_SCRIPT_H

#include <stdint.h>

void write_script(uint32_t seed, uint32_t count);

#endif
