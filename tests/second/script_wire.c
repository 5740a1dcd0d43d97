/* Lines about the line reader and the writer of frames. */

#include "script_wire.h"

#include <stdbool.h>
#include <stddef.h>
#include <stdint.h>

#include "frame.h"
#include "script_board.h"
#include "script_frame.h"
#include "script_register.h"

void close_line(struct script *script)
{
    start_line(script, "close");
}

/* The next byte of the pending bundle; its first mostly ends what was open. */
void pending_byte_line(struct script *script)
{
    uint32_t silence = ONE_OF(script, 0, 0, 0, 1, 1, 5, 10, 29, 29, below(script, 30));
    bool first = script->pending_at == 0;
    if (first ? chance(script, 90) : chance(script, 1))
        silence = ONE_OF(script, 30, 30, 31, 31, 100, 65535);
    start_line(script, "byte");
    put_hex_byte(script, script->pending.bytes[script->pending_at++]);
    put_decimal(script, silence);
}

/* Takes a new bundle in hand; it is fed to the line reader byte by byte. */
void start_bundle_line(struct script *script)
{
    struct frame frame = chance(script, 70) ? any_request(script) : any_report(script, any_motor_id(script));
    script->pending = bundle_of(&frame);
    script->pending_at = 0;
    if (script->pending.count > 0 && chance(script, 35))
        damage_bundle(script, &script->pending);
    if (script->pending.count > 0)
        pending_byte_line(script);
    else
        close_line(script);
}

static uint32_t any_address(struct script *script)
{
    if (chance(script, 8))
        return ONE_OF(script, 0x1000000, 0x1000001, UINT32_MAX, between(script, 0, UINT32_MAX));
    return ONE_OF(script, 0, 1, 0x050403, 0xFFFF00, 0xFFFFFE, 0xFFFFFF, 0xFFFFFF, below(script, 0x1000000),
                  below(script, 0x1000000), below(script, 0x1000000));
}

void write_line(struct script *script)
{
    uint8_t data[22];
    for (size_t at = 0; at < sizeof data; at++)
        data[at] = any_byte(script);
    start_line(script, "write");
    put_hex_byte(script, chance(script, 8) ? NO_FRAME : any_message(script));
    put_decimal(script, below(script, 2));
    put_decimal(script, ONE_OF(script, 0, 15, below(script, 16), below(script, 16), below(script, 16),
                               below(script, 16), below(script, 18)));
    put_decimal(script, ONE_OF(script, 0, 15, below(script, 16), below(script, 16), below(script, 16),
                               below(script, 16), below(script, 18)));
    put_decimal(script, any_address(script));
    put_decimal(script, any_address(script));
    put_hex(script, data, ONE_OF(script, 0, 1, 2, 4, 5, 19, 20, 20, 21, 22, below(script, 21)));
}
