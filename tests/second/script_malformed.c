/* Lines that are malformed, and lines passed over. */

#include "script_malformed.h"

#include <stddef.h>
#include <stdint.h>
#include <string.h>

static void insert_in_line(struct script *script, size_t place, uint8_t byte)
{
    memmove(script->line + place + 1, script->line + place, script->length - place);
    script->line[place] = byte;
    script->length++;
}

static void lose_from_line(struct script *script, size_t place)
{
    script->length--;
    memmove(script->line + place, script->line + place + 1, script->length - place);
}

/* Any byte but the two that end lines. */
static uint8_t byte_within_line(struct script *script)
{
    uint8_t byte = any_byte(script);
    return byte == '\n' || byte == '\r' ? ' ' : byte;
}

/* A place that is not the first, so that no line becomes a comment by accident. */
static size_t inner_place(struct script *script)
{
    return script->length < 2 ? script->length : between(script, 1, (uint32_t)script->length - 1);
}

/* A well formed line is changed a little; it may stay well formed. */
void spoil_line(struct script *script)
{
    size_t place = inner_place(script);
    switch (below(script, 8)) {
    case 0:
        insert_in_line(script, 0, ' ');
        break;
    case 1:
        insert_in_line(script, script->length, ' ');
        break;
    case 2:
        insert_in_line(script, place, ' ');
        break;
    case 3:
        insert_in_line(script, place, byte_within_line(script));
        break;
    case 4:
        lose_from_line(script, script->length - 1);
        break;
    case 5:
        script->line[0] = (uint8_t)(script->line[0] ^ 0x20);
        break;
    case 6:
        put_text(script, (const char *[]){" 0", " -", " 00", "0", "\t", "\r"}[below(script, 6)]);
        break;
    default:
        insert_in_line(script, place, (uint8_t)ONE_OF(script, 0, '\t', '\r', '-', '+', 'G', '0'));
        break;
    }
}

void malformed_line(struct script *script)
{
    static const char *const lines[] = {
        " ", "  ", "-", "x", "nodes", "State", "STATE", "state ", " state", "state 1", "frame", "frame ",
        "frame 0", "frame F3F", "frame 0G", "frame F3 F4", "frame  F3F4", "frame --", "frame 0x00",
        "frame\tF3", "pulse", "pulse -", "pulse -1", "pulse +1", "pulse 65536", "pulse 00000000001",
        "pulse 4294967296", "pulse 9999999999", "pulse 1a", "pulse 1 2", "pulse 0x10", "blocked",
        "blocked 2", "blocked 020", "blocked 32 ", "blocked -", "blocked 2g", "cleared 0", "power -",
        "line", "line 1", "line 256 -", "line -1 -", "line 1 - -", "line 1 F", "line - -", "strike",
        "strike 1", "strike 256 050403", "strike 1 05040", "strike 1 0504030", "strike 1 05:04:03",
        "strike 1 -", "motors 0", "motors -", "store -", "load", "load 1", "load 010", "load 01 00",
        "byte", "byte 00", "byte - 0", "byte 0 0", "byte 000 0", "byte 00 65536", "byte 00 -1",
        "byte 00 0 0", "close -", "close 0", "node", "node 050403", "node 050403 2", "node 050403 256 1000",
        "node 050403 2 65536", "node 50403 2 1000", "node 0050403 2 1000", "node 050403 2 1000 0",
        "node 050403 -2 1000", "node - 2 1000", "node 010203 2 1000 0 41", "node 010203 2 1000 0 41 00",
        "node 010203 2 1000 0 41 00 4141303030", "node 010203 2 1000 0 41 00 41413030303100",
        "node 010203 2 1000 0 41 00 -", "node 010203 2 1000 0 41 00 41413030303",
        "node 010203 2 1000 0 41 00 41413030303G", "node 010203 2 1000 0 41 00 AA0001",
        "node 010203 2 1000 0 41 00 414130303031 0", "node 010203 2 1000 0 41 414130303031",
        "node 010203 2 1000 4294967296 41 00 414130303031", "node 010203 2 1000 9999999999 41 00 414130303031",
        "node 010203 2 1000 00000000000 41 00 414130303031", "node 010203 2 1000 - 41 00 414130303031",
        "node 010203 2 1000 0 A 00 414130303031", "node 010203 2 1000 0 041 00 414130303031",
        "node 010203 2 1000 0 - 00 414130303031", "node 010203 2 1000 0 41 0 414130303031",
        "node 010203 2 1000 0 41 256 414130303031", "node 010203 2 1000 0 41 - 414130303031",
        "node 010203 256 1000 0 41 00 414130303031", "node 010203 2 65536 0 41 00 414130303031",
        "node 10203 2 1000 0 41 00 414130303031", "node 2 1000 0 41 00 414130303031", "write",
        "write 80 0 0 5 16776960 327682", "write 80 2 0 5 16776960 327682 0402",
        "write 80 0 256 5 16776960 327682 0402", "write 80 0 0 256 16776960 327682 0402",
        "write 80 0 0 5 4294967296 327682 0402", "write 80 0 0 5 16776960 4294967296 -",
        "write 80 0 0 5 16776960 327682 040", "write 8 0 0 5 16776960 327682 -",
        "write - 0 0 5 16776960 327682 -", "write 80 0 0 5 16776960 327682 04 02",
        "write 80 - 0 5 16776960 327682 -",
    };
    start_line(script, lines[below(script, sizeof lines / sizeof lines[0])]);
}

/* Lines just within and just over the longest, most of them frames of too many bytes. */
void long_line(struct script *script)
{
    size_t length = ONE_OF(script, 8190, 8191, 8192, 8193, 8194, 8195, 12000);
    start_line(script, chance(script, 50) ? "load " : "frame ");
    memset(script->line + script->length, '0', length - script->length);
    script->length = length;
}

void passed_over_line(struct script *script)
{
    start_line(script, "");
    if (chance(script, 30))
        return;
    put_text(script, "#");
    for (uint32_t left = below(script, 20); left > 0; left--)
        script->line[script->length++] = byte_within_line(script);
}
