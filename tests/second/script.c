/* A random script: weights and phases of its lines. */

#include "script.h"

#include <stdbool.h>
#include <stddef.h>
#include <stdio.h>

#include "console.h"
#include "script_board.h"
#include "script_form.h"
#include "script_line.h"
#include "script_malformed.h"
#include "script_register.h"
#include "script_rts.h"
#include "script_set_up.h"
#include "script_wire.h"

struct activity {
    void (*build)(struct script *script);
    uint32_t weights[PHASES];  /* board, fill the register, line reader, mixed */
};

static const struct activity activities[] = {
    {board_frame_line, {5600, 600, 600, 2600}},
    {damaged_frame_line, {400, 100, 100, 400}},
    {pulse_line, {1400, 100, 100, 600}},
    {blocked_line, {150, 20, 20, 100}},
    {cleared_line, {200, 20, 20, 100}},
    {power_line, {150, 20, 20, 100}},
    {state_line, {250, 50, 50, 200}},
    {store_favourite_line, {400, 40, 40, 250}},
    {node_line, {40, 15, 25, 60}},
    {report_line, {400, 6000, 300, 2000}},
    {damaged_report_line, {50, 200, 50, 200}},
    {strike_line, {100, 700, 50, 500}},
    {motors_line, {10, 30, 10, 30}},
    {store_line, {10, 20, 10, 20}},
    {load_line, {20, 30, 20, 100}},
    {start_bundle_line, {20, 20, 400, 40}},
    {close_line, {20, 20, 100, 30}},
    {write_line, {300, 100, 100, 600}},
    {malformed_line, {150, 150, 150, 250}},
    {long_line, {2, 2, 2, 4}},
    {passed_over_line, {150, 150, 150, 150}},
};

enum { ACTIVITIES = sizeof activities / sizeof activities[0] };
enum { RTS_SHARE = 8 };  /* one line in so many is about the RTS transmitter, in every phase */

static uint32_t weight_of_phase(int phase)
{
    uint32_t sum = 0;
    for (size_t at = 0; at < ACTIVITIES; at++)
        sum += activities[at].weights[phase];
    return sum;
}

static void build_weighted(struct script *script)
{
    uint32_t drawn = below(script, weight_of_phase(script->phase));
    size_t at = 0;
    while (drawn >= activities[at].weights[script->phase])
        drawn -= activities[at++].weights[script->phase];
    activities[at].build(script);
}

static void change_phase(struct script *script)
{
    script->phase = (int)below(script, PHASES);
    script->phase_left = between(script, 300, 3000);
}

static void build_line(struct script *script)
{
    if (script->phase_left == 0)
        change_phase(script);
    script->phase_left--;
    if (below(script, RTS_SHARE) == 0)
        rts_line(script);
    else if (script->pending_at < script->pending.count && chance(script, 90))
        pending_byte_line(script);
    else if (script->looks_left > 0 && chance(script, 60))
        look_line(script);
    else if (script->visit_left > 0 && chance(script, 85))
        visit_line(script);
    else
        build_weighted(script);
    if (script->length > 0 && script->line[0] != '#' && chance(script, 1))
        spoil_line(script);
}

/* The last line may lack its line feed; one that ends in a carriage return needs its own. */
static void write_line_end(struct script *script)
{
    bool last = script->answered == script->wanted;
    bool own_return = script->length > 0 && script->line[script->length - 1] == '\r';
    if (own_return || chance(script, 5))
        fputs("\r\n", stdout);
    else if (!last || chance(script, 80))
        fputs("\n", stdout);
}

static void finish_line(struct script *script)
{
    answer_line(&script->console, script->line, script->length, &script->rows);
    if (!is_passed_over(script->line, script->length))
        script->answered++;
    fwrite(script->line, 1, script->length, stdout);
    write_line_end(script);
}

/* Some lines before there is a node, then one set-up that succeeds, then the rest. */
void write_script(uint32_t seed, uint32_t count)
{
    static struct script script;
    script.chance = seed;
    script.wanted = count;
    size_t without_node = ONE_OF(&script, 0, 3, 10, 50, 300);
    while (script.answered < count) {
        if (script.answered >= without_node && !script.console.has_board)
            node_line(&script);
        else
            build_line(&script);
        finish_line(&script);
    }
}
