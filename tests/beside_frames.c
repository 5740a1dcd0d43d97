/*
 * Workloads of bundles: through the line reader, read and written, to a board,
 * and to one that is asked for its position, pulse after pulse.  Of the board
 * there are two in C: the second program's, and the same with the check of its
 * state, row 33, that document 01 asks for at every call.
 *
 * beside.c takes this file in.
 */

enum {
    SLOT = 32,
    SLOTS = 4096,
    NAMES_PULSE = 32, /* above a slot's length: its last two bytes are a pulse */
    PULSE_AT = 30,
    FRAME_WORTH = 256,
    OWN_ID = 0x050403,
    OWN_TYPE = 2,
    OWN_TRAVEL = 1000,
    BROKEN_BOARD = 33 /* a row that the second program does not have, since its state is its own */
};

/* What a board is set up with, its plate the plain one. */
struct settings {
    uint32_t node_id;
    uint8_t type;
    uint16_t travel;
};

static const struct settings own = {OWN_ID, OWN_TYPE, OWN_TRAVEL};

struct workload {
    uint8_t slots[SLOT * SLOTS]; /* a bundle each: its length, then its bytes; of a board, where it comes to before */
    uint8_t bytes[SLOT * SLOTS]; /* the same bundles on a line */
    uint16_t silences[SLOT * SLOTS];
    size_t count;
};

static struct workload work;

/* ------------------------------------------------------------------------
 * The line reader, and bundles read and written
 * ------------------------------------------------------------------------ */

static uint64_t answer_worth(const struct bundle_answer *answer)
{
    if (!answer->ended)
        return 0;
    if (answer->refusal != ACCEPTED)
        return (uint64_t)answer->refusal;
    return FRAME_WORTH + (uint64_t)inverted(answer->bundle.bytes[0]) + answer->bundle.bytes[10];
}

static uint64_t second_reader(void)
{
    struct line_reader reader = {0};
    uint64_t total = 0;
    for (size_t at = 0; at < work.count; at++) {
        struct bundle_answer answer = step(&reader, work.bytes[at], work.silences[at]);
        total += answer_worth(&answer);
    }
    struct bundle_answer answer = end_bundle(&reader);
    return total + answer_worth(&answer);
}

static uint64_t over_bytes(enum side side)
{
    return side == PROVED ? speed_reader(work.bytes, work.count, work.silences, work.count) : second_reader();
}

static uint64_t second_bundles(void)
{
    uint64_t total = 0;
    struct wire wire;
    for (const uint8_t *slot = work.slots; slot < work.slots + sizeof work.slots; slot += SLOT) {
        struct frame frame;
        enum refusal refusal = read_frame(slot + 1, slot[0], &frame);
        if (refusal == ACCEPTED)
            refusal = write_frame(&frame.header, frame.data, frame.data_count, &wire);
        total += refusal == ACCEPTED ? wire.count : (uint64_t)refusal;
    }
    return total;
}

static uint64_t over_bundles(enum side side)
{
    uint8_t buffer[BUNDLE_LONGEST];
    return side == PROVED ? speed_bundles(work.slots, sizeof work.slots, buffer, sizeof buffer) : second_bundles();
}

/* ------------------------------------------------------------------------
 * The board
 * ------------------------------------------------------------------------ */

/*
 * Row 33, which document 01 asks for at every call: the settings' ranges, those
 * of the plate among them; within the travel the position, the target while
 * running, and every favourite that is set; the lock's holder an address; the
 * label's bytes.  All favourites are looked at, so that the compiler takes
 * several at once: quicker than to stop at the first.
 */
static bool is_sound(const struct board *board)
{
    if (!is_node_id(board->node_id) || board->type < 1 || board->type > NODE_TYPE_LAST || board->travel < TRAVEL_LEAST
        || !is_plate(&board->plate))
        return false;
    if (board->position > board->travel || (board->running && board->target > board->travel))
        return false;
    bool beyond = false;
    for (size_t at = 0; at < FAVOURITES; at++)
        beyond |= board->favourites[at].set & (board->favourites[at].pulse > board->travel);
    return !beyond && board->holder <= ADDRESS_LAST && is_label(board->label);
}

/* Here, as in the proved code, a reply is its bytes and then zeros. */
static enum refusal plain_turn(struct board *board, const uint8_t *bundle, size_t count, struct wire *sent)
{
    *sent = (struct wire){0};
    return bundle_to_board(board, bundle, count, sent);
}

static enum refusal checked_turn(struct board *board, const uint8_t *bundle, size_t count, struct wire *sent)
{
    *sent = (struct wire){0};
    if (!is_sound(board))
        return (enum refusal)BROKEN_BOARD;
    return bundle_to_board(board, bundle, count, sent);
}

static enum refusal checked_pulse(struct board *board, uint16_t pulse)
{
    return is_sound(board) ? at_pulse(board, pulse) : (enum refusal)BROKEN_BOARD;
}

/* As in the proved code, also of settings that row 32 refuses. */
static struct board fresh_board(const struct settings *settings)
{
    struct board board = {
        .node_id = settings->node_id, .type = settings->type, .travel = settings->travel, .plate = plain_plate};
    memset(board.label, SPACE, LABEL_LENGTH);
    power_up(&board);
    return board;
}

typedef enum refusal board_event(struct board *board, uint16_t pulse);
typedef enum refusal board_turn(struct board *board, const uint8_t *bundle, size_t count, struct wire *sent);

static inline uint64_t turns_of(const struct settings *settings, board_event *event, board_turn *turn)
{
    uint64_t total = 0;
    struct board board = fresh_board(settings);
    for (const uint8_t *slot = work.slots; slot < work.slots + sizeof work.slots; slot += SLOT) {
        struct wire sent;
        if (slot[0] >= NAMES_PULSE)
            event(&board, (uint16_t)(slot[PULSE_AT] | slot[PULSE_AT + 1] << 8));
        enum refusal refusal = turn(&board, slot + 1, slot[0] % NAMES_PULSE, &sent);
        total += refusal == ACCEPTED ? (uint64_t)sent.count + sent.bytes[10] + sent.bytes[11] : (uint64_t)refusal;
    }
    return total;
}

static uint64_t proved_turns(const struct settings *settings)
{
    return speed_board(work.slots, sizeof work.slots, settings->node_id, settings->type, settings->travel);
}

static uint64_t over_turns(enum side side)
{
    switch (side) {
    case PROVED:
        return proved_turns(&own);
    case CHECKED:
        return turns_of(&own, checked_pulse, checked_turn);
    default:
        return turns_of(&own, at_pulse, plain_turn);
    }
}

/* ------------------------------------------------------------------------
 * Requests to a board
 * ------------------------------------------------------------------------ */

/* The bundles on a line, each behind a silence that ends the one before it. */
static void put_on_line(void)
{
    work.count = 0;
    for (size_t number = 0; number < SLOTS; number++) {
        const uint8_t *slot = work.slots + SLOT * number;
        for (size_t at = 0; at < slot[0]; at++) {
            work.bytes[work.count] = slot[1 + at];
            work.silences[work.count] = at == 0 ? SILENCE_THAT_ENDS : 0;
            work.count++;
        }
    }
}

/* Requests to a board that follows them, so that locks, moves and groups are met in every state. */
static void requests_to_board(uint32_t motors)
{
    (void)motors;
    struct board *board = &script.console.board;
    script.console.has_board = true;
    *board = fresh_board(&own);
    for (size_t number = 0; number < SLOTS; number++) {
        uint8_t *slot = work.slots + SLOT * number;
        bool unlock = board->locked && chance(&script, 20);
        struct frame request = unlock ? unlocking_request(&script) : any_request(&script);
        slot[0] = put_bundle(slot + 1, bundle_of(&request));
        struct wire sent;
        bundle_to_board(board, slot + 1, slot[0], &sent);
    }
    put_on_line();
}

/* Of settings that row 32 refuses, row 33 refuses every bundle. */
static bool same_refusals(void)
{
    static const struct settings refused[] = {
        {NODE_ID_FIRST - 1, OWN_TYPE, OWN_TRAVEL}, {NODE_ID_LAST + 1, OWN_TYPE, OWN_TRAVEL},
        {OWN_ID, 0, OWN_TRAVEL},                   {OWN_ID, NODE_TYPE_LAST + 1, OWN_TRAVEL},
        {OWN_ID, OWN_TYPE, TRAVEL_LEAST - 1},
    };
    requests_to_board(0);
    for (size_t at = 0; at < sizeof refused / sizeof refused[0]; at++)
        if (!are_same("row 33", CHECKED, proved_turns(&refused[at]), turns_of(&refused[at], checked_pulse, checked_turn)))
            return false;
    return true;
}

/* ------------------------------------------------------------------------
 * Position reports
 * ------------------------------------------------------------------------ */

/* P3, a 0Ch from FF:FF:00 to 05:04:03 of type 2, to a board that has come to a pulse. */
static void put_position_request(size_t number, uint16_t pulse)
{
    static const uint8_t request[] = {0xF3, 0xF4, 0xFD, 0xFF, 0x00, 0x00, 0xFC, 0xFB, 0xFA, 0x06, 0xD4};
    uint8_t *slot = work.slots + SLOT * number;
    slot[0] = NAMES_PULSE + sizeof request;
    memcpy(slot + 1, request, sizeof request);
    slot[PULSE_AT] = (uint8_t)pulse;
    slot[PULSE_AT + 1] = (uint8_t)(pulse >> 8);
}

/* Pulses of the whole travel, in no order. */
static void position_requests(uint32_t motors)
{
    (void)motors;
    for (size_t number = 0; number < SLOTS; number++)
        put_position_request(number, (uint16_t)below(&script, OWN_TRAVEL + 1));
}

/* Every pulse of some travels, with halves and without, the shortest and the longest among them. */
static bool same_percents(void)
{
    static const uint16_t travels[] = {TRAVEL_LEAST, TRAVEL_LEAST + 1, 200, 201, OWN_TRAVEL, 4096, 32768, UINT16_MAX};
    for (size_t at = 0; at < sizeof travels / sizeof travels[0]; at++) {
        struct settings settings = {OWN_ID, OWN_TYPE, travels[at]};
        for (uint32_t first = 0; first <= travels[at]; first += SLOTS) {
            for (uint32_t number = 0; number < SLOTS; number++)
                put_position_request(number, (uint16_t)(first + number));
            if (!are_same("percents", CHECKED, proved_turns(&settings), turns_of(&settings, checked_pulse, checked_turn)))
                return false;
        }
    }
    return true;
}
