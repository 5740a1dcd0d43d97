/*
 * Workloads of the register: filings, strike outs, forms read and written, over
 * the proved register, the second program's, and one in C that checks row 19 as
 * document 01 asks at every call (checked_register.c).  All go through the same
 * calls, by pointers, and at the end have to hold the same 256 records.
 *
 * beside.c takes this file in.
 */

enum {
    CALLS = 4096,
    FORMS = 16,
    FORM_CALLS = 256,
    WRITING_ROOM = FORM_LONGEST + 32,
    UNWRITTEN = 0xA5
};

/* ------------------------------------------------------------------------
 * The three registers
 * ------------------------------------------------------------------------ */

/* Each answers the count held, or the bytes written, or REFUSED and the refusal's number. */
struct register_calls {
    uint64_t (*file)(struct record *run, size_t places, size_t held, uint8_t line, const uint8_t *bundle, size_t count);
    uint64_t (*strike)(struct record *run, size_t places, size_t held, uint8_t line, uint32_t node);
    uint64_t (*read)(struct record *run, size_t places, const uint8_t *bytes, size_t count);
    uint64_t (*write)(const struct record *run, size_t places, size_t held, uint8_t *buffer, size_t room);
};

/* The second program's register is its own: what is lent is passed over, and nothing of it is checked. */
static struct motor_register second;

static uint64_t second_answer(enum refusal refusal)
{
    return refusal == ACCEPTED ? second.count : REFUSED + (uint64_t)refusal;
}

static uint64_t second_file(struct record *run, size_t places, size_t held, uint8_t line, const uint8_t *bundle,
                            size_t count)
{
    (void)run, (void)places, (void)held;
    return second_answer(bundle_to_register(&second, line, bundle, count));
}

static uint64_t second_strike(struct record *run, size_t places, size_t held, uint8_t line, uint32_t node)
{
    (void)run, (void)places, (void)held;
    return second_answer(strike_out(&second, line, node));
}

static uint64_t second_read(struct record *run, size_t places, const uint8_t *bytes, size_t count)
{
    (void)run, (void)places;
    return second_answer(read_form(bytes, count, &second));
}

static struct form second_form;

static uint64_t second_write(const struct record *run, size_t places, size_t held, uint8_t *buffer, size_t room)
{
    (void)run, (void)places, (void)held, (void)buffer, (void)room;
    write_form(&second, &second_form);
    return second_form.length;
}

static const struct register_calls registers[SIDES] = {
    [PROVED] = {speed_file, speed_strike, speed_read_form, speed_write_form},
    [CHECKED] = {checked_file, checked_strike, checked_read_form, checked_write_form},
    [UNCHECKED] = {second_file, second_strike, second_read, second_write},
};

/* What is lent to each. */
struct lent {
    struct record run[PLACES];
    size_t held;
    uint8_t buffer[WRITING_ROOM];
};

static struct lent lent[SIDES];

static void empty_register(enum side side)
{
    memset(lent[side].run, 0, sizeof lent[side].run);
    lent[side].held = 0;
    if (side == UNCHECKED)
        second = (struct motor_register){0};
}

static void clear_buffers(void)
{
    for (enum side side = 0; side < SIDES; side++)
        memset(lent[side].buffer, UNWRITTEN, sizeof lent[side].buffer);
    second_form.length = 0;
}

/* ------------------------------------------------------------------------
 * Workloads
 * ------------------------------------------------------------------------ */

/* A report that is filed, or a motor that is struck out. */
struct call {
    bool strikes;
    uint8_t line;
    uint32_t node;
    uint8_t count;
    uint8_t bundle[BUNDLE_LONGEST];
};

static struct call calls[CALLS];
static struct form forms[FORMS];

/* A motor names itself, or reports a position that row 23 allows. The same NodeIDs come back on every line. */
static void report_of(struct call *call, uint32_t motor, bool position)
{
    call->strikes = false;
    call->line = (uint8_t)(motor % (LINE_LAST + 1));
    call->node = 0x010000 + 7 * (motor / (LINE_LAST + 1));
    struct frame report = {
        .header = {.message = position ? POST_MOTOR_POSITION : POST_NODE_ADDR,
                   .source = call->node,
                   .destination = 0xFFFF00,
                   .sender_type = OWN_TYPE},
        .data_count = position ? 5 : 0,
    };
    while (position && !is_percent_and_favourite(report.data[2], report.data[4]))
        reading_data(&script, report.data);
    call->count = put_bundle(call->bundle, bundle_of(&report));
}

/* So many motors name themselves; then they report their positions, in any order. */
static void filings(uint32_t motors)
{
    for (uint32_t number = 0; number < CALLS; number++) {
        bool position = number >= motors;
        report_of(&calls[number], position ? below(&script, motors) : number, position);
    }
}

/* So many motors name themselves; then one after the other, in any order, is struck out and reports its position. */
static void strike_outs(uint32_t motors)
{
    uint32_t motor = 0;
    for (uint32_t number = 0; number < CALLS; number++) {
        struct call *call = &calls[number];
        bool named = number >= motors;
        bool strikes = named && (number - motors) % 2 == 0;
        if (strikes)
            motor = below(&script, motors);
        report_of(call, named ? motor : number, named);
        call->strikes = strikes;
    }
}

/* Forms of so many motors, most of them with a reading; each register holds the first. */
static void stored_forms(uint32_t motors)
{
    for (size_t at = 0; at < FORMS; at++) {
        filings(motors);
        empty_register(UNCHECKED);
        for (struct call *call = calls; call < calls + 4 * motors; call++)
            bundle_to_register(&second, call->line, call->bundle, call->count);
        write_form(&second, &forms[at]);
    }
    for (enum side side = 0; side < SIDES; side++)
        lent[side].held = registers[side].read(lent[side].run, PLACES, forms[0].bytes, forms[0].length);
}

/* An answer at another place makes another total. */
static inline uint64_t and_then(uint64_t total, uint64_t answer)
{
    return 31 * total + answer;
}

static uint64_t over_calls(enum side side)
{
    const struct register_calls *with = &registers[side];
    struct record *run = lent[side].run;
    size_t held = 0;
    uint64_t total = 0;
    empty_register(side);
    for (const struct call *call = calls; call < calls + CALLS; call++) {
        uint64_t answer = call->strikes ? with->strike(run, PLACES, held, call->line, call->node)
                                        : with->file(run, PLACES, held, call->line, call->bundle, call->count);
        if (answer < REFUSED)
            held = answer;
        total = and_then(total, answer);
    }
    lent[side].held = held;
    return total;
}

static uint64_t over_readings(enum side side)
{
    uint64_t total = 0;
    for (size_t at = 0; at < FORM_CALLS; at++) {
        const struct form *form = &forms[at % FORMS];
        lent[side].held = registers[side].read(lent[side].run, PLACES, form->bytes, form->length);
        total = and_then(total, lent[side].held);
    }
    return total;
}

static uint64_t over_writings(enum side side)
{
    struct lent *own = &lent[side];
    uint64_t total = 0;
    for (size_t at = 0; at < FORM_CALLS; at++)
        total = and_then(total, registers[side].write(own->run, PLACES, own->held, own->buffer, sizeof own->buffer));
    return total;
}

/* ------------------------------------------------------------------------
 * What is held in the end
 * ------------------------------------------------------------------------ */

/* The second program's motors, field by field, and its form, as if they had been lent. */
static void lay_out_second(void)
{
    struct lent *own = &lent[UNCHECKED];
    for (size_t place = 0; place < PLACES; place++) {
        const struct motor *motor = &second.motors[place];
        own->run[place] = (struct record){
            .node = motor->node_id,
            .line = motor->line,
            .pulse = motor->reading.pulse,
            .mark = motor->reading.exists,
            .percent = motor->reading.percent,
            .ip = motor->reading.favourite,
        };
    }
    memcpy(own->buffer, second_form.bytes, second_form.length);
}

static bool same_records(const char *title)
{
    lay_out_second();
    for (enum side side = 0; side < SIDES; side++) {
        const struct lent *one = &lent[PROVED], *other = &lent[side];
        if (!are_same(title, side, one->held, other->held))
            return false;
        for (size_t place = 0; place < PLACES; place++)
            if (memcmp(&one->run[place], &other->run[place], sizeof *one->run) != 0) {
                fprintf(stderr, "%s: at place %zu the proved code and %s C hold other records\n", title, place,
                        side_names[side]);
                return false;
            }
        if (memcmp(one->buffer, other->buffer, sizeof one->buffer) != 0) {
            fprintf(stderr, "%s: the proved code and %s C write other forms\n", title, side_names[side]);
            return false;
        }
    }
    return true;
}
