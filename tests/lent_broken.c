/*
 * Row 19: every register that is none, for every call that checks it.
 *
 * lent.c takes this file in.
 */

/* The calls that check the whole run. */
enum {
    ENROLS,
    FILES,
    STRIKES,
    WRITES,
    SOUND_CALLS, /* so many; those that follow another row would refuse, if 19 did not come first */
    SHORT_BUNDLE = SOUND_CALLS,
    FILES_ON_FOUR,
    STRIKES_ON_FOUR,
    NOT_HELD,
    NO_ROOM,
    CHECKED_CALLS
};

static struct call checked_call(size_t number, size_t held)
{
    struct record some = held > 0 ? motor(held / 2, held) : (struct record){.node = NODE_LAST};
    struct record new_one = {.node = some.node - 1, .line = some.line};
    struct record read = {.node = some.node, .line = some.line, .pulse = 333, .mark = 1, .percent = 33, .ip = NO_IP};
    struct call call = number == ENROLS ? filing(held, &new_one) : filing(held, &read);
    switch (number) {
    case STRIKES:
        return striking(held, (uint8_t)some.line, some.node);
    case WRITES:
        return writing(held, FORM_ROOM);
    case SHORT_BUNDLE:
        call.count = 10;
        return call;
    case FILES_ON_FOUR:
        call.line = 4;
        return call;
    case STRIKES_ON_FOUR:
        return striking(held, 4, some.node);
    case NOT_HELD:
        return striking(held, 0, 0);
    case NO_ROOM:
        return writing(held, 0);
    default:
        return call;
    }
}

/* The call, over a run of so many places of which so many are said to be held. */
static void expect_broken(size_t number, size_t held, size_t places, size_t count)
{
    struct call call = checked_call(number, held);
    call.places = places;
    call.held = count;
    memcpy(expected->bundle, now->bundle, sizeof now->bundle);
    expect_refused(&call, 19);
}

static void expect_all_broken(size_t held, size_t places, size_t count)
{
    for (size_t number = 0; number < CHECKED_CALLS; number++)
        expect_broken(number, held, places, count);
}

static void put_record(size_t place, struct record record)
{
    now->run[place] = expected->run[place] = record;
}

static void put_byte(size_t place, size_t byte, uint8_t value)
{
    ((uint8_t *)&now->run[place])[byte] = value;
    ((uint8_t *)&expected->run[place])[byte] = value;
}

/* Any byte in any place beyond the count. */
static void try_blank_places(size_t held)
{
    lay_register(held);
    keep();
    for (size_t place = held; place < PLACES; place++)
        for (size_t byte = 0; byte < sizeof(struct record); byte++)
            for (unsigned value = 1; value <= 0x100; value *= 2) {
                uint8_t put = value < 0x100 ? (uint8_t)value : 0xFF;
                try_this("a byte beyond the count", place, byte, put);
                put_byte(place, byte, put);
                for (size_t number = 0; number < SOUND_CALLS; number++)
                    expect_broken(number, held, PLACES, held);
                put_byte(place, byte, 0);
            }
}

/* Another record in a held place; then again the one that stood there. */
static void try_record(const char *what, size_t held, size_t place, struct record record, unsigned long value)
{
    struct record before = now->run[place];
    try_this(what, place, 0, value);
    put_record(place, record);
    expect_all_broken(held, PLACES, held);
    put_record(place, before);
}

/* Marks that are neither 0 nor 1: of one bit with every call, and where few are held, all of 16 bits with one call each. */
static void try_marks(size_t held, size_t place)
{
    struct record before = now->run[place];
    struct record record = before;
    for (uint32_t mark = 2; mark != 0; mark *= 2) {
        record.mark = mark;
        try_record("a mark of one bit", held, place, record, mark);
    }
    for (uint32_t mark = 2; mark <= 0xFFFF && held < 10; mark++) {
        record.mark = mark;
        try_this("a mark that is neither 0 nor 1", place, 0, mark);
        put_record(place, record);
        expect_broken(mark % SOUND_CALLS, held, PLACES, held);
    }
    put_record(place, before);
}

static bool is_allowed_ip(unsigned ip)
{
    return (ip >= 1 && ip <= 16) || ip == NO_IP;
}

static void try_readings(size_t held, size_t place)
{
    uint32_t node = now->run[place].node;
    uint32_t line = now->run[place].line;
    for (unsigned value = 0; value < 256; value++) {
        uint8_t put = (uint8_t)value;
        if (value > 100)
            try_record("a percent over 100", held, place, (struct record){node, line, 1, 7, put, 1}, value);
        if (!is_allowed_ip(value))
            try_record("an IP that row 23 refuses", held, place, (struct record){node, line, 1, 7, 50, put}, value);
        if (value > 0) {
            try_record("a percent without a reading", held, place, (struct record){node, line, 0, 0, put, 0}, value);
            try_record("an IP without a reading", held, place, (struct record){node, line, 0, 0, 0, put}, value);
        }
    }
    for (unsigned pulse = 1; pulse <= 0xFFFF; pulse *= 2)
        try_record("a pulse without a reading", held, place,
                   (struct record){.node = node, .line = line, .pulse = (uint16_t)pulse}, pulse);
}

static void try_keys(size_t held, size_t place)
{
    static const uint32_t nodes[] = {
        0, NODE_LAST + 1, NODE_LAST + 2, 0xFFFFFF, 0x1000000, 0x1000001, 0x80000001, 0xFFFFFFFF,
    };
    for (size_t at = 0; at < sizeof nodes / sizeof nodes[0]; at++) {
        struct record record = now->run[place];
        record.node = nodes[at];
        try_record("a NodeID that row 21 refuses", held, place, record, record.node);
    }
    for (unsigned bit = 24; bit < 32; bit++) {
        struct record record = now->run[place];
        record.node |= 1u << bit;
        try_record("a NodeID of over three bytes", held, place, record, record.node);
    }
    for (unsigned bit = 2; bit < 32; bit++) {
        struct record record = now->run[place];
        record.line |= 1u << bit;
        try_record("a line over 3", held, place, record, record.line);
    }
}

static void try_order(size_t held, size_t place)
{
    struct record record = now->run[place];
    if (place > 0) {
        try_record("the record before it once more", held, place, now->run[place - 1], 0);
        record.line = 0;
        record.node = now->run[0].node;
        try_record("the first motor once more", held, place, record, 0);
    }
    if (place + 1 < held) {
        try_record("the record behind it once more", held, place, now->run[place + 1], 0);
        record.line = 3;
        record.node = NODE_LAST;
        try_record("the last motor once more", held, place, record, 0);
    }
}

static void try_held_places(size_t held)
{
    lay_register(held);
    keep();
    for (size_t place = 0; place < held; place += held < 10 || place > 250 ? 1 : 50) {
        try_marks(held, place);
        try_readings(held, place);
        try_keys(held, place);
        try_order(held, place);
    }
}

/* A run of another length over records that are sound; a form is not read into it either. */
static void try_places(size_t held)
{
    static const size_t others[] = {0, 1, 5, 255, 257};
    lay_register(held);
    memset(&now->spare, 0, sizeof now->spare);
    put_form(now->form, now->run, held);
    keep();
    for (size_t at = 0; at < sizeof others / sizeof others[0]; at++) {
        try_this("a run that is not of 256 places", 0, 0, others[at]);
        expect_all_broken(held, others[at], held);
        struct call call = reading(form_length(held));
        call.places = others[at];
        expect_refused(&call, 19);
        call.count = 0;
        expect_refused(&call, 19);
    }
}

/* Another count over records that are sound; some differ from the right one only in their high bytes. */
static void try_counts(size_t held)
{
    const size_t others[] = {
        0, held - 1, held + 1, PLACES, PLACES + 1, PLACES + 2, held + PLACES, 511, held + 0x10000, held + 0x80000000,
        held + 0x100000000, held + 0x8000000000000000, SIZE_MAX / 2, SIZE_MAX - PLACES, SIZE_MAX,
    };
    lay_register(held);
    keep();
    for (size_t at = 0; at < sizeof others / sizeof others[0]; at++) {
        try_this("another count", 0, 0, others[at]);
        if (others[at] != held)
            expect_all_broken(held, PLACES, others[at]);
    }
}

static void try_broken_registers(void)
{
    static const size_t counts[] = {0, 1, 5, 130, 255, 256};
    for (size_t at = 0; at < sizeof counts / sizeof counts[0]; at++) {
        try_blank_places(counts[at]);
        try_held_places(counts[at]);
        try_places(counts[at]);
        try_counts(counts[at]);
    }
}
