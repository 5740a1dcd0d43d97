/*
 * Calls that are done: the whole memory behind each is laid down first.
 *
 * lent.c takes this file in.
 */

/* ------------------------------------------------------------------------
 * What a call is to leave
 * ------------------------------------------------------------------------ */

static bool is_before(const struct record *one, const struct record *other)
{
    return one->line < other->line || (one->line == other->line && one->node < other->node);
}

/* Files a record: it takes its motor's place, or one is made for it; gives the count then held. */
static size_t expect_filed(size_t held, const struct record *record)
{
    size_t place = 0;
    while (place < held && is_before(&expected->run[place], record))
        place++;
    bool is_new = place == held || is_before(record, &expected->run[place]);
    if (is_new)
        for (size_t at = held; at > place; at--)
            expected->run[at] = expected->run[at - 1];
    if (is_new || record->mark == 1)
        expected->run[place] = *record;
    return is_new ? held + 1 : held;
}

static void expect_struck(size_t held, size_t place)
{
    for (size_t at = place; at + 1 < held; at++)
        expected->run[at] = expected->run[at + 1];
    expected->run[held - 1] = (struct record){0};
}

/* ------------------------------------------------------------------------
 * Filing and striking out
 * ------------------------------------------------------------------------ */

/* A record is filed; gives the count then held. */
static size_t try_filing(size_t held, const struct record *record)
{
    struct call call = filing(held, record);
    keep();
    size_t then = expect_filed(held, record);
    try_this("a motor that is filed", then, 0, record->node);
    expect(&call, then);
    return then;
}

static size_t try_striking(size_t held, size_t place)
{
    struct call call = striking(held, (uint8_t)now->run[place].line, now->run[place].node);
    keep();
    expect_struck(held, place);
    try_this("a motor that is struck out", place, 0, call.node);
    expect(&call, held - 1);
    return held - 1;
}

/* A motor that is held names itself, and then reports readings, of which the next takes the place of the last. */
static void try_held_motor(size_t held, size_t place)
{
    struct record record = {.node = now->run[place].node, .line = now->run[place].line};
    try_filing(held, &record);
    for (unsigned number = 0; number < 3; number++) {
        static const uint8_t ips[] = {1, 16, NO_IP};
        record.mark = 1;
        record.pulse = (uint16_t)(0x7FFF * number + place);
        record.percent = (uint8_t)(50 * number);
        record.ip = ips[number];
        try_filing(held, &record);
    }
    record = (struct record){.node = record.node, .line = record.line};
    try_filing(held, &record);
}

/* A motor beside one that is held, with a reading and without, is filed and struck out again. */
static void try_new_motor(size_t held, size_t place)
{
    struct record record = {.node = now->run[place].node + 1, .line = now->run[place].line};
    if (record.node > NODE_LAST)
        record.node = NODE_LAST - 1;
    for (unsigned mark = 0; mark <= 1; mark++) {
        struct record filed = mark == 1 ? (struct record){record.node, record.line, 1, 777, 77, 7} : record;
        try_filing(held, &filed);
        size_t at = 0;
        while (now->run[at].line != filed.line || now->run[at].node != filed.node)
            at++;
        try_striking(held + 1, at);
    }
}

/* Motors come in any order until all places are held, and go in another until none is. */
static void try_filling(void)
{
    size_t held = 0;
    lay_register(0);
    for (size_t number = 0; number < PLACES; number++) {
        struct record record = motor(number * 77 % PLACES, PLACES);
        held = try_filing(held, &record);
    }
    for (size_t number = 0; number < PLACES; number++)
        held = try_striking(held, number * 101 % held);
}

/* What a report has beside its reading is passed over: the ACK bit, node types, more DATA, the reserved byte. */
static void try_loose_reports(size_t held)
{
    struct record record = {0x050403, 2, 1, 0x0102, 3, 4};
    for (unsigned types = 0; types < 256; types++) {
        uint8_t any = (uint8_t)types;
        uint8_t raw[29] = {REPORTS_POSITION, 31, any, 3, 4, 5, any, 1, 0, 2, 1, 3, any, 4};
        raw[1] |= types % 2 == 0 ? 0x80 : 0;
        memset(raw + 14, any, 15);
        lay_register(held);
        struct call call = filing_of(held, 2, lay_bundle(raw, sizeof raw));
        keep();
        try_this("a report of 31 bytes", 0, 0, types);
        expect(&call, expect_filed(held, &record));
    }
}

/* A motor that names itself may say more: none of it is looked at. */
static void try_loose_names(size_t held)
{
    struct record record = {.node = 0x050403, .line = 2};
    for (unsigned said = 0; said < 256; said++) {
        uint8_t any = (uint8_t)said;
        uint8_t raw[14] = {NAMES_ITSELF, 16, any, 3, 4, 5, any, 1, 0, any, any, any, any, any};
        lay_register(held);
        struct call call = filing_of(held, 2, lay_bundle(raw, sizeof raw));
        keep();
        try_this("a 60h with DATA", 0, 0, said);
        expect(&call, expect_filed(held, &record));
    }
}

/* ------------------------------------------------------------------------
 * Forms
 * ------------------------------------------------------------------------ */

/* A form is written where there is room for it and more, and read into places that held anything. */
static void try_forms(size_t held)
{
    for (size_t more = 0; more <= GUARD; more += 8) {
        struct call call = writing(held, form_length(held) + more);
        lay_register(held);
        keep();
        put_form(expected->buffer, expected->run, held);
        try_this("a form that is written", 0, 0, more);
        expect(&call, form_length(held));
    }
    for (unsigned was = 0; was < 256; was += 15) {
        struct call call = reading(form_length(held));
        lay_register(held);
        put_form(now->form, now->run, held);
        keep();
        memset(now->run, (int)was, sizeof now->run);
        try_this("a form that is read", 0, 0, was);
        expect(&call, held);
    }
}

static void try_accepted_calls(void)
{
    static const size_t counts[] = {0, 1, 2, 5, 130, 255, 256};
    for (size_t at = 0; at < sizeof counts / sizeof counts[0]; at++) {
        size_t held = counts[at];
        for (size_t place = 0; place < held; place++) {
            lay_register(held);
            try_held_motor(held, place);
            lay_register(held);
            if (held < PLACES)
                try_new_motor(held, place);
            lay_register(held);
            try_striking(held, place);
        }
        if (held < PLACES) {
            try_loose_reports(held);
            try_loose_names(held);
        }
        try_forms(held);
    }
    try_filling();
}
