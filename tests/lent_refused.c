/*
 * Rows 1 to 6, 20 to 25 and 40 to 45 over sound registers.
 *
 * lent.c takes this file in.
 */

/* ------------------------------------------------------------------------
 * Bundles
 * ------------------------------------------------------------------------ */

/* A report that is in order, of a motor that is not held; NodeID 1 on line 0 is, where there are several. */
static struct report new_report(void)
{
    return (struct report){
        .message = REPORTS_POSITION,
        .source = 0x050403,
        .destination = CONTROLLER,
        .content = {0x4D, 0x01, 33, 0xFF, NO_IP},
        .content_count = 5,
    };
}

/* The bundle as it lies is refused so, on a line. */
static void expect_bundle_refused(size_t held, uint8_t line, size_t count, unsigned row)
{
    struct call call = filing_of(held, line, count);
    memcpy(expected->bundle, now->bundle, sizeof now->bundle);
    expect_refused(&call, row);
}

/* Rows 1 to 6 come before the register's own: a line over 3 changes nothing of them. */
static void expect_no_frame(size_t held, size_t count, unsigned row)
{
    expect_bundle_refused(held, 1, count, row);
    expect_bundle_refused(held, 4, count, row);
}

static void try_bundles(size_t held)
{
    struct report report = new_report();
    size_t length = lay_report(&report);
    for (size_t count = 0; count <= BUNDLE_ROOM; count++) {
        try_this("another length of a bundle", 0, 0, count);
        if (count != length)
            expect_no_frame(held, count, count < 11 ? 1 : count > 31 ? 2 : 4);
    }
    for (unsigned second = 0; second < 256; second++) {
        uint8_t raw[] = {report.message, (uint8_t)second, 0x20, 3, 4, 5, 0x00, 0xFF, 0xFF, 0x4D, 0x01, 33, 0xFF, NO_IP};
        size_t count = lay_bundle(raw, sizeof raw);
        try_this("another second byte", 0, 1, second);
        if ((second & 0x60) != 0)
            expect_no_frame(held, count, 3);
        else if ((second & 0x1F) != count)
            expect_no_frame(held, count, 4);
    }
    for (size_t byte = 0; byte < length; byte++)
        for (unsigned bit = 0; bit < 8; bit++) {
            lay_report(&report);
            now->bundle[byte] ^= (uint8_t)(1u << bit);
            try_this("a bit of a bundle turned round", 0, byte, bit);
            if (byte != 1)
                expect_no_frame(held, length, 5);
        }
    try_this("message FFh", 0, 0, 0);
    report.message = 0xFF;
    expect_no_frame(held, lay_report(&report), 6);
}

/* ------------------------------------------------------------------------
 * Reports
 * ------------------------------------------------------------------------ */

/* Row 20, also where 21 to 24 would apply. */
static void try_lines(size_t held)
{
    for (unsigned line = 4; line < 256; line++) {
        struct report report = new_report();
        try_this("a line over 3", 0, 0, line);
        expect_bundle_refused(held, (uint8_t)line, lay_report(&report), 20);
        report.source = 0;
        report.message = 0;
        expect_bundle_refused(held, (uint8_t)line, lay_report(&report), 20);
    }
}

/* Row 21, also where 22 to 24 would apply. */
static void try_senders(size_t held)
{
    static const uint32_t sources[] = {0, NODE_LAST + 1, 0xFFFFFE, 0xFFFFFF};
    struct report report = new_report();
    for (size_t at = 0; at < sizeof sources / sizeof sources[0]; at++) {
        try_this("a sender out of range", 0, 0, sources[at]);
        report.source = sources[at];
        expect_bundle_refused(held, 3, lay_report(&report), 21);
    }
    try_this("a group", 0, 0, 0);
    report.source = 1;
    report.destination = 0;
    expect_bundle_refused(held, 0, lay_report(&report), 21);
    report.message = 0;
    expect_bundle_refused(held, 0, lay_report(&report), 21);
}

/* Row 22, of a motor that is held and of one that is not. */
static void try_messages(size_t held)
{
    for (unsigned message = 0; message < 0xFF; message++) {
        struct report report = new_report();
        try_this("another message", 0, 0, message);
        if (message == NAMES_ITSELF || message == REPORTS_POSITION)
            continue;
        report.message = (uint8_t)message;
        expect_bundle_refused(held, 2, lay_report(&report), 22);
        report.source = 1;
        report.content_count = 0;
        expect_bundle_refused(held, 0, lay_report(&report), 22);
    }
}

/* Row 23, of a motor that is held and of one that is not. */
static void expect_no_reading(size_t held, struct report *report)
{
    report->source = 0x050403;
    expect_bundle_refused(held, 1, lay_report(report), 23);
    report->source = 1;
    expect_bundle_refused(held, 0, lay_report(report), 23);
}

static void try_report_readings(size_t held)
{
    for (size_t count = 0; count < 5; count++) {
        struct report report = new_report();
        try_this("too little DATA", 0, 0, count);
        report.content_count = count;
        expect_no_reading(held, &report);
    }
    for (unsigned value = 0; value < 256; value++) {
        struct report report = new_report();
        try_this("a percent or an IP out of range", 0, 0, value);
        report.content[2] = (uint8_t)value;
        if (value > 100)
            expect_no_reading(held, &report);
        report.content[2] = 100;
        report.content[4] = (uint8_t)value;
        if (!is_allowed_ip(value))
            expect_no_reading(held, &report);
    }
}

/* Row 24, before the first motor, behind the last and between any two. */
static void try_full(void)
{
    lay_register(PLACES);
    for (size_t place = 0; place < PLACES; place++) {
        struct record record = now->run[place];
        if (record.node == NODE_LAST)
            record.node--;
        else
            record.node++;
        struct report report = new_report();
        report.source = record.node;
        try_this("a new motor while 256 are held", place, 0, record.node);
        size_t count = lay_report(&report);
        keep();
        expect_bundle_refused(PLACES, (uint8_t)record.line, count, 24);
        report.message = NAMES_ITSELF;
        expect_bundle_refused(PLACES, (uint8_t)record.line, lay_report(&report), 24);
    }
}

static void try_refused_reports(void)
{
    static const size_t counts[] = {0, 1, 5, 255, 256};
    for (size_t at = 0; at < sizeof counts / sizeof counts[0]; at++) {
        lay_register(counts[at]);
        keep();
        try_bundles(counts[at]);
        try_lines(counts[at]);
        try_senders(counts[at]);
        try_messages(counts[at]);
        try_report_readings(counts[at]);
    }
    try_full();
}

/* ------------------------------------------------------------------------
 * Striking out
 * ------------------------------------------------------------------------ */

static bool is_held(size_t held, uint32_t line, uint32_t node)
{
    for (size_t place = 0; place < held; place++)
        if (now->run[place].line == line && now->run[place].node == node)
            return true;
    return false;
}

/* Row 25 where a motor is not held, row 20 on any line over 3. */
static void try_strike(size_t held, uint32_t node)
{
    for (unsigned line = 0; line < 256; line = line < 5 ? line + 1 : 2 * line + 1) {
        struct call call = striking(held, (uint8_t)line, node);
        try_this("a motor that is not held", 0, 0, node);
        if (line > 3)
            expect_refused(&call, 20);
        else if (!is_held(held, (uint32_t)line, node))
            expect_refused(&call, 25);
    }
}

static void try_refused_strikes(void)
{
    static const size_t counts[] = {0, 1, 5, 255, 256};
    for (size_t at = 0; at < sizeof counts / sizeof counts[0]; at++) {
        size_t held = counts[at];
        lay_register(held);
        keep();
        try_strike(held, 0);
        try_strike(held, NODE_LAST + 1);
        try_strike(held, 0xFFFFFF);
        try_strike(held, 0xFFFFFFFF);
        for (size_t place = 0; place < held; place++) {
            uint32_t node = now->run[place].node;
            try_strike(held, node - 1);
            try_strike(held, node);
            try_strike(held, node + 1);
            try_strike(held, node | 0x1000000);
            try_strike(held, node | 0x80000000);
        }
    }
}

/* ------------------------------------------------------------------------
 * Forms
 * ------------------------------------------------------------------------ */

static void lay_form(size_t held)
{
    lay_register(held);
    put_form(now->form, now->run, held);
    memset(now->run, 0xFF, sizeof now->run);
    keep();
}

static void expect_form_refused(size_t count, unsigned row)
{
    struct call call = reading(count);
    memcpy(expected->form, now->form, sizeof now->form);
    expect_refused(&call, row);
}

/* One byte of the form changed, and then put back. */
static void try_form_byte(size_t held, size_t byte, uint8_t value, unsigned row)
{
    uint8_t before = now->form[byte];
    try_this("a byte of a form", 0, byte, value);
    now->form[byte] = value;
    if (value != before)
        expect_form_refused(form_length(held), row);
    now->form[byte] = before;
}

/* Rows 40 to 42. */
static void try_form_heads(size_t held)
{
    size_t length = form_length(held);
    for (size_t count = 0; count <= length + GUARD; count++) {
        try_this("another length of a form", 0, 0, count);
        if (count != length)
            expect_form_refused(count, count < 3 ? 40 : 42);
    }
    for (unsigned value = 0; value < 256; value++) {
        try_form_byte(held, 0, (uint8_t)value, 40);
        try_form_byte(held, 1, (uint8_t)value, value + (held & 0x100) > PLACES ? 41 : 42);
        try_form_byte(held, 2, (uint8_t)value, (value << 8) + (held & 0xFF) > PLACES ? 41 : 42);
    }
}

/* Another line and NodeID in the contents, and then those that stood there. */
static void try_form_motor(size_t held, uint8_t *content, const uint8_t *motor)
{
    uint8_t before[4];
    memcpy(before, content, 4);
    memcpy(content, motor, 4);
    try_this("another motor in the contents", 0, (size_t)(content - now->form), motor[0]);
    expect_form_refused(form_length(held), 43);
    memcpy(content, before, 4);
}

/* Row 43. */
static void try_contents(size_t held)
{
    static const uint8_t wrong[][4] = {
        {0, 0, 0, 0},          {3, 0, 0, 0}, {0, 0x00, 0xFF, 0xFF}, {3, 0x00, 0xFF, 0xFF},
        {3, 0xFF, 0xFF, 0xFF}, {4, 1, 0, 0}, {255, 1, 0, 0},
    };
    for (size_t at = 0; at < held; at++) {
        uint8_t *content = now->form + 3 + 6 * at;
        for (size_t number = 0; number < sizeof wrong / sizeof wrong[0]; number++)
            try_form_motor(held, content, wrong[number]);
        if (at > 0)
            try_form_motor(held, content, content - 6);
        if (at + 1 < held)
            try_form_motor(held, content, content + 6);
        for (unsigned value = 0; value < 256; value++) {
            try_form_byte(held, (size_t)(content + 4 - now->form), (uint8_t)value, 43);
            try_form_byte(held, (size_t)(content + 5 - now->form), (uint8_t)value, 43);
            if (value > 3)
                try_form_byte(held, (size_t)(content - now->form), (uint8_t)value, 43);
        }
    }
}

/* Row 44. */
static void try_bodies(size_t held)
{
    for (size_t body = 3 + 6 * held; body < form_length(held); body += 5)
        for (unsigned value = 0; value < 256; value++) {
            bool read = now->form[body] == 1;
            try_form_byte(held, body, (uint8_t)value, 44);
            if (!read) {
                try_form_byte(held, body + 1, (uint8_t)value, 44);
                try_form_byte(held, body + 2, (uint8_t)value, 44);
            }
            if (!read || value > 100)
                try_form_byte(held, body + 3, (uint8_t)value, 44);
            if (!read || !is_allowed_ip(value))
                try_form_byte(held, body + 4, (uint8_t)value, 44);
        }
}

/* Where the contents and a body are wrong, 43 comes first. */
static void try_both(size_t held)
{
    uint8_t *last_place = now->form + 3 + 6 * held - 1;
    uint8_t *first_body = last_place + 1;
    try_this("contents and a body that are wrong", 0, 0, 0);
    *last_place ^= 1;
    *first_body = 2;
    expect_form_refused(form_length(held), 43);
}

/* Row 45, of every room that is too small. */
static void try_rooms(size_t held)
{
    lay_register(held);
    keep();
    for (size_t room = 0; room < form_length(held); room++) {
        struct call call = writing(held, room);
        try_this("too little room", 0, 0, room);
        expect_refused(&call, 45);
    }
}

static void try_refused_forms(void)
{
    static const size_t counts[] = {0, 1, 5, 255, 256};
    for (size_t at = 0; at < sizeof counts / sizeof counts[0]; at++) {
        size_t held = counts[at];
        lay_form(held);
        try_form_heads(held);
        if (held < 10) {
            try_contents(held);
            try_bodies(held);
        }
        if (held > 0)
            try_both(held);
        try_rooms(held);
    }
}
