/*
 * The memory that is lent to the compiled register, with guard bytes around it;
 * the calls, each of which is held against what it is to answer and to leave;
 * and the registers, bundles and forms that are laid into the memory.
 *
 * lent.c takes this file in.
 */

enum {
    GUARD = 64,
    GUARD_BYTE = 0xC3,
    BUNDLE_ROOM = 64,
    FORM_ROOM = 3 + 11 * PLACES,
    NODE_LAST = 0xFFFEFF,
    CONTROLLER = 0xFFFF00,
    NAMES_ITSELF = 0x60,
    REPORTS_POSITION = 0x0D,
    NO_IP = 0xFF
};

/* All that is lent, and guard bytes around it; a run of 257 places takes the spare one. */
struct memory {
    uint8_t before_run[GUARD];
    struct record run[PLACES];
    struct record spare;
    uint8_t before_bundle[GUARD];
    uint8_t bundle[BUNDLE_ROOM];
    uint8_t before_form[GUARD];
    uint8_t form[FORM_ROOM + GUARD];
    uint8_t before_buffer[GUARD];
    uint8_t buffer[FORM_ROOM + GUARD];
};

static struct memory *now;      /* what the calls work on */
static struct memory *expected; /* what it has to be behind the next call */

/* What is tried, for the message of a failure. */
static struct {
    const char *what;
    size_t held, place, byte;
    unsigned long value;
} trying;

static unsigned long calls_made;

static void try_this(const char *what, size_t place, size_t byte, unsigned long value)
{
    trying.what = what;
    trying.place = place;
    trying.byte = byte;
    trying.value = value;
}

/* ------------------------------------------------------------------------
 * Calls
 * ------------------------------------------------------------------------ */

enum kind { FILE_BUNDLE, STRIKE_OUT, READ_FORM, WRITE_FORM };

static const char *const kind_names[] = {"speed_file", "speed_strike", "speed_read_form", "speed_write_form"};

struct call {
    enum kind kind;
    size_t places;
    size_t held;
    uint8_t line;
    uint32_t node; /* struck out */
    size_t count;  /* bytes of the bundle or of the form */
    size_t room;   /* to write a form */
};

static uint64_t answer_to(const struct call *call)
{
    switch (call->kind) {
    case FILE_BUNDLE:
        return speed_file(now->run, call->places, call->held, call->line, now->bundle, call->count);
    case STRIKE_OUT:
        return speed_strike(now->run, call->places, call->held, call->line, call->node);
    case READ_FORM:
        return speed_read_form(now->run, call->places, now->form, call->count);
    default:
        return speed_write_form(now->run, call->places, call->held, now->buffer, call->room);
    }
}

/* Which byte of the memory is not as it is to be. */
static void tell_difference(void)
{
    static const struct {
        const char *name;
        size_t start, size;
    } parts[] = {
        {"the run", offsetof(struct memory, run), sizeof now->run},
        {"the bundle", offsetof(struct memory, bundle), sizeof now->bundle},
        {"the form", offsetof(struct memory, form), sizeof now->form},
        {"the buffer", offsetof(struct memory, buffer), sizeof now->buffer},
    };
    const char *name = "the guard bytes, from the start of all memory";
    size_t at = 0;
    while (((const uint8_t *)now)[at] == ((const uint8_t *)expected)[at])
        at++;
    for (size_t part = 0; part < sizeof parts / sizeof parts[0]; part++)
        if (at >= parts[part].start && at - parts[part].start < parts[part].size) {
            name = parts[part].name;
            at -= parts[part].start;
            break;
        }
    fprintf(stderr, "tests/lent: byte %zu of %s is not as it is to be\n", at, name);
}

static void fail(const struct call *call)
{
    fprintf(stderr, "  %s: places %zu, count held %zu, line %u, node %06lX, bytes %zu, room %zu\n",
            kind_names[call->kind], call->places, call->held, call->line, (unsigned long)call->node, call->count,
            call->room);
    fprintf(stderr, "  tried: %s; %zu motors, place %zu, byte %zu, value %lu\n", trying.what, trying.held,
            trying.place, trying.byte, trying.value);
    exit(1);
}

/* Makes a call, and sees that it answers so and leaves the memory as expected. */
static void expect(const struct call *call, uint64_t answer)
{
    uint64_t given = answer_to(call);
    calls_made++;
    if (given != answer) {
        fprintf(stderr, "tests/lent: answered %llu in place of %llu\n", (unsigned long long)given,
                (unsigned long long)answer);
        fail(call);
    }
    if (memcmp(now, expected, sizeof *now) != 0) {
        tell_difference();
        fail(call);
    }
}

static void expect_refused(const struct call *call, unsigned row)
{
    expect(call, REFUSED + row);
}

/* What was laid is what is expected. */
static void keep(void)
{
    memcpy(expected, now, sizeof *now);
}

/* ------------------------------------------------------------------------
 * Registers, bundles and forms that are laid
 * ------------------------------------------------------------------------ */

/*
 * One of so many motors in order: on four lines, with NodeIDs from the least to
 * the greatest.  One in three has no reading, the others are at the limits.
 */
static struct record motor(size_t number, size_t held)
{
    size_t line = 4 * number / held;
    size_t first = (line * held + 3) / 4;
    struct record record = {.node = (uint32_t)(1 + 64 * (number - first)), .line = (uint32_t)line};
    if (number + 1 == held)
        record.node = NODE_LAST;
    if (number % 3 == 1)
        return (struct record){record.node, record.line, 1, 0xFFFF, 100, 16};
    if (number % 3 == 2)
        return (struct record){record.node, record.line, 1, (uint16_t)(number / 3), 0, number % 2 == 0 ? 1 : NO_IP};
    return record;
}

static void lay_register(size_t held)
{
    memset(now, GUARD_BYTE, sizeof *now);
    memset(now->run, 0, sizeof now->run);
    for (size_t place = 0; place < held; place++)
        now->run[place] = motor(place, held);
    trying.held = held;
}

static void put_low_first(uint8_t *bytes, uint32_t value, size_t count)
{
    for (size_t at = 0; at < count; at++)
        bytes[at] = (uint8_t)(value >> 8 * at);
}

/* Raw bytes go out inverted, with their sum behind them; gives the count of wire bytes. */
static size_t lay_bundle(const uint8_t *raw, size_t count)
{
    unsigned sum = 0;
    for (size_t at = 0; at < count; at++) {
        now->bundle[at] = (uint8_t)~raw[at];
        sum += now->bundle[at];
    }
    now->bundle[count] = (uint8_t)(sum >> 8);
    now->bundle[count + 1] = (uint8_t)sum;
    return count + 2;
}

struct report {
    uint8_t message;
    uint32_t source;
    uint32_t destination;
    uint8_t content[20]; /* DATA */
    size_t content_count;
};

static size_t lay_report(const struct report *report)
{
    size_t count = 9 + report->content_count;
    uint8_t raw[29] = {report->message, (uint8_t)(count + 2), 0x20};
    put_low_first(raw + 3, report->source, 3);
    put_low_first(raw + 6, report->destination, 3);
    memcpy(raw + 9, report->content, report->content_count);
    return lay_bundle(raw, count);
}

/* The report that makes a motor's record what it is. */
static struct report report_of(const struct record *record)
{
    struct report report = {.message = NAMES_ITSELF, .source = record->node, .destination = CONTROLLER};
    if (record->mark == 1) {
        report.message = REPORTS_POSITION;
        report.content_count = 5;
        put_low_first(report.content, record->pulse, 2);
        report.content[2] = record->percent;
        report.content[3] = 0xFF;
        report.content[4] = record->ip;
    }
    return report;
}

/* The filing of a bundle of so many bytes. */
static struct call filing_of(size_t held, uint8_t line, size_t count)
{
    return (struct call){.kind = FILE_BUNDLE, .places = PLACES, .held = held, .line = line, .count = count};
}

static struct call filing(size_t held, const struct record *record)
{
    struct report report = report_of(record);
    return filing_of(held, (uint8_t)record->line, lay_report(&report));
}

static struct call striking(size_t held, uint8_t line, uint32_t node)
{
    return (struct call){.kind = STRIKE_OUT, .places = PLACES, .held = held, .line = line, .node = node};
}

static struct call writing(size_t held, size_t room)
{
    return (struct call){.kind = WRITE_FORM, .places = PLACES, .held = held, .room = room};
}

static struct call reading(size_t count)
{
    return (struct call){.kind = READ_FORM, .places = PLACES, .count = count};
}

static size_t form_length(size_t held)
{
    return 3 + 11 * held;
}

/* The form of the first records of a run. */
static void put_form(uint8_t *form, const struct record *run, size_t held)
{
    form[0] = 1;
    put_low_first(form + 1, (uint32_t)held, 2);
    for (size_t at = 0; at < held; at++) {
        uint8_t *content = form + 3 + 6 * at;
        uint8_t *body = form + 3 + 6 * held + 5 * at;
        content[0] = (uint8_t)run[at].line;
        put_low_first(content + 1, run[at].node, 3);
        put_low_first(content + 4, (uint32_t)(body - form), 2);
        body[0] = (uint8_t)run[at].mark;
        put_low_first(body + 1, run[at].pulse, 2);
        body[3] = run[at].percent;
        body[4] = run[at].ip;
    }
}
