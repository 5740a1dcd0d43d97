/*
 * The register in C over a lent run of records, with row 19 of document 01
 * checked first at every call.  Each call answers as the proved one does: the
 * count held now, or for a written form its bytes, or REFUSED and the
 * refusal's number.  A refusal changes nothing.
 *
 * beside.c takes this file in, behind the second program's frames and forms.
 */

enum { BROKEN_REGISTER = 19, FORM_ROOM = 45 };

/* Line, then NodeID, as one number. */
static inline uint64_t key_of(uint32_t line, uint32_t node)
{
    return (uint64_t)line << 32 | node;
}

/* The fields of a record held: rows 20, 21 and 23, and without a reading zeros. */
static inline bool is_held_right(const struct record *at)
{
    if (at->line > LINE_LAST || !is_node_id(at->node))
        return false;
    if (at->mark == 1)
        return is_percent_and_favourite(at->percent, at->ip);
    return at->mark == 0 && at->pulse == 0 && at->percent == 0 && at->ip == 0;
}

static inline bool is_blank(const struct record *at)
{
    static const struct record blank;
    return memcmp(at, &blank, sizeof blank) == 0;
}

/* Row 19, and in the same pass how many of the motors held come before a key. */
static inline bool is_register(const struct record *run, size_t places, size_t held, uint64_t key, size_t *before)
{
    if (places != PLACES || held > PLACES)
        return false;
    uint64_t last = 0;
    size_t count = 0;
    for (const struct record *at = run; at < run + held; at++) {
        uint64_t own = key_of(at->line, at->node);
        if (own <= last || !is_held_right(at))
            return false;
        count += own < key;
        last = own;
    }
    for (const struct record *at = run + held; at < run + PLACES; at++)
        if (!is_blank(at))
            return false;
    *before = count;
    return true;
}

static inline bool is_at(const struct record *run, size_t held, size_t place, uint64_t key)
{
    return place < held && key_of(run[place].line, run[place].node) == key;
}

/* Rows 1 to 6 and 20 to 23; the record of what a bundle reports, taken from the wire. */
static inline enum refusal read_report(uint8_t line, const uint8_t *bundle, size_t count, struct record *report)
{
    enum refusal refusal = check_bundle(bundle, count);
    if (refusal != ACCEPTED)
        return refusal;
    if (line > LINE_LAST)
        return REGISTER_LINE;
    uint32_t source = three_bytes(bundle + 3) ^ ADDRESS_LAST;
    uint32_t destination = three_bytes(bundle + 6) ^ ADDRESS_LAST;
    if (!is_node_id(source) || destination == GROUP_MARK)
        return REGISTER_SENDER;
    *report = (struct record){.node = source, .line = line};
    uint8_t message = inverted(bundle[0]);
    if (message == POST_NODE_ADDR)
        return ACCEPTED;
    if (message != POST_MOTOR_POSITION)
        return REGISTER_MESSAGE;
    const uint8_t *sent = bundle + HEADER_LENGTH;
    if (count < HEADER_LENGTH + 5 + CHECKSUM_LENGTH || !is_percent_and_favourite(inverted(sent[2]), inverted(sent[4])))
        return REGISTER_READING;
    report->mark = 1;
    report->pulse = two_bytes(sent) ^ 0xFFFF;
    report->percent = inverted(sent[2]);
    report->ip = inverted(sent[4]);
    return ACCEPTED;
}

static uint64_t checked_file(struct record *run, size_t places, size_t held, uint8_t line, const uint8_t *bundle,
                             size_t count)
{
    struct record report = {0};
    enum refusal refusal = read_report(line, bundle, count, &report);
    uint64_t key = key_of(report.line, report.node);
    size_t place;
    if (!is_register(run, places, held, key, &place))
        return REFUSED + BROKEN_REGISTER;
    if (refusal != ACCEPTED)
        return REFUSED + (uint64_t)refusal;
    if (is_at(run, held, place, key)) {
        if (report.mark == 1)
            run[place] = report;
        return held;
    }
    if (held == PLACES)
        return REFUSED + REGISTER_FULL;
    memmove(run + place + 1, run + place, (held - place) * sizeof *run);
    run[place] = report;
    return held + 1;
}

static uint64_t checked_strike(struct record *run, size_t places, size_t held, uint8_t line, uint32_t node)
{
    uint64_t key = key_of(line, node);
    size_t place;
    if (!is_register(run, places, held, key, &place))
        return REFUSED + BROKEN_REGISTER;
    if (line > LINE_LAST)
        return REFUSED + REGISTER_LINE;
    if (!is_at(run, held, place, key))
        return REFUSED + MOTOR_NOT_HELD;
    memmove(run + place, run + place + 1, (held - 1 - place) * sizeof *run);
    run[held - 1] = (struct record){0};
    return held - 1;
}

/* Row 43. */
static inline bool are_contents_allowed(const uint8_t *contents, size_t count)
{
    uint64_t last = 0;
    size_t place = body_place(count, 0);
    for (const uint8_t *at = contents; at < contents + FORM_CONTENT * count; at += FORM_CONTENT) {
        uint32_t node = three_bytes(at + 1);
        uint64_t own = key_of(at[0], node);
        if (own <= last || !is_node_id(node) || two_bytes(at + 4) != place)
            return false;
        last = own;
        place += FORM_BODY;
    }
    return last < key_of(LINE_LAST + 1, 0);
}

/* Row 44. */
static inline bool are_bodies_allowed(const uint8_t *bodies, size_t count)
{
    for (const uint8_t *at = bodies; at < bodies + FORM_BODY * count; at += FORM_BODY) {
        if (at[0] == 1) {
            if (!is_percent_and_favourite(at[3], at[4]))
                return false;
        } else if ((at[0] | at[1] | at[2] | at[3] | at[4]) != 0) {
            return false;
        }
    }
    return true;
}

/* Of the run only its length is checked; all its places are set. */
static uint64_t checked_read_form(struct record *run, size_t places, const uint8_t *bytes, size_t size)
{
    if (places != PLACES)
        return REFUSED + BROKEN_REGISTER;
    if (size < FORM_HEAD || bytes[0] != 1)
        return REFUSED + FORM_START;
    size_t count = two_bytes(bytes + 1);
    if (count > PLACES)
        return REFUSED + FORM_COUNT;
    if (size != form_length(count))
        return REFUSED + FORM_LENGTH;
    const uint8_t *content = bytes + FORM_HEAD;
    const uint8_t *body = bytes + body_place(count, 0);
    if (!are_contents_allowed(content, count))
        return REFUSED + FORM_CONTENTS;
    if (!are_bodies_allowed(body, count))
        return REFUSED + FORM_BODIES;
    for (struct record *at = run; at < run + count; at++, content += FORM_CONTENT, body += FORM_BODY)
        *at = (struct record){
            .node = three_bytes(content + 1),
            .line = content[0],
            .pulse = two_bytes(body + 1),
            .mark = body[0],
            .percent = body[3],
            .ip = body[4],
        };
    memset(run + count, 0, (PLACES - count) * sizeof *run);
    return count;
}

static uint64_t checked_write_form(const struct record *run, size_t places, size_t held, uint8_t *buffer, size_t room)
{
    size_t before;
    if (!is_register(run, places, held, 0, &before))
        return REFUSED + BROKEN_REGISTER;
    if (room < form_length(held))
        return REFUSED + FORM_ROOM;
    buffer[0] = 1;
    put_two_bytes(buffer + 1, (uint16_t)held);
    uint8_t *content = buffer + FORM_HEAD;
    uint8_t *body = buffer + body_place(held, 0);
    for (const struct record *at = run; at < run + held; at++, content += FORM_CONTENT, body += FORM_BODY) {
        content[0] = (uint8_t)at->line;
        put_three_bytes(content + 1, at->node);
        put_two_bytes(content + 4, (uint16_t)(body - buffer));
        body[0] = (uint8_t)at->mark;
        put_two_bytes(body + 1, at->pulse);
        body[3] = at->percent;
        body[4] = at->ip;
    }
    return form_length(held);
}
