/*
 * Workloads of the transmitter's messages: read, and each written again.
 *
 * beside.c takes this file in, behind beside_frames.c, whose slots are used.
 */

static uint64_t second_messages(uint8_t *buffer, size_t room)
{
    uint64_t total = 0;
    for (const uint8_t *slot = work.slots; slot < work.slots + sizeof work.slots; slot += SLOT) {
        struct rts rts;
        enum refusal refusal = read_rts(slot + 1, slot[0], &rts);
        if (refusal == ACCEPTED)
            refusal = write_rts(&rts, buffer, room, 0);
        total += refusal == ACCEPTED ? rts_length(rts.header.message) : (uint64_t)refusal;
    }
    return total;
}

static uint64_t over_messages(enum side side)
{
    uint8_t buffer[BUNDLE_LONGEST];
    return side == PROVED ? speed_messages(work.slots, sizeof work.slots, buffer, sizeof buffer)
                          : second_messages(buffer, sizeof buffer);
}

/* Every message at and around its ranges, some with another count of DATA or a MSG not of the list. */
static void transmitter_messages(uint32_t motors)
{
    (void)motors;
    for (size_t number = 0; number < SLOTS; number++) {
        uint8_t *slot = work.slots + SLOT * number;
        struct frame frame = any_rts_frame(&script);
        slot[0] = put_bundle(slot + 1, loose_bundle_of(&frame));
    }
}
