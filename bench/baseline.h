/* What both baselines share: the types and signatures of include/zaytulobe.h under their own names, and which calls are refused. */
#ifndef BASELINE_H
#define BASELINE_H

#include "../bulk/short.h"

#define SEND(name) \
    struct zaytulobe_sent name(u8 mode, u32 e, struct zaytulobe_sender state, const u8 *user, size user_length, \
        const u32 *commands, size commands_length, u8 *lane, size lane_length)
#define RECEIVE(name) \
    struct zaytulobe_received name(u8 mode, struct zaytulobe_receiver state, const u8 *lane, size lane_length, \
        u8 *octets, size octets_length, u8 *statuses, size statuses_length, u32 *commands, size commands_length, \
        u16 *places, size places_length, u16 *patterns, size patterns_length, u8 *invalid, size invalid_length)
#define LISTING(name) struct zaytulobe_listed name(const u8 *capture, size capture_length, u8 *text, size text_length)

SEND(plain_send);
RECEIVE(plain_receive);
LISTING(plain_listing);
SEND(tuned_send);
RECEIVE(tuned_receive);
LISTING(tuned_listing);

void *memcpy(void *to, const void *from, size count);

enum { CRC12_LOWER = 0x30f, FEC_LOWER = 0x220211, CRC3_LOWER = 3, MOST = MOST_MULTIBLOCKS };

/* Bits of a remainder, of which the next sync word carries the last group's. */
static inline u32 parity_width(u8 mode) {
    return has_fec(mode) ? 26 : mode == CRC3 ? 3 : mode == COMMAND ? 0 : 12;
}

static inline u8 send_refusal(u8 mode, u32 e, struct zaytulobe_sender state, size user_length, const u32 *commands,
    size commands_length, size lane_length) {
    if (mode >= MODES)
        return ZAYTULOBE_REFUSED_MODE;
    if (e < ZAYTULOBE_LEAST_E || e > ZAYTULOBE_MOST_E)
        return ZAYTULOBE_REFUSED_E;
    if (state.history >> 58 || state.parity >> parity_width(mode) || state.number >= e)
        return ZAYTULOBE_REFUSED_STATE;
    if (state.fill > ZAYTULOBE_MOST_FILL(mode))
        return ZAYTULOBE_REFUSED_STATE;
    if (user_length % USER_OCTETS)
        return ZAYTULOBE_REFUSED_LENGTH;
    size count = user_length / USER_OCTETS;
    if (count > most_multiblocks(mode))
        return ZAYTULOBE_REFUSED_COUNT;
    if (commands_length != count)
        return ZAYTULOBE_REFUSED_COMMANDS;
    for (size k = 0; k < count; k++)
        if (commands[k] > ZAYTULOBE_MOST_COMMAND(mode))
            return ZAYTULOBE_REFUSED_COMMANDS;
    return lane_octets(mode) * count > lane_length ? ZAYTULOBE_REFUSED_ROOM : ZAYTULOBE_ACCEPTED;
}

static inline int state_fits(u8 mode, const struct zaytulobe_receiver *state) {
    u32 command = has_fec(mode) ? 0 : 2 * ZAYTULOBE_COMMAND_FLAG(mode) - 1;
    if (state->waiting > 1 || state->trusted > 1 || state->history >> 58 || state->command > command || state->invalid > BLOCKS)
        return 0;
    if (state->own > ZAYTULOBE_MOST_OWN(mode))
        return 0;
    if (state->waiting)
        return 1;
    u8 any = 0;
    for (int k = 0; k < USER_OCTETS; k++)
        any |= state->octets[k];
    int counts = state->sound || state->repaired || state->failed;
    return !any && !state->history && !state->command && !state->trusted && !state->invalid && !state->own && !counts;
}

/* So many more, but no more than the greatest number. */
static inline u32 count_on(u32 before, u32 more) {
    return more < 0xffffffff - before ? before + more : 0xffffffff;
}

static inline u8 receive_refusal(u8 mode, const struct zaytulobe_receiver *state, size lane_length, size octets_length,
    size statuses_length, size commands_length, size places_length, size patterns_length, size invalid_length) {
    if (mode >= MODES)
        return ZAYTULOBE_REFUSED_MODE;
    if (!state_fits(mode, state))
        return ZAYTULOBE_REFUSED_STATE;
    if (lane_length % lane_octets(mode))
        return ZAYTULOBE_REFUSED_LENGTH;
    size count = lane_length / lane_octets(mode);
    if (count > most_multiblocks(mode))
        return ZAYTULOBE_REFUSED_COUNT;
    size released = state->waiting || !count ? count : count - 1;
    int room = USER_OCTETS * released <= octets_length && released <= statuses_length && released <= commands_length &&
        released <= places_length && released <= patterns_length && released <= invalid_length;
    return room ? ZAYTULOBE_ACCEPTED : ZAYTULOBE_REFUSED_ROOM;
}

static inline size number_at(const u8 *octets) {
    return (size)octets[0] << 24 | (size)octets[1] << 16 | (size)octets[2] << 8 | octets[3];
}

static inline u8 capture_refusal(const u8 *capture, size length) {
    if (length < HEAD || number_at(capture) != 3 || number_at(capture + 7) != length - HEAD)
        return ZAYTULOBE_REFUSED_CAPTURE;
    if (length > (size)ZAYTULOBE_LONGEST_CAPTURE(capture[4]))
        return ZAYTULOBE_REFUSED_CAPTURE;
    u32 e = (u32)capture[5] << 8 | capture[6];
    if (capture[4] >= MODES)
        return ZAYTULOBE_REFUSED_MODE;
    if (e < ZAYTULOBE_LEAST_E || e > ZAYTULOBE_MOST_E)
        return ZAYTULOBE_REFUSED_E;
    return (length - HEAD) % lane_octets(capture[4]) ? ZAYTULOBE_REFUSED_LENGTH : ZAYTULOBE_ACCEPTED;
}

static inline u8 *put_name(u8 *at, u8 mode) {
    static const char *const names[MODES] = {"crc12", "fec", "crc12-80", "fec-80", "crc3", "cmd"};
    for (const char *from = names[mode]; *from; from++)
        *at++ = (u8)*from;
    *at++ = ' ';
    return at;
}

/* A decimal number and the octet after it; answers the place after both. */
static inline u8 *put_number(u8 *at, u32 number, u8 end) {
    u8 digits[10];
    int count = 0;
    do
        digits[count++] = (u8)('0' + number % 10);
    while (number /= 10);
    while (count)
        *at++ = digits[--count];
    *at++ = end;
    return at;
}

/* The listing over any receiver: the text is made aside, and copied where there is room for all of it. */
static inline struct zaytulobe_listed list(RECEIVE((*receive)), const u8 *capture, size capture_length, u8 *text, size text_length) {
    static u8 octets[USER_OCTETS * MOST], statuses[MOST], invalid[MOST], made[ZAYTULOBE_LONGEST_TEXT];
    static u32 commands[MOST];
    static u16 places[MOST], patterns[MOST];
    struct zaytulobe_listed listed = {capture_refusal(capture, capture_length), 0};
    if (listed.refusal)
        return listed;
    struct zaytulobe_receiver fresh = {0};
    size count = receive(capture[4], fresh, capture + HEAD, capture_length - HEAD, octets, sizeof octets, statuses, MOST,
        commands, MOST, places, MOST, patterns, MOST, invalid, MOST).count;
    u8 *at = put_name(made, capture[4]);
    at = put_number(at, (u32)capture[5] << 8 | capture[6], ' ');
    at = put_number(at, (u32)((capture_length - HEAD) / lane_octets(capture[4])), ' ');
    at = put_number(at, (u32)count, '\n');
    for (size k = 0; k < count; k++) {
        at = put_number(at, (u32)k, ' ');
        at = put_number(at, statuses[k], ' ');
        at = put_number(at, places[k], ' ');
        at = put_number(at, patterns[k], '\n');
    }
    size length = (size)(at - made);
    listed.refusal = length > text_length ? ZAYTULOBE_REFUSED_ROOM : ZAYTULOBE_ACCEPTED;
    if (!listed.refusal) {
        memcpy(text, made, length);
        listed.count = length;
    }
    return listed;
}

#endif
