/* The plain baseline: bit by bit, as document 01 says it, with nothing done for speed but the compiler's -O3. */
#include "baseline.h"

enum { POSITIONS = 2074, LIMIT = 9 };

/* What stands at each position of a sync word: a bit of the parity, a bit of the command, the end mark, or a fixed bit. The parity of
   CRC-3 is that of its four groups, B C D A, the first highest: A, the last group's, is that of the multiblock before. */
enum { CMD = 32, MARK = 64, ZERO, ONE };
static const u8 CRC12_LAYOUT[BLOCKS] = {
    11, 10, 9, ONE, 8, 7, 6, ONE, 5, 4, 3, ONE, 2, 1, 0, ONE, CMD + 6, CMD + 5, CMD + 4, ONE, CMD + 3, ONE, MARK, ONE, CMD + 2, CMD + 1,
    CMD, ZERO, ZERO, ZERO, ZERO, ONE};
static const u8 FEC_LAYOUT[BLOCKS] = {
    25, 24, 23, 22, 21, 20, 19, 18, 17, 16, 15, 14, 13, 12, 11, 10, 9, 8, 7, 6, 5, 4, MARK, 3, 2, 1, 0, ZERO, ZERO, ZERO, ZERO, ONE};
static const u8 CRC3_LAYOUT[BLOCKS] = {
    2, 1, 0, ONE, CMD + 6, CMD + 5, CMD + 4, ONE, 11, 10, 9, ONE, CMD + 3, CMD + 2, CMD + 1, ONE, 8, 7, 6, ONE, CMD, ONE, MARK, ONE,
    5, 4, 3, ZERO, ZERO, ZERO, ZERO, ONE};
static const u8 COMMAND_LAYOUT[BLOCKS] = {
    CMD + 18, CMD + 17, CMD + 16, ONE, CMD + 15, CMD + 14, CMD + 13, ONE, CMD + 12, CMD + 11, CMD + 10, ONE, CMD + 9, CMD + 8, CMD + 7,
    ONE, CMD + 6, CMD + 5, CMD + 4, ONE, CMD + 3, ONE, MARK, ONE, CMD + 2, CMD + 1, CMD, ZERO, ZERO, ZERO, ZERO, ONE};
static const u8 *const LAYOUTS[MODES] = {CRC12_LAYOUT, FEC_LAYOUT, CRC12_LAYOUT, FEC_LAYOUT, CRC3_LAYOUT, COMMAND_LAYOUT};
static const u32 LOWERS[MODES] = {CRC12_LOWER, FEC_LOWER, CRC12_LOWER, FEC_LOWER, CRC3_LOWER, 0};

static u32 weights[POSITIONS];

static u32 bit_at(const u8 *octets, size bit) {
    return octets[bit / 8] >> (7 - bit % 8) & 1;
}

static void put_bit(u8 *octets, size bit, u32 value) {
    u8 mask = (u8)(128 >> bit % 8);
    if (value)
        octets[bit / 8] |= mask;
    else
        octets[bit / 8] &= (u8)~mask;
}

static u32 times_x(u8 mode, u32 remainder) {
    u32 width = parity_width(mode), top = remainder >> (width - 1) & 1;
    remainder = remainder << 1 & ((1u << width) - 1);
    return top ? remainder ^ LOWERS[mode] : remainder;
}

static u32 next_remainder(u8 mode, u32 remainder, u32 bit) {
    return mode == COMMAND ? 0 : times_x(mode, remainder ^ bit << (parity_width(mode) - 1));
}

/* Whether a block is the last of a group, whose remainder is complete with it. */
static int ends_group(u8 mode, size block) {
    return block % (mode == CRC3 ? 8 : BLOCKS) == (mode == CRC3 ? 7 : BLOCKS - 1);
}

/* The remainders of all groups, the first one's highest. */
static u32 parity_of(u8 mode, const u8 *octets) {
    u32 parity = 0, remainder = 0;
    for (size bit = 0; bit < DATA_BITS; bit++) {
        remainder = next_remainder(mode, remainder, bit_at(octets, bit));
        if (bit % 64 == 63 && ends_group(mode, bit / 64)) {
            parity = parity << parity_width(mode) | remainder;
            remainder = 0;
        }
    }
    return parity;
}

__attribute__((constructor)) static void make_weights(void) {
    u32 weight = 1;
    for (size position = POSITIONS; position-- > 0; weight = times_x(FEC, weight))
        weights[position] = weight;
}

static u32 sync_bit(u8 mode, size position, u32 parity, u32 command, u32 mark) {
    u8 field = LAYOUTS[mode][position];
    if (field >= MARK)
        return field == MARK ? mark : field == ONE;
    return field >= CMD ? command >> (field - CMD) & 1 : parity >> field & 1;
}

/* Table 38: the pair that PRBS[1:0] replaces. */
static const u8 REPLACED[4] = {1, 2, 4, 5};

/* A bit of a pair of the block that the register stands at, the left one first: normally PRBS[4:3] of F0, PRBS[6:5] of F1 .. */
static u32 fill_bit(u32 fill, size pair, size bit) {
    u32 normally = fill >> (4 + 2 * pair - bit) & 1, instead = fill >> 2 & 1;
    return REPLACED[fill & 3] == pair ? (bit ? instead : !instead) : normally;
}

/* The register after a block: 17 bits more, each 1 plus the bits 17 and 14 before it. */
static u32 next_fill(u32 fill) {
    for (int k = 0; k < 17; k++)
        fill = (fill << 1 | (1 ^ (fill >> 16 & 1) ^ (fill >> 13 & 1))) & 0x1ffff;
    return fill;
}

static void put_fill(u8 mode, u32 *fill, u8 *lane, size block) {
    if (gap(mode) == 0)
        return;
    for (size k = 0; k < 7 * gap(mode); k++)
        put_bit(lane, block_bits(mode) * block + fill_place(mode, k), fill_bit(*fill, k / gap(mode), k % gap(mode)));
    *fill = next_fill(*fill);
}

/* The sync word carries the last group's remainder of the multiblock before, and the other groups' of its own, each in headers after
   its group. */
static void send_one(u8 mode, u32 e, struct zaytulobe_sender *state, const u8 *user, u32 command, u8 *lane) {
    u32 parity = state->parity, remainder = 0, last = state->number + 1 == e;
    for (size block = 0; block < BLOCKS; block++) {
        u32 carried = sync_bit(mode, block, parity, command, last);
        put_bit(lane, block_bits(mode) * block, !carried);
        put_bit(lane, block_bits(mode) * block + 1, carried);
        put_fill(mode, &state->fill, lane, block);
        for (size bit = 64 * block; bit < 64 * block + 64; bit++) {
            u32 sent = bit_at(user, bit) ^ (state->history >> 38 & 1) ^ (state->history >> 57 & 1);
            put_bit(lane, data_place(mode, bit), sent);
            state->history = state->history << 1 | sent;
            remainder = next_remainder(mode, remainder, sent);
        }
        if (ends_group(mode, block) && block != BLOCKS - 1) {
            parity |= remainder << parity_width(mode) * ((BLOCKS - 1 - block) / 8);
            remainder = 0;
        }
    }
    state->history &= (1ul << 58) - 1;
    state->parity = remainder;
    state->number = last ? 0 : state->number + 1;
}

SEND(plain_send) {
    struct zaytulobe_sent sent = {0, 0, state};
    sent.refusal = send_refusal(mode, e, state, user_length, commands, commands_length, lane_length);
    if (sent.refusal)
        return sent;
    for (size k = 0; k < commands_length; k++)
        send_one(mode, e, &sent.state, user + USER_OCTETS * k, commands[k], lane + lane_octets(mode) * k);
    sent.count = commands_length;
    return sent;
}

/* `own` is the parity above what belongs to the multiblock before. */
struct heard {
    u32 parity, own, command;
    u8 octets[USER_OCTETS], invalid;
};

static void hear(u8 mode, const u8 *lane, struct heard *heard) {
    u32 flagged = 0;
    heard->parity = heard->command = heard->invalid = 0;
    for (size block = 0; block < BLOCKS; block++) {
        size place = block_bits(mode) * block;
        u32 first = bit_at(lane, place), second = bit_at(lane, place + 1), carried = !first && second;
        u8 field = LAYOUTS[mode][block];
        heard->invalid += first == second;
        if (field < CMD) {
            heard->parity |= carried << field;
        } else if (field < MARK) {
            heard->command |= carried << (field - CMD);
            flagged |= first == second;
        }
        for (size bit = 64 * block; bit < 64 * block + 64; bit++)
            put_bit(heard->octets, bit, bit_at(lane, data_place(mode, bit)));
    }
    heard->command += flagged * (u32)ZAYTULOBE_COMMAND_FLAG(mode);
    heard->own = heard->parity >> parity_width(mode);
    heard->parity -= heard->own << parity_width(mode);
}

static int find_burst(u32 difference, u16 *place, u16 *pattern) {
    for (u32 at = 0; at < POSITIONS; at++) {
        u32 end = at + LIMIT <= POSITIONS ? 1u << LIMIT : 1u << (POSITIONS - at);
        for (u32 flips = 1; flips < end; flips += 2) {
            u32 sum = 0;
            for (u32 k = 0; k < LIMIT; k++)
                if (flips >> k & 1)
                    sum ^= weights[at + k];
            if (sum == difference) {
                *place = (u16)at;
                *pattern = (u16)flips;
                return 1;
            }
        }
    }
    return 0;
}

static void flip(u8 *octets, u16 place, u16 pattern) {
    for (size k = 0; k < LIMIT; k++)
        if (pattern >> k & 1 && place + k < DATA_BITS)
            put_bit(octets, place + k, !bit_at(octets, place + k));
}

static u64 descramble(const u8 *octets, u64 history, u8 *out) {
    for (size bit = 0; bit < DATA_BITS; bit++) {
        u32 received = bit_at(octets, bit);
        put_bit(out, bit, received ^ (history >> 38 & 1) ^ (history >> 57 & 1));
        history = history << 1 | received;
    }
    return history & ((1ul << 58) - 1);
}

/* One more release with this status; that the history before it wasn't trusted makes no difference. */
static void count_release(struct zaytulobe_receiver *state, u8 status) {
    u32 *count = status == ZAYTULOBE_AGREES ? &state->sound : status == ZAYTULOBE_REPAIRED ? &state->repaired : &state->failed;
    *count = count_on(*count, 1);
}

static void await(struct zaytulobe_receiver *state, const struct heard *heard) {
    state->waiting = 1;
    state->command = heard->command;
    state->invalid = heard->invalid;
    state->own = (u16)heard->own;
    memcpy(state->octets, heard->octets, USER_OCTETS);
}

RECEIVE(plain_receive) {
    struct zaytulobe_received received = {0, 0, state};
    received.refusal = receive_refusal(mode, &state, lane_length, octets_length, statuses_length, commands_length, places_length,
        patterns_length, invalid_length);
    if (received.refusal)
        return received;
    struct zaytulobe_receiver *now = &received.state;
    size released = 0;
    for (size at = 0; at < lane_length; at += lane_octets(mode)) {
        struct heard heard;
        hear(mode, lane + at, &heard);
        if (now->waiting) {
            u32 difference = parity_of(mode, now->octets) ^ ((u32)now->own << parity_width(mode) | heard.parity);
            u16 place = 0, pattern = 0;
            u8 status = ZAYTULOBE_AGREES;
            if (difference) {
                status = has_fec(mode) && find_burst(difference, &place, &pattern) ? ZAYTULOBE_REPAIRED : ZAYTULOBE_FAILED;
                flip(now->octets, place, pattern);
            }
            now->history = descramble(now->octets, now->history, octets + USER_OCTETS * released);
            statuses[released] = now->trusted ? status : status + ZAYTULOBE_UNTRUSTED;
            commands[released] = now->command;
            places[released] = place;
            patterns[released] = pattern;
            invalid[released++] = now->invalid;
            now->trusted = status != ZAYTULOBE_FAILED;
            count_release(now, status);
        }
        await(now, &heard);
    }
    received.count = released;
    return received;
}

LISTING(plain_listing) {
    return list(plain_receive, capture, capture_length, text, text_length);
}
