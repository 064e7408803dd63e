/* The tuned baseline: 64 bits at once, parity by eight rows of 256 remainders, error trapping, packing by shifts; with fill bits,
   a block is ten octets, and the register moves by 17 bits at once. CRC-3 is folded, a group at a time. */
#include "baseline.h"

/* What is made for each mode by itself: the mode is a constant in it. Modes 4 and 5 stand in functions of their own, so as to take no
   registers from the others. */
#define FOR_EACH_MODE static inline __attribute__((always_inline))
#define APART static __attribute__((noinline))

static u32 crc12_rows[8][256], fec_rows[8][256];
static u8 crc3_row[128];

/* Of a block with fill bits, 40 bits a half, each half four pairs with an octet after each. Table 38: the pairs F0 to F2 of the
   upper half by PRBS[8:0]; of the lower half, which of F3 to F6 PRBS[2:0] leaves as they are, and what it puts in place of one. */
static u32 upper_pairs[512];
static u64 kept_lower[8], put_lower[8];

static u32 times_x(u32 width, u32 lower, u32 remainder) {
    u32 top = remainder >> (width - 1) & 1;
    return (remainder << 1 & ((1u << width) - 1)) ^ (top ? lower : 0);
}

/* Row j holds, for each octet, the remainder of that octet with j octets of zeros after it. */
static void make_rows(u32 (*rows)[256], u32 width, u32 lower) {
    for (u32 octet = 0; octet < 256; octet++) {
        u32 remainder = 0;
        for (int k = 7; k >= 0; k--)
            remainder = times_x(width, lower, remainder ^ (octet >> k & 1) << (width - 1));
        for (int row = 0; row < 8; row++) {
            rows[row][octet] = remainder;
            for (int k = 0; k < 8; k++)
                remainder = times_x(width, lower, remainder);
        }
    }
}

/* The remainder of each seven bits. */
static void make_crc3(void) {
    for (u32 bits = 0; bits < 128; bits++) {
        u32 remainder = 0;
        for (int k = 6; k >= 0; k--)
            remainder = times_x(3, CRC3_LOWER, remainder ^ (bits >> k & 1) << 2);
        crc3_row[bits] = (u8)remainder;
    }
}

/* Where a pair stands in its half: F2 and F6 before the last octet. */
static u32 pair_place(u32 pair) {
    return 8 + 10 * (pair < 3 ? 2 - pair : 6 - pair);
}

static void make_pairs(void) {
    static const u8 replaced[4] = {1, 2, 4, 5};
    for (u32 prbs = 0; prbs < 512; prbs++)
        for (u32 pair = 0; pair < 3; pair++) {
            u32 normally = prbs >> (3 + 2 * pair) & 3, instead = prbs & 4 ? 1 : 2;
            upper_pairs[prbs] |= (replaced[prbs & 3] == pair ? instead : normally) << pair_place(pair);
        }
    for (u32 prbs = 0; prbs < 8; prbs++) {
        u32 pair = replaced[prbs & 3];
        kept_lower[prbs] = pair < 3 ? 0xc0300c0300 : 0xc0300c0300 & ~(3ul << pair_place(pair));
        put_lower[prbs] = pair < 3 ? 0 : (prbs & 4 ? 1ul : 2ul) << pair_place(pair);
    }
}

__attribute__((constructor)) static void make_tables(void) {
    make_rows(crc12_rows, 12, CRC12_LOWER);
    make_rows(fec_rows, 26, FEC_LOWER);
    make_crc3();
    make_pairs();
}

static inline u64 load(const u8 *from) {
    u64 word;
    __builtin_memcpy(&word, from, 8);
    return __builtin_bswap64(word);
}

static inline void store(u8 *to, u64 word) {
    word = __builtin_bswap64(word);
    __builtin_memcpy(to, &word, 8);
}

static inline u32 next_remainder(const u32 (*rows)[256], u32 width, u32 remainder, u64 word) {
    u64 x = word ^ (u64)remainder << (64 - width);
    return rows[7][x >> 56] ^ rows[6][x >> 48 & 255] ^ rows[5][x >> 40 & 255] ^ rows[4][x >> 32 & 255] ^ rows[3][x >> 24 & 255] ^
        rows[2][x >> 16 & 255] ^ rows[1][x >> 8 & 255] ^ rows[0][x & 255];
}

/* CRC-3: modulo x^3+x+1 x^7 is 1, and so x^64 is x. To go on by a word is to go on by one bit, which leaves 71 bits of a group's eight
   words. These are folded to 64, to five times seven, and to seven. */
typedef unsigned __int128 sum;

static inline sum with_word(sum before, u64 word) {
    return before << 1 ^ word;
}

static inline u32 folded(sum eight) {
    u64 all = (u64)eight ^ (u64)(eight >> 64) << 1, five = all ^ all >> 35, two = five ^ five >> 7;
    return crc3_row[(two ^ two >> 14 ^ five >> 28) & 127];
}

static inline u32 group_parity(const u64 *words) {
    sum eight = 0;
    for (int k = 0; k < 8; k++)
        eight = with_word(eight, words[k]);
    return folded(eight);
}

/* Of the modes that have one group of 32 blocks; mode 5 has none. */
FOR_EACH_MODE u32 next_parity(u8 mode, u32 parity, u64 word) {
    if (mode == COMMAND)
        return 0;
    return has_fec(mode) ? next_remainder((const u32(*)[256])fec_rows, 26, parity, word)
                         : next_remainder((const u32(*)[256])crc12_rows, 12, parity, word);
}

static inline u32 sync_word(u8 mode, u32 parity, u32 command, u32 mark) {
    if (has_fec(mode))
        return (parity >> 4) << 10 | mark << 9 | (parity & 15) << 5 | 1;
    u32 code = (parity & 0xe00) << 20 | (parity & 0x1c0) << 19 | (parity & 0x38) << 18 | (parity & 7) << 17;
    u32 own = (command & 0x70) << 9 | (command & 8) << 8 | (command & 7) << 5;
    if (mode == COMMAND)
        code = (command & 0x70000) << 13 | (command & 0xe000) << 12 | (command & 0x1c00) << 11 | (command & 0x380) << 10;
    if (mode == CRC3) {
        code = parity << 29;
        own = (command & 0x70) << 21 | (command & 14) << 16 | (command & 1) << 11;
    }
    return code | own | mark << 9 | 0x11111501;
}

/* The parity that belongs to the multiblock before. */
static inline u32 parity_in(u8 mode, u32 word) {
    if (has_fec(mode))
        return (word >> 10) << 4 | (word >> 5 & 15);
    if (mode == CRC3 || mode == COMMAND)
        return mode == CRC3 ? word >> 29 : 0;
    return (word >> 20 & 0xe00) | (word >> 19 & 0x1c0) | (word >> 18 & 0x38) | (word >> 17 & 7);
}

/* The parity of the multiblock itself. */
static inline u32 own_in(u8 mode, u32 word) {
    return mode == CRC3 ? (word >> 15 & 0x1c0) | (word >> 10 & 0x38) | (word >> 5 & 7) : 0;
}

static inline u32 command_in(u8 mode, u32 word) {
    if (mode == CRC3)
        return (word >> 21 & 0x70) | (word >> 16 & 14) | (word >> 11 & 1);
    u32 low = has_fec(mode) ? 0 : (word >> 9 & 0x70) | (word >> 8 & 8) | (word >> 5 & 7);
    u32 high = (word >> 13 & 0x70000) | (word >> 12 & 0xe000) | (word >> 11 & 0x1c00) | (word >> 10 & 0x380);
    return mode == COMMAND ? high | low : low;
}

/* The header of the block whose bit stands highest in `sync`: 01 for 1, 10 for 0. */
static inline u64 header(u32 sync) {
    return 2 - (sync >> 31);
}

/* Four blocks without fill bits: 33 octets. */
static inline void put_narrow(u8 *lane, u32 sync, const u64 *blocks) {
    store(lane, header(sync) << 62 | blocks[0] >> 2);
    store(lane + 8, blocks[0] << 62 | header(sync << 1) << 60 | blocks[1] >> 4);
    store(lane + 16, blocks[1] << 60 | header(sync << 2) << 58 | blocks[2] >> 6);
    store(lane + 24, blocks[2] << 58 | header(sync << 3) << 56 | blocks[3] >> 8);
    lane[32] = (u8)blocks[3];
}

/* Four octets with room for a pair before each: the upper two move up by four bits, then of each two the upper one by two. */
static inline u64 spread(u64 four) {
    four += (four & 0xffff0000) * 15;
    return four + (four & 0xff000ff00) * 3;
}

/* F3 to F6 are PRBS[10:9] to PRBS[16:15]: four copies of these bits, 12 apart, have each pair in its place. */
static inline u64 lower_pairs(u32 fill) {
    return ((fill >> 7) * 0x1001001001 & kept_lower[fill & 7]) | put_lower[fill & 7];
}

/* A block with fill bits: ten octets. */
static inline void put_wide(u8 *lane, u32 sync, u64 block, u32 fill) {
    u64 upper = header(sync) << 38 | upper_pairs[fill & 511] | spread(block >> 32);
    u64 lower = lower_pairs(fill) | spread(block & 0xffffffff);
    u16 start = __builtin_bswap16((u16)(upper >> 24));
    __builtin_memcpy(lane, &start, 2);
    store(lane + 2, upper << 40 | lower);
}

/* The register 17 bits later: 14 of them by the old bits alone, the last three by the first of the new. */
static inline u32 next_fill(u32 fill) {
    u32 next = ~(fill ^ fill << 3) & 0x1ffff;
    return next ^ next >> 14;
}

static inline u32 put_four_wide(u8 *lane, u32 sync, const u64 *blocks, u32 fill) {
    for (int k = 0; k < 4; k++, fill = next_fill(fill))
        put_wide(lane + 10 * k, sync << k, blocks[k], fill);
    return fill;
}

static inline u64 scrambled(u64 user, u64 history) {
    u64 own = user ^ history << 25 ^ history << 6;
    return own ^ own >> 39 ^ own >> 58;
}

FOR_EACH_MODE void send_one(u8 mode, u32 e, struct zaytulobe_sender *state, const u8 *user, u32 command, u8 *lane) {
    u32 last = state->number + 1 == e, parity = 0, fill = state->fill;
    u32 sync = sync_word(mode, state->parity, command, last);
    u64 history = state->history;
    for (int four = 0; four < 8; four++, user += 32, lane += lane_octets(mode) / 8, sync <<= 4) {
        u64 blocks[4];
        for (int k = 0; k < 4; k++) {
            history = blocks[k] = scrambled(load(user + 8 * k), history);
            parity = next_parity(mode, parity, history);
        }
        if (gap(mode))
            fill = put_four_wide(lane, sync, blocks, fill);
        else
            put_narrow(lane, sync, blocks);
    }
    state->history = history & ((1ul << 58) - 1);
    state->parity = parity;
    state->number = last ? 0 : state->number + 1;
    state->fill = fill;
}

FOR_EACH_MODE void send_all(
    u8 mode, u32 e, struct zaytulobe_sender *state, const u8 *user, const u32 *commands, size count, u8 *lane) {
    struct zaytulobe_sender now = *state;
    for (size k = 0; k < count; k++)
        send_one(mode, e, &now, user + USER_OCTETS * k, commands[k], lane + lane_octets(mode) * k);
    *state = now;
}

/* With CRC-3 the first three headers of each group carry the remainder of the group before it. */
static inline void send_groups(u32 e, struct zaytulobe_sender *state, const u8 *user, u32 command, u8 *lane) {
    u32 last = state->number + 1 == e, parity = state->parity, sync = sync_word(CRC3, 0, command, last);
    u64 history = state->history;
    for (int group = 0; group < 4; group++, user += 64, lane += 66, sync <<= 8) {
        u64 blocks[8];
        sum eight = 0;
        for (int k = 0; k < 8; k++) {
            history = blocks[k] = scrambled(load(user + 8 * k), history);
            eight = with_word(eight, history);
        }
        put_narrow(lane, sync | parity << 29, blocks);
        put_narrow(lane + 33, sync << 4, blocks + 4);
        parity = folded(eight);
    }
    state->history = history & ((1ul << 58) - 1);
    state->parity = parity;
    state->number = last ? 0 : state->number + 1;
}

APART void send_crc3(u32 e, struct zaytulobe_sender *state, const u8 *user, const u32 *commands, size count, u8 *lane) {
    struct zaytulobe_sender now = *state;
    for (size k = 0; k < count; k++)
        send_groups(e, &now, user + USER_OCTETS * k, commands[k], lane + lane_octets(CRC3) * k);
    *state = now;
}

APART void send_command(u32 e, struct zaytulobe_sender *state, const u8 *user, const u32 *commands, size count, u8 *lane) {
    send_all(COMMAND, e, state, user, commands, count, lane);
}

SEND(tuned_send) {
    struct zaytulobe_sent sent = {0, 0, state};
    sent.refusal = send_refusal(mode, e, state, user_length, commands, commands_length, lane_length);
    if (sent.refusal)
        return sent;
    switch (mode) {
    case CRC12: send_all(CRC12, e, &sent.state, user, commands, commands_length, lane); break;
    case FEC: send_all(FEC, e, &sent.state, user, commands, commands_length, lane); break;
    case CRC12_80: send_all(CRC12_80, e, &sent.state, user, commands, commands_length, lane); break;
    case FEC_80: send_all(FEC_80, e, &sent.state, user, commands, commands_length, lane); break;
    case CRC3: send_crc3(e, &sent.state, user, commands, commands_length, lane); break;
    default: send_command(e, &sent.state, user, commands, commands_length, lane);
    }
    sent.count = commands_length;
    return sent;
}

/* The first and the second bits of headers, the latest lowest. */
struct headers {
    u32 first, second;
};

/* The data of four blocks without fill bits go to `words`. */
static inline struct headers hear_narrow(const u8 *lane, u64 *words, struct headers before) {
    u64 a = load(lane), b = load(lane + 8), c = load(lane + 16), d = load(lane + 24);
    words[0] = a << 2 | b >> 62;
    words[1] = b << 4 | c >> 60;
    words[2] = c << 6 | d >> 58;
    words[3] = d << 8 | lane[32];
    u32 first = (u32)((a >> 63) << 3 | (b >> 61 & 1) << 2 | (c >> 59 & 1) << 1 | (d >> 57 & 1));
    u32 second = (u32)((a >> 62 & 1) << 3 | (b >> 60 & 1) << 2 | (c >> 58 & 1) << 1 | (d >> 56 & 1));
    return (struct headers){before.first << 4 | first, before.second << 4 | second};
}

/* Four octets of a half without the pair before each. */
static inline u64 gathered(u64 half) {
    u64 twos = (half & 0xff000ff) | (half >> 2 & 0xff000ff00);
    return (twos & 0xffff) | (twos >> 4 & 0xffff0000);
}

/* The data of four blocks with fill bits, ten octets each. */
static inline struct headers hear_wide(const u8 *lane, u64 *words, struct headers before) {
    for (int k = 0; k < 4; k++, lane += 10) {
        u16 start;
        __builtin_memcpy(&start, lane, 2);
        start = __builtin_bswap16(start);
        u64 rest = load(lane + 2);
        words[k] = gathered((u64)start << 24 | rest >> 40) << 32 | gathered(rest);
        before.first = before.first << 1 | start >> 15;
        before.second = before.second << 1 | (start >> 14 & 1);
    }
    return before;
}

/* The data of 32 blocks go to `words`; block 0 stands highest in the headers' bits. */
FOR_EACH_MODE struct headers hear(u8 mode, const u8 *lane, u64 *words) {
    struct headers headers = {0, 0};
    for (int four = 0; four < 8; four++, lane += lane_octets(mode) / 8, words += 4)
        headers = gap(mode) ? hear_wide(lane, words, headers) : hear_narrow(lane, words, headers);
    return headers;
}

static inline u16 reversed(u32 bits, u32 width) {
    u32 turned = 0;
    for (u32 k = 0; k < width; k++)
        turned |= (bits >> (width - 1 - k) & 1) << k;
    return (u16)turned;
}

/* Error trapping: the difference divided by x from the last place on, until only the nine lowest bits are left. */
static int trap(u32 difference, u16 *place, u16 *pattern) {
    if (difference < 256) {
        u32 width = 32 - (u32)__builtin_clz(difference);
        *place = (u16)(2074 - width);
        *pattern = reversed(difference, width);
        return 1;
    }
    for (int at = 2065; at >= 0; at--) {
        if (difference - 256 < 256) {
            *place = (u16)at;
            *pattern = reversed(difference, 9);
            return 1;
        }
        difference = difference >> 1 ^ (-(difference & 1) & ((1u << 26 | FEC_LOWER) >> 1));
    }
    return 0;
}

static inline void flip(u64 *words, u32 place, u32 pattern) {
    for (u32 at = place; pattern; at++, pattern >>= 1)
        if (pattern & 1 && at < DATA_BITS)
            words[at / 64] ^= 1ul << (63 - at % 64);
}

/* Of all groups, the first one's remainder highest. */
FOR_EACH_MODE u32 parity_of(u8 mode, const u64 *words) {
    u32 parity = 0;
    if (mode == CRC3)
        return group_parity(words) << 9 | group_parity(words + 8) << 6 | group_parity(words + 16) << 3 | group_parity(words + 24);
    for (int k = 0; k < BLOCKS; k++)
        parity = next_parity(mode, parity, words[k]);
    return parity;
}

struct outputs {
    u8 *octets, *statuses;
    u32 *commands;
    u16 *places, *patterns;
    u8 *invalid;
};

/* The waiting multiblock stays in 32 words from turn to turn; two sets of words change places. Releases are counted by their status
   without the part for an untrusted history, and added to the state's counts at the end. */
FOR_EACH_MODE size receive_all(u8 mode, struct zaytulobe_receiver *state, const u8 *lane, size count, struct outputs out) {
    u64 both[2][BLOCKS], *words = both[0], *next = both[1], history = state->history;
    u32 command = state->command, trusted = state->trusted, own = state->own, of_status[3] = {0};
    u8 invalid = state->invalid;
    size released = 0;
    if (state->waiting)
        for (int k = 0; k < BLOCKS; k++)
            words[k] = load(state->octets + 8 * k);
    for (size turn = 0; turn < count; turn++, lane += lane_octets(mode)) {
        struct headers headers = hear(mode, lane, next);
        u32 sync = ~headers.first & headers.second, equal = ~(headers.first ^ headers.second);
        if (turn || state->waiting) {
            u32 difference = parity_of(mode, words) ^ parity_in(mode, sync), status = ZAYTULOBE_AGREES;
            if (mode == CRC3)
                difference ^= own << 3;
            u16 place = 0, pattern = 0;
            if (difference) {
                status = has_fec(mode) && trap(difference, &place, &pattern) ? ZAYTULOBE_REPAIRED : ZAYTULOBE_FAILED;
                flip(words, place, pattern);
            }
            u8 *octets = out.octets + USER_OCTETS * released;
            for (int k = 0; k < BLOCKS; k++) {
                u64 word = words[k];
                store(octets + 8 * k, word ^ word >> 39 ^ word >> 58 ^ history << 25 ^ history << 6);
                history = word;
            }
            out.statuses[released] = (u8)(trusted ? status : status + ZAYTULOBE_UNTRUSTED);
            out.commands[released] = command;
            out.places[released] = place;
            out.patterns[released] = pattern;
            out.invalid[released++] = invalid;
            trusted = status != ZAYTULOBE_FAILED;
            of_status[status]++;
        }
        command = command_in(mode, sync) + (command_in(mode, equal) ? (u32)ZAYTULOBE_COMMAND_FLAG(mode) : 0);
        own = own_in(mode, sync);
        invalid = (u8)__builtin_popcount(equal);
        u64 *were = words;
        words = next;
        next = were;
    }
    for (int k = 0; k < BLOCKS; k++)
        store(state->octets + 8 * k, words[k]);
    state->history = history & ((1ul << 58) - 1);
    state->command = command;
    state->invalid = invalid;
    state->own = (u16)own;
    state->sound = count_on(state->sound, of_status[ZAYTULOBE_AGREES]);
    state->repaired = count_on(state->repaired, of_status[ZAYTULOBE_REPAIRED]);
    state->failed = count_on(state->failed, of_status[ZAYTULOBE_FAILED]);
    state->trusted = (u8)trusted;
    state->waiting = 1;
    return released;
}

APART size receive_crc3(struct zaytulobe_receiver *state, const u8 *lane, size count, struct outputs out) {
    return receive_all(CRC3, state, lane, count, out);
}

APART size receive_command(struct zaytulobe_receiver *state, const u8 *lane, size count, struct outputs out) {
    return receive_all(COMMAND, state, lane, count, out);
}

RECEIVE(tuned_receive) {
    struct zaytulobe_received received = {0, 0, state};
    received.refusal = receive_refusal(mode, &state, lane_length, octets_length, statuses_length, commands_length, places_length,
        patterns_length, invalid_length);
    if (received.refusal || lane_length == 0)
        return received;
    struct outputs out = {octets, statuses, commands, places, patterns, invalid};
    size count = lane_length / lane_octets(mode);
    switch (mode) {
    case CRC12: received.count = receive_all(CRC12, &received.state, lane, count, out); break;
    case FEC: received.count = receive_all(FEC, &received.state, lane, count, out); break;
    case CRC12_80: received.count = receive_all(CRC12_80, &received.state, lane, count, out); break;
    case FEC_80: received.count = receive_all(FEC_80, &received.state, lane, count, out); break;
    case CRC3: received.count = receive_crc3(&received.state, lane, count, out); break;
    default: received.count = receive_command(&received.state, lane, count, out);
    }
    return received;
}

LISTING(tuned_listing) {
    return list(tuned_receive, capture, capture_length, text, text_length);
}
