/* What the runs share: lanes that the sender makes, flips of their bits, and what the receiver makes of them.
   Where a bit stands: document 01, "From octets to lane bits" and "Parity"; of CRC-3 Tables 43 and 44 of the standard. */
#ifndef LANE_H
#define LANE_H

#include "../bulk/short.h"

int printf(const char *format, ...);
int memcmp(const void *one, const void *other, zaytulobe_size count);
void *memset(void *to, int value, zaytulobe_size count);
_Noreturn void exit(int status);

/* In multiblocks: the longest lane of a run, and more than a call takes. */
enum { LONGEST_LANE = 1320, LONGEST_CALL = MOST_MULTIBLOCKS + 2 };
enum { UNTOUCHED = 0xEE };

/* Of CRC-3: the groups of a multiblock, and of a group its blocks and the bits of its data. */
enum { GROUPS = 4, GROUP_BLOCKS = BLOCKS / GROUPS, GROUP_BITS = DATA_BITS / GROUPS };

static u8 user[USER_OCTETS * LONGEST_LANE], lane[MOST_LANE_OCTETS * LONGEST_LANE];
static u32 sent_commands[LONGEST_LANE];

/* What the receiver is lent. */
struct releases {
    u8 octets[USER_OCTETS * LONGEST_CALL];
    u8 statuses[LONGEST_CALL];
    u32 commands[LONGEST_CALL];
    u16 places[LONGEST_CALL];
    u16 patterns[LONGEST_CALL];
    u8 invalid[LONGEST_CALL];
};

static inline const char *name_of(u8 mode) {
    static const char *const names[MODES] = {"CRC-12", "FEC", "CRC-12-80", "FEC-80", "CRC-3", "CMD"};
    return names[mode];
}

static inline void stop(const char *why) {
    printf("stopped: %s\n", why);
    exit(1);
}

/* The lane that a fresh sender makes of the first user octets, so many multiblocks, in the longest calls; its end state. Commands of
   7 bits go up by 37, those of 19 bits by a number that ends in the same 7. */
static inline struct zaytulobe_sender send_user(u8 mode, u32 e, size multiblocks) {
    struct zaytulobe_sender state = zaytulobe_fresh_sender();
    size most = most_multiblocks(mode), octets = lane_octets(mode);
    for (size k = 0; k < multiblocks; k++)
        sent_commands[k] = (u32)(0x55aa5 * k % (size)(ZAYTULOBE_MOST_COMMAND(mode) + 1));
    for (size start = 0; start < multiblocks; start += most) {
        size left = multiblocks - start, count = left < most ? left : most;
        struct zaytulobe_sent sent = zaytulobe_send(
            mode, e, state, user + USER_OCTETS * start, USER_OCTETS * count, sent_commands + start, count,
            lane + octets * start, octets * count);
        if (sent.refusal != ZAYTULOBE_ACCEPTED || sent.count != count)
            stop("the sender refused");
        state = sent.state;
    }
    return state;
}

/* Such a lane of user octets without a plan. */
static inline struct zaytulobe_sender make_lane(u8 mode, u32 e, size multiblocks) {
    for (size k = 0; k < USER_OCTETS * multiblocks; k++)
        user[k] = (u8)(k * k / 5 + k / USER_OCTETS);
    return send_user(mode, e, multiblocks);
}

static inline u8 lane_bit(size bit) {
    return lane[bit / 8] >> (7 - bit % 8) & 1;
}

static inline void flip_bit(size bit) {
    lane[bit / 8] ^= (u8)(128 >> bit % 8);
}

/* Where the header of a block of a multiblock stands. */
static inline size header_place(u8 mode, size multiblock, size block) {
    return multiblock_bits(mode) * multiblock + block_bits(mode) * block;
}

/* The header gets its two bits: the first times 2, plus the second. */
static inline void put_header(u8 mode, size multiblock, size block, u8 bits) {
    size place = header_place(mode, multiblock, block);
    for (size k = 0; k < 2; k++)
        if (lane_bit(place + k) != (bits >> (1 - k) & 1))
            flip_bit(place + k);
}

/* Where a codeword position stands on the lane: a data bit behind its block's header; a parity bit is carried by both bits of
   a header of the next multiblock, and this is the first of them. Of CRC-3 the parities of the four groups follow the data in their
   order, B C D A, each in the headers of the three blocks after its group: those of A are in the next multiblock. */
static inline size place_of(u8 mode, size multiblock, size position) {
    size rank = position - DATA_BITS;
    if (position < DATA_BITS)
        return multiblock_bits(mode) * multiblock + data_place(mode, position);
    if (mode == CRC3)
        return header_place(mode, multiblock, GROUP_BLOCKS * (rank / 3 + 1) + rank % 3);
    return header_place(mode, multiblock + 1, has_fec(mode) ? rank + (rank >= 22) : rank + rank / 3);
}

/* Flips every fill bit of so many multiblocks from one on. */
static inline void flip_fill(u8 mode, size first, size multiblocks) {
    for (size block = BLOCKS * first; block < BLOCKS * (first + multiblocks); block++)
        for (size k = 0; k < 7 * gap(mode); k++)
            flip_bit(block_bits(mode) * block + fill_place(mode, k));
}

/* The register of the fill bits after a block: 17 bits more, each 1 plus the bits 17 and 14 before it (document 02, request 2). */
static inline u32 next_fill(u32 fill) {
    for (int k = 0; k < 17; k++)
        fill = (fill << 1 | (1 ^ (fill >> 16 & 1) ^ (fill >> 13 & 1))) & 0x1ffff;
    return fill;
}

/* Flips what a codeword position carries: a data bit, or both bits of a header. */
static inline void flip_position(u8 mode, size multiblock, size position) {
    size place = place_of(mode, multiblock, position);
    flip_bit(place);
    if (position >= DATA_BITS)
        flip_bit(place + 1);
}

/* Receives so many multiblocks of the lane from one on; release 0 of the call goes to place `at` of what is lent. */
static inline struct zaytulobe_received receive(
    u8 mode, struct zaytulobe_receiver state, size first, size count, struct releases *to, size at) {
    size room = LONGEST_CALL - at;
    return zaytulobe_receive(
        mode, state, lane + lane_octets(mode) * first, lane_octets(mode) * count, to->octets + USER_OCTETS * at, USER_OCTETS * room,
        to->statuses + at, room, to->commands + at, room, to->places + at, room, to->patterns + at, room,
        to->invalid + at, room);
}

static inline void print_span(const char *before, size first, size last) {
    printf(first == last ? "%s%lu" : last == first + 1 ? "%s%lu, %lu" : "%s%lu to %lu", before, first, last);
}

/* Which octets of a release differ from those sent in some multiblock. */
static inline void print_octets(const struct releases *from, size release, size multiblock) {
    const u8 *come = from->octets + USER_OCTETS * release, *sent = user + USER_OCTETS * multiblock;
    size wrong = 0;
    for (size k = 0; k < USER_OCTETS; k++) {
        size start = k;
        while (k < USER_OCTETS && come[k] != sent[k])
            k++;
        if (k > start)
            print_span(wrong++ ? ", " : "wrong octets ", start, k - 1);
    }
    if (wrong == 0)
        printf("octets as sent");
}

static inline void print_release(const struct releases *from, size release, size multiblock) {
    printf("status %d", from->statuses[release]);
    if (from->places[release] != 0 || from->patterns[release] != 0)
        printf(", place %d, pattern %d", from->places[release], from->patterns[release]);
    printf(", ");
    print_octets(from, release, multiblock);
}

#endif
