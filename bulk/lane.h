/* Seeded lanes and their damage: second/src/cases.rs and damaged.rs say the rules. */
#ifndef LANE_H
#define LANE_H

#include "draw.h"

enum { MOST_CALLS = 64, LONG_BURST = 14, LONG_STRETCH = 96 };

static struct {
    u8 mode;
    u32 e;
    size multiblocks;
    size kind;
    size lane_length;
} drawn;
static u8 user[USER_OCTETS * MOST], lane[MOST_LANE_OCTETS * MOST];
static u32 commands[MOST];

/* How many multiblocks each call takes. */
static size calls[MOST_CALLS], call_count;

static void draw_input(size multiblocks) {
    drawn.multiblocks = multiblocks;
    drawn.lane_length = lane_octets(drawn.mode) * multiblocks;
    draw_octets(user, USER_OCTETS * multiblocks);
    for (size k = 0; k < multiblocks; k++)
        commands[k] = has_fec(drawn.mode) ? 0 : (u32)draw(ZAYTULOBE_COMMAND_FLAG(drawn.mode));
}

/* The lane that a fresh sender makes of the input in one call; of zeros if it is refused, which then shows. */
static void send_input(void) {
    size n = drawn.multiblocks;
    memset(lane, 0, drawn.lane_length);
    zaytulobe_send(drawn.mode, drawn.e, zaytulobe_fresh_sender(), user, USER_OCTETS * n, commands, n, lane, drawn.lane_length);
}

static u8 draw_mode(void) {
    return (u8)draw(MODES);
}

static void draw_settings(void) {
    static const u32 extents[4] = {1, 2, 3, 256};
    drawn.mode = draw_mode();
    drawn.e = extents[draw(4)];
}

static void draw_calls(void) {
    call_count = 0;
    for (size left = drawn.multiblocks; left > 0;) {
        size takes = draw(4);
        calls[call_count] = takes < left ? takes : left;
        left -= calls[call_count++];
    }
}

static void flip(size bit) {
    lane[bit / 8] ^= (u8)(128 >> bit % 8);
}

static void draw_bits(size first, size last) {
    for (size bit = first; bit <= last; bit++)
        if (bit == first || bit == last || draw(2) == 1)
            flip(bit);
}

static void draw_burst_of(size length, size lane_bits) {
    size first = draw(lane_bits - length + 1);
    draw_bits(first, first + length - 1);
}

static void draw_burst(size at_most, size lane_bits) {
    size length = 1 + draw(at_most);
    draw_burst_of(length, lane_bits);
}

/* Bursts of at most so many lane bits are found, or mended too; in mode 5, where none is, a number all the same. */
static size burst_limit(void) {
    switch (drawn.mode) {
    case FEC:
    case FEC_80: return 9;
    case CRC3: return 3;
    default: return 12;
    }
}

static void draw_far_bursts(size lane_bits) {
    size bits = multiblock_bits(drawn.mode), clear_bits = 2 * bits, first = draw(clear_bits);
    for (;;) {
        size last = first + draw(burst_limit());
        if (last >= lane_bits)
            return;
        draw_bits(first, last);
        first = last + 1 + clear_bits;
        first += draw(bits);
    }
}

/* The header of a block becomes 11 or 00. */
static void put_invalid(size block, int ones) {
    size bit = block_bits(drawn.mode) * block;
    u8 both = (u8)(192 >> bit % 8);
    if (ones)
        lane[bit / 8] |= both;
    else
        lane[bit / 8] &= (u8)~both;
}

static void draw_invalid(size block) {
    put_invalid(block, draw(2) == 1);
}

static void draw_header(size blocks) {
    size block = draw(blocks);
    draw_invalid(block);
}

static void draw_stretch(size blocks) {
    size first = draw(blocks);
    size end = first + 1 + draw(LONG_STRETCH);
    size pair = draw(3);
    for (size block = first; block < end && block < blocks; block++)
        if (pair == 2)
            draw_invalid(block);
        else
            put_invalid(block, pair == 1);
}

static void draw_noise(size blocks) {
    size noise = 1 + draw(8);
    for (size block = 0; block < blocks; block++)
        if (draw(noise) == 0)
            draw_invalid(block);
}

static void draw_octet(void) {
    size place = draw(drawn.lane_length);
    lane[place] = (u8)draw(256);
}

/* Whether the header of a block carries parity: Tables 41, 43, 45 and 47. */
static int carries_parity(size block) {
    switch (drawn.mode) {
    case FEC:
    case FEC_80: return block < 27 && block != 22;
    case CRC3: return block % 8 < 3;
    case COMMAND: return 0;
    default: return block < 16 && block % 4 != 3;
    }
}

static void flip_parities(void) {
    size bits = block_bits(drawn.mode);
    for (size block = BLOCKS * (drawn.multiblocks / 2); block < BLOCKS * drawn.multiblocks; block++)
        if (carries_parity(block % BLOCKS)) {
            flip(bits * block);
            flip(bits * block + 1);
        }
}

/* Flips each fill bit of the lane, in order, that the choice falls on. */
static void flip_fill(int (*chosen)(size noise), size noise) {
    for (size block = 0; block < BLOCKS * drawn.multiblocks; block++)
        for (size k = 0; k < 7 * gap(drawn.mode); k++)
            if (chosen(noise))
                flip(block_bits(drawn.mode) * block + fill_place(drawn.mode, k));
}

static int one_in(size noise) {
    return draw(noise) == 0;
}

static int every_one(size noise) {
    (void)noise;
    return 1;
}

static void damage(void) {
    size lane_bits = 8 * drawn.lane_length, blocks = BLOCKS * drawn.multiblocks;
    switch (drawn.kind) {
    case 1: draw_burst(burst_limit(), lane_bits); break;
    case 2: for (size left = 1 + draw(4); left > 0; left--) draw_burst(LONG_BURST, lane_bits); break;
    case 3: for (size left = 1 + draw(8); left > 0; left--) draw_header(blocks); break;
    case 4: for (size left = 1 + draw(64); left > 0; left--) draw_octet(); break;
    case 5: flip_parities(); break;
    case 6: draw_far_bursts(lane_bits); break;
    case 7: draw_octets(lane, drawn.lane_length); break;
    case 8: for (size left = 1 + draw(3); left > 0; left--) draw_stretch(blocks); break;
    case 9: draw_noise(blocks); break;
    case 10: flip_fill(one_in, 1 + draw(8)); break;
    case 11: for (size left = 1 + draw(4); left > 0; left--) draw_burst_of(burst_limit() + 1, lane_bits); break;
    }
}

static void draw_damaged(void) {
    draw_settings();
    draw_input(2 + draw(6));
    send_input();
    drawn.kind = draw(12);
    damage();
}

#endif
