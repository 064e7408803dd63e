/* The types and numbers of include/zaytulobe.h under short names, for the C programs of bulk/, runs/ and bench/. What goes by the
   mode is asked of the header: nothing here knows how wide a mode's blocks are. */
#ifndef SHORT_H
#define SHORT_H

#include "zaytulobe.h"

typedef zaytulobe_u8 u8;
typedef zaytulobe_u16 u16;
typedef zaytulobe_u32 u32;
typedef zaytulobe_u64 u64;
typedef zaytulobe_size size;

enum {
    CRC12 = ZAYTULOBE_CRC12,
    FEC = ZAYTULOBE_FEC,
    CRC12_80 = ZAYTULOBE_CRC12_80,
    FEC_80 = ZAYTULOBE_FEC_80,
    CRC3 = ZAYTULOBE_CRC3,
    COMMAND = ZAYTULOBE_COMMAND,
    MODES = 6,
    BLOCKS = ZAYTULOBE_BLOCKS,
    USER_OCTETS = ZAYTULOBE_USER_OCTETS,
    DATA_BITS = 8 * USER_OCTETS,
    HEAD = ZAYTULOBE_CAPTURE_HEAD,
    /* Of any mode: lane octets of a multiblock, and multiblocks of a call. */
    MOST_LANE_OCTETS = ZAYTULOBE_LANE_OCTETS(CRC12_80),
    MOST_MULTIBLOCKS = ZAYTULOBE_MOST_MULTIBLOCKS(CRC12)
};

static inline int has_fec(u8 mode) {
    return ZAYTULOBE_HAS_FEC(mode);
}

static inline size block_bits(u8 mode) {
    return ZAYTULOBE_BLOCK_BITS(mode);
}

static inline size lane_octets(u8 mode) {
    return ZAYTULOBE_LANE_OCTETS(mode);
}

static inline size multiblock_bits(u8 mode) {
    return 8 * lane_octets(mode);
}

static inline size most_multiblocks(u8 mode) {
    return ZAYTULOBE_MOST_MULTIBLOCKS(mode);
}

/* The fill bits before each of a block's octets but the first: what is left of the block after its header and 64 bits of data. */
static inline size gap(u8 mode) {
    return (block_bits(mode) - 2 - 64) / 7;
}

/* Where a bit of the data of a multiblock stands on its lane: after the header of its block, and after the gaps before its octet. */
static inline size data_place(u8 mode, size position) {
    return block_bits(mode) * (position / 64) + 2 + position % 64 + gap(mode) * (position % 64 / 8);
}

/* Where fill bit k of a block stands in it: there is a gap after each octet but the last. */
static inline size fill_place(u8 mode, size k) {
    return 10 + (8 + gap(mode)) * (k / gap(mode)) + k % gap(mode);
}

#endif
