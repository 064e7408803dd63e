/* The sender at the edges of what it accepts: document 01, "From octets to lane bits" for sync words and states, "Numbers of
   refusal", and the last lines of "The dozen to prove"; with fill bits document 02, request 2, and Table 38 of the standard; of modes
   4 and 5 request 5, and Tables 43, 44 and 47. User octets are 165 each but in lanes that are cut, and where a line says otherwise; a
   sync word is that of the first multiblock, in hexadecimal. A line says what was tried and what came out; sender.txt has the lines
   expected. */
#include "lane.h"

enum { CUT = 8 };
static u8 parts[MOST_LANE_OCTETS * CUT];

static struct zaytulobe_sender of(u64 history, u32 parity, u32 number) {
    struct zaytulobe_sender state = {history, parity, number, 0};
    return state;
}

static struct zaytulobe_sender of_fill(u32 fill) {
    struct zaytulobe_sender state = {0, 0, 0, fill};
    return state;
}

static int same_state(struct zaytulobe_sender one, struct zaytulobe_sender other) {
    return one.history == other.history && one.parity == other.parity && one.number == other.number && one.fill == other.fill;
}

static int untouched_from(size octets) {
    for (size k = octets; k < sizeof lane; k++)
        if (lane[k] != UNTOUCHED)
            return 0;
    return 1;
}

/* The bits that the headers of the lane's first multiblock carry: 01 carries 1. */
static u32 first_word(u8 mode) {
    u32 word = 0;
    for (size block = 0; block < BLOCKS; block++)
        word = 2 * word + lane_bit(header_place(mode, 0, block) + 1);
    return word;
}

static void print_sent(u8 mode, struct zaytulobe_sent sent) {
    printf("accepted, count %lu, ", sent.count);
    printf("history %lu, parity %u, number %u, ", sent.state.history, sent.state.parity, sent.state.number);
    if (gap(mode) != 0 || sent.state.fill != 0)
        printf("fill %u, ", sent.state.fill);
    if (sent.count != 0)
        printf("sync word %08X, ", first_word(mode));
    printf(!untouched_from(lane_octets(mode) * sent.count) ? "MORE WRITTEN\n" : sent.count ? "no more written\n" : "nothing written\n");
}

static void print_refused(struct zaytulobe_sent sent, struct zaytulobe_sender given) {
    printf("refused %d, count %lu, ", sent.refusal, sent.count);
    printf(same_state(sent.state, given) ? "the state given, " : "ANOTHER STATE, ");
    printf(untouched_from(0) ? "nothing written\n" : "SOMETHING WRITTEN\n");
}

/* A call with some user octets, some commands, of which the first is given, and a lane of some octets. */
static void try_call(
    const char *label, u8 mode, u32 e, struct zaytulobe_sender state, size octets, size commands, u32 command, size room) {
    memset(user, 165, sizeof user);
    memset(sent_commands, 0, sizeof sent_commands);
    memset(lane, UNTOUCHED, sizeof lane);
    sent_commands[0] = command;
    struct zaytulobe_sent sent = zaytulobe_send(mode, e, state, user, octets, sent_commands, commands, lane, room);
    printf("%s: ", label);
    if (sent.refusal == ZAYTULOBE_ACCEPTED)
        print_sent(mode, sent);
    else
        print_refused(sent, state);
}

static void run_counts(void) {
    struct zaytulobe_sender fresh = zaytulobe_fresh_sender();
    try_call("CRC-12, 0 multiblocks", CRC12, 4, fresh, 0, 0, 0, 0);
    try_call("FEC, 0 multiblocks, after others", FEC, 4, of(5, 6, 3), 0, 0, 0, 0);
    try_call("CRC-12, 1 multiblock", CRC12, 4, fresh, 256, 1, 0, 264);
    try_call("FEC, 1 multiblock", FEC, 4, fresh, 256, 1, 0, 264);
    try_call("CRC-12, 240 multiblocks, E 7", CRC12, 7, fresh, 61440, 240, 0, 63360);
    try_call("FEC, 240 multiblocks, E 7", FEC, 7, fresh, 61440, 240, 0, 63360);
    try_call("CRC-12, 241 multiblocks, E 7", CRC12, 7, fresh, 61696, 241, 0, 63624);
    try_call("FEC, 241 multiblocks, E 7", FEC, 7, fresh, 61696, 241, 0, 63624);
}

static void run_counts_80(void) {
    struct zaytulobe_sender fresh = zaytulobe_fresh_sender(), others = {5, 6, 3, 7};
    try_call("CRC-12-80, 0 multiblocks", CRC12_80, 4, fresh, 0, 0, 0, 0);
    try_call("FEC-80, 0 multiblocks, after others", FEC_80, 4, others, 0, 0, 0, 0);
    try_call("CRC-12-80, 1 multiblock", CRC12_80, 4, fresh, 256, 1, 0, 320);
    try_call("FEC-80, 1 multiblock", FEC_80, 4, fresh, 256, 1, 0, 320);
    try_call("CRC-12-80, 200 multiblocks, E 7", CRC12_80, 7, fresh, 51200, 200, 0, 64000);
    try_call("FEC-80, 200 multiblocks, E 7", FEC_80, 7, fresh, 51200, 200, 0, 64000);
    try_call("CRC-12-80, 201 multiblocks, E 7", CRC12_80, 7, fresh, 51456, 201, 0, 64320);
    try_call("FEC-80, 201 multiblocks, E 7", FEC_80, 7, fresh, 51456, 201, 0, 64320);
}

static void run_counts_4_and_5(void) {
    struct zaytulobe_sender fresh = zaytulobe_fresh_sender();
    try_call("CRC-3, 0 multiblocks", CRC3, 4, fresh, 0, 0, 0, 0);
    try_call("CMD, 0 multiblocks", COMMAND, 4, fresh, 0, 0, 0, 0);
    try_call("CRC-3, 0 multiblocks, after others", CRC3, 4, of(5, 6, 3), 0, 0, 0, 0);
    try_call("CMD, 0 multiblocks, after others", COMMAND, 4, of(5, 0, 3), 0, 0, 0, 0);
    try_call("CRC-3, 1 multiblock", CRC3, 4, fresh, 256, 1, 0, 264);
    try_call("CMD, 1 multiblock", COMMAND, 4, fresh, 256, 1, 0, 264);
    try_call("CRC-3, 240 multiblocks, E 7", CRC3, 7, fresh, 61440, 240, 0, 63360);
    try_call("CMD, 240 multiblocks, E 7", COMMAND, 7, fresh, 61440, 240, 0, 63360);
    try_call("CRC-3, 241 multiblocks, E 7", CRC3, 7, fresh, 61696, 241, 0, 63624);
    try_call("CMD, 241 multiblocks, E 7", COMMAND, 7, fresh, 61696, 241, 0, 63624);
}

/* In modes 2 and 3 the register is any of 17 bits but all ones, in the others it is 0. */
static void run_fills(void) {
    try_call("CRC-12-80, fill 1", CRC12_80, 4, of_fill(1), 256, 1, 0, 320);
    try_call("CRC-12-80, fill 2^17 - 2", CRC12_80, 4, of_fill(131070), 256, 1, 0, 320);
    try_call("CRC-12-80, fill 2^17 - 1", CRC12_80, 4, of_fill(131071), 256, 1, 0, 320);
    try_call("CRC-12-80, fill 2^17", CRC12_80, 4, of_fill(131072), 256, 1, 0, 320);
    try_call("FEC-80, fill 2^17 - 2", FEC_80, 4, of_fill(131070), 256, 1, 0, 320);
    try_call("FEC-80, fill 2^17 - 1", FEC_80, 4, of_fill(131071), 256, 1, 0, 320);
    try_call("FEC-80, fill 2^32 - 1", FEC_80, 4, of_fill(0xffffffff), 256, 1, 0, 320);
    try_call("FEC-80, fill 2^17 - 1, 0 multiblocks", FEC_80, 4, of_fill(131071), 0, 0, 0, 0);
    try_call("CRC-12, fill 1", CRC12, 4, of_fill(1), 256, 1, 0, 264);
    try_call("FEC, fill 1", FEC, 4, of_fill(1), 256, 1, 0, 264);
    try_call("FEC, fill 2^17 - 2, 0 multiblocks", FEC, 4, of_fill(131070), 0, 0, 0, 0);
    try_call("CRC-3, fill 1", CRC3, 4, of_fill(1), 256, 1, 0, 264);
    try_call("CMD, fill 1", COMMAND, 4, of_fill(1), 256, 1, 0, 264);
}

static void run_modes(void) {
    struct zaytulobe_sender fresh = zaytulobe_fresh_sender();
    try_call("mode 6", 6, 4, fresh, 256, 1, 0, 264);
    try_call("mode 255", 255, 4, fresh, 256, 1, 0, 264);
    try_call("CRC-12, E 0", CRC12, 0, fresh, 256, 1, 0, 264);
    try_call("CRC-12, E 1, which ends with each multiblock", CRC12, 1, fresh, 256, 1, 0, 264);
    try_call("FEC, E 1, which ends with each multiblock", FEC, 1, fresh, 256, 1, 0, 264);
    try_call("CRC-3, E 1, which ends with each multiblock", CRC3, 1, fresh, 256, 1, 0, 264);
    try_call("CMD, E 1, which ends with each multiblock", COMMAND, 1, fresh, 256, 1, 0, 264);
    try_call("CRC-12, E 256, number 254", CRC12, 256, of(0, 0, 254), 256, 1, 0, 264);
    try_call("CRC-12, E 256, number 255, the last", CRC12, 256, of(0, 0, 255), 256, 1, 0, 264);
    try_call("CRC-12, E 257", CRC12, 257, fresh, 256, 1, 0, 264);
}

static void run_states(void) {
    u64 most = 0x3ffffffffffffff;
    try_call("CRC-12, history 2^58 - 1", CRC12, 4, of(most, 0, 0), 256, 1, 0, 264);
    try_call("CRC-12, history 2^58", CRC12, 4, of(most + 1, 0, 0), 256, 1, 0, 264);
    try_call("CRC-12, parity 2^12 - 1", CRC12, 4, of(0, 0xfff, 0), 256, 1, 0, 264);
    try_call("CRC-12, parity 2^12", CRC12, 4, of(0, 0x1000, 0), 256, 1, 0, 264);
    try_call("FEC, parity 2^12", FEC, 4, of(0, 0x1000, 0), 256, 1, 0, 264);
    try_call("FEC, parity 2^26 - 1", FEC, 4, of(0, 0x3ffffff, 0), 256, 1, 0, 264);
    try_call("FEC, parity 2^26", FEC, 4, of(0, 0x4000000, 0), 256, 1, 0, 264);
    try_call("CRC-12-80, parity 2^12", CRC12_80, 4, of(0, 0x1000, 0), 256, 1, 0, 320);
    try_call("FEC-80, parity 2^12", FEC_80, 4, of(0, 0x1000, 0), 256, 1, 0, 320);
    try_call("FEC-80, parity 2^26", FEC_80, 4, of(0, 0x4000000, 0), 256, 1, 0, 320);
    try_call("CRC-3, history 2^58 - 1", CRC3, 4, of(most, 0, 0), 256, 1, 0, 264);
    try_call("CRC-3, history 2^58", CRC3, 4, of(most + 1, 0, 0), 256, 1, 0, 264);
    try_call("CRC-3, parity 2^3 - 1", CRC3, 4, of(0, 7, 0), 256, 1, 0, 264);
    try_call("CRC-3, parity 2^3", CRC3, 4, of(0, 8, 0), 256, 1, 0, 264);
    try_call("CRC-3, parity 2^3, 0 multiblocks", CRC3, 4, of(0, 8, 0), 0, 0, 0, 0);
    try_call("CMD, history 2^58 - 1", COMMAND, 4, of(most, 0, 0), 256, 1, 0, 264);
    try_call("CMD, history 2^58", COMMAND, 4, of(most + 1, 0, 0), 256, 1, 0, 264);
    try_call("CMD, parity 0", COMMAND, 4, of(0, 0, 0), 256, 1, 0, 264);
    try_call("CMD, parity 1", COMMAND, 4, of(0, 1, 0), 256, 1, 0, 264);
    try_call("CMD, parity 1, 0 multiblocks", COMMAND, 4, of(0, 1, 0), 0, 0, 0, 0);
    try_call("CRC-12, E 4, number 3, the last", CRC12, 4, of(0, 0, 3), 256, 1, 0, 264);
    try_call("CRC-12, E 4, number 4", CRC12, 4, of(0, 0, 4), 256, 1, 0, 264);
    try_call("CRC-12, E 4, number 4, 0 multiblocks", CRC12, 4, of(0, 0, 4), 0, 0, 0, 0);
}

static void run_lengths(void) {
    struct zaytulobe_sender fresh = zaytulobe_fresh_sender();
    try_call("255 user octets", CRC12, 4, fresh, 255, 0, 0, 264);
    try_call("256 user octets", CRC12, 4, fresh, 256, 1, 0, 264);
    try_call("257 user octets", CRC12, 4, fresh, 257, 1, 0, 264);
    try_call("2 multiblocks, 1 command", CRC12, 4, fresh, 512, 1, 0, 528);
    try_call("1 multiblock, 2 commands", CRC12, 4, fresh, 256, 2, 0, 264);
    try_call("0 multiblocks, 1 command", CRC12, 4, fresh, 0, 1, 0, 264);
    try_call("2 multiblocks, 527 octets of room", CRC12, 4, fresh, 512, 2, 0, 527);
    try_call("2 multiblocks, 528 octets of room", CRC12, 4, fresh, 512, 2, 0, 528);
    try_call("2 multiblocks, 529 octets of room", CRC12, 4, fresh, 512, 2, 0, 529);
    try_call("CRC-12-80, 2 multiblocks, 639 octets of room", CRC12_80, 4, fresh, 512, 2, 0, 639);
    try_call("CRC-12-80, 2 multiblocks, 640 octets of room", CRC12_80, 4, fresh, 512, 2, 0, 640);
    try_call("CRC-12-80, 2 multiblocks, 641 octets of room", CRC12_80, 4, fresh, 512, 2, 0, 641);
}

static void run_commands(void) {
    struct zaytulobe_sender fresh = zaytulobe_fresh_sender();
    try_call("CRC-12, command 127", CRC12, 4, fresh, 256, 1, 127, 264);
    try_call("CRC-12, command 128", CRC12, 4, fresh, 256, 1, 128, 264);
    try_call("FEC, command 0", FEC, 4, fresh, 256, 1, 0, 264);
    try_call("FEC, command 1", FEC, 4, fresh, 256, 1, 1, 264);
    try_call("CRC-12, parity 783, command 65", CRC12, 4, of(0, 783, 0), 256, 1, 65, 264);
    try_call("CRC-12-80, command 127", CRC12_80, 4, fresh, 256, 1, 127, 320);
    try_call("CRC-12-80, command 128", CRC12_80, 4, fresh, 256, 1, 128, 320);
    try_call("FEC-80, command 1", FEC_80, 4, fresh, 256, 1, 1, 320);
    try_call("CRC-3, command 127", CRC3, 4, fresh, 256, 1, 127, 264);
    try_call("CRC-3, command 128", CRC3, 4, fresh, 256, 1, 128, 264);
    try_call("CRC-3, parity 5, command 65", CRC3, 4, of(0, 5, 0), 256, 1, 65, 264);
    try_call("CMD, command 128", COMMAND, 4, fresh, 256, 1, 128, 264);
    try_call("CMD, command 2^19 - 1", COMMAND, 4, fresh, 256, 1, 524287, 264);
    try_call("CMD, command 2^19", COMMAND, 4, fresh, 256, 1, 524288, 264);
    try_call("CMD, command 2^32 - 1", COMMAND, 4, fresh, 256, 1, 0xffffffff, 264);
    try_call("CMD, command 55AA5, in hexadecimal", COMMAND, 4, fresh, 256, 1, 0x55aa5, 264);
}

/* The lower number of two that apply. */
static void run_two_at_once(void) {
    struct zaytulobe_sender fresh = zaytulobe_fresh_sender(), high = of(0, 0, 4);
    try_call("1 and 2: mode 6, E 0", 6, 0, fresh, 256, 1, 0, 264);
    try_call("2 and 3: E 257, number 257", CRC12, 257, of(0, 0, 257), 256, 1, 0, 264);
    try_call("3 and 4: E 4, number 4, 257 user octets", CRC12, 4, high, 257, 1, 0, 264);
    try_call("4 and 5: one user octet more than 241 multiblocks", CRC12, 4, fresh, 61697, 241, 0, 63624);
    try_call("5 and 6: 241 multiblocks, 240 commands", CRC12, 4, fresh, 61696, 240, 0, 63624);
    try_call("6 and 7: command 128, 263 octets of room", CRC12, 4, fresh, 256, 1, 128, 263);
    try_call("3 and 7: E 4, number 4, 263 octets of room", CRC12, 4, high, 256, 1, 0, 263);
    try_call("all seven", 6, 0, high, 61697, 240, 128, 0);
    try_call("2 and 3: FEC-80, E 0, fill 2^17 - 1", FEC_80, 0, of_fill(131071), 256, 1, 0, 320);
    try_call("3 and 4: FEC-80, fill 2^17 - 1, 257 user octets", FEC_80, 4, of_fill(131071), 257, 1, 0, 320);
    try_call("4 and 5: FEC-80, one user octet more than 201 multiblocks", FEC_80, 4, fresh, 51457, 201, 0, 64320);
    try_call("5 and 6: FEC-80, 201 multiblocks, 200 commands", FEC_80, 4, fresh, 51456, 200, 0, 64320);
    try_call("6 and 7: FEC-80, command 1, 319 octets of room", FEC_80, 4, fresh, 256, 1, 1, 319);
    try_call("2 and 3: CRC-3, E 0, parity 8", CRC3, 0, of(0, 8, 0), 256, 1, 0, 264);
    try_call("3 and 4: CMD, parity 1, 257 user octets", COMMAND, 4, of(0, 1, 0), 257, 1, 0, 264);
    try_call("5 and 6: CRC-3, 241 multiblocks, 240 commands", CRC3, 4, fresh, 61696, 240, 0, 63624);
    try_call("6 and 7: CMD, command 2^19, 263 octets of room", COMMAND, 4, fresh, 256, 1, 524288, 263);
}

/* Scrambled bit n alone is 1, history 0: so are user bits n, n + 39 and n + 58. By CRC-3 the first and the last bit of a group have
   remainder 3 both, x^3 and x^514 modulo x^3+x+1, and the last but one has 6, x^4. */
static void try_bit(size bit) {
    static const u32 no_command[1];
    static const size after[3] = {0, 39, 58};
    memset(user, 0, sizeof user);
    for (int k = 0; k < 3; k++)
        user[(bit + after[k]) / 8] ^= (u8)(128 >> (bit + after[k]) % 8);
    struct zaytulobe_sent sent = zaytulobe_send(CRC3, 4, zaytulobe_fresh_sender(), user, USER_OCTETS, no_command, 1, lane, sizeof lane);
    printf("CRC-3, scrambled bit %lu alone: sync word %08X, parity %u", bit, first_word(CRC3), sent.state.parity);
    sent = zaytulobe_send(CRC3, 4, sent.state, user + USER_OCTETS, USER_OCTETS, no_command, 1, lane, sizeof lane);
    printf(", the next sync word %08X, parity %u\n", first_word(CRC3), sent.state.parity);
}

/* At the edges of the groups. */
static void run_groups(void) {
    for (size group = 0; group < GROUPS; group++) {
        try_bit(GROUP_BITS * group);
        try_bit(GROUP_BITS * group + GROUP_BITS - 2);
        try_bit(GROUP_BITS * group + GROUP_BITS - 1);
    }
}

/* So many multiblocks from one on, sent to their place in the parts. */
static struct zaytulobe_sender send_part(u8 mode, struct zaytulobe_sender state, size first, size count) {
    size octets = lane_octets(mode);
    return zaytulobe_send(mode, 3, state, user + USER_OCTETS * first, USER_OCTETS * count, sent_commands + first, count,
        parts + octets * first, octets * count).state;
}

static int same_as_parts(u8 mode, struct zaytulobe_sender whole, struct zaytulobe_sender state) {
    return memcmp(parts, lane, lane_octets(mode) * CUT) == 0 && same_state(state, whole);
}

/* Two calls, the second given the state that the first returned, make the lane of one. */
static void run_cuts(u8 mode) {
    size same = 0;
    struct zaytulobe_sender whole = make_lane(mode, 3, CUT);
    for (size cut = 0; cut <= CUT; cut++) {
        memset(parts, UNTOUCHED, sizeof parts);
        struct zaytulobe_sender head = send_part(mode, zaytulobe_fresh_sender(), 0, cut);
        same += same_as_parts(mode, whole, send_part(mode, head, cut, CUT - cut));
    }
    printf("%s, 8 multiblocks in two calls, cut after 0, 1, .. 8 of them: lane and end state of one call in %lu of 9 ways\n",
        name_of(mode), same);
}

/* So do calls of one multiblock each, and empty calls between them. */
static void run_ones(u8 mode) {
    struct zaytulobe_sender whole = make_lane(mode, 3, CUT), state = zaytulobe_fresh_sender();
    memset(parts, UNTOUCHED, sizeof parts);
    for (size k = 0; k < CUT; k++)
        state = send_part(mode, send_part(mode, state, k, 1), k, 0);
    printf("%s, 8 multiblocks in 8 calls and 8 empty ones between: lane and end state of one call %s\n", name_of(mode),
        same_as_parts(mode, whole, state) ? "the same" : "OTHERS");
}

/* Table 38: the bits of the register that a pair is normally filled with, the left one first, and the value of PRBS[1:0] that has
   it replaced by {not PRBS[2], PRBS[2]}. */
enum { NEVER = 4 };
static const struct {
    u8 left, right, replaced_if;
} TABLE_38[7] = {{4, 3, NEVER}, {6, 5, 0}, {8, 7, 1}, {10, 9, NEVER}, {12, 11, 2}, {14, 13, 3}, {16, 15, NEVER}};

static u32 pair_of(u32 fill, size pair) {
    u32 bit = fill >> 2 & 1, left = fill >> TABLE_38[pair].left & 1, right = fill >> TABLE_38[pair].right & 1;
    return TABLE_38[pair].replaced_if == (fill & 3) ? 2 * !bit + bit : 2 * left + right;
}

static u32 pair_on_lane(u8 mode, size block, size pair) {
    size place = block_bits(mode) * block + fill_place(mode, 2 * pair);
    return 2 * lane_bit(place) + lane_bit(place + 1);
}

/* The fill bits of the first four blocks, and how many of all pairs are those of Table 38. */
static void run_fill_bits(u8 mode, u32 fill, size multiblocks) {
    size right = 0, blocks = BLOCKS * multiblocks;
    memset(user, 165, sizeof user);
    memset(sent_commands, 0, sizeof sent_commands);
    struct zaytulobe_sent sent = zaytulobe_send(mode, 4, of_fill(fill), user, USER_OCTETS * multiblocks, sent_commands, multiblocks,
        lane, lane_octets(mode) * multiblocks);
    printf("%s, fill %u, multiblocks sent: %lu\n", name_of(mode), fill, sent.count);
    for (size block = 0; block < blocks; block++, fill = next_fill(fill)) {
        if (block < 4)
            printf("  block %lu, register %05X:", block, fill);
        for (size pair = 0; pair < 7; pair++) {
            u32 seen = pair_on_lane(mode, block, pair);
            right += seen == pair_of(fill, pair);
            if (block < 4)
                printf(" %u%u", seen / 2, seen % 2);
        }
        printf(block < 4 ? "\n" : "");
    }
    printf("  pairs of Table 38: %lu of %lu; fill afterwards %u, the register %s\n", right, 7 * blocks, sent.state.fill,
        sent.state.fill == fill ? "so many blocks on" : "ELSEWHERE");
}

int main(void) {
    run_counts();
    run_counts_80();
    run_counts_4_and_5();
    run_modes();
    run_states();
    run_fills();
    run_lengths();
    run_commands();
    run_two_at_once();
    run_groups();
    for (u8 mode = 0; mode < MODES; mode++)
        run_cuts(mode);
    for (u8 mode = 0; mode < MODES; mode++)
        run_ones(mode);
    run_fill_bits(CRC12_80, 0, 200);
    run_fill_bits(FEC_80, 131070, 200);
    run_fill_bits(FEC_80, 74565, 1);
    return 0;
}
