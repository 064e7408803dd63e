/* The receiver at its edges, and the longest run: document 01, "What the receiver releases", "Numbers of refusal" and the
   last lines of "The dozen to prove"; of invalid headers document 02, request 1, of fill bits request 2, of modes 4 and 5 request
   5, with Tables 43, 44 and 47 of the standard, and of counts request 7. A line says what was tried and what came out (place and
   pattern where not both are 0; counts in the order sound, repaired, failed); receiver.txt has the lines expected. */
#include "lane.h"

int snprintf(char *text, size room, const char *format, ...);

static struct releases out, parts;

/* Where a count stops. */
#define GREATEST 4294967295

/* Multiblock 2 of a lane, from a fresh receiver at the lane's start, with some positions of its codeword flipped. */
static void try_flips(u8 mode, const char *label, size first, size count, size step) {
    make_lane(mode, 2, 5);
    for (size k = 0; k < count; k++)
        flip_position(mode, 2, first + step * k);
    memset(&out, UNTOUCHED, sizeof out);
    receive(mode, zaytulobe_fresh_receiver(), 0, 5, &out, 0);
    printf("  %s: ", label);
    print_release(&out, 2, 2);
    printf("; the next: ");
    print_release(&out, 3, 3);
    printf("\n");
}

static void run_bursts_fec(u8 mode) {
    printf("%s, a multiblock with flips at positions of its codeword:\n", name_of(mode));
    try_flips(mode, "none", 0, 0, 1);
    try_flips(mode, "0 to 8", 0, 9, 1);
    try_flips(mode, "2065 to 2073, all parity", 2065, 9, 1);
    try_flips(mode, "0 and 8", 0, 2, 8);
    try_flips(mode, "2065 and 2073, both parity", 2065, 2, 8);
    try_flips(mode, "0 to 9", 0, 10, 1);
    try_flips(mode, "2064 to 2073, all parity", 2064, 10, 1);
    try_flips(mode, "0 and 9", 0, 2, 9);
    try_flips(mode, "2064 and 2073, both parity", 2064, 2, 9);
    try_flips(mode, "2047, the last of the data", 2047, 1, 1);
    try_flips(mode, "2048, the first of the parity", 2048, 1, 1);
    try_flips(mode, "2044 to 2052, data and parity", 2044, 9, 1);
    try_flips(mode, "0 and 2073, since no burst wraps", 0, 2, 2073);
}

static void run_bursts_crc12(u8 mode) {
    printf("%s, a multiblock with flips at positions of its codeword:\n", name_of(mode));
    try_flips(mode, "none", 0, 0, 1);
    try_flips(mode, "0 to 8", 0, 9, 1);
    try_flips(mode, "2051 to 2059, all parity", 2051, 9, 1);
    try_flips(mode, "0 to 9", 0, 10, 1);
    try_flips(mode, "2050 to 2059, all parity", 2050, 10, 1);
    try_flips(mode, "2047, the last of the data", 2047, 1, 1);
}

/* Positions from 2048 on are the parities of the groups, B C D A, three each. */
static void run_bursts_crc3(u8 mode) {
    printf("%s, a multiblock with flips at positions of its data and of its four parities:\n", name_of(mode));
    try_flips(mode, "none", 0, 0, 1);
    try_flips(mode, "0 to 2, the first of group B", 0, 3, 1);
    try_flips(mode, "509 to 511, the last of group B", 509, 3, 1);
    try_flips(mode, "511 and 512, in groups B and C", 511, 2, 1);
    try_flips(mode, "511 and 2048, the last of group B and the first of its parity", 511, 2, 1537);
    try_flips(mode, "2045 to 2047, the last of group A", 2045, 3, 1);
    try_flips(mode, "2048 to 2050, all of CRC-B", 2048, 3, 1);
    try_flips(mode, "2051 to 2053, all of CRC-C", 2051, 3, 1);
    try_flips(mode, "2054 to 2056, all of CRC-D", 2054, 3, 1);
    try_flips(mode, "2057 to 2059, all of CRC-A", 2057, 3, 1);
    try_flips(mode, "2048, 2051, 2054 and 2057, one of each parity", 2048, 4, 3);
    try_flips(mode, "0 to 6, which CRC-3 doesn't see, since x^7 is 1", 0, 7, 1);
}

static void run_bursts_command(u8 mode) {
    printf("%s, a multiblock with flips at positions of its data:\n", name_of(mode));
    try_flips(mode, "none", 0, 0, 1);
    try_flips(mode, "0", 0, 1, 1);
    try_flips(mode, "0 to 2047", 0, 2048, 1);
    try_flips(mode, "2047, the last of the data", 2047, 1, 1);
}

static int same_state(struct zaytulobe_receiver one, struct zaytulobe_receiver other) {
    return one.history == other.history && one.command == other.command && one.waiting == other.waiting
        && one.trusted == other.trusted && memcmp(one.octets, other.octets, USER_OCTETS) == 0 && one.invalid == other.invalid
        && one.own == other.own && one.sound == other.sound && one.repaired == other.repaired && one.failed == other.failed;
}

static void print_counts(struct zaytulobe_receiver state) {
    printf("counts %u %u %u", state.sound, state.repaired, state.failed);
}

/* A call with all that a caller chooses: the mode, the state, where the lane begins, and each length. */
struct call {
    u8 mode;
    struct zaytulobe_receiver state;
    const u8 *from;
    size lane, octets, statuses, commands, places, patterns, invalid;
};

/* So many multiblocks, with just enough room: from the lane's start, or from its multiblock 1 on if one waits. */
static struct call call_of(u8 mode, struct zaytulobe_receiver state, size multiblocks) {
    size count = state.waiting ? multiblocks : multiblocks ? multiblocks - 1 : 0;
    const u8 *from = state.waiting ? lane + lane_octets(mode) : lane;
    struct call call = {
        mode, state, from, lane_octets(mode) * multiblocks, USER_OCTETS * count, count, count, count, count, count};
    return call;
}

static int untouched_from(size count) {
    for (size k = USER_OCTETS * count; k < sizeof out.octets; k++)
        if (out.octets[k] != UNTOUCHED)
            return 0;
    for (size k = count; k < LONGEST_CALL; k++)
        if (out.statuses[k] != UNTOUCHED || out.commands[k] != UNTOUCHED * 0x1010101u
            || out.places[k] != UNTOUCHED * 0x101 || out.patterns[k] != UNTOUCHED * 0x101 || out.invalid[k] != UNTOUCHED)
            return 0;
    return 1;
}

static struct zaytulobe_receiver try_call(const char *label, struct call call) {
    memset(&out, UNTOUCHED, sizeof out);
    struct zaytulobe_received received = zaytulobe_receive(
        call.mode, call.state, call.from, call.lane, out.octets, call.octets, out.statuses, call.statuses,
        out.commands, call.commands, out.places, call.places, out.patterns, call.patterns, out.invalid, call.invalid);
    printf("%s: ", label);
    printf(received.refusal ? "refused %d, " : "accepted, ", received.refusal);
    printf("count %lu, ", received.count);
    printf(same_state(received.state, call.state) ? "the state given, " : "a new state, ");
    printf(!untouched_from(received.count) ? "MORE WRITTEN\n" : received.count ? "no more written\n" : "nothing written\n");
    return received.state;
}

/* How many releases have the octets, the status, the command and the headers of a clean lane. */
static void print_clean(size count) {
    size clean = 0;
    for (size k = 0; k < count; k++)
        clean += memcmp(out.octets + USER_OCTETS * k, user + USER_OCTETS * k, USER_OCTETS) == 0
            && out.commands[k] == sent_commands[k] && out.statuses[k] == (k == 0 ? ZAYTULOBE_UNTRUSTED : ZAYTULOBE_AGREES)
            && out.places[k] == 0 && out.patterns[k] == 0 && out.invalid[k] == 0;
    printf("  octets and command as sent, status 4 of the first and 0 of the others, no invalid header: ");
    printf("%lu of %lu\n", clean, count);
}

static void print_invalid(const struct releases *from, size count) {
    printf("invalid headers");
    for (size k = 0; k < count; k++)
        printf(" %d", from->invalid[k]);
}

static struct zaytulobe_receiver try_count(u8 mode, struct zaytulobe_receiver state, size multiblocks) {
    char label[64];
    snprintf(label, sizeof label, "%lu multiblock%s, %s", multiblocks, multiblocks == 1 ? "" : "s",
        state.waiting ? "one waiting" : "fresh");
    return try_call(label, call_of(mode, state, multiblocks));
}

static void run_counts(u8 mode) {
    struct zaytulobe_receiver fresh = zaytulobe_fresh_receiver();
    size most = most_multiblocks(mode);
    make_lane(mode, 7, most + 2);
    printf("%s, a clean lane:\n", name_of(mode));
    try_count(mode, fresh, 0);
    struct zaytulobe_receiver waiting = try_count(mode, fresh, 1);
    try_count(mode, fresh, 2);
    print_clean(1);
    try_count(mode, fresh, most);
    print_clean(most - 1);
    try_count(mode, fresh, most + 1);
    try_count(mode, waiting, 0);
    try_count(mode, waiting, 1);
    print_clean(1);
    try_count(mode, waiting, most);
    print_clean(most);
    try_count(mode, waiting, most + 1);
}

static void run_modes(void) {
    struct zaytulobe_receiver fresh = zaytulobe_fresh_receiver();
    try_call("mode 0", call_of(0, fresh, 2));
    try_call("mode 1", call_of(1, fresh, 2));
    try_call("mode 2", call_of(2, fresh, 2));
    try_call("mode 3", call_of(3, fresh, 2));
    try_call("mode 4", call_of(4, fresh, 2));
    try_call("mode 5", call_of(5, fresh, 2));
    try_call("mode 6", call_of(6, fresh, 2));
    try_call("mode 255", call_of(255, fresh, 2));
}

/* A state with one waiting, all else as it is in a fresh one but for what is given. */
static void try_waiting(const char *label, u8 mode, u64 history, u32 command, u8 trusted) {
    struct zaytulobe_receiver state = zaytulobe_fresh_receiver();
    state.waiting = 1;
    state.history = history;
    state.command = command;
    state.trusted = trusted;
    try_call(label, call_of(mode, state, 1));
}

static void run_waiting_states(void) {
    u64 most = 0x3ffffffffffffff;
    try_waiting("CRC-12, one waiting, history 2^58 - 1", CRC12, most, 0, 0);
    try_waiting("CRC-12, one waiting, history 2^58", CRC12, most + 1, 0, 0);
    try_waiting("FEC, one waiting, history 2^58 - 1", FEC, most, 0, 0);
    try_waiting("FEC, one waiting, history 2^58", FEC, most + 1, 0, 0);
    try_waiting("CRC-12, one waiting, command 128", CRC12, 0, 128, 1);
    try_waiting("CRC-12, one waiting, command 255", CRC12, 0, 255, 1);
    try_waiting("CRC-12, one waiting, command 256", CRC12, 0, 256, 1);
    try_waiting("FEC, one waiting, command 0", FEC, 0, 0, 1);
    try_waiting("FEC, one waiting, command 1", FEC, 0, 1, 1);
    try_waiting("FEC, one waiting, command 128", FEC, 0, 128, 1);
    try_waiting("FEC, one waiting, trust given as 2", FEC, 0, 0, 2);
    try_waiting("CRC-12-80, one waiting, history 2^58 - 1", CRC12_80, most, 0, 0);
    try_waiting("CRC-12-80, one waiting, history 2^58", CRC12_80, most + 1, 0, 0);
    try_waiting("CRC-12-80, one waiting, command 255", CRC12_80, 0, 255, 1);
    try_waiting("CRC-12-80, one waiting, command 256", CRC12_80, 0, 256, 1);
    try_waiting("FEC-80, one waiting, command 0", FEC_80, 0, 0, 1);
    try_waiting("FEC-80, one waiting, command 1", FEC_80, 0, 1, 1);
    try_waiting("CRC-3, one waiting, history 2^58 - 1", CRC3, most, 0, 0);
    try_waiting("CRC-3, one waiting, history 2^58", CRC3, most + 1, 0, 0);
    try_waiting("CRC-3, one waiting, command 255", CRC3, 0, 255, 1);
    try_waiting("CRC-3, one waiting, command 256", CRC3, 0, 256, 1);
    try_waiting("CMD, one waiting, history 2^58 - 1", COMMAND, most, 0, 0);
    try_waiting("CMD, one waiting, history 2^58", COMMAND, most + 1, 0, 0);
    try_waiting("CMD, one waiting, command 256", COMMAND, 0, 256, 1);
    try_waiting("CMD, one waiting, command 2^20 - 1", COMMAND, 0, 1048575, 1);
    try_waiting("CMD, one waiting, command 2^20", COMMAND, 0, 1048576, 1);
    try_waiting("CMD, one waiting, trust given as 2", COMMAND, 0, 0, 2);
}

/* The parity that came with the waiting multiblock's own sync word: nine bits in mode 4, none in the others, none if nothing waits. */
static void try_own(u8 mode, u8 waiting, u16 own, size multiblocks) {
    char label[80];
    struct zaytulobe_receiver state = {.waiting = waiting, .own = own};
    snprintf(label, sizeof label, "%s, %s, own %d%s", name_of(mode), waiting ? "one waiting" : "nothing waiting", own,
        multiblocks ? "" : ", no lane octets");
    try_call(label, call_of(mode, state, multiblocks));
}

static void run_own_states(void) {
    try_own(CRC3, 1, 0, 1);
    try_own(CRC3, 1, 511, 1);
    try_own(CRC3, 1, 512, 1);
    try_own(CRC3, 1, 65535, 1);
    try_own(CRC3, 1, 511, 0);
    try_own(CRC3, 1, 512, 0);
    try_own(CRC3, 0, 1, 1);
    try_own(CRC3, 0, 511, 0);
    for (u8 mode = 0; mode < MODES; mode++)
        if (mode != CRC3)
            try_own(mode, 1, 1, 1);
    try_own(CRC12, 0, 1, 0);
    try_own(COMMAND, 0, 1, 1);
}

/* A state with one waiting that had so many invalid headers, and the multiblock after it. */
static struct call with_invalid(u8 mode, u8 invalid) {
    struct zaytulobe_receiver state = {.waiting = 1, .invalid = invalid};
    return call_of(mode, state, 1);
}

static void run_invalid_states(void) {
    struct zaytulobe_receiver marked = {.waiting = 1, .command = ZAYTULOBE_COMMAND_FLAG(CRC12)}, empty = {.invalid = 1};
    try_call("CRC-12, one waiting, 1 invalid header", with_invalid(CRC12, 1));
    try_call("CRC-12, one waiting, 32 invalid headers", with_invalid(CRC12, 32));
    try_call("CRC-12, one waiting, 33 invalid headers", with_invalid(CRC12, 33));
    try_call("CRC-12, one waiting, 255 invalid headers", with_invalid(CRC12, 255));
    try_call("FEC, one waiting, 32 invalid headers", with_invalid(FEC, 32));
    try_call("FEC, one waiting, 33 invalid headers", with_invalid(FEC, 33));
    try_call("FEC-80, one waiting, 32 invalid headers", with_invalid(FEC_80, 32));
    try_call("FEC-80, one waiting, 33 invalid headers", with_invalid(FEC_80, 33));
    try_call("CRC-12, one waiting, command 128 and no invalid header", call_of(CRC12, marked, 1));
    try_call("nothing waiting, 1 invalid header", call_of(CRC12, empty, 1));
    try_call("nothing waiting, 1 invalid header, no lane octets", call_of(CRC12, empty, 0));
}

static void run_empty_states(void) {
    struct zaytulobe_receiver history = {.history = 1}, command = {.command = 1}, trusted = {.trusted = 1};
    struct zaytulobe_receiver first = {.octets = {1}}, last = {.octets = {[255] = 1}}, flag = {.waiting = 2};
    try_call("nothing waiting, all else 0", call_of(CRC12, zaytulobe_fresh_receiver(), 1));
    try_call("nothing waiting, history 1", call_of(CRC12, history, 1));
    try_call("nothing waiting, command 1", call_of(CRC12, command, 1));
    try_call("nothing waiting, trusted", call_of(CRC12, trusted, 1));
    try_call("nothing waiting, octet 0 not 0", call_of(CRC12, first, 1));
    try_call("nothing waiting, octet 255 not 0", call_of(CRC12, last, 1));
    try_call("nothing waiting, trusted, no lane octets", call_of(CRC12, trusted, 0));
    try_call("waiting given as 2", call_of(CRC12, flag, 1));
}

/* A state of counts alone, with one waiting or nothing. */
static void try_counts(u8 mode, u8 waiting, u32 sound, u32 repaired, u32 failed, size multiblocks) {
    char label[96];
    struct zaytulobe_receiver state = {.waiting = waiting, .sound = sound, .repaired = repaired, .failed = failed};
    snprintf(label, sizeof label, "%s, %s, counts %u %u %u%s", name_of(mode), waiting ? "one waiting" : "nothing waiting", sound,
        repaired, failed, multiblocks ? "" : ", no lane octets");
    try_call(label, call_of(mode, state, multiblocks));
}

/* With nothing waiting each count must be 0, and with one waiting it may be any. */
static void run_count_states(void) {
    for (u8 mode = 0; mode < MODES; mode++) {
        try_counts(mode, 0, 1, 0, 0, 1);
        try_counts(mode, 0, 0, 1, 0, 1);
        try_counts(mode, 0, 0, 0, 1, 1);
        try_counts(mode, 1, GREATEST, GREATEST, GREATEST, 1);
        try_counts(mode, 1, GREATEST, GREATEST, GREATEST, 0);
    }
    try_counts(CRC12, 0, GREATEST, 0, 0, 0);
    try_counts(CRC12, 0, 0, GREATEST, 0, 0);
    try_counts(CRC12, 0, 0, 0, GREATEST, 0);
}

/* By whatever a call is refused, the counts given come back. */
static void run_refused_counts(void) {
    struct zaytulobe_receiver counts = {.waiting = 1, .sound = 7, .repaired = 8, .failed = GREATEST}, broken = counts;
    struct call call = call_of(6, counts, 1);
    try_call("counts 7 8 4294967295, mode 6", call);
    broken.command = 1;
    try_call("counts 7 8 4294967295, FEC, command 1", call_of(FEC, broken, 1));
    call = call_of(FEC, counts, 1), call.lane -= 1;
    try_call("counts 7 8 4294967295, FEC, 263 lane octets", call);
    try_call("counts 7 8 4294967295, FEC, 241 multiblocks", call_of(FEC, counts, 241));
    call = call_of(FEC, counts, 1), call.statuses = 0;
    try_call("counts 7 8 4294967295, FEC, 1 multiblock, no room for statuses", call);
}

/* Of the octets of one multiblock, and of as many as a call takes, one less and one more. */
static void run_lengths(u8 mode) {
    size one = lane_octets(mode), most = one * most_multiblocks(mode);
    size lengths[8] = {1, one - 1, one, one + 1, most - 1, most, most + 1, most + one};
    struct call call = call_of(mode, zaytulobe_fresh_receiver(), most_multiblocks(mode) + 1);
    for (int k = 0; k < 8; k++) {
        char label[64];
        snprintf(label, sizeof label, "%s, %lu lane octet%s", name_of(mode), lengths[k], lengths[k] == 1 ? "" : "s");
        call.lane = lengths[k];
        try_call(label, call);
    }
}

static void run_room(void) {
    struct call call = call_of(FEC, zaytulobe_fresh_receiver(), 3), full = call;
    try_call("3 multiblocks, fresh, room for 2", call);
    call.octets -= 1;
    try_call("3 multiblocks, fresh, 511 octets of room", call);
    call = full, call.octets += 1;
    try_call("3 multiblocks, fresh, 513 octets of room", call);
    call = full, call.statuses -= 1;
    try_call("3 multiblocks, fresh, room for 1 status", call);
    call = full, call.commands -= 1;
    try_call("3 multiblocks, fresh, room for 1 command", call);
    call = full, call.places -= 1;
    try_call("3 multiblocks, fresh, room for 1 place", call);
    call = full, call.patterns -= 1;
    try_call("3 multiblocks, fresh, room for 1 pattern", call);
    call = full, call.invalid -= 1;
    try_call("3 multiblocks, fresh, room for 1 number of invalid headers", call);
    call = full, call.statuses += 1, call.commands += 2, call.places += 3, call.patterns += 4, call.invalid += 5;
    try_call("3 multiblocks, fresh, more room in each list", call);
    try_call("1 multiblock, fresh, no room", call_of(FEC, zaytulobe_fresh_receiver(), 1));
}

/* A refused call gives back the number of the one that waits, an accepted one releases it. Of the two that come the first has 1
   invalid header and the second 2. */
static void run_room_for_invalid(void) {
    struct zaytulobe_receiver state = {.waiting = 1, .invalid = 5};
    struct call call = call_of(FEC, state, 2);
    make_lane(FEC, 7, 3);
    put_header(FEC, 1, 27, 3);
    put_header(FEC, 2, 27, 0);
    put_header(FEC, 2, 28, 3);
    call.invalid -= 1;
    state = try_call("2 multiblocks, one waiting with 5 invalid headers, room for 1 number of them", call);
    printf("  waiting with %d\n", state.invalid);
    call.invalid += 1;
    state = try_call("2 multiblocks, one waiting with 5 invalid headers, room for 2 numbers of them", call);
    printf("  ");
    print_invalid(&out, 2);
    printf(", waiting with %d\n", state.invalid);
}

/* The lower number of two that apply. */
static void run_two_at_once(void) {
    struct zaytulobe_receiver fresh = zaytulobe_fresh_receiver(), broken = {.history = 1};
    struct call call = call_of(6, broken, 1);
    try_call("mode 6 and a broken state", call);
    call = call_of(FEC, broken, 1), call.lane = 263;
    try_call("a broken state and 263 lane octets", call);
    call = call_of(FEC, fresh, 241), call.lane += 1;
    try_call("a lane of one octet more than 241 multiblocks", call);
    call = call_of(FEC, fresh, 241), call.octets = 0;
    try_call("241 multiblocks and no room for octets", call);
    call = call_of(FEC, fresh, 2), call.lane += 1, call.statuses = 0;
    try_call("a lane of one octet more than 2 multiblocks and no room for statuses", call);
    call = call_of(6, broken, 241), call.lane += 1, call.octets = 0;
    try_call("all five", call);
    call = call_of(FEC_80, broken, 1), call.lane = 264;
    try_call("FEC-80, a broken state and 264 lane octets", call);
    call = call_of(FEC_80, fresh, 201), call.lane += 1;
    try_call("FEC-80, a lane of one octet more than 201 multiblocks", call);
    call = call_of(FEC_80, fresh, 201), call.octets = 0;
    try_call("FEC-80, 201 multiblocks and no room for octets", call);
    call = call_of(FEC_80, fresh, 33), call.lane = 264 * 40;
    try_call("FEC-80, the 10,560 lane octets of 40 multiblocks of 66-bit blocks", call);
    broken.history = 0, broken.waiting = broken.own = 1;
    call = call_of(COMMAND, broken, 1), call.lane = 263;
    try_call("CMD, one waiting, own 1 and 263 lane octets", call);
}

/* The block whose header carries bit 5 of the command, and that of a parity bit with FEC. */
static size command_block(u8 mode) {
    return mode == CRC3 ? 5 : 17;
}

/* A lane with a burst that is mended or found, one that isn't, an invalid header in a command and one elsewhere. */
static void make_damaged(u8 mode, size multiblocks) {
    make_lane(mode, 3, multiblocks);
    for (size k = 0; k < 5; k++)
        flip_position(mode, 1, 700 + 2 * k);
    for (size k = 0; k < 9; k++)
        flip_position(mode, 3, 2039 + k);
    flip_position(mode, 4, 100);
    flip_position(mode, 4, 1900);
    flip_bit(header_place(mode, 5, command_block(mode)));
    flip_bit(header_place(mode, 6, 31));
}

static void run_cuts(u8 mode, size multiblocks) {
    make_damaged(mode, multiblocks);
    memset(&out, UNTOUCHED, sizeof out);
    struct zaytulobe_received whole = receive(mode, zaytulobe_fresh_receiver(), 0, multiblocks, &out, 0);
    printf("%s, %lu damaged multiblocks in one call: released %lu, statuses", name_of(mode), multiblocks, whole.count);
    for (size k = 0; k < whole.count; k++)
        printf(" %d", out.statuses[k]);
    printf(", commands");
    for (size k = 0; k < whole.count; k++)
        printf(" %u", out.commands[k]);
    printf(", ");
    print_invalid(&out, whole.count);
    printf("\n");
    for (size cut = 0; cut <= multiblocks; cut++) {
        memset(&parts, UNTOUCHED, sizeof parts);
        struct zaytulobe_received head = receive(mode, zaytulobe_fresh_receiver(), 0, cut, &parts, 0);
        struct zaytulobe_received tail = receive(mode, head.state, cut, multiblocks - cut, &parts, head.count);
        int same = memcmp(&out, &parts, sizeof out) == 0 && same_state(whole.state, tail.state);
        printf("cut after %lu: released %lu, then %lu; %s\n", cut, head.count, tail.count,
            same ? "the same releases and end state" : "OTHER RELEASES OR END STATE");
    }
}

/* One waits that is released with this status when the next comes: one without flips, with one, or with two that no burst of nine
   explains; from 4 on nothing came before it. */
static struct zaytulobe_receiver waiting_for(u8 status) {
    size waits = status < ZAYTULOBE_UNTRUSTED ? 1 : 0;
    make_lane(FEC, 2, 3);
    for (size k = 0; k < status % ZAYTULOBE_UNTRUSTED; k++)
        flip_position(FEC, waits, 9 * k);
    return receive(FEC, zaytulobe_fresh_receiver(), 0, waits + 1, &out, 0).state;
}

static void try_release(u8 status, u32 sound, u32 repaired, u32 failed) {
    struct zaytulobe_receiver state = waiting_for(status);
    state.sound = sound, state.repaired = repaired, state.failed = failed;
    printf("FEC, one waiting, ");
    print_counts(state);
    state = receive(FEC, state, status < ZAYTULOBE_UNTRUSTED ? 2 : 1, 1, &out, 0).state;
    printf(": released with status %d, ", out.statuses[0]);
    print_counts(state);
    printf("\n");
}

/* Each kind of release adds 1 to its own count, whatever the other two are, and no more than up to the greatest number. */
static void run_releases(void) {
    static const u8 statuses[6] = {0, 1, 2, 4, 5, 6};
    for (int k = 0; k < 6; k++) {
        try_release(statuses[k], 0, 0, 0);
        try_release(statuses[k], 100, 200, 300);
        try_release(statuses[k], GREATEST - 1, GREATEST - 1, GREATEST - 1);
        try_release(statuses[k], GREATEST, GREATEST, GREATEST);
        try_release(statuses[k], GREATEST, 200, 300);
        try_release(statuses[k], 100, GREATEST, 300);
        try_release(statuses[k], 100, 200, GREATEST);
    }
}

/* One waits, and as many more come as a call takes, so that as many sound ones are released: from the count that leads just below
   the greatest number, from the one that leads there, and from one more. */
static void run_stop(u8 mode) {
    size most = most_multiblocks(mode);
    make_lane(mode, 2, most + 1);
    struct zaytulobe_receiver state = receive(mode, zaytulobe_fresh_receiver(), 0, 1, &out, 0).state;
    for (u32 more = 0; more < 3; more++) {
        state.sound = (u32)(GREATEST - 1 - most) + more;
        printf("%s, one waiting, ", name_of(mode));
        print_counts(state);
        struct zaytulobe_received received = receive(mode, state, 1, most, &out, 0);
        printf(", %lu clean multiblocks: released %lu, ", most, received.count);
        print_counts(received.state);
        printf("\n");
    }
}

/* The counts after each call, and after one call for all. */
static void run_totals(u8 mode, size multiblocks) {
    make_damaged(mode, multiblocks);
    struct zaytulobe_receiver state = zaytulobe_fresh_receiver();
    printf("%s, %lu damaged multiblocks, one a call: ", name_of(mode), multiblocks);
    for (size k = 0; k < multiblocks; k++) {
        state = receive(mode, state, k, 1, &out, 0).state;
        print_counts(state);
        printf("; ");
    }
    printf("all in one call: ");
    print_counts(receive(mode, zaytulobe_fresh_receiver(), 0, multiblocks, &out, 0).state);
    printf("\n");
}

/* Two states that differ only in counts: the same is released, and the states after it differ only in counts. */
static void run_unlike_counts(u8 mode, size multiblocks) {
    make_damaged(mode, multiblocks);
    memset(&out, UNTOUCHED, sizeof out);
    memset(&parts, UNTOUCHED, sizeof parts);
    struct zaytulobe_receiver state = receive(mode, zaytulobe_fresh_receiver(), 0, 1, &out, 0).state, unlike = state;
    unlike.sound = GREATEST, unlike.repaired = 5, unlike.failed = 1000;
    struct zaytulobe_received one = receive(mode, state, 1, multiblocks - 1, &out, 0);
    struct zaytulobe_received other = receive(mode, unlike, 1, multiblocks - 1, &parts, 0);
    printf("%s, counts 0 0 0 and 4294967295 5 1000, %lu released and %lu: ", name_of(mode), one.count, other.count);
    printf(memcmp(&out, &parts, sizeof out) == 0 ? "the same releases, " : "OTHER RELEASES, ");
    print_counts(one.state);
    printf(" and ");
    print_counts(other.state);
    other.state.sound = one.state.sound, other.state.repaired = one.state.repaired, other.state.failed = one.state.failed;
    printf(same_state(one.state, other.state) ? ", all else of the states the same\n" : ", OTHER STATES\n");
}

/* Every header of multiblock 1 is 00, and of multiblock 2 11; of multiblock 4 the first is 00 and the last 11; of multiblock 5
   one is 11. */
static void make_garbled(u8 mode, size multiblocks) {
    make_lane(mode, 3, multiblocks);
    for (size block = 0; block < BLOCKS; block++) {
        put_header(mode, 1, block, 0);
        put_header(mode, 2, block, 3);
    }
    put_header(mode, 4, 0, 0);
    put_header(mode, 4, 31, 3);
    put_header(mode, 5, 9, 3);
}

/* The numbers of all that are released, from one call and from two; between the two the state has that of the waiting one. */
static void run_invalid(u8 mode, size multiblocks) {
    make_garbled(mode, multiblocks);
    struct zaytulobe_received whole = receive(mode, zaytulobe_fresh_receiver(), 0, multiblocks, &out, 0);
    printf("%s, multiblock 1 all 00, 2 all 11, 4 with one of each, 5 with one 11: ", name_of(mode));
    print_invalid(&out, whole.count);
    printf(", waiting with %d\n", whole.state.invalid);
    for (size cut = 0; cut <= multiblocks; cut++) {
        struct zaytulobe_received head = receive(mode, zaytulobe_fresh_receiver(), 0, cut, &parts, 0);
        struct zaytulobe_received tail = receive(mode, head.state, cut, multiblocks - cut, &parts, head.count);
        printf("cut after %lu: waiting with %d; in all ", cut, head.state.invalid);
        print_invalid(&parts, head.count + tail.count);
        printf(", waiting with %d\n", tail.state.invalid);
    }
}

/* Multiblock 1 of three that carry the highest command, with one header made invalid: the command that is released with it. */
static u32 command_with(u8 mode, size block, u8 header) {
    u32 most = ZAYTULOBE_MOST_COMMAND(mode), commands[3] = {most, most, most};
    memset(user, 0, sizeof user);
    zaytulobe_send(mode, 3, zaytulobe_fresh_sender(), user, 3 * USER_OCTETS, commands, 3, lane, sizeof lane);
    put_header(mode, 1, block, header);
    receive(mode, zaytulobe_fresh_receiver(), 0, 3, &out, 0);
    return out.commands[1];
}

/* An invalid header of a command's bit is read as 0 and adds the mark, 2 to the power of the command's width; one elsewhere does
   nothing to the command. */
static void run_marks(u8 mode, u8 header) {
    u32 most = ZAYTULOBE_MOST_COMMAND(mode);
    size as_sent = 0;
    printf("%s, command %u sent, one header %d%d: received", name_of(mode), most, header / 2, header % 2);
    for (size block = 0; block < BLOCKS; block++) {
        u32 command = command_with(mode, block, header);
        as_sent += command == most;
        if (command != most)
            printf(" %u at %lu,", command, block);
    }
    printf(" as sent at %lu positions\n", as_sent);
}

static u8 status_of_first(struct zaytulobe_receiver state) {
    memset(&out, UNTOUCHED, sizeof out);
    receive(CRC3, state, 1, 1, &out, 0);
    return out.statuses[0];
}

/* The first multiblock waits with what came of its parity, B C D, and the next brings A. Each bit of them alone is turned, so that one
   group alone disagrees. */
static void run_own(void) {
    size failed = 0, failed_by_a = 0;
    make_lane(CRC3, 3, 2);
    struct zaytulobe_receiver waits = receive(CRC3, zaytulobe_fresh_receiver(), 0, 1, &out, 0).state;
    printf("CRC-3, one waiting, own as it came: status %d", status_of_first(waits));
    for (size bit = 0; bit < 9; bit++) {
        struct zaytulobe_receiver turned = waits;
        turned.own ^= (u16)(1 << bit);
        failed += status_of_first(turned) == ZAYTULOBE_FAILED + ZAYTULOBE_UNTRUSTED;
    }
    for (size block = 0; block < 3; block++) {
        flip_position(CRC3, 0, DATA_BITS + 9 + block);
        failed_by_a += status_of_first(waits) == ZAYTULOBE_FAILED + ZAYTULOBE_UNTRUSTED;
        flip_position(CRC3, 0, DATA_BITS + 9 + block);
    }
    printf("; with one bit of it turned: 6 for %lu of 9; with one bit of CRC-A turned: 6 for %lu of 3\n", failed, failed_by_a);
}

/* Whether the damaged lane, as it stands now, is received as it was when `out` and the state were made. */
static int received_as(u8 mode, size multiblocks, const struct zaytulobe_receiver *state) {
    memset(&parts, UNTOUCHED, sizeof parts);
    struct zaytulobe_received again = receive(mode, zaytulobe_fresh_receiver(), 0, multiblocks, &parts, 0);
    return memcmp(&out, &parts, sizeof out) == 0 && same_state(*state, again.state);
}

/* The fill bits of the whole lane become 0, or 1. */
static void put_fill(u8 mode, size multiblocks, u8 value) {
    for (size block = 0; block < BLOCKS * multiblocks; block++)
        for (size k = 0; k < 7 * gap(mode); k++) {
            size place = block_bits(mode) * block + fill_place(mode, k);
            if (lane_bit(place) != value)
                flip_bit(place);
        }
}

/* Fill bits are ignored: those of a damaged lane all flipped, all 0, all 1, and each alone flipped in the middle multiblock. As a
   contrast, each data bit of a block flipped alone. */
static void run_fill(u8 mode, size multiblocks) {
    size alone = 0, data = 0, start = multiblock_bits(mode) * (multiblocks / 2);
    make_damaged(mode, multiblocks);
    memset(&out, UNTOUCHED, sizeof out);
    struct zaytulobe_receiver state = receive(mode, zaytulobe_fresh_receiver(), 0, multiblocks, &out, 0).state;
    printf("%s, %lu damaged multiblocks, received as before with", name_of(mode), multiblocks);
    flip_fill(mode, 0, multiblocks);
    printf(" every fill bit flipped: %s;", received_as(mode, multiblocks, &state) ? "yes" : "NO");
    put_fill(mode, multiblocks, 0);
    printf(" all 0: %s;", received_as(mode, multiblocks, &state) ? "yes" : "NO");
    put_fill(mode, multiblocks, 1);
    printf(" all 1: %s;", received_as(mode, multiblocks, &state) ? "yes" : "NO");
    for (size k = 0; k < 14 * BLOCKS; k++) {
        size place = start + block_bits(mode) * (k / 14) + fill_place(mode, k % 14);
        flip_bit(place);
        alone += (size)received_as(mode, multiblocks, &state);
        flip_bit(place);
    }
    for (size k = 0; k < 64; k++) {
        flip_bit(start + data_place(mode, k));
        data += (size)received_as(mode, multiblocks, &state);
        flip_bit(start + data_place(mode, k));
    }
    printf(" one fill bit flipped: %lu of 448; one data bit flipped: %lu of 64\n", alone, data);
}

/* Statuses as a text of numbers of one digit; '?' stands for 255. */
static void try_statuses(const char *statuses, size octets) {
    u8 list[16];
    size count = 0;
    printf("longest run of statuses");
    for (; statuses[count] != 0; count++) {
        list[count] = statuses[count] == '?' ? 255 : (u8)(statuses[count] - '0');
        printf(" %d", list[count]);
    }
    printf("%s with %lu octets: ", count ? "" : " none", octets);
    struct zaytulobe_run run = zaytulobe_longest_run(user, octets, list, count);
    if (run.refusal != ZAYTULOBE_ACCEPTED)
        printf("refused %d, ", run.refusal);
    printf("%lu from multiblock %lu\n", run.count, run.start);
}

static void run_longest(void) {
    try_statuses("", 0);
    try_statuses("0", 256);
    try_statuses("1", 256);
    try_statuses("2", 256);
    try_statuses("4256", 1024);
    try_statuses("4012104", 1792);
    try_statuses("0021110", 1792);
    try_statuses("0140102", 1792);
    try_statuses("0101", 1024);
    try_statuses("030070", 1536);
    try_statuses("00?000", 1536);
    try_statuses("00", 511);
    try_statuses("00", 512);
    try_statuses("00", 513);
    try_statuses("00", 256);
    try_statuses("", 256);
    try_statuses("0", 0);
}

/* Two runs as long as each other, multiblocks 1 and 2 and 4 and 5, whose octets are equal: the place alone tells them apart. */
static void run_tied(void) {
    memset(user, 165, sizeof user);
    int equal = memcmp(user + USER_OCTETS, user + 4 * USER_OCTETS, 2 * USER_OCTETS) == 0;
    printf("two runs that tie, %s octets:\n", equal ? "with equal" : "WITH UNLIKE");
    try_statuses("2012014", 7 * USER_OCTETS);
    try_statuses("2102102", 7 * USER_OCTETS);
}

int main(void) {
    run_bursts_fec(FEC);
    run_bursts_crc12(CRC12);
    run_bursts_fec(FEC_80);
    run_bursts_crc12(CRC12_80);
    run_bursts_crc3(CRC3);
    run_bursts_command(COMMAND);
    for (u8 mode = 0; mode < MODES; mode++)
        run_counts(mode);
    run_modes();
    run_waiting_states();
    run_own_states();
    run_invalid_states();
    run_empty_states();
    run_count_states();
    run_refused_counts();
    for (u8 mode = 0; mode < MODES; mode++)
        run_lengths(mode);
    run_room();
    run_room_for_invalid();
    run_two_at_once();
    for (u8 mode = 0; mode < MODES; mode++)
        run_cuts(mode, 8);
    run_releases();
    for (u8 mode = 0; mode < MODES; mode++)
        run_stop(mode);
    for (u8 mode = 0; mode < MODES; mode++)
        run_totals(mode, 8);
    for (u8 mode = 0; mode < MODES; mode++)
        run_unlike_counts(mode, 8);
    for (u8 mode = 0; mode < MODES; mode++)
        run_invalid(mode, 6);
    for (u8 mode = 0; mode < MODES; mode++) {
        run_marks(mode, 0);
        run_marks(mode, 3);
    }
    run_own();
    run_fill(CRC12_80, 8);
    run_fill(FEC_80, 8);
    run_longest();
    run_tied();
    return 0;
}
