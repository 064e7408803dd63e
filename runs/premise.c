/* What the link promises after hits on a lane holds where its premise does, and each clause of the premise is needed.
   The promise, for a fresh receiver at a multiblock boundary of a lane that the sender made, in that lane's mode; bits are
   flipped, none gained or lost, in bursts of at most 9 consecutive lane bits with FEC, 12 with CRC-12 or 3 with CRC-3, with two
   multiblocks of clear bits or more between bursts: 4,224, or 5,120 in modes 2 and 3. FEC: the octets of every released multiblock
   after the first are those sent. CRC-12 and CRC-3: every multiblock whose data were hit has status 2 or 6; every sound octet is the
   one sent; a released multiblock but the first has status 0 if it and both its neighbours were untouched. Of mode 5 nothing is
   promised but of an undamaged lane.
   Statuses and sound octets: document 01, "What the receiver releases"; of modes 4 and 5 document 02, request 5. Lane bits and
   multiblocks are counted from where the receiver starts, in the middle of a lane; premise.txt has the lines expected. */
#include "lane.h"

enum { E = 2, BEFORE = 5, COUNT = 20 };

static struct releases out;
static u8 lanes_mode, flipped[8 * MOST_LANE_OCTETS * COUNT];
static size released;

/* Of the lane that was begun: the bits of a block, those of a multiblock, and all that the receiver gets. */
static size per_block(void) {
    return block_bits(lanes_mode);
}

static size per_multiblock(void) {
    return multiblock_bits(lanes_mode);
}

static size all_bits(void) {
    return COUNT * per_multiblock();
}

/* Of the sync words, whatever the width of a block: the name, and the longest burst of the premise; mode 5 has none. */
static const char *code_of(u8 mode) {
    return has_fec(mode) ? "FEC" : mode == CRC12_80 ? "CRC-12" : name_of(mode);
}

static size longest_burst(u8 mode) {
    return has_fec(mode) ? 9 : mode == CRC3 ? 3 : mode == COMMAND ? 0 : 12;
}

static void begin(u8 mode) {
    lanes_mode = mode;
    make_lane(mode, E, BEFORE + COUNT);
    memset(flipped, 0, sizeof flipped);
}

static void hit(size bit) {
    flip_bit(per_multiblock() * BEFORE + bit);
    flipped[bit] ^= 1;
}

/* Flips the lane bits from one on where the pattern has a 1. */
static void hit_burst(size first, const char *pattern) {
    for (size k = 0; pattern[k] != 0; k++)
        if (pattern[k] == '1')
            hit(first + k);
}

static void end(u8 mode) {
    memset(&out, UNTOUCHED, sizeof out);
    released = receive(mode, zaytulobe_fresh_receiver(), BEFORE, COUNT, &out, 0).count;
}

/* Whether the flips are bursts as the premise has them: flips with fewer clear bits between are one burst. */
static int within_premise(u8 mode) {
    size end = all_bits(), first = end, last = end, most = longest_burst(mode);
    for (size bit = 0; bit < end; bit++) {
        if (!flipped[bit])
            continue;
        if (last == end || bit - last > 2 * per_multiblock())
            first = bit;
        last = bit;
        if (last - first >= most)
            return 0;
    }
    return 1;
}

static void print_flips(u8 mode) {
    const char *before = " ";
    printf("%s, lane bits flipped:", name_of(mode));
    for (size bit = 0; bit < all_bits(); bit++) {
        size first = bit;
        while (bit < all_bits() && flipped[bit])
            bit++;
        if (bit > first)
            print_span(before, first, bit - 1), before = ", ";
    }
    printf(*before == ' ' ? " none" : "");
    printf(within_premise(mode) ? "; within the premise\n" : "; outside the premise\n");
}

static void print_multiblocks(size first, size last) {
    for (size k = first; k <= last && k < released; k++) {
        printf("  multiblock %lu: ", k);
        print_release(&out, k, BEFORE + k);
        printf("\n");
    }
}

static int touched(size first, size last) {
    for (size bit = first; bit < last; bit++)
        if (flipped[bit])
            return 1;
    return 0;
}

static int touched_data(size multiblock) {
    for (size position = 0; position < DATA_BITS; position++)
        if (flipped[place_of(lanes_mode, multiblock, position)])
            return 1;
    return 0;
}

static int is_failed(size k) {
    return (out.statuses[k] & ~ZAYTULOBE_UNTRUSTED) == ZAYTULOBE_FAILED;
}

static int is_sound(size k, size octet) {
    return !is_failed(k) && (octet >= 8 || !(out.statuses[k] & ZAYTULOBE_UNTRUSTED));
}

static size wrong_octets(size k, int only_sound) {
    size wrong = 0;
    const u8 *come = out.octets + USER_OCTETS * k, *sent = user + USER_OCTETS * (BEFORE + k);
    for (size octet = 0; octet < USER_OCTETS; octet++)
        wrong += (!only_sound || is_sound(k, octet)) && come[octet] != sent[octet];
    return wrong;
}

static void print_promise_fec(void) {
    size wrong = 0;
    for (size k = 1; k < released; k++)
        wrong += wrong_octets(k, 0);
    printf("  of %lu released, wrong octets after the first: %lu\n", released, wrong);
}

/* What the promise speaks of with CRC-12 and CRC-3: multiblocks released, hit in their data, of these failed; sound octets that are
   wrong; multiblocks after the first that are untouched with both neighbours, of these with status 0. */
struct kept {
    size released, hits, failed, wrong, clear, agree;
};

static void count_kept(struct kept *kept) {
    kept->released += released;
    for (size k = 0; k < released; k++) {
        int was_hit = touched_data(k), was_clear = k > 0 && !touched(per_multiblock() * (k - 1), per_multiblock() * (k + 2));
        kept->hits += (size)was_hit;
        kept->failed += was_hit && is_failed(k);
        kept->wrong += wrong_octets(k, 1);
        kept->clear += (size)was_clear;
        kept->agree += was_clear && out.statuses[k] == ZAYTULOBE_AGREES;
    }
}

static void print_kept(struct kept kept) {
    printf("  of %lu released, hit in their data: %lu, of these with status 2 or 6: %lu\n", kept.released, kept.hits, kept.failed);
    printf("  sound octets that are wrong: %lu\n", kept.wrong);
    printf("  after the first and untouched with both neighbours: %lu, of these with status 0: %lu\n", kept.clear, kept.agree);
}

static void print_promise_crc(void) {
    struct kept kept = {0};
    count_kept(&kept);
    print_kept(kept);
}

/* The first bit of a header that carries 0 or 1 in the parity of a multiblock; header 01 carries 1. */
static size header_carrying(u8 mode, size multiblock, int carried) {
    size position = DATA_BITS + 4;
    for (;; position++) {
        size bit = place_of(mode, multiblock, position);
        if (lane_bit(per_multiblock() * BEFORE + bit) != carried)
            return bit;
    }
}

/* Bursts at the lane's start; two multiblocks of clear bits later; over a header; over a multiblock's edge; at the first bit of a
   header that carries 0 and of one that carries 1, which makes them invalid; with its ends alone, where there are fill bits the
   first of them in a gap; at the lane's end. */
static void run_example(u8 mode, const char *full, const char *ends) {
    size bits = longest_burst(mode);
    begin(mode);
    hit_burst(0, full);
    hit_burst(bits + 2 * per_multiblock(), full);
    hit_burst(per_multiblock() * 4 + per_block() * 5 - 4, full);
    hit_burst(per_multiblock() * 7 - 5, full);
    hit(header_carrying(mode, 11, 0));
    hit(header_carrying(mode, 14, 1));
    hit_burst(per_multiblock() * 17 + per_block() * 31 + 10, ends);
    hit_burst(all_bits() - bits, full);
    end(mode);
    print_flips(mode);
    print_multiblocks(0, COUNT);
    if (has_fec(mode))
        print_promise_fec();
    else
        print_promise_crc();
}

/* The statuses of multiblocks 4 to 7 after a burst of at most 3 bits about multiblock 5, and the promise in short. */
static void try_burst(const char *label, const char *group, size first, const char *pattern) {
    struct kept kept = {0};
    hit_burst(first, pattern);
    end(CRC3);
    count_kept(&kept);
    printf("  %s %s, lane bits from %lu: statuses %d %d %d %d", label, group, first, out.statuses[4], out.statuses[5], out.statuses[6],
        out.statuses[7]);
    printf(", hit in data %lu, of these 2 or 6: %lu, sound octets wrong: %lu\n", kept.hits, kept.failed, kept.wrong);
    hit_burst(first, pattern);
}

/* At the ends of each group of multiblock 5, across its end, and at each header that carries its parity. The block after a group is
   the first of the next group, and its header carries the first bit of this one's parity. */
static void run_group_edges(void) {
    static const char *const groups[GROUPS] = {"B", "C", "D", "A"};
    begin(CRC3);
    printf("CRC-3, bursts of 3 at the edges of each group of multiblock 5:\n");
    for (size group = 0; group < GROUPS; group++) {
        size first = place_of(CRC3, 5, GROUP_BITS * group), next = header_place(CRC3, 5, GROUP_BLOCKS * (group + 1));
        try_burst("first data bits of", groups[group], first, "111");
        try_burst("last data bits of", groups[group], next - 3, "111");
        try_burst("first and last of the last three data bits of", groups[group], next - 3, "101");
        try_burst("two data bits and half a header after", groups[group], next - 2, "111");
        try_burst("a data bit and the header after", groups[group], next - 1, "111");
        try_burst("the header and a data bit after", groups[group], next, "111");
        try_burst("half a header and two data bits after", groups[group], next + 1, "111");
    }
    for (size rank = 0; rank < 3 * GROUPS; rank++)
        try_burst("a header of the parity of", groups[rank / 3], place_of(CRC3, 5, DATA_BITS + rank), "11");
}

/* Every burst of at most 3 bits that begins in multiblock 5. */
static void run_every_burst(void) {
    static const char *const patterns[4] = {"1", "11", "101", "111"};
    struct kept kept = {0};
    begin(CRC3);
    for (size bit = 0; bit < per_multiblock(); bit++)
        for (int k = 0; k < 4; k++) {
            hit_burst(5 * per_multiblock() + bit, patterns[k]);
            released = receive(CRC3, zaytulobe_fresh_receiver(), BEFORE, 9, &out, 0).count;
            count_kept(&kept);
            hit_burst(5 * per_multiblock() + bit, patterns[k]);
        }
    printf("CRC-3, every burst of at most 3 bits that begins in multiblock 5, one at a time: %lu\n", 4 * per_multiblock());
    print_kept(kept);
}

/* What came of the multiblocks from one to another, after what was flipped. */
static void tell(const char *label, u8 mode, size first, size last) {
    end(mode);
    printf("%s\n  ", label);
    print_flips(mode);
    print_multiblocks(first, last);
}

static void run_long_bursts(void) {
    begin(FEC);
    hit_burst(place_of(FEC, 5, 200), "1111111111");
    tell("At most 9 bits is needed with FEC: a burst of 10 is not mended.", FEC, 5, 6);
    begin(FEC);
    hit_burst(place_of(FEC, 5, 200), "1000000001");
    tell("At most 9 bits is needed with FEC: a burst of 10 is not mended, if only its ends are flipped.", FEC, 5, 6);
    begin(CRC12);
    hit_burst(place_of(CRC12, 5, 200), "1001100001111");
    tell("At most 12 bits is needed with CRC-12: a burst of 13 goes unnoticed, if it is the polynomial.", CRC12, 5, 6);
    begin(CRC3);
    hit_burst(place_of(CRC3, 5, 200), "1011");
    tell("At most 3 bits is needed with CRC-3: a burst of 4 goes unnoticed, if it is the polynomial.", CRC3, 5, 6);
    begin(CRC3);
    hit_burst(place_of(CRC3, 5, 200), "1111");
    tell("At most 3 bits is needed with CRC-3, although it notices other bursts of 4.", CRC3, 5, 6);
}

/* With fill bits a burst on the lane is a shorter one in the codeword: of ten lane bits in a row two are of a header or a gap. */
static void run_long_bursts_80(void) {
    static const char polynomial[] = "1001100001111";
    begin(FEC_80);
    hit_burst(place_of(FEC_80, 5, 200), "1111111111");
    tell("A burst of 10 is mended with FEC-80, since two of its bits are fill bits.", FEC_80, 5, 6);
    begin(FEC_80);
    hit_burst(place_of(FEC_80, 5, 207), "11111111111");
    tell("A burst of 11 is mended with FEC-80, since two of its bits are fill bits.", FEC_80, 5, 6);
    begin(FEC_80);
    hit_burst(place_of(FEC_80, 5, 206), "111111111111");
    tell("A burst of 12 is not mended with FEC-80, if ten of its bits are data.", FEC_80, 5, 6);
    begin(CRC12_80);
    for (size k = 0; polynomial[k] != 0; k++)
        if (polynomial[k] == '1')
            hit(place_of(CRC12_80, 5, 200 + k));
    tell("A burst of 15 goes unnoticed with CRC-12-80, if it is the polynomial without the fill bits.", CRC12_80, 5, 6);
}

/* The flips of 12 bits that make up for one flip so many positions before the last of them: the power of x modulo the
   polynomial of CRC-12. */
static u32 made_up(size power) {
    u32 remainder = 1;
    for (size k = 0; k < power; k++)
        remainder = remainder << 1 ^ (remainder >> 11) * 0x130F;
    return remainder;
}

/* What came of multiblocks 5 and 6 after two hits, with the clear bits between the first burst, of so many bits, and the next. */
static void tell_close(u8 mode, const char *hits, size bits, const char *outcome) {
    size first = 0, next;
    while (!flipped[first])
        first++;
    for (next = first + bits; !flipped[next];)
        next++;
    size clear = next - first - bits;
    end(mode);
    printf("Clear bits are needed with %s: two %s with ", name_of(mode), hits);
    if (clear >= 1000)
        printf("%lu,", clear / 1000);
    printf(clear >= 1000 ? "%03lu" : "%lu", clear % 1000);
    printf(" clear bits between %s.\n  ", outcome);
    print_flips(mode);
    print_multiblocks(5, 6);
}

static void run_close_bursts(u8 crc12, u8 fec) {
    begin(fec);
    hit(place_of(fec, 5, 0));
    hit(place_of(fec, 5, 10));
    tell_close(fec, "flips", 1, "are taken for another burst");
    begin(fec);
    hit_burst(place_of(fec, 5, 0), "111111111");
    hit_burst(place_of(fec, 5, 1950), "111111111");
    tell_close(fec, "bursts", 9, "are not mended");
    begin(fec);
    hit(place_of(fec, 5, 0));
    hit_burst(place_of(fec, 5, 2073), "11");
    tell_close(fec, "bursts", 1, "are not mended");
    begin(crc12);
    hit(place_of(crc12, 5, 0));
    for (size k = 0; k < 12; k++)
        if (made_up(2011) >> (11 - k) & 1)
            hit(place_of(crc12, 5, 2000 + k));
    tell_close(crc12, "bursts", 1, "go unnoticed");
}

/* In a group of CRC-3 two flips seven positions apart, or any multiple of seven, have the same remainder, since x^7 is 1; the first data
   bit and the last are 511 apart. The fourth data bit has remainder 1, which the last header of the parity makes up for. */
static void run_close_bursts_crc3(void) {
    begin(CRC3);
    hit(place_of(CRC3, 5, 200));
    hit(place_of(CRC3, 5, 207));
    tell_close(CRC3, "flips", 1, "go unnoticed");
    begin(CRC3);
    hit(place_of(CRC3, 5, 0));
    hit(place_of(CRC3, 5, GROUP_BITS - 1));
    tell_close(CRC3, "flips", 1, "go unnoticed");
    begin(CRC3);
    hit(place_of(CRC3, 5, 3));
    hit_burst(place_of(CRC3, 5, DATA_BITS + 2), "11");
    tell_close(CRC3, "bursts", 1, "go unnoticed");
}

static void run_first_fec(u8 mode) {
    begin(mode);
    tell("After the first is needed with FEC: the history before the first is unknown.", mode, 0, 1);
}

/* A sentence about the code of the mode: what comes before its name, and after. */
static void tell_of(const char *before, const char *after, u8 mode, size first, size last) {
    end(mode);
    printf("%s %s%s\n  ", before, code_of(mode), after);
    print_flips(mode);
    print_multiblocks(first, last);
}

static void run_first_crc(u8 mode) {
    begin(mode);
    tell_of("Octets 0 to 7 of the first are not sound with", ": the history before it is unknown.", mode, 0, 1);
}

/* Of CRC-3 the headers of the one after carry the last group's parity alone. */
static void run_neighbours(u8 mode) {
    begin(mode);
    hit(place_of(mode, 5, 2047));
    tell_of("Octet 7 after a failed multiblock is not sound with", ", although its own parity agrees.", mode, 5, 6);
    begin(mode);
    hit(place_of(mode, 5, 100));
    tell_of("Both neighbours are needed with", ": after a hit in the one before, multiblock 6 is not trusted.", mode, 6, 6);
    begin(mode);
    hit_burst(place_of(mode, 6, mode == CRC3 ? 2057 : 2048), "11");
    tell_of("Both neighbours are needed with", ": the headers of the one after carry the parity of multiblock 6.", mode, 6, 6);
    begin(mode);
    hit(place_of(mode, 7, 100));
    tell("Data of the one after don't matter.", mode, 6, 6);
}

/* How many multiblocks are released as they are without a hit, after every fill bit was flipped. */
static void run_fill(u8 mode) {
    static struct releases clean;
    size same = 0;
    begin(mode);
    end(mode);
    clean = out;
    flip_fill(mode, BEFORE, COUNT);
    end(mode);
    for (size k = 0; k < released; k++)
        same += memcmp(clean.octets + USER_OCTETS * k, out.octets + USER_OCTETS * k, USER_OCTETS) == 0
            && clean.statuses[k] == out.statuses[k] && clean.commands[k] == out.commands[k];
    printf("No premise is needed of fill bits: all of them are flipped.\n");
    printf("  %s, fill bits flipped: %lu, of %lu released as without a hit: %lu\n", name_of(mode), 7 * gap(mode) * BLOCKS * COUNT,
        released, same);
}

static void lose_bit(size lost) {
    size start = per_multiblock() * BEFORE;
    for (size bit = start + lost; bit + 1 < start + all_bits(); bit++)
        if (lane_bit(bit) != lane_bit(bit + 1))
            flip_bit(bit);
}

/* The statuses of all that was released, and how many of the multiblocks from one on came as they were sent. */
static void print_statuses(const char *label, u8 mode, size first) {
    size same = 0;
    printf("%s\n  %s, statuses", label, name_of(mode));
    for (size k = 0; k < released; k++)
        printf(" %d", out.statuses[k]);
    for (size k = first; k < released; k++)
        same += wrong_octets(k, 0) == 0;
    printf("; with octets as sent of %lu from multiblock %lu on: %lu\n", released - first, first, same);
}

static void run_other_clauses(u8 mode) {
    begin(mode);
    lose_bit(per_multiblock() * 5 + 1000);
    end(mode);
    print_statuses("No bit gained or lost is needed: bit 1,000 of multiblock 5 is lost.", mode, 5);
    begin(mode);
    for (size k = 0; k < per_block(); k++)
        lose_bit(0);
    end(mode);
    print_statuses("A multiblock boundary is needed: the receiver starts a block late.", mode, 0);
    begin(has_fec(mode) ? mode - 1 : mode + 1);
    hit(place_of(mode, 5, 100));
    end(mode);
    print_statuses("The lane's mode is needed: the lane is of the other mode, and a data bit of multiblock 5 is flipped.", mode, 1);
}

/* Nothing of mode 5 is checked: whatever is flipped, the status of the first is 4, and that of the others 0. */
static void run_unchecked(void) {
    begin(COMMAND);
    tell("An undamaged lane of mode 5 is received as it was sent after the first.", COMMAND, 0, 1);
    print_statuses("So are the others.", COMMAND, 1);
    begin(COMMAND);
    hit(place_of(COMMAND, 5, 100));
    tell("A flip goes unnoticed with mode 5.", COMMAND, 5, 6);
    begin(COMMAND);
    hit(place_of(COMMAND, 5, 2047));
    tell("A flip in the last bits reaches the next multiblock, which has status 0 too.", COMMAND, 5, 6);
    begin(COMMAND);
    for (size bit = 5 * per_multiblock(); bit < 9 * per_multiblock(); bit++)
        hit(bit);
    end(COMMAND);
    print_statuses("Every bit of multiblocks 5 to 8 is flipped, headers too.", COMMAND, 1);
}

/* A state that says that it trusts the history before the lane, and has another one. */
static void run_trusting(void) {
    begin(CRC12);
    struct zaytulobe_receiver state = receive(CRC12, zaytulobe_fresh_receiver(), BEFORE, 1, &out, 0).state;
    state.trusted = 1;
    released = receive(CRC12, state, BEFORE + 1, COUNT - 1, &out, 0).count;
    printf("A fresh receiver is needed: a state given by the caller trusts a wrong history.\n");
    print_multiblocks(0, 1);
}

int main(void) {
    run_example(FEC, "111111111", "100000001");
    run_example(CRC12, "111111111111", "100000000001");
    run_example(FEC_80, "111111111", "100000001");
    run_example(CRC12_80, "111111111111", "100000000001");
    run_example(CRC3, "111", "101");
    run_group_edges();
    run_every_burst();
    run_long_bursts();
    run_long_bursts_80();
    run_close_bursts(CRC12, FEC);
    run_close_bursts(CRC12_80, FEC_80);
    run_close_bursts_crc3();
    run_first_fec(FEC);
    run_first_crc(CRC12);
    run_first_fec(FEC_80);
    run_first_crc(CRC12_80);
    run_first_crc(CRC3);
    run_neighbours(CRC12);
    run_neighbours(CRC12_80);
    run_neighbours(CRC3);
    run_other_clauses(FEC);
    run_other_clauses(CRC12);
    run_other_clauses(FEC_80);
    run_other_clauses(CRC12_80);
    run_other_clauses(CRC3);
    run_fill(FEC_80);
    run_fill(CRC12_80);
    run_unchecked();
    run_trusting();
    return 0;
}
