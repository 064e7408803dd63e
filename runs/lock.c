/* The locks at the edges of their tables and along lanes that the sender made: document 01, "Lock tables" and "Numbers of
   refusal"; of offsets modulo 80 document 02, request 2; of the kept phase request 4; of modes 4 and 5 request 5. A line says what was
   tried and what came out; lock.txt has the lines expected. */
#include "lane.h"

enum { INVALID = 0, ONE = 1, ZERO = 2, ALSO_INVALID = 3 };
enum { HUNTING = ZAYTULOBE_HUNTING, FOLLOWING = ZAYTULOBE_FOLLOWING, LOCKED = ZAYTULOBE_LOCKED };

typedef struct zaytulobe_lock locks;

static locks stepped(u8 mode, u32 e, locks state, u8 header) {
    struct zaytulobe_stepped next = zaytulobe_lock_step(mode, e, state, header);
    if (next.refusal != ZAYTULOBE_ACCEPTED)
        stop("the locks refused");
    return next.lock;
}

/* The state after one header value some times over. */
static locks fed_in(u8 mode, locks state, u8 header, u32 count) {
    for (u32 k = 0; k < count; k++)
        state = stepped(mode, 1, state, header);
    return state;
}

static locks fed(locks state, u8 header, u32 count) {
    return fed_in(CRC12, state, header, count);
}

static void print_header(const char *label, locks state) {
    struct zaytulobe_header_lock header = state.header;
    printf("%s: %s, ", label, header.locked ? "locked" : "hunting");
    printf("offset %u, run %u, bad %u\n", header.offset, header.run, header.bad);
}

static void run_header(void) {
    locks fresh = zaytulobe_fresh_lock(), locked = fed(fresh, ONE, 64), worn = fed(locked, INVALID, 15);
    print_header("header lock, fresh", fresh);
    print_header("header lock, fresh, 63 valid headers", fed(fresh, ONE, 63));
    print_header("header lock, fresh, 64 valid headers", fed(fresh, ZERO, 64));
    print_header("header lock, fresh, 1 invalid header", fed(fresh, INVALID, 1));
    print_header("header lock, fresh, 65 invalid headers", fed(fresh, ALSO_INVALID, 65));
    print_header("header lock, fresh, 66 invalid headers", fed(fresh, ALSO_INVALID, 66));
    print_header("header lock, fresh, 63 valid headers, 1 invalid", fed(fed(fresh, ONE, 63), ALSO_INVALID, 1));
    print_header("header lock, locked, 15 invalid headers", worn);
    print_header("header lock, locked, 16 invalid headers", fed(locked, INVALID, 16));
    print_header("header lock, locked, 15 invalid headers, 63 valid", fed(worn, ONE, 63));
    print_header("header lock, locked, 15 invalid headers, 63 valid, 1 invalid", fed(fed(worn, ONE, 63), INVALID, 1));
    print_header("header lock, locked, 15 invalid headers, 64 valid", fed(worn, ONE, 64));
    print_header("header lock, locked, 15 invalid headers, 64 valid, 1 invalid", fed(fed(worn, ONE, 64), INVALID, 1));
    print_header("header lock, at offset 5, 64 valid headers, 16 invalid", fed(fed(fed(fresh, INVALID, 5), ONE, 64), INVALID, 16));
}

/* Only the offset goes by the width of a block. */
static void run_header_80(u8 mode) {
    locks fresh = zaytulobe_fresh_lock(), last = fed_in(mode, fresh, INVALID, 79);
    printf("%s:\n", name_of(mode));
    print_header("  header lock, fresh, 66 invalid headers", fed_in(mode, fresh, INVALID, 66));
    print_header("  header lock, fresh, 79 invalid headers", last);
    print_header("  header lock, fresh, 80 invalid headers", fed_in(mode, last, ALSO_INVALID, 1));
    locks locked = fed_in(mode, last, ZERO, 64);
    print_header("  header lock, at offset 79, 64 valid headers, 16 invalid", fed_in(mode, locked, INVALID, 16));
}

static u8 header_at(size bit) {
    return (u8)(2 * lane_bit(bit) + lane_bit(bit + 1));
}

static int both_held(locks state) {
    return state.header.locked == 1 && state.extended.phase == LOCKED;
}

/* After how many blocks of the lane, from one of its blocks on, both locks are first held; 0 if not within so many. */
static size both_after(u8 mode, u32 e, size from, size most) {
    locks state = zaytulobe_fresh_lock();
    for (size k = 0; k < most; k++) {
        state = stepped(mode, e, state, header_at(block_bits(mode) * (from + k)));
        if (both_held(state))
            return k + 1;
    }
    return 0;
}

static void print_start(u8 mode, u32 e, size from) {
    size bound = 95 + 128 * e, after = both_after(mode, e, from, bound);
    printf("  begun at block %lu of an extended multiblock: both locks ", from);
    printf(after ? "first held after %lu blocks\n" : "not held within %lu blocks\n", after ? after : bound);
}

/* From every so many blocks of the first extended multiblock. The block 95 before its end is among them: one block too few
   for header lock and 32 headers more, so that this end is missed, and the wait is the longest. */
static void print_range(u8 mode, u32 e, size step) {
    size bound = 95 + 128 * e, blocks = BLOCKS * e, least = bound, most = 0, held = 0, count = 0;
    for (size from = (3 * blocks - 95) % blocks % step; from < blocks; from += step, count++) {
        size after = both_after(mode, e, from, bound);
        held += after != 0;
        least = after != 0 && after < least ? after : least;
        most = after > most ? after : most;
    }
    printf("  begun at each of %lu blocks: both locks held within 95+128E = %lu blocks from %lu of them", count, bound, held);
    printf(held ? ", first after %lu to %lu\n" : "\n", least, most);
}

enum { STARTS = 5 };

static void run_starts(u8 mode, u32 e, const size starts[STARTS], size step) {
    for (size k = 0; k < STARTS; k++)
        print_start(mode, e, starts[k]);
    print_range(mode, e, step);
}

/* Lanes of user octets without a plan, and with FEC also of zeros, whose parity is 0 throughout. */
static void run_lanes(u32 e, const size starts[STARTS], size step) {
    size multiblocks = (160 * e + 95) / BLOCKS + 1;
    make_lane(CRC12, e, multiblocks);
    printf("CRC-12, E %u, a lane of various octets:\n", e);
    run_starts(CRC12, e, starts, step);
    make_lane(FEC, e, multiblocks);
    printf("FEC, E %u, a lane of various octets, whose parity may look like an end mark:\n", e);
    run_starts(FEC, e, starts, step);
    memset(user, 0, sizeof user);
    send_user(FEC, e, multiblocks);
    printf("FEC, E %u, a lane of zero octets, whose parity is 0:\n", e);
    run_starts(FEC, e, starts, step);
}

/* The bound is promised of CRC-12, whatever the width, and of CRC-3 and mode 5, whose sync words have the same fixed bits. */
static void run_bound(u8 mode, u32 e, const size starts[STARTS], size step) {
    make_lane(mode, e, (160 * e + 95) / BLOCKS + 1);
    printf("%s, E %u, a lane of various octets:\n", name_of(mode), e);
    run_starts(mode, e, starts, step);
}

static void run_all_lanes(void) {
    static const size one[STARTS] = {0, 1, 2, 16, 31}, two[STARTS] = {0, 32, 33, 34, 63};
    static const size many[STARTS] = {0, 4096, 8096, 8097, 8098};
    run_lanes(1, one, 1);
    run_lanes(2, two, 1);
    run_lanes(256, many, 63);
    static const u8 bounded[3] = {CRC12_80, CRC3, COMMAND};
    for (int k = 0; k < 3; k++) {
        run_bound(bounded[k], 1, one, 1);
        run_bound(bounded[k], 2, two, 1);
        run_bound(bounded[k], 256, many, 63);
    }
}

/* The header is read where the offset says: an invalid one moves it on. */
static void run_slips(u8 mode, size from) {
    locks state = zaytulobe_fresh_lock();
    size blocks = 0, most = BLOCKS * most_multiblocks(mode) - 2;
    make_lane(mode, 1, most_multiblocks(mode));
    for (; !state.header.locked && blocks < most; blocks++)
        state = stepped(mode, 1, state, header_at(from + state.header.offset + block_bits(mode) * blocks));
    printf("%s, a lane read from its bit %lu on: header lock %s, offset %u\n", name_of(mode), from,
        state.header.locked ? "held" : "NOT HELD", state.header.offset);
}

/* What comes after the label. */
static void print_fields(locks state) {
    static const char *const phases[] = {"hunting", "following", "locked"};
    struct zaytulobe_extended_lock extended = state.extended;
    printf(": %s, seen %u, good %u, bad %u, next look in %u, kept %u\n", phases[extended.phase], extended.seen, extended.good,
        extended.bad, extended.next, extended.kept);
}

static void print_extended(const char *label, locks state) {
    printf("  %s", label);
    print_fields(state);
}

/* So many multiblocks, each with the end mark or without it. */
static locks fed_words(u32 e, locks state, size count, int mark) {
    u32 word = mark ? 0x11111701 : 0x11111501;
    for (size k = 0; k < BLOCKS * count; k++)
        state = stepped(CRC12, e, state, word >> (31 - k % BLOCKS) & 1 ? ONE : ZERO);
    return state;
}

static void run_extended(void) {
    locks fresh = zaytulobe_fresh_lock(), held = fed_words(1, fresh, 2, 1), three = fed_words(1, held, 3, 1);
    locks locked = fed_words(1, held, 4, 1), worn = fed_words(1, locked, 7, 0);
    printf("Extended lock, CRC-12, E 1, multiblocks with all fields 0:\n");
    print_extended("2 with the end mark, which give header lock", held);
    print_extended("then 1 without", fed_words(1, held, 1, 0));
    print_extended("then 1 with", fed_words(1, held, 1, 1));
    print_extended("then 3 with", three);
    print_extended("then 3 with, 1 without", fed_words(1, three, 1, 0));
    print_extended("then 4 with", locked);
    print_extended("then 4 with, 7 without", worn);
    print_extended("then 4 with, 7 without, 1 with", fed_words(1, worn, 1, 1));
    print_extended("then 4 with, 8 without", fed_words(1, worn, 1, 0));
    print_extended("then 4 with, 15 invalid headers", fed(locked, INVALID, 15));
    print_extended("then 4 with, 16 invalid headers", fed(locked, INVALID, 16));
    printf("Extended lock, CRC-12, E 2, multiblocks with all fields 0:\n");
    held = fed_words(2, fresh, 3, 1);
    print_extended("3 with the end mark", held);
    print_extended("then 6 with, of which every other is between two looks", fed_words(2, held, 6, 1));
    print_extended("then 1 without, between two looks", fed_words(2, held, 1, 0));
    print_extended("then 2 without", fed_words(2, held, 2, 0));
    locks kept = fed_words(2, held, 1, 1);
    print_extended("then 1 with, between two looks", kept);
    print_extended("then 2 with", fed_words(2, kept, 1, 1));
    print_extended("then 1 with, 1 without", fed_words(2, kept, 1, 0));
    print_extended("then 1 with, 3 without", fed_words(2, kept, 3, 0));
}

/* Headers that carry 0 but for pilots, fed to fresh locks from the first on, whose block is 1. */
enum { MOST_PLANTED = 640, NO_PILOT = 0 };
static u8 planted[MOST_PLANTED];

/* Pilots that end in these blocks, up to the first that is none: the end mark stands nine blocks before the last, 0 in the four
   before the last, and 1 in the last. */
static void plant(const size *blocks) {
    memset(planted, ZERO, sizeof planted);
    for (; *blocks != NO_PILOT; blocks++) {
        u8 *last = planted + *blocks - 1;
        last[-9] = ONE;
        memset(last - 4, ZERO, 4);
        last[0] = ONE;
    }
}

static void print_pilots(u32 e, const size *blocks) {
    printf("FEC, E %u, headers that carry 0 but for pilots that end in blocks", e);
    for (; *blocks != NO_PILOT; blocks++)
        printf(" %lu", *blocks);
    printf(":\n");
}

static locks after_planted(u32 e, size blocks) {
    locks state = zaytulobe_fresh_lock();
    for (size k = 0; k < blocks; k++)
        state = stepped(FEC, e, state, planted[k]);
    return state;
}

/* After a block, and what is there. */
struct look {
    size block;
    const char *what;
};

/* The states after some blocks, up to the first that is none. */
static void run_planted(u32 e, const size *blocks, const struct look *looks) {
    plant(blocks);
    print_pilots(e, blocks);
    for (; looks->block != NO_PILOT; looks++) {
        printf("  after block %lu%s", looks->block, looks->what);
        print_fields(after_planted(e, looks->block));
    }
}

/* Each row of the table while following. Header lock is held from block 64 on, and a match may come from block 96 on. */
static void run_kept_rows(void) {
    static const size blocks[] = {104, 124, 144, 168, NO_PILOT};
    static const struct look looks[] = {
        {103, ""}, {104, ", a match while hunting"}, {123, ""}, {124, ", a match between two looks"}, {125, ""}, {143, ""},
        {144, ", a later match"}, {167, ""}, {168, ", a look with a match"}, {187, ""},
        {188, ", the kept phase's own pass, no match"}, {189, ""}, {231, ""}, {232, ", a look without a match"}, {251, ""},
        {252, ", a look without a match, nothing kept"}, {NO_PILOT, 0}};
    run_planted(2, blocks, looks);
}

/* A match at the kept phase's own pass; and one kept again after the kept one was followed. */
static void run_kept_passes(void) {
    static const size blocks[] = {104, 124, 168, 188, 240, 252, NO_PILOT};
    static const struct look looks[] = {
        {187, ""}, {188, ", the kept phase's own pass, a match"}, {231, ""}, {232, ", a look without a match"},
        {240, ", a match between two looks"}, {251, ""}, {252, ", a look with a match"}, {316, ", a look without a match"},
        {368, ", a look without a match, nothing kept"}, {NO_PILOT, 0}};
    run_planted(2, blocks, looks);
}

static void run_kept_dropped(void) {
    static const size blocks[] = {104, 124, 168, 232, 296, 316, NO_PILOT};
    static const struct look looks[] = {
        {232, ", a look with a match"}, {295, ""}, {296, ", a look with a match, which locks"},
        {316, ", a match between two looks"}, {360, ", a look without a match"}, {NO_PILOT, 0}};
    run_planted(2, blocks, looks);
}

static void run_kept_by_32(void) {
    static const size blocks[] = {104, 114, 136, NO_PILOT};
    static const struct look looks[] = {
        {113, ""}, {114, ", a match between two looks"}, {135, ""}, {136, ", a look with a match"}, {145, ""},
        {146, ", the kept phase's own pass, no match"}, {168, ", a look without a match"},
        {178, ", a look without a match, nothing kept"}, {NO_PILOT, 0}};
    run_planted(1, blocks, looks);
}

static void run_kept_at_last(void) {
    static const size blocks[] = {104, 167, NO_PILOT};
    static const struct look looks[] = {
        {166, ""}, {167, ", a match one block before the look"}, {168, ", a look without a match"}, {230, ""},
        {231, ", a look without a match, nothing kept"}, {NO_PILOT, 0}};
    run_planted(2, blocks, looks);
}

static void run_kept_and_header_lock(void) {
    static const size blocks[] = {104, 124, NO_PILOT};
    plant(blocks);
    print_pilots(2, blocks);
    locks worn = after_planted(2, 124);
    for (u32 k = 0; k < 15; k++)
        worn = stepped(FEC, 2, worn, INVALID);
    print_extended("after block 124, then 15 invalid headers", worn);
    print_extended("after block 124, then 16 invalid headers", stepped(FEC, 2, worn, INVALID));
}

static void run_all_kept(void) {
    run_kept_rows();
    run_kept_passes();
    run_kept_dropped();
    run_kept_by_32();
    run_kept_at_last();
    run_kept_and_header_lock();
}

/* Two lanes that are locked later than by document 01's table, which ignores matches between two looks: by that table, of which
   `second locking` prints it (second/expected/locking.txt), both locks are held after 414 and after 433 headers. */
static void run_later(const size *blocks) {
    plant(blocks);
    print_pilots(2, blocks);
    locks state = zaytulobe_fresh_lock();
    size fed_headers = 0;
    while (fed_headers < MOST_PLANTED && !both_held(state))
        state = stepped(FEC, 2, state, planted[fed_headers++]);
    printf("  both locks %s after %lu headers\n", both_held(state) ? "first held" : "NOT HELD", fed_headers);
}

static void run_late_lanes(void) {
    static const size asked[] = {151, 183, 222, 247, 286, 311, 350, 414, 478, 542, NO_PILOT};
    static const size failed[] = {102, 135, 166, 241, 263, 305, 369, 433, 497, NO_PILOT};
    run_later(asked);
    run_later(failed);
}

/* Every multiblock on the lane has the same scrambled octets, all 0 but the last, which is 9: each user bit is the bit sent, plus
   those sent 39 and 58 earlier, and 0 before the first. Their parity, the same in every sync word but the first, has a pilot in
   it that ends in block 13 (`second locking` has the search). */
static u8 repeated_bit(size n) {
    return n % DATA_BITS < DATA_BITS - 8 ? 0 : 9 >> (7 - n % 8) & 1;
}

static void repeat_multiblocks(size multiblocks) {
    memset(user, 0, sizeof user);
    for (size n = 0; n < DATA_BITS * multiblocks; n++) {
        u8 near = n < 39 ? 0 : repeated_bit(n - 39), far = n < 58 ? 0 : repeated_bit(n - 58);
        user[n / 8] |= (u8)((repeated_bit(n) ^ near ^ far) << (7 - n % 8));
    }
}

enum { REPEATED = 40 };

/* How many data bits of the lane aren't those that repeat. */
static size unlike_repeated(void) {
    size wrong = 0;
    for (size n = 0; n < DATA_BITS * REPEATED; n++)
        wrong += lane_bit(place_of(FEC, n / DATA_BITS, n % DATA_BITS)) != repeated_bit(n);
    return wrong;
}

/* Whether the locks, begun at one block and first held at another, are held there at the lane's end too: no look was missed, and the
   next one is whole periods from there. */
static int held_to_the_end(u32 e, size from, size block) {
    size blocks = BLOCKS * REPEATED;
    locks state = zaytulobe_fresh_lock();
    for (size k = from; k < blocks; k++)
        state = stepped(FEC, e, state, header_at(block_bits(FEC) * k));
    return both_held(state) && state.extended.bad == 0 && (blocks - 1 + state.extended.next - block) % (BLOCKS * e) == 0;
}

static void print_distances(size starts, const size *from_distance) {
    for (size distance = 0; distance < starts; distance++)
        if (from_distance[distance] != 0)
            printf("  both locks first held %lu blocks before the true end: begun at %lu of %lu blocks\n", distance,
                from_distance[distance], starts);
}

/* From each block of the first extended multiblock: how far before its end both locks are first held. */
static void run_repeating(u32 e) {
    size starts = BLOCKS * e, from_distance[2 * BLOCKS] = {0}, lost = 0;
    repeat_multiblocks(REPEATED);
    send_user(FEC, e, REPEATED);
    printf("FEC, E %u, %d multiblocks with the same scrambled octets, %lu bits unlike them:\n", e, REPEATED, unlike_repeated());
    for (size from = 0; from < starts; from++) {
        size block = from + both_after(FEC, e, from, BLOCKS * REPEATED - from) - 1;
        from_distance[starts - 1 - block % starts]++;
        lost += !held_to_the_end(e, from, block);
    }
    print_distances(starts, from_distance);
    printf("  not held there at the lane's end: begun at %lu of them\n", lost);
}

static int same_locks(locks one, locks other) {
    return memcmp(&one, &other, sizeof one) == 0;
}

static void try_step(const char *label, u8 mode, u32 e, locks state, u8 header) {
    struct zaytulobe_stepped next = zaytulobe_lock_step(mode, e, state, header);
    printf("%s: ", label);
    if (next.refusal == ZAYTULOBE_ACCEPTED)
        printf("accepted\n");
    else
        printf("refused %d, %s\n", next.refusal, same_locks(next.lock, state) ? "the state given" : "ANOTHER STATE");
}

static void run_calls(void) {
    locks fresh = zaytulobe_fresh_lock(), broken = {.header = {.offset = 66}}, broken_80 = {.header = {.offset = 80}};
    try_step("mode 0", 0, 1, fresh, 1);
    try_step("mode 1", 1, 1, fresh, 1);
    try_step("mode 2", 2, 1, fresh, 1);
    try_step("mode 3", 3, 1, fresh, 1);
    try_step("mode 4", 4, 1, fresh, 1);
    try_step("mode 5", 5, 1, fresh, 1);
    try_step("mode 6", 6, 1, fresh, 1);
    try_step("mode 255", 255, 1, fresh, 1);
    try_step("E 0", 0, 0, fresh, 1);
    try_step("E 1", 0, 1, fresh, 1);
    try_step("E 256", 0, 256, fresh, 1);
    try_step("E 257", 0, 257, fresh, 1);
    try_step("header 0", 0, 1, fresh, 0);
    try_step("header 3", 0, 1, fresh, 3);
    try_step("header 4", 0, 1, fresh, 4);
    try_step("header 255", 0, 1, fresh, 255);
    try_step("mode 6 and E 0", 6, 0, fresh, 1);
    try_step("E 0 and offset 66", 0, 0, broken, 1);
    try_step("offset 66 and header 4", 0, 1, broken, 4);
    try_step("mode 6, E 0, offset 66 and header 4", 6, 0, broken, 4);
    try_step("mode 2, offset 66 and header 4", 2, 1, broken, 4);
    try_step("mode 2, offset 80 and header 4", 2, 1, broken_80, 4);
    try_step("mode 2, E 0 and offset 80", 2, 0, broken_80, 1);
}

/* Offsets at the edge of each width, in each mode. */
static void try_offset(u32 locked, u32 offset) {
    locks state = {.header = {.locked = locked, .offset = offset}};
    printf("header lock %s, offset %u:", locked ? "locked" : "hunting", offset);
    for (u8 mode = 0; mode < MODES; mode++) {
        int refusal = zaytulobe_lock_step(mode, 1, state, 1).refusal;
        printf("%s %s ", mode == CRC12 ? "" : ",", name_of(mode));
        printf(refusal == ZAYTULOBE_ACCEPTED ? "accepted" : "refused %d", refusal);
    }
    printf("\n");
}

static void run_offsets(void) {
    static const u32 offsets[4] = {65, 66, 79, 80};
    for (u32 locked = 0; locked < 2; locked++)
        for (int k = 0; k < 4; k++)
            try_offset(locked, offsets[k]);
}

static void try_header(const char *label, u32 locked, u32 offset, u32 run, u32 bad) {
    locks state = {.header = {locked, offset, run, bad}};
    try_step(label, CRC12, 1, state, 1);
}

static void run_header_states(void) {
    try_header("header lock hunting, offset 65", 0, 65, 0, 0);
    try_header("header lock hunting, offset 66", 0, 66, 0, 0);
    try_header("header lock hunting, run 63", 0, 0, 63, 0);
    try_header("header lock hunting, run 64", 0, 0, 64, 0);
    try_header("header lock hunting, bad 1", 0, 0, 0, 1);
    try_header("header lock locked, offset 65", 1, 65, 0, 0);
    try_header("header lock locked, offset 66", 1, 66, 0, 0);
    try_header("header lock locked, run 63", 1, 0, 63, 0);
    try_header("header lock locked, run 64", 1, 0, 64, 0);
    try_header("header lock locked, bad 15", 1, 0, 0, 15);
    try_header("header lock locked, bad 16", 1, 0, 0, 16);
    try_header("header lock given as 2", 2, 0, 0, 0);
}

static void try_extended(const char *label, u32 e, u32 locked, struct zaytulobe_extended_lock extended) {
    locks state = {{.locked = locked}, extended};
    try_step(label, CRC12, e, state, 1);
}

static void try_hunting(const char *label, u32 locked, u32 seen, u32 headers, u32 good, u32 bad, u32 next) {
    struct zaytulobe_extended_lock extended = {HUNTING, seen, headers, good, bad, next, 0};
    try_extended(label, 1, locked, extended);
}

static void run_hunting_states(void) {
    try_hunting("header lock hunting, seen 1", 0, 1, 0, 0, 0, 0);
    try_hunting("header lock hunting, headers 1", 0, 0, 1, 0, 0, 0);
    try_hunting("extended lock hunting, seen 32, all of them 1", 1, 32, 0xffffffff, 0, 0, 0);
    try_hunting("extended lock hunting, seen 33", 1, 33, 0, 0, 0, 0);
    try_hunting("extended lock hunting, seen 31, headers 2^31 - 1", 1, 31, 0x7fffffff, 0, 0, 0);
    try_hunting("extended lock hunting, seen 31, headers 2^31", 1, 31, 0x80000000, 0, 0, 0);
    try_hunting("extended lock hunting, seen 0, headers 1", 1, 0, 1, 0, 0, 0);
    try_hunting("extended lock hunting, good 1", 1, 32, 0, 1, 0, 0);
    try_hunting("extended lock hunting, bad 1", 1, 32, 0, 0, 1, 0);
    try_hunting("extended lock hunting, next look in 1", 1, 32, 0, 0, 0, 1);
}

static void try_looking(const char *label, u32 phase, u32 e, u32 good, u32 bad, u32 next) {
    struct zaytulobe_extended_lock extended = {phase, 32, 0, good, bad, next, 0};
    try_extended(label, e, 1, extended);
}

static void run_following_states(void) {
    struct zaytulobe_extended_lock bare = {FOLLOWING, 0, 0, 1, 0, 1, 0};
    try_extended("header lock hunting, extended lock following", 1, 0, bare);
    try_extended("extended lock following, seen 0", 1, 1, bare);
    try_looking("extended lock following, good 0", FOLLOWING, 1, 0, 0, 1);
    try_looking("extended lock following, good 1", FOLLOWING, 1, 1, 0, 1);
    try_looking("extended lock following, good 3", FOLLOWING, 1, 3, 0, 1);
    try_looking("extended lock following, good 4", FOLLOWING, 1, 4, 0, 1);
    try_looking("extended lock following, bad 1", FOLLOWING, 1, 1, 1, 1);
    try_looking("extended lock following, next look in 0", FOLLOWING, 1, 1, 0, 0);
    try_looking("extended lock following, E 1, next look in 32", FOLLOWING, 1, 1, 0, 32);
    try_looking("extended lock following, E 1, next look in 33", FOLLOWING, 1, 1, 0, 33);
    try_looking("extended lock following, E 2, next look in 64", FOLLOWING, 2, 1, 0, 64);
    try_looking("extended lock following, E 2, next look in 65", FOLLOWING, 2, 1, 0, 65);
}

static void run_locked_states(void) {
    struct zaytulobe_extended_lock bare = {LOCKED, 0, 0, 0, 0, 1, 0};
    try_extended("header lock hunting, extended lock locked", 1, 0, bare);
    try_looking("extended lock locked, good 1", LOCKED, 1, 1, 0, 1);
    try_looking("extended lock locked, bad 7", LOCKED, 1, 0, 7, 1);
    try_looking("extended lock locked, bad 8", LOCKED, 1, 0, 8, 1);
    try_looking("extended lock locked, next look in 0", LOCKED, 1, 0, 0, 0);
    try_looking("extended lock locked, E 1, next look in 32", LOCKED, 1, 0, 0, 32);
    try_looking("extended lock locked, E 1, next look in 33", LOCKED, 1, 0, 0, 33);
    try_looking("extended lock locked, E 256, next look in 8192", LOCKED, 256, 0, 0, 8192);
    try_looking("extended lock locked, E 256, next look in 8193", LOCKED, 256, 0, 0, 8193);
    try_looking("extended lock given as 3", 3, 1, 0, 0, 1);
}

/* The kept phase beside the next look, with header lock held. */
static void try_kept(u32 phase, u32 e, u32 next, u32 kept) {
    static const char *const phases[] = {"hunting", "following", "locked"};
    locks state = {{.locked = 1}, {phase, 32, 0, phase == FOLLOWING, 0, next, kept}};
    printf("extended lock %s, E %u, next look in %u, kept %u", phases[phase], e, next, kept);
    try_step("", FEC, e, state, 1);
}

static void run_kept_states(void) {
    static const u32 beside[][2] = {{7, 0}, {7, 1}, {7, 6}, {7, 7}, {7, 8}, {7, 32}, {7, 33}, {7, 64}, {7, 65}, {7, 0xffffffff},
        {1, 0}, {1, 1}, {1, 2}, {1, 32}, {32, 0}, {32, 31}, {32, 32}, {32, 64}, {64, 63}, {64, 64}};
    for (size k = 0; k < sizeof beside / sizeof beside[0]; k++)
        for (u32 e = 1; e <= 2; e++)
            if (beside[k][0] <= BLOCKS * e)
                try_kept(FOLLOWING, e, beside[k][0], beside[k][1]);
    try_kept(FOLLOWING, 256, 7, 8192);
    try_kept(FOLLOWING, 256, 7, 8193);
    for (u32 e = 1; e <= 2; e++) {
        try_kept(HUNTING, e, 0, 1);
        try_kept(HUNTING, e, 0, 32);
        try_kept(LOCKED, e, 7, 1);
        try_kept(LOCKED, e, 7, 7);
        try_kept(LOCKED, e, 7, 32);
    }
    struct zaytulobe_extended_lock alone = {.kept = 1}, above = {FOLLOWING, 32, 0, 1, 0, 7, 33};
    locks state = {{.locked = 1}, above};
    try_extended("header lock hunting, kept 1", 1, 0, alone);
    try_step("E 0 and kept 33", FEC, 0, state, 1);
    try_step("E 1, kept 33 and header 4", FEC, 1, state, 4);
    try_step("E 2, kept 33 and header 4", FEC, 2, state, 4);
}

int main(void) {
    run_header();
    run_header_80(CRC12_80);
    run_header_80(FEC_80);
    run_slips(CRC12, 0);
    run_slips(CRC12, 1);
    run_slips(FEC, 40);
    run_slips(CRC12_80, 0);
    run_slips(CRC12_80, 1);
    run_slips(FEC_80, 41);
    run_slips(CRC3, 1);
    run_slips(COMMAND, 40);
    run_all_lanes();
    run_extended();
    run_all_kept();
    run_late_lanes();
    run_repeating(1);
    run_repeating(2);
    run_calls();
    run_offsets();
    run_header_states();
    run_hunting_states();
    run_following_states();
    run_locked_states();
    run_kept_states();
    return 0;
}
