/* The constants of include/zaytulobe.h are the library's: beside each stands what the functions make of it, and of the number next
   to it where it is an edge. Document 01, "Numbers of refusal", "What the receiver releases" and "Capture and listing"; document 02,
   request 2, for modes 2 and 3, request 5 for modes 4 and 5, and request 6 for messages. constants.txt has the lines expected. */
#include "lane.h"

static struct releases out;
static u8 capture[ZAYTULOBE_LONGEST_OF_ALL + 2], text[ZAYTULOBE_LONGEST_TEXT], messages[ZAYTULOBE_LONGEST_MESSAGES];
static u32 list[ZAYTULOBE_MOST_WORDS + 2];

/* A constant's name and number, by the header; what follows on the line is by the library. */
#define NAMED(constant) printf("%s %lu: ", #constant, (u64)(constant))

static void print_answer(const char *tried, u64 number, int refusal) {
    printf(refusal == ZAYTULOBE_ACCEPTED ? "%s %lu accepted" : "%s %lu refused %d", tried, number, refusal);
}

static int sent(u8 mode, u32 e, size octets, size commands, size room) {
    return zaytulobe_send(mode, e, zaytulobe_fresh_sender(), user, octets, sent_commands, commands, lane, room).refusal;
}

static int sent_multiblocks(u8 mode, size count) {
    return sent(mode, 1, USER_OCTETS * count, count, lane_octets(mode) * count);
}

static int received(u8 mode, size octets) {
    size room = LONGEST_CALL;
    return zaytulobe_receive(mode, zaytulobe_fresh_receiver(), lane, octets, out.octets, sizeof out.octets, out.statuses, room,
        out.commands, room, out.places, room, out.patterns, room, out.invalid, room).refusal;
}

/* A capture of so many octets whose counts are right. */
static void put_head(u8 mode, u32 e, size octets) {
    size count = octets - HEAD;
    u8 head[HEAD] = {0, 0, 0, 3, mode, (u8)(e >> 8), (u8)e, 0, (u8)(count >> 16), (u8)(count >> 8), (u8)count};
    for (size k = 0; k < HEAD; k++)
        capture[k] = head[k];
}

/* Its listing, or its messages, in a text of so many octets. */
static struct zaytulobe_listed listed(u8 mode, u32 e, size octets, size room) {
    put_head(mode, e, octets);
    return zaytulobe_listing(capture, octets, text, room);
}

static struct zaytulobe_listed told(u8 mode, u32 e, size octets, size room) {
    put_head(mode, e, octets);
    return zaytulobe_messages(capture, octets, messages, room);
}

static int written(u8 mode, u8 code, size words) {
    static const u8 payload[ZAYTULOBE_MOST_WORDS + 1];
    return zaytulobe_write_message(mode, code, payload, words, list, sizeof list / sizeof list[0]).refusal;
}

static void print_listed(u8 mode) {
    struct zaytulobe_listed one = listed(mode, 1, HEAD, sizeof text);
    printf("listed as %.*s", (int)one.count, (const char *)text);
}

static void run_modes(void) {
    u8 next = ZAYTULOBE_COMMAND + 1;
    NAMED(ZAYTULOBE_CRC12);
    print_listed(ZAYTULOBE_CRC12);
    NAMED(ZAYTULOBE_FEC);
    print_listed(ZAYTULOBE_FEC);
    NAMED(ZAYTULOBE_CRC12_80);
    print_listed(ZAYTULOBE_CRC12_80);
    NAMED(ZAYTULOBE_FEC_80);
    print_listed(ZAYTULOBE_FEC_80);
    NAMED(ZAYTULOBE_CRC3);
    print_listed(ZAYTULOBE_CRC3);
    NAMED(ZAYTULOBE_COMMAND);
    print_listed(ZAYTULOBE_COMMAND);
    printf("  the next mode: ");
    print_answer("sender", next, sent(next, 1, 0, 0, 0));
    print_answer(", receiver", next, received(next, 0));
    print_answer(", locks", next, zaytulobe_lock_step(next, 1, zaytulobe_fresh_lock(), 1).refusal);
    print_answer(", listing", next, listed(next, 1, HEAD, sizeof text).refusal);
    print_answer(", writer of messages", next, written(next, 0, 0));
    print_answer(", reader", next, zaytulobe_read_event(next, list, 0, 0).refusal);
    print_answer(", messages", next, told(next, 1, HEAD, sizeof messages).refusal);
    printf("\n");
}

static void run_extents(void) {
    NAMED(ZAYTULOBE_LEAST_E);
    print_answer("sender", ZAYTULOBE_LEAST_E - 1, sent(CRC12, ZAYTULOBE_LEAST_E - 1, 0, 0, 0));
    print_answer(",", ZAYTULOBE_LEAST_E, sent(CRC12, ZAYTULOBE_LEAST_E, 0, 0, 0));
    printf("\n");
    NAMED(ZAYTULOBE_MOST_E);
    print_answer("sender", ZAYTULOBE_MOST_E, sent(CRC12, ZAYTULOBE_MOST_E, 0, 0, 0));
    print_answer(",", ZAYTULOBE_MOST_E + 1, sent(CRC12, ZAYTULOBE_MOST_E + 1, 0, 0, 0));
    printf("\n");
}

static void run_user_octets(void) {
    NAMED(ZAYTULOBE_USER_OCTETS);
    for (size octets = ZAYTULOBE_USER_OCTETS - 1; octets <= ZAYTULOBE_USER_OCTETS + 1; octets++)
        print_answer(octets < ZAYTULOBE_USER_OCTETS ? "sender" : ",", octets, sent(CRC12, 1, octets, 1, sizeof lane));
    printf("\n");
}

static void run_lane_octets(u8 mode) {
    size exact = ZAYTULOBE_LANE_OCTETS(mode);
    NAMED(ZAYTULOBE_LANE_OCTETS(mode));
    printf("%s, ", name_of(mode));
    for (size octets = exact - 1; octets <= exact + 1; octets++)
        print_answer(octets < exact ? "receiver" : ",", octets, received(mode, octets));
    print_answer("; room of the sender", exact - 1, sent(mode, 1, USER_OCTETS, 1, exact - 1));
    print_answer(",", exact, sent(mode, 1, USER_OCTETS, 1, exact));
    printf("\n");
}

static void run_most_multiblocks(u8 mode) {
    size most = ZAYTULOBE_MOST_MULTIBLOCKS(mode);
    NAMED(ZAYTULOBE_MOST_MULTIBLOCKS(mode));
    printf("%s, ", name_of(mode));
    print_answer("sender", most, sent_multiblocks(mode, most));
    print_answer(",", most + 1, sent_multiblocks(mode, most + 1));
    print_answer("; receiver", most, received(mode, lane_octets(mode) * most));
    print_answer(",", most + 1, received(mode, lane_octets(mode) * (most + 1)));
    printf("\n");
}

static int sent_from(u8 mode, u32 fill) {
    struct zaytulobe_sender state = {.fill = fill};
    return zaytulobe_send(mode, 1, state, user, USER_OCTETS, sent_commands, 1, lane, sizeof lane).refusal;
}

static void run_most_fill(u8 mode) {
    u32 most = ZAYTULOBE_MOST_FILL(mode);
    NAMED(ZAYTULOBE_MOST_FILL(mode));
    printf("%s, ", name_of(mode));
    print_answer("sender", most, sent_from(mode, most));
    print_answer(",", most + 1, sent_from(mode, most + 1));
    printf("\n");
}

static int sent_command(u8 mode, u32 command) {
    sent_commands[0] = command;
    int refusal = sent_multiblocks(mode, 1);
    sent_commands[0] = 0;
    return refusal;
}

static void run_commands(u8 mode) {
    u32 most = ZAYTULOBE_MOST_COMMAND(mode);
    NAMED(ZAYTULOBE_MOST_COMMAND(mode));
    printf("%s, ", name_of(mode));
    print_answer("sender", most, sent_command(mode, most));
    print_answer(",", most + 1, sent_command(mode, most + 1));
    printf("\n");
}

/* The block that carries the highest 1 of the command gets header 11. */
static void run_flag(u8 mode, size block) {
    make_lane(mode, 1, 3);
    flip_bit(header_place(mode, 2, block));
    u32 command = receive(mode, zaytulobe_fresh_receiver(), 0, 3, &out, 0).state.command;
    NAMED(ZAYTULOBE_COMMAND_FLAG(mode));
    printf("%s, command %u sent, %u received where the header of its highest 1 is invalid, and so read as 0\n", name_of(mode),
        sent_commands[2], command);
}

/* With one waiting. */
static int received_from(u8 mode, u16 own) {
    struct zaytulobe_receiver state = {.waiting = 1, .own = own};
    return receive(mode, state, 0, 1, &out, 0).refusal;
}

static void run_most_own(u8 mode) {
    u16 most = ZAYTULOBE_MOST_OWN(mode);
    NAMED(ZAYTULOBE_MOST_OWN(mode));
    printf("%s, ", name_of(mode));
    print_answer("receiver", most, received_from(mode, most));
    print_answer(",", most + 1, received_from(mode, (u16)(most + 1)));
    printf("\n");
}

/* An invalid header moves a hunting header lock on by one bit, from the last offset to the first. */
static void run_block_bits(u8 mode) {
    u32 bits = ZAYTULOBE_BLOCK_BITS(mode);
    struct zaytulobe_lock last = {.header = {.offset = bits - 1}}, past = {.header = {.offset = bits}};
    struct zaytulobe_stepped slipped = zaytulobe_lock_step(mode, 1, last, 0);
    NAMED(ZAYTULOBE_BLOCK_BITS(mode));
    printf("%s, ", name_of(mode));
    print_answer("offset", bits - 1, slipped.refusal);
    print_answer(",", bits, zaytulobe_lock_step(mode, 1, past, 0).refusal);
    printf("; from %u an invalid header moves it to %u\n", bits - 1, slipped.lock.header.offset);
}

/* The next look of a locked extended lock is at most 32E blocks away. */
static void run_blocks(void) {
    struct zaytulobe_lock held = {.header = {.locked = 1}, .extended = {.phase = ZAYTULOBE_LOCKED, .seen = 32, .next = 3 * BLOCKS}};
    NAMED(ZAYTULOBE_BLOCKS);
    print_answer("E 3, next look in", 3 * BLOCKS, zaytulobe_lock_step(CRC12, 3, held, 1).refusal);
    held.extended.next++;
    print_answer(",", 3 * BLOCKS + 1, zaytulobe_lock_step(CRC12, 3, held, 1).refusal);
    printf("\n");
}

static void print_capture(const char *tried, u8 mode, size octets) {
    print_answer(tried, octets, listed(mode, 1, octets, sizeof text).refusal);
}

static void run_capture(u8 mode) {
    size longest = ZAYTULOBE_LONGEST_CAPTURE(mode);
    NAMED(ZAYTULOBE_LONGEST_CAPTURE(mode));
    printf("%s, ", name_of(mode));
    print_capture("a capture of", mode, longest);
    print_capture(",", mode, longest + 1);
    printf("\n");
}

/* A capture with a mode that there isn't may be as long as one of mode 0; one that is longer is refused by 8 before it is by 1. */
static void run_captures(void) {
    NAMED(ZAYTULOBE_CAPTURE_HEAD);
    print_capture("a capture of", CRC12, HEAD);
    print_answer(", without its last octet", HEAD - 1, zaytulobe_listing(capture, HEAD - 1, text, sizeof text).refusal);
    printf("\n");
    for (u8 mode = 0; mode < MODES; mode++)
        run_capture(mode);
    NAMED(ZAYTULOBE_LONGEST_OF_ALL);
    print_capture("with mode 0 a capture of", CRC12, ZAYTULOBE_LONGEST_OF_ALL);
    print_capture("; with mode 2", CRC12_80, ZAYTULOBE_LONGEST_OF_ALL);
    print_capture(",", CRC12_80, ZAYTULOBE_LONGEST_OF_ALL + 1);
    print_capture("; with mode 7", 7, ZAYTULOBE_LONGEST_CAPTURE(CRC12));
    print_capture(",", 7, ZAYTULOBE_LONGEST_CAPTURE(CRC12) + 1);
    print_capture(",", 7, ZAYTULOBE_LONGEST_OF_ALL);
    print_capture(",", 7, ZAYTULOBE_LONGEST_OF_ALL + 1);
    printf("\n");
}

/* The longest listing that a lane of the mode brings about: in every multiblock a burst with a place of four digits and a pattern of
   three. */
static void run_text(u8 mode) {
    size most = most_multiblocks(mode), longest = ZAYTULOBE_LONGEST_CAPTURE(mode);
    make_lane(mode, ZAYTULOBE_MOST_E, most);
    for (size k = 0; k < most; k++)
        for (size bit = 0; bit < 7; bit++)
            flip_position(mode, k, 1000 + bit);
    for (size k = 0; k < lane_octets(mode) * most; k++)
        capture[HEAD + k] = lane[k];
    size needed = listed(mode, ZAYTULOBE_MOST_E, longest, sizeof text).count;
    NAMED(ZAYTULOBE_LONGEST_TEXT);
    printf("%s, of the longest that a lane brings about %lu are written; ", name_of(mode), needed);
    print_answer("room", sizeof text, listed(mode, ZAYTULOBE_MOST_E, longest, sizeof text).refusal);
    print_answer(",", needed, listed(mode, ZAYTULOBE_MOST_E, longest, needed).refusal);
    print_answer(",", needed - 1, listed(mode, ZAYTULOBE_MOST_E, longest, needed - 1).refusal);
    printf("\n");
}

static void run_most_words(void) {
    NAMED(ZAYTULOBE_MOST_WORDS);
    print_answer("code 31, words", ZAYTULOBE_MOST_WORDS, written(CRC12, 31, ZAYTULOBE_MOST_WORDS));
    print_answer(",", ZAYTULOBE_MOST_WORDS + 1, written(CRC12, 31, ZAYTULOBE_MOST_WORDS + 1));
    printf("\n");
}

/* Command 0, which is idle, is read with its padding. */
static void run_command_words(u8 mode) {
    static const u32 idle[1];
    struct zaytulobe_event event = zaytulobe_read_event(mode, idle, 1, 0);
    NAMED(ZAYTULOBE_COMMAND_WORDS(mode));
    printf("%s, ", name_of(mode));
    if (event.refusal == ZAYTULOBE_ACCEPTED)
        printf("a command is read from word %lu to %lu\n", event.begin, event.next);
    else
        printf("a command is refused %d\n", event.refusal);
}

/* The longest text of messages that a lane brings about: each word of each command a header that isn't defined, of two digits. With
   three headers 15 the parity bit is 0. */
static void run_messages(void) {
    static u32 undefined[ZAYTULOBE_MOST_MULTIBLOCKS(COMMAND)];
    size most = most_multiblocks(COMMAND), longest = ZAYTULOBE_LONGEST_CAPTURE(COMMAND);
    for (size k = 0; k < most; k++)
        undefined[k] = (15 << 12 | 15 << 6 | 15) << 1;
    zaytulobe_send(
        COMMAND, ZAYTULOBE_MOST_E, zaytulobe_fresh_sender(), user, USER_OCTETS * most, undefined, most, lane, sizeof lane);
    for (size k = 0; k < longest - HEAD; k++)
        capture[HEAD + k] = lane[k];
    size needed = told(COMMAND, ZAYTULOBE_MOST_E, longest, sizeof messages).count;
    NAMED(ZAYTULOBE_LONGEST_MESSAGES);
    printf("%s, of the longest that a lane brings about %lu are written; ", name_of(COMMAND), needed);
    print_answer("room", sizeof messages, told(COMMAND, ZAYTULOBE_MOST_E, longest, sizeof messages).refusal);
    print_answer(",", needed, told(COMMAND, ZAYTULOBE_MOST_E, longest, needed).refusal);
    print_answer(",", needed - 1, told(COMMAND, ZAYTULOBE_MOST_E, longest, needed - 1).refusal);
    printf("\n");
}

/* Each refusal by its name, from a call that deserves it and no lower one. */
static void run_refusals(void) {
    struct zaytulobe_sender wide = {.history = 1UL << 58};
    NAMED(ZAYTULOBE_ACCEPTED);
    printf("%d for a multiblock\n", sent_multiblocks(FEC, 1));
    NAMED(ZAYTULOBE_REFUSED_MODE);
    printf("%d for mode 6, %d for an idle message in mode 1\n", sent(6, 1, 0, 0, 0), written(FEC, 0, 0));
    NAMED(ZAYTULOBE_REFUSED_E);
    printf("%d for E 0\n", sent(FEC, 0, 0, 0, 0));
    NAMED(ZAYTULOBE_REFUSED_STATE);
    printf("%d for a history of 59 bits\n", zaytulobe_send(FEC, 1, wide, user, 0, sent_commands, 0, lane, 0).refusal);
    NAMED(ZAYTULOBE_REFUSED_LENGTH);
    printf("%d for 1 user octet\n", sent(FEC, 1, 1, 0, 0));
    NAMED(ZAYTULOBE_REFUSED_COUNT);
    printf("%d for 241 multiblocks, %d for 201 in mode 3\n", sent_multiblocks(FEC, 241), sent_multiblocks(FEC_80, 201));
    NAMED(ZAYTULOBE_REFUSED_COMMANDS);
    printf("%d for a multiblock without a command, %d for code 1 without a word\n", sent(FEC, 1, USER_OCTETS, 0, sizeof lane),
        written(CRC12, 1, 0));
    NAMED(ZAYTULOBE_REFUSED_ROOM);
    printf("%d for a multiblock without room\n", sent(FEC, 1, USER_OCTETS, 1, 0));
    NAMED(ZAYTULOBE_REFUSED_CAPTURE);
    printf("%d for a capture of 1 octet\n", zaytulobe_listing(capture, 1, text, sizeof text).refusal);
    NAMED(ZAYTULOBE_REFUSED_HEADER);
    printf("%d for header 4\n", zaytulobe_lock_step(FEC, 1, zaytulobe_fresh_lock(), 4).refusal);
    NAMED(ZAYTULOBE_REFUSED_LONG);
    printf("%d for an idle header with a word, %d for code 7 with 8\n", written(CRC12, 0, 1), written(CRC12, 7, 8));
    NAMED(ZAYTULOBE_REFUSED_CODE);
    printf("%d for code 7 with 7 words\n", written(CRC12, 7, 7));
}

static int kind_of(u32 command, size count) {
    list[0] = command;
    return zaytulobe_read_event(CRC12, list, count, 0).kind;
}

/* Header 7 has the parity 1. */
static void run_kinds(void) {
    NAMED(ZAYTULOBE_NOTHING);
    printf("%d of no command\n", kind_of(0, 0));
    NAMED(ZAYTULOBE_MESSAGE);
    printf("%d of an idle header\n", kind_of(0, 1));
    NAMED(ZAYTULOBE_CUT);
    printf("%d of an idle header with a wrong parity bit\n", kind_of(1, 1));
    NAMED(ZAYTULOBE_UNDEFINED);
    printf("%d of header 7\n", kind_of(7 << 1 | 1, 1));
}

/* Multiblock 1 has a burst of 9, multiblocks 3 and 4 have one of 10 each. */
static void run_statuses(void) {
    make_lane(FEC, 1, 7);
    for (size bit = 0; bit < 10; bit++) {
        if (bit < 9)
            flip_position(FEC, 1, bit);
        flip_position(FEC, 3, bit);
        flip_position(FEC, 4, bit);
    }
    receive(FEC, zaytulobe_fresh_receiver(), 0, 7, &out, 0);
    NAMED(ZAYTULOBE_AGREES);
    printf("%d of a clean multiblock\n", out.statuses[2]);
    NAMED(ZAYTULOBE_REPAIRED);
    printf("%d of one with a burst of 9\n", out.statuses[1]);
    NAMED(ZAYTULOBE_FAILED);
    printf("%d of one with a burst of 10\n", out.statuses[3]);
    NAMED(ZAYTULOBE_UNTRUSTED);
    printf("%d of the first, %d of a clean one after a failed one\n", out.statuses[0], out.statuses[5]);
    NAMED(ZAYTULOBE_FAILED + ZAYTULOBE_UNTRUSTED);
    printf("%d of a failed one after a failed one\n", out.statuses[4]);
}

/* Multiblocks of CRC-12, E 1, with all fields 0 and the end mark: header lock comes first, after 64 headers. */
static void run_phases(void) {
    struct zaytulobe_lock locks = zaytulobe_fresh_lock();
    NAMED(ZAYTULOBE_HUNTING);
    printf("%u fresh\n", locks.extended.phase);
    for (u32 block = 1; block <= 6 * BLOCKS; block++) {
        u32 carried = 0x11111701u >> (31 - (block - 1) % BLOCKS) & 1, before = locks.extended.phase;
        locks = zaytulobe_lock_step(CRC12, 1, locks, carried ? 1 : 2).lock;
        if (locks.extended.phase == before)
            continue;
        if (before == ZAYTULOBE_HUNTING)
            NAMED(ZAYTULOBE_FOLLOWING);
        else
            NAMED(ZAYTULOBE_LOCKED);
        printf("%u after block %u\n", locks.extended.phase, block);
    }
}

int main(void) {
    run_modes();
    run_extents();
    run_user_octets();
    for (u8 mode = 0; mode < MODES; mode++) {
        run_lane_octets(mode);
        run_most_multiblocks(mode);
        run_commands(mode);
        run_most_fill(mode);
        run_most_own(mode);
        run_block_bits(mode);
    }
    run_flag(CRC12, 16);
    run_flag(CRC12_80, 16);
    run_flag(CRC3, 4);
    run_flag(COMMAND, 1);
    run_blocks();
    run_captures();
    run_text(FEC);
    run_text(FEC_80);
    run_most_words();
    for (u8 mode = 0; mode < MODES; mode++)
        run_command_words(mode);
    run_messages();
    run_refusals();
    run_statuses();
    run_phases();
    run_kinds();
    return 0;
}
