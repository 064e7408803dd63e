/* Each field of each struct of include/zaytulobe.h stands where the library reads and writes it. Of a field of a state its highest
   value is accepted, and the next value in that field alone is refused by 3, with the whole state given back: document 01, "Numbers
   of refusal". No two fields of a state have the same highest value but two flags, which are told apart by what they do; so is what
   has no highest value. layout.txt has the lines expected. */
#include "lane.h"

static struct releases out;

/* A field with a highest value: what comes of it and of the next, each refused or not, and whether all came back that was given. */
static void print_field(const char *field, u64 highest, int of_highest, int of_next, int given_back) {
    printf("%s: %lu %s, %lu ", field, highest, of_highest == ZAYTULOBE_ACCEPTED ? "accepted" : "REFUSED", highest + 1);
    if (of_next == ZAYTULOBE_ACCEPTED)
        printf("ACCEPTED\n");
    else
        printf("refused %d, %s\n", of_next, given_back ? "the state given" : "ANOTHER STATE");
}

/* In mode 2, where each field of a sender has more than one value. */
static struct zaytulobe_sent send_one(struct zaytulobe_sender state) {
    static const u32 no_command[1];
    return zaytulobe_send(CRC12_80, 4, state, user, USER_OCTETS, no_command, 1, lane, lane_octets(CRC12_80));
}

/* Four octets after the last field belong to no field. */
static int same_sender(struct zaytulobe_sender one, struct zaytulobe_sender other) {
    return one.history == other.history && one.parity == other.parity && one.number == other.number && one.fill == other.fill;
}

static void try_sender(const char *field, u64 highest, struct zaytulobe_sender fits, struct zaytulobe_sender next) {
    int fitting = send_one(fits).refusal;
    struct zaytulobe_sent refused = send_one(next);
    print_field(field, highest, fitting, refused.refusal, same_sender(refused.state, next));
}

static void run_sender(void) {
    u64 bits58 = (1UL << 58) - 1;
    struct zaytulobe_sender fits[4] = {{.history = bits58}, {.parity = 4095}, {.number = 3}, {.fill = 131070}};
    struct zaytulobe_sender next[4] = {{.history = bits58 + 1}, {.parity = 4096}, {.number = 4}, {.fill = 131071}};
    try_sender("sender.history", bits58, fits[0], next[0]);
    try_sender("sender.parity, CRC-12-80", 4095, fits[1], next[1]);
    try_sender("sender.number, E 4", 3, fits[2], next[2]);
    try_sender("sender.fill, CRC-12-80", 131070, fits[3], next[3]);
}

static u64 last_58(u8 mode, size multiblock) {
    u64 history = 0;
    for (size position = DATA_BITS - 58; position < DATA_BITS; position++)
        history = 2 * history + lane_bit(place_of(mode, multiblock, position));
    return history;
}

/* The parity of the multiblock before, from the sync word at the lane's start: with CRC-12 three of every four of the first 16 headers,
   with CRC-3 the first three, and none in mode 5. */
static u32 parity_carried(u8 mode) {
    u32 parity = 0;
    size blocks = mode == CRC3 ? 3 : mode == COMMAND ? 0 : 16;
    for (size block = 0; block < blocks; block++)
        parity = block % 4 == 3 ? parity : 2 * parity + lane_bit(header_place(mode, 0, block) + 1);
    return parity;
}

/* Each number of what comes back from sending three multiblocks is worked from the lane, and of the register from its rule. */
static void run_sent(u8 mode) {
    struct zaytulobe_sender after = make_lane(mode, 4, 3);
    u64 history = last_58(mode, 2);
    zaytulobe_send(mode, 4, after, user, USER_OCTETS, sent_commands, 1, lane, sizeof lane);
    u32 parity = parity_carried(mode), fill = 0;
    for (size block = 0; block < 3 * BLOCKS && gap(mode) != 0; block++)
        fill = next_fill(fill);
    printf("sent.state after 3 multiblocks, %s: ", name_of(mode));
    printf("history %s, ", after.history == history ? "the last 58 bits on the lane" : "OTHERS");
    printf("parity %s, number %u, ", after.parity == parity ? "what the next sync word carries" : "ANOTHER", after.number);
    printf("fill %u, the register %s\n", after.fill, after.fill == fill ? "after so many blocks" : "ELSEWHERE");
    struct zaytulobe_sent sent = zaytulobe_send(mode, 4, after, user, 3 * USER_OCTETS, sent_commands, 3, lane, sizeof lane);
    printf("sent, %s: refusal %d, count %lu", name_of(mode), sent.refusal, sent.count);
    sent = zaytulobe_send(mode, 4, after, user, 1, sent_commands, 3, lane, sizeof lane);
    printf("; of 1 user octet: refusal %d, count %lu, %s\n", sent.refusal, sent.count,
        same_sender(sent.state, after) ? "the state given" : "ANOTHER STATE");
}

static int same_receiver(struct zaytulobe_receiver one, struct zaytulobe_receiver other) {
    return one.history == other.history && one.command == other.command && one.waiting == other.waiting
        && one.trusted == other.trusted && memcmp(one.octets, other.octets, USER_OCTETS) == 0 && one.invalid == other.invalid
        && one.own == other.own && one.sound == other.sound && one.repaired == other.repaired && one.failed == other.failed;
}

/* In mode 4, where each field of a receiver has more than one value. */
static void try_receiver(const char *field, u64 highest, struct zaytulobe_receiver fits, struct zaytulobe_receiver next) {
    int fitting = receive(CRC3, fits, 0, 1, &out, 0).refusal;
    struct zaytulobe_received refused = receive(CRC3, next, 0, 1, &out, 0);
    print_field(field, highest, fitting, refused.refusal, same_receiver(refused.state, next));
}

/* With one waiting each field may have any value up to its highest. */
static void run_receiver(void) {
    u64 bits58 = (1UL << 58) - 1;
    struct zaytulobe_receiver fits[6] = {
        {.history = bits58}, {.command = 255}, {.waiting = 1}, {.trusted = 1}, {.invalid = 32}, {.own = 511}};
    struct zaytulobe_receiver next[6] = {
        {.history = bits58 + 1}, {.command = 256}, {.waiting = 2}, {.trusted = 2}, {.invalid = 33}, {.own = 512}};
    for (int k = 0; k < 6; k++) {
        fits[k].waiting = 1;
        next[k].waiting = k == 2 ? 2 : 1;
    }
    try_receiver("receiver.history", bits58, fits[0], next[0]);
    try_receiver("receiver.command, CRC-3", 255, fits[1], next[1]);
    try_receiver("receiver.waiting", 1, fits[2], next[2]);
    try_receiver("receiver.trusted", 1, fits[3], next[3]);
    try_receiver("receiver.invalid", 32, fits[4], next[4]);
    try_receiver("receiver.own, CRC-3", 511, fits[5], next[5]);
}

/* A count, which has no highest value: it may be any with one waiting, and alone it is refused with nothing waiting. Multiblock 1
   gets as many flips as its status is to be: none, one, which is mended, or two, which no burst explains. Its release adds 1 to this
   count alone. */
static void try_count(const char *field, size status, struct zaytulobe_receiver fits, struct zaytulobe_receiver idle) {
    make_lane(FEC, 1, 3);
    for (size k = 0; k < status; k++)
        flip_position(FEC, 1, 9 * k);
    int fitting = receive(FEC, fits, 0, 1, &out, 0).refusal;
    struct zaytulobe_received refused = receive(FEC, idle, 0, 1, &out, 0);
    struct zaytulobe_receiver state = receive(FEC, zaytulobe_fresh_receiver(), 0, 2, &out, 0).state;
    state.sound = 10, state.repaired = 20, state.failed = 30;
    state = receive(FEC, state, 2, 1, &out, 0).state;
    printf("%s: one waiting, 4294967295 %s; ", field, fitting == ZAYTULOBE_ACCEPTED ? "accepted" : "REFUSED");
    printf("nothing waiting, 1 refused %d, ", refused.refusal);
    printf("%s; ", same_receiver(refused.state, idle) ? "the state given" : "ANOTHER STATE");
    printf("10 20 30 before status %d, then %u %u %u\n", out.statuses[0], state.sound, state.repaired, state.failed);
}

static void run_receiver_counts(void) {
    struct zaytulobe_receiver fits[3] = {
        {.waiting = 1, .sound = 4294967295}, {.waiting = 1, .repaired = 4294967295}, {.waiting = 1, .failed = 4294967295}};
    struct zaytulobe_receiver idle[3] = {{.sound = 1}, {.repaired = 1}, {.failed = 1}};
    try_count("receiver.sound", 0, fits[0], idle[0]);
    try_count("receiver.repaired", 1, fits[1], idle[1]);
    try_count("receiver.failed", 2, fits[2], idle[2]);
}

/* The two flags by what they do. Of 256 octets all but one 0: the release has its first octet that isn't 0 there. */
static void run_flags_and_octets(void) {
    make_lane(CRC12, 1, 1);
    struct zaytulobe_receiver none = zaytulobe_fresh_receiver(), waits = none, trusts = none;
    size refused = 0, first = 0;
    waits.waiting = 1;
    trusts.waiting = trusts.trusted = 1;
    printf("receiver.waiting 0, then 1: released %lu", receive(CRC12, none, 0, 1, &out, 0).count);
    printf(", then %lu\n", receive(CRC12, waits, 0, 1, &out, 0).count);
    printf("receiver.trusted 0, then 1: status %d", out.statuses[0]);
    receive(CRC12, trusts, 0, 1, &out, 0);
    printf(", then %d\n", out.statuses[0]);
    for (size k = 0; k < USER_OCTETS; k++) {
        struct zaytulobe_receiver idle = none, one = waits;
        size at = 0;
        idle.octets[k] = one.octets[k] = 1;
        struct zaytulobe_received given = receive(CRC12, idle, 0, 1, &out, 0);
        refused += given.refusal == ZAYTULOBE_REFUSED_STATE && same_receiver(given.state, idle);
        receive(CRC12, one, 0, 1, &out, 0);
        while (at < USER_OCTETS && out.octets[at] == 0)
            at++;
        first += at == k;
    }
    printf("receiver.octets, nothing waiting: one of them 1 refused 3, the state given: %lu of %d\n", refused, USER_OCTETS);
    printf("receiver.octets, one waiting: one of them 1 is the first not 0 in the release: %lu of %d\n", first, USER_OCTETS);
}

/* The parity that a sync word carries of its own multiblock: with CRC-3 of its first three groups, B C D, three bits each. */
static u32 own_carried(u8 mode, size multiblock) {
    u32 own = 0;
    for (size position = DATA_BITS; mode == CRC3 && position < DATA_BITS + 9; position++)
        own = 2 * own + lane_bit(place_of(mode, multiblock, position) + 1);
    return own;
}

/* Each number of what comes back from receiving three multiblocks is worked from the lane; the last has three invalid headers
   that carry neither parity nor command. */
static void run_received(u8 mode) {
    make_lane(mode, 4, 3);
    put_header(mode, 2, 19, 0);
    put_header(mode, 2, 27, 3);
    put_header(mode, 2, 31, 0);
    struct zaytulobe_received received = receive(mode, zaytulobe_fresh_receiver(), 0, 3, &out, 0);
    size wrong = 0, invalid = 0;
    for (size position = 0; position < DATA_BITS; position++)
        wrong += (received.state.octets[position / 8] >> (7 - position % 8) & 1) != lane_bit(place_of(mode, 2, position));
    for (size block = 0; block < BLOCKS; block++)
        invalid += lane_bit(header_place(mode, 2, block)) == lane_bit(header_place(mode, 2, block) + 1);
    printf("received, %s: refusal %d, count %lu; state: ", name_of(mode), received.refusal, received.count);
    printf("history %s, ", received.state.history == last_58(mode, 1) ? "the last 58 bits of the released" : "OTHERS");
    printf("command %u of %u sent, ", received.state.command, sent_commands[2]);
    printf("waiting %d, trusted %d, ", received.state.waiting, received.state.trusted);
    printf("octets %s, ", wrong == 0 ? "those on the lane" : "OTHERS");
    printf("invalid %d of %lu on the lane, ", received.state.invalid, invalid);
    printf("own %d of %u on the lane, ", received.state.own, own_carried(mode, 2));
    printf("sound %u, repaired %u, failed %u\n", received.state.sound, received.state.repaired, received.state.failed);
    received = zaytulobe_receive(mode, zaytulobe_fresh_receiver(), lane, 1, out.octets, 0, out.statuses, 0, out.commands, 0,
        out.places, 0, out.patterns, 0, out.invalid, 0);
    printf("received, %s, of 1 lane octet: refusal %d, count %lu\n", name_of(mode), received.refusal, received.count);
}

static void try_lock(const char *field, u64 highest, u32 e, struct zaytulobe_lock fits, struct zaytulobe_lock next) {
    int fitting = zaytulobe_lock_step(CRC12, e, fits, 1).refusal;
    struct zaytulobe_stepped refused = zaytulobe_lock_step(CRC12, e, next, 1);
    print_field(field, highest, fitting, refused.refusal, memcmp(&refused.lock, &next, sizeof next) == 0);
}

static void run_header_lock(void) {
    struct zaytulobe_lock holds = {.header = {.locked = 1}}, fits = holds, next = holds;
    next.header.locked = 2;
    try_lock("lock.header.locked", 1, 2, fits, next);
    fits = next = holds, fits.header.offset = 65, next.header.offset = 66;
    try_lock("lock.header.offset, CRC-12", 65, 2, fits, next);
    fits = next = holds, fits.header.run = 63, next.header.run = 64;
    try_lock("lock.header.run", 63, 2, fits, next);
    fits = next = holds, fits.header.bad = 15, next.header.bad = 16;
    try_lock("lock.header.bad", 15, 2, fits, next);
}

/* Extended lock under header lock. */
static void try_extended_with(
    const char *field, u64 highest, u32 e, struct zaytulobe_extended_lock fits, struct zaytulobe_extended_lock next) {
    struct zaytulobe_lock fitting = {{.locked = 1}, fits}, exceeding = {{.locked = 1}, next};
    try_lock(field, highest, e, fitting, exceeding);
}

static void try_extended(const char *field, u64 highest, struct zaytulobe_extended_lock fits, struct zaytulobe_extended_lock next) {
    try_extended_with(field, highest, 2, fits, next);
}

/* Both next and kept are at most 32E. With E 2 next is at most 64, and stands beside a kept 0, which next must not be; of kept the
   highest is tried with E 3. */
static void run_extended_lock(void) {
    struct zaytulobe_extended_lock hunts = {.seen = 31}, follows = {.phase = ZAYTULOBE_FOLLOWING, .seen = 32, .good = 1, .next = 1};
    struct zaytulobe_extended_lock holds = {.phase = ZAYTULOBE_LOCKED, .seen = 32, .next = 1}, fits = holds, next = holds;
    next.phase = 3;
    try_extended("lock.extended.phase", 2, fits, next);
    fits = next = hunts, fits.seen = 32, next.seen = 33;
    try_extended("lock.extended.seen", 32, fits, next);
    fits = next = hunts, fits.headers = 0x7fffffff, next.headers = 0x80000000;
    try_extended("lock.extended.headers, 31 seen", 0x7fffffff, fits, next);
    fits = next = follows, fits.good = 3, next.good = 4;
    try_extended("lock.extended.good", 3, fits, next);
    fits = next = holds, fits.bad = 7, next.bad = 8;
    try_extended("lock.extended.bad", 7, fits, next);
    fits = next = holds, fits.next = 64, next.next = 65;
    try_extended("lock.extended.next, E 2", 64, fits, next);
    fits = next = follows, fits.kept = 96, next.kept = 97;
    try_extended_with("lock.extended.kept, E 3", 96, 3, fits, next);
}

static void run_answers(void) {
    static const u8 statuses[5] = {ZAYTULOBE_FAILED, ZAYTULOBE_AGREES, ZAYTULOBE_AGREES, ZAYTULOBE_REPAIRED, ZAYTULOBE_FAILED};
    struct zaytulobe_run run = zaytulobe_longest_run(user, sizeof statuses * USER_OCTETS, statuses, sizeof statuses);
    printf("run of statuses 2 0 0 1 2: refusal %d, start %lu, count %lu", run.refusal, run.start, run.count);
    run = zaytulobe_longest_run(user, 1, statuses, sizeof statuses);
    printf("; of 1 octet: refusal %d, start %lu, count %lu\n", run.refusal, run.start, run.count);
    static const u8 capture[HEAD] = {0, 0, 0, 3, FEC, 0, 7};
    u8 text[16];
    struct zaytulobe_listed listed = zaytulobe_listing(capture, HEAD, text, sizeof text);
    printf("listed, a capture without a lane: refusal %d, count %lu", listed.refusal, listed.count);
    listed = zaytulobe_listing(capture, 1, text, sizeof text);
    printf("; of 1 octet: refusal %d, count %lu\n", listed.refusal, listed.count);
}

/* No two numbers of the event are the same: a message of seven words behind three idle commands, read from the padding of the
   third. */
static void run_events(void) {
    static const u8 payload[ZAYTULOBE_MOST_WORDS] = {11, 12, 13, 14, 15, 16, 17};
    static u32 list[6];
    struct zaytulobe_written written = zaytulobe_write_message(COMMAND, 22, payload, ZAYTULOBE_MOST_WORDS, list + 3, 3);
    printf("written, code 22, 7 words, CMD: refusal %d, count %lu", written.refusal, written.count);
    written = zaytulobe_write_message(COMMAND, 7, payload, ZAYTULOBE_MOST_WORDS, list, 3);
    printf("; code 7: refusal %d, count %lu\n", written.refusal, written.count);
    struct zaytulobe_event event = zaytulobe_read_event(COMMAND, list, 6, 7);
    printf("event, from 7: refusal %d, kind %d, code %d, words", event.refusal, event.kind, event.code);
    for (int k = 0; k < ZAYTULOBE_MOST_WORDS; k++)
        printf(" %d", event.words[k]);
    printf(", count %lu, begin %lu, next %lu", event.count, event.begin, event.next);
    event = zaytulobe_read_event(FEC, list, 6, 7);
    printf("; FEC: refusal %d, kind %d, code %d, count %lu, begin %lu, next %lu\n", event.refusal, event.kind, event.code,
        event.count, event.begin, event.next);
}

int main(void) {
    run_sender();
    run_sent(CRC12);
    run_sent(CRC12_80);
    run_sent(CRC3);
    run_sent(COMMAND);
    run_receiver();
    run_receiver_counts();
    run_flags_and_octets();
    run_received(CRC12);
    run_received(CRC12_80);
    run_received(CRC3);
    run_received(COMMAND);
    run_header_lock();
    run_extended_lock();
    run_answers();
    run_events();
    return 0;
}
