/* One call with any state and any lengths: second/src/calls.rs says the rules. */
#ifndef CALLS_H
#define CALLS_H

#include "lane.h"

enum { BEFORE = 165 };

static const u8 ANY_MODES[24] = {0, 0, 0, 0, 1, 1, 1, 2, 2, 2, 2, 3, 3, 3, 4, 4, 4, 4, 4, 5, 5, 5, 6, 255};
static const u32 EXTENTS[8] = {1, 2, 3, 4, 256, 255, 257, 0};

static u8 draw_any_mode(void) {
    return ANY_MODES[draw(24)];
}

/* With a mode that there isn't, all else is drawn as with this one. */
static u8 drawn_as(u8 mode) {
    return mode < MODES ? mode : FEC;
}

static u32 or_more(u32 number, u32 more) {
    return rarely() ? number + more : number;
}

static u32 or_rather(u32 number, u32 that) {
    return rarely() ? that : number;
}

static u64 draw_history(void) {
    u64 history = draw(1 << 19);
    history = history << 20 | draw(1 << 20);
    history = history << 19 | draw(1 << 19);
    return rarely() ? history + (1UL << 58) : history;
}

static size draw_count(u8 as) {
    return draw(32) == 0 ? most_multiblocks(as) - 1 + draw(3) : draw(4);
}

static size draw_parts(u8 *octets, size part, size count) {
    size length = part * count;
    if (rarely())
        length += 1 + draw(part - 1);
    draw_octets(octets, length);
    return length;
}

static u32 draw_parity(u8 as) {
    static const u8 widths[MODES] = {12, 26, 12, 26, 3, 0};
    u32 past = 1U << widths[as];
    if (!has_fec(as))
        return or_more((u32)draw(past), past);
    u32 parity = (u32)draw(1 << 13);
    parity = parity << 13 | (u32)draw(1 << 13);
    return or_more(parity, past);
}

static u32 draw_fill(u8 as) {
    static const u32 edges[6] = {0, 1, 131070, 131071, 131072, 0xffffffff};
    u32 any = gap(as) == 0 ? 0 : (u32)draw(1 << 17);
    return draw(8) == 0 ? edges[draw(6)] : any;
}

static struct zaytulobe_sender draw_sender(u8 as, u32 e) {
    struct zaytulobe_sender state;
    state.history = draw_history();
    state.parity = draw_parity(as);
    state.number = or_more((u32)draw(e == 0 ? 1 : e), e);
    state.fill = draw_fill(as);
    return state;
}

static size draw_commands(u8 as, size count) {
    u32 most = ZAYTULOBE_MOST_COMMAND(as);
    size length = count + (size)rarely();
    for (size k = 0; k < length; k++)
        commands[k] = most == 0 ? 0 : (u32)draw(most + 1);
    if (rarely() && length > 0)
        commands[draw(length)] = most + 1;
    return length;
}

static void send_call(u64 seed) {
    u8 mode = draw_any_mode(), as = drawn_as(mode);
    u32 e = EXTENTS[draw(8)];
    struct zaytulobe_sender state = draw_sender(as, e);
    size count = draw_count(as), whole = lane_octets(as) * count;
    size user_length = draw_parts(user, USER_OCTETS, count);
    size commands_length = draw_commands(as, count);
    size room = whole + draw(16);
    if (rarely())
        room = whole == 0 ? 0 : whole - 1;
    memset(lane, BEFORE, room);
    struct zaytulobe_sent sent = zaytulobe_send(mode, e, state, user, user_length, commands, commands_length, lane, room);
    printf("%lu send %d %lu %lu %u %u %u %016lx\n", seed, sent.refusal, sent.count, sent.state.history, sent.state.parity,
        sent.state.number, sent.state.fill, digest_of(lane, room));
}

static u8 draw_invalid_count(void) {
    static const u8 edges[4] = {0, 32, 33, 255};
    u8 any = (u8)draw(BLOCKS + 1);
    return draw(4) == 0 ? edges[draw(4)] : any;
}

static u16 draw_own(u8 as) {
    static const u16 edges[5] = {0, 1, 511, 512, 65535};
    u16 most = ZAYTULOBE_MOST_OWN(as), any = most == 0 ? 0 : (u16)draw(most + 1U);
    return draw(8) == 0 ? edges[draw(5)] : any;
}

static u32 draw_releases(void) {
    static const u32 edges[5] = {0, 1, 4294967293, 4294967294, 4294967295};
    if (draw(2) == 0)
        return edges[draw(5)];
    u32 high = (u32)draw(1 << 16);
    return high << 16 | (u32)draw(1 << 16);
}

static struct zaytulobe_receiver draw_any_receiver(u8 as) {
    static const u8 waits[8] = {0, 0, 0, 1, 1, 1, 1, 1};
    struct zaytulobe_receiver state;
    u32 waiting = waits[draw(8)];
    state.waiting = (u8)or_rather(waiting, 2);
    u32 trusted = (u32)draw(2);
    state.trusted = (u8)or_rather(trusted, 2);
    state.history = draw_history();
    u32 past = has_fec(as) ? 1 : 2 * ZAYTULOBE_COMMAND_FLAG(as);
    u32 command = has_fec(as) ? 0 : (u32)draw(past);
    state.command = or_more(command, past);
    draw_octets(state.octets, USER_OCTETS);
    state.invalid = draw_invalid_count();
    state.own = draw_own(as);
    state.sound = draw_releases();
    state.repaired = draw_releases();
    state.failed = draw_releases();
    return state;
}

static struct zaytulobe_receiver draw_receiver(u8 as) {
    struct zaytulobe_receiver any = draw_any_receiver(as), none;
    memset(&none, 0, sizeof none);
    if (any.waiting != 0)
        return any;
    switch (draw(15)) {
    case 0: return any;
    case 1: none.history = any.history; break;
    case 2: none.command = any.command; break;
    case 3: none.trusted = any.trusted; break;
    case 4: for (int k = 0; k < USER_OCTETS; k++) none.octets[k] = any.octets[k]; break;
    case 5: none.invalid = any.invalid; break;
    case 6: none.own = any.own; break;
    case 7: none.sound = any.sound; break;
    case 8: none.repaired = any.repaired; break;
    case 9: none.failed = any.failed; break;
    }
    return none;
}

static u8 octets[USER_OCTETS * MOST], statuses[MOST + 2], invalid[MOST + 2];
static u32 got_commands[MOST + 2];
static u16 places[MOST + 2], patterns[MOST + 2];

/* The octets, and the five lists. */
enum { LENT = 6 };

/* The rooms of octets, statuses, commands, places, patterns and invalid headers. */
static void draw_lent(size *rooms, size count) {
    rooms[0] = USER_OCTETS * count + draw(16);
    for (int k = 1; k < LENT; k++)
        rooms[k] = count + draw(3);
    if (draw(8) == 0) {
        size which = draw(LENT), whole = which == 0 ? USER_OCTETS * count : count;
        rooms[which] = whole == 0 ? 0 : whole - 1;
    }
    memset(octets, BEFORE, rooms[0]);
    memset(statuses, BEFORE, rooms[1]);
    memset(invalid, BEFORE, rooms[5]);
    for (size k = 0; k < MOST + 2; k++) {
        got_commands[k] = BEFORE;
        places[k] = patterns[k] = BEFORE;
    }
}

static u64 lent_digest(const size *rooms) {
    u64 digest = with_octets(digest_of(octets, rooms[0]), statuses, rooms[1]);
    for (size k = 0; k < rooms[2]; k++)
        digest = with_number(digest, got_commands[k]);
    for (size k = 0; k < rooms[3]; k++)
        digest = with_number(digest, places[k]);
    for (size k = 0; k < rooms[4]; k++)
        digest = with_number(digest, patterns[k]);
    return with_octets(digest, invalid, rooms[5]);
}

static void receive_call(u64 seed) {
    size rooms[LENT];
    u8 mode = draw_any_mode(), as = drawn_as(mode);
    struct zaytulobe_receiver state = draw_receiver(as);
    size count = draw_count(as);
    size lane_length = draw_parts(lane, lane_octets(as), count);
    draw_lent(rooms, count);
    struct zaytulobe_received received = zaytulobe_receive(mode, state, lane, lane_length, octets, rooms[0], statuses, rooms[1],
        got_commands, rooms[2], places, rooms[3], patterns, rooms[4], invalid, rooms[5]);
    state = received.state;
    printf("%lu receive %d %lu %d %lu %d %u %d %d", seed, received.refusal, received.count, state.waiting, state.history,
        state.trusted, state.command, state.invalid, state.own);
    printf(" %u %u %u %016lx %016lx\n", state.sound, state.repaired, state.failed, digest_of(state.octets, USER_OCTETS),
        lent_digest(rooms));
}

static u32 draw_headers(u32 seen) {
    u32 headers = (u32)draw(1 << 16);
    headers = headers << 16 | (u32)draw(1 << 16);
    if (draw(2) == 0)
        headers = headers / 16 * 16 | 256;
    return rarely() ? headers : (u32)(headers % (1UL << seen));
}

static u32 draw_next(u32 phase, u32 period) {
    if (phase != ZAYTULOBE_FOLLOWING && phase != ZAYTULOBE_LOCKED)
        return 0;
    return draw(2) == 0 ? 1 : 1 + (u32)draw(period);
}

static u32 draw_kept(u32 phase, u32 next, u32 period) {
    if (phase != ZAYTULOBE_FOLLOWING || draw(2) == 0)
        return 0;
    if (draw(2) == 0)
        return next == 1 ? 2 : 1;
    return 1 + (next + (u32)draw(period - 1)) % period;
}

static struct zaytulobe_extended_lock draw_extended(u32 period) {
    static const u32 seen[8] = {0, 5, 31, 32, 32, 32, 32, 32};
    struct zaytulobe_extended_lock lock;
    u32 phase = (u32)draw(3);
    lock.phase = or_rather(phase, 3);
    u32 headers_seen = seen[draw(8)];
    lock.seen = or_rather(headers_seen, 33);
    lock.headers = draw_headers(lock.seen);
    u32 good = lock.phase == ZAYTULOBE_FOLLOWING ? 1 + (u32)draw(3) : 0;
    lock.good = or_more(good, 4);
    u32 bad = lock.phase == ZAYTULOBE_LOCKED ? (u32)draw(8) : 0;
    lock.bad = or_more(bad, 8);
    u32 next = draw_next(lock.phase, period);
    lock.next = or_more(next, period);
    u32 kept = draw_kept(lock.phase, lock.next, period);
    kept = or_rather(kept, lock.next);
    kept = or_more(kept, 1);
    lock.kept = or_more(kept, period);
    return lock;
}

static struct zaytulobe_lock draw_lock(u8 as, u32 e) {
    static const u32 locks[8] = {0, 1, 1, 1, 1, 1, 1, 1};
    u32 bits = (u32)block_bits(as);
    struct zaytulobe_lock lock;
    u32 locked = locks[draw(8)];
    lock.header.locked = or_rather(locked, 2);
    u32 offset = (u32)draw(bits);
    lock.header.offset = or_more(offset, bits);
    u32 run = (u32)draw(64);
    lock.header.run = or_more(run, 64);
    u32 bad = lock.header.locked == 1 ? (u32)draw(16) : 0;
    lock.header.bad = or_more(bad, 16);
    lock.extended = draw_extended(BLOCKS * (e == 0 ? 1 : e));
    if (lock.header.locked == 0 && draw(4) != 0)
        memset(&lock.extended, 0, sizeof lock.extended);
    return lock;
}

static void print_lock(struct zaytulobe_lock lock) {
    struct zaytulobe_header_lock h = lock.header;
    struct zaytulobe_extended_lock x = lock.extended;
    printf(" %u %u %u %u %u %u %u", h.locked, h.offset, h.run, h.bad, x.phase, x.seen, x.headers);
    printf(" %u %u %u %u\n", x.good, x.bad, x.next, x.kept);
}

static void step_call(u64 seed) {
    u8 mode = draw_any_mode();
    u32 e = EXTENTS[draw(8)];
    struct zaytulobe_lock lock = draw_lock(drawn_as(mode), e);
    u32 header = (u32)draw(4);
    header = or_more(header, 4);
    struct zaytulobe_stepped stepped = zaytulobe_lock_step(mode, e, lock, (u8)header);
    printf("%lu step %d", seed, stepped.refusal);
    print_lock(stepped.lock);
}

static void longest_call(u64 seed) {
    static const u8 listed[12] = {0, 0, 0, 0, 1, 1, 1, 2, 3, 4, 5, 255};
    size count = draw(12);
    for (size k = 0; k < count; k++)
        statuses[k] = listed[draw(12)];
    size length = USER_OCTETS * count;
    if (rarely())
        length += 1 + draw(USER_OCTETS - 1);
    if (rarely())
        length += USER_OCTETS;
    struct zaytulobe_run run = zaytulobe_longest_run(octets, length, statuses, count);
    printf("%lu longest %d %lu %lu\n", seed, run.refusal, run.start, run.count);
}

static void any_call(u64 seed) {
    switch (draw(4)) {
    case 0: send_call(seed); break;
    case 1: receive_call(seed); break;
    case 2: step_call(seed); break;
    default: longest_call(seed);
    }
}

#endif
