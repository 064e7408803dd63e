/* driver FIRST LAST: prints a line for the seeded case of each seed from FIRST to LAST, worked by the proved library. The
   second program prints the same lines by `second bulk FIRST LAST`: second/src/bulk.rs says which case a seed is, and
   lanes.rs, damaged.rs, locks.rs, listed.rs, calls.rs and messaged.rs what is drawn and what a line holds. Lanes and damaged
   lanes are worked again with every cut into two calls, and damaged lanes with every fill bit flipped; where that makes a
   difference the line says so, and then no longer agrees. */
#include "messages.h"

u64 strtoul(const char *text, char **end, int base);

/* Two calls: so many multiblocks, and the rest. */
static void cut_at(size cut) {
    call_count = 2;
    calls[0] = cut;
    calls[1] = drawn.multiblocks - cut;
}

/* Sends the input in its calls, from a fresh state but for its fill. */
static struct zaytulobe_sender send_calls(u32 fill) {
    size octets = lane_octets(drawn.mode);
    struct zaytulobe_sender state = zaytulobe_fresh_sender();
    state.fill = fill;
    memset(lane, 0, drawn.lane_length);
    for (size k = 0, from = 0; k < call_count; from += calls[k++]) {
        size n = calls[k];
        state = zaytulobe_send(
            drawn.mode, drawn.e, state, user + USER_OCTETS * from, USER_OCTETS * n, commands + from, n, lane + octets * from,
            octets * n).state;
    }
    return state;
}

static u64 sent_digest(struct zaytulobe_sender state) {
    u64 digest = with_number(digest_of(lane, drawn.lane_length), state.history);
    return with_number(with_number(with_number(digest, state.parity), state.number), state.fill);
}

static void sent_line(u64 seed) {
    draw_settings();
    draw_input(1 + draw(6));
    draw_calls();
    u32 fill = gap(drawn.mode) == 0 ? 0 : (u32)draw(131071);
    struct zaytulobe_sender state = send_calls(fill);
    printf("%lu lane %d %u %lu %lu %016lx %lu %u %u %u", seed, drawn.mode, drawn.e, drawn.multiblocks, call_count,
        digest_of(lane, drawn.lane_length), state.history, state.parity, state.number, state.fill);
    u64 digest = sent_digest(state);
    for (size cut = 0; cut <= drawn.multiblocks; cut++) {
        cut_at(cut);
        if (sent_digest(send_calls(fill)) != digest)
            printf(" another if cut at %lu", cut);
    }
    printf("\n");
}

/* Receives the lane in its calls, from a fresh state, each release after those before it; the number of all. */
static size receive_calls(struct zaytulobe_receiver *state) {
    size count = 0, taken = lane_octets(drawn.mode);
    *state = zaytulobe_fresh_receiver();
    for (size k = 0, from = 0; k < call_count; from += calls[k++]) {
        size n = calls[k];
        struct zaytulobe_received received = zaytulobe_receive(
            drawn.mode, *state, lane + taken * from, taken * n, octets + USER_OCTETS * count, USER_OCTETS * n,
            statuses + count, n, got_commands + count, n, places + count, n, patterns + count, n, invalid + count, n);
        *state = received.state;
        count += received.count;
    }
    return count;
}

static u64 received_digest(const struct zaytulobe_receiver *state, size count) {
    size rooms[LENT] = {USER_OCTETS * count, count, count, count, count, count};
    u64 digest = with_octets(lent_digest(rooms), state->octets, USER_OCTETS);
    digest = with_number(with_number(digest, state->history), state->command);
    digest = with_octet(with_octet(with_octet(digest, state->waiting), state->trusted), state->invalid);
    digest = with_number(with_number(digest, state->own), state->sound);
    return with_number(with_number(digest, state->repaired), state->failed);
}

static void print_received(const struct zaytulobe_receiver *state, size count) {
    for (size k = 0; k < count; k++)
        printf(" %d/%d/%d/%u/%d", statuses[k], places[k], patterns[k], got_commands[k], invalid[k]);
    struct zaytulobe_run run = zaytulobe_longest_run(octets, USER_OCTETS * count, statuses, count);
    printf(" %016lx %d %lu %d %u %d %d", digest_of(octets, USER_OCTETS * count), state->waiting, state->history, state->trusted,
        state->command, state->invalid, state->own);
    printf(" %u %u %u %016lx %lu %lu", state->sound, state->repaired, state->failed, digest_of(state->octets, USER_OCTETS),
        run.start, run.count);
}

static void damaged_line(u64 seed) {
    struct zaytulobe_receiver state;
    draw_damaged();
    draw_calls();
    size count = receive_calls(&state);
    printf("%lu damaged %d %lu %lu %lu", seed, drawn.mode, drawn.multiblocks, drawn.kind, count);
    print_received(&state, count);
    u64 digest = received_digest(&state, count);
    flip_fill(every_one, 0);
    count = receive_calls(&state);
    if (received_digest(&state, count) != digest)
        printf(" another if every fill bit is flipped");
    for (size cut = 0; cut <= drawn.multiblocks; cut++) {
        cut_at(cut);
        count = receive_calls(&state);
        if (received_digest(&state, count) != digest)
            printf(" another if cut at %lu", cut);
    }
    printf("\n");
}

/* The header values of a case, one for each step. */
enum { MOST_STEPS = BLOCKS * 22 + 384 * 3 + 192 };
static u8 headers[MOST_STEPS];

static u8 noisy(size noise, u8 header) {
    int replaced = noise == 1 ? draw(64) == 0 : noise == 2 ? draw(8) == 0 : 0;
    return replaced ? (u8)draw(4) : header;
}

/* A pilot that ends with that header (pilot.rs): the end mark nine before it, 0 in the four before it, and 1. */
static void plant(size last) {
    headers[last - 9] = 1;
    memset(headers + last - 4, 2, 4);
    headers[last] = 1;
}

/* False pilots of some phases, over so many headers. */
static void draw_pilots(size steps, size extent) {
    for (size phases = draw(4); phases > 0; phases--)
        for (size last = 95 + draw(BLOCKS * extent); last < steps; last += BLOCKS * extent)
            if (draw(4) != 0)
                plant(last);
}

static size draw_header_values(size noise, size first, size extent) {
    size steps = 0;
    for (size bits = block_bits(drawn.mode), bit = bits * first; bit < 8 * drawn.lane_length; bit += bits)
        headers[steps++] = noisy(noise, lane[bit / 8] >> (6 - bit % 8) & 3);
    draw_pilots(steps, extent);
    if (draw(5) != 0)
        return steps;
    for (size left = 384 * extent; left > 0; left--)
        headers[steps++] = (u8)(1 + draw(2));
    for (size left = 192; left > 0; left--)
        headers[steps++] = (u8)draw(4);
    return steps;
}

static u64 with_lock(u64 digest, struct zaytulobe_lock lock) {
    struct zaytulobe_header_lock h = lock.header;
    struct zaytulobe_extended_lock x = lock.extended;
    u32 numbers[11] = {h.locked, h.offset, h.run, h.bad, x.phase, x.seen, x.headers, x.good, x.bad, x.next, x.kept};
    for (int k = 0; k < 11; k++)
        digest = with_number(digest, numbers[k]);
    return digest;
}

static void lock_line(u64 seed) {
    drawn.mode = draw_mode();
    size extent = 1 + draw(3);
    drawn.e = (u32)extent;
    draw_input(6 * extent + 4);
    send_input();
    size first = draw(BLOCKS * extent);
    size noise = draw(3);
    size steps = draw_header_values(noise, first, extent);
    struct zaytulobe_lock lock = zaytulobe_fresh_lock();
    u64 digest = EMPTY;
    for (size k = 0; k < steps; k++) {
        lock = zaytulobe_lock_step(drawn.mode, drawn.e, lock, headers[k]).lock;
        digest = with_lock(digest, lock);
    }
    printf("%lu lock %d %u %lu %lu %016lx", seed, drawn.mode, drawn.e, noise, steps, digest);
    print_lock(lock);
}

static void listing_line(u64 seed) {
    draw_damaged();
    size length = draw_capture();
    size room = draw(8) == 0 ? draw(64) : LISTING_ROOM;
    printf("%lu listing %lu", seed, length);
    print_text(zaytulobe_listing, length, room);
    printf("\n");
}

static void line(u64 seed) {
    seed_generator(seed);
    switch (seed % 6) {
    case 0: sent_line(seed); break;
    case 1: damaged_line(seed); break;
    case 2: lock_line(seed); break;
    case 3: listing_line(seed); break;
    case 4: any_call(seed); break;
    default: messages_line(seed);
    }
}

int main(int count, char **words) {
    if (count != 3)
        return 2;
    u64 last = strtoul(words[2], 0, 10);
    for (u64 seed = strtoul(words[1], 0, 10); seed <= last; seed++)
        line(seed);
    return 0;
}
