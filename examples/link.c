/* Sends four multiblocks in FEC mode, flips a burst of nine lane bits, the first of them in a header, receives what is left,
   and prints what came back, with the totals of the receiver's state; then steps the locks by the lane's headers, and lists the
   lane as a capture. Then it sends and receives the same octets with blocks of 80 bits, one multiblock a call: the state takes
   the register of the fill bits from each call to the next. At last it sends them with a message in the stand-alone command
   channel, and reads it from what came back. Compiles as C and as C++. */
#include "zaytulobe.h"

#ifdef __cplusplus
extern "C" {
#endif
int printf(const char *format, ...);
void *memcpy(void *to, const void *from, zaytulobe_size count);
#ifdef __cplusplus
}
#endif

enum { MODE = ZAYTULOBE_FEC, E = 1, MULTIBLOCKS = 4, FIRST_BIT = 6007, BITS = 9 };
enum { USER = ZAYTULOBE_USER_OCTETS * MULTIBLOCKS, LANE = ZAYTULOBE_LANE_OCTETS(MODE) * MULTIBLOCKS };

static zaytulobe_u8 user[USER], lane[LANE], octets[USER];

static void send(void) {
    zaytulobe_u32 commands[MULTIBLOCKS] = {0};
    for (int k = 0; k < USER; k++)
        user[k] = (zaytulobe_u8)(k * k + k / ZAYTULOBE_USER_OCTETS);
    struct zaytulobe_sent sent = zaytulobe_send(MODE, E, zaytulobe_fresh_sender(), user, USER, commands, MULTIBLOCKS, lane, LANE);
    printf("refusal %d, sent %lu\n", sent.refusal, sent.count);
}

static void damage(void) {
    for (int k = FIRST_BIT; k < FIRST_BIT + BITS; k++)
        lane[k / 8] ^= (zaytulobe_u8)(128 >> k % 8);
    printf("flipped lane bits %d to %d\n", FIRST_BIT, FIRST_BIT + BITS - 1);
}

static void receive(void) {
    zaytulobe_u8 statuses[MULTIBLOCKS], invalid[MULTIBLOCKS];
    zaytulobe_u32 commands[MULTIBLOCKS];
    zaytulobe_u16 places[MULTIBLOCKS], patterns[MULTIBLOCKS];
    struct zaytulobe_received received = zaytulobe_receive(
        MODE, zaytulobe_fresh_receiver(), lane, LANE, octets, USER, statuses, MULTIBLOCKS, commands, MULTIBLOCKS,
        places, MULTIBLOCKS, patterns, MULTIBLOCKS, invalid, MULTIBLOCKS);
    zaytulobe_size count = received.count, come = ZAYTULOBE_USER_OCTETS * count, same = 0;
    printf("refusal %d, released %lu, waiting %d\n", received.refusal, count, received.state.waiting);
    for (zaytulobe_size k = 0; k < count; k++)
        printf("multiblock %lu: status %d, place %d, pattern %d, invalid headers %d\n", k, statuses[k], places[k], patterns[k],
            invalid[k]);
    const struct zaytulobe_receiver *state = &received.state;
    printf("totals: sound %u, repaired %u, failed %u\n", state->sound, state->repaired, state->failed);
    for (zaytulobe_size k = 0; k < come; k++)
        same += octets[k] == user[k];
    printf("%lu of %lu octets as they were sent\n", same, come);
    struct zaytulobe_run run = zaytulobe_longest_run(octets, come, statuses, count);
    printf("longest run: refusal %d, %lu from multiblock %lu\n", run.refusal, run.count, run.start);
}

static void lock(void) {
    struct zaytulobe_stepped stepped = {0, zaytulobe_fresh_lock()};
    for (int bit = 0; bit < 8 * LANE; bit += ZAYTULOBE_BLOCK_BITS(MODE))
        stepped = zaytulobe_lock_step(MODE, E, stepped.lock, lane[bit / 8] >> (6 - bit % 8) & 3);
    struct zaytulobe_lock locks = stepped.lock;
    printf("locks: refusal %d, headers locked %u, phase %u\n", stepped.refusal, locks.header.locked, locks.extended.phase);
}

static void list(void) {
    static zaytulobe_u8 capture[ZAYTULOBE_CAPTURE_HEAD + LANE] = {0, 0, 0, 3, MODE, 0, E, 0, 0, LANE / 256, LANE % 256};
    static zaytulobe_u8 text[ZAYTULOBE_LONGEST_TEXT];
    memcpy(capture + ZAYTULOBE_CAPTURE_HEAD, lane, LANE);
    struct zaytulobe_listed listed = zaytulobe_listing(capture, sizeof capture, text, sizeof text);
    printf("listing: refusal %d\n%.*s", listed.refusal, (int)listed.count, (const char *)text);
}

static void send_and_receive_80(void) {
    enum { MODE_80 = ZAYTULOBE_FEC_80, ONE = ZAYTULOBE_LANE_OCTETS(MODE_80), USER_OCTETS = ZAYTULOBE_USER_OCTETS };
    static zaytulobe_u8 wide[ONE];
    struct zaytulobe_sent sent = {0, 0, zaytulobe_fresh_sender()};
    struct zaytulobe_received received = {0, 0, zaytulobe_fresh_receiver()};
    const zaytulobe_u32 command = 0;
    for (int k = 0; k < MULTIBLOCKS; k++) {
        zaytulobe_u8 status, invalid;
        zaytulobe_u16 place, pattern;
        zaytulobe_u32 got, fill = sent.state.fill;
        sent = zaytulobe_send(MODE_80, E, sent.state, user + USER_OCTETS * k, USER_OCTETS, &command, 1, wide, ONE);
        received = zaytulobe_receive(
            MODE_80, received.state, wide, ONE, octets, USER_OCTETS, &status, 1, &got, 1, &place, 1, &pattern, 1, &invalid, 1);
        printf("80 bits: refusals %d and %d, ", sent.refusal, received.refusal);
        printf("fill %u, lane %02X %02X %02X ..", fill, wide[0], wide[1], wide[2]);
        if (received.count == 1)
            printf(", released with status %d", status);
        printf("\n");
    }
}

static void send_and_read_message(void) {
    enum { COMMAND = ZAYTULOBE_COMMAND, GAIN = 16 };
    const zaytulobe_u8 gain[3] = {3, 17, 9};
    zaytulobe_u8 statuses[MULTIBLOCKS], invalid[MULTIBLOCKS];
    zaytulobe_u32 commands[MULTIBLOCKS] = {0};
    zaytulobe_u16 places[MULTIBLOCKS], patterns[MULTIBLOCKS];
    struct zaytulobe_written written = zaytulobe_write_message(COMMAND, GAIN, gain, 3, commands, MULTIBLOCKS);
    printf("message: refusal %d, %lu commands, %05X and %05X\n", written.refusal, written.count, commands[0], commands[1]);
    zaytulobe_send(COMMAND, E, zaytulobe_fresh_sender(), user, USER, commands, MULTIBLOCKS, lane, LANE);
    struct zaytulobe_received received = zaytulobe_receive(
        COMMAND, zaytulobe_fresh_receiver(), lane, LANE, octets, USER, statuses, MULTIBLOCKS, commands, MULTIBLOCKS,
        places, MULTIBLOCKS, patterns, MULTIBLOCKS, invalid, MULTIBLOCKS);
    struct zaytulobe_event event = zaytulobe_read_event(COMMAND, commands, received.count, 0);
    for (; event.kind == ZAYTULOBE_MESSAGE; event = zaytulobe_read_event(COMMAND, commands, received.count, event.next)) {
        printf("word %lu: code %d", event.begin, event.code);
        for (zaytulobe_size k = 0; k < event.count; k++)
            printf(k == 0 ? ", payload %d" : " %d", event.words[k]);
        printf("\n");
    }
    printf("word %lu: %s\n", event.begin, event.kind == ZAYTULOBE_NOTHING ? "nothing more" : "no message");
}

int main(void) {
    send();
    damage();
    receive();
    lock();
    list();
    send_and_receive_80();
    send_and_read_message();
    return 0;
}
