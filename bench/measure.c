/* The proved library and the two baselines on the same input.
     measure check                  all three give the same on every case, and the statuses are those that the case is made for
     measure time                   a line for each case and library: case, library, multiblocks, least nanoseconds of a call
     measure turn CASE LIBRARY N    the case, N times, and nothing else: for counting instructions
     measure cases                  the names of the cases, with their multiblocks */
#include "baseline.h"

int printf(const char *format, ...);
int strcmp(const char *one, const char *other);
int memcmp(const void *one, const void *other, size count);
void *memset(void *to, int octet, size count);
u64 strtoul(const char *text, char **end, int base);
struct timespec {
    long seconds, nanoseconds;
};
int clock_gettime(int clock, struct timespec *now);

static const struct library {
    const char *name;
    SEND((*send));
    RECEIVE((*receive));
    LISTING((*listing));
} LIBRARIES[] = {
    {"zaytulobe", zaytulobe_send, zaytulobe_receive, zaytulobe_listing},
    {"tuned", tuned_send, tuned_receive, tuned_listing},
    {"plain", plain_send, plain_receive, plain_listing},
};

enum work { SENDING, RECEIVING, LISTING };
enum damage { CLEAN, REPAIRED, LAST, FAILED };
enum { CASES = 20, LIBRARY_COUNT = 3, E = 4, WIDE = ZAYTULOBE_MOST_MULTIBLOCKS(FEC_80) };

/* A plain search takes so long that the cases with one in every multiblock have fewer. */
static const struct made {
    const char *name;
    enum work work;
    u8 mode;
    enum damage damage;
    size multiblocks;
} MADE[CASES] = {
    {"send-crc12", SENDING, CRC12, CLEAN, MOST},
    {"send-fec", SENDING, FEC, CLEAN, MOST},
    {"clean-crc12", RECEIVING, CRC12, CLEAN, MOST},
    {"clean-fec", RECEIVING, FEC, CLEAN, MOST},
    {"repaired-fec", RECEIVING, FEC, REPAIRED, 48},
    {"last-fec", RECEIVING, FEC, LAST, 48},
    {"failed-crc12", RECEIVING, CRC12, FAILED, MOST},
    {"failed-fec", RECEIVING, FEC, FAILED, 48},
    {"listing-crc12", LISTING, CRC12, CLEAN, MOST},
    {"listing-fec", LISTING, FEC, CLEAN, MOST},
    {"send-crc12-80", SENDING, CRC12_80, CLEAN, WIDE},
    {"send-fec-80", SENDING, FEC_80, CLEAN, WIDE},
    {"clean-crc12-80", RECEIVING, CRC12_80, CLEAN, WIDE},
    {"clean-fec-80", RECEIVING, FEC_80, CLEAN, WIDE},
    {"repaired-fec-80", RECEIVING, FEC_80, REPAIRED, 48},
    {"failed-fec-80", RECEIVING, FEC_80, FAILED, 48},
    {"listing-crc12-80", LISTING, CRC12_80, CLEAN, WIDE},
    {"listing-fec-80", LISTING, FEC_80, CLEAN, WIDE},
    {"send-crc3", SENDING, CRC3, CLEAN, MOST},
    {"clean-crc3", RECEIVING, CRC3, CLEAN, MOST},
};

static u64 stands_at;

static u32 draw(u32 below) {
    stands_at = stands_at * 6364136223846793005 + 1442695040888963407;
    return (u32)(stands_at >> 33) % below;
}

/* The input: what is sent, and a lane of one multiblock more than a call takes, so that each call releases as many as it takes. */
static u8 user[USER_OCTETS * (MOST + 1)], lane[MOST_LANE_OCTETS * (MOST + 1)], capture[ZAYTULOBE_LONGEST_OF_ALL];
static u32 commands[MOST + 1];
static struct zaytulobe_receiver before;

/* Everything that a call answers. */
static struct results {
    u64 numbers[11];
    u8 lane[MOST_LANE_OCTETS * MOST], octets[USER_OCTETS * MOST], statuses[MOST], waiting[USER_OCTETS], text[ZAYTULOBE_LONGEST_TEXT];
    u32 commands[MOST];
    u16 places[MOST], patterns[MOST];
    u8 invalid[MOST];
} results[LIBRARY_COUNT];

static void flip_data(u8 mode, size multiblock, size position) {
    size bit = multiblock_bits(mode) * multiblock + data_place(mode, position);
    lane[bit / 8] ^= (u8)(128 >> bit % 8);
}

/* A position of the FEC codeword: those from 2048 on are carried by headers of the next multiblock, around its end mark. */
static void flip_position(u8 mode, size multiblock, size position) {
    if (position < DATA_BITS) {
        flip_data(mode, multiblock, position);
        return;
    }
    size rank = position - DATA_BITS, block = rank < 22 ? rank : rank + 1;
    size bit = multiblock_bits(mode) * (multiblock + 1) + block_bits(mode) * block;
    lane[bit / 8] ^= (u8)(192 >> bit % 8);
}

/* A burst of nine bits anywhere in the codeword, or the one that a search from place 0 and pattern 1 on finds last; or three bits
   six apart, which no burst of nine explains: modulo x^17 + 1, which divides the FEC polynomial, they lie in no nine of the
   seventeen places. */
static void hit(u8 mode, size multiblock, enum damage damage) {
    if (damage == REPAIRED || damage == LAST) {
        size place = damage == LAST ? 2065 : draw(2066);
        u32 pattern = damage == LAST ? 511 : 257 | draw(256);
        for (size k = 0; k < 9; k++)
            if (pattern >> k & 1)
                flip_position(mode, multiblock, place + k);
    } else if (damage == FAILED) {
        size place = draw(2036);
        for (size k = 0; k < 3; k++)
            flip_data(mode, multiblock, place + 6 * k);
    }
}

static void prepare(const struct made *made) {
    size n = made->multiblocks, one = lane_octets(made->mode), length = one * n;
    stands_at = 1;
    for (size k = 0; k < sizeof user; k++)
        user[k] = (u8)draw(256);
    for (size k = 0; k <= MOST; k++)
        commands[k] = has_fec(made->mode) ? 0 : draw(ZAYTULOBE_MOST_COMMAND(made->mode) + 1);
    struct zaytulobe_sender fresh = {0, 0, 0, 0};
    struct zaytulobe_sender state = zaytulobe_send(made->mode, E, fresh, user, USER_OCTETS, commands, 1, lane, one).state;
    zaytulobe_send(made->mode, E, state, user + USER_OCTETS, USER_OCTETS * n, commands + 1, n, lane + one, length);
    for (size k = 0; k < n; k++)
        hit(made->mode, k, made->damage);
    struct zaytulobe_receiver none = {0};
    struct results *to = &results[0];
    before = zaytulobe_receive(made->mode, none, lane, one, to->octets, 0, to->statuses, 0, to->commands, 0, to->places, 0,
        to->patterns, 0, to->invalid, 0).state;
    u8 head[HEAD] = {0, 0, 0, 3, made->mode, 0, E, 0, (u8)(length >> 16), (u8)(length >> 8), (u8)length};
    memcpy(capture, head, HEAD);
    memcpy(capture + HEAD, lane, length);
}

static void turn(const struct made *made, const struct library *library, struct results *to) {
    size n = made->multiblocks, one = lane_octets(made->mode);
    if (made->work == SENDING) {
        struct zaytulobe_sender fresh = {0, 0, 0, 0};
        struct zaytulobe_sent sent = library->send(
            made->mode, E, fresh, user, USER_OCTETS * n, commands, n, to->lane, sizeof to->lane);
        struct zaytulobe_sender *state = &sent.state;
        u64 numbers[6] = {sent.refusal, sent.count, state->history, state->parity, state->number, state->fill};
        memcpy(to->numbers, numbers, sizeof numbers);
    } else if (made->work == RECEIVING) {
        struct zaytulobe_received received = library->receive(
            made->mode, before, lane + one, one * n, to->octets, sizeof to->octets, to->statuses, MOST,
            to->commands, MOST, to->places, MOST, to->patterns, MOST, to->invalid, MOST);
        struct zaytulobe_receiver *state = &received.state;
        u64 numbers[11] = {received.refusal, received.count, state->history, state->command, state->waiting, state->trusted,
            state->invalid, state->own, state->sound, state->repaired, state->failed};
        memcpy(to->numbers, numbers, sizeof numbers);
        memcpy(to->waiting, state->octets, USER_OCTETS);
    } else {
        struct zaytulobe_listed listed = library->listing(capture, HEAD + one * n, to->text, sizeof to->text);
        to->numbers[0] = listed.refusal;
        to->numbers[1] = listed.count;
    }
}

/* Not refused, the whole count, and of a receiver the status that the case is made for; the first has nothing trusted before it. */
static int as_made(const struct made *made, const struct results *got) {
    static const u8 statuses[] = {ZAYTULOBE_AGREES, ZAYTULOBE_REPAIRED, ZAYTULOBE_REPAIRED, ZAYTULOBE_FAILED};
    size n = made->multiblocks;
    if (got->numbers[0] != ZAYTULOBE_ACCEPTED || (made->work == LISTING ? got->numbers[1] < 8 * n : got->numbers[1] != n))
        return 0;
    for (size k = 0; made->work == RECEIVING && k < n; k++)
        if (got->statuses[k] != statuses[made->damage] + (k == 0 || made->damage == FAILED ? ZAYTULOBE_UNTRUSTED : 0))
            return 0;
    return 1;
}

static int check(void) {
    int wrong = 0;
    for (int c = 0; c < CASES; c++) {
        prepare(&MADE[c]);
        for (int l = 0; l < LIBRARY_COUNT; l++) {
            memset(&results[l], 165, sizeof results[l]);
            turn(&MADE[c], &LIBRARIES[l], &results[l]);
            if (!as_made(&MADE[c], &results[l]) || memcmp(&results[l], &results[0], sizeof results[0])) {
                printf("%s: wrong answer of %s\n", MADE[c].name, LIBRARIES[l].name);
                wrong = 1;
            }
        }
    }
    return wrong;
}

static long nanoseconds(void) {
    struct timespec now;
    clock_gettime(1, &now);
    return now.seconds * 1000000000 + now.nanoseconds;
}

/* The least of at least three calls, and of as many as go into a fifth of a second. */
static long least_time(const struct made *made, const struct library *library) {
    long start = nanoseconds(), least = 0;
    for (int turns = 0; turns < 3 || nanoseconds() - start < 200000000; turns++) {
        long from = nanoseconds();
        turn(made, library, &results[0]);
        long took = nanoseconds() - from;
        least = turns == 0 || took < least ? took : least;
    }
    return least;
}

static int time_all(void) {
    for (int c = 0; c < CASES; c++) {
        prepare(&MADE[c]);
        for (int l = 0; l < LIBRARY_COUNT; l++)
            printf("%s %s %lu %ld\n", MADE[c].name, LIBRARIES[l].name, MADE[c].multiblocks, least_time(&MADE[c], &LIBRARIES[l]));
    }
    return 0;
}

static int turn_named(const char *name, const char *library, u64 turns) {
    for (int c = 0; c < CASES; c++)
        for (int l = 0; l < LIBRARY_COUNT; l++)
            if (!strcmp(MADE[c].name, name) && !strcmp(LIBRARIES[l].name, library)) {
                prepare(&MADE[c]);
                while (turns-- > 0)
                    turn(&MADE[c], &LIBRARIES[l], &results[0]);
                return 0;
            }
    return 2;
}

static int print_cases(void) {
    for (int c = 0; c < CASES; c++)
        printf("%s %lu\n", MADE[c].name, MADE[c].multiblocks);
    return 0;
}

int main(int count, char **words) {
    if (count == 2 && !strcmp(words[1], "check"))
        return check();
    if (count == 2 && !strcmp(words[1], "time"))
        return time_all();
    if (count == 2 && !strcmp(words[1], "cases"))
        return print_cases();
    if (count == 5 && !strcmp(words[1], "turn"))
        return turn_named(words[2], words[3], strtoul(words[4], 0, 10));
    return 2;
}
