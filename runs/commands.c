/* Messages at the edges of what is written and read, and of captures that carry them: document 02, request 6; clauses 7.3.7.3,
   7.3.7.4 and 7.3.7.6 of the standard with Tables 49, 50 and 51, and Table 57 of clause 7.6.3. A line says what was tried and what
   came out; commands are in hexadecimal. What is read is one event after another, each with the word at which it begins and the
   word to go on from; in a text a line's end is a stroke. commands.txt has the lines expected: the second program's answers to the
   same calls. */
#include "lane.h"

enum { MOST_LIST = 24, MOST_PAYLOAD = 9, FULL = ZAYTULOBE_MOST_WORDS };
static u32 list[MOST_LIST];

/* A word of six bits: a header is its code, and idle is code 0. */
#define PAYLOAD(number) (32 + (number))
enum { IDLE = 0, GAIN = 16, OTHER = 31 };

/* Payload that tells its words apart, up to more than a message has. */
static const u8 rising[MOST_PAYLOAD] = {1, 2, 3, 4, 5, 6, 7, 8, 9};

static size words_of(u8 mode) {
    return ZAYTULOBE_COMMAND_WORDS(mode);
}

/* Commands with a right parity bit of so many words, the first of a command highest; how many. */
static size put_words(u8 mode, const u8 *words, size count) {
    size n = words_of(mode);
    for (size k = 0; k < count / n; k++) {
        u32 bits = 0;
        for (size word = 0; word < n; word++)
            bits = bits << 6 | words[n * k + word];
        list[k] = bits << 1 | (u32)__builtin_parity(bits);
    }
    return count / n;
}

static int untouched_from(size place) {
    for (size k = place; k < MOST_LIST; k++)
        if (list[k] != UNTOUCHED)
            return 0;
    return 1;
}

static struct zaytulobe_written write_over(u8 mode, u8 code, const u8 *payload, size count, size room) {
    for (size k = 0; k < MOST_LIST; k++)
        list[k] = UNTOUCHED;
    return zaytulobe_write_message(mode, code, payload, count, list, room);
}

static void try_write(const char *label, u8 mode, u8 code, const u8 *payload, size count, size room) {
    struct zaytulobe_written written = write_over(mode, code, payload, count, room);
    printf("%s: ", label);
    if (written.refusal != ZAYTULOBE_ACCEPTED) {
        printf("refused %d, count %lu, ", written.refusal, written.count);
        printf(untouched_from(0) ? "nothing written\n" : "SOMETHING WRITTEN\n");
        return;
    }
    printf("count %lu:", written.count);
    for (size k = 0; k < written.count; k++)
        printf(words_of(mode) == 1 ? " %02X" : " %05X", list[k]);
    printf(", %s\n", untouched_from(written.count) ? "no more written" : "MORE WRITTEN");
}

/* Whether an event says nothing that its kind hasn't. */
static int only_its_own(struct zaytulobe_event event) {
    size words = event.kind == ZAYTULOBE_MESSAGE ? event.count : 0;
    int has_code = event.kind == ZAYTULOBE_MESSAGE || event.kind == ZAYTULOBE_UNDEFINED;
    int has_count = event.kind == ZAYTULOBE_MESSAGE || event.kind == ZAYTULOBE_CUT;
    for (size k = words; k < ZAYTULOBE_MOST_WORDS; k++)
        if (event.words[k] != 0)
            return 0;
    return (has_code || event.code == 0) && (has_count || event.count == 0);
}

static void print_event(struct zaytulobe_event event) {
    static const char *const kinds[4] = {"nothing", "message", "cut", "undefined"};
    printf("%lu to %lu ", event.begin, event.next);
    if (event.refusal != ZAYTULOBE_ACCEPTED)
        printf("refused %d, ", event.refusal);
    printf("%s", event.kind < 4 ? kinds[event.kind] : "ANOTHER");
    if (event.kind == ZAYTULOBE_MESSAGE || event.kind == ZAYTULOBE_UNDEFINED)
        printf(" %d", event.code);
    for (size k = 0; event.kind == ZAYTULOBE_MESSAGE && k < event.count && k < ZAYTULOBE_MOST_WORDS; k++)
        printf(" %d", event.words[k]);
    if (event.kind == ZAYTULOBE_CUT)
        printf(" %lu", event.count);
    if (!only_its_own(event))
        printf(" AND MORE");
}

static void try_read(const char *label, u8 mode, size count, size from) {
    printf("%s: ", label);
    print_event(zaytulobe_read_event(mode, list, count, from));
    printf("\n");
}

/* One read after another, up to that of nothing or a refused one. */
static void read_all(const char *label, u8 mode, size count, size from) {
    struct zaytulobe_event event;
    size left = words_of(mode) * count + 1;
    printf("%s: ", label);
    do {
        event = zaytulobe_read_event(mode, list, count, from);
        print_event(event);
        printf(event.kind == ZAYTULOBE_NOTHING ? "\n" : "; ");
        from = event.next;
    } while (event.kind != ZAYTULOBE_NOTHING && left-- > 0);
}

static void read_words(const char *label, u8 mode, const u8 *words, size count) {
    read_all(label, mode, put_words(mode, words, count), 0);
}

/* What is written reads back: the message, and where its last command ends. */
static int reads_back(u8 mode, u8 code, size words, size count) {
    struct zaytulobe_event event = zaytulobe_read_event(mode, list, count, 0);
    return event.refusal == ZAYTULOBE_ACCEPTED && event.kind == ZAYTULOBE_MESSAGE && only_its_own(event) && event.code == code
        && event.count == words && memcmp(event.words, rising, words) == 0 && event.begin == 0
        && event.next == words_of(mode) * count;
}

/* By the number of payload words, 0 to 8: the commands written, or the refusal with a minus. */
static void run_code(u8 mode, u8 code) {
    size wrong = 0;
    printf("%s, code %d with 0 to 8 words:", name_of(mode), code);
    for (size words = 0; words <= FULL + 1; words++) {
        struct zaytulobe_written written = write_over(mode, code, rising, words, MOST_LIST);
        if (written.refusal == ZAYTULOBE_ACCEPTED) {
            printf(" %lu", written.count);
            wrong += !reads_back(mode, code, words, written.count);
        } else
            printf(" -%d", written.refusal);
    }
    printf(wrong == 0 ? "\n" : ", %lu READ OTHERWISE\n", wrong);
}

static void run_codes(u8 mode) {
    for (u8 code = 0; code <= 32; code++)
        run_code(mode, code);
    run_code(mode, 255);
}

static void run_written(void) {
    static const u8 zeros[FULL], ones[FULL] = {31, 31, 31, 31, 31, 31, 31};
    try_write("CRC-12, idle", CRC12, IDLE, rising, 0, 1);
    try_write("CRC-12, code 1", CRC12, 1, rising, 5, 6);
    try_write("CRC-12-80, code 2", CRC12_80, 2, rising, 2, 3);
    try_write("CRC-3, code 3", CRC3, 3, rising, 4, 5);
    try_write("CRC-12, code 31, 7 words 0", CRC12, OTHER, zeros, FULL, 8);
    try_write("CRC-12, code 31, 7 words 31", CRC12, OTHER, ones, FULL, 8);
    try_write("CMD, idle", COMMAND, IDLE, rising, 0, 1);
    try_write("CMD, code 16, 0 words and so 2 idle headers", COMMAND, GAIN, rising, 0, 1);
    try_write("CMD, code 16, 1 word and 1 idle header", COMMAND, GAIN, rising, 1, 1);
    try_write("CMD, code 16, 2 words and no idle header", COMMAND, GAIN, rising, 2, 1);
    try_write("CMD, code 16, 3 words and 2 idle headers", COMMAND, GAIN, rising, 3, 2);
    try_write("CMD, code 1", COMMAND, 1, rising, 5, 2);
    try_write("CMD, code 31, 7 words 0", COMMAND, OTHER, zeros, FULL, 3);
    try_write("CMD, code 31, 7 words 31", COMMAND, OTHER, ones, FULL, 3);
}

/* Each call has all that a higher refusal, or one that is asked later, would be for. */
static void run_write_refusals(void) {
    static const u8 at_edge[3] = {0, 31, 31}, past_edge[8] = {0, 0, 0, 0, 0, 0, 0, 32};
    try_write("FEC, code 7, 8 words, one of them 32, no room", FEC, 7, past_edge, 8, 0);
    try_write("FEC-80, idle", FEC_80, IDLE, rising, 0, 1);
    try_write("mode 6, idle", 6, IDLE, rising, 0, 1);
    try_write("mode 255, idle", 255, IDLE, rising, 0, 1);
    try_write("CRC-12, code 16, word 31", CRC12, GAIN, at_edge, 3, 4);
    try_write("CRC-12, code 16, word 32", CRC12, GAIN, past_edge + 7, 1, 2);
    try_write("CRC-12, code 7, 8 words, one of them 32, no room", CRC12, 7, past_edge, 8, 0);
    try_write("CRC-12, code 1, 4 words, no room", CRC12, 1, rising, 4, 0);
    try_write("CRC-12, code 1, 6 words, no room", CRC12, 1, rising, 6, 0);
    try_write("CRC-12, code 7, 8 words, no room", CRC12, 7, rising, 8, 0);
    try_write("CRC-12, code 32, 8 words, no room", CRC12, 32, rising, 8, 0);
    try_write("CRC-12, code 7, 7 words, no room", CRC12, 7, rising, 7, 0);
    try_write("CRC-12, code 15, 0 words, no room", CRC12, 15, rising, 0, 0);
    try_write("CRC-12, code 32, 0 words", CRC12, 32, rising, 0, 1);
    try_write("CMD, code 16, 8 words", COMMAND, GAIN, rising, 8, 3);
    try_write("CMD, code 255, 7 words", COMMAND, 255, rising, 7, 3);
    try_write("CRC-12, idle, no room", CRC12, IDLE, rising, 0, 0);
    try_write("CRC-12, code 3, room for 4", CRC12, 3, rising, 4, 4);
    try_write("CRC-12, code 3, room for 5", CRC12, 3, rising, 4, 5);
    try_write("CRC-12, code 3, room for 6", CRC12, 3, rising, 4, 6);
    try_write("CMD, code 3, room for 1", COMMAND, 3, rising, 4, 1);
    try_write("CMD, code 3, room for 2", COMMAND, 3, rising, 4, 2);
    try_write("CMD, code 3, room for 3", COMMAND, 3, rising, 4, 3);
}

static void run_read_refusals(void) {
    u32 most = 2 * ZAYTULOBE_COMMAND_FLAG(CRC12) - 1, most_of_three = 2 * ZAYTULOBE_COMMAND_FLAG(COMMAND) - 1;
    list[0] = list[1] = 0;
    try_read("FEC, command 0", FEC, 1, 0);
    try_read("FEC-80, no command", FEC_80, 0, 0);
    try_read("mode 6, command 0, from 7", 6, 1, 7);
    try_read("mode 255, command 0", 255, 1, 0);
    list[1] = most;
    try_read("CRC-12, commands 0 and 255", CRC12, 2, 1);
    list[1] = most + 1;
    try_read("CRC-12, commands 0 and 256, from 0", CRC12, 2, 0);
    try_read("CRC-12-80, commands 0 and 256, from 1", CRC12_80, 2, 1);
    try_read("CRC-3, commands 0 and 256, from 9", CRC3, 2, 9);
    try_read("CRC-12, command 0, and 256 after the list", CRC12, 1, 0);
    list[1] = most_of_three;
    try_read("CMD, commands 0 and 2^20 - 1", COMMAND, 2, 3);
    list[1] = most_of_three + 1;
    try_read("CMD, commands 0 and 2^20", COMMAND, 2, 0);
    list[1] = 0xffffffff;
    try_read("CMD, commands 0 and 2^32 - 1, from 2^64 - 1", COMMAND, 2, (size)-1);
}

/* Each bit of a command flipped, and the mark set: how many spoil it alike. */
static void run_spoilt(u8 mode, size command, size from) {
    size bits = words_of(mode) * 6 + 1, alike = 0;
    struct zaytulobe_event first, event;
    for (size bit = 0; bit <= bits; bit++) {
        size count = write_over(mode, GAIN, rising, 5, MOST_LIST).count;
        list[command] ^= 1U << bit;
        event = zaytulobe_read_event(mode, list, count, from);
        if (bit == 0)
            first = event;
        alike += event.refusal == ZAYTULOBE_ACCEPTED && event.kind == ZAYTULOBE_CUT && only_its_own(event)
            && event.count == first.count && event.begin == first.begin && event.next == first.next;
    }
    printf("%s, code 16, 5 words, command %lu with a bit flipped, from %lu: ", name_of(mode), command, from);
    print_event(first);
    printf(", for %lu bits of %lu\n", alike, bits + 1);
}

static void run_marks(void) {
    static const u8 two[6] = {GAIN, PAYLOAD(1), PAYLOAD(2), 1, PAYLOAD(3), PAYLOAD(4)};
    size count = put_words(CRC12, two, 6);
    list[1] |= ZAYTULOBE_COMMAND_FLAG(CRC12);
    read_all("CRC-12, a mark at the first payload word", CRC12, count, 0);
    list[2] ^= 1;
    read_all("CRC-12, and a wrong parity bit right after it", CRC12, count, 0);
    list[3] |= ZAYTULOBE_COMMAND_FLAG(CRC12);
    read_all("CRC-12, and a mark at the header after that", CRC12, count, 0);
    list[0] = ZAYTULOBE_COMMAND_FLAG(CRC12);
    read_all("CRC-12, four spoilt, the first an idle header with a mark", CRC12, count, 0);
    list[0] = 1;
    read_all("CRC-12, command 1, an idle header with a wrong parity bit", CRC12, 1, 0);
    list[0] = 2 * ZAYTULOBE_COMMAND_FLAG(CRC12) - 1;
    read_all("CRC-12, command 255", CRC12, 1, 0);
}

static void run_spoilt_of_three(void) {
    static const u8 three[9] = {GAIN, PAYLOAD(1), PAYLOAD(2), PAYLOAD(3), PAYLOAD(4), PAYLOAD(5), 5, 6, IDLE};
    static const char *const labels[7] = {
        "CMD, a spoilt second command, from 0", "CMD, the same, from 1", "CMD, the same, from 2", "CMD, the same, from 3",
        "CMD, the same, from 4", "CMD, the same, from 5", "CMD, the same, from 6"};
    size count = put_words(COMMAND, three, 9);
    list[1] |= ZAYTULOBE_COMMAND_FLAG(COMMAND);
    for (size from = 0; from < 7; from++)
        read_all(labels[from], COMMAND, count, from);
    list[0] |= ZAYTULOBE_COMMAND_FLAG(COMMAND);
    read_all("CMD, two spoilt commands", COMMAND, count, 0);
    list[2] ^= 1;
    read_all("CMD, all spoilt", COMMAND, count, 0);
}

static void run_ends(void) {
    static const u8 words[3] = {5, 6, GAIN};
    put_words(CRC12, words, 3);
    read_all("CRC-12, no command", CRC12, 0, 0);
    read_all("CRC-12, 3 commands, from 2", CRC12, 3, 2);
    read_all("CRC-12, 3 commands, from 3, the end", CRC12, 3, 3);
    read_all("CRC-12, 3 commands, from 4", CRC12, 3, 4);
    read_all("CRC-12, 3 commands, from 2^64 - 1", CRC12, 3, (size)-1);
    put_words(COMMAND, words, 3);
    read_all("CMD, no command", COMMAND, 0, 0);
    read_all("CMD, 1 command, from 2", COMMAND, 1, 2);
    read_all("CMD, 1 command, from 3, the end", COMMAND, 1, 3);
    read_all("CMD, 1 command, from 4", COMMAND, 1, 4);
    read_all("CMD, 1 command, from 2^64 - 1", COMMAND, 1, (size)-1);
}

/* What ends a message of one word a command: its last word, a header, the list's end. */
static void run_ended(void) {
    static const u8 full[10] = {
        GAIN, PAYLOAD(1), PAYLOAD(2), PAYLOAD(3), PAYLOAD(4), PAYLOAD(5), PAYLOAD(6), PAYLOAD(7), PAYLOAD(8), PAYLOAD(9)};
    static const u8 opened[7] = {GAIN, PAYLOAD(1), OTHER, GAIN, PAYLOAD(2), IDLE, GAIN};
    static const u8 fixed[8] = {2, PAYLOAD(1), PAYLOAD(2), PAYLOAD(3), 2, PAYLOAD(4), 2, IDLE};
    static const u8 short_ones[9] = {1, 3, PAYLOAD(1), 4, PAYLOAD(1), PAYLOAD(2), PAYLOAD(3), PAYLOAD(4), 5};
    static const u8 bare[4] = {5, PAYLOAD(1), 6, PAYLOAD(2)}, idles[3] = {IDLE, IDLE, IDLE};
    static const u8 undefined[7] = {7, PAYLOAD(1), PAYLOAD(2), 15, 8, PAYLOAD(3), 5};
    read_words("CRC-12, user defined, 9 words", CRC12, full, 10);
    read_words("CRC-12, user defined, 8 words and the list's end", CRC12, full, 9);
    read_words("CRC-12, user defined, 7 words and the list's end", CRC12, full, 8);
    read_words("CRC-12, user defined, 6 words and the list's end", CRC12, full, 7);
    read_words("CRC-12, user defined, its header and the list's end", CRC12, full, 1);
    read_words("CRC-12, user defined, ended by headers", CRC12, opened, 7);
    read_words("CRC-12, 2 words asked, with 3, 1 and 0", CRC12, fixed, 8);
    read_words("CRC-12, 5, 4 and 5 words asked, with 0, 1 and 4", CRC12, short_ones, 9);
    read_words("CRC-12, 5 words asked, with 4 and the list's end", CRC12, short_ones + 3, 5);
    read_words("CRC-12, 5 words asked, with none and the list's end", CRC12, short_ones, 1);
    read_words("CRC-12, no words asked, with 1 each", CRC12, bare, 4);
    read_words("CRC-12, payload and nothing else", CRC12, full + 1, 9);
    read_words("CRC-12, idle headers", CRC12, idles, 3);
    read_words("CRC-12-80, undefined codes and their payload", CRC12_80, undefined, 7);
    read_words("CRC-3, the same", CRC3, undefined, 7);
}

/* Three words a command: an idle header that isn't the first word of its command is padding. */
static void run_ended_of_three(void) {
    static const u8 idles[6] = {IDLE, IDLE, IDLE, IDLE, IDLE, IDLE};
    static const u8 full[12] = {
        GAIN, PAYLOAD(1), PAYLOAD(2), PAYLOAD(3), PAYLOAD(4), PAYLOAD(5), PAYLOAD(6), PAYLOAD(7), PAYLOAD(8), IDLE, IDLE, IDLE};
    static const u8 padded[9] = {GAIN, IDLE, IDLE, GAIN, PAYLOAD(1), IDLE, GAIN, PAYLOAD(1), PAYLOAD(2)};
    static const u8 late[9] = {IDLE, GAIN, PAYLOAD(1), IDLE, IDLE, GAIN, PAYLOAD(2), IDLE, OTHER};
    static const u8 between[9] = {GAIN, IDLE, PAYLOAD(1), IDLE, PAYLOAD(2), IDLE, PAYLOAD(3), IDLE, 5};
    static const u8 fixed[12] = {2, PAYLOAD(1), IDLE, 2, PAYLOAD(1), PAYLOAD(2), 2, IDLE, PAYLOAD(1), 2, PAYLOAD(1), 2};
    static const u8 crossing[6] = {5, 6, 2, PAYLOAD(1), PAYLOAD(2), IDLE};
    static const u8 undefined[9] = {7, IDLE, IDLE, 8, PAYLOAD(1), IDLE, IDLE, 15, IDLE};
    read_words("CMD, idle headers", COMMAND, idles, 6);
    read_all("CMD, idle headers, from 1", COMMAND, put_words(COMMAND, idles, 6), 1);
    read_words("CMD, user defined, 8 words", COMMAND, full, 12);
    read_words("CMD, user defined, 8 words and the list's end", COMMAND, full, 9);
    read_words("CMD, user defined, 5 words and the list's end", COMMAND, full, 6);
    read_words("CMD, user defined, ended by padding, by padding and by the list's end", COMMAND, padded, 9);
    read_words("CMD, headers amid idle ones", COMMAND, late, 9);
    read_words("CMD, payload between idle headers", COMMAND, between, 9);
    read_words("CMD, 2 words asked, with 1, 2, 0, 1 and 0", COMMAND, fixed, 12);
    read_words("CMD, 2 words asked, with 1, and with none at the list's end", COMMAND, fixed + 9, 3);
    read_words("CMD, a message from one command to the next", COMMAND, crossing, 6);
    read_words("CMD, undefined codes", COMMAND, undefined, 9);
}

/* A capture of so many octets of the lane, and its messages in a text of some room. */
static u8 capture[HEAD + MOST_LANE_OCTETS * MOST_LIST], text[ZAYTULOBE_LONGEST_MESSAGES];

static size put_capture(u8 mode, u32 e, size octets) {
    u8 head[HEAD] = {0, 0, 0, 3, mode, (u8)(e >> 8), (u8)e, 0, (u8)(octets >> 16), (u8)(octets >> 8), (u8)octets};
    for (size k = 0; k < HEAD; k++)
        capture[k] = head[k];
    for (size k = 0; k < octets; k++)
        capture[HEAD + k] = lane[k];
    return HEAD + octets;
}

/* The rest of a text lent keeps its values. */
static void try_text(const char *label, size length, size room) {
    size written, touched = 0;
    memset(text, UNTOUCHED, sizeof text);
    struct zaytulobe_listed listed = zaytulobe_messages(capture, length, text, room);
    printf("%s: ", label);
    if (listed.refusal == ZAYTULOBE_ACCEPTED)
        printf("count %lu: ", listed.count);
    else
        printf("refused %d, count %lu", listed.refusal, listed.count);
    for (written = 0; written < listed.count; written++)
        printf("%c", text[written] == '\n' ? '|' : text[written]);
    for (size k = written; k < sizeof text; k++)
        touched += text[k] != UNTOUCHED;
    printf(touched == 0 ? "\n" : ", MORE WRITTEN\n");
}

static void try_capture(const char *label, u8 mode, u32 e, size octets) {
    try_text(label, put_capture(mode, e, octets), sizeof text);
}

/* The lane that carries the list, with user octets 0; its octets. */
static size send_list(u8 mode, size count) {
    memset(user, 0, USER_OCTETS * count);
    struct zaytulobe_sent sent = zaytulobe_send(
        mode, 1, zaytulobe_fresh_sender(), user, USER_OCTETS * count, list, count, lane, lane_octets(mode) * count);
    if (sent.refusal != ZAYTULOBE_ACCEPTED)
        stop("the sender refused");
    return lane_octets(mode) * count;
}

/* A gain, idle headers before and after it, a message that the list's end cuts since its last word waits with its multiblock. */
static void run_texts(void) {
    static const u8 words[9] = {IDLE, GAIN, PAYLOAD(3), PAYLOAD(17), PAYLOAD(9), IDLE, 2, PAYLOAD(1), PAYLOAD(2)};
    size octets = send_list(CRC12, put_words(CRC12, words, 9)), needed = 64;
    try_capture("CRC-12, a gain", CRC12, 1, octets);
    try_text("CRC-12, the same in as much room", HEAD + octets, needed);
    try_text("CRC-12, the same in an octet less", HEAD + octets, needed - 1);
    try_text("CRC-12, the same without room", HEAD + octets, 0);
    put_header(CRC12, 3, 16, 3);
    try_capture("CRC-12, the same with an invalid header of the command of multiblock 3", CRC12, 1, octets);
    try_capture("CRC-12-80, a gain", CRC12_80, 1, send_list(CRC12_80, put_words(CRC12_80, words, 9)));
    try_capture("CRC-3, a gain", CRC3, 1, send_list(CRC3, put_words(CRC3, words, 9)));
    octets = send_list(COMMAND, put_words(COMMAND, words, 9));
    try_capture("CMD, the same words", COMMAND, 256, octets);
    put_header(COMMAND, 1, 26, 0);
    try_capture("CMD, the same with an invalid header of the parity bit of multiblock 1", COMMAND, 256, octets);
}

static void run_capture_refusals(void) {
    size one = lane_octets(CRC12);
    put_capture(FEC, 0, one - 1);
    try_text("a capture without its last octet", HEAD + one - 2, sizeof text);
    try_capture("mode 1, E 0, 263 lane octets", FEC, 0, one - 1);
    try_capture("mode 3, E 1, no lane octet", FEC_80, 1, 0);
    try_capture("mode 6, E 0, 263 lane octets", 6, 0, one - 1);
    try_capture("mode 0, E 0, 263 lane octets", CRC12, 0, one - 1);
    try_capture("mode 5, E 257, no lane octet", COMMAND, 257, 0);
    try_capture("mode 0, E 256, 263 lane octets", CRC12, 256, one - 1);
    try_capture("mode 2, E 256, 264 lane octets", CRC12_80, 256, one);
    try_capture("mode 0, E 256, no lane octet", CRC12, 256, 0);
    try_capture("mode 5, E 256, one multiblock, which waits", COMMAND, 256, one);
    put_capture(COMMAND, 1, 0);
    try_text("mode 5, E 1, no lane octet, room for 10", HEAD, 10);
    try_text("mode 5, E 1, no lane octet, room for 9", HEAD, 9);
}

int main(void) {
    run_codes(CRC12);
    run_codes(COMMAND);
    run_written();
    run_write_refusals();
    run_read_refusals();
    for (size command = 0; command < 6; command++)
        run_spoilt(CRC12, command, 0);
    run_spoilt(CRC12, 3, 2);
    for (size command = 0; command < 2; command++)
        run_spoilt(COMMAND, command, 0);
    run_spoilt(COMMAND, 1, 4);
    run_marks();
    run_spoilt_of_three();
    run_ends();
    run_ended();
    run_ended_of_three();
    run_texts();
    run_capture_refusals();
    return 0;
}
