/* Messages written, lists of commands read, and the messages of captures: second/src/messaged.rs says the rules. */
#ifndef MESSAGES_H
#define MESSAGES_H

#include "capture.h"

/* Parts of a list, and commands of a part; payload words of a message; multiblocks of a lane with a list. */
enum { MOST_PARTS = 12, MOST_IN_PART = 1 + ZAYTULOBE_MOST_WORDS, MOST_LIST = MOST_PARTS * MOST_IN_PART };
enum { MOST_PAYLOAD = 64, LEAST_SENT = 2, MOST_SENT = 16 };

static u32 list[MOST_LIST];
static size list_length;
static u8 payload[MOST_PAYLOAD];

static u8 draw_message_mode(void) {
    static const u8 modes[24] = {0, 0, 0, 0, 2, 2, 2, 4, 4, 4, 5, 5, 5, 5, 5, 5, 5, 5, 5, 5, 1, 3, 6, 255};
    return modes[draw(24)];
}

/* With a mode that has no commands, all else is drawn as with this one. */
static u8 with_commands(u8 mode) {
    return mode < MODES && !has_fec(mode) ? mode : CRC12;
}

static size words_of(u8 as) {
    return ZAYTULOBE_COMMAND_WORDS(as);
}

static u8 draw_code(void) {
    return draw(2) == 0 ? (u8)draw(7) : (u8)(16 + draw(16));
}

static size draw_asked(u8 code) {
    static const u8 asked[7] = {0, 5, 2, 4, 5, 0, 0};
    return code < 7 ? asked[code] : draw(8);
}

static void draw_payload(size length) {
    for (size k = 0; k < length; k++)
        payload[k] = (u8)draw(32);
}

static u32 draw_any_word(void) {
    return (u32)draw(64);
}

static u32 draw_telling_word(void) {
    switch (draw(4)) {
    case 0: return 0;
    case 1: return (u32)draw(32);
    case 2: return 32 + (u32)draw(32);
    default: return 7 + (u32)draw(9);
    }
}

static u32 draw_words(u8 as, u32 (*draw_word)(void)) {
    u32 bits = 0;
    for (size left = words_of(as); left > 0; left--)
        bits = bits << 6 | draw_word();
    return bits << 1 | (u32)__builtin_parity(bits);
}

static u32 draw_command(u8 as, size kind) {
    switch (kind) {
    case 6: return (u32)draw(2 * ZAYTULOBE_COMMAND_FLAG(as));
    case 7: return draw_words(as, draw_any_word);
    case 8: return draw_words(as, draw_telling_word);
    default: return 0;
    }
}

static void draw_message(u8 as) {
    u8 code = draw_code();
    size length = draw_asked(code);
    draw_payload(length);
    list_length += zaytulobe_write_message(as, code, payload, length, list + list_length, 1 + length).count;
}

static void draw_part(u8 as) {
    size kind = draw(10);
    if (kind < 6) {
        draw_message(as);
        return;
    }
    for (size left = 1 + draw(3); left > 0; left--)
        list[list_length++] = draw_command(as, kind);
}

static void draw_list(u8 as) {
    list_length = 0;
    for (size left = draw(MOST_PARTS + 1); left > 0; left--)
        draw_part(as);
}

static u8 draw_written_code(void) {
    u8 code = draw_code();
    if (draw(4) == 0)
        code = (u8)draw(40);
    return rarely() ? (u8)draw(256) : code;
}

static size draw_written_payload(u8 code) {
    size length = draw_asked(code);
    if (draw(4) == 0)
        length = draw(10);
    if (rarely())
        length = 10 + draw(54);
    draw_payload(length);
    if (draw(8) == 0 && length > 0) {
        size place = draw(length);
        payload[place] = (u8)(32 + draw(224));
    }
    return length;
}

static void write_line(u64 seed) {
    u8 mode = draw_message_mode(), code = draw_written_code();
    size length = draw_written_payload(code), words = words_of(with_commands(mode)), needed = (length + words) / words;
    size room = needed + draw(3);
    if (draw(4) == 0)
        room = draw(needed + 1);
    for (size k = 0; k < room; k++)
        list[k] = BEFORE;
    struct zaytulobe_written written = zaytulobe_write_message(mode, code, payload, length, list, room);
    u64 digest = EMPTY;
    for (size k = 0; k < room; k++)
        digest = with_number(digest, list[k]);
    printf("%lu write %d %lu %016lx\n", seed, written.refusal, written.count, digest);
}

static void damage_list(u8 as) {
    u32 mark = ZAYTULOBE_COMMAND_FLAG(as);
    size left, place, bits = (size)__builtin_ctz(mark);
    switch (draw(4)) {
    case 1: for (left = 1 + draw(3); left > 0; left--) place = draw(list_length), list[place] ^= 1U << draw(bits + 1); break;
    case 2: for (left = 1 + draw(3); left > 0; left--) list[draw(list_length)] |= mark; break;
    case 3: list_length = draw(list_length); break;
    }
}

static void draw_damaged_list(u8 as) {
    draw_list(as);
    if (list_length > 0)
        damage_list(as);
    if (rarely() && list_length > 0) {
        size place = draw(list_length);
        list[place] = draw(2) == 0 ? 2 * ZAYTULOBE_COMMAND_FLAG(as) : 0xffffffff;
    }
}

static size draw_from(size words) {
    size from = 0;
    switch (draw(4)) {
    case 2: from = draw(words + 1); break;
    case 3: from = draw(words + 8); break;
    }
    return rarely() ? (size)-1 - draw(4) : from;
}

static u64 with_event(u64 digest, struct zaytulobe_event event) {
    digest = with_number(with_number(with_number(digest, event.refusal), event.kind), event.code);
    for (int k = 0; k < ZAYTULOBE_MOST_WORDS; k++)
        digest = with_number(digest, event.words[k]);
    return with_number(with_number(with_number(digest, event.count), event.begin), event.next);
}

/* Reads from a word on, up to that of nothing or a refused one; but no more than a list has words. */
static u64 print_events(u8 mode, size from, size words) {
    u64 digest = EMPTY;
    for (size left = words + 1; left > 0; left--) {
        struct zaytulobe_event event = zaytulobe_read_event(mode, list, list_length, from);
        printf(" %d/%d/%d/%lu/%lu/%lu", event.refusal, event.kind, event.code, event.count, event.begin, event.next);
        digest = with_event(digest, event);
        if (event.kind == ZAYTULOBE_NOTHING)
            return digest;
        from = event.next;
    }
    printf(" without end");
    return digest;
}

static void read_line(u64 seed) {
    u8 mode = draw_message_mode(), as = with_commands(mode);
    draw_damaged_list(as);
    size words = words_of(as) * list_length, from = draw_from(words);
    printf("%lu read %d %lu %lu", seed, mode, list_length, from);
    u64 followed = print_events(mode, from, words), from_each = EMPTY;
    for (size place = 0; place <= words; place++)
        from_each = with_event(from_each, zaytulobe_read_event(mode, list, list_length, place));
    printf(" %016lx %016lx\n", followed, from_each);
}

/* A lane that carries a list, damaged. */
static void draw_carrying_lane(void) {
    static const u8 modes[12] = {0, 0, 2, 4, 4, 5, 5, 5, 5, 5, 1, 3};
    static const u32 extents[4] = {1, 2, 3, 256};
    drawn.mode = modes[draw(12)];
    drawn.e = extents[draw(4)];
    draw_list(with_commands(drawn.mode));
    size n = list_length > MOST_SENT ? MOST_SENT : list_length < LEAST_SENT ? LEAST_SENT : list_length;
    for (size k = 0; k < n; k++)
        commands[k] = k < list_length ? list[k] % (u32)ZAYTULOBE_COMMAND_FLAG(drawn.mode) : 0;
    drawn.multiblocks = n;
    drawn.lane_length = lane_octets(drawn.mode) * n;
    memset(user, 0, USER_OCTETS * n);
    send_input();
    drawn.kind = draw(12);
    damage();
}

static void capture_line(u64 seed) {
    draw_carrying_lane();
    size length = draw_capture();
    printf("%lu messages %lu", seed, length);
    size count = print_text(zaytulobe_messages, length, MESSAGES_ROOM);
    size less = draw(2);
    print_text(zaytulobe_messages, length, count < less ? 0 : count - less);
    printf("\n");
}

static void messages_line(u64 seed) {
    switch (draw(4)) {
    case 0: write_line(seed); break;
    case 1:
    case 2: read_line(seed); break;
    default: capture_line(seed);
    }
}

#endif
