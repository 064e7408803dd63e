/*
 * One lane of the 64B/66B and 64B/80B link layers of JESD204C, with the sync words of CRC-12, FEC, CRC-3 or the stand-alone
 * command channel: sender, receiver, lock machines, longest run, messages of the command channel, and listings. The functions are
 * proved: for every value of every argument each gives the one answer that its contract states (crates/zaytulobe/src,
 * docs/CONTRACTS.md). For x86-64 Linux; for C from C11 on, and C++ from C++11 on.
 *
 * That this header is the library's is checked: the assertions at its end say where each field stands, to whoever compiles it,
 * and the gate runs C programs that show the library to read each field there (runs/layout.c) and to have these constants
 * (runs/constants.c).
 *
 * What the caller promises, since C can check none of it:
 * - a pointer with its length points to that many elements, aligned for their type, and is not NULL even if the length is 0;
 * - what is lent to be written (a pointer without const) overlaps nothing else that is lent to the same call, and no other
 *   thread touches anything lent while the call lasts.
 * All else may be any value: a mode, a number or a state that doesn't fit is refused.
 *
 * A call is refused by a number, the lowest that applies; but 8 is asked before all others, and 7 after them. A refused call
 * answers its number, count 0 and the state given, and writes nothing. Empty input that isn't refused writes nothing and answers
 * the state given.
 */
#ifndef ZAYTULOBE_H
#define ZAYTULOBE_H

#ifdef __cplusplus
extern "C" {
#endif

typedef unsigned char zaytulobe_u8;
typedef unsigned short zaytulobe_u16;
typedef unsigned int zaytulobe_u32;
typedef unsigned long zaytulobe_u64;
typedef unsigned long zaytulobe_size;

/* A sync word, and the bits of a block on the lane. */
enum zaytulobe_mode {
    ZAYTULOBE_CRC12 = 0,    /* CRC-12, 66 bits */
    ZAYTULOBE_FEC = 1,      /* FEC, 66 bits */
    ZAYTULOBE_CRC12_80 = 2, /* CRC-12, 80 bits */
    ZAYTULOBE_FEC_80 = 3,   /* FEC, 80 bits */
    ZAYTULOBE_CRC3 = 4,     /* CRC-3, 66 bits */
    ZAYTULOBE_COMMAND = 5   /* the stand-alone command channel, without parity, 66 bits */
};

enum zaytulobe_refusal {
    ZAYTULOBE_ACCEPTED = 0,
    ZAYTULOBE_REFUSED_MODE = 1,     /* the mode is above 5; of messages also 1 and 3, which have no command channel */
    ZAYTULOBE_REFUSED_E = 2,        /* E is outside 1 to 256 */
    ZAYTULOBE_REFUSED_STATE = 3,    /* a field of the state is out of range, or isn't 0 in a receiver's with nothing waiting */
    ZAYTULOBE_REFUSED_LENGTH = 4,   /* user octets are no multiple of 256, lane octets none of 264, or of 320 in modes 2 and 3;
                                       of the longest run, octets aren't 256 for each status */
    ZAYTULOBE_REFUSED_COUNT = 5,    /* more than 240 multiblocks in one call, or 200 in modes 2 and 3 */
    ZAYTULOBE_REFUSED_COMMANDS = 6, /* there isn't one command for each multiblock, or one is too high for the mode; of a message
                                       to be written, a payload word is above 31, or there are fewer than its code asks */
    ZAYTULOBE_REFUSED_ROOM = 7,     /* a buffer lent to be written is too short for what would be written */
    ZAYTULOBE_REFUSED_CAPTURE = 8,  /* a capture hasn't the form of one, or is too long for its mode */
    ZAYTULOBE_REFUSED_HEADER = 9,   /* a header value is above 3 */
    ZAYTULOBE_REFUSED_LONG = 10,    /* a message has more payload words than its code allows, or than 7 */
    ZAYTULOBE_REFUSED_CODE = 11     /* a function code isn't defined: 7 to 15, or above 31 */
};

/* The status of a released multiblock is one of the first three, with the fourth added after an untrusted history. In mode 5,
   which has no parity that could disagree, it is 0 or 4, and the octets are unchecked. */
enum zaytulobe_status {
    ZAYTULOBE_AGREES = 0,   /* its parity agrees; with CRC-3, that of each of its four groups of eight blocks */
    ZAYTULOBE_REPAIRED = 1, /* a burst was flipped back, and now its parity agrees */
    ZAYTULOBE_FAILED = 2,   /* its parity disagrees, and nothing was repaired */
    ZAYTULOBE_UNTRUSTED = 4 /* nothing came before it, or the one before had failed */
};

/* Of extended lock. */
enum zaytulobe_phase {
    ZAYTULOBE_HUNTING = 0,
    ZAYTULOBE_FOLLOWING = 1,
    ZAYTULOBE_LOCKED = 2
};

/* What a list of commands has next. */
enum zaytulobe_event_kind {
    ZAYTULOBE_NOTHING = 0,  /* no more, up to the end of the list */
    ZAYTULOBE_MESSAGE = 1,  /* a whole message */
    ZAYTULOBE_CUT = 2,      /* a message that has fewer words than its code asks, or that a spoilt command ended; or, with nothing
                               open, a spoilt command */
    ZAYTULOBE_UNDEFINED = 3 /* a header whose function code isn't defined */
};

/* Whether a mode has FEC sync words, and whether it has blocks of 80 bits. As an int a mode compares with these names, of whatever
   type it is. */
#define ZAYTULOBE_HAS_FEC(mode) ((int)(mode) == ZAYTULOBE_FEC || (int)(mode) == ZAYTULOBE_FEC_80)
#define ZAYTULOBE_HAS_80(mode) ((int)(mode) == ZAYTULOBE_CRC12_80 || (int)(mode) == ZAYTULOBE_FEC_80)

/* A multiblock: its blocks, its user octets, and by mode the bits of a block on the lane and the octets of the multiblock there. A
   block is its header of two bits and eight octets; one of 80 bits has two fill bits before each octet but the first. */
#define ZAYTULOBE_BLOCKS 32
#define ZAYTULOBE_USER_OCTETS 256
#define ZAYTULOBE_BLOCK_BITS(mode) (ZAYTULOBE_HAS_80(mode) ? 80 : 66)
#define ZAYTULOBE_LANE_OCTETS(mode) (ZAYTULOBE_BLOCKS * ZAYTULOBE_BLOCK_BITS(mode) / 8)

/* By mode: the most multiblocks that one call of the sender or the receiver takes; the highest command that is sent: 7 bits, 19 in
   mode 5, none with FEC; the flag that a command which is received has added if one of its headers was invalid; the highest fill of
   a sender's state; the highest own parity of a receiver's. */
#define ZAYTULOBE_MOST_MULTIBLOCKS(mode) (ZAYTULOBE_HAS_80(mode) ? 200 : 240)
#define ZAYTULOBE_MOST_COMMAND(mode) (ZAYTULOBE_HAS_FEC(mode) ? 0 : (int)(mode) == ZAYTULOBE_COMMAND ? 524287 : 127)
#define ZAYTULOBE_COMMAND_FLAG(mode) (ZAYTULOBE_MOST_COMMAND(mode) + 1)
#define ZAYTULOBE_MOST_FILL(mode) (ZAYTULOBE_HAS_80(mode) ? 131070 : 0)
#define ZAYTULOBE_MOST_OWN(mode) ((int)(mode) == ZAYTULOBE_CRC3 ? 511 : 0)

/* The most payload words of a message; the words of a command by mode, none with FEC. A word has six bits: 0 for a header or 1 for
   payload, then five bits. A command has its words from the highest bits down, and in bit 0 their parity. */
#define ZAYTULOBE_MOST_WORDS 7
#define ZAYTULOBE_COMMAND_WORDS(mode) (ZAYTULOBE_HAS_FEC(mode) ? 0 : (int)(mode) == ZAYTULOBE_COMMAND ? 3 : 1)

/* E, the multiblocks of an extended multiblock. */
#define ZAYTULOBE_LEAST_E 1
#define ZAYTULOBE_MOST_E 256

/* Octets of a capture before those of its lane; by its mode, of the longest capture that is listed, 63,371 or 64,011, and so of the
   longest in any mode; and of a text: one that is lent so much is never refused by 7. A line for a release has at most 15 octets.
   In blocks of 66 bits the first line has at most 18, and 239 are released at most: 18 + 239 * 15 = 3,603. In modes 2 and 3 it is
   21 + 199 * 15 = 3,006. Of a text of messages: its first line has at most 21 octets, and each word of the commands adds at most
   17; in mode 5 they are three of each: 21 + 17 * 717 = 12,210. */
#define ZAYTULOBE_CAPTURE_HEAD 11
#define ZAYTULOBE_LONGEST_CAPTURE(mode) (ZAYTULOBE_CAPTURE_HEAD + ZAYTULOBE_LANE_OCTETS(mode) * ZAYTULOBE_MOST_MULTIBLOCKS(mode))
#define ZAYTULOBE_LONGEST_OF_ALL ZAYTULOBE_LONGEST_CAPTURE(ZAYTULOBE_FEC_80)
#define ZAYTULOBE_LONGEST_TEXT 3603
#define ZAYTULOBE_LONGEST_MESSAGES 12210

/* The last 58 bits sent, the latest in bit 0; the parity that goes with the next sync word: that of the last multiblock, 12 bits
   with CRC-12 and 26 with FEC; in mode 4 that of its last eight blocks, 3 bits; 0 in mode 5; the number of the next multiblock in
   its extended multiblock; the register of 17 bits that the next block's fill bits come from, its latest bit in bit 0, and 0 in all
   modes but 2 and 3. */
struct zaytulobe_sender {
    zaytulobe_u64 history;
    zaytulobe_u32 parity;
    zaytulobe_u32 number;
    zaytulobe_u32 fill;
};

/* A refusal, or 0 with the multiblocks sent; the state for the next call. */
struct zaytulobe_sent {
    zaytulobe_u8 refusal;
    zaytulobe_size count;
    struct zaytulobe_sender state;
};

/* The history before the multiblock that waits; its command, with the flag added if one of its headers was invalid; whether one
   waits, 0 or 1; whether the history is trusted, 0 or 1; its scrambled octets; how many of its 32 headers were invalid (00 or
   11), 0 to 32, and 0 if none waits; the parity that came with its own sync word: in mode 4 that of blocks 0 to 7, 8 to 15 and 16
   to 23, three bits each, the first highest; 0 in every other mode, and if none waits. Then three counts of the multiblocks
   released so far, over all calls from a fresh state on: with status 0 or 4, with 1 or 5, with 2 or 6. A count stops at
   4,294,967,295 and stays there. In mode 5 `sound` counts releases that were never checked. All three must be 0 if none waits,
   and may be any if one does; what is released doesn't go by them. */
struct zaytulobe_receiver {
    zaytulobe_u64 history;
    zaytulobe_u32 command;
    zaytulobe_u8 waiting;
    zaytulobe_u8 trusted;
    zaytulobe_u8 octets[ZAYTULOBE_USER_OCTETS];
    zaytulobe_u8 invalid;
    zaytulobe_u16 own;
    zaytulobe_u32 sound;
    zaytulobe_u32 repaired;
    zaytulobe_u32 failed;
};

/* A refusal, or 0 with the multiblocks released; the state for the next call. */
struct zaytulobe_received {
    zaytulobe_u8 refusal;
    zaytulobe_size count;
    struct zaytulobe_receiver state;
};

/* A refusal, or 0 with the longest run: its first multiblock, and how many there are. */
struct zaytulobe_run {
    zaytulobe_u8 refusal;
    zaytulobe_size start;
    zaytulobe_size count;
};

/* Whether headers are locked, 0 or 1; bits slipped, 0 to 65, or to 79 in modes 2 and 3; valid headers in a row; invalid headers
   while locked. */
struct zaytulobe_header_lock {
    zaytulobe_u32 locked;
    zaytulobe_u32 offset;
    zaytulobe_u32 run;
    zaytulobe_u32 bad;
};

/* The phase; headers seen, at most 32; their bits, the latest in bit 0; matches while following; misses while locked; blocks to
   the next look; while following, blocks to the next look of the kept phase, 1 to 32E and never those to the followed one's, and 0
   if none is kept. What is kept is the earliest match at a block where the followed phase isn't looked at: when that one fails,
   the kept one is followed instead. */
struct zaytulobe_extended_lock {
    zaytulobe_u32 phase;
    zaytulobe_u32 seen;
    zaytulobe_u32 headers;
    zaytulobe_u32 good;
    zaytulobe_u32 bad;
    zaytulobe_u32 next;
    zaytulobe_u32 kept;
};

struct zaytulobe_lock {
    struct zaytulobe_header_lock header;
    struct zaytulobe_extended_lock extended;
};

/* A refusal or 0; the state for the next step. */
struct zaytulobe_stepped {
    zaytulobe_u8 refusal;
    struct zaytulobe_lock lock;
};

/* A refusal, or 0 with the octets of text. */
struct zaytulobe_listed {
    zaytulobe_u8 refusal;
    zaytulobe_size count;
};

/* A refusal, or 0 with the commands written. */
struct zaytulobe_written {
    zaytulobe_u8 refusal;
    zaytulobe_size count;
};

/* A refusal, or 0 with what comes next in a list of commands: its kind; its function code, if it is a message or undefined; the
   payload words of a message, those past `count` 0; how many these are, and of a cut how many words of six bits were taken, the
   header among them; the word at which it begins, counted from the list's first: of a message its header, of nothing the list's
   end; the word to go on from. What a kind doesn't have is 0. */
struct zaytulobe_event {
    zaytulobe_u8 refusal;
    zaytulobe_u8 kind;
    zaytulobe_u8 code;
    zaytulobe_u8 words[ZAYTULOBE_MOST_WORDS];
    zaytulobe_size count;
    zaytulobe_size begin;
    zaytulobe_size next;
};

/* The state of a sender that has sent nothing: all 0. */
struct zaytulobe_sender zaytulobe_fresh_sender(void);

/* Sends 256 user octets for each command: 264 octets for each, or 320 in modes 2 and 3, go over the start of the lane, and the
   rest of it keeps its values. Refused by 1 to 7. */
struct zaytulobe_sent zaytulobe_send(
    zaytulobe_u8 mode, zaytulobe_u32 e, struct zaytulobe_sender state,
    const zaytulobe_u8 *user, zaytulobe_size user_length,
    const zaytulobe_u32 *commands, zaytulobe_size commands_length,
    zaytulobe_u8 *lane, zaytulobe_size lane_length);

/* The state of a receiver that has received nothing: all 0. */
struct zaytulobe_receiver zaytulobe_fresh_receiver(void);

/* Receives the multiblocks of the lane, 264 octets each, or 320 in modes 2 and 3, whose fill bits are ignored. A multiblock is
   released when the next has come, in mode 5 too: release k of this call writes 256 octets from 256 k on, and place k of each
   list: its status; its command; the place and pattern of the burst that was flipped back, or 0 and 0; and how many of its own 32
   headers were invalid, 0 to 32. All else keeps its values. The state has the number of the one that waits then, and each release
   adds 1 to the count of its status. Refused by 1, 3, 4, 5 or 7. */
struct zaytulobe_received zaytulobe_receive(
    zaytulobe_u8 mode, struct zaytulobe_receiver state,
    const zaytulobe_u8 *lane, zaytulobe_size lane_length,
    zaytulobe_u8 *octets, zaytulobe_size octets_length,
    zaytulobe_u8 *statuses, zaytulobe_size statuses_length,
    zaytulobe_u32 *commands, zaytulobe_size commands_length,
    zaytulobe_u16 *places, zaytulobe_size places_length,
    zaytulobe_u16 *patterns, zaytulobe_size patterns_length,
    zaytulobe_u8 *invalid, zaytulobe_size invalid_length);

/* The longest run of multiblocks with status 0 or 1, the earliest if several tie: its octets are the 256 count from
   256 start on. 0 from 0 if there is none. Refused by 4. */
struct zaytulobe_run zaytulobe_longest_run(
    const zaytulobe_u8 *octets, zaytulobe_size octets_length,
    const zaytulobe_u8 *statuses, zaytulobe_size statuses_length);

/* The state of locks that have seen no header: all 0. */
struct zaytulobe_lock zaytulobe_fresh_lock(void);

/* Both locks after one more header, given as its first bit times 2 plus its second. Refused by 1, 2, 3 or 9. */
struct zaytulobe_stepped zaytulobe_lock_step(
    zaytulobe_u8 mode, zaytulobe_u32 e, struct zaytulobe_lock lock, zaytulobe_u8 header);

/* The listing of a capture: its text goes over the start of `text`, and the rest keeps its values. Refused by 8 first, then
   by 1, 2, 4 or 7; no refusal is written as text. */
struct zaytulobe_listed zaytulobe_listing(
    const zaytulobe_u8 *capture, zaytulobe_size capture_length,
    zaytulobe_u8 *text, zaytulobe_size text_length);

/* Writes a message: its header, its payload words, each 0 to 31, and in mode 5 idle headers that fill its last command. The
   commands go over the start of the list, and the rest of it keeps its values. Codes 0 to 6 have 0, 5, 2, 4, 5, 0 and 0 words;
   codes 16 to 31, which the user defines, 0 to 7. Refused by 1, 6, 10, 11 or 7, asked in this order. */
struct zaytulobe_written zaytulobe_write_message(
    zaytulobe_u8 mode, zaytulobe_u8 code,
    const zaytulobe_u8 *payload, zaytulobe_size payload_length,
    zaytulobe_u32 *commands, zaytulobe_size commands_length);

/* What a list of commands, as the receiver releases them, has at word `from` or after it; words are counted through all commands.
   A command with the receiver's flag, or with a wrong parity bit, is spoilt: it ends what is open, and none of its words is read.
   Payload with nothing open is passed over, and so is in mode 5 an idle header that isn't the first word of its command. A list is
   read from word 0 on by calls that go on from `next` each, until there is nothing. `from` may be any number: at the end of the
   list or past it there is nothing. Refused by 1 or 6, and then it answers nothing, with `from` for both places. */
struct zaytulobe_event zaytulobe_read_event(
    zaytulobe_u8 mode, const zaytulobe_u32 *commands, zaytulobe_size commands_length, zaytulobe_size from);

/* The messages of a capture: the first line of its listing; then for each event of its released commands a line, which begins with
   the number of the multiblock in which the event begins: `K message CODE WORDS...`, `K cut WORDS` or `K undefined CODE`. The text
   goes over the start of `text`, and the rest keeps its values. Refused by 8 first, then by 1, 2, 4 or 7; no refusal is written as
   text. */
struct zaytulobe_listed zaytulobe_messages(
    const zaytulobe_u8 *capture, zaytulobe_size capture_length,
    zaytulobe_u8 *text, zaytulobe_size text_length);

#ifdef __cplusplus
}
#endif

/* Where the library has each field, as #[repr(C)] lays it down for x86-64: a struct and its octets; a field of it, the octets
   before it and its own. */
#ifdef __cplusplus
#define ZAYTULOBE_ASSERT(what, text) static_assert(what, text)
#else
#define ZAYTULOBE_ASSERT(what, text) _Static_assert(what, text)
#endif
#define ZAYTULOBE_STRUCT(name, octets) \
    ZAYTULOBE_ASSERT(sizeof(struct zaytulobe_##name) == (octets), "zaytulobe_" #name " has another size in the library")
#define ZAYTULOBE_FIELD(name, field, before, octets) \
    ZAYTULOBE_ASSERT(__builtin_offsetof(struct zaytulobe_##name, field) == (before) && \
        sizeof(((struct zaytulobe_##name *)0)->field) == (octets), \
        "zaytulobe_" #name "." #field " has another place or size in the library")

ZAYTULOBE_STRUCT(sender, 24);
ZAYTULOBE_FIELD(sender, history, 0, 8);
ZAYTULOBE_FIELD(sender, parity, 8, 4);
ZAYTULOBE_FIELD(sender, number, 12, 4);
ZAYTULOBE_FIELD(sender, fill, 16, 4);

ZAYTULOBE_STRUCT(sent, 40);
ZAYTULOBE_FIELD(sent, refusal, 0, 1);
ZAYTULOBE_FIELD(sent, count, 8, 8);
ZAYTULOBE_FIELD(sent, state, 16, 24);

ZAYTULOBE_STRUCT(receiver, 288);
ZAYTULOBE_FIELD(receiver, history, 0, 8);
ZAYTULOBE_FIELD(receiver, command, 8, 4);
ZAYTULOBE_FIELD(receiver, waiting, 12, 1);
ZAYTULOBE_FIELD(receiver, trusted, 13, 1);
ZAYTULOBE_FIELD(receiver, octets, 14, 256);
ZAYTULOBE_FIELD(receiver, invalid, 270, 1);
ZAYTULOBE_FIELD(receiver, own, 272, 2);
ZAYTULOBE_FIELD(receiver, sound, 276, 4);
ZAYTULOBE_FIELD(receiver, repaired, 280, 4);
ZAYTULOBE_FIELD(receiver, failed, 284, 4);

ZAYTULOBE_STRUCT(received, 304);
ZAYTULOBE_FIELD(received, refusal, 0, 1);
ZAYTULOBE_FIELD(received, count, 8, 8);
ZAYTULOBE_FIELD(received, state, 16, 288);

ZAYTULOBE_STRUCT(run, 24);
ZAYTULOBE_FIELD(run, refusal, 0, 1);
ZAYTULOBE_FIELD(run, start, 8, 8);
ZAYTULOBE_FIELD(run, count, 16, 8);

ZAYTULOBE_STRUCT(header_lock, 16);
ZAYTULOBE_FIELD(header_lock, locked, 0, 4);
ZAYTULOBE_FIELD(header_lock, offset, 4, 4);
ZAYTULOBE_FIELD(header_lock, run, 8, 4);
ZAYTULOBE_FIELD(header_lock, bad, 12, 4);

ZAYTULOBE_STRUCT(extended_lock, 28);
ZAYTULOBE_FIELD(extended_lock, phase, 0, 4);
ZAYTULOBE_FIELD(extended_lock, seen, 4, 4);
ZAYTULOBE_FIELD(extended_lock, headers, 8, 4);
ZAYTULOBE_FIELD(extended_lock, good, 12, 4);
ZAYTULOBE_FIELD(extended_lock, bad, 16, 4);
ZAYTULOBE_FIELD(extended_lock, next, 20, 4);
ZAYTULOBE_FIELD(extended_lock, kept, 24, 4);

ZAYTULOBE_STRUCT(lock, 44);
ZAYTULOBE_FIELD(lock, header, 0, 16);
ZAYTULOBE_FIELD(lock, extended, 16, 28);

ZAYTULOBE_STRUCT(stepped, 48);
ZAYTULOBE_FIELD(stepped, refusal, 0, 1);
ZAYTULOBE_FIELD(stepped, lock, 4, 44);

ZAYTULOBE_STRUCT(listed, 16);
ZAYTULOBE_FIELD(listed, refusal, 0, 1);
ZAYTULOBE_FIELD(listed, count, 8, 8);

ZAYTULOBE_STRUCT(written, 16);
ZAYTULOBE_FIELD(written, refusal, 0, 1);
ZAYTULOBE_FIELD(written, count, 8, 8);

ZAYTULOBE_STRUCT(event, 40);
ZAYTULOBE_FIELD(event, refusal, 0, 1);
ZAYTULOBE_FIELD(event, kind, 1, 1);
ZAYTULOBE_FIELD(event, code, 2, 1);
ZAYTULOBE_FIELD(event, words, 3, 7);
ZAYTULOBE_FIELD(event, count, 16, 8);
ZAYTULOBE_FIELD(event, begin, 24, 8);
ZAYTULOBE_FIELD(event, next, 32, 8);

ZAYTULOBE_ASSERT(sizeof(zaytulobe_u16) == 2, "a place and a pattern have two octets each in the library");

#undef ZAYTULOBE_ASSERT
#undef ZAYTULOBE_STRUCT
#undef ZAYTULOBE_FIELD

#endif
