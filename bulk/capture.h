/* Captures of seeded lanes, and texts made of them: second/src/listed.rs says the rules. */
#ifndef CAPTURE_H
#define CAPTURE_H

#include "calls.h"

enum { LISTING_ROOM = 4096, MESSAGES_ROOM = ZAYTULOBE_LONGEST_MESSAGES };

static u8 capture[HEAD + MOST_LANE_OCTETS * MOST + 300], text[MESSAGES_ROOM];

static void draw_other_lane(void) {
    size octets = lane_octets(drawn.mode);
    if (draw(32) == 0) {
        drawn.lane_length = octets * (most_multiblocks(drawn.mode) - 1 + draw(3));
        draw_octets(lane, drawn.lane_length);
    }
    if (draw(4) == 0)
        drawn.lane_length = octets * draw(drawn.lane_length / octets + 1);
}

static void put_extent(size e) {
    capture[5] = (u8)(e / 256);
    capture[6] = (u8)(e % 256);
}

static size put_capture(void) {
    size length = drawn.lane_length;
    memset(capture, 0, HEAD);
    capture[3] = 3;
    capture[4] = drawn.mode;
    put_extent(drawn.e);
    capture[8] = (u8)(length >> 16);
    capture[9] = (u8)(length >> 8);
    capture[10] = (u8)length;
    for (size k = 0; k < length; k++)
        capture[HEAD + k] = lane[k];
    return HEAD + length;
}

/* Of the lane, or of another instead of it; the capture's octets. */
static size draw_capture(void) {
    static const u16 extents[4] = {0, 1, 256, 257};
    draw_other_lane();
    size form = draw(12), place;
    if (form == 6) {
        size lost = draw(lane_octets(drawn.mode));
        drawn.lane_length -= lost < drawn.lane_length ? lost : drawn.lane_length;
    }
    size length = put_capture();
    switch (form) {
    case 0: capture[4] = (u8)draw(256); break;
    case 1: put_extent(extents[draw(4)]); break;
    case 2: put_extent(draw(65536)); break;
    case 3: place = draw(HEAD); capture[place] = (u8)draw(256); break;
    case 4: length = draw(length + 1); break;
    case 5: place = length; length += 1 + draw(300); draw_octets(capture + place, length - place); break;
    case 7: capture[4] = (u8)draw(MODES + 1); break;
    }
    return length;
}

/* What a function writes of the capture in so much room; the octets that it says it wrote. */
static size print_text(
    struct zaytulobe_listed (*write)(const u8 *capture, size capture_length, u8 *text, size text_length), size length, size room) {
    memset(text, BEFORE, room);
    struct zaytulobe_listed listed = write(capture, length, text, room);
    printf(" %d %lu %016lx", listed.refusal, listed.count, digest_of(text, room));
    return listed.count;
}

#endif
