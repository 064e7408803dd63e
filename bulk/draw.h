/* What the seeded cases are drawn from, and their digest: second/src/generator.rs, digest.rs and cases.rs say the rules. */
#ifndef DRAW_H
#define DRAW_H

#include "short.h"

int printf(const char *format, ...);
void *memset(void *to, int octet, size count);

/* Most multiblocks of a case, and a part of one more. */
enum { MOST = MOST_MULTIBLOCKS + 2 };

static u64 stands_at;

static void seed_generator(u64 seed) {
    stands_at = seed * 7919 % 2147483648;
}

static size draw(size below) {
    stands_at = (stands_at * 1103515245 + 12345) % 2147483648;
    return (stands_at >> 11) % below;
}

static int rarely(void) {
    return draw(32) == 0;
}

static void draw_octets(u8 *octets, size count) {
    for (size k = 0; k < count; k++)
        octets[k] = (u8)draw(256);
}

static u64 with_octet(u64 digest, u8 octet) {
    return (digest ^ octet) * 0x100000001b3;
}

static u64 with_octets(u64 digest, const u8 *octets, size count) {
    for (size k = 0; k < count; k++)
        digest = with_octet(digest, octets[k]);
    return digest;
}

static u64 with_number(u64 digest, u64 number) {
    for (int shift = 56; shift >= 0; shift -= 8)
        digest = with_octet(digest, (u8)(number >> shift));
    return digest;
}

static const u64 EMPTY = 0xcbf29ce484222325;

static u64 digest_of(const u8 *octets, size count) {
    return with_octets(EMPTY, octets, count);
}

#endif
