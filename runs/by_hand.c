/* The lane that docs/LANE.md works by hand, as the library sends it: what is given, the octets of the first multiblock and the headers
   of the second. The lines expected are those of docs/LANE.md. */
#include "lane.h"

enum { E = 2, GIVEN = 11 };

static const struct worked {
    const char *name;
    u8 mode;
    u32 commands[2];
    struct {
        u8 place, octet;
    } given[GIVEN];
} WORKED[2] = {
    {"crc12", CRC12, {0x46, 0}, {{7, 0x13}, {8, 0x0F}, {12, 0x26}, {13, 0x1E}, {14, 0x04}, {15, 0xC3}, {16, 0xC0}, {255, 0x0B}}},
    {"fec", FEC, {0, 0}, {{7, 0x10}, {8, 0x88}, {9, 0x08}, {10, 0x44}, {12, 0x21}, {13, 0x10}, {14, 0x14}, {15, 0xAA}, {16, 0x02},
        {17, 0x11}, {255, 0x0B}}},
};

static void give(const struct worked *worked) {
    memset(user, 0, sizeof user);
    printf("%s user", worked->name);
    for (size k = 0; k < GIVEN && worked->given[k].octet != 0; k++) {
        user[worked->given[k].place] = worked->given[k].octet;
        printf(" %d:%02X", worked->given[k].place, worked->given[k].octet);
    }
    printf("\n%s commands %02X %02X\n", worked->name, worked->commands[0], worked->commands[1]);
}

static void print_lane(const struct worked *worked) {
    for (size k = 0; k < lane_octets(worked->mode); k++) {
        if (k % 8 == 0)
            printf("%s lane %lu:", worked->name, k);
        printf(k % 8 == 7 ? " %02X\n" : " %02X", lane[k]);
    }
    printf("%s next", worked->name);
    for (size block = 0; block < BLOCKS; block++) {
        size place = header_place(worked->mode, 1, block);
        printf(" %d%d", lane_bit(place), lane_bit(place + 1));
    }
    printf("\n");
}

int main(void) {
    for (int k = 0; k < 2; k++) {
        const struct worked *worked = &WORKED[k];
        give(worked);
        struct zaytulobe_sent sent = zaytulobe_send(
            worked->mode, E, zaytulobe_fresh_sender(), user, 2 * USER_OCTETS, worked->commands, 2, lane,
            2 * lane_octets(worked->mode));
        if (sent.refusal != ZAYTULOBE_ACCEPTED || sent.count != 2)
            stop("the sender refused");
        print_lane(worked);
    }
    return 0;
}
