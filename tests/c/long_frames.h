/* The frames of stack.c, written one at a time, TLV by TLV, from a router of a number: short ones, and ones of 1,492 octets. */
#ifndef LONG_FRAMES_H
#define LONG_FRAMES_H

#include "isis_gr.h"

enum { LONGEST = 1492 };

static uint8_t frame[ISIS_GR_MOST_OCTETS], source[6]; /* of the frame its first `length` octets */
static size_t length;

/* from the router of a number, which is its System ID and its MAC */
static inline void header(uint8_t type, uint8_t router) {
    memset(frame, 0, sizeof frame);
    length = type == 17 ? 20 : 27;
    frame[0] = 0x83;
    frame[1] = (uint8_t)length;
    frame[2] = 1;
    frame[4] = type;
    frame[5] = 1;
    frame[8] = 3;
    frame[14] = router;
    frame[16] = 27;
    frame[19] = 64;
    memset(source, 0, 6);
    source[0] = 2;
    source[5] = router;
}

static inline void tlv(uint8_t type, size_t n, const uint8_t *value) {
    frame[length] = type;
    frame[length + 1] = (uint8_t)n;
    if (value) {
        memcpy(frame + length + 2, value, n);
    } else {
        memset(frame + length + 2, 7, n);
    }
    length += 2 + n;
}

static inline void seal(void) {
    frame[17] = (uint8_t)(length >> 8);
    frame[18] = (uint8_t)length;
}

/* A Restart TLV of 9 octets with these flags, or none; it names us, as RA asks on a LAN. */
static inline void restart(unsigned flags) {
    const uint8_t value[9] = {(uint8_t)flags, 0, 20, 0, 0, 0, 0, 0, 1};
    if (flags < 256) {
        tlv(211, sizeof value, value);
    }
}

static inline void reverse_metric(void) {
    const uint8_t value[5] = {2, 0, 0, 5, 0};
    tlv(16, sizeof value, value);
}

/* The rest of the 1,492 octets: TLVs of a type, as long as multiples of `unit` allow; or none, but for what is left. */
static inline void fill(uint8_t type, size_t unit) {
    while (length + 2 + unit <= LONGEST) {
        size_t most = (LONGEST - length - 2) / unit * unit, part = 255 / unit * unit;
        tlv(type, most < part ? most : part, NULL);
    }
    if (length + 2 <= LONGEST) {
        tlv(8, LONGEST - length - 2, NULL);
    }
}

/* Empty TLVs up to what must stand last. */
static inline void empty_up_to(size_t last) {
    while (length + 2 <= LONGEST - last) {
        tlv(8, 0, NULL);
    }
}

#endif
