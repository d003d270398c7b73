/* IS-IS hellos written into a buffer: the fixed header (ISO/IEC 10589, 9.5 to 9.7) and TLVs 211 (RFC 8706, 3.2), 240 (RFC 5303, 3.1),
 * 6 and 16 (RFC 8500, 2); and a TLV looked for in a hello that the library accepted. No allocation, no state but the struct. What does not fit
 * makes hello_end return 0. */
#ifndef HELLO_H
#define HELLO_H

#include <stddef.h>
#include <stdint.h>
#include <string.h>

enum { HELLO_RR = 1, HELLO_RA = 2, HELLO_SA = 4, HELLO_PR = 8, HELLO_PA = 16 };   /* flags of TLV 211 */
enum { HELLO_UP = 0, HELLO_INITIALIZING = 1, HELLO_DOWN = 2 };                   /* states of TLV 240 */
enum { HELLO_W = 1, HELLO_U = 2 };                                               /* flags of TLV 16 */

typedef struct {
    uint8_t *out;
    size_t room, length; /* length is above room once something did not fit */
} hello;

static inline void hello_put(hello *h, const uint8_t *octets, size_t n) {
    if (h->length <= h->room && n <= h->room - h->length) {
        memcpy(h->out + h->length, octets, n);
        h->length += n;
    } else {
        h->length = h->room + 1;
    }
}

static inline void hello_tlv(hello *h, uint8_t type, const uint8_t *value, uint8_t n) {
    const uint8_t head[2] = {type, n};
    hello_put(h, head, 2);
    if (n > 0) {
        hello_put(h, value, n);
    }
}

/* The octets that both kinds have: levels is the circuit type, a mask of levels; the PDU Length comes with hello_end. */
static inline void hello_head(hello *h, uint8_t *out, size_t room, uint8_t header, uint8_t type, uint8_t levels, const uint8_t id[6],
                              uint16_t hold) {
    const uint8_t head[9] = {0x83, header, 1, 0, type, 1, 0, 0, levels};
    const uint8_t rest[4] = {(uint8_t)(hold >> 8), (uint8_t)hold, 0, 0};
    h->out = out;
    h->room = room;
    h->length = 0;
    hello_put(h, head, 9);
    hello_put(h, id, 6);
    hello_put(h, rest, 4);
}

static inline void hello_p2p(hello *h, uint8_t *out, size_t room, uint8_t levels, const uint8_t id[6], uint16_t hold) {
    const uint8_t local = 1;
    hello_head(h, out, room, 20, 17, levels, id, hold);
    hello_put(h, &local, 1);
}

/* level is 1 or 2; lan is the LAN ID. */
static inline void hello_lan(hello *h, uint8_t *out, size_t room, uint8_t level, uint8_t levels, const uint8_t id[6], uint16_t hold,
                             uint8_t priority, const uint8_t lan[7]) {
    hello_head(h, out, room, 27, (uint8_t)(14 + level), levels, id, hold);
    hello_put(h, &priority, 1);
    hello_put(h, lan, 7);
}

/* TLV 211: one octet; with PR three; with RA or PA nine, of which the neighbour is six (else it may be NULL). */
static inline void hello_restart(hello *h, uint8_t flags, uint16_t remaining, const uint8_t *neighbour) {
    uint8_t value[9] = {0};
    value[0] = flags;
    value[1] = (uint8_t)(remaining >> 8);
    value[2] = (uint8_t)remaining;
    if (neighbour) {
        memcpy(value + 3, neighbour, 6);
    }
    hello_tlv(h, 211, value, flags & (HELLO_RA | HELLO_PA) ? 9 : flags & HELLO_PR ? 3 : 1);
}

static inline void hello_put32(uint8_t *at, uint32_t n) {
    at[0] = (uint8_t)(n >> 24);
    at[1] = (uint8_t)(n >> 16);
    at[2] = (uint8_t)(n >> 8);
    at[3] = (uint8_t)n;
}

/* TLV 240: the state and our extended circuit ID; with a neighbour (not NULL) its System ID and extended circuit ID too. */
static inline void hello_three_way(hello *h, uint8_t state, uint32_t own, const uint8_t *neighbour, uint32_t theirs) {
    uint8_t value[15];
    value[0] = state;
    hello_put32(value + 1, own);
    if (neighbour) {
        memcpy(value + 5, neighbour, 6);
        hello_put32(value + 11, theirs);
    }
    hello_tlv(h, 240, value, neighbour ? 15 : 5);
}

/* TLV 6: at most 42 MACs. */
static inline void hello_neighbours(hello *h, uint8_t macs[][6], size_t n) {
    hello_tlv(h, 6, n ? macs[0] : NULL, (uint8_t)(6 * (n < 42 ? n : 42)));
}

/* TLV 16 without sub-TLVs. */
static inline void hello_reverse(hello *h, uint8_t flags, uint32_t metric) {
    const uint8_t value[5] = {flags, (uint8_t)(metric >> 16), (uint8_t)(metric >> 8), (uint8_t)metric, 0};
    hello_tlv(h, 16, value, 5);
}

/* Writes the PDU Length and returns it, or 0 where the hello did not fit. */
static inline size_t hello_end(hello *h) {
    if (h->length > h->room) {
        return 0;
    }
    h->out[17] = (uint8_t)(h->length >> 8);
    h->out[18] = (uint8_t)h->length;
    return h->length;
}

/* The value of the first TLV of a type, its length in n, or NULL. Only for a frame that isis_gr_receive accepted: the lengths are not checked
   again here. */
static inline const uint8_t *hello_find(const uint8_t *frame, uint8_t type, uint8_t *n) {
    size_t at = frame[1], end = (size_t)frame[17] << 8 | frame[18];
    for (; at < end; at += 2u + frame[at + 1]) {
        if (frame[at] == type) {
            *n = frame[at + 1];
            return frame + at + 2;
        }
    }
    return NULL;
}

#endif
