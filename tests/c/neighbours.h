/* The gateway of chunks.c, every_field.c, levels.c, limits.c, old_software.c and why.c, the hellos of its neighbours, and what they are answered. Circuit 1
   is P2P, circuit 2 a LAN; both have both levels, so that a mask of all hellos has bits 0, 2 and 3. */
#ifndef NEIGHBOURS_H
#define NEIGHBOURS_H

#include "isis_gr.h"

#include "hello.h"

#include "expect.h"

static const uint8_t us[6] = {0x19, 0x21, 0x68, 0x00, 0x10, 0x01};
static const uint8_t peer[6] = {0x19, 0x21, 0x68, 0x00, 0x10, 0x02};
static const uint8_t third[6] = {0x19, 0x21, 0x68, 0x00, 0x10, 0x03};
static const uint8_t our_mac[6] = {2, 0, 0, 0, 0, 1};
static const uint8_t peer_mac[6] = {2, 0, 0, 0, 0, 2};
static const uint8_t third_mac[6] = {2, 0, 0, 0, 0, 3};
enum { P2P = 1, LAN = 2, OWN_ID = 7, HOLD = 27, CONFIGURED = 30, ALL = 1 + 4 + 8 };

static isis_gr_gateway g;
static uint8_t frame[256], reply[ISIS_GR_REPLY_OCTETS];
static hello h;

static inline isis_gr_settings settings(uint8_t mode, uint32_t clock, uint16_t t1, uint16_t t2) {
    isis_gr_settings s;
    memset(&s, 0, sizeof s);
    memcpy(s.system_id, us, 6);
    s.t1 = t1;
    s.t2 = t2;
    s.tries = 3;
    s.clock = clock;
    s.mode = mode;
    s.count = 2;
    s.circuits[0].kind = ISIS_GR_KIND_P2P;
    s.circuits[0].levels = ISIS_GR_LEVEL_BOTH;
    memcpy(s.circuits[0].mac, our_mac, 6);
    s.circuits[0].hold = CONFIGURED;
    s.circuits[0].metric = 16777210;
    s.circuits[0].id = OWN_ID;
    s.circuits[1] = s.circuits[0];
    s.circuits[1].kind = ISIS_GR_KIND_LAN;
    s.circuits[1].priority = 64;
    return s;
}

static inline isis_gr_started start(uint8_t mode, uint32_t clock, uint16_t t1, uint16_t t2) {
    isis_gr_settings s = settings(mode, clock, t1, t2);
    isis_gr_started started = isis_gr_set_up(&g, &s);
    EXPECT(started.code == ISIS_GR_OK);
    return started;
}

/* a P2P hello of the peer that names us: without a Restart TLV where flags is negative */
static inline void p2p(uint8_t state, int flags, uint16_t remaining) {
    hello_p2p(&h, frame, sizeof frame, ISIS_GR_LEVEL_BOTH, peer, HOLD);
    hello_three_way(&h, state, 9, us, OWN_ID);
    if (flags >= 0) {
        hello_restart(&h, (uint8_t)flags, remaining, us);
    }
}

/* a LAN hello that lists us or not */
static inline void lan(uint8_t level, const uint8_t id[6], uint8_t priority, int flags, size_t listed) {
    static const uint8_t lan_id[7] = {0};
    uint8_t macs[1][6];
    memcpy(macs[0], our_mac, 6);
    hello_lan(&h, frame, sizeof frame, level, ISIS_GR_LEVEL_BOTH, id, HOLD, priority, lan_id);
    hello_neighbours(&h, macs, listed);
    if (flags >= 0) {
        hello_restart(&h, (uint8_t)flags, 20, us);
    }
}

static inline isis_gr_received receive(uint8_t circuit, const uint8_t mac[6]) {
    size_t n = hello_end(&h);
    EXPECT(n > 0);
    return isis_gr_receive(&g, circuit, mac, frame, n, reply, sizeof reply);
}

/* a receive of the frame that was written last, as isis_gr_why takes it */
static inline isis_gr_call hello_call(uint8_t circuit, const uint8_t mac[6], uint8_t *out, size_t room) {
    isis_gr_call call = {ISIS_GR_CALL_RECEIVE, 0, 0, 0, NULL, frame, 0, NULL, 0};
    call.circuit = circuit;
    call.source = mac;
    call.frame_len = hello_end(&h);
    call.reply = out;
    call.reply_len = room;
    return call;
}

/* a receive that is refused with this number, 1 to 9, where the peer stands on P2P and nobody else does */
static inline isis_gr_call refused_call(uint32_t code, uint8_t *out, size_t room) {
    const uint8_t *from = peer_mac;
    uint8_t circuit = P2P;
    isis_gr_call call;
    p2p(HELLO_UP, HELLO_RR, 0);
    switch (code) {
    case ISIS_GR_REFUSED_NO_CIRCUIT:
        circuit = 3;
        break;
    case ISIS_GR_REFUSED_REPLY_ROOM:
        room = ISIS_GR_REPLY_OCTETS - 1;
        break;
    case ISIS_GR_REFUSED_NOT_HELLO:
        circuit = LAN;
        break;
    case ISIS_GR_REFUSED_TLV_PAST_END:
        hello_put(&h, us, 1);
        break;
    case ISIS_GR_REFUSED_BAD_TLV:
        p2p(HELLO_UP, -1, 0);
        hello_tlv(&h, 211, NULL, 0);
        break;
    case ISIS_GR_REFUSED_WRONG_SOURCE:
        lan(1, us, 64, 0, 1);
        circuit = LAN;
        break;
    case ISIS_GR_REFUSED_WRONG_NEIGHBOR:
        hello_p2p(&h, frame, sizeof frame, ISIS_GR_LEVEL_BOTH, peer, HOLD);
        hello_three_way(&h, HELLO_UP, 9, third, OWN_ID);
        break;
    case ISIS_GR_REFUSED_NO_ROOM:
        hello_p2p(&h, frame, sizeof frame, ISIS_GR_LEVEL_BOTH, third, HOLD);
        hello_three_way(&h, HELLO_DOWN, 9, NULL, 0);
        from = third_mac;
        break;
    }
    call = hello_call(circuit, from, out, room);
    call.frame_len -= code == ISIS_GR_REFUSED_BAD_LENGTH;
    return call;
}

/* refusals 5 and 6 alone bring a position (document 02, W-206) */
static inline int has_position(uint32_t code) { return code == ISIS_GR_REFUSED_TLV_PAST_END || code == ISIS_GR_REFUSED_BAD_TLV; }

/* an answer of a refusal: its number, a position with 5 and 6, and the other fields 0 */
static inline void refused(uint32_t code, isis_gr_received r) {
    static const uint8_t none[6] = {0};
    EXPECT(r.code == code && (r.position != 0) == has_position(code));
    EXPECT(r.reply == ISIS_GR_REPLY_NONE && r.remaining == 0 && r.csnps == 0 && r.t1_end == ISIS_GR_T1_KEPT && r.hello_flags == 0);
    EXPECT(r.timers.restart == ISIS_GR_RESTART_NONE && r.timers.spf == 0 && r.timers.overload == ISIS_GR_OVERLOAD_KEEP);
    EXPECT(r.level == 0 && memcmp(r.system_id, none, 6) == 0 && r.before == ISIS_GR_RECORD_NONE && r.after == ISIS_GR_RECORD_NONE && r.advertised == 0);
}

#endif
