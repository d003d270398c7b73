/* Every reason of every question of isis_gr_why (document 02, W-204), and what the call leaves: the gateway before as it was, the second gateway and the reply
   as the call itself makes them. What is expected is derived from docs/RULES.md, none was taken from a run: clock 100, Holding Time 27. */
#include "neighbours.h"

enum { NO_TLV = -1, INVALID = HELLO_RA | HELLO_SA, ROOM = ISIS_GR_REPLY_OCTETS + 1 };

static isis_gr_gateway after;
static uint8_t lent[ROOM];
static const uint8_t none[6] = {0, 0, 0, 0, 0, 0};

/* ---- asking */

static isis_gr_call number(uint8_t which) {
    isis_gr_call call = {0, 0, 0, 0, NULL, NULL, 0, NULL, 0};
    call.call = which;
    return call;
}

static isis_gr_call on(uint8_t which, uint8_t circuit, uint8_t level) {
    isis_gr_call call = number(which);
    call.circuit = circuit;
    call.level = level;
    return call;
}

static isis_gr_call tick(uint32_t clock) {
    isis_gr_call call = number(ISIS_GR_CALL_TICK);
    call.clock = clock;
    return call;
}

/* the frame that was written last */
static isis_gr_call hello_from(uint8_t circuit, const uint8_t mac[6]) { return hello_call(circuit, mac, lent, ROOM); }

/* the call itself */
static void make(isis_gr_gateway *on_this, const isis_gr_call *call, uint8_t *written) {
    switch (call->call) {
    case ISIS_GR_CALL_RECEIVE:
        isis_gr_receive(on_this, call->circuit, call->source, call->frame, call->frame_len, written, call->reply_len);
        break;
    case ISIS_GR_CALL_TICK:
        isis_gr_tick(on_this, call->clock);
        break;
    case ISIS_GR_CALL_RELEASE:
        isis_gr_release(on_this, call->circuit);
        break;
    case ISIS_GR_CALL_CLEAR:
        isis_gr_clear(on_this, call->circuit);
        break;
    case ISIS_GR_CALL_CSNP_COMPLETE:
        isis_gr_csnp_complete(on_this, call->circuit, call->level);
        break;
    case ISIS_GR_CALL_DATABASE_COMPLETE:
        isis_gr_database_complete(on_this, call->level);
        break;
    default: /* it only asks */
        break;
    }
}

/* whatever the second gateway holds before */
static isis_gr_reason ask(uint8_t question, isis_gr_call call, uint8_t circuit, uint8_t level, const uint8_t id[6], const uint8_t *mac) {
    static isis_gr_gateway before, called;
    uint8_t written[ROOM];
    isis_gr_reason r;
    before = called = g;
    memset(&after, 0xA5, sizeof after);
    memset(lent, 0xEE, sizeof lent);
    memset(written, 0xEE, sizeof written);
    r = isis_gr_why(&g, &after, question, &call, circuit, level, id, mac);
    make(&called, &call, written);
    EXPECT(memcmp(&g, &before, sizeof g) == 0 && memcmp(&after, &called, sizeof after) == 0 && memcmp(lent, written, sizeof lent) == 0);
    return r;
}

/* of the peer: on a LAN at level 1 */
static isis_gr_reason of_peer(uint8_t question, isis_gr_call call, uint8_t circuit) {
    return circuit == P2P ? ask(question, call, P2P, 0, peer, NULL) : ask(question, call, circuit, 1, peer, peer_mac);
}

/* a reason and its number or line, a position with refusals 5 and 6, and the other fields 0 */
static void told(isis_gr_reason r, uint8_t reason, uint8_t refused, uint8_t line) {
    EXPECT(r.reason == reason && r.refused == refused && r.line == line && (r.position != 0) == has_position(refused));
    EXPECT(memcmp(r.system_id, none, 6) == 0 && r.priority == 0 && memcmp(r.mac, none, 6) == 0);
}

/* the gateway becomes what the last question left, which is what the call makes of it */
static void go_on(void) { g = after; }

/* ---- not advertised */

static void not_advertised(void) {
    const uint8_t q = ISIS_GR_WHY_NOT_ADVERTISED;
    start(ISIS_GR_MODE_RUNNING, 100, 3, 60);
    p2p(HELLO_UP, 0, 0); /* none, Running, Up: accepted, and nothing is kept */
    told(of_peer(q, hello_from(P2P, peer_mac), P2P), ISIS_GR_REASON_NO_RECORD, 0, 0);
    p2p(HELLO_DOWN, HELLO_SA, 0); /* INIT comes before Suppressed */
    told(of_peer(q, hello_from(P2P, peer_mac), P2P), ISIS_GR_REASON_INIT, 0, 0);
    go_on();
    EXPECT(isis_gr_look_up(&g, P2P, 0, peer, NULL).suppressed == 1);
    told(ask(q, hello_from(LAN, peer_mac), P2P, 0, third, NULL), ISIS_GR_REASON_NO_RECORD, 0, 0); /* refused 3 on another circuit */
    told(ask(q, tick(126), P2P, 0, peer, none), ISIS_GR_REASON_INIT, 0, 0);
    told(of_peer(q, tick(127), P2P), ISIS_GR_REASON_NO_RECORD, 0, 0);
    p2p(HELLO_INITIALIZING, HELLO_SA, 0);
    told(of_peer(q, hello_from(P2P, peer_mac), P2P), ISIS_GR_REASON_SUPPRESSED, 0, 0);
    go_on();
    p2p(3, 0, 0); /* a three-way state that is none: refused 6, and the record comes first */
    told(of_peer(q, hello_from(P2P, peer_mac), P2P), ISIS_GR_REASON_SUPPRESSED, 0, 0);
    p2p(HELLO_UP, 0, 0);
    told(of_peer(q, hello_from(P2P, peer_mac), P2P), ISIS_GR_REASON_NOT_SO, 0, 0);
    go_on();
    p2p(3, 0, 0);
    told(of_peer(q, hello_from(P2P, peer_mac), P2P), ISIS_GR_REASON_NOT_SO, 0, 0);
    told(ask(q, hello_from(P2P, peer_mac), P2P, 0, third, third_mac), ISIS_GR_REASON_REFUSED, ISIS_GR_REFUSED_BAD_TLV, 0);
    EXPECT(ask(q, hello_from(P2P, peer_mac), P2P, 0, third, third_mac).position == 21); /* the first TLV of a P2P hello */
    told(ask(q, tick(99), P2P, 3, peer, third_mac), ISIS_GR_REASON_NOT_SO, 0, 0); /* on P2P level and MAC count for nothing */

    lan(1, peer, 64, NO_TLV, 0);
    told(of_peer(q, hello_from(LAN, peer_mac), LAN), ISIS_GR_REASON_INIT, 0, 0);
    lan(1, peer, 64, HELLO_RR | HELLO_SA, 1);
    told(of_peer(q, hello_from(LAN, peer_mac), LAN), ISIS_GR_REASON_SUPPRESSED, 0, 0);
    lan(1, peer, 64, 0, 1);
    told(of_peer(q, hello_from(LAN, peer_mac), LAN), ISIS_GR_REASON_NOT_SO, 0, 0);
    go_on();
    told(ask(q, number(ISIS_GR_CALL_WAITING_T1S), LAN, 2, peer, peer_mac), ISIS_GR_REASON_NO_RECORD, 0, 0);
    told(ask(q, number(ISIS_GR_CALL_WAITING_T1S), LAN, 1, peer, third_mac), ISIS_GR_REASON_NO_RECORD, 0, 0);
    told(ask(q, number(ISIS_GR_CALL_WAITING_T1S), LAN, 0, peer, peer_mac), ISIS_GR_REASON_NO_RECORD, 0, 0); /* a level not enabled there */
    told(ask(q, number(ISIS_GR_CALL_WAITING_T1S), 3, 1, peer, peer_mac), ISIS_GR_REASON_NO_RECORD, 0, 0);   /* a circuit not there */
    told(ask(q, on(ISIS_GR_CALL_CLEAR, 3, 0), 3, 1, peer, peer_mac), ISIS_GR_REASON_NO_RECORD, 0, 0);       /* refused 1, and no receive */
}

/* ---- vanished */

static void vanished(void) {
    const uint8_t q = ISIS_GR_WHY_VANISHED;
    start(ISIS_GR_MODE_RUNNING, 100, 3, 60);
    told(of_peer(q, tick(127), P2P), ISIS_GR_REASON_NOT_SO, 0, 0); /* it did not stand */
    p2p(HELLO_INITIALIZING, 0, 0);
    told(of_peer(q, hello_from(P2P, peer_mac), P2P), ISIS_GR_REASON_NOT_SO, 0, 0);
    go_on();
    lan(1, peer, 64, 0, 0);
    told(of_peer(q, hello_from(LAN, peer_mac), LAN), ISIS_GR_REASON_NOT_SO, 0, 0);
    go_on();
    told(of_peer(q, tick(126), LAN), ISIS_GR_REASON_NOT_SO, 0, 0); /* it stands */
    told(of_peer(q, tick(127), LAN), ISIS_GR_REASON_EXPIRED, 0, 0);
    told(of_peer(q, tick(127), P2P), ISIS_GR_REASON_EXPIRED, 0, 0);
    told(ask(q, tick(127), LAN, 2, peer, peer_mac), ISIS_GR_REASON_NOT_SO, 0, 0);
    told(of_peer(q, tick(99), P2P), ISIS_GR_REASON_NOT_SO, 0, 0);
    told(of_peer(q, on(ISIS_GR_CALL_RELEASE, P2P, 0), P2P), ISIS_GR_REASON_NOT_SO, 0, 0); /* not Planned */
    told(of_peer(q, on(ISIS_GR_CALL_CLEAR, LAN, 0), P2P), ISIS_GR_REASON_NOT_SO, 0, 0);
    told(of_peer(q, on(ISIS_GR_CALL_CLEAR, P2P, 0), P2P), ISIS_GR_REASON_CLEARED, 0, 0);
    told(of_peer(q, on(ISIS_GR_CALL_CLEAR, LAN, 0), LAN), ISIS_GR_REASON_CLEARED, 0, 0);
    p2p(HELLO_UP, HELLO_PR, 300);
    told(of_peer(q, hello_from(P2P, peer_mac), P2P), ISIS_GR_REASON_NOT_SO, 0, 0);
    go_on();
    told(of_peer(q, tick(127), P2P), ISIS_GR_REASON_NOT_SO, 0, 0); /* until 400 */
    told(of_peer(q, on(ISIS_GR_CALL_RELEASE, P2P, 0), P2P), ISIS_GR_REASON_RELEASED, 0, 0);
    told(of_peer(q, on(ISIS_GR_CALL_RELEASE, LAN, 0), P2P), ISIS_GR_REASON_NOT_SO, 0, 0);
    p2p(HELLO_DOWN, 0, 0); /* UP to INIT: it stands */
    told(of_peer(q, hello_from(P2P, peer_mac), P2P), ISIS_GR_REASON_NOT_SO, 0, 0);
}

/* ---- no CSNPs */

/* the question looks at the call alone */
static isis_gr_reason of_csnps(isis_gr_call call) { return ask(ISIS_GR_WHY_NO_CSNPS, call, 9, 9, third, third_mac); }

static void line_fits(uint8_t circuit, uint8_t line) {
    told(of_csnps(hello_from(circuit, peer_mac)), ISIS_GR_REASON_LINE, 0, line);
    go_on();
}

static void lines(void) {
    static const uint8_t reply_ra[ISIS_GR_REPLY_OCTETS] = {211, 9, 2, 0, 27, 0x19, 0x21, 0x68, 0x00, 0x10, 0x02};
    start(ISIS_GR_MODE_RUNNING, 100, 3, 60);
    p2p(HELLO_UP, HELLO_RR, 0); /* no record, and none is kept */
    line_fits(P2P, 2);
    p2p(HELLO_DOWN, 0, 0);
    line_fits(P2P, 5);
    p2p(HELLO_UP, HELLO_RR, 0); /* INIT before, UP after; the reply is in the lent buffer, the octet past it as it was */
    line_fits(P2P, 2);
    EXPECT(memcmp(lent, reply_ra, sizeof reply_ra) == 0 && lent[ISIS_GR_REPLY_OCTETS] == 0xEE);
    told(of_csnps(hello_from(P2P, peer_mac)), ISIS_GR_REASON_NOT_SO, 0, 0); /* line 1: on P2P always ordered */
    p2p(HELLO_UP, HELLO_PR, 300);
    line_fits(P2P, 3);
    line_fits(P2P, 3);
    p2p(HELLO_UP, NO_TLV, 0); /* read as all flags clear */
    line_fits(P2P, 4);
    line_fits(P2P, 5);
    p2p(HELLO_UP, HELLO_PR, 300);
    line_fits(P2P, 3);
    p2p(HELLO_UP, INVALID, 20); /* ignored */
    line_fits(P2P, 4);
    p2p(HELLO_DOWN, HELLO_PR, 300); /* UP before, and not after */
    line_fits(P2P, 5);
    lan(1, peer, 3, HELLO_RR, 1);
    line_fits(LAN, 2);
    lan(1, peer, 3, HELLO_PR, 1);
    line_fits(LAN, 3);
    lan(1, peer, 3, 0, 0);
    line_fits(LAN, 4);
    line_fits(LAN, 5);
    told(of_csnps(tick(100)), ISIS_GR_REASON_NOT_SO, 0, 0);
    told(of_csnps(on(ISIS_GR_CALL_CLEAR, LAN, 0)), ISIS_GR_REASON_NOT_SO, 0, 0);
}

/* Takes a hello of the router of a number, whose MAC ends so. */
static void router(uint8_t n, uint8_t last, uint8_t level, uint8_t priority, int flags, size_t listed) {
    uint8_t id[6], mac[6];
    memcpy(id, us, 6);
    memcpy(mac, our_mac, 6);
    id[5] = n;
    mac[5] = last;
    lan(level, id, priority, flags, listed);
    EXPECT(receive(LAN, mac).code == ISIS_GR_OK);
}

/* Why the peer's RR at level 1 orders no CSNPs. Its own pair is greater than all others, and counts for nothing: it is marked Restart. */
static isis_gr_reason of_request(void) {
    lan(1, peer, 127, HELLO_RR, 1);
    return of_csnps(hello_from(LAN, peer_mac));
}

/* the router of a number, with this MAC and priority, has the duty */
static void outranked(uint8_t n, uint8_t last, uint8_t priority) {
    isis_gr_reason r = of_request();
    EXPECT(r.reason == ISIS_GR_REASON_OUTRANKED && r.refused == 0 && r.line == 0 && r.priority == priority);
    EXPECT(memcmp(r.system_id, us, 5) == 0 && r.system_id[5] == n && memcmp(r.mac, our_mac, 5) == 0 && r.mac[5] == last);
}

/* our own pair is (64, 02:00:00:00:00:01) */
static void duty(void) {
    start(ISIS_GR_MODE_RUNNING, 100, 3, 60);
    router(2, 2, 1, 127, 0, 1);
    told(of_request(), ISIS_GR_REASON_NOT_SO, 0, 0); /* alone the duty is ours */
    router(9, 9, 1, 63, 0, 1);
    told(of_request(), ISIS_GR_REASON_NOT_SO, 0, 0); /* a lower priority */
    router(9, 1, 1, 64, 0, 1);
    told(of_request(), ISIS_GR_REASON_NOT_SO, 0, 0); /* an equal pair */
    router(5, 5, 1, 64, 0, 1);
    outranked(5, 5, 64); /* by MAC */
    router(4, 4, 1, 65, 0, 1);
    outranked(4, 4, 65); /* by priority, though its MAC is lower */
    router(6, 6, 1, 65, HELLO_SA, 1);
    outranked(6, 6, 65); /* Suppressed counts */
    router(7, 7, 1, 99, 0, 0);
    outranked(6, 6, 65); /* INIT */
    router(7, 7, 1, 99, NO_TLV, 1);
    outranked(6, 6, 65); /* no Restart TLV in its last frame */
    router(7, 7, 2, 99, 0, 1);
    outranked(6, 6, 65); /* UP at the other level */
    router(7, 7, 1, 99, HELLO_RR, 1);
    outranked(6, 6, 65); /* marked Restart: it drops out of the comparison */
    router(7, 7, 1, 99, HELLO_PR, 1);
    outranked(7, 7, 99); /* Planned counts */
    router(10, 8, 1, 99, 0, 1);
    router(8, 8, 1, 99, 0, 1);
    router(9, 8, 1, 99, 0, 1);
    outranked(8, 8, 99); /* one MAC with three System IDs: the lowest is named */
}

/* ---- refusals of a frame: the number, for either question; the peer stands on P2P, third nowhere */

static void refused_as(uint8_t code, isis_gr_call call) {
    EXPECT(code == isis_gr_receive(&g, call.circuit, call.source, call.frame, call.frame_len, lent, call.reply_len).code);
    told(ask(ISIS_GR_WHY_NOT_ADVERTISED, call, call.circuit, 1, third, third_mac), ISIS_GR_REASON_REFUSED, code, 0);
    told(of_csnps(call), ISIS_GR_REASON_REFUSED, code, 0);
    told(ask(ISIS_GR_WHY_VANISHED, call, P2P, 1, peer, NULL), ISIS_GR_REASON_NOT_SO, 0, 0);
}

static void refusals(void) {
    isis_gr_call call;
    uint8_t code;
    start(ISIS_GR_MODE_RUNNING, 100, 3, 60);
    p2p(HELLO_INITIALIZING, 0, 0);
    EXPECT(receive(P2P, peer_mac).code == ISIS_GR_OK);
    for (code = ISIS_GR_REFUSED_NO_CIRCUIT; code <= ISIS_GR_REFUSED_NO_ROOM; code++) {
        refused_as(code, refused_call(code, lent, ROOM));
    }
    call = hello_from(P2P, peer_mac);
    call.frame = NULL;
    call.frame_len = 0;
    refused_as(ISIS_GR_REFUSED_NOT_HELLO, call);
}

/* ---- every call, and numbers that are none */

/* a restart, in which the notices change the gateway; an unfinished frame stands on either circuit, before and after */
static void every_call(void) {
    uint8_t q;
    isis_gr_call call;
    start(ISIS_GR_MODE_RESTARTING, 100, 3, 60);
    p2p(HELLO_UP, HELLO_RA, 20);
    EXPECT(receive(P2P, peer_mac).after == ISIS_GR_RECORD_UP);
    EXPECT(isis_gr_begin_frame(&g, P2P, peer_mac) == ISIS_GR_OK && isis_gr_begin_frame(&g, LAN, third_mac) == ISIS_GR_OK);
    for (q = ISIS_GR_WHY_NOT_ADVERTISED; q <= ISIS_GR_WHY_NO_CSNPS; q++) { /* the peer is advertised and stays: not so, of each */
        told(of_peer(q, on(ISIS_GR_CALL_CSNP_COMPLETE, P2P, 1), P2P), ISIS_GR_REASON_NOT_SO, 0, 0);
        EXPECT(memcmp(&after, &g, sizeof g) != 0);
        told(of_peer(q, on(ISIS_GR_CALL_DATABASE_COMPLETE, 0, 2), P2P), ISIS_GR_REASON_NOT_SO, 0, 0);
        EXPECT(memcmp(&after, &g, sizeof g) != 0);
        told(of_peer(q, tick(103), P2P), ISIS_GR_REASON_NOT_SO, 0, 0);
        told(of_peer(q, on(ISIS_GR_CALL_RELEASE, P2P, 0), P2P), ISIS_GR_REASON_NOT_SO, 0, 0);
        told(of_peer(q, on(ISIS_GR_CALL_CLEAR, LAN, 0), P2P), ISIS_GR_REASON_NOT_SO, 0, 0);
        told(of_peer(q, on(ISIS_GR_CALL_LOOK_UP, P2P, 0), P2P), ISIS_GR_REASON_NOT_SO, 0, 0);
        told(of_peer(q, on(ISIS_GR_CALL_LINK_METRIC, P2P, 0), P2P), ISIS_GR_REASON_NOT_SO, 0, 0);
        told(of_peer(q, on(ISIS_GR_CALL_NEXT_HELLO_FLAGS, P2P, 1), P2P), ISIS_GR_REASON_NOT_SO, 0, 0);
        told(of_peer(q, number(ISIS_GR_CALL_WAITING_T1S), P2P), ISIS_GR_REASON_NOT_SO, 0, 0);
        EXPECT(memcmp(&after, &g, sizeof g) == 0);
        call = on(ISIS_GR_CALL_WAITING_T1S, 77, 88); /* fields that are not the call's are not looked at */
        call.clock = 1;
        call.frame_len = call.reply_len = 1000;
        told(of_peer(q, call, P2P), ISIS_GR_REASON_NOT_SO, 0, 0);
    }
}

/* nothing was asked: the second gateway and the reply are as they were */
static void unknown(uint8_t question, isis_gr_call call) {
    static isis_gr_gateway before;
    memset(&after, 0xA5, sizeof after);
    memset(lent, 0xEE, sizeof lent);
    before = after;
    told(isis_gr_why(&g, &after, question, &call, P2P, 0, peer, NULL), ISIS_GR_REASON_UNKNOWN, 0, 0);
    EXPECT(memcmp(&after, &before, sizeof after) == 0 && lent[0] == 0xEE);
}

static void numbers(void) {
    unsigned n;
    p2p(HELLO_UP, HELLO_RR, 0);
    for (n = ISIS_GR_WHY_NO_CSNPS + 1; n < 256; n++) {
        unknown((uint8_t)n, hello_from(P2P, peer_mac));
    }
    for (n = ISIS_GR_CALL_WAITING_T1S + 1; n < 256; n++) {
        unknown(ISIS_GR_WHY_NO_CSNPS, number((uint8_t)n));
    }
}

/* memory that was never set up has no circuit */
static void never_set_up(void) {
    memset(&g, 0, sizeof g);
    p2p(HELLO_UP, HELLO_RR, 0);
    told(of_peer(ISIS_GR_WHY_NOT_ADVERTISED, hello_from(P2P, peer_mac), P2P), ISIS_GR_REASON_REFUSED, ISIS_GR_REFUSED_NO_CIRCUIT, 0);
    told(of_peer(ISIS_GR_WHY_NOT_ADVERTISED, tick(5), P2P), ISIS_GR_REASON_NO_RECORD, 0, 0);
    told(of_peer(ISIS_GR_WHY_VANISHED, tick(5), P2P), ISIS_GR_REASON_NOT_SO, 0, 0);
}

static void texts(void) {
    uint8_t a, b;
    EXPECT(strcmp(isis_gr_reason_text(ISIS_GR_REASON_NOT_SO), "not so") == 0);
    EXPECT(strcmp(isis_gr_reason_text(ISIS_GR_REASON_EXPIRED), "its holding time ran out") == 0);
    EXPECT(strcmp(isis_gr_reason_text(ISIS_GR_REASON_UNKNOWN), "no such question or call") == 0);
    EXPECT(strcmp(isis_gr_reason_text(ISIS_GR_REASON_UNKNOWN + 1), "no such reason") == 0);
    for (a = 0; a <= ISIS_GR_REASON_UNKNOWN + 1; a++) {
        for (b = 0; b < a; b++) {
            EXPECT(strcmp(isis_gr_reason_text(a), isis_gr_reason_text(b)) != 0);
        }
    }
}

int main(void) {
    not_advertised();
    vanished();
    lines();
    duty();
    refusals();
    every_call();
    numbers();
    never_set_up();
    texts();
    puts("every reason of isis_gr_why: as document 02 has it");
    return 0;
}
