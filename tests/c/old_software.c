/* A neighbour that went back to software that knows no Restart TLV (document 02, W-203): its hello without the TLV is read as one with all flags
   clear, on P2P and on a LAN. The numbers expected are derived from docs/RULES.md: clock 100, Holding Time 27, configured time 30. */
#include "neighbours.h"

enum { NO_TLV = -1, INVALID = HELLO_RA | HELLO_SA };

/* a hello of the peer, on a LAN of level 1, that leaves its record UP or INIT */
static isis_gr_received from_peer(uint8_t circuit, int flags, uint16_t remaining, int up) {
    if (circuit == P2P) {
        p2p(up ? HELLO_INITIALIZING : HELLO_DOWN, flags, remaining);
    } else {
        lan(1, peer, 64, flags, up ? 1 : 0); /* its Remaining Time is 20 */
    }
    return receive(circuit, peer_mac);
}

static isis_gr_looked look(uint8_t circuit) {
    return isis_gr_look_up(&g, circuit, 1, peer, peer_mac);
}

/* the record is UP, and a hello with these flags marked it so */
static void marked(uint8_t circuit, uint8_t flags, uint8_t mark, uint8_t suppressed) {
    isis_gr_looked l;
    start(ISIS_GR_MODE_RUNNING, 100, 3, 60);
    EXPECT(from_peer(circuit, 0, 0, 1).advertised == 1);
    EXPECT(from_peer(circuit, flags, 20, 1).advertised == !suppressed);
    l = look(circuit);
    EXPECT(l.state == ISIS_GR_RECORD_UP && l.mark == mark && l.suppressed == suppressed && l.tlv == 1);
}

/* after a hello with or without the TLV; its answer orders nothing */
static void left(uint8_t circuit, int flags, int up, uint8_t suppressed, uint64_t expiry) {
    isis_gr_received r = from_peer(circuit, flags, 20, up);
    isis_gr_looked l = look(circuit);
    EXPECT(r.code == ISIS_GR_OK && r.reply == ISIS_GR_REPLY_NONE && r.csnps == 0 && r.t1_end == ISIS_GR_T1_KEPT && r.hello_flags == 0);
    EXPECT(r.before == ISIS_GR_RECORD_UP && r.after == (up ? ISIS_GR_RECORD_UP : ISIS_GR_RECORD_INIT) && r.after == l.state);
    EXPECT(r.advertised == (up && !suppressed) && l.advertised == r.advertised);
    EXPECT(l.mark == ISIS_GR_MARK_CLEAR && l.suppressed == suppressed && l.tlv == (flags >= 0) && l.expiry == expiry);
}

/* docs/RULES.md, "Marks and holding time of an accepted frame": line 5, or line 4 where Planned was marked */
static void marks_end(uint8_t circuit) {
    int up;
    for (up = 0; up <= 1; up++) {
        marked(circuit, HELLO_SA, ISIS_GR_MARK_CLEAR, 1);
        left(circuit, NO_TLV, up, 0, 100 + HOLD);
        marked(circuit, HELLO_RR | HELLO_SA, ISIS_GR_MARK_RESTART, 1);
        left(circuit, NO_TLV, up, 0, 100 + HOLD);
        marked(circuit, HELLO_RR, ISIS_GR_MARK_RESTART, 0);
        left(circuit, NO_TLV, up, 0, 100 + HOLD);
        marked(circuit, HELLO_PR, ISIS_GR_MARK_PLANNED, 0);
        left(circuit, NO_TLV, up, 0, 100 + CONFIGURED);
        marked(circuit, HELLO_RR | HELLO_SA, ISIS_GR_MARK_RESTART, 1);
        left(circuit, INVALID, up, 1, 100 + HOLD); /* the TLV came and is ignored: Suppressed stays */
        marked(circuit, HELLO_PR, ISIS_GR_MARK_PLANNED, 0);
        left(circuit, INVALID, up, 0, 100 + CONFIGURED);
    }
}

/* the CSNP duty of a neighbour with the greater pair ends with the TLV; a third router restarts */
static void duty(void) {
    marked(LAN, HELLO_SA, ISIS_GR_MARK_CLEAR, 1);
    lan(1, third, 3, 0, 1);
    EXPECT(receive(LAN, third_mac).after == ISIS_GR_RECORD_UP);
    lan(1, third, 3, HELLO_RR, 1);
    EXPECT(receive(LAN, third_mac).csnps == 0); /* the peer's pair (64, ..:02) is above ours, (64, ..:01) */
    EXPECT(from_peer(LAN, INVALID, 20, 1).code == ISIS_GR_OK);
    lan(1, third, 3, HELLO_RR, 1);
    EXPECT(receive(LAN, third_mac).csnps == 0);
    EXPECT(from_peer(LAN, NO_TLV, 0, 1).code == ISIS_GR_OK);
    lan(1, third, 3, HELLO_RR, 1);
    EXPECT(receive(LAN, third_mac).csnps == ISIS_GR_LEVEL_1);
}

/* docs/RULES.md, "Timers while Restarting": on P2P it stops T1 and says whether to reinitialise; an ignored TLV does not, and on a LAN neither does */
static void t1(void) {
    isis_gr_received r;
    start(ISIS_GR_MODE_RESTARTING, 0, 3, 60);
    EXPECT(isis_gr_waiting_t1s(&g).count == 3);
    p2p(HELLO_UP, INVALID, 20);
    EXPECT(receive(P2P, peer_mac).t1_end == ISIS_GR_T1_KEPT && isis_gr_waiting_t1s(&g).count == 3);
    EXPECT(from_peer(LAN, NO_TLV, 0, 1).t1_end == ISIS_GR_T1_KEPT && isis_gr_waiting_t1s(&g).count == 3);
    p2p(HELLO_UP, NO_TLV, 0);
    r = receive(P2P, peer_mac);
    EXPECT(r.t1_end == ISIS_GR_T1_REINITIALISE && isis_gr_waiting_t1s(&g).count == 2 && isis_gr_waiting_t1s(&g).lowest == LAN);
}

int main(void) {
    marks_end(P2P);
    marks_end(LAN);
    duty();
    t1();
    puts("a hello without the Restart TLV: read as one with all flags clear");
    return 0;
}
