/* Drives every constant of isis_gr.h and every field of every answer to more than one value, but for those of isis_gr_why, which why.c does. The numbers
 * expected are derived from docs/RULES.md, whose heading stands at each function, or from document 02; none was taken from a run. tools/check_codes
 * fails on a constant or a field that no test of this folder names. */
#include "neighbours.h"

/* docs/RULES.md, "Refusals by number": each leaves the gateway and the reply as they were; and its text */
static void fourteen_refusals(void) {
    static const uint8_t long_chunk[ISIS_GR_MOST_OCTETS + 1] = {0};
    static isis_gr_frames frames;
    isis_gr_gateway before;
    isis_gr_settings s = settings(ISIS_GR_MODE_RUNNING, 100, 3, 60);
    isis_gr_ticked t;
    isis_gr_noticed n;
    isis_gr_looked l;
    isis_gr_call call;
    uint32_t a, b;
    start(ISIS_GR_MODE_RUNNING, 100, 3, 60);
    p2p(HELLO_INITIALIZING, 0, 0);
    EXPECT(receive(P2P, peer_mac).code == ISIS_GR_OK);
    before = g;
    memset(reply, 0xEE, sizeof reply);

    for (a = ISIS_GR_REFUSED_NO_CIRCUIT; a <= ISIS_GR_REFUSED_NO_ROOM; a++) {
        call = refused_call(a, reply, sizeof reply);
        refused(a, isis_gr_receive(&g, call.circuit, call.source, frame, call.frame_len, reply, call.reply_len));
    }
    refused(ISIS_GR_REFUSED_NOT_HELLO, isis_gr_receive(&g, P2P, peer_mac, frame, 7, reply, sizeof reply));
    t = isis_gr_tick(&g, 99);
    EXPECT(t.code == ISIS_GR_REFUSED_CLOCK_BACK && t.lost == 0 && t.hellos == 0 && t.hello_flags == 0 && t.timers.restart == ISIS_GR_RESTART_NONE);
    n = isis_gr_csnp_complete(&g, P2P, 1);
    EXPECT(n.code == ISIS_GR_REFUSED_NOT_RESTARTING && n.timers.restart == ISIS_GR_RESTART_NONE && n.timers.spf == 0);
    EXPECT(isis_gr_database_complete(&g, 2).code == ISIS_GR_REFUSED_NOT_RESTARTING);
    EXPECT(isis_gr_database_complete(&g, ISIS_GR_LEVEL_BOTH).code == ISIS_GR_REFUSED_NO_CIRCUIT); /* a mask is no level */
    l = isis_gr_look_up(&g, LAN, 3, peer, peer_mac);
    EXPECT(l.code == ISIS_GR_REFUSED_NO_CIRCUIT && l.state == 0 && l.expiry == 0 && l.priority == 0 && l.offset == 0);
    EXPECT(isis_gr_link_metric(&g, 0).code == ISIS_GR_REFUSED_NO_CIRCUIT && isis_gr_link_metric(&g, 0).metric == 0);
    EXPECT(isis_gr_next_hello_flags(&g, 3, 1).code == ISIS_GR_REFUSED_NO_CIRCUIT && isis_gr_next_hello_flags(&g, 3, 1).flags == 0);
    EXPECT(isis_gr_next_hello_flags(&g, P2P, 0).code == ISIS_GR_REFUSED_NO_CIRCUIT && isis_gr_next_hello_flags(&g, LAN, 3).code == ISIS_GR_REFUSED_NO_CIRCUIT);
    s.circuits[1].priority = 128;
    EXPECT(isis_gr_set_up(&g, &s).code == ISIS_GR_REFUSED_BAD_SETTING && isis_gr_set_up(&g, &s).hellos == 0 && isis_gr_set_up(&g, &s).hello_flags == 0);
    EXPECT(isis_gr_add_chunk(&g, &frames, P2P, us, 6) == ISIS_GR_REFUSED_NOT_BEGUN);
    refused(ISIS_GR_REFUSED_NOT_BEGUN, isis_gr_end_frame(&g, &frames, P2P, reply, sizeof reply));
    EXPECT(memcmp(&g, &before, sizeof g) == 0 && reply[0] == 0xEE);
    EXPECT(isis_gr_begin_frame(&g, P2P, peer_mac) == ISIS_GR_OK);
    before = g;
    EXPECT(isis_gr_add_chunk(&g, &frames, P2P, long_chunk, ISIS_GR_MOST_OCTETS + 1) == ISIS_GR_REFUSED_TOO_LONG && memcmp(&g, &before, sizeof g) == 0);

    EXPECT(strcmp(isis_gr_text(ISIS_GR_OK), "done") == 0 && strcmp(isis_gr_text(ISIS_GR_REFUSED_TOO_LONG + 1), "no such code") == 0);
    for (a = 0; a <= ISIS_GR_REFUSED_TOO_LONG + 1; a++) {
        for (b = 0; b < a; b++) {
            EXPECT(strcmp(isis_gr_text(a), isis_gr_text(b)) != 0);
        }
    }
}

/* the answer to a P2P hello with these TLVs behind its header of 20 octets, of which so many lie within the PDU Length */
static isis_gr_received bare(const uint8_t *tlvs, uint8_t n, uint8_t within) {
    isis_gr_received r;
    hello_p2p(&h, frame, sizeof frame, ISIS_GR_LEVEL_BOTH, peer, HOLD);
    hello_put(&h, tlvs, n);
    EXPECT(hello_end(&h) == 20u + n);
    frame[18] = (uint8_t)(20 + within);
    r = isis_gr_receive(&g, P2P, peer_mac, frame, 20u + n, reply, sizeof reply);
    refused(r.code, r);
    return r;
}

/* docs/RULES.md, "Where refusals 5 and 6 stand": octets count from 1, and the TLVs of a P2P hello start at octet 21 */
static void positions(void) {
    static const uint8_t up_then_bad[] = {240, 1, 0, 211, 0, 16, 0};
    static const uint8_t bad_in_the_other_order[] = {16, 0, 240, 1, 0, 211, 0};
    static const uint8_t two_restarts[] = {211, 1, 0, 240, 1, 0, 211, 1, 0};
    static const uint8_t none_and_past[] = {211, 1, 0, 240, 1, 0};
    static const uint8_t passing[] = {240, 1, 0, 211, 0, 211, 9, 2};
    isis_gr_received r;
    start(ISIS_GR_MODE_RUNNING, 100, 3, 60);
    r = bare(up_then_bad, 7, 7); /* the first by its place: type 211 at octet 24 */
    EXPECT(r.code == ISIS_GR_REFUSED_BAD_TLV && r.position == 24);
    EXPECT(bare(bad_in_the_other_order, 7, 7).position == 21); /* type 16 */
    EXPECT(bare(two_restarts, 9, 9).position == 27);           /* the second one */
    r = bare(none_and_past, 6, 3); /* no three-way TLV: the PDU Length of 23 plus 1, whatever is lent behind it */
    EXPECT(r.code == ISIS_GR_REFUSED_BAD_TLV && r.position == 24);
    r = bare(passing, 8, 8); /* 5 comes before 6: the value of 9 octets at octet 26 */
    EXPECT(r.code == ISIS_GR_REFUSED_TLV_PAST_END && r.position == 26);
    r = bare(passing, 8, 6); /* a lone type octet there */
    EXPECT(r.code == ISIS_GR_REFUSED_TLV_PAST_END && r.position == 26);
    p2p(HELLO_UP, -1, 0);
    hello_tlv(&h, 211, NULL, 0);
    frame[8] = 4; /* the circuit type, ahead of any TLV */
    r = receive(P2P, peer_mac);
    EXPECT(r.code == ISIS_GR_REFUSED_BAD_TLV && r.position == 9);
    lan(1, peer, 64, 0, 1); /* a list of 8 octets from 28 on, a Restart TLV of 3 */
    hello_tlv(&h, 6, us, 5);
    EXPECT(receive(LAN, peer_mac).position == 39);
}

/* docs/RULES.md, "The state step" and "Marks and holding time of an accepted frame", on P2P */
static void p2p_record(void) {
    isis_gr_received r;
    isis_gr_looked l;
    isis_gr_ticked t;
    EXPECT(start(ISIS_GR_MODE_RUNNING, 100, 3, 60).hellos == 0);

    p2p(HELLO_UP, 0, 0); /* none, Running, Up: nothing is kept */
    r = receive(P2P, peer_mac);
    EXPECT(r.code == ISIS_GR_OK && r.level == 0 && memcmp(r.system_id, peer, 6) == 0);
    EXPECT(r.before == ISIS_GR_RECORD_NONE && r.after == ISIS_GR_RECORD_NONE && r.advertised == 0);
    p2p(HELLO_DOWN, -1, 0);
    r = receive(P2P, peer_mac);
    EXPECT(r.before == ISIS_GR_RECORD_NONE && r.after == ISIS_GR_RECORD_INIT && r.advertised == 0);
    l = isis_gr_look_up(&g, P2P, 1, peer, NULL);
    EXPECT(l.code == ISIS_GR_OK && l.state == ISIS_GR_RECORD_INIT && l.advertised == 0 && l.mark == ISIS_GR_MARK_CLEAR && l.suppressed == 0);
    EXPECT(l.tlv == 0 && l.reverse == 0 && l.whole_lan == 0 && l.unreachable == 0 && l.offset == 0 && l.priority == 0 && l.expiry == 127);
    EXPECT(isis_gr_link_metric(&g, P2P).metric == 16777210);

    p2p(HELLO_INITIALIZING, 0, 0); /* with a reverse metric: 16,777,210 + 10, held to 16,777,214, with U to 16,777,215 */
    hello_reverse(&h, HELLO_W, 10);
    r = receive(P2P, peer_mac);
    EXPECT(r.before == ISIS_GR_RECORD_INIT && r.after == ISIS_GR_RECORD_UP && r.advertised == 1 && r.csnps == 0 && r.hello_flags == 0);
    l = isis_gr_look_up(&g, P2P, 1, peer, NULL);
    EXPECT(l.state == ISIS_GR_RECORD_UP && l.advertised == 1 && l.tlv == 1 && l.reverse == 1 && l.whole_lan == 1 && l.unreachable == 0 && l.offset == 10);
    EXPECT(isis_gr_link_metric(&g, P2P).code == ISIS_GR_OK && isis_gr_link_metric(&g, P2P).metric == 16777214);
    p2p(HELLO_UP, 0, 0);
    hello_reverse(&h, HELLO_U, 0xABCDEF);
    EXPECT(receive(P2P, peer_mac).before == ISIS_GR_RECORD_UP);
    l = isis_gr_look_up(&g, P2P, 1, peer, NULL);
    EXPECT(l.reverse == 1 && l.whole_lan == 0 && l.unreachable == 1 && l.offset == 0xABCDEF);
    EXPECT(isis_gr_link_metric(&g, P2P).metric == 16777215);

    EXPECT(isis_gr_tick(&g, 110).code == ISIS_GR_OK); /* line 1: expiry 110 + 27, all levels of the circuit */
    p2p(HELLO_UP, HELLO_RR | HELLO_SA, 0);
    r = receive(P2P, peer_mac);
    EXPECT(r.reply == ISIS_GR_REPLY_RA && r.remaining == 27 && r.csnps == ISIS_GR_LEVEL_BOTH && r.after == ISIS_GR_RECORD_UP && r.advertised == 0);
    EXPECT(r.timers.restart == ISIS_GR_RESTART_NONE && r.t1_end == ISIS_GR_T1_KEPT);
    EXPECT(reply[0] == 211 && reply[1] == 9 && reply[2] == ISIS_GR_REPLY_RA && reply[3] == 0 && reply[4] == 27 && memcmp(reply + 5, peer, 6) == 0);
    l = isis_gr_look_up(&g, P2P, 1, peer, NULL);
    EXPECT(l.mark == ISIS_GR_MARK_RESTART && l.suppressed == 1 && l.advertised == 0 && l.state == ISIS_GR_RECORD_UP && l.expiry == 137);
    EXPECT(l.tlv == 1 && l.reverse == 0);

    p2p(HELLO_UP, HELLO_PR, 300); /* line 3: expiry 110 + 300 */
    r = receive(P2P, peer_mac);
    EXPECT(r.reply == ISIS_GR_REPLY_PA && r.remaining == 300 && r.csnps == 0 && r.advertised == 1 && reply[2] == ISIS_GR_REPLY_PA);
    l = isis_gr_look_up(&g, P2P, 1, peer, NULL);
    EXPECT(l.mark == ISIS_GR_MARK_PLANNED && l.suppressed == 0 && l.expiry == 410);
    p2p(HELLO_UP, 0, 0); /* line 4: configured */
    EXPECT(receive(P2P, peer_mac).reply == ISIS_GR_REPLY_NONE);
    EXPECT(isis_gr_look_up(&g, P2P, 1, peer, NULL).mark == ISIS_GR_MARK_CLEAR && isis_gr_look_up(&g, P2P, 1, peer, NULL).expiry == 140);

    p2p(HELLO_DOWN, 0, 0);
    r = receive(P2P, peer_mac);
    EXPECT(r.before == ISIS_GR_RECORD_UP && r.after == ISIS_GR_RECORD_INIT && r.advertised == 0);
    t = isis_gr_tick(&g, 136); /* expiry is 137 */
    EXPECT(t.code == ISIS_GR_OK && t.lost == 0 && t.hellos == 0 && t.timers.restart == ISIS_GR_RESTART_NONE);
    t = isis_gr_tick(&g, 137);
    EXPECT(t.lost == 1 && isis_gr_look_up(&g, P2P, 1, peer, NULL).state == ISIS_GR_RECORD_NONE);
}

/* the same on a LAN, where the frame has a level, a priority and the duty of CSNPs */
static void lan_records(void) {
    isis_gr_received r;
    isis_gr_looked l;
    start(ISIS_GR_MODE_RUNNING, 0, 3, 60);
    lan(1, peer, 5, 0, 0);
    r = receive(LAN, peer_mac);
    EXPECT(r.level == 1 && memcmp(r.system_id, peer, 6) == 0 && r.before == ISIS_GR_RECORD_NONE && r.after == ISIS_GR_RECORD_INIT && r.advertised == 0);
    lan(2, peer, 127, 0, 1);
    hello_reverse(&h, HELLO_W | HELLO_U, 77);
    r = receive(LAN, peer_mac);
    EXPECT(r.level == 2 && r.before == ISIS_GR_RECORD_NONE && r.after == ISIS_GR_RECORD_UP && r.advertised == 1);
    lan(2, third, 3, 0, 1);
    EXPECT(memcmp(receive(LAN, third_mac).system_id, third, 6) == 0);
    l = isis_gr_look_up(&g, LAN, 2, peer, peer_mac);
    EXPECT(l.state == ISIS_GR_RECORD_UP && l.priority == 127 && l.whole_lan == 1 && l.unreachable == 1 && l.offset == 77);
    l = isis_gr_look_up(&g, LAN, 1, peer, peer_mac);
    EXPECT(l.state == ISIS_GR_RECORD_INIT && l.priority == 5);
    EXPECT(isis_gr_look_up(&g, LAN, 2, peer, third_mac).state == ISIS_GR_RECORD_NONE);
    EXPECT(isis_gr_link_metric(&g, LAN).metric == 16777210); /* kept, not used */

    lan(2, third, 3, HELLO_RR, 1); /* the peer's priority 127 is above our 64: it has the duty */
    r = receive(LAN, third_mac);
    EXPECT(r.reply == ISIS_GR_REPLY_RA && r.csnps == 0 && r.level == 2);
    lan(2, peer, 127, HELLO_RR, 0); /* third is marked Restart: the duty is ours, of the frame's level; UP stays, though we are not listed */
    r = receive(LAN, peer_mac);
    EXPECT(r.csnps == ISIS_GR_LEVEL_2 && r.after == ISIS_GR_RECORD_UP);
    lan(1, peer, 5, 0, 1);
    EXPECT(receive(LAN, peer_mac).after == ISIS_GR_RECORD_UP);
    lan(1, peer, 5, HELLO_RR, 1);
    EXPECT(receive(LAN, peer_mac).csnps == ISIS_GR_LEVEL_1);
    EXPECT(isis_gr_tick(&g, HOLD).lost == 2); /* bit 1: circuit 2 */
}

/* docs/RULES.md, "Timers while Restarting": both databases complete and T1 stopped at its third expiry, then T2 */
static void restart_without_neighbours(void) {
    isis_gr_started started = start(ISIS_GR_MODE_RESTARTING, 0, 3, 60);
    isis_gr_ticked t;
    isis_gr_noticed n;
    EXPECT(started.hellos == ALL && started.hello_flags == ISIS_GR_FLAG_RR);
    EXPECT(isis_gr_next_hello_flags(&g, LAN, 1).code == ISIS_GR_OK && isis_gr_next_hello_flags(&g, LAN, 1).flags == ISIS_GR_FLAG_RR);
    EXPECT(isis_gr_waiting_t1s(&g).count == 3 && isis_gr_waiting_t1s(&g).lowest == P2P);
    t = isis_gr_tick(&g, 3);
    EXPECT(t.hellos == ALL && t.hello_flags == ISIS_GR_FLAG_RR && isis_gr_hello_ordered(t.hellos, LAN, 2));
    EXPECT(t.timers.restart == ISIS_GR_RESTART_GOES_ON && t.timers.spf == 0 && t.timers.overload == ISIS_GR_OVERLOAD_KEEP);
    n = isis_gr_database_complete(&g, 1);
    EXPECT(n.code == ISIS_GR_OK && n.timers.restart == ISIS_GR_RESTART_GOES_ON && n.timers.spf == 0);
    t = isis_gr_tick(&g, 6);
    EXPECT(t.hellos == ALL);
    t = isis_gr_tick(&g, 9);
    EXPECT(t.hellos == 0 && t.hello_flags == 0 && t.timers.restart == ISIS_GR_RESTART_GOES_ON && t.timers.spf == ISIS_GR_LEVEL_1);
    EXPECT(isis_gr_next_hello_flags(&g, LAN, 2).flags == 0);
    n = isis_gr_database_complete(&g, 2); /* no T1 runs: at once */
    EXPECT(n.timers.restart == ISIS_GR_RESTART_ENDED && n.timers.spf == ISIS_GR_LEVEL_2 && n.timers.overload == ISIS_GR_OVERLOAD_KEEP);
    EXPECT(isis_gr_database_complete(&g, 2).code == ISIS_GR_REFUSED_NOT_RESTARTING);
}

/* a tick takes T1 before T2: the hello stays ordered though the mode ends in that tick, and from then on the flags are 0 */
static void hello_of_the_last_tick(void) {
    isis_gr_ticked t;
    start(ISIS_GR_MODE_RESTARTING, 0, 3, 60);
    t = isis_gr_tick(&g, 60);
    EXPECT(t.hellos == ALL && t.hello_flags == ISIS_GR_FLAG_RR && t.timers.restart == ISIS_GR_RESTART_ENDED && t.timers.spf == ISIS_GR_LEVEL_BOTH);
    EXPECT(isis_gr_next_hello_flags(&g, P2P, 1).flags == 0 && isis_gr_tick(&g, 63).hellos == 0);
}

/* RA 20 at clock 0, showing us Up: T3 at 20; T1 (100 s) and T2 (60 s) are later */
static void acknowledged(void) {
    isis_gr_received r;
    start(ISIS_GR_MODE_RESTARTING, 0, 100, 60);
    p2p(HELLO_UP, HELLO_RA, 20);
    r = receive(P2P, peer_mac);
    EXPECT(r.code == ISIS_GR_OK && r.after == ISIS_GR_RECORD_UP && r.t1_end == ISIS_GR_T1_KEPT && r.timers.restart == ISIS_GR_RESTART_GOES_ON);
    EXPECT(isis_gr_tick(&g, 19).timers.overload == ISIS_GR_OVERLOAD_KEEP);
}

static void overload(void) {
    isis_gr_ticked t;
    acknowledged(); /* T3 sets it, T2's expiry clears it */
    t = isis_gr_tick(&g, 20);
    EXPECT(t.timers.overload == ISIS_GR_OVERLOAD_SET && t.timers.restart == ISIS_GR_RESTART_GOES_ON && t.timers.spf == 0);
    EXPECT(isis_gr_waiting_t1s(&g).count == 0 && isis_gr_waiting_t1s(&g).lowest == 0);
    t = isis_gr_tick(&g, 60);
    EXPECT(t.timers.overload == ISIS_GR_OVERLOAD_CLEAR && t.timers.restart == ISIS_GR_RESTART_ENDED && t.timers.spf == ISIS_GR_LEVEL_BOTH);
    EXPECT(t.lost == 1); /* the peer's record, of expiry 27 */

    acknowledged(); /* the notices came while T1 ran: T3 stops T1, so that the last T2 goes in the same tick */
    EXPECT(isis_gr_database_complete(&g, 1).timers.restart == ISIS_GR_RESTART_GOES_ON);
    EXPECT(isis_gr_database_complete(&g, 2).timers.restart == ISIS_GR_RESTART_GOES_ON);
    t = isis_gr_tick(&g, 20);
    EXPECT(t.timers.overload == ISIS_GR_OVERLOAD_BOTH && t.timers.restart == ISIS_GR_RESTART_ENDED && t.timers.spf == ISIS_GR_LEVEL_BOTH);
}

/* a P2P hello without a Restart TLV stops T1; one that shows us Up with our own circuit ID must be made to reinitialise */
static void t1_ends(void) {
    isis_gr_received r;
    start(ISIS_GR_MODE_RESTARTING, 0, 100, 60);
    p2p(HELLO_INITIALIZING, -1, 0);
    EXPECT(receive(P2P, peer_mac).t1_end == ISIS_GR_T1_STOPPED);
    EXPECT(isis_gr_waiting_t1s(&g).count == 2 && isis_gr_waiting_t1s(&g).lowest == LAN); /* both of the LAN */
    EXPECT(receive(P2P, peer_mac).t1_end == ISIS_GR_T1_KEPT); /* no T1 ran */
    start(ISIS_GR_MODE_RESTARTING, 0, 100, 60);
    p2p(HELLO_UP, -1, 0);
    EXPECT(receive(P2P, peer_mac).t1_end == ISIS_GR_T1_REINITIALISE);

    /* those of the LAN are left: each stops by RA that names us at its level, after its set; then the whole restart ends in a receive */
    EXPECT(isis_gr_csnp_complete(&g, LAN, 1).timers.restart == ISIS_GR_RESTART_GOES_ON && isis_gr_csnp_complete(&g, LAN, 2).code == ISIS_GR_OK);
    EXPECT(isis_gr_database_complete(&g, 1).timers.spf == 0 && isis_gr_database_complete(&g, 2).timers.spf == 0);
    lan(2, third, 64, HELLO_RA, 1);
    r = receive(LAN, third_mac);
    EXPECT(r.timers.restart == ISIS_GR_RESTART_GOES_ON && r.timers.spf == ISIS_GR_LEVEL_2 && isis_gr_waiting_t1s(&g).count == 1);
    lan(1, third, 64, HELLO_RA, 1);
    r = receive(LAN, third_mac);
    EXPECT(r.timers.restart == ISIS_GR_RESTART_ENDED && r.timers.spf == ISIS_GR_LEVEL_1 && r.timers.overload == ISIS_GR_OVERLOAD_KEEP);
}

/* document 02, W-201 and W-202: T1 begins with the first UP record of its circuit, on a LAN of its level, and orders SA, its expiries order RR and SA; each
   record that becomes UP sets overload, the last T2 clears it */
static void start_with_neighbours(void) {
    const uint8_t again = ISIS_GR_FLAG_RR | ISIS_GR_FLAG_SA;
    isis_gr_started started = start(ISIS_GR_MODE_STARTING, 0, 3, 60);
    isis_gr_received r;
    isis_gr_ticked t;
    isis_gr_noticed n;
    EXPECT(started.hellos == 0 && started.hello_flags == 0 && isis_gr_waiting_t1s(&g).count == 0);
    EXPECT(isis_gr_next_hello_flags(&g, P2P, 1).flags == ISIS_GR_FLAG_SA && isis_gr_next_hello_flags(&g, LAN, 2).flags == ISIS_GR_FLAG_SA);
    p2p(HELLO_UP, 0, 0); /* none and Up: nothing is kept, as in the mode Running */
    EXPECT(receive(P2P, peer_mac).after == ISIS_GR_RECORD_NONE);
    p2p(HELLO_DOWN, HELLO_RA, 20); /* no T1 has begun: it acknowledges nothing */
    r = receive(P2P, peer_mac);
    EXPECT(r.after == ISIS_GR_RECORD_INIT && r.hello_flags == 0 && r.timers.overload == ISIS_GR_OVERLOAD_KEEP && r.remaining == 0);
    EXPECT(isis_gr_tick(&g, 1).hellos == 0);
    p2p(HELLO_INITIALIZING, 0, 0);
    r = receive(P2P, peer_mac);
    EXPECT(r.hello_flags == ISIS_GR_FLAG_SA && r.timers.restart == ISIS_GR_RESTART_GOES_ON && r.timers.overload == ISIS_GR_OVERLOAD_SET);
    r = receive(P2P, peer_mac);
    EXPECT(r.after == ISIS_GR_RECORD_UP && r.hello_flags == 0 && r.timers.overload == ISIS_GR_OVERLOAD_KEEP);
    EXPECT(isis_gr_tick(&g, 3).hellos == 0 && isis_gr_next_hello_flags(&g, P2P, 2).flags == ISIS_GR_FLAG_SA);
    t = isis_gr_tick(&g, 4); /* 1 + 3 */
    EXPECT(t.hellos == 1 && t.hello_flags == again && t.timers.restart == ISIS_GR_RESTART_GOES_ON);
    EXPECT(isis_gr_next_hello_flags(&g, P2P, 1).flags == again && isis_gr_next_hello_flags(&g, LAN, 1).flags == ISIS_GR_FLAG_SA);
    lan(1, peer, 5, -1, 1);
    r = receive(LAN, peer_mac);
    EXPECT(r.hello_flags == ISIS_GR_FLAG_SA && r.level == 1 && r.timers.overload == ISIS_GR_OVERLOAD_SET && isis_gr_waiting_t1s(&g).count == 2);
    lan(1, third, 5, -1, 1); /* the second of the level */
    r = receive(LAN, third_mac);
    EXPECT(r.hello_flags == 0 && r.timers.overload == ISIS_GR_OVERLOAD_SET && isis_gr_tick(&g, 5).hellos == 0);
    lan(2, third, 5, -1, 1); /* the first of the other level */
    r = receive(LAN, third_mac);
    EXPECT(r.hello_flags == ISIS_GR_FLAG_SA && r.level == 2 && r.timers.overload == ISIS_GR_OVERLOAD_SET && isis_gr_waiting_t1s(&g).count == 3);
    EXPECT(isis_gr_tick(&g, 7).hellos == 1 + 4); /* 4 + 3: the second expiry on P2P, the first of level 1 */
    EXPECT(isis_gr_next_hello_flags(&g, LAN, 1).flags == again && isis_gr_next_hello_flags(&g, LAN, 2).flags == ISIS_GR_FLAG_SA);
    EXPECT(isis_gr_tick(&g, 8).hellos == 8 && isis_gr_next_hello_flags(&g, LAN, 2).flags == again); /* 5 + 3: the first of level 2 */
    t = isis_gr_tick(&g, 10); /* the third expiry on P2P, the second of level 1 */
    EXPECT(t.hellos == 4 && t.hello_flags == again && isis_gr_next_hello_flags(&g, P2P, 1).flags == ISIS_GR_FLAG_SA);

    EXPECT(isis_gr_csnp_complete(&g, LAN, 1).code == ISIS_GR_OK && isis_gr_csnp_complete(&g, LAN, 2).code == ISIS_GR_OK);
    EXPECT(isis_gr_database_complete(&g, 1).timers.spf == 0); /* T1 of level 1 runs */
    lan(2, third, 5, HELLO_RA, 1);
    EXPECT(receive(LAN, third_mac).timers.spf == 0 && isis_gr_waiting_t1s(&g).count == 1 && isis_gr_next_hello_flags(&g, LAN, 1).flags == again);
    lan(1, third, 5, HELLO_RA, 1);
    r = receive(LAN, third_mac);
    EXPECT(r.timers.restart == ISIS_GR_RESTART_GOES_ON && r.timers.spf == ISIS_GR_LEVEL_1 && r.timers.overload == ISIS_GR_OVERLOAD_KEEP);
    n = isis_gr_database_complete(&g, 2);
    EXPECT(n.timers.restart == ISIS_GR_RESTART_ENDED && n.timers.spf == ISIS_GR_LEVEL_2 && n.timers.overload == ISIS_GR_OVERLOAD_CLEAR);
    EXPECT(isis_gr_next_hello_flags(&g, LAN, 1).flags == 0 && isis_gr_csnp_complete(&g, LAN, 1).code == ISIS_GR_REFUSED_NOT_RESTARTING);
}

/* the same: how T1 and the start end */
static void start_ends(void) {
    isis_gr_received r;
    isis_gr_ticked t;
    start(ISIS_GR_MODE_STARTING, 0, 100, 60);
    p2p(HELLO_INITIALIZING, -1, 0); /* begins T1, and stops it */
    r = receive(P2P, peer_mac);
    EXPECT(r.hello_flags == ISIS_GR_FLAG_SA && r.t1_end == ISIS_GR_T1_STOPPED && isis_gr_waiting_t1s(&g).count == 0);
    start(ISIS_GR_MODE_STARTING, 0, 100, 60);
    p2p(HELLO_INITIALIZING, 0, 0);
    EXPECT(receive(P2P, peer_mac).t1_end == ISIS_GR_T1_KEPT && isis_gr_waiting_t1s(&g).lowest == P2P);
    p2p(HELLO_UP, -1, 0); /* with our own circuit ID: a restart would reinitialise */
    EXPECT(receive(P2P, peer_mac).t1_end == ISIS_GR_T1_STOPPED && isis_gr_waiting_t1s(&g).lowest == 0);

    /* the sets come before T1s of the LAN begin; no T1 of level 2 runs, so that its T2 goes first; then its T1 begins, and stops by that frame; a second
       record of level 1 comes UP with the acknowledgement */
    EXPECT(isis_gr_csnp_complete(&g, LAN, 1).code == ISIS_GR_OK && isis_gr_csnp_complete(&g, LAN, 2).code == ISIS_GR_OK);
    lan(1, peer, 5, 0, 1);
    EXPECT(receive(LAN, peer_mac).hello_flags == ISIS_GR_FLAG_SA);
    EXPECT(isis_gr_database_complete(&g, 1).timers.spf == 0 && isis_gr_database_complete(&g, 2).timers.spf == ISIS_GR_LEVEL_2);
    lan(2, third, 5, HELLO_RA, 1);
    r = receive(LAN, third_mac);
    EXPECT(r.hello_flags == ISIS_GR_FLAG_SA && r.timers.restart == ISIS_GR_RESTART_GOES_ON && r.timers.overload == ISIS_GR_OVERLOAD_SET);
    EXPECT(isis_gr_waiting_t1s(&g).count == 1);
    lan(1, third, 5, HELLO_RA, 1);
    r = receive(LAN, third_mac);
    EXPECT(r.hello_flags == 0 && r.timers.restart == ISIS_GR_RESTART_ENDED && r.timers.overload == ISIS_GR_OVERLOAD_BOTH);

    start(ISIS_GR_MODE_STARTING, 0, 3, 60); /* no T1 has begun: the notices end it */
    EXPECT(isis_gr_database_complete(&g, 1).timers.spf == ISIS_GR_LEVEL_1 && isis_gr_database_complete(&g, 2).timers.restart == ISIS_GR_RESTART_ENDED);
    start(ISIS_GR_MODE_STARTING, 0, 3, 60); /* T2 */
    t = isis_gr_tick(&g, 60);
    EXPECT(t.timers.restart == ISIS_GR_RESTART_ENDED && t.timers.spf == ISIS_GR_LEVEL_BOTH && t.timers.overload == ISIS_GR_OVERLOAD_CLEAR);
}

/* as many circuits as a gateway has, and one more; the octets of the settings are 17 and 19 a circuit */
static void eight_circuits(void) {
    isis_gr_settings s = settings(ISIS_GR_MODE_RESTARTING, 0, 3, 60);
    size_t i;
    for (i = 2; i < ISIS_GR_MAX_CIRCUITS; i++) {
        s.circuits[i] = s.circuits[i % 2];
    }
    s.count = ISIS_GR_MAX_CIRCUITS;
    EXPECT(isis_gr_set_up(&g, &s).hellos == 0xDDDD && isis_gr_waiting_t1s(&g).count == 12); /* P2P and LAN in turns: 1, then 4 and 8 */
    EXPECT(isis_gr_release(&g, ISIS_GR_MAX_CIRCUITS) == ISIS_GR_OK && isis_gr_clear(&g, ISIS_GR_MAX_CIRCUITS + 1) == ISIS_GR_REFUSED_NO_CIRCUIT);
    s.count = ISIS_GR_MAX_CIRCUITS + 1;
    EXPECT(isis_gr_set_up(&g, &s).code == ISIS_GR_REFUSED_BAD_SETTING);
    EXPECT(isis_gr_gateway_words() == ISIS_GR_GATEWAY_WORDS && sizeof g == 8 * ISIS_GR_GATEWAY_WORDS);
    EXPECT(isis_gr_frame_octets() == ISIS_GR_FRAME_OCTETS && sizeof(isis_gr_frames) == ISIS_GR_FRAME_OCTETS);
    EXPECT(ISIS_GR_FRAME_OCTETS == ISIS_GR_MAX_CIRCUITS * ISIS_GR_MOST_OCTETS);
}

/* docs/RULES.md, "What the gateway holds": each setting out of its range, and the circuit that it is of; the first of two is named */
static void each_setting(void) {
    const isis_gr_settings good = settings(ISIS_GR_MODE_RUNNING, 0, 3, 60);
    struct {
        uint8_t setting, circuit;
        isis_gr_settings settings;
    } rows[] = {
        {ISIS_GR_SETTING_T1, 0, good},    {ISIS_GR_SETTING_T2, 0, good},     {ISIS_GR_SETTING_TRIES, 0, good}, {ISIS_GR_SETTING_MODE, 0, good},
        {ISIS_GR_SETTING_COUNT, 0, good}, {ISIS_GR_SETTING_KIND, 1, good},   {ISIS_GR_SETTING_LEVELS, 1, good}, {ISIS_GR_SETTING_PRIORITY, 2, good},
        {ISIS_GR_SETTING_HOLD, 2, good},  {ISIS_GR_SETTING_METRIC, 2, good},
    };
    uint8_t octets[ISIS_GR_SETTINGS_OCTETS];
    size_t i;
    rows[0].settings.t1 = 0;
    rows[1].settings.t2 = 0;
    rows[2].settings.tries = 0;
    rows[3].settings.mode = ISIS_GR_MODE_STARTING + 1;
    rows[4].settings.count = 0;
    rows[5].settings.circuits[0].kind = 2;
    rows[6].settings.circuits[0].levels = 0;
    rows[7].settings.circuits[1].priority = 128;
    rows[8].settings.circuits[1].hold = 0;
    rows[9].settings.circuits[1].metric = 16777215;
    EXPECT(isis_gr_fault(&good).setting == ISIS_GR_SETTING_NONE && isis_gr_fault(&good).circuit == 0);
    for (i = 0; i < sizeof rows / sizeof rows[0]; i++) {
        isis_gr_setting_fault fault = isis_gr_fault(&rows[i].settings);
        EXPECT(fault.setting == rows[i].setting && fault.circuit == rows[i].circuit);
        EXPECT(isis_gr_set_up(&g, &rows[i].settings).code == ISIS_GR_REFUSED_BAD_SETTING);
        rows[i].settings.circuits[1].metric = 16777215; /* the last of all */
        fault = isis_gr_fault(&rows[i].settings);
        EXPECT(fault.setting == rows[i].setting && fault.circuit == rows[i].circuit);
    }
    isis_gr_put_settings(octets, &good);
    EXPECT(isis_gr_raw_fault(ISIS_GR_LAYOUT + 1, octets) == ISIS_GR_SETTING_VERSION);
}

int main(void) {
    fourteen_refusals();
    positions();
    p2p_record();
    lan_records();
    restart_without_neighbours();
    hello_of_the_last_tick();
    overload();
    t1_ends();
    start_with_neighbours();
    start_ends();
    eight_circuits();
    each_setting();
    puts("every constant and every field of isis_gr.h: as docs/RULES.md has it");
    return 0;
}
