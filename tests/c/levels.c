/* T1 by level (document 02, W-202; RFC 8706, 3.3.3): masks of hellos, flags by level, the T1s that run, and which of them T2 waits for. The numbers
 * expected are derived from docs/RULES.md and document 02; none was taken from a run. */
#include "neighbours.h"

/* each bit is the hello of one circuit at one level; what is no circuit or no level has none */
static void masks(void) {
    unsigned bit, circuit, level;
    for (bit = 0; bit < 16; bit++) {
        for (circuit = 0; circuit < 256; circuit++) {
            for (level = 0; level < 256; level++) {
                int is = circuit == bit / 2 + 1 && level == bit % 2 + 1;
                EXPECT(isis_gr_hello_ordered((uint16_t)(1u << bit), (uint8_t)circuit, (uint8_t)level) == is);
            }
        }
    }
    EXPECT(isis_gr_hello_ordered(0xFFFF, 8, 2) == 1 && isis_gr_hello_ordered(0xFFFF, 9, 1) == 0 && isis_gr_hello_ordered(0xFFFF, 1, 0) == 0);
}

/* every kind with every set of levels: 0x3 LAN both, 0x4 LAN level 1, 0x20 LAN level 2, then of P2P 0x40, 0x100 and 0x400, 0x3000 LAN both, 0x8000 LAN
   level 2: ten T1s */
static void every_kind(void) {
    static const uint8_t levels[8] = {3, 1, 2, 3, 1, 2, 3, 2}, modes[3] = {ISIS_GR_MODE_RUNNING, ISIS_GR_MODE_RESTARTING, ISIS_GR_MODE_STARTING};
    static const uint8_t flags[3] = {0, ISIS_GR_FLAG_RR, ISIS_GR_FLAG_SA};
    size_t m, i;
    for (m = 0; m < 3; m++) {
        isis_gr_settings s = settings(modes[m], 0, 3, 60);
        isis_gr_started started;
        s.count = 8;
        for (i = 0; i < 8; i++) {
            s.circuits[i] = s.circuits[0];
            s.circuits[i].kind = i >= 3 && i < 6 ? ISIS_GR_KIND_P2P : ISIS_GR_KIND_LAN;
            s.circuits[i].levels = levels[i];
        }
        started = isis_gr_set_up(&g, &s);
        EXPECT(started.code == ISIS_GR_OK && started.hellos == (m == 1 ? 0xB567 : 0) && started.hello_flags == (m == 1 ? ISIS_GR_FLAG_RR : 0));
        EXPECT(isis_gr_waiting_t1s(&g).count == (m == 1 ? 10u : 0u) && isis_gr_waiting_t1s(&g).lowest == (m == 1 ? 1 : 0));
        for (i = 0; i < 8; i++) {
            uint8_t level;
            for (level = 1; level <= 2; level++) {
                isis_gr_flags f = isis_gr_next_hello_flags(&g, (uint8_t)(i + 1), level);
                int enabled = levels[i] >> (level - 1) & 1;
                EXPECT(f.code == (enabled ? ISIS_GR_OK : ISIS_GR_REFUSED_NO_CIRCUIT) && f.flags == (enabled ? flags[m] : 0));
            }
        }
        EXPECT(isis_gr_tick(&g, 3).hellos == (m == 1 ? 0xB567 : 0));
    }
}

/* on the LAN each T1 stops by its own level's acknowledgement and set; what the other level heard is not its own */
static void own_level(uint8_t level, uint8_t other) {
    const uint16_t left = (uint16_t)(1 + (4 << (other - 1))); /* P2P, and the LAN's other hello */
    start(ISIS_GR_MODE_RESTARTING, 0, 3, 60);
    lan(level, peer, 64, HELLO_RA, 0); /* not listed: T3 stays */
    EXPECT(receive(LAN, peer_mac).timers.restart == ISIS_GR_RESTART_GOES_ON && isis_gr_csnp_complete(&g, LAN, other).code == ISIS_GR_OK);
    EXPECT(isis_gr_waiting_t1s(&g).count == 3 && isis_gr_next_hello_flags(&g, LAN, level).flags == ISIS_GR_FLAG_RR);
    EXPECT(isis_gr_csnp_complete(&g, LAN, level).code == ISIS_GR_OK && isis_gr_waiting_t1s(&g).count == 2);
    EXPECT(isis_gr_next_hello_flags(&g, LAN, level).flags == 0 && isis_gr_next_hello_flags(&g, LAN, other).flags == ISIS_GR_FLAG_RR);
    EXPECT(isis_gr_tick(&g, 3).hellos == left);
    p2p(HELLO_INITIALIZING, -1, 0); /* stops T1 of P2P: the LAN is the lowest, by either level */
    EXPECT(receive(P2P, peer_mac).t1_end == ISIS_GR_T1_STOPPED);
    EXPECT(isis_gr_waiting_t1s(&g).count == 1 && isis_gr_waiting_t1s(&g).lowest == LAN);
    EXPECT(isis_gr_database_complete(&g, level).timers.spf == 1u << (level - 1)); /* no T1 of this level runs */
    EXPECT(isis_gr_database_complete(&g, other).timers.spf == 0 && isis_gr_tick(&g, 6).hellos == left - 1);
    lan(other, peer, 64, HELLO_RA, 0);
    EXPECT(receive(LAN, peer_mac).timers.restart == ISIS_GR_RESTART_ENDED && isis_gr_waiting_t1s(&g).lowest == 0);
}

/* T1 of P2P holds T2 of each of its levels, and of no other */
static void p2p_levels(uint8_t levels) {
    isis_gr_settings s = settings(ISIS_GR_MODE_RESTARTING, 0, 100, 60);
    uint8_t level;
    s.circuits[0].levels = levels;
    EXPECT(isis_gr_set_up(&g, &s).hellos == ALL); /* the one hello of P2P, whatever its levels are */
    for (level = 1; level <= 2; level++) { /* those of the LAN stop */
        lan(level, peer, 64, HELLO_RA, 0);
        EXPECT(receive(LAN, peer_mac).code == ISIS_GR_OK && isis_gr_csnp_complete(&g, LAN, level).code == ISIS_GR_OK);
    }
    EXPECT(isis_gr_waiting_t1s(&g).count == 1 && isis_gr_waiting_t1s(&g).lowest == P2P);
    for (level = 1; level <= 2; level++) {
        unsigned here = 1u << (level - 1);
        EXPECT(isis_gr_next_hello_flags(&g, P2P, level).code == (levels & here ? ISIS_GR_OK : ISIS_GR_REFUSED_NO_CIRCUIT));
        EXPECT(isis_gr_database_complete(&g, level).timers.spf == (levels & here ? 0 : here));
    }
    p2p(HELLO_INITIALIZING, -1, 0);
    EXPECT(receive(P2P, peer_mac).timers.spf == levels);
}

/* an acknowledgement at either level that shows us Up lowers T3, and its expiry stops the T1s of both */
static void t3_of_both(uint8_t level) {
    isis_gr_ticked t;
    start(ISIS_GR_MODE_RESTARTING, 0, 100, 60);
    lan(level, peer, 64, HELLO_RA, 1); /* Remaining Time 20 */
    EXPECT(receive(LAN, peer_mac).after == ISIS_GR_RECORD_UP && isis_gr_tick(&g, 19).timers.overload == ISIS_GR_OVERLOAD_KEEP);
    EXPECT(isis_gr_waiting_t1s(&g).count == 3);
    t = isis_gr_tick(&g, 20);
    EXPECT(t.timers.overload == ISIS_GR_OVERLOAD_SET && t.hellos == 0 && isis_gr_waiting_t1s(&g).count == 0);
}

int main(void) {
    masks();
    every_kind();
    own_level(1, 2);
    own_level(2, 1);
    p2p_levels(ISIS_GR_LEVEL_1);
    p2p_levels(ISIS_GR_LEVEL_2);
    p2p_levels(ISIS_GR_LEVEL_BOTH);
    t3_of_both(1);
    t3_of_both(2);
    puts("T1 by level: as document 02 has it");
    return 0;
}
