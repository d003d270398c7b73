/* Uses every function of isis_gr.h once or more: sample runs of document 01, a start and a frame in chunks (document 02, W-201 and W-205), and what a
   refusal leaves. Circuit 1 is P2P with both levels, circuit 2 a LAN with level 2. Prints the first thing that differs. */
#include "isis_gr.h"

#include "expect.h"

static const uint8_t own_id[6] = {0x19, 0x21, 0x68, 0x00, 0x10, 0x01};
static const uint8_t neighbour[6] = {0x19, 0x21, 0x68, 0x00, 0x10, 0x02};
static const uint8_t source[6] = {2, 0, 0, 0, 0, 2};

static isis_gr_settings settings(uint8_t mode, uint32_t clock) {
    isis_gr_settings s;
    memset(&s, 0, sizeof s);
    memcpy(s.system_id, own_id, 6);
    s.t1 = 3;
    s.t2 = 60;
    s.tries = 3;
    s.clock = clock;
    s.mode = mode;
    s.count = 2;
    s.circuits[0].kind = ISIS_GR_KIND_P2P;
    s.circuits[0].levels = ISIS_GR_LEVEL_BOTH;
    s.circuits[0].hold = 30;
    s.circuits[0].metric = 10;
    s.circuits[0].id = 7;
    s.circuits[0].mac[5] = 1;
    s.circuits[1] = s.circuits[0];
    s.circuits[1].kind = ISIS_GR_KIND_LAN;
    s.circuits[1].levels = ISIS_GR_LEVEL_2;
    s.circuits[1].priority = 64;
    return s;
}

/* A P2P hello with Holding Time 27, a three-way state and a Restart TLV of three octets; its length is returned. */
static size_t hello(uint8_t *out, uint8_t state, uint8_t flags, uint16_t remaining) {
    const uint8_t head[20] = {0x83, 20, 1, 0, 17, 1, 0, 0, 3, 0x19, 0x21, 0x68, 0x00, 0x10, 0x02, 0, 27, 0, 28, 1};
    memcpy(out, head, 20);
    out[20] = 240;
    out[21] = 1;
    out[22] = state;
    out[23] = 211;
    out[24] = 3;
    out[25] = flags;
    out[26] = (uint8_t)(remaining >> 8);
    out[27] = (uint8_t)remaining;
    return 28;
}

static void setup_is_checked(void) {
    isis_gr_gateway g, before;
    isis_gr_settings s = settings(ISIS_GR_MODE_RUNNING, 83);
    memset(&g, 0xA5, sizeof g);
    before = g;
    EXPECT(isis_gr_fault(&s).setting == ISIS_GR_SETTING_NONE);
    s.circuits[1].levels = 4;
    EXPECT(isis_gr_set_up(&g, &s).code == ISIS_GR_REFUSED_BAD_SETTING);
    EXPECT(isis_gr_fault(&s).setting == ISIS_GR_SETTING_LEVELS && isis_gr_fault(&s).circuit == 2);
    s = settings(ISIS_GR_MODE_STARTING + 1, 83);
    EXPECT(isis_gr_set_up(&g, &s).code == ISIS_GR_REFUSED_BAD_SETTING && isis_gr_fault(&s).setting == ISIS_GR_SETTING_MODE);
    s = settings(ISIS_GR_MODE_RUNNING, 83);
    s.circuits[0].kind = 2;
    EXPECT(isis_gr_set_up(&g, &s).code == ISIS_GR_REFUSED_BAD_SETTING);
    s = settings(ISIS_GR_MODE_RUNNING, 83);
    s.t1 = 0;
    EXPECT(isis_gr_set_up(&g, &s).code == ISIS_GR_REFUSED_BAD_SETTING);
    s.circuits[0].hold = 0; /* the first of two */
    EXPECT(isis_gr_fault(&s).setting == ISIS_GR_SETTING_T1 && isis_gr_fault(&s).circuit == 0);
    s.t1 = 3;
    EXPECT(isis_gr_fault(&s).setting == ISIS_GR_SETTING_HOLD && isis_gr_fault(&s).circuit == 1);
    s.count = 9;
    EXPECT(isis_gr_fault(&s).setting == ISIS_GR_SETTING_COUNT);
    {
        /* an object of another layout */
        uint8_t octets[ISIS_GR_SETTINGS_OCTETS];
        s = settings(ISIS_GR_MODE_RUNNING, 83);
        isis_gr_put_settings(octets, &s);
        EXPECT(isis_gr_raw_set_up(ISIS_GR_LAYOUT - 1, g.words, octets) == ISIS_GR_REFUSED_BAD_SETTING);
        EXPECT(isis_gr_raw_fault(ISIS_GR_LAYOUT - 1, octets) == ISIS_GR_SETTING_VERSION);
    }
    EXPECT(memcmp(&g, &before, sizeof g) == 0);
    /* memory that was never set up: no circuit, and nothing changes */
    EXPECT(isis_gr_release(&g, 1) == ISIS_GR_REFUSED_NO_CIRCUIT);
    EXPECT(isis_gr_tick(&g, 5).code == ISIS_GR_OK);
    EXPECT(memcmp(&g, &before, sizeof g) == 0);
}

static void neighbour_restarts(void) {
    static const uint8_t c1[ISIS_GR_REPLY_OCTETS] = {0xD3, 0x09, 0x02, 0x00, 0x1B, 0x19, 0x21, 0x68, 0x00, 0x10, 0x02};
    static const uint8_t c4[ISIS_GR_REPLY_OCTETS] = {0xD3, 0x09, 0x10, 0x01, 0x2C, 0x19, 0x21, 0x68, 0x00, 0x10, 0x02};
    isis_gr_gateway g, before;
    isis_gr_settings s = settings(ISIS_GR_MODE_RUNNING, 83);
    isis_gr_received r;
    isis_gr_looked l;
    uint8_t frame[64], reply[12];
    size_t n;

    memset(&g, 0xA5, sizeof g);
    memset(reply, 0xEE, sizeof reply);
    EXPECT(isis_gr_set_up(&g, &s).code == ISIS_GR_OK);

    n = hello(frame, 1, 0, 0);
    r = isis_gr_receive(&g, 1, source, frame, n, reply, sizeof reply);
    EXPECT(r.code == ISIS_GR_OK && r.reply == ISIS_GR_REPLY_NONE && reply[0] == 0xEE);
    EXPECT(r.level == 0 && memcmp(r.system_id, neighbour, 6) == 0);
    EXPECT(r.before == ISIS_GR_RECORD_NONE && r.after == ISIS_GR_RECORD_UP && r.advertised == 1);
    l = isis_gr_look_up(&g, 1, 0, neighbour, NULL);
    EXPECT(l.code == ISIS_GR_OK && l.state == ISIS_GR_RECORD_UP && l.expiry == 110 && l.tlv == 1 && l.advertised == 1);

    /* C1 */
    EXPECT(isis_gr_tick(&g, 100).lost == 0);
    n = hello(frame, 0, 1, 0);
    r = isis_gr_receive(&g, 1, source, frame, n, reply, sizeof reply);
    EXPECT(r.code == ISIS_GR_OK && r.reply == ISIS_GR_REPLY_RA && r.remaining == 27 && r.csnps == ISIS_GR_LEVEL_BOTH);
    EXPECT(r.t1_end == ISIS_GR_T1_KEPT && r.timers.restart == ISIS_GR_RESTART_NONE);
    EXPECT(memcmp(reply, c1, sizeof c1) == 0 && reply[11] == 0xEE);
    l = isis_gr_look_up(&g, 1, 0, neighbour, source);
    EXPECT(l.expiry == 127 && l.mark == ISIS_GR_MARK_RESTART);

    /* C3, C4 */
    isis_gr_tick(&g, 106);
    n = hello(frame, 0, 0, 0);
    r = isis_gr_receive(&g, 1, source, frame, n, reply, sizeof reply);
    EXPECT(r.reply == ISIS_GR_REPLY_NONE);
    isis_gr_tick(&g, 110);
    n = hello(frame, 0, 8, 300);
    r = isis_gr_receive(&g, 1, source, frame, n, reply, sizeof reply);
    EXPECT(r.reply == ISIS_GR_REPLY_PA && r.remaining == 300 && memcmp(reply, c4, sizeof c4) == 0);
    EXPECT(isis_gr_look_up(&g, 1, 0, neighbour, source).mark == ISIS_GR_MARK_PLANNED);

    /* refusals leave all as it was */
    before = g;
    memset(reply, 0xEE, sizeof reply);
    EXPECT(isis_gr_receive(&g, 3, source, frame, n, reply, sizeof reply).code == ISIS_GR_REFUSED_NO_CIRCUIT);
    EXPECT(isis_gr_receive(&g, 1, source, frame, n, reply, 10).code == ISIS_GR_REFUSED_REPLY_ROOM);
    EXPECT(isis_gr_receive(&g, 1, source, NULL, 0, reply, sizeof reply).code == ISIS_GR_REFUSED_NOT_HELLO);
    EXPECT(isis_gr_receive(&g, 1, source, frame, n - 1, reply, sizeof reply).code == ISIS_GR_REFUSED_BAD_LENGTH);
    EXPECT(isis_gr_tick(&g, 109).code == ISIS_GR_REFUSED_CLOCK_BACK);
    EXPECT(isis_gr_csnp_complete(&g, 2, 1).code == ISIS_GR_REFUSED_NO_CIRCUIT);
    EXPECT(isis_gr_csnp_complete(&g, 2, 2).code == ISIS_GR_REFUSED_NOT_RESTARTING);
    EXPECT(isis_gr_database_complete(&g, 3).code == ISIS_GR_REFUSED_NO_CIRCUIT);
    EXPECT(isis_gr_database_complete(&g, 1).code == ISIS_GR_REFUSED_NOT_RESTARTING);
    EXPECT(memcmp(&g, &before, sizeof g) == 0 && reply[0] == 0xEE);

    /* release, then a tick */
    EXPECT(isis_gr_release(&g, 1) == ISIS_GR_OK);
    EXPECT(isis_gr_look_up(&g, 1, 0, neighbour, source).state == ISIS_GR_RECORD_NONE);
    EXPECT(isis_gr_link_metric(&g, 1).metric == 10);
    EXPECT(isis_gr_link_metric(&g, 9).code == ISIS_GR_REFUSED_NO_CIRCUIT);
    n = hello(frame, 1, 0, 0);
    isis_gr_receive(&g, 1, source, frame, n, reply, sizeof reply);
    EXPECT(isis_gr_tick(&g, 137).lost == 1);

    /* SA: UP and not advertised; three-way Down: INIT; clear: none */
    n = hello(frame, 1, 4, 0);
    r = isis_gr_receive(&g, 1, source, frame, n, reply, sizeof reply);
    EXPECT(r.before == ISIS_GR_RECORD_NONE && r.after == ISIS_GR_RECORD_UP && r.advertised == 0);
    n = hello(frame, 2, 0, 0);
    r = isis_gr_receive(&g, 1, source, frame, n, reply, sizeof reply);
    EXPECT(r.before == ISIS_GR_RECORD_UP && r.after == ISIS_GR_RECORD_INIT && r.advertised == 0);
    before = g;
    EXPECT(isis_gr_clear(&g, 3) == ISIS_GR_REFUSED_NO_CIRCUIT && memcmp(&g, &before, sizeof g) == 0);
    EXPECT(isis_gr_clear(&g, 1) == ISIS_GR_OK && isis_gr_look_up(&g, 1, 0, neighbour, NULL).state == ISIS_GR_RECORD_NONE);
}

/* C1 once more, its frame in three chunks, one of them empty, and a second passes before it ends */
static void neighbour_restarts_in_chunks(void) {
    static const uint8_t c1[ISIS_GR_REPLY_OCTETS] = {0xD3, 0x09, 0x02, 0x00, 0x1B, 0x19, 0x21, 0x68, 0x00, 0x10, 0x02};
    static isis_gr_frames frames;
    isis_gr_gateway g, before;
    isis_gr_settings s = settings(ISIS_GR_MODE_RUNNING, 83);
    isis_gr_received r;
    uint8_t frame[64], reply[12];
    size_t n = hello(frame, 1, 0, 0);

    memset(reply, 0xEE, sizeof reply);
    EXPECT(isis_gr_set_up(&g, &s).code == ISIS_GR_OK);
    EXPECT(isis_gr_receive(&g, 1, source, frame, n, reply, sizeof reply).after == ISIS_GR_RECORD_UP);
    before = g;
    EXPECT(isis_gr_begin_frame(&g, 3, source) == ISIS_GR_REFUSED_NO_CIRCUIT);
    EXPECT(isis_gr_add_chunk(&g, &frames, 1, frame, n) == ISIS_GR_REFUSED_NOT_BEGUN);
    EXPECT(isis_gr_end_frame(&g, &frames, 1, reply, sizeof reply).code == ISIS_GR_REFUSED_NOT_BEGUN);
    EXPECT(memcmp(&g, &before, sizeof g) == 0 && reply[0] == 0xEE);

    n = hello(frame, 0, 1, 0);
    EXPECT(isis_gr_begin_frame(&g, 1, source) == ISIS_GR_OK);
    EXPECT(isis_gr_add_chunk(&g, &frames, 1, frame, 5) == ISIS_GR_OK && isis_gr_add_chunk(&g, &frames, 1, NULL, 0) == ISIS_GR_OK);
    EXPECT(isis_gr_add_chunk(&g, &frames, 1, frame + 5, n - 5) == ISIS_GR_OK && isis_gr_tick(&g, 100).lost == 0);
    r = isis_gr_end_frame(&g, &frames, 1, reply, sizeof reply);
    EXPECT(r.code == ISIS_GR_OK && r.reply == ISIS_GR_REPLY_RA && r.remaining == 27 && r.csnps == ISIS_GR_LEVEL_BOTH);
    EXPECT(memcmp(r.system_id, neighbour, 6) == 0 && r.before == ISIS_GR_RECORD_UP && r.after == ISIS_GR_RECORD_UP && r.advertised == 1);
    EXPECT(memcmp(reply, c1, sizeof c1) == 0 && reply[11] == 0xEE && isis_gr_look_up(&g, 1, 0, neighbour, NULL).expiry == 127);
    EXPECT(isis_gr_end_frame(&g, &frames, 1, reply, sizeof reply).code == ISIS_GR_REFUSED_NOT_BEGUN);
}

static void we_restart(void) {
    isis_gr_gateway g;
    isis_gr_settings s = settings(ISIS_GR_MODE_RESTARTING, 0);
    isis_gr_ticked t;
    isis_gr_noticed n;
    EXPECT(isis_gr_set_up(&g, &s).hellos == 9 && isis_gr_set_up(&g, &s).hello_flags == ISIS_GR_FLAG_RR); /* bits 0 and 3 */
    EXPECT(isis_gr_next_hello_flags(&g, 1, 1).flags == ISIS_GR_FLAG_RR && isis_gr_next_hello_flags(&g, 1, 2).flags == ISIS_GR_FLAG_RR);
    EXPECT(isis_gr_next_hello_flags(&g, 2, 2).flags == ISIS_GR_FLAG_RR && isis_gr_next_hello_flags(&g, 2, 1).code == ISIS_GR_REFUSED_NO_CIRCUIT);
    EXPECT(isis_gr_waiting_t1s(&g).count == 2 && isis_gr_waiting_t1s(&g).lowest == 1);
    t = isis_gr_tick(&g, 3);
    EXPECT(t.code == ISIS_GR_OK && t.hellos == 9 && t.hello_flags == ISIS_GR_FLAG_RR && t.timers.restart == ISIS_GR_RESTART_GOES_ON);
    EXPECT(isis_gr_hello_ordered(t.hellos, 1, 1) == 1 && isis_gr_hello_ordered(t.hellos, 2, 2) == 1 && isis_gr_hello_ordered(t.hellos, 2, 1) == 0);
    n = isis_gr_csnp_complete(&g, 2, 2);
    EXPECT(n.code == ISIS_GR_OK && n.timers.restart == ISIS_GR_RESTART_GOES_ON);
    n = isis_gr_database_complete(&g, 2);
    EXPECT(n.code == ISIS_GR_OK && n.timers.spf == 0);
    isis_gr_tick(&g, 6);
    t = isis_gr_tick(&g, 9); /* the third expiry stops T1; level 2's T2 is cancelled */
    EXPECT(t.hellos == 0 && t.hello_flags == 0 && t.timers.spf == ISIS_GR_LEVEL_2);
    EXPECT(isis_gr_waiting_t1s(&g).count == 0 && isis_gr_waiting_t1s(&g).lowest == 0);
    EXPECT(isis_gr_next_hello_flags(&g, 1, 1).flags == 0);
    t = isis_gr_tick(&g, 60); /* T2 of level 1 expires: the mode ends */
    EXPECT(t.timers.restart == ISIS_GR_RESTART_ENDED && t.timers.spf == ISIS_GR_LEVEL_1 && t.timers.overload == ISIS_GR_OVERLOAD_KEEP);
}

static void we_start(void) {
    isis_gr_gateway g;
    isis_gr_settings s = settings(ISIS_GR_MODE_STARTING, 0);
    isis_gr_started started = isis_gr_set_up(&g, &s);
    isis_gr_received r;
    isis_gr_ticked t;
    isis_gr_noticed n;
    uint8_t frame[64], reply[ISIS_GR_REPLY_OCTETS];
    EXPECT(started.code == ISIS_GR_OK && started.hellos == 0 && started.hello_flags == 0);
    EXPECT(isis_gr_next_hello_flags(&g, 1, 1).flags == ISIS_GR_FLAG_SA && isis_gr_next_hello_flags(&g, 2, 2).flags == ISIS_GR_FLAG_SA);
    EXPECT(isis_gr_waiting_t1s(&g).count == 0);
    r = isis_gr_receive(&g, 1, source, frame, hello(frame, 1, 0, 0), reply, sizeof reply); /* UP: T1 begins */
    EXPECT(r.code == ISIS_GR_OK && r.after == ISIS_GR_RECORD_UP && r.hello_flags == ISIS_GR_FLAG_SA);
    EXPECT(r.timers.restart == ISIS_GR_RESTART_GOES_ON && r.timers.overload == ISIS_GR_OVERLOAD_SET);
    EXPECT(isis_gr_waiting_t1s(&g).count == 1 && isis_gr_waiting_t1s(&g).lowest == 1);
    t = isis_gr_tick(&g, 3);
    EXPECT(t.hellos == 1 && t.hello_flags == (ISIS_GR_FLAG_RR | ISIS_GR_FLAG_SA) && t.timers.restart == ISIS_GR_RESTART_GOES_ON);
    EXPECT(isis_gr_next_hello_flags(&g, 1, 2).flags == (ISIS_GR_FLAG_RR | ISIS_GR_FLAG_SA));
    EXPECT(isis_gr_csnp_complete(&g, 1, 1).code == ISIS_GR_OK);
    n = isis_gr_database_complete(&g, 1);
    EXPECT(n.code == ISIS_GR_OK && n.timers.spf == 0); /* T1 runs */
    isis_gr_tick(&g, 6);
    t = isis_gr_tick(&g, 9); /* the third expiry stops T1; level 1's T2 is cancelled */
    EXPECT(t.hellos == 0 && t.hello_flags == 0 && t.timers.spf == ISIS_GR_LEVEL_1 && t.timers.overload == ISIS_GR_OVERLOAD_KEEP);
    EXPECT(isis_gr_next_hello_flags(&g, 1, 1).flags == ISIS_GR_FLAG_SA);
    n = isis_gr_database_complete(&g, 2);
    EXPECT(n.timers.restart == ISIS_GR_RESTART_ENDED && n.timers.spf == ISIS_GR_LEVEL_2 && n.timers.overload == ISIS_GR_OVERLOAD_CLEAR);
    EXPECT(isis_gr_next_hello_flags(&g, 1, 1).flags == 0);
    EXPECT(isis_gr_database_complete(&g, 2).code == ISIS_GR_REFUSED_NOT_RESTARTING);
}

int main(void) {
    EXPECT(isis_gr_gateway_words() == ISIS_GR_GATEWAY_WORDS && isis_gr_frame_octets() == ISIS_GR_FRAME_OCTETS);
    setup_is_checked();
    neighbour_restarts();
    neighbour_restarts_in_chunks();
    we_restart();
    we_start();
    puts("every call of isis_gr.h: as documents 01 and 02 have it");
    return 0;
}
