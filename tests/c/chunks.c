/* Frames in chunks (document 02, W-205): an end is as receive on the joined octets, in answer, gateway and reply, wherever the cuts are; each circuit has
   its own unfinished frame; what drops it, and what a refusal leaves. Each end is compared with receive on a copy of the gateway. */
#include "neighbours.h"

/* behind the gateway's own words stand two for each circuit's unfinished frame */
enum { ROOM = ISIS_GR_REPLY_OCTETS + 1, MOST = ISIS_GR_MOST_OCTETS, SLOT = 2, OWN = ISIS_GR_GATEWAY_WORDS - SLOT * ISIS_GR_MAX_CIRCUITS, LONGEST = 1492 };

static isis_gr_gateway before, first;
static isis_gr_frames frames, frames_before;
static uint8_t written[ROOM], expected[ROOM], longest[MOST + 1];

/* ---- comparing */

static void same_answer(isis_gr_received a, isis_gr_received b) {
    EXPECT(a.code == b.code && a.position == b.position && a.reply == b.reply && a.remaining == b.remaining && a.csnps == b.csnps && a.t1_end == b.t1_end);
    EXPECT(a.hello_flags == b.hello_flags && a.timers.restart == b.timers.restart && a.timers.spf == b.timers.spf);
    EXPECT(a.timers.overload == b.timers.overload && a.level == b.level && memcmp(a.system_id, b.system_id, 6) == 0);
    EXPECT(a.before == b.before && a.after == b.after && a.advertised == b.advertised);
}

static void keep(void) {
    before = g;
    frames_before = frames;
    memcpy(expected, written, sizeof expected);
}

static int octets_kept(void) { return memcmp(&frames, &frames_before, sizeof frames) == 0 && memcmp(written, expected, sizeof written) == 0; }

/* nothing was written */
static int kept(void) { return memcmp(&g, &before, sizeof g) == 0 && octets_kept(); }

/* of the gateway nothing but the words of a circuit's unfinished frame */
static int words_kept(uint8_t circuit) {
    size_t at = OWN + SLOT * (circuit - 1u), past = at + SLOT;
    return memcmp(g.words, before.words, 8 * at) == 0 && memcmp(g.words + past, before.words + past, 8 * (ISIS_GR_GATEWAY_WORDS - past)) == 0;
}

/* ---- handing over */

static void begin(uint8_t circuit, const uint8_t mac[6]) {
    keep();
    EXPECT(isis_gr_begin_frame(&g, circuit, mac) == ISIS_GR_OK && words_kept(circuit) && octets_kept());
}

static uint32_t chunk(uint8_t circuit, const uint8_t *octets, size_t n) { return isis_gr_add_chunk(&g, &frames, circuit, octets, n); }

static void add(uint8_t circuit, const uint8_t *octets, size_t n) {
    before = g;
    EXPECT(chunk(circuit, octets, n) == ISIS_GR_OK && words_kept(circuit));
}

static isis_gr_received end(uint8_t circuit, size_t room) { return isis_gr_end_frame(&g, &frames, circuit, written, room); }

/* no frame is begun there: a chunk and an end change nothing, and 13 comes before 2 and 14 */
static void none_begun(uint8_t circuit) {
    keep();
    EXPECT(chunk(circuit, NULL, 0) == ISIS_GR_REFUSED_NOT_BEGUN && chunk(circuit, longest, MOST + 1) == ISIS_GR_REFUSED_NOT_BEGUN);
    refused(ISIS_GR_REFUSED_NOT_BEGUN, end(circuit, sizeof written));
    refused(ISIS_GR_REFUSED_NOT_BEGUN, end(circuit, 0));
    EXPECT(kept());
}

/* the end of an unfinished frame that has the octets of a receive: as that receive; the frame is dropped, and its octets still stand in their place */
static isis_gr_received ends_as(const isis_gr_call *call) {
    isis_gr_received r;
    memset(written, 0xEE, sizeof written);
    keep();
    r = isis_gr_receive(&before, call->circuit, call->source, call->frame, call->frame_len, expected, call->reply_len);
    same_answer(end(call->circuit, call->reply_len), r);
    EXPECT(words_kept(call->circuit) && octets_kept());
    EXPECT(call->frame_len == 0 || memcmp(frames.octets + MOST * (call->circuit - 1u), call->frame, call->frame_len) == 0);
    none_begun(call->circuit);
    return r;
}

/* a receive whose frame is cut at two places, or at one */
static isis_gr_received cut(isis_gr_call call, size_t a, size_t b) {
    begin(call.circuit, call.source);
    add(call.circuit, call.frame, a);
    if (a < b) {
        add(call.circuit, call.frame + a, b - a);
    }
    add(call.circuit, call.frame + b, call.frame_len - b);
    return ends_as(&call);
}

/* at each place, and where the frame is short at every two; octet by octet, with an empty chunk before each and one behind the last. The gateway stays. */
static void every_cut(isis_gr_call call) {
    size_t a, b;
    first = g;
    for (a = 0; a <= call.frame_len; a++) {
        for (b = a; b <= call.frame_len && (b == a || call.frame_len < 100); b++) {
            cut(call, a, b);
            g = first;
        }
    }
    memset(&frames, 0xA5, sizeof frames);
    begin(call.circuit, call.source);
    for (a = 0; a < call.frame_len; a++) {
        add(call.circuit, NULL, 0);
        add(call.circuit, call.frame + a, 1);
    }
    add(call.circuit, call.frame, 0);
    ends_as(&call);
    g = first;
}

/* ---- frames */

/* the frame that was written last */
static isis_gr_call last_frame(uint8_t circuit, const uint8_t mac[6]) { return hello_call(circuit, mac, written, sizeof written); }

/* .. in memory of its own */
static isis_gr_call last_frame_in(uint8_t own[64], uint8_t circuit, const uint8_t mac[6]) {
    isis_gr_call call = last_frame(circuit, mac);
    memcpy(own, frame, 64);
    call.frame = own;
    return call;
}

/* a P2P hello of this PDU Length, filled with TLVs of type 0, and padding up to 1,500 octets */
static isis_gr_call longest_frame(size_t pdu) {
    isis_gr_call call;
    p2p(HELLO_UP, HELLO_RR, 0);
    call = last_frame(P2P, peer_mac);
    memset(longest, 0, sizeof longest);
    memcpy(longest, frame, call.frame_len);
    longest[17] = (uint8_t)(pdu >> 8);
    longest[18] = (uint8_t)pdu;
    longest[call.frame_len + 1] = (uint8_t)((pdu - call.frame_len) % 2); /* the first has no octet, or one */
    call.frame = longest;
    call.frame_len = MOST;
    return call;
}

/* the peer stands UP on both circuits, on the LAN at level 1; clock 100 */
static void stand(uint8_t mode) {
    start(mode, 100, 3, 60);
    p2p(HELLO_INITIALIZING, 0, 0);
    EXPECT(receive(P2P, peer_mac).after == ISIS_GR_RECORD_UP);
    lan(1, peer, 64, 0, 1);
    EXPECT(receive(LAN, peer_mac).after == ISIS_GR_RECORD_UP);
}

/* ---- "wherever the cuts are" */

static void cuts(uint8_t mode) {
    uint32_t code;
    stand(mode);
    p2p(HELLO_UP, HELLO_RR, 0); /* a reply and CSNPs */
    every_cut(last_frame(P2P, peer_mac));
    lan(1, peer, 64, HELLO_RR | HELLO_SA, 1);
    every_cut(last_frame(LAN, peer_mac));
    lan(2, third, 3, HELLO_RA, 1);
    every_cut(last_frame(LAN, third_mac));
    for (code = ISIS_GR_REFUSED_REPLY_ROOM; code <= ISIS_GR_REFUSED_NO_ROOM; code++) {
        every_cut(refused_call(code, written, sizeof written));
    }
}

static void long_frames(void) {
    isis_gr_received r;
    stand(ISIS_GR_MODE_RUNNING);
    every_cut(longest_frame(LONGEST));
    every_cut(longest_frame(LONGEST + 1));
    EXPECT(cut(longest_frame(LONGEST + 1), 700, LONGEST).code == ISIS_GR_REFUSED_BAD_LENGTH); /* 4 is at the same length as ever */
    r = cut(longest_frame(LONGEST), 700, LONGEST);
    EXPECT(r.code == ISIS_GR_OK && r.reply == ISIS_GR_REPLY_RA && r.csnps == ISIS_GR_LEVEL_BOTH && written[2] == ISIS_GR_REPLY_RA && written[ROOM - 1] == 0xEE);
}

/* ---- "Each circuit has its own unfinished frame" */

/* "Beginning again drops it": what was joined, and the MAC */
static void beginning_again(void) {
    isis_gr_call call;
    stand(ISIS_GR_MODE_RUNNING);
    lan(1, third, 64, 0, 1);
    call = last_frame(LAN, third_mac);
    begin(LAN, peer_mac);
    add(LAN, frame, 7);
    EXPECT(cut(call, 9, 9).after == ISIS_GR_RECORD_UP && isis_gr_look_up(&g, LAN, 1, third, third_mac).state == ISIS_GR_RECORD_UP);
    EXPECT(isis_gr_look_up(&g, LAN, 1, third, peer_mac).state == ISIS_GR_RECORD_NONE);
    begin(LAN, peer_mac);
    add(LAN, frame, call.frame_len);
    begin(LAN, third_mac); /* with no octet: as receive on none */
    call.frame_len = 0;
    EXPECT(ends_as(&call).code == ISIS_GR_REFUSED_NOT_HELLO);
    EXPECT(cut(call, 0, 0).code == ISIS_GR_REFUSED_NOT_HELLO);
    call.reply_len = ISIS_GR_REPLY_OCTETS - 1;
    EXPECT(cut(call, 0, 0).code == ISIS_GR_REFUSED_REPLY_ROOM);
}

static void interleaved(void) {
    uint8_t on_p2p[64], on_lan[64];
    isis_gr_call p, l;
    size_t i;
    stand(ISIS_GR_MODE_RUNNING);
    p2p(HELLO_UP, HELLO_PR, 300);
    p = last_frame_in(on_p2p, P2P, peer_mac);
    lan(2, third, 9, HELLO_SA, 1);
    l = last_frame_in(on_lan, LAN, third_mac);
    begin(LAN, third_mac);
    begin(P2P, peer_mac);
    for (i = 0; i < p.frame_len || i < l.frame_len; i++) {
        add(P2P, on_p2p + i, i < p.frame_len ? 1 : 0);
        add(LAN, on_lan + i, i < l.frame_len ? 1 : 0);
    }
    EXPECT(ends_as(&p).reply == ISIS_GR_REPLY_PA && ends_as(&l).after == ISIS_GR_RECORD_UP);
    EXPECT(isis_gr_look_up(&g, LAN, 2, third, third_mac).suppressed == 1 && isis_gr_look_up(&g, LAN, 2, third, peer_mac).state == ISIS_GR_RECORD_NONE);
}

/* eight of 1,500 octets at a time, each another */
static void eight_circuits(void) {
    isis_gr_settings s = settings(ISIS_GR_MODE_RUNNING, 100, 3, 60);
    isis_gr_call call = longest_frame(LONGEST);
    uint8_t n;
    size_t i;
    s.count = ISIS_GR_MAX_CIRCUITS;
    for (i = 1; i < ISIS_GR_MAX_CIRCUITS; i++) {
        s.circuits[i] = s.circuits[0];
    }
    EXPECT(isis_gr_set_up(&g, &s).code == ISIS_GR_OK);
    for (n = 1; n <= ISIS_GR_MAX_CIRCUITS; n++) {
        begin(n, peer_mac);
    }
    for (i = 0; i < MOST; i += 500) {
        for (n = ISIS_GR_MAX_CIRCUITS; n >= 1; n--) {
            longest[14] = (uint8_t)(n + 1); /* the System ID's last octet; ours has 1 */
            add(n, longest + i, 500);
        }
    }
    for (n = 1; n <= ISIS_GR_MAX_CIRCUITS; n++) {
        longest[14] = (uint8_t)(n + 1);
        call.circuit = n;
        EXPECT(ends_as(&call).system_id[5] == n + 1);
    }
}

/* ---- 13 and 14, and 1 before them */

static void too_long(void) {
    static const size_t parts[5] = {1, 500, 499, 0, 500};
    isis_gr_call call;
    size_t i, at = 0;
    stand(ISIS_GR_MODE_RUNNING);
    call = longest_frame(LONGEST);
    begin(P2P, peer_mac);
    EXPECT(chunk(P2P, longest, MOST + 1) == ISIS_GR_REFUSED_TOO_LONG);
    for (i = 0; i < 5; i++) {
        add(P2P, longest + at, parts[i]);
        at += parts[i];
        keep();
        EXPECT(chunk(P2P, longest, MOST + 1 - at) == ISIS_GR_REFUSED_TOO_LONG && chunk(P2P, longest, MOST + 1) == ISIS_GR_REFUSED_TOO_LONG && kept());
    }
    add(P2P, longest, 0); /* there are 1,500 */
    EXPECT(ends_as(&call).reply == ISIS_GR_REPLY_RA);
    begin(P2P, peer_mac); /* nothing of the refused chunk is kept, and a smaller one fits */
    add(P2P, longest, MOST - 1);
    keep();
    EXPECT(chunk(P2P, us, 2) == ISIS_GR_REFUSED_TOO_LONG && kept());
    add(P2P, longest + MOST - 1, 1);
    EXPECT(ends_as(&call).reply == ISIS_GR_REPLY_RA);
}

/* at an end 1, then 13, then 2; 1 and 13 drop nothing */
static void order(void) {
    unsigned n;
    stand(ISIS_GR_MODE_RUNNING);
    begin(P2P, peer_mac);
    add(P2P, us, 6);
    keep();
    for (n = 0; n < 256; n++) {
        if (n != P2P && n != LAN) {
            EXPECT(isis_gr_begin_frame(&g, (uint8_t)n, peer_mac) == ISIS_GR_REFUSED_NO_CIRCUIT);
            EXPECT(chunk((uint8_t)n, longest, MOST + 1) == ISIS_GR_REFUSED_NO_CIRCUIT);
            refused(ISIS_GR_REFUSED_NO_CIRCUIT, end((uint8_t)n, 0));
        }
    }
    refused(ISIS_GR_REFUSED_NOT_BEGUN, end(LAN, 0));
    EXPECT(kept());
    refused(ISIS_GR_REFUSED_REPLY_ROOM, end(P2P, 0));
    none_begun(P2P);
}

/* "and so does an end, even one that receive refuses": no octet changes, and no word but of that frame */
static void refused_ends(void) {
    uint32_t code;
    stand(ISIS_GR_MODE_RUNNING);
    for (code = ISIS_GR_REFUSED_REPLY_ROOM; code <= ISIS_GR_REFUSED_NO_ROOM; code++) {
        isis_gr_call call = refused_call(code, written, sizeof written);
        uint8_t other = call.circuit == P2P ? LAN : P2P;
        begin(other, third_mac);
        add(other, frame, 3);
        begin(call.circuit, call.source);
        add(call.circuit, frame, call.frame_len);
        keep();
        refused(code, end(call.circuit, call.reply_len));
        EXPECT(words_kept(call.circuit) && octets_kept() && !kept());
        none_begun(call.circuit);
        call.circuit = other; /* there it stayed */
        call.frame_len = 3;
        call.reply_len = sizeof written;
        EXPECT(ends_as(&call).code == ISIS_GR_REFUSED_NOT_HELLO);
    }
}

/* memory that was never set up has no circuit; set up begins no frame, and drops those that were begun; one that is refused does not */
static void set_up(void) {
    isis_gr_settings s = settings(ISIS_GR_MODE_RUNNING, 100, 3, 60);
    memset(&g, 0xA5, sizeof g);
    memset(&frames, 0xA5, sizeof frames);
    keep();
    EXPECT(isis_gr_begin_frame(&g, P2P, peer_mac) == ISIS_GR_REFUSED_NO_CIRCUIT && chunk(P2P, us, 6) == ISIS_GR_REFUSED_NO_CIRCUIT);
    refused(ISIS_GR_REFUSED_NO_CIRCUIT, end(P2P, sizeof written));
    EXPECT(kept() && isis_gr_set_up(&g, &s).code == ISIS_GR_OK);
    none_begun(P2P);
    none_begun(LAN);
    begin(P2P, peer_mac);
    begin(LAN, peer_mac);
    add(LAN, us, 6);
    s.t1 = 0;
    keep();
    EXPECT(isis_gr_set_up(&g, &s).code == ISIS_GR_REFUSED_BAD_SETTING && kept());
    s.t1 = 3;
    EXPECT(isis_gr_set_up(&g, &s).code == ISIS_GR_OK);
    none_begun(P2P);
    none_begun(LAN);
}

/* ---- other calls beside an unfinished frame */

/* the last call changed the gateway, and of unfinished frames neither words nor octets */
static void still(void) {
    EXPECT(memcmp(g.words + OWN, before.words + OWN, sizeof g - 8 * OWN) == 0 && octets_kept() && !kept());
    keep();
}

/* the clock, the mode and the records are those of the end, the MAC is that of the begin */
static void beside(void) {
    uint8_t request[64];
    isis_gr_call call;
    stand(ISIS_GR_MODE_RESTARTING);
    lan(1, peer, 64, HELLO_RR, 1);
    call = last_frame_in(request, LAN, peer_mac);
    begin(LAN, peer_mac);
    add(LAN, request, 20);
    keep();
    lan(2, third, 3, 0, 1); /* whole, on the same circuit */
    EXPECT(receive(LAN, third_mac).after == ISIS_GR_RECORD_UP);
    still();
    p2p(HELLO_UP, HELLO_PR, 300);
    EXPECT(receive(P2P, peer_mac).reply == ISIS_GR_REPLY_PA);
    still();
    EXPECT(isis_gr_tick(&g, 110).code == ISIS_GR_OK);
    still();
    EXPECT(isis_gr_release(&g, P2P) == ISIS_GR_OK);
    still();
    EXPECT(isis_gr_csnp_complete(&g, LAN, 1).code == ISIS_GR_OK);
    still();
    EXPECT(isis_gr_database_complete(&g, 1).code == ISIS_GR_OK);
    still();
    EXPECT(isis_gr_tick(&g, 160).timers.restart == ISIS_GR_RESTART_ENDED); /* T2: from now on the mode is Running */
    still();
    lan(1, peer, 64, 0, 1);
    EXPECT(receive(LAN, peer_mac).after == ISIS_GR_RECORD_UP);
    still();
    add(LAN, request + 20, call.frame_len - 20);
    EXPECT(ends_as(&call).reply == ISIS_GR_REPLY_RA && isis_gr_look_up(&g, LAN, 1, peer, peer_mac).expiry == 160 + HOLD);

    begin(LAN, peer_mac);
    add(LAN, request, call.frame_len);
    keep();
    EXPECT(isis_gr_clear(&g, LAN) == ISIS_GR_OK);
    still();
    EXPECT(ends_as(&call).before == ISIS_GR_RECORD_NONE);
}

int main(void) {
    EXPECT(isis_gr_frame_octets() == ISIS_GR_FRAME_OCTETS && sizeof frames == MOST * ISIS_GR_MAX_CIRCUITS && OWN == 640);
    cuts(ISIS_GR_MODE_RUNNING);
    cuts(ISIS_GR_MODE_RESTARTING);
    cuts(ISIS_GR_MODE_STARTING);
    long_frames();
    beginning_again();
    interleaved();
    eight_circuits();
    too_long();
    order();
    refused_ends();
    set_up();
    beside();
    puts("frames in chunks: as receive on the joined octets");
    return 0;
}
