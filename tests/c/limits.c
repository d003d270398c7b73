/* What docs/INTEGRATION.md says under "Limits". */
#include "neighbours.h"

/* Chunks of 500 octets that make so many; the code of the last. */
static uint32_t join(size_t octets) {
    static const uint8_t padding[500] = {0};
    static isis_gr_frames frames;
    uint32_t code = isis_gr_begin_frame(&g, P2P, peer_mac);
    for (; octets > 0 && code == ISIS_GR_OK; octets -= octets < 500 ? octets : 500) {
        code = isis_gr_add_chunk(&g, &frames, P2P, padding, octets < 500 ? octets : 500);
    }
    return code;
}

int main(void) {
    uint8_t id[6], mac[6], n;
    start(ISIS_GR_MODE_RUNNING, 0, 3, 60);
    hello_p2p(&h, frame, sizeof frame, ISIS_GR_LEVEL_BOTH, peer, 1); /* Holding Time 1: gone at the next second */
    hello_three_way(&h, HELLO_INITIALIZING, 9, us, OWN_ID);
    EXPECT(receive(P2P, peer_mac).after == ISIS_GR_RECORD_UP && isis_gr_tick(&g, 1).lost == 1);
    p2p(HELLO_INITIALIZING, 0, 0); /* a swapped neighbour: 9 until the old record goes */
    EXPECT(receive(P2P, peer_mac).after == ISIS_GR_RECORD_UP);
    hello_p2p(&h, frame, sizeof frame, ISIS_GR_LEVEL_BOTH, third, HOLD);
    hello_three_way(&h, HELLO_DOWN, 9, NULL, 0);
    EXPECT(receive(P2P, third_mac).code == ISIS_GR_REFUSED_NO_ROOM && isis_gr_clear(&g, P2P) == ISIS_GR_OK);
    EXPECT(isis_gr_tick(&g, 2).lost == 0 && receive(P2P, third_mac).after == ISIS_GR_RECORD_INIT);
    hello_p2p(&h, frame, sizeof frame, ISIS_GR_LEVEL_BOTH, third, HOLD); /* no three-way TLV */
    EXPECT(receive(P2P, third_mac).code == ISIS_GR_REFUSED_BAD_TLV);
    memcpy(id, peer, 6);
    memcpy(mac, peer_mac, 6);
    for (n = 0; n < 18; n++) { /* eight neighbours of both levels, and the ninth */
        id[5] = mac[5] = (uint8_t)(2 + n / 2);
        lan((uint8_t)(1 + n % 2), id, 64, 0, 1);
        EXPECT(receive(LAN, mac).code == (n < 16 ? ISIS_GR_OK : ISIS_GR_REFUSED_NO_ROOM));
    }
    EXPECT(join(1497) == ISIS_GR_OK && join(1500) == ISIS_GR_OK && join(1501) == ISIS_GR_REFUSED_TOO_LONG);
    EXPECT(sizeof(isis_gr_gateway) == 5248 && sizeof(isis_gr_frames) == 12000);
    puts("the limits: as docs/INTEGRATION.md has them");
    return 0;
}
