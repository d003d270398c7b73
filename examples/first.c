/* A neighbour restarts, and we keep its adjacency: prints the Restart TLV that answers it. */
#include "isis_gr.h"

#include <stdio.h>

static isis_gr_gateway g; /* 5,248 octets of the caller's own; 0 until it is set up */
static const isis_gr_settings settings = {
    .system_id = {0x19, 0x21, 0x68, 0x00, 0x10, 0x01}, .t1 = 3, .t2 = 60, .tries = 3, .mode = ISIS_GR_MODE_RUNNING, .count = 1,
    .circuits = {{.kind = ISIS_GR_KIND_P2P, .levels = ISIS_GR_LEVEL_2, .mac = {2, 0, 0, 0, 0, 1}, .hold = 30, .metric = 10, .id = 1}}};
static const uint8_t source[6] = {2, 0, 0, 0, 0, 2};
/* of 1921.6800.1002, Holding Time 27: the header, TLV 240 with the three-way state Initializing, TLV 211 with no flag */
static uint8_t frame[26] = {0x83, 20, 1, 0, 17, 1, 0, 0, 2, 0x19, 0x21, 0x68, 0, 0x10, 2, 0, 27, 0, 26, 1, 240, 1, 1, 211, 1, 0};

int main(void) {
    uint8_t reply[ISIS_GR_REPLY_OCTETS];
    isis_gr_received r;
    size_t i;
    if (isis_gr_set_up(&g, &settings).code != ISIS_GR_OK) return 1;
    r = isis_gr_receive(&g, 1, source, frame, sizeof frame, reply, sizeof reply); /* the adjacency comes up */
    isis_gr_tick(&g, 10);                                                         /* the clock, in seconds */
    frame[25] = 1;                                                                /* RR: the neighbour restarts */
    r = isis_gr_receive(&g, 1, source, frame, sizeof frame, reply, sizeof reply);
    printf("%s; our next hello carries", isis_gr_text(r.code));
    for (i = 0; r.reply && i < sizeof reply; i++) printf(" %02X", reply[i]);
    printf("; send CSNPs of levels %u\n", r.csnps); /* an order: a mask, 2 is level 2 */
    return 0;
}
