/* A radio that hands frames over in chunks (document 02, W-205): a hello comes in three, one of them empty, and then the same of a neighbour that restarts.
   Prints the Restart TLV that answers it. */
#include "isis_gr.h"

#include <stdio.h>

static isis_gr_gateway g;
static isis_gr_frames frames; /* 12,000 octets of the caller's own, for unfinished frames; they may hold anything */
static uint32_t refused;      /* the code of the frame's begin and chunks so far; one for each circuit, where there are more */
static const isis_gr_settings settings = {
    .system_id = {0x19, 0x21, 0x68, 0x00, 0x10, 0x01}, .t1 = 3, .t2 = 60, .tries = 3, .mode = ISIS_GR_MODE_RUNNING, .count = 1,
    .circuits = {{.kind = ISIS_GR_KIND_P2P, .levels = ISIS_GR_LEVEL_2, .mac = {2, 0, 0, 0, 0, 1}, .hold = 30, .metric = 10, .id = 1}}};
static const uint8_t source[6] = {2, 0, 0, 0, 0, 2};
/* of 1921.6800.1002, Holding Time 27: the header, TLV 240 with the three-way state Initializing, TLV 211 with no flag */
static uint8_t frame[26] = {0x83, 20, 1, 0, 17, 1, 0, 0, 2, 0x19, 0x21, 0x68, 0, 0x10, 2, 0, 27, 0, 26, 1, 240, 1, 1, 211, 1, 0};

/* What the radio calls: a frame begins, some octets of it came or none, it is whole. */
static void frame_begins(uint8_t circuit, const uint8_t mac[6]) { refused = isis_gr_begin_frame(&g, circuit, mac); }

static void chunk_comes(uint8_t circuit, const uint8_t *octets, size_t n) {
    if (refused == ISIS_GR_OK) { /* behind a chunk that was left out the rest is another frame */
        refused = isis_gr_add_chunk(&g, &frames, circuit, octets, n);
    }
}

static void frame_ends(uint8_t circuit) {
    uint8_t reply[ISIS_GR_REPLY_OCTETS];
    isis_gr_received r = {0};
    size_t i;
    if (refused == ISIS_GR_OK) { /* else the next begin drops what was joined */
        r = isis_gr_end_frame(&g, &frames, circuit, reply, sizeof reply);
    }
    printf("%s", isis_gr_text(refused ? refused : r.code));
    for (i = 0; r.reply && i < sizeof reply; i++) printf("%s %02X", i ? "" : "; our next hello carries", reply[i]);
    putchar('\n');
}

int main(void) {
    if (isis_gr_frame_octets() != ISIS_GR_FRAME_OCTETS || isis_gr_set_up(&g, &settings).code != ISIS_GR_OK) return 1;
    for (frame[25] = 0; frame[25] <= 1; frame[25]++) { /* TLV 211: no flag, and then RR */
        frame_begins(1, source);
        chunk_comes(1, frame, 9);
        chunk_comes(1, NULL, 0);
        chunk_comes(1, frame + 9, sizeof frame - 9);
        frame_ends(1); /* as isis_gr_receive of all 26 octets */
    }
    return 0;
}
