/* A LAN with two neighbours, of which one outranks us: why each is not advertised, why we order no CSNPs, why one vanished. Each question is asked before the
   call is made, so that nothing is copied; `after` is lent for it, and thrown away. */
#include "isis_gr.h"

#include "explain.h"
#include "hello.h"

static isis_gr_gateway g, after;
static const isis_gr_settings settings = {
    .system_id = {0x19, 0x21, 0x68, 0x00, 0x10, 0x01}, .t1 = 3, .t2 = 60, .tries = 3, .mode = ISIS_GR_MODE_RUNNING, .count = 1,
    .circuits = {{.kind = ISIS_GR_KIND_LAN, .levels = ISIS_GR_LEVEL_1, .mac = {2, 0, 0, 0, 0, 1}, .priority = 64, .hold = 30, .metric = 10}}};

static void print_why(uint8_t question, const isis_gr_call *call, const uint8_t id[6], const uint8_t mac[6]) {
    char sentence[EXPLAIN_ROOM];
    explain(sentence, question, isis_gr_why(&g, &after, question, call, 1, 1, id, mac));
    printf("%02x%02x.%02x%02x.%02x%02x: %s\n", id[0], id[1], id[2], id[3], id[4], id[5], sentence);
}

/* a hello of 1921.6800.100N with Holding Time 27, which lists us or not; what is asked of it, and then it is received */
static void hello_of(uint8_t n, uint8_t priority, size_t listed, uint8_t flags, uint8_t question) {
    const uint8_t id[6] = {0x19, 0x21, 0x68, 0x00, 0x10, n}, mac[6] = {2, 0, 0, 0, 0, n}, lan_id[7] = {0};
    uint8_t frame[64], reply[ISIS_GR_REPLY_OCTETS], ours[1][6] = {{2, 0, 0, 0, 0, 1}};
    isis_gr_call call = {.call = ISIS_GR_CALL_RECEIVE, .circuit = 1, .source = mac, .frame = frame, .reply = reply, .reply_len = sizeof reply};
    hello h;
    hello_lan(&h, frame, sizeof frame, 1, ISIS_GR_LEVEL_1, id, 27, priority, lan_id);
    hello_neighbours(&h, ours, listed);
    hello_restart(&h, flags, 0, NULL);
    call.frame_len = hello_end(&h);
    print_why(question, &call, id, mac);
    isis_gr_receive(&g, 1, mac, frame, call.frame_len, reply, sizeof reply);
}

int main(void) {
    const uint8_t id[6] = {0x19, 0x21, 0x68, 0x00, 0x10, 2}, mac[6] = {2, 0, 0, 0, 0, 2};
    const isis_gr_call tick = {.call = ISIS_GR_CALL_TICK, .clock = 27};
    if (isis_gr_set_up(&g, &settings).code != ISIS_GR_OK) return 1;
    hello_of(2, 64, 0, 0, ISIS_GR_WHY_NOT_ADVERTISED);         /* it does not list us */
    hello_of(7, 100, 1, HELLO_SA, ISIS_GR_WHY_NOT_ADVERTISED); /* it starts */
    hello_of(2, 64, 1, 0, ISIS_GR_WHY_NOT_ADVERTISED);
    hello_of(2, 64, 1, HELLO_RR, ISIS_GR_WHY_NO_CSNPS); /* it restarts: the other one answers with CSNPs */
    print_why(ISIS_GR_WHY_VANISHED, &tick, id, mac);
    isis_gr_tick(&g, tick.clock);
    return 0;
}
