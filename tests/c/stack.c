/* Paints a stack and lets every call run on it, in every mode, with full rooms and frames of 1,492 octets of each kind, whole and in chunks: how deep it
   went, as the archive has it and through the header, which adds what this compiler makes of it. Fails where a call went deeper than its limit, or never was
   done. */
#define _XOPEN_SOURCE 700
#include "isis_gr.h"

#include "expect.h"
#include "long_frames.h"

#include <ucontext.h>

enum { STACK = 1 << 14, PAINT = 0xA5, HEADER_LIMIT = 1024, ROUTERS = 17 };

static unsigned char stack[STACK];
static ucontext_t caller, callee;
static unsigned char *at_call;

/* ---- what the calls take */

static isis_gr_gateway g, after;
static isis_gr_frames frames;
static isis_gr_settings settings;
static uint8_t packed[ISIS_GR_SETTINGS_OCTETS], reply[ISIS_GR_REPLY_OCTETS];
static size_t reply_length, chunk_length;
static uint8_t circuit, level, question;
static uint32_t now;
static uint64_t found[2];
static isis_gr_call call; /* made of these, for why */

/* ---- the calls: each once on the archive's function, once on the header's */

static volatile uint32_t code;

#define CALL(name, raw, through)                                               \
    static void raw_##name(void) {                                             \
        at_call = __builtin_frame_address(0);                                  \
        code = (uint32_t)((raw) & 255u);                                       \
    }                                                                          \
    static void c_##name(void) {                                               \
        at_call = __builtin_frame_address(0);                                  \
        code = (through);                                                      \
    }

CALL(gateway_words, isis_gr_raw_gateway_words() - ISIS_GR_GATEWAY_WORDS, isis_gr_gateway_words() - ISIS_GR_GATEWAY_WORDS)
CALL(frame_octets, isis_gr_raw_frame_octets() - ISIS_GR_FRAME_OCTETS, isis_gr_frame_octets() - ISIS_GR_FRAME_OCTETS)
CALL(set_up, isis_gr_raw_set_up(ISIS_GR_LAYOUT, g.words, packed), isis_gr_set_up(&g, &settings).code)
CALL(fault, isis_gr_raw_fault(ISIS_GR_LAYOUT, packed), isis_gr_fault(&settings).setting)
CALL(receive, isis_gr_raw_receive(g.words, circuit, source, frame, length, reply, reply_length).answer,
     isis_gr_receive(&g, circuit, source, frame, length, reply, reply_length).code)
CALL(begin_frame, isis_gr_raw_begin_frame(g.words, circuit, source), isis_gr_begin_frame(&g, circuit, source))
CALL(add_chunk, isis_gr_raw_add_chunk(g.words, frames.octets, circuit, frame, chunk_length), isis_gr_add_chunk(&g, &frames, circuit, frame, chunk_length))
CALL(end_frame, isis_gr_raw_end_frame(g.words, frames.octets, circuit, reply, reply_length).answer,
     isis_gr_end_frame(&g, &frames, circuit, reply, reply_length).code)
CALL(tick, isis_gr_raw_tick(g.words, now), isis_gr_tick(&g, now).code)
CALL(release, isis_gr_raw_release(g.words, circuit), isis_gr_release(&g, circuit))
CALL(clear, isis_gr_raw_clear(g.words, circuit), isis_gr_clear(&g, circuit))
CALL(csnp_complete, isis_gr_raw_csnp_complete(g.words, circuit, level), isis_gr_csnp_complete(&g, circuit, level).code)
CALL(database_complete, isis_gr_raw_database_complete(g.words, level), isis_gr_database_complete(&g, level).code)
CALL(look_up, isis_gr_raw_look_up(g.words, circuit, level, frame + 9, source, found), isis_gr_look_up(&g, circuit, level, frame + 9, source).code)
CALL(link_metric, isis_gr_raw_link_metric(g.words, circuit), isis_gr_link_metric(&g, circuit).code)
CALL(next_hello_flags, isis_gr_raw_next_hello_flags(g.words, circuit, level), isis_gr_next_hello_flags(&g, circuit, level).code)
CALL(waiting_t1s, isis_gr_raw_waiting_t1s(g.words), isis_gr_waiting_t1s(&g).count & 0u)
CALL(why, /* done where question and call are known: 10 divided by 10 is 1 */
     isis_gr_raw_why(g.words, after.words, question, call.call, circuit, level, now, source, frame, length, reply, reply_length, circuit, level, frame + 9,
                     source).answer % 256 / ISIS_GR_REASON_UNKNOWN,
     isis_gr_why(&g, &after, question, &call, circuit, level, frame + 9, source).reason / ISIS_GR_REASON_UNKNOWN)

/* a call and its limit */
#define ROW(name, limit) {#name, limit, raw_##name, c_##name, 0, 0, 0, 0}
enum { WORDS, OCTETS, SET_UP, FAULT, RECEIVE, BEGIN, CHUNK, END, TICK, RELEASE, CLEAR, CSNP, DATABASE, LOOK_UP, METRIC, FLAGS, WAITING, WHY, CALLS };

static struct {
    const char *name;
    size_t limit;
    void (*raw)(void), (*through)(void);
    size_t most, most_through;
    unsigned inputs, done;
} calls[CALLS] = {
    ROW(gateway_words, 16), ROW(frame_octets, 16), ROW(set_up, 64), ROW(fault, 32), ROW(receive, 352), ROW(begin_frame, 16), ROW(add_chunk, 64),
    ROW(end_frame, 336), ROW(tick, 144), ROW(release, 64), ROW(clear, 16), ROW(csnp_complete, 96), ROW(database_complete, 96), ROW(look_up, 64),
    ROW(link_metric, 16), ROW(next_hello_flags, 16), ROW(waiting_t1s, 16), ROW(why, 800),
};

static size_t depth(void (*what)(void)) {
    size_t i;
    memset(stack, PAINT, sizeof stack);
    getcontext(&callee);
    callee.uc_stack.ss_sp = stack;
    callee.uc_stack.ss_size = sizeof stack;
    callee.uc_link = &caller;
    makecontext(&callee, what, 0);
    swapcontext(&caller, &callee);
    for (i = 0; i < sizeof stack && stack[i] == PAINT; i++) {
    }
    return (size_t)(at_call - (stack + i));
}

/* Both functions from the same memory, which is then as the second left it. The answer is the call's code. */
static uint32_t paint(int which) {
    static isis_gr_gateway before;
    size_t used;
    uint32_t first;
    before = g;
    used = depth(calls[which].raw);
    first = code;
    calls[which].most = used > calls[which].most ? used : calls[which].most;
    g = before;
    used = depth(calls[which].through);
    calls[which].most_through = used > calls[which].most_through ? used : calls[which].most_through;
    EXPECT(code == first);
    calls[which].inputs++;
    calls[which].done += code == ISIS_GR_OK;
    return code;
}

/* A question about a call, made of what the calls take. */
static void ask_why(uint8_t what, uint8_t which) {
    call = (isis_gr_call){which, circuit, level, now, source, frame, length, reply, reply_length};
    question = what;
    paint(WHY);
}

/* ---- frames */

/* The end of the frame in chunks, and the frame whole, from the same memory, which is then as the second left it. The answer is the code of both. */
static uint32_t both(void) {
    static isis_gr_gateway first;
    uint32_t ended;
    first = g;
    isis_gr_begin_frame(&g, circuit, source);
    isis_gr_add_chunk(&g, &frames, circuit, frame, length);
    ended = paint(END);
    g = first;
    EXPECT(paint(RECEIVE) == ended);
    return ended;
}

static void received(void) {
    seal();
    reply_length = sizeof reply;
    ask_why(ISIS_GR_WHY_NO_CSNPS, ISIS_GR_CALL_RECEIVE);
    both();
}

/* Chunks and ends where no frame is begun; begins; chunks of no octet, of 300, 600 and, too long by then, more. */
static void hand_over(void) {
    for (circuit = 0; circuit <= ISIS_GR_MAX_CIRCUITS + 1; circuit++) {
        chunk_length = 0;
        paint(CHUNK);
        paint(END);
        paint(BEGIN);
        for (; chunk_length <= sizeof frame; chunk_length += 300) {
            paint(CHUNK);
        }
        paint(END);
        paint(BEGIN);
    }
    paint(OCTETS);
}

/* Every shape of a frame with these flags, from a router: short and of 1,492 octets, what is read first and what is read last. */
static void frames_p2p(uint8_t router, unsigned flags) {
    uint8_t state;
    for (state = 0; state < 3; state++) {
        uint8_t whole[15] = {0, 0, 0, 0, 5, 0, 0, 0, 0, 0, 1, 0, 0, 0, 7};
        whole[0] = state;
        header(17, router);
        tlv(240, 1, whole);
        restart(flags);
        received();
        header(17, router);
        tlv(240, sizeof whole, whole);
        restart(flags);
        reverse_metric();
        fill(8, 1);
        received();
        header(17, router);
        empty_up_to(17 + 11 + 7);
        tlv(240, sizeof whole, whole);
        restart(flags);
        reverse_metric();
        received();
    }
}

static void frames_lan(uint8_t type, uint8_t router, unsigned flags) {
    const uint8_t ours[6] = {0, 0, 0, 0, 0, 9};
    header(type, router);
    restart(flags);
    received();
    header(type, router);
    restart(flags);
    reverse_metric();
    tlv(6, 6, ours);
    fill(6, 6);
    received();
    header(type, router);
    fill(6, 6);
    received();
    header(type, router);
    empty_up_to(8 + 8 + 11 + 7);
    tlv(6, 6, source);
    tlv(6, 6, ours);
    restart(flags);
    reverse_metric();
    received();
}

/* ---- a gateway in a mode: eight circuits, P2P and LAN in turns, with full rooms */

static void start(uint8_t mode) {
    uint8_t i;
    memset(&settings, 0, sizeof settings);
    settings.system_id[5] = 1;
    settings.t1 = 3;
    settings.t2 = 60;
    settings.tries = 4;
    settings.clock = now;
    settings.mode = mode;
    settings.count = ISIS_GR_MAX_CIRCUITS;
    for (i = 0; i < ISIS_GR_MAX_CIRCUITS; i++) {
        isis_gr_circuit *c = settings.circuits + i;
        c->kind = i % 2 == 0 ? ISIS_GR_KIND_P2P : ISIS_GR_KIND_LAN;
        c->levels = ISIS_GR_LEVEL_BOTH;
        c->hold = 30;
        c->priority = 64;
        c->mac[5] = 9;
        c->id = 7;
    }
    isis_gr_put_settings(packed, &settings);
    EXPECT(paint(FAULT) == ISIS_GR_SETTING_NONE);
    EXPECT(paint(SET_UP) == ISIS_GR_OK);
}

static void fill_rooms(void) {
    static const unsigned flags[] = {256, 0, 1, 2, 3, 4, 5, 8, 9, 16};
    uint8_t i;
    size_t f;
    for (circuit = 1; circuit <= ISIS_GR_MAX_CIRCUITS; circuit++) {
        for (i = 2; i < 2 + ROUTERS; i++) {
            for (f = 0; f < sizeof flags / sizeof *flags; f++) {
                if (circuit % 2 == 1) {
                    frames_p2p(i, flags[f]);
                } else {
                    frames_lan(15, i, flags[f]);
                    frames_lan(16, i, flags[f]);
                }
            }
        }
    }
}

/* Refusals 1 to 8 of a frame, and 12 of settings. */
static void refused(void) {
    const uint8_t request[3] = {1, 0, 0}, another[15] = {0, 0, 0, 0, 5, 0, 0, 0, 0, 0, 3, 0, 0, 0, 7};
    circuit = 1;
    header(17, 2);
    tlv(240, sizeof another, another);
    seal();
    reply_length = sizeof reply;
    EXPECT(both() == 8);
    frame[14] = 1;
    EXPECT(both() == 7);
    tlv(211, 0, request);
    seal();
    EXPECT(both() == 6);
    frame[length - 1] = 1;
    EXPECT(both() == 5);
    frame[18]++;
    EXPECT(both() == 4);
    frame[4] = 15;
    EXPECT(both() == 3);
    reply_length--;
    EXPECT(both() == 2);
    circuit = ISIS_GR_MAX_CIRCUITS + 1;
    EXPECT(both() == 1);
    settings.circuits[ISIS_GR_MAX_CIRCUITS - 1].priority = 128;
    isis_gr_put_settings(packed, &settings);
    EXPECT(paint(FAULT) == ISIS_GR_SETTING_PRIORITY);
    EXPECT(paint(SET_UP) == 12);
}

/* What is asked of each circuit: of the last record in a room and of one that does not stand; why, every question about every call, and one more of each. */
static void ask(void) {
    for (circuit = 0; circuit <= ISIS_GR_MAX_CIRCUITS + 1; circuit++) {
        uint8_t router, what, which;
        paint(METRIC);
        for (level = 0; level < 4; level++) {
            paint(FLAGS);
            for (router = 2; router < 3 + ROUTERS; router++) {
                header(15, router);
                paint(LOOK_UP);
            }
            for (what = 0; what <= ISIS_GR_WHY_NO_CSNPS + 1; what++) {
                for (which = 0; which <= ISIS_GR_CALL_WAITING_T1S + 1; which++) {
                    ask_why(what, which);
                }
            }
        }
    }
    paint(WAITING);
    paint(WORDS);
}

/* Ticks of a second until the clock is `seconds` on. */
static void pass(uint32_t seconds) {
    uint32_t end = now + seconds;
    while (now < end) {
        now++;
        EXPECT(paint(TICK) == ISIS_GR_OK);
    }
}

static void notice_sets(void) {
    for (circuit = 0; circuit <= ISIS_GR_MAX_CIRCUITS + 1; circuit++) {
        for (level = 0; level < 4; level++) {
            paint(CSNP);
        }
    }
}

static void notice_databases(void) {
    for (level = 0; level < 4; level++) {
        paint(DATABASE);
    }
}

static void run(uint8_t mode) {
    /* T1s at their deadlines, T2s and the end of the mode, records that go at once and by one */
    start(mode);
    fill_rooms();
    ask();
    hand_over();
    pass(70);
    now--;
    EXPECT(paint(TICK) == 10);
    now++;
    /* the notices end it */
    start(mode);
    fill_rooms();
    notice_sets();
    notice_databases();
    for (circuit = 0; circuit <= ISIS_GR_MAX_CIRCUITS + 1; circuit++) {
        paint(RELEASE);
        paint(CLEAR);
    }
    /* the notices come first, once a LAN has a record UP and its T1 runs: frames stop T1s, and end it */
    start(mode);
    notice_sets();
    circuit = ISIS_GR_MAX_CIRCUITS;
    frames_lan(15, 2, 0);
    notice_databases();
    fill_rooms();
    /* T3, with all 128 records gone at once */
    start(mode);
    fill_rooms();
    now += 70000;
    EXPECT(paint(TICK) == ISIS_GR_OK);
    refused();
}

int main(void) {
    int i, failed = 0;
    run(ISIS_GR_MODE_RUNNING);
    run(ISIS_GR_MODE_RESTARTING);
    run(ISIS_GR_MODE_STARTING);
    for (i = 0; i < CALLS; i++) {
        int bad = calls[i].most > calls[i].limit || calls[i].most_through >= HEADER_LIMIT || calls[i].done == 0;
        printf("%4zu octets of stack (limit %zu), %4zu through the header: %s, %u inputs, %u of them done%s\n", calls[i].most, calls[i].limit,
               calls[i].most_through, calls[i].name, calls[i].inputs, calls[i].done, bad ? ": TOO DEEP OR NEVER DONE" : "");
        failed |= bad;
    }
    return failed;
}
