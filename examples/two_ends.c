/* Both ends of a P2P link in one process, with a clock of their own: the adjacency comes up, A restarts (its first hello is lost), B plans a
 * restart, is away for longer than the holding time, and restarts; A loses its forwarding tables, and starts. Prints what happens, line by line.
 * docs/INTEGRATION.md quotes the loop.
 *
 * two_ends.out was derived from docs/RULES.md before the program was run; T1 3 s, T2 60 s, holding time 30 s, hellos each 10 s:
 *   0  "The state step", Running: none and Down give INIT, none and Initializing UP, INIT and Up UP; each change is answered by a hello
 *  25  "Timers while Restarting": set up orders RR and starts T1; 28 is T1's first expiry, so the hello is ordered again
 *  28  line 1: expiry 28 + 30, so RA with Remaining Time 30, and on P2P CSNPs of all levels. At A none and Up give UP in the mode Restarting;
 *      the one T1 of P2P stops with the second of the CSNP sets, and no earlier, since the circuit has both levels
 *  29  no T1 runs: each database notice cancels its level's T2 at once and orders the SPF; with the last the mode ends. T3 stood at 28 + 30
 *  40  line 3: expiry 40 + 120, so PA with 120; at 50 the record is marked Planned, the expiry stays, and PA has 160 - 50
 * 100  line 1 at a Planned record: expiry 100 + the configured 30, so RA with 30; then B does what A did at 28 and 29
 * 110  document 02, W-201: set up orders nothing, and every hello has SA. At B UP and Down give INIT; at A none and Initializing give UP, as in the
 *      mode Running: T1 begins and orders SA, and overload is set. At B INIT and Up give UP, and SA suppresses it
 * 113  T1's first expiry orders RR and SA; line 1 at B, as at 28, and T1 stops as it did then
 * 114  the notices as at 29; the last T2 orders overload clear, and hellos have no SA: B advertises A again
 * 115  line 5: A heard B last at 113; so did B by its own clock, since A's hello of 114 came before B's tick; each expiry is 30 later */
#include "isis_gr.h"

#include "hello.h"

#include <stdarg.h>
#include <stdio.h>
#include <stdlib.h>

enum { CIRCUIT = 1, T1 = 3, T2 = 60, TRIES = 3, HOLD = 30, EACH = 10, PLANNED = 120 };

typedef struct end {
    const char *name;
    isis_gr_gateway g;
    uint8_t id[6], mac[6];
    uint32_t circuit; /* our extended circuit ID */
    struct end *other;
    uint8_t peer[6]; /* the neighbour, as heard */
    uint32_t theirs;
    int heard, running, planning;
    uint8_t mode;       /* ISIS_GR_MODE_..: as it was set up, and Running once that ended */
    uint8_t begun;      /* a T1 began */
    uint8_t advertised; /* the neighbour is in our LSPs */
    uint8_t wanted;     /* levels whose LSPs are still to come */
    uint32_t asked;     /* since when */
} end;

/* what the link carries: a hello, or the CSNPs of some levels */
typedef struct {
    end *to;
    uint8_t octets[128], csnps;
    size_t length;
} message;

static end a = {.name = "A", .id = {0x19, 0x21, 0x68, 0, 0x10, 1}, .mac = {2, 0, 0, 0, 0, 1}, .circuit = 11};
static end b = {.name = "B", .id = {0x19, 0x21, 0x68, 0, 0x10, 2}, .mac = {2, 0, 0, 0, 0, 2}, .circuit = 22};
static message link_queue[16];
static size_t first, last;
static uint32_t now;
static int lossy; /* the link loses the next message */

static void say(const end *e, const char *text, ...) {
    va_list rest;
    va_start(rest, text);
    printf("%3u %s ", (unsigned)now, e->name);
    vprintf(text, rest);
    putchar('\n');
    va_end(rest);
}

static message *message_to(end *to) {
    message *m = &link_queue[last++ % 16];
    memset(m, 0, sizeof *m);
    m->to = to;
    if (lossy) {
        say(to, "does not hear the next: the link loses it");
        m->to = NULL;
        lossy = 0;
    }
    return m;
}

/* The three-way state that our hellos show: that of the record. */
static uint8_t shown_state(const end *e) {
    static const uint8_t shown[3] = {HELLO_DOWN, HELLO_INITIALIZING, HELLO_UP};
    return shown[isis_gr_look_up(&e->g, CIRCUIT, 0, e->peer, NULL).state];
}

/* A hello with a three-way state, and with the Restart TLV of a reply, or (reply is NULL) with these flags. */
static void send_hello(end *e, uint8_t state, uint8_t flags, const uint8_t *reply) {
    static const char *const states[3] = {"Up", "Initializing", "Down"};
    message *m = message_to(e->other);
    hello h;
    hello_p2p(&h, m->octets, sizeof m->octets, ISIS_GR_LEVEL_BOTH, e->id, HOLD);
    hello_three_way(&h, state, e->circuit, e->heard ? e->peer : NULL, e->theirs);
    if (reply) {
        hello_put(&h, reply, ISIS_GR_REPLY_OCTETS);
    } else {
        hello_restart(&h, flags, PLANNED, NULL);
    }
    m->length = hello_end(&h);
    say(e, "sends a hello: %s%s%s%s%s%s", states[state], flags & HELLO_RR ? ", RR" : "", flags & HELLO_RA ? ", RA" : "",
        flags & HELLO_SA ? ", SA" : "", flags & HELLO_PR ? ", PR" : "", flags & HELLO_PA ? ", PA" : "");
}

/* The hello that is ordered, one for both levels on P2P, with the order's flags. RR alone is a restart's: Initializing, whatever the record is (RFC 8706,
   3.3.1). */
static void send_ordered(end *e, uint8_t flags) {
    send_hello(e, flags == ISIS_GR_FLAG_RR ? HELLO_INITIALIZING : shown_state(e), flags, NULL);
}

/* An ordinary hello: it has the flags of a start (RFC 8706, 3.3.2), or PR while we plan a restart (RFC 8706, 3.2.3). There is none while T1 of a
   restart runs (RFC 8706, 3.3.1). */
static void send_ordinary(end *e) {
    uint8_t flags = isis_gr_next_hello_flags(&e->g, CIRCUIT, 1).flags; /* on P2P the same at each level */
    if (flags != ISIS_GR_FLAG_RR) {
        send_hello(e, shown_state(e), flags == 0 && e->planning ? HELLO_PR : flags, NULL);
    }
}

static void send_csnps(end *e, uint8_t levels) {
    say(e, "sends CSNPs of%s%s", levels & ISIS_GR_LEVEL_1 ? " level 1" : "", levels & ISIS_GR_LEVEL_2 ? " level 2" : "");
    message_to(e->other)->csnps = levels;
}

/* What the daemon reads of an accepted hello itself: the neighbour's circuit ID, for TLV 240, and PA. */
static void learn(end *e, const uint8_t *frame, const uint8_t system_id[6]) {
    uint8_t n = 0;
    const uint8_t *value = hello_find(frame, 240, &n);
    if (value && n >= 5) {
        memcpy(e->peer, system_id, 6);
        e->theirs = (uint32_t)value[1] << 24 | (uint32_t)value[2] << 16 | (uint32_t)value[3] << 8 | value[4];
        e->heard = 1;
    }
    value = hello_find(frame, 211, &n);
    if (value && n == 9 && value[0] == HELLO_PA && memcmp(value + 3, e->id, 6) == 0) {
        say(e, "may restart: PA, Remaining Time %u", (unsigned)value[1] << 8 | value[2]);
    }
}

/* The orders that the timers of a restart or start give; they are none in the mode Running. */
static void carry_out(end *e, isis_gr_timers timers) {
    int restarts = e->mode == ISIS_GR_MODE_RESTARTING;
    uint8_t level;
    for (level = 1; level <= 2; level++) {
        if (timers.spf & 1u << (level - 1)) {
            say(e, "runs the SPF of level %u", level);
        }
    }
    if (timers.overload & ISIS_GR_OVERLOAD_SET) {
        say(e, "sets the overload bit, sends its LSPs"); /* while starting the zeroth (RFC 8706, 3.4.1.2) */
    }
    if (timers.overload & ISIS_GR_OVERLOAD_CLEAR) {
        say(e, "clears the overload bit, sends its LSPs");
    }
    if (timers.restart == ISIS_GR_RESTART_ENDED) {
        say(e, restarts ? "has restarted: updates its forwarding tables, sends its LSPs" : "has started: its hellos have no SA any more");
        e->mode = ISIS_GR_MODE_RUNNING;
    }
    if (timers.restart == ISIS_GR_RESTART_ENDED || (restarts && timers.overload & ISIS_GR_OVERLOAD_SET)) {
        send_ordinary(e); /* at once: neighbours refresh their holding times (RFC 8706, 3.4.1.1), or advertise us (RFC 8706, 3.4.1.2) */
    }
}

/* A hello came. What it tells goes into TLV 240 before the reply is sent, and the reply goes before the CSNPs (RFC 8706, 3.2.1). */
static void hello_came(end *e, const uint8_t *source, const uint8_t *frame, size_t length) {
    static const char *const records[3] = {"none", "INIT", "UP"};
    uint8_t reply[ISIS_GR_REPLY_OCTETS];
    isis_gr_received r = isis_gr_receive(&e->g, CIRCUIT, source, frame, length, reply, sizeof reply);
    if (r.code != ISIS_GR_OK) {
        say(e, "refuses a hello: %u, %s, octet %u", (unsigned)r.code, isis_gr_text(r.code), (unsigned)r.position); /* 0 but of 5 and 6 */
        return;
    }
    learn(e, frame, r.system_id);
    if (r.before != r.after || r.advertised != e->advertised) {
        say(e, "has a record: %s, was %s%s", records[r.after], records[r.before], r.advertised ? "; advertises it" : "");
        e->advertised = r.advertised;
    }
    if (r.reply != ISIS_GR_REPLY_NONE) {
        say(e, "replies %s, Remaining Time %u", r.reply == ISIS_GR_REPLY_RA ? "RA" : "PA", r.remaining);
        send_hello(e, shown_state(e), r.reply, reply);
    } else if (r.before != r.after && !r.hello_flags) {
        send_ordinary(e);
    }
    if (r.hello_flags) {
        e->begun = 1;
        send_ordered(e, r.hello_flags);
    }
    if (r.csnps) {
        send_csnps(e, r.csnps); /* and sets the SRM flags */
    }
    if (r.t1_end == ISIS_GR_T1_REINITIALISE) {
        send_hello(e, HELLO_DOWN, 0, NULL); /* not in this run: both ends send TLV 211 */
    }
    carry_out(e, r.timers);
}

/* The CSNPs of some levels came, each a complete set. */
static void csnps_came(end *e, uint8_t levels) {
    uint8_t level;
    for (level = 1; level <= 2 && e->mode != ISIS_GR_MODE_RUNNING; level++) {
        if (levels & 1u << (level - 1)) {
            isis_gr_noticed n = isis_gr_csnp_complete(&e->g, CIRCUIT, level);
            say(e, "has the CSNPs of level %u; T1s that run: %u", level, (unsigned)isis_gr_waiting_t1s(&e->g).count);
            e->wanted |= (uint8_t)(1u << (level - 1));
            e->asked = now;
            carry_out(e, n.timers);
        }
    }
}

/* No LSP that the CSNPs named is wanted any more, and no T1 runs any more: in a start none does before the first neighbour. */
static int is_complete(const end *e) {
    return e->mode != ISIS_GR_MODE_RUNNING && e->begun && !e->wanted && isis_gr_waiting_t1s(&e->g).count == 0;
}

/* Only then, since a notice cannot be taken back. Each level, with a neighbour or without. */
static void databases_complete(end *e) {
    uint8_t level;
    for (level = 1; level <= 2 && e->mode != ISIS_GR_MODE_RUNNING; level++) {
        isis_gr_noticed n = isis_gr_database_complete(&e->g, level);
        say(e, "has the database of level %u", level);
        carry_out(e, n.timers);
    }
}

/* Once a second: first the tick, and what it orders. */
static void second(end *e) {
    isis_gr_ticked t = isis_gr_tick(&e->g, now);
    if (t.code != ISIS_GR_OK) {
        say(e, "has a clock that goes back");
    }
    if (t.lost) {
        say(e, "lost its neighbour");
        e->advertised = 0;
    }
    if (isis_gr_hello_ordered(t.hellos, CIRCUIT, 1)) { /* the one hello of P2P */
        send_ordered(e, t.hello_flags);                /* whatever next_hello_flags says by now */
    }
    carry_out(e, t.timers);
    if (now > e->asked) {
        e->wanted = 0; /* in this example the LSPs come within a second */
    }
    if (is_complete(e)) {
        databases_complete(e);
    }
    if (now % EACH == 0) {
        send_ordinary(e);
    }
}

static void start(end *e, end *other, uint8_t mode) {
    static const char *const begins[3] = {"starts", "restarts", "starts without forwarding tables"};
    isis_gr_settings s;
    isis_gr_started started;
    memset(&s, 0, sizeof s);
    memcpy(s.system_id, e->id, 6);
    s.t1 = T1;
    s.t2 = T2;
    s.tries = TRIES;
    s.clock = now;
    s.mode = mode;
    s.count = 1;
    s.circuits[0].kind = ISIS_GR_KIND_P2P;
    s.circuits[0].levels = ISIS_GR_LEVEL_BOTH;
    memcpy(s.circuits[0].mac, e->mac, 6);
    s.circuits[0].hold = HOLD;
    s.circuits[0].metric = 10;
    s.circuits[0].id = e->circuit;
    started = isis_gr_set_up(&e->g, &s);
    if (started.code != ISIS_GR_OK) {
        fprintf(stderr, "%s\n", isis_gr_text(started.code));
        exit(1);
    }
    e->other = other;
    e->running = 1;
    e->mode = mode;
    e->heard = e->planning = 0;
    e->begun = e->advertised = e->wanted = 0;
    memset(e->peer, 0, 6);
    say(e, begins[mode]);
    if (isis_gr_hello_ordered(started.hellos, CIRCUIT, 1)) {
        e->begun = 1;
        send_ordered(e, started.hello_flags);
    }
}

static void deliver(void) {
    while (first != last) {
        message m = link_queue[first++ % 16];
        if (m.to && m.to->running) {
            if (m.csnps) {
                csnps_came(m.to, m.csnps);
            } else {
                hello_came(m.to, m.to->other->mac, m.octets, m.length);
            }
        }
    }
}

int main(void) {
    start(&a, &b, ISIS_GR_MODE_RUNNING);
    start(&b, &a, ISIS_GR_MODE_RUNNING);
    for (now = 0; now <= 114; now++) {
        if (now == 25) {
            lossy = 1;
            start(&a, &b, ISIS_GR_MODE_RESTARTING);
        } else if (now == 40) {
            b.planning = 1;
            say(&b, "plans a restart");
        } else if (now == 55) {
            b.running = 0;
            say(&b, "is away");
        } else if (now == 100) {
            start(&b, &a, ISIS_GR_MODE_RESTARTING);
        } else if (now == 110) {
            start(&a, &b, ISIS_GR_MODE_STARTING);
        }
        deliver();
        if (a.running) {
            second(&a);
        }
        deliver();
        if (b.running) {
            second(&b);
        }
        deliver();
    }
    say(&a, "keeps its neighbour until %u", (unsigned)isis_gr_look_up(&a.g, CIRCUIT, 0, a.peer, NULL).expiry);
    say(&b, "keeps its neighbour until %u", (unsigned)isis_gr_look_up(&b.g, CIRCUIT, 0, b.peer, NULL).expiry);
    return 0;
}
