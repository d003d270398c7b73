/* A small speaker of IS-IS hellos on one interface (AF_PACKET; Linux, root): holds P2P or LAN adjacencies, restarts, starts, plans a restart,
 * and answers those that do. It keeps no LSPs: its CSNPs are empty, and a level's database is complete with its CSNP set, or, where none comes, as soon
 * as no T1 runs. What a daemon of its own would do about SPF, LSPs and forwarding is printed, and why a neighbour that is heard is not advertised or gets
 * no CSNPs. `make live` runs it against FRR and against itself.
 *
 *   daemon NAME INTERFACE p2p|lan SYSTEM_ID IPV4 SECONDS [restart|start] [plan=AT] [reverse=METRIC] [levels=MASK] [priority=N] [chunks=OCTETS]
 *
 * SYSTEM_ID is 12 hexadecimal digits; SECONDS after its start it ends; `restart` and `start` are the modes Restarting and Starting; `plan` sets PR
 * in its hellos from AT seconds on; with `chunks` the library gets hellos in chunks of so many octets. Area 49.0001. */
#define _DEFAULT_SOURCE
#include "isis_gr.h"

#include "explain.h"
#include "hello.h"
#include "raw.h"

#include <poll.h>
#include <stdarg.h>
#include <unistd.h>

enum { CIRCUIT = 1, EACH = 2, HOLD = 10, T1 = 2, T2 = 20, TRIES = 4, PLANNED = 60, KEPT = 16, OWN_CIRCUIT = 5, METRIC = 10 };

typedef struct {
    uint8_t level, id[6], mac[6];
} neighbour;

static isis_gr_gateway g;     /* static: 5,248 octets are much for a small stack */
static isis_gr_frames frames; /* for hellos in chunks */
static isis_gr_settings settings = {
    .t1 = T1, .t2 = T2, .tries = TRIES, .count = 1,
    .circuits = {{.levels = ISIS_GR_LEVEL_BOTH, .priority = 64, .hold = HOLD, .metric = METRIC, .id = OWN_CIRCUIT}}};
static const isis_gr_circuit *const circuit = &settings.circuits[0];
static const char *name, *interface;
static uint8_t mode; /* ISIS_GR_MODE_..: as it was set up, and Running once that ended */
static int fd, carrier = 1, heard;   /* heard: on P2P peer_id and peer_circuit are known */
static uint8_t begun, sets, noticed; /* masks of levels: whose T1 began, whose CSNP set came, whose database was noticed */
static unsigned length_of_life, plan_at, chunk;
static uint32_t start_clock, clock_now, reverse, metric = METRIC, peer_circuit;
static uint8_t ip[4], lan_id[3][7], peer_id[6];
static neighbour neighbours[KEPT]; /* LAN: whom TLV 6 lists; level 0 where there is none */

static void say(const char *text, ...) {
    va_list rest;
    va_start(rest, text);
    printf("%3u %s ", (unsigned)(clock_now - start_clock), name);
    vprintf(text, rest);
    putchar('\n');
    va_end(rest);
}

static int is_lan(void) { return circuit->kind == ISIS_GR_KIND_LAN; }

/* ---- sending */

static void transmit(uint8_t level, const uint8_t *pdu, size_t n) {
    if (n == 0 || !raw_send(fd, raw_groups[is_lan() ? level : 0], circuit->mac, pdu, n)) {
        say("could not send");
    }
}

/* TLV 6: the neighbours of a level that have a record */
static void put_neighbours(hello *h, uint8_t level) {
    uint8_t macs[KEPT][6];
    size_t i, n = 0;
    for (i = 0; i < KEPT; i++) {
        const neighbour *k = &neighbours[i];
        if (k->level == level && isis_gr_look_up(&g, CIRCUIT, level, k->id, k->mac).state != ISIS_GR_RECORD_NONE) {
            memcpy(macs[n++], k->mac, 6);
        }
    }
    hello_neighbours(h, macs, n);
}

/* TLV 240: the record's state; Initializing with RR alone, a restart's (RFC 8706, 3.3.1); Down where the neighbour must reinitialise */
static void put_three_way(hello *h, uint8_t flags, int down) {
    static const uint8_t shown[3] = {HELLO_DOWN, HELLO_INITIALIZING, HELLO_UP};
    uint8_t state = shown[isis_gr_look_up(&g, CIRCUIT, 0, peer_id, NULL).state];
    state = down ? HELLO_DOWN : flags == HELLO_RR ? HELLO_INITIALIZING : state;
    hello_three_way(h, state, circuit->id, heard && state != HELLO_DOWN ? peer_id : NULL, peer_circuit);
}

/* One hello of a level (0 on P2P), with the Restart TLV of a reply, or (reply is NULL) with these flags. */
static void send_hello(uint8_t level, uint8_t flags, const uint8_t *reply, int down) {
    static const uint8_t area[4] = {3, 0x49, 0x00, 0x01}, protocols[1] = {0xCC};
    uint8_t pdu[512];
    hello h;
    if (is_lan()) {
        hello_lan(&h, pdu, sizeof pdu, level, circuit->levels, settings.system_id, HOLD, circuit->priority, lan_id[level]);
        put_neighbours(&h, level);
    } else {
        hello_p2p(&h, pdu, sizeof pdu, circuit->levels, settings.system_id, HOLD);
        put_three_way(&h, flags, down);
    }
    if (reply) {
        hello_put(&h, reply, ISIS_GR_REPLY_OCTETS);
    } else {
        hello_restart(&h, flags, PLANNED, NULL);
    }
    if (reverse) {
        hello_reverse(&h, 0, reverse);
    }
    hello_tlv(&h, 1, area, sizeof area);
    hello_tlv(&h, 129, protocols, sizeof protocols);
    hello_tlv(&h, 132, ip, sizeof ip);
    transmit(level, pdu, hello_end(&h));
}

static int plans(void) { return plan_at && clock_now - start_clock >= plan_at; }

/* Ordinary hellos, on a LAN of each level: they have the flags of a start (RFC 8706, 3.3.2), or PR while we plan (RFC 8706, 3.2.3). There are none while
   T1 of a restart runs (RFC 8706, 3.3.1), on a LAN that of the level (RFC 8706, 3.3.3). */
static void send_ordinary(void) {
    uint8_t level, sent = 0;
    for (level = 1; level <= 2; level++) {
        isis_gr_flags f = isis_gr_next_hello_flags(&g, CIRCUIT, level); /* refused 1 where the level is not enabled */
        if (f.code == ISIS_GR_OK && f.flags != ISIS_GR_FLAG_RR && (is_lan() || !sent)) { /* on P2P one is for both levels */
            send_hello(is_lan() ? level : 0, f.flags == 0 && plans() ? HELLO_PR : f.flags, NULL, 0);
            sent = 1;
        }
    }
}

/* A hello that is ordered, of a level (0 on P2P). */
static void send_ordered(uint8_t level, uint8_t flags) {
    say("order: hello with%s%s, level %u", flags & ISIS_GR_FLAG_RR ? " RR" : "", flags & ISIS_GR_FLAG_SA ? " SA" : "", level);
    begun |= level ? (uint8_t)(1u << (level - 1)) : circuit->levels;
    send_hello(level, flags, NULL, 0);
}

/* Those of a mask. */
static void send_all_ordered(uint16_t hellos, uint8_t flags) {
    uint8_t level;
    for (level = 1; level <= 2; level++) {
        if (isis_gr_hello_ordered(hellos, CIRCUIT, level)) { /* the one of P2P stands at level 1 */
            send_ordered(is_lan() ? level : 0, flags);
        }
    }
}

/* A complete set of CSNPs of a database that holds nothing: one PDU over the whole range of LSP IDs. */
static void send_csnps(uint8_t levels) {
    uint8_t level;
    for (level = 1; level <= 2; level++) {
        uint8_t pdu[33] = {0x83, 33, 1, 0, (uint8_t)(23 + level), 1, 0, 0, 0, 33};
        memcpy(pdu + 10, settings.system_id, 6);
        memset(pdu + 25, 0xFF, 8);
        if (levels & 1u << (level - 1)) {
            say("sends empty CSNPs of level %u", level);
            transmit(level, pdu, sizeof pdu);
        }
    }
}

/* ---- the library's orders */

static void carry_out(isis_gr_timers timers) {
    int restarts = mode == ISIS_GR_MODE_RESTARTING;
    if (timers.spf) {
        say("order: SPF of levels %u (a mask)", timers.spf);
    }
    if (timers.overload & ISIS_GR_OVERLOAD_SET) {
        say("order: overload bit set"); /* while starting, in the zeroth LSP (RFC 8706, 3.4.1.2) */
    }
    if (timers.overload & ISIS_GR_OVERLOAD_CLEAR) {
        say("order: overload bit cleared");
    }
    if (timers.restart == ISIS_GR_RESTART_ENDED) {
        say(restarts ? "restart ended" : "start ended");
        mode = ISIS_GR_MODE_RUNNING;
    }
    if (timers.restart == ISIS_GR_RESTART_ENDED || (restarts && timers.overload & ISIS_GR_OVERLOAD_SET)) {
        send_ordinary(); /* at once: neighbours refresh their holding times (RFC 8706, 3.4.1.1), or advertise us (RFC 8706, 3.4.1.2) */
    }
}

/* What the daemon reads of an accepted hello itself: circuit ID (TLV 240), LAN ID, PA. */
static void learn(const uint8_t *frame, const uint8_t *source, const isis_gr_received *r) {
    uint8_t n = 0, flags = 0;
    const uint8_t *value = hello_find(frame, 211, &n);
    if (value) {
        flags = value[0];
        if (n == 9 && flags == HELLO_PA && memcmp(value + 3, settings.system_id, 6) == 0) {
            say("acknowledged: PA, Remaining Time %u", (unsigned)value[1] << 8 | value[2]);
        }
    }
    value = hello_find(frame, 240, &n);
    if (!is_lan() && value) {
        memcpy(peer_id, r->system_id, 6);
        heard = n >= 5;
        peer_circuit = heard ? (uint32_t)value[1] << 24 | (uint32_t)value[2] << 16 | (uint32_t)value[3] << 8 | value[4] : 0;
    }
    if (is_lan()) {
        neighbour k = {r->level, {0}, {0}};
        size_t i, at = KEPT;
        memcpy(k.id, r->system_id, 6);
        memcpy(k.mac, source, 6);
        for (i = KEPT; i-- > 0;) { /* its place, or one that is free or whose record went */
            const neighbour *old = &neighbours[i];
            if (memcmp(old, &k, sizeof k) == 0) {
                at = i;
                break;
            }
            if (old->level == 0 || isis_gr_look_up(&g, CIRCUIT, old->level, old->id, old->mac).state == ISIS_GR_RECORD_NONE) {
                at = i;
            }
        }
        if (at < KEPT) {
            neighbours[at] = k;
        }
        if (!(flags & HELLO_RR)) { /* RFC 8706, 3.3.1: the LAN ID of a hello with RR is ignored */
            memcpy(lan_id[r->level], frame + 20, 7);
        }
    }
}

/* As a radio hands it over (document 02, W-205), the last chunk empty. Where one is refused, no end comes, and the next begin drops what was joined. */
static isis_gr_received receive_chunks(const uint8_t *source, const uint8_t *frame, size_t n, uint8_t reply[ISIS_GR_REPLY_OCTETS]) {
    isis_gr_received r = {.code = isis_gr_begin_frame(&g, CIRCUIT, source)};
    size_t at, part = chunk;
    for (at = 0; r.code == ISIS_GR_OK && part > 0; at += part) {
        part = n - at < chunk ? n - at : chunk;
        r.code = isis_gr_add_chunk(&g, &frames, CIRCUIT, frame + at, part);
    }
    return r.code == ISIS_GR_OK ? isis_gr_end_frame(&g, &frames, CIRCUIT, reply, ISIS_GR_REPLY_OCTETS) : r;
}

static void hello_came(const uint8_t *source, const uint8_t *frame, size_t n) {
    static const char *const records[3] = {"none", "INIT", "UP"};
    uint8_t reply[ISIS_GR_REPLY_OCTETS], question;
    char why[EXPLAIN_ROOM];
    isis_gr_received r;
    for (question = ISIS_GR_WHY_NOT_ADVERTISED; question <= ISIS_GR_WHY_NO_CSNPS; question++) { /* by a hello nobody vanishes */
        if (explain_hello(why, &g, CIRCUIT, question, source, frame, n)) {
            say("%s", why);
        }
    }
    r = chunk ? receive_chunks(source, frame, n, reply) : isis_gr_receive(&g, CIRCUIT, source, frame, n, reply, sizeof reply);
    if (r.code != ISIS_GR_OK) {
        if (r.position == 0) {
            say("refused %u: %s", (unsigned)r.code, isis_gr_text(r.code));
        } else { /* 5 and 6 say where; behind the PDU there is nothing to show */
            say("refused %u: %s, at octet %u: %u", (unsigned)r.code, isis_gr_text(r.code), (unsigned)r.position,
                r.position <= n ? (unsigned)frame[r.position - 1] : 0u);
        }
        return;
    }
    learn(frame, source, &r); /* before the reply, which shows it (RFC 8706, 3.2.1) */
    if (r.before != r.after) {
        say("record of %02x%02x.%02x%02x.%02x%02x level %u: %s, was %s%s", r.system_id[0], r.system_id[1], r.system_id[2], r.system_id[3],
            r.system_id[4], r.system_id[5], r.level, records[r.after], records[r.before], r.advertised ? ", advertised" : "");
    }
    if (r.reply != ISIS_GR_REPLY_NONE) {
        say("reply %s, Remaining Time %u, level %u", r.reply == ISIS_GR_REPLY_RA ? "RA" : "PA", r.remaining, r.level);
        if (is_lan()) {
            usleep((useconds_t)(10000 + rand() % 30000)); /* "a few tens of milliseconds on LANs" */
        }
        send_hello(r.level, r.reply, reply, 0);
    } else if (r.before != r.after && !r.hello_flags) {
        send_ordinary();
    }
    if (r.hello_flags) {
        send_ordered(r.level, r.hello_flags);
    }
    if (r.csnps) {
        send_csnps(r.csnps);
    }
    if (r.t1_end != ISIS_GR_T1_KEPT) {
        say("T1 stopped: the neighbour sends no Restart TLV");
    }
    if (r.t1_end == ISIS_GR_T1_REINITIALISE) {
        say("order: reinitialise; sends three-way Down");
        send_hello(0, 0, NULL, 1);
    }
    carry_out(r.timers);
    if (metric != isis_gr_link_metric(&g, CIRCUIT).metric) {
        metric = isis_gr_link_metric(&g, CIRCUIT).metric;
        say("link metric %u", (unsigned)metric);
    }
}

/* One CSNP over the whole range is a complete set; sets of several PDUs are not put together here. */
static void csnp_came(uint8_t level, const uint8_t *pdu, size_t n) {
    static const uint8_t lowest[8] = {0}, highest[8] = {255, 255, 255, 255, 255, 255, 255, 255};
    if (mode != ISIS_GR_MODE_RUNNING && n >= 33 && memcmp(pdu + 17, lowest, 8) == 0 && memcmp(pdu + 25, highest, 8) == 0) {
        isis_gr_noticed answer = isis_gr_csnp_complete(&g, CIRCUIT, level);
        sets |= (uint8_t)(1u << (level - 1));
        say("CSNP set of level %u; T1s that run: %u", level, (unsigned)isis_gr_waiting_t1s(&g).count);
        carry_out(answer.timers);
    }
}

static void frame_came(void) {
    uint8_t frame[2048];
    size_t n = raw_receive(fd, frame, sizeof frame);
    const uint8_t *pdu = frame + RAW_HEAD;
    uint8_t type = n > 0 ? pdu[4] & 31 : 0;
    if (type >= 15 && type <= 17) {
        hello_came(frame + 6, pdu, n);
    } else if (type == 24 || type == 25) {
        csnp_came((uint8_t)(type - 23), pdu, n);
    }
}

/* ---- time */

/* The link went down: its records go at once, and not at their expiry. */
static void watch_link(void) {
    if (carrier != raw_carrier(fd, interface)) {
        carrier = !carrier;
        say(carrier ? "link up" : "link down: cleared");
        if (!carrier) {
            isis_gr_clear(&g, CIRCUIT);
        }
    }
}

/* No LSPs are kept here, so that none is wanted. A level waits for no other: on the one interface its own set is all that is to come. Where none comes,
   the T1s are awaited; each level is noticed, with neighbours or without. */
static void notice_databases(void) {
    uint8_t level, ready = begun & sets;
    if (begun && isis_gr_waiting_t1s(&g).count == 0) {
        ready = circuit->levels;
    }
    for (level = 1; level <= 2 && mode != ISIS_GR_MODE_RUNNING; level++) {
        uint8_t here = (uint8_t)(1u << (level - 1));
        if (ready & here && !(noticed & here)) {
            noticed |= here;
            say("database of level %u complete", level);
            carry_out(isis_gr_database_complete(&g, level).timers);
        }
    }
}

static void second(void) {
    isis_gr_ticked t = isis_gr_tick(&g, clock_now);
    watch_link();
    if (t.lost) {
        say("lost a record");
    }
    send_all_ordered(t.hellos, t.hello_flags);
    carry_out(t.timers);
    notice_databases();
    if ((clock_now - start_clock) % EACH == 0) {
        send_ordinary();
    }
}

/* ---- start */

static void read_arguments(int n, char **words) {
    isis_gr_circuit *c = &settings.circuits[0];
    int i;
    if (n < 7 || strlen(words[4]) != 12 || inet_pton(AF_INET, words[5], ip) != 1) {
        fputs("daemon NAME INTERFACE p2p|lan SYSTEM_ID IPV4 SECONDS [restart|start] [plan=AT] [reverse=METRIC] [levels=MASK] [priority=N] [chunks=OCTETS]\n",
              stderr);
        exit(2);
    }
    name = words[1];
    interface = words[2];
    c->kind = strcmp(words[3], "lan") == 0 ? ISIS_GR_KIND_LAN : ISIS_GR_KIND_P2P;
    for (i = 0; i < 6; i++) {
        unsigned octet = 0;
        sscanf(words[4] + 2 * i, "%2x", &octet);
        settings.system_id[i] = (uint8_t)octet;
    }
    length_of_life = (unsigned)atoi(words[6]);
    for (i = 7; i < n; i++) {
        unsigned value = strchr(words[i], '=') ? (unsigned)atoi(strchr(words[i], '=') + 1) : 0;
        mode = strcmp(words[i], "restart") == 0 ? ISIS_GR_MODE_RESTARTING : strcmp(words[i], "start") == 0 ? ISIS_GR_MODE_STARTING : mode;
        plan_at = strncmp(words[i], "plan=", 5) == 0 ? value : plan_at;
        reverse = strncmp(words[i], "reverse=", 8) == 0 ? value : reverse;
        c->levels = strncmp(words[i], "levels=", 7) == 0 ? (uint8_t)value : c->levels;
        c->priority = strncmp(words[i], "priority=", 9) == 0 ? (uint8_t)value : c->priority;
        chunk = strncmp(words[i], "chunks=", 7) == 0 ? value : chunk;
    }
}

int main(int n, char **words) {
    static const char *const begins[3] = {"starts", "restarts", "starts without forwarding tables"};
    isis_gr_started started;
    read_arguments(n, words);
    setvbuf(stdout, NULL, _IOLBF, 0);
    fd = raw_open(interface, settings.circuits[0].mac);
    settings.clock = start_clock = clock_now = raw_clock();
    settings.mode = mode;
    started = isis_gr_set_up(&g, &settings);
    if (started.code != ISIS_GR_OK || isis_gr_gateway_words() != ISIS_GR_GATEWAY_WORDS) {
        fprintf(stderr, "%s: setting %u\n", isis_gr_text(started.code), isis_gr_fault(&settings).setting);
        return 2;
    }
    say(begins[mode]);
    send_all_ordered(started.hellos, started.hello_flags);
    while (clock_now - start_clock < length_of_life) {
        struct pollfd ready = {fd, POLLIN, 0};
        if (poll(&ready, 1, 100) > 0) {
            frame_came();
        }
        if (raw_clock() > clock_now) {
            clock_now = raw_clock();
            second();
        }
    }
    say("stops");
    return 0;
}
