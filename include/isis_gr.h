/* isis_gr: restart signaling (RFC 8706) and reverse metric (RFC 8500) for an IS-IS router, proved correct. Link with libisis_gr.a; a program whose frames
 * come in chunks links libisis_gr_chunks.a too, one that asks isis_gr_why libisis_gr_why.a, and no other needs them.
 *
 * The library does no I/O, allocates nothing, and has no global and no clock of its own: hello frames and clock ticks go in; records, Restart
 * TLVs, orders (actions that the caller must take) and link metrics come out. Documents 01 and 02 number the refusals; RFC sections are named at
 * each order.
 *
 * What the proofs assume of a caller:
 * - every pointer is valid for the length beside it, or for the size that its type says; NULL only with length 0;
 * - buffers of one call do not overlap, and nobody writes them during the call (a driver copies a DMA buffer first);
 * - nobody but these functions writes a gateway's words. Any content of them is a gateway all the same: memory that was never set up holds no
 *   circuit, so a call that names one is refused 1, a tick has nothing to do and is done, and nothing waits; no call but set up changes it;
 * - where frames come in chunks, all chunks of a frame and its end are given the same memory for frames, and nobody else writes the frame's octets there
 *   until its end.
 * Separate gateways may be used by separate threads at one time; one gateway by one at a time.
 *
 * A refusal leaves the gateway and the reply buffer as they were, and the other fields of its answer 0, but for the position of 5 and 6; an end that is refused 2 to 9 drops its
 * unfinished frame, and leaves all else so. Circuits are numbered from 1 to 8. A mask over circuits has bit 0 for circuit 1; a mask of levels has bit 0
 * for level 1 (ISIS_GR_LEVEL_..). A mask of hellos has two bits for each circuit, 0 and 1 for circuit 1: on a LAN the hello of level 1 and that of
 * level 2, on P2P the one hello and no other (RFC 8706, 3.3.3; isis_gr_hello_ordered reads it). An argument `level` is the level's number, 1 or 2, and
 * no mask. Times are seconds.
 *
 * T1, its tries and its acknowledgement are one for each enabled level of a LAN, and one for all levels of a P2P circuit.
 */
#ifndef ISIS_GR_H
#define ISIS_GR_H

#include <stddef.h>
#include <stdint.h>
#include <string.h>

#ifdef __cplusplus
extern "C" {
#endif

#define ISIS_GR_VERSION_MAJOR 0
#define ISIS_GR_VERSION_MINOR 13

/* The layout of settings, answers and a gateway's memory between this header and the archive; it rises whenever one of them changes. The code below is
   compiled into the caller, so set up hands it on: an archive of another layout refuses 12 (isis_gr_fault: ISIS_GR_SETTING_VERSION). */
#define ISIS_GR_LAYOUT 10u

#define ISIS_GR_GATEWAY_WORDS 656 /* equal to isis_gr_gateway_words(): compare the two at start-up */
#define ISIS_GR_FRAME_OCTETS 12000 /* equal to isis_gr_frame_octets(): likewise */
#define ISIS_GR_MOST_OCTETS 1500 /* the most that a circuit's unfinished frame has */
#define ISIS_GR_SETTINGS_OCTETS 169
#define ISIS_GR_MAX_CIRCUITS 8
#define ISIS_GR_REPLY_OCTETS 11 /* the least reply buffer, and the octets of a reply */

/* ---- codes: 0, or the number of a refusal in document 01, 13 and 14 in document 02; no other code exists */

#define ISIS_GR_OK 0u
#define ISIS_GR_REFUSED_NO_CIRCUIT 1u      /* no circuit of that number, or a level not enabled there */
#define ISIS_GR_REFUSED_REPLY_ROOM 2u      /* reply buffer under 11 octets */
#define ISIS_GR_REFUSED_NOT_HELLO 3u       /* not a hello that fits the circuit */
#define ISIS_GR_REFUSED_BAD_LENGTH 4u      /* header length or PDU Length */
#define ISIS_GR_REFUSED_TLV_PAST_END 5u    /* a TLV passes the PDU Length; with a position */
#define ISIS_GR_REFUSED_BAD_TLV 6u         /* a rule of a TLV broken, or the circuit type is 0; with a position */
#define ISIS_GR_REFUSED_WRONG_SOURCE 7u    /* level not enabled, or our own System ID */
#define ISIS_GR_REFUSED_WRONG_NEIGHBOR 8u  /* P2P: the three-way TLV names another */
#define ISIS_GR_REFUSED_NO_ROOM 9u         /* the circuit's room is full */
#define ISIS_GR_REFUSED_CLOCK_BACK 10u     /* clock lower than the held clock */
#define ISIS_GR_REFUSED_NOT_RESTARTING 11u /* a notice outside the modes Restarting and Starting */
#define ISIS_GR_REFUSED_BAD_SETTING 12u    /* a setting out of range */
#define ISIS_GR_REFUSED_NOT_BEGUN 13u      /* a chunk or an end where no frame is begun */
#define ISIS_GR_REFUSED_TOO_LONG 14u       /* a chunk with which more than 1,500 octets would be joined */

/* ---- numbers */

enum { ISIS_GR_MODE_RUNNING = 0, ISIS_GR_MODE_RESTARTING = 1, ISIS_GR_MODE_STARTING = 2 };
enum { ISIS_GR_KIND_LAN = 0, ISIS_GR_KIND_P2P = 1 };
enum { ISIS_GR_LEVEL_1 = 1, ISIS_GR_LEVEL_2 = 2, ISIS_GR_LEVEL_BOTH = 3 }; /* masks of levels */
enum { ISIS_GR_REPLY_NONE = 0, ISIS_GR_REPLY_RA = 2, ISIS_GR_REPLY_PA = 16 };
enum { ISIS_GR_T1_KEPT = 0, ISIS_GR_T1_STOPPED = 1, ISIS_GR_T1_REINITIALISE = 2 };
enum { ISIS_GR_RESTART_NONE = 0, ISIS_GR_RESTART_GOES_ON = 1, ISIS_GR_RESTART_ENDED = 2 };
enum { ISIS_GR_OVERLOAD_KEEP = 0, ISIS_GR_OVERLOAD_SET = 1, ISIS_GR_OVERLOAD_CLEAR = 2, ISIS_GR_OVERLOAD_BOTH = 3 };
enum { ISIS_GR_RECORD_NONE = 0, ISIS_GR_RECORD_INIT = 1, ISIS_GR_RECORD_UP = 2 };
enum { ISIS_GR_MARK_CLEAR = 0, ISIS_GR_MARK_RESTART = 1, ISIS_GR_MARK_PLANNED = 2 };
enum { ISIS_GR_FLAG_RR = 1, ISIS_GR_FLAG_SA = 4 }; /* of the Restart TLV in our hellos */
enum {
    ISIS_GR_SETTING_NONE = 0,
    ISIS_GR_SETTING_VERSION = 1,
    ISIS_GR_SETTING_T1 = 2,
    ISIS_GR_SETTING_T2 = 3,
    ISIS_GR_SETTING_TRIES = 4,
    ISIS_GR_SETTING_MODE = 5,
    ISIS_GR_SETTING_COUNT = 6,
    ISIS_GR_SETTING_KIND = 7,
    ISIS_GR_SETTING_LEVELS = 8,
    ISIS_GR_SETTING_PRIORITY = 9,
    ISIS_GR_SETTING_HOLD = 10,
    ISIS_GR_SETTING_METRIC = 11
};
enum { ISIS_GR_WHY_NOT_ADVERTISED = 0, ISIS_GR_WHY_VANISHED = 1, ISIS_GR_WHY_NO_CSNPS = 2 }; /* the questions of isis_gr_why */
enum {
    ISIS_GR_CALL_RECEIVE = 0,
    ISIS_GR_CALL_TICK = 1,
    ISIS_GR_CALL_RELEASE = 2,
    ISIS_GR_CALL_CLEAR = 3,
    ISIS_GR_CALL_CSNP_COMPLETE = 4,
    ISIS_GR_CALL_DATABASE_COMPLETE = 5,
    ISIS_GR_CALL_LOOK_UP = 6,
    ISIS_GR_CALL_LINK_METRIC = 7,
    ISIS_GR_CALL_NEXT_HELLO_FLAGS = 8,
    ISIS_GR_CALL_WAITING_T1S = 9
};
enum {
    ISIS_GR_REASON_NOT_SO = 0,     /* the record is advertised after the call; it did not go in the call; CSNPs were ordered, or the call is no receive */
    ISIS_GR_REASON_INIT = 1,       /* not advertised: the record is INIT after the call */
    ISIS_GR_REASON_SUPPRESSED = 2, /* not advertised: it is UP and Suppressed (RFC 8706, 3.2.2) */
    ISIS_GR_REASON_NO_RECORD = 3,  /* not advertised: there is none */
    ISIS_GR_REASON_REFUSED = 4,    /* not advertised: there is none, and the call is a receive that was refused on that circuit, whatever the frame's
                                      key; no CSNPs: the frame was refused */
    ISIS_GR_REASON_EXPIRED = 5,    /* vanished: by a tick */
    ISIS_GR_REASON_RELEASED = 6,   /* vanished: by release */
    ISIS_GR_REASON_CLEARED = 7,    /* vanished: by clear */
    ISIS_GR_REASON_LINE = 8,       /* no CSNPs: the first line that fits the frame is one of 2 to 5 (document 01, "Marks and holding time") */
    ISIS_GR_REASON_OUTRANKED = 9,  /* no CSNPs: on a LAN another router has the duty (RFC 8706, 3.2.1) */
    ISIS_GR_REASON_UNKNOWN = 10    /* no question or no call has that number: nothing was asked */
};

/* ---- memory and settings */

/* Memory of a gateway: the caller owns it, and reads and writes it by these functions only. */
typedef struct {
    uint64_t words[ISIS_GR_GATEWAY_WORDS];
} isis_gr_gateway;

/* Memory for the octets of one gateway's unfinished frames (document 02, W-205). The caller owns it, it may hold anything at first, and only
   isis_gr_add_chunk writes it; a daemon whose frames come whole needs none. The joined octets of circuit n stand from ISIS_GR_MOST_OCTETS * (n - 1) on, and
   still after the end until the next chunk on that circuit, so that a daemon can read there what it reads of an accepted hello itself. */
typedef struct {
    uint8_t octets[ISIS_GR_FRAME_OCTETS];
} isis_gr_frames;

typedef struct {
    uint8_t kind;     /* ISIS_GR_KIND_.. */
    uint8_t levels;   /* mask of enabled levels, 1 to 3 */
    uint8_t mac[6];   /* our own MAC there */
    uint8_t priority; /* 0 to 127 */
    uint16_t hold;    /* configured holding time, 1 to 65,535 s */
    uint32_t metric;  /* configured wide metric, 0 to 16,777,214 */
    uint32_t id;      /* P2P: our own extended circuit ID */
} isis_gr_circuit;

typedef struct {
    uint8_t system_id[6];
    uint16_t t1;    /* 1 to 65,535 s */
    uint16_t t2;    /* 1 to 65,535 s */
    uint8_t tries;  /* T1 tries, 1 to 255 */
    uint32_t clock; /* seconds */
    uint8_t mode;   /* ISIS_GR_MODE_..: restarting, forwarding went on (RFC 8706, 3.3.1); starting, it did not (RFC 8706, 3.3.2) */
    uint8_t count;  /* how many of the circuits there are, 1 to 8 */
    isis_gr_circuit circuits[ISIS_GR_MAX_CIRCUITS];
} isis_gr_settings;

/* ---- a call that isis_gr_why is asked about */

/* Its number and its arguments. Fields that are not the call's are not looked at. */
typedef struct {
    uint8_t call;          /* ISIS_GR_CALL_.. */
    uint8_t circuit;       /* of every call but tick, database_complete and waiting_t1s */
    uint8_t level;         /* of csnp_complete, database_complete and next_hello_flags */
    uint32_t clock;        /* of tick */
    const uint8_t *source; /* of receive, as all below: six octets */
    const uint8_t *frame;
    size_t frame_len;
    uint8_t *reply; /* written as receive writes it */
    size_t reply_len;
} isis_gr_call;

/* ---- answers */

/* How the timers of a router that restarts or starts ended, and what they order. */
typedef struct {
    uint8_t restart;  /* ISIS_GR_RESTART_..: none, the mode was Running; the restart or start goes on; it ended, and the mode is Running from this
                         call on */
    uint8_t spf;      /* mask of levels whose SPF is to run (RFC 8706, 3.4.1.1) */
    uint8_t overload; /* ISIS_GR_OVERLOAD_..: the overload bit of our LSPs (RFC 8706, 3.4.1.1), of a router that starts that of its zeroth LSP
                         (RFC 8706, 3.4.1.2); both: set it, then clear it */
} isis_gr_timers;

typedef struct {
    uint32_t code;
    uint16_t hellos;     /* mask of hellos to send now: on every circuit, on a LAN at each enabled level (RFC 8706, 3.3.1; none in the mode
                            Starting) */
    uint8_t hello_flags; /* ISIS_GR_FLAG_..: the flags of those hellos, RR; 0 where none is ordered */
} isis_gr_started;

/* The first setting that set up refuses, in the order of isis_gr_settings with the circuits last. */
typedef struct {
    uint8_t setting; /* ISIS_GR_SETTING_.. */
    uint8_t circuit; /* the circuit that it is of, from 1; 0 where it is of none */
} isis_gr_setting_fault;

typedef struct {
    uint32_t code;
    uint16_t position;  /* refused 5 or 6 (document 02, W-206): where, in octets of the frame counted from 1. 5: the type octet of the TLV that passes the
                           PDU Length. 6: 9, where the circuit type's low two bits are 0; else the type octet of the first TLV in the frame that breaks a
                           rule, of one that came twice the second; else, the three-way TLV being missing, the PDU Length plus 1. 0 with any other code */
    uint8_t reply;      /* ISIS_GR_REPLY_..: the Restart TLV of 11 octets in the reply buffer goes into a hello now (RFC 8706, 3.2.1; PA: 3.2.3) */
    uint16_t remaining; /* its Remaining Time */
    uint8_t csnps;      /* mask of levels: send a complete set of CSNPs there and set SRM flags (RFC 8706, 3.2.1) */
    uint8_t t1_end;     /* ISIS_GR_T1_..: kept; T1 of this P2P circuit was stopped for want of a Restart TLV; or that, and the adjacency must be
                           made to reinitialise by a hello with three-way state Down (RFC 8706, 3.3.1; never in the mode Starting) */
    uint8_t hello_flags; /* 0, or the flags of a hello to send on this circuit now, on a LAN of the field level, ISIS_GR_FLAG_SA: its T1 began
                            (RFC 8706, 3.3.2) */
    isis_gr_timers timers;
    /* the frame's record (the adjacency entry of ISO 10589) */
    uint8_t level;        /* that of the frame, 1 or 2; 0 on P2P */
    uint8_t system_id[6]; /* the sender's */
    uint8_t before;       /* ISIS_GR_RECORD_..: how it stood before the frame */
    uint8_t after;        /* ISIS_GR_RECORD_..: how it stands now */
    uint8_t advertised;   /* 1 where it goes into our LSPs now: UP and not suppressed */
} isis_gr_received;

typedef struct {
    uint32_t code;
    uint8_t lost;        /* mask of circuits that lost a record: run what a lost adjacency asks for */
    uint16_t hellos;     /* mask of hellos to send now: their T1s expired */
    uint8_t hello_flags; /* ISIS_GR_FLAG_..: the flags of those hellos, RR (RFC 8706, 3.3.1) or RR and SA (RFC 8706, 3.3.2); 0 where none is
                            ordered */
    isis_gr_timers timers;
} isis_gr_ticked;

typedef struct {
    uint32_t code;
    isis_gr_timers timers;
} isis_gr_noticed;

/* The record of a neighbour (the adjacency entry of ISO 10589). */
typedef struct {
    uint32_t code;
    uint8_t state;      /* ISIS_GR_RECORD_.. */
    uint8_t advertised; /* 1 where it goes into our LSPs: UP and not suppressed */
    uint8_t mark;       /* ISIS_GR_MARK_.. */
    uint8_t suppressed; /* 1 from a hello with SA to one with SA clear, or without the Restart TLV */
    uint8_t priority;   /* of its last accepted frame, as are the rest */
    uint8_t tlv;        /* 1 where it had a Restart TLV */
    uint8_t reverse;    /* 1 where it had a reverse metric */
    uint8_t whole_lan;  /* its W flag */
    uint8_t unreachable; /* its U flag */
    uint32_t offset;    /* its metric offset */
    uint64_t expiry;    /* by the gateway's clock */
} isis_gr_looked;

typedef struct {
    uint32_t code;
    uint32_t metric;
} isis_gr_metric;

typedef struct {
    uint32_t code;
    uint8_t flags; /* ISIS_GR_FLAG_..: none, RR, SA, or both */
} isis_gr_flags;

typedef struct {
    uint32_t count; /* T1s that run, 0 to 16: of a LAN one for each level, of P2P one */
    uint8_t lowest; /* the lowest circuit with one, 0 for none */
} isis_gr_waiting;

/* The reason; a field that does not belong to it is 0. */
typedef struct {
    uint8_t reason;       /* ISIS_GR_REASON_.. */
    uint8_t refused;      /* refused: the refusal's number, ISIS_GR_REFUSED_.. */
    uint16_t position;    /* refused 5 or 6: where, as of isis_gr_received */
    uint8_t line;         /* line: 2 to 5 */
    uint8_t system_id[6]; /* outranked: the router with the greatest pair (priority, MAC) of those that have the duty before us; of several System IDs
                             with that pair the lowest */
    uint8_t priority;     /* outranked: its pair */
    uint8_t mac[6];
} isis_gr_reason;

/* ---- the archive's functions: words and octets, packed and unpacked below */

typedef struct {
    uint64_t answer;
    uint64_t change; /* the frame's record; of a refused frame the position */
} isis_gr_raw_received;

uint32_t isis_gr_raw_gateway_words(void);
uint32_t isis_gr_raw_set_up(uint32_t layout, uint64_t *gateway, const uint8_t *settings);
uint32_t isis_gr_raw_fault(uint32_t layout, const uint8_t *settings);
isis_gr_raw_received isis_gr_raw_receive(uint64_t *gateway, uint8_t circuit, const uint8_t *source, const uint8_t *frame, size_t frame_len,
                                         uint8_t *reply, size_t reply_len);
uint64_t isis_gr_raw_tick(uint64_t *gateway, uint32_t clock);
uint32_t isis_gr_raw_release(uint64_t *gateway, uint8_t circuit);
uint32_t isis_gr_raw_clear(uint64_t *gateway, uint8_t circuit);
uint64_t isis_gr_raw_csnp_complete(uint64_t *gateway, uint8_t circuit, uint8_t level);
uint64_t isis_gr_raw_database_complete(uint64_t *gateway, uint8_t level);
uint32_t isis_gr_raw_look_up(const uint64_t *gateway, uint8_t circuit, uint8_t level, const uint8_t *system_id, const uint8_t *mac,
                             uint64_t *record);
uint64_t isis_gr_raw_link_metric(const uint64_t *gateway, uint8_t circuit);
uint32_t isis_gr_raw_next_hello_flags(const uint64_t *gateway, uint8_t circuit, uint8_t level);
uint32_t isis_gr_raw_waiting_t1s(const uint64_t *gateway);

/* those of libisis_gr_chunks.a */

uint32_t isis_gr_raw_frame_octets(void);
uint32_t isis_gr_raw_begin_frame(uint64_t *gateway, uint8_t circuit, const uint8_t *source);
uint32_t isis_gr_raw_add_chunk(uint64_t *gateway, uint8_t *frames, uint8_t circuit, const uint8_t *octets, size_t octets_len);
isis_gr_raw_received isis_gr_raw_end_frame(uint64_t *gateway, const uint8_t *frames, uint8_t circuit, uint8_t *reply, size_t reply_len);

/* the one of libisis_gr_why.a */

typedef struct {
    uint64_t answer;
    uint64_t pair;
} isis_gr_raw_reason;

isis_gr_raw_reason isis_gr_raw_why(const uint64_t *before, uint64_t *after, uint8_t question, uint8_t call, uint8_t call_circuit, uint8_t call_level,
                                   uint32_t clock, const uint8_t *source, const uint8_t *frame, size_t frame_len, uint8_t *reply, size_t reply_len,
                                   uint8_t circuit, uint8_t level, const uint8_t *system_id, const uint8_t *mac);

/* ---- packing */

static inline void isis_gr_put16(uint8_t *at, uint16_t n) {
    at[0] = (uint8_t)(n >> 8);
    at[1] = (uint8_t)n;
}

static inline void isis_gr_put32(uint8_t *at, uint32_t n) {
    isis_gr_put16(at, (uint16_t)(n >> 16));
    isis_gr_put16(at + 2, (uint16_t)n);
}

static inline void isis_gr_put_circuit(uint8_t *at, const isis_gr_circuit *circuit) {
    at[0] = circuit->kind;
    at[1] = circuit->levels;
    memcpy(at + 2, circuit->mac, 6);
    at[8] = circuit->priority;
    isis_gr_put16(at + 9, circuit->hold);
    isis_gr_put32(at + 11, circuit->metric);
    isis_gr_put32(at + 15, circuit->id);
}

static inline void isis_gr_put_settings(uint8_t out[ISIS_GR_SETTINGS_OCTETS], const isis_gr_settings *settings) {
    size_t i;
    memset(out, 0, ISIS_GR_SETTINGS_OCTETS);
    memcpy(out, settings->system_id, 6);
    isis_gr_put16(out + 6, settings->t1);
    isis_gr_put16(out + 8, settings->t2);
    out[10] = settings->tries;
    isis_gr_put32(out + 11, settings->clock);
    out[15] = settings->mode;
    out[16] = settings->count;
    for (i = 0; i < ISIS_GR_MAX_CIRCUITS && i < settings->count; i++) {
        isis_gr_put_circuit(out + 17 + 19 * i, &settings->circuits[i]);
    }
}

static inline isis_gr_timers isis_gr_get_timers(uint64_t word) {
    isis_gr_timers t;
    t.restart = (uint8_t)(word >> 32 & 3u);
    t.spf = (uint8_t)(word >> 34 & 3u);
    t.overload = (uint8_t)(word >> 36 & 3u);
    return t;
}

static inline isis_gr_received isis_gr_get_received(isis_gr_raw_received words) {
    uint64_t word = words.answer;
    uint64_t change;
    isis_gr_received r;
    size_t i;
    r.code = (uint32_t)(word & 255u);
    r.position = r.code == ISIS_GR_OK ? 0u : (uint16_t)words.change;
    change = r.code == ISIS_GR_OK ? words.change : 0u;
    r.reply = (uint8_t)(word >> 8);
    r.csnps = (uint8_t)(word >> 16);
    r.t1_end = (uint8_t)(word >> 24);
    r.timers = isis_gr_get_timers(word);
    r.remaining = (uint16_t)(word >> 40);
    r.hello_flags = (uint8_t)(word >> 56);
    for (i = 0; i < 6; i++) {
        r.system_id[i] = (uint8_t)(change >> (40 - 8 * i));
    }
    r.level = (uint8_t)(change >> 48 & 3u);
    r.before = (uint8_t)(change >> 50 & 3u);
    r.after = (uint8_t)(change >> 52 & 3u);
    r.advertised = (uint8_t)(change >> 54 & 1u);
    return r;
}

/* ---- the calls */

/* A text for a code. */
static inline const char *isis_gr_text(uint32_t code) {
    static const char *const texts[15] = {
        "done",
        "no circuit of that number, or a level not enabled there",
        "reply buffer under 11 octets",
        "not a hello that fits the circuit",
        "header length or PDU Length wrong",
        "a TLV passes the PDU Length",
        "a TLV breaks its rule, or the circuit type is 0",
        "level not enabled, or our own System ID",
        "the three-way TLV names another system or circuit",
        "the circuit's room is full",
        "clock lower than before",
        "a notice outside the modes Restarting and Starting",
        "a setting out of range",
        "no frame is begun on that circuit",
        "more than 1,500 octets joined",
    };
    return code < 15u ? texts[code] : "no such code";
}

/* The words of a gateway in this archive. */
static inline uint32_t isis_gr_gateway_words(void) { return isis_gr_raw_gateway_words(); }

/* The octets of a memory for frames. Needs libisis_gr_chunks.a. */
static inline uint32_t isis_gr_frame_octets(void) { return isis_gr_raw_frame_octets(); }

/* A new gateway, whatever the memory was. Refused 12, the memory is as it was; isis_gr_fault says which setting it is. */
static inline isis_gr_started isis_gr_set_up(isis_gr_gateway *gateway, const isis_gr_settings *settings) {
    uint8_t octets[ISIS_GR_SETTINGS_OCTETS];
    uint32_t word;
    isis_gr_started s;
    isis_gr_put_settings(octets, settings);
    word = isis_gr_raw_set_up(ISIS_GR_LAYOUT, gateway->words, octets);
    s.code = word & 255u;
    s.hellos = (uint16_t)(word >> 8);
    s.hello_flags = (uint8_t)(word >> 24);
    return s;
}

/* 1 where a mask of hellos has that of a LAN circuit at a level (1 or 2), or, asked with level 1 whatever its levels are, the one of a P2P circuit;
   else 0, also for a circuit that is not 1 to 8 and for a level that is none. */
static inline int isis_gr_hello_ordered(uint16_t hellos, uint8_t circuit, uint8_t level) {
    if (circuit < 1 || circuit > ISIS_GR_MAX_CIRCUITS || level < 1 || level > 2) {
        return 0;
    }
    return hellos >> (2 * (circuit - 1) + (level - 1)) & 1;
}

/* Which setting a set up with these would refuse; ISIS_GR_SETTING_NONE exactly where it would not. */
static inline isis_gr_setting_fault isis_gr_fault(const isis_gr_settings *settings) {
    uint8_t octets[ISIS_GR_SETTINGS_OCTETS];
    uint32_t word;
    isis_gr_setting_fault f;
    isis_gr_put_settings(octets, settings);
    word = isis_gr_raw_fault(ISIS_GR_LAYOUT, octets);
    f.setting = (uint8_t)word;
    f.circuit = (uint8_t)(word >> 8);
    return f;
}

/* Takes one hello frame, from its first octet, 0x83, on: after the LLC's FE FE 03; padding behind the PDU may be lent too. Refused 1 to 9,
   gateway and reply are as they were. reply has at least 11 octets; its first 11 are written only where the field reply is not
   ISIS_GR_REPLY_NONE, those past 11 never. */
static inline isis_gr_received isis_gr_receive(isis_gr_gateway *gateway, uint8_t circuit, const uint8_t source[6], const uint8_t *frame,
                                               size_t frame_len, uint8_t *reply, size_t reply_len) {
    return isis_gr_get_received(isis_gr_raw_receive(gateway->words, circuit, source, frame, frame_len, reply, reply_len));
}

/* Begins a frame that comes in chunks (document 02, W-205), from a source MAC. Each circuit has its own unfinished frame, and one that was begun there
   before is dropped; set up drops all. Other calls leave it as it is, isis_gr_receive on its circuit too. Returns the code; refused 1, the gateway is as
   it was. Needs libisis_gr_chunks.a, as the two below. */
static inline uint32_t isis_gr_begin_frame(isis_gr_gateway *gateway, uint8_t circuit, const uint8_t source[6]) {
    return isis_gr_raw_begin_frame(gateway->words, circuit, source);
}

/* Joins a chunk to a circuit's unfinished frame: octets that isis_gr_receive takes, cut anywhere, or none. Returns the code. Refused 1, 13 where no frame
   is begun there, or 14 where more than ISIS_GR_MOST_OCTETS would be joined, gateway and frames are as they were: the unfinished frame stays, nothing of
   the chunk is kept, and a smaller one may still fit. octets may not overlap frames. */
static inline uint32_t isis_gr_add_chunk(isis_gr_gateway *gateway, isis_gr_frames *frames, uint8_t circuit, const uint8_t *octets, size_t octets_len) {
    return isis_gr_raw_add_chunk(gateway->words, frames->octets, circuit, octets, octets_len);
}

/* Ends a circuit's unfinished frame, which is dropped: answer, gateway and reply are those of isis_gr_receive on the joined octets, with the MAC of the
   begin and the clock and mode of now. Refused 1, or 13 where no frame is begun there, gateway and reply are as they were; refused 2 to 9, as
   isis_gr_receive would be, all of them but the dropped frame. */
static inline isis_gr_received isis_gr_end_frame(isis_gr_gateway *gateway, const isis_gr_frames *frames, uint8_t circuit, uint8_t *reply,
                                                 size_t reply_len) {
    return isis_gr_get_received(isis_gr_raw_end_frame(gateway->words, frames->octets, circuit, reply, reply_len));
}

/* The clock, in seconds; one a second will do. Refused 10, the gateway is as it was. */
static inline isis_gr_ticked isis_gr_tick(isis_gr_gateway *gateway, uint32_t clock) {
    uint64_t word = isis_gr_raw_tick(gateway->words, clock);
    isis_gr_ticked t;
    t.code = (uint32_t)(word & 255u);
    t.lost = (uint8_t)(word >> 8);
    t.hellos = (uint16_t)(word >> 16);
    t.hello_flags = (uint8_t)(word >> 40);
    t.timers = isis_gr_get_timers(word);
    return t;
}

/* Removes a circuit's Planned records. Returns the code; refused 1, the gateway is as it was. */
static inline uint32_t isis_gr_release(isis_gr_gateway *gateway, uint8_t circuit) { return isis_gr_raw_release(gateway->words, circuit); }

/* The link went down: removes all records of a circuit, and touches no timer. Returns the code; refused 1, the gateway is as it was. */
static inline uint32_t isis_gr_clear(isis_gr_gateway *gateway, uint8_t circuit) { return isis_gr_raw_clear(gateway->words, circuit); }

/* The CSNP set of a level (1 or 2) is complete on a circuit. Refused 1 or 11, the gateway is as it was. */
static inline isis_gr_noticed isis_gr_csnp_complete(isis_gr_gateway *gateway, uint8_t circuit, uint8_t level) {
    uint64_t word = isis_gr_raw_csnp_complete(gateway->words, circuit, level);
    isis_gr_noticed n;
    n.code = (uint32_t)(word & 255u);
    n.timers = isis_gr_get_timers(word);
    return n;
}

/* The database of a level (1 or 2) is complete. Refused 1 or 11, the gateway is as it was. */
static inline isis_gr_noticed isis_gr_database_complete(isis_gr_gateway *gateway, uint8_t level) {
    uint64_t word = isis_gr_raw_database_complete(gateway->words, level);
    isis_gr_noticed n;
    n.code = (uint32_t)(word & 255u);
    n.timers = isis_gr_get_timers(word);
    return n;
}

/* The record with a key: level (1 or 2), System ID and source MAC. On P2P the level and the MAC count for nothing; there mac may be NULL.
   Changes nothing. */
static inline isis_gr_looked isis_gr_look_up(const isis_gr_gateway *gateway, uint8_t circuit, uint8_t level, const uint8_t system_id[6],
                                             const uint8_t *mac) {
    static const uint8_t none[6] = {0, 0, 0, 0, 0, 0};
    uint64_t record[2] = {0, 0};
    uint32_t word = isis_gr_raw_look_up(gateway->words, circuit, level, system_id, mac ? mac : none, record);
    isis_gr_looked l;
    l.code = word & 255u;
    l.state = (uint8_t)(word >> 8);
    l.advertised = (uint8_t)(word >> 16);
    l.expiry = record[0];
    l.mark = (uint8_t)(record[1] & 3u);
    l.suppressed = (uint8_t)(record[1] >> 2 & 1u);
    l.tlv = (uint8_t)(record[1] >> 3 & 1u);
    l.reverse = (uint8_t)(record[1] >> 4 & 1u);
    l.whole_lan = (uint8_t)(record[1] >> 5 & 1u);
    l.unreachable = (uint8_t)(record[1] >> 6 & 1u);
    l.priority = (uint8_t)(record[1] >> 8);
    l.offset = (uint32_t)(record[1] >> 32);
    return l;
}

/* The metric of a circuit's link. Changes nothing. */
static inline isis_gr_metric isis_gr_link_metric(const isis_gr_gateway *gateway, uint8_t circuit) {
    uint64_t word = isis_gr_raw_link_metric(gateway->words, circuit);
    isis_gr_metric m;
    m.code = (uint32_t)(word & 255u);
    m.metric = (uint32_t)(word >> 32);
    return m;
}

/* The flags of the Restart TLV in the next hello on a circuit at a level (1 or 2; on P2P the one hello, at each enabled level): RR while its T1 of a
   restart runs (RFC 8706, 3.3.1); SA while we start, and RR beside it from the first expiry of its T1 while that runs (RFC 8706, 3.3.2). Refused 1 for
   a level that is not enabled there, on P2P too. Changes nothing. */
static inline isis_gr_flags isis_gr_next_hello_flags(const isis_gr_gateway *gateway, uint8_t circuit, uint8_t level) {
    uint32_t word = isis_gr_raw_next_hello_flags(gateway->words, circuit, level);
    isis_gr_flags f;
    f.code = word & 255u;
    f.flags = (uint8_t)(word >> 8);
    return f;
}

/* How many T1s still run, and the lowest circuit with one. Changes nothing. */
static inline isis_gr_waiting isis_gr_waiting_t1s(const isis_gr_gateway *gateway) {
    uint32_t word = isis_gr_raw_waiting_t1s(gateway->words);
    isis_gr_waiting w;
    w.count = word >> 8 & 255u;
    w.lowest = (uint8_t)(word >> 16);
    return w;
}

/* Why (document 02, W-204): why is this neighbour not advertised, why did it vanish, why did we not order CSNPs? Of the gateway before a call, the call, and
   a circuit with a record's key, as isis_gr_look_up takes it (on P2P mac may be NULL). The question about CSNPs goes by the call alone.

   The call is made on `after`, memory of a second gateway that is lent for it, whatever it holds, and that may not overlap `before`: on return it is the
   gateway as the call leaves it, and reply has what receive writes. `before` is not changed. So ask before the call is made, with the live gateway as
   `before`, and nothing need be copied; or later, with a copy of it that was kept. Nothing refuses a question; a circuit that is not there, or on
   a LAN a level that is not enabled there, has no record. A number of a question or a call that is none is ISIS_GR_REASON_UNKNOWN, and `after` and reply are
   as they were. A frame that comes in chunks is asked about as the receive of its joined octets. Needs libisis_gr_why.a. */
static inline isis_gr_reason isis_gr_why(const isis_gr_gateway *before, isis_gr_gateway *after, uint8_t question, const isis_gr_call *call, uint8_t circuit,
                                         uint8_t level, const uint8_t system_id[6], const uint8_t *mac) {
    static const uint8_t none[6] = {0, 0, 0, 0, 0, 0};
    int lends = call->call == ISIS_GR_CALL_RECEIVE;
    isis_gr_raw_reason words = isis_gr_raw_why(before->words, after->words, question, call->call, call->circuit, call->level, call->clock,
                                               lends ? call->source : none, lends ? call->frame : NULL, lends ? call->frame_len : 0,
                                               lends ? call->reply : NULL, lends ? call->reply_len : 0, circuit, level, system_id, mac ? mac : none);
    uint8_t detail = (uint8_t)(words.answer >> 8);
    uint64_t system;
    isis_gr_reason r;
    size_t i;
    r.reason = (uint8_t)words.answer;
    r.refused = r.reason == ISIS_GR_REASON_REFUSED ? detail : 0;
    r.position = r.reason == ISIS_GR_REASON_REFUSED ? (uint16_t)(words.answer >> 16) : 0u;
    system = r.reason == ISIS_GR_REASON_OUTRANKED ? words.answer >> 16 : 0u;
    r.line = r.reason == ISIS_GR_REASON_LINE ? detail : 0;
    r.priority = (uint8_t)(words.pair >> 48);
    for (i = 0; i < 6; i++) {
        r.system_id[i] = (uint8_t)(system >> (40 - 8 * i));
        r.mac[i] = (uint8_t)(words.pair >> (40 - 8 * i));
    }
    return r;
}

/* A text for a reason; a refusal's own text is isis_gr_text of the field refused. */
static inline const char *isis_gr_reason_text(uint8_t reason) {
    static const char *const texts[11] = {
        "not so",
        "INIT, the neighbour does not hear us yet",
        "suppressed until a hello with SA clear arrives",
        "there is no record",
        "the frame was refused",
        "its holding time ran out",
        "released, while it planned a restart",
        "cleared, as its link went down",
        "a line that orders none fits the frame",
        "another router has the greater pair",
        "no such question or call",
    };
    return reason < 11 ? texts[reason] : "no such reason";
}

#ifdef __cplusplus
}
#endif

#endif
