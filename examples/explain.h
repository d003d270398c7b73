/* What a technician reads: the sentence of a reason that isis_gr_why named, with stdio, which isis_gr.h does without. Needs libisis_gr_why.a. */
#ifndef EXPLAIN_H
#define EXPLAIN_H

#include "isis_gr.h"

#include <stdio.h>

enum { EXPLAIN_ROOM = 160 }; /* the longest sentence, and more */

static inline void explain(char out[EXPLAIN_ROOM], uint8_t question, isis_gr_reason r) {
    static const char *const asked[3] = {"not advertised", "vanished", "no CSNPs ordered"};
    static const char *const not_so[3] = {"it is advertised", "it did not go in this call", "CSNPs were ordered, or the call is no receive"};
    static const char *const lines[4] = {"RR from a neighbour that was not UP", "PR announces a planned restart", "a planned restart is over",
                                         "an ordinary hello"};
    const uint8_t *s = r.system_id, *m = r.mac;
    if (question > ISIS_GR_WHY_NO_CSNPS) {
        snprintf(out, EXPLAIN_ROOM, "%s", isis_gr_reason_text(ISIS_GR_REASON_UNKNOWN));
    } else if (r.reason == ISIS_GR_REASON_NOT_SO) {
        snprintf(out, EXPLAIN_ROOM, "not so: %s", not_so[question]);
    } else if (r.reason == ISIS_GR_REASON_REFUSED) {
        int n = snprintf(out, EXPLAIN_ROOM, "%s: the frame was refused %u (%s)", asked[question], r.refused, isis_gr_text(r.refused));
        if (r.position != 0 && n > 0 && n < EXPLAIN_ROOM) {
            snprintf(out + n, (size_t)(EXPLAIN_ROOM - n), ", at octet %u", r.position);
        }
    } else if (r.reason == ISIS_GR_REASON_LINE && r.line >= 2 && r.line <= 5) {
        snprintf(out, EXPLAIN_ROOM, "%s: line %u fits the frame (%s)", asked[question], r.line, lines[r.line - 2]);
    } else if (r.reason == ISIS_GR_REASON_OUTRANKED) {
        snprintf(out, EXPLAIN_ROOM, "%s: %02x%02x.%02x%02x.%02x%02x has the greater pair (%u, %02x:%02x:%02x:%02x:%02x:%02x)", asked[question], s[0], s[1],
                 s[2], s[3], s[4], s[5], r.priority, m[0], m[1], m[2], m[3], m[4], m[5]);
    } else {
        snprintf(out, EXPLAIN_ROOM, "%s: %s", asked[question], isis_gr_reason_text(r.reason));
    }
}

/* Asked before a hello is taken, with the live gateway, so that nothing is copied: 1, and the sentence behind the sender's System ID, where it will not be
   advertised, or where it asks for CSNPs and none will be ordered; else 0. The key is read off the frame: level by the PDU type, System ID in octets 10 to
   15. */
static inline int explain_hello(char out[EXPLAIN_ROOM], const isis_gr_gateway *g, uint8_t circuit, uint8_t question, const uint8_t source[6],
                                const uint8_t *frame, size_t n) {
    static isis_gr_gateway after; /* static as the gateway is: 5,248 octets */
    uint8_t reply[ISIS_GR_REPLY_OCTETS];
    const isis_gr_call call = {ISIS_GR_CALL_RECEIVE, circuit, 0, 0, source, frame, n, reply, sizeof reply};
    const uint8_t *id = frame + 9;
    char sentence[EXPLAIN_ROOM];
    isis_gr_reason r;
    if (n < 15) {
        return 0;
    }
    r = isis_gr_why(g, &after, question, &call, circuit, (frame[4] & 31) == 16 ? 2 : 1, id, source);
    explain(sentence, question, r);
    snprintf(out, EXPLAIN_ROOM, "%02x%02x.%02x%02x.%02x%02x %.140s", id[0], id[1], id[2], id[3], id[4], id[5], sentence);
    return r.reason != ISIS_GR_REASON_NOT_SO && (question != ISIS_GR_WHY_NO_CSNPS || r.reason == ISIS_GR_REASON_OUTRANKED || r.line == 2);
}

#endif
