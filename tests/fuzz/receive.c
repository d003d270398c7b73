/* Fuzzes receive: an input is a mode (an octet modulo 3) and a list of calls. Each call's octets: circuit, source's last octet, clock step, reply room,
   frame length (2), frame. The lent frame and reply are copies of exactly their length, so that AddressSanitizer sees every octet past them. A refusal
   must leave gateway and reply as they were, and octets past 11 are never written. Before each frame a question is asked about it, why: its second gateway
   and reply must be those of the receive, and its reason must hold of the answer and of a look up. The frame is also handed over in chunks, cut by its own
   octets, on a third gateway: the end must be as the receive. With clang's libFuzzer: make fuzz. */
#include "../c/two_circuits.h"

#include <stdlib.h>

enum { OWN_OCTETS = 8 * (ISIS_GR_GATEWAY_WORDS - 2 * ISIS_GR_MAX_CIRCUITS) }; /* but for the two words of each circuit's unfinished frame */

static void start(isis_gr_gateway *g, uint8_t mode) {
    isis_gr_settings s = two_circuits(mode, 2, 9);
    if (isis_gr_set_up(g, &s).code != ISIS_GR_OK) {
        abort();
    }
}

static void require(int so) {
    if (!so) {
        abort();
    }
}

/* the reason of a question about the frame, against its answer and the record of the key that was asked about, after it */
static void require_reason(uint8_t question, isis_gr_reason why, isis_gr_received r, isis_gr_looked l) {
    if (question == ISIS_GR_WHY_NOT_ADVERTISED) {
        require((why.reason == ISIS_GR_REASON_NOT_SO) == (l.advertised == 1) && (why.reason == ISIS_GR_REASON_INIT) == (l.state == ISIS_GR_RECORD_INIT));
        require((why.reason == ISIS_GR_REASON_SUPPRESSED) == (l.state == ISIS_GR_RECORD_UP && l.suppressed));
        require(l.state != ISIS_GR_RECORD_NONE || why.reason == (r.code ? ISIS_GR_REASON_REFUSED : ISIS_GR_REASON_NO_RECORD));
    } else if (question == ISIS_GR_WHY_VANISHED) {
        require(why.reason == ISIS_GR_REASON_NOT_SO);
    } else {
        require((why.reason == ISIS_GR_REASON_NOT_SO) == (r.csnps != 0) && (why.reason == ISIS_GR_REASON_REFUSED) == (r.code != ISIS_GR_OK));
        require((why.line >= 2 && why.line <= 5) == (why.reason == ISIS_GR_REASON_LINE));
        require(why.reason != ISIS_GR_REASON_OUTRANKED || (r.reply == ISIS_GR_REPLY_RA && r.before == ISIS_GR_RECORD_UP && r.level != 0));
    }
    require(why.refused == (why.reason == ISIS_GR_REASON_REFUSED ? r.code : 0));
}

/* The frame in chunks, each as long as its first octet says, of which some are empty; every chunk is lent as a copy of its length. The answer is that of the
   end, or of the first call that is refused. */
static isis_gr_received in_chunks(isis_gr_gateway *g, uint8_t circuit, const uint8_t source[6], const uint8_t *frame, size_t length, uint8_t *reply,
                                  size_t room) {
    static isis_gr_frames frames;
    isis_gr_received r;
    size_t at = 0, part, turn = 0;
    memset(&r, 0, sizeof r);
    r.code = isis_gr_begin_frame(g, circuit, source);
    while (r.code == ISIS_GR_OK && at < length) {
        uint8_t *chunk;
        part = (frame[at] + turn++) % 32;
        part = part < length - at ? part : length - at;
        chunk = malloc(part);
        if (part > 0) {
            memcpy(chunk, frame + at, part);
        }
        r.code = isis_gr_add_chunk(g, &frames, circuit, chunk, part);
        require(r.code == (at + part > ISIS_GR_MOST_OCTETS ? ISIS_GR_REFUSED_TOO_LONG : ISIS_GR_OK));
        free(chunk);
        at += part;
    }
    return r.code == ISIS_GR_OK ? isis_gr_end_frame(g, &frames, circuit, reply, room) : r;
}

/* of the end and of the receive */
static void require_same(isis_gr_received a, isis_gr_received b) {
    require(a.code == b.code && a.position == b.position && a.reply == b.reply && a.remaining == b.remaining && a.csnps == b.csnps && a.t1_end == b.t1_end);
    require(a.hello_flags == b.hello_flags && memcmp(&a.timers, &b.timers, sizeof a.timers) == 0);
    require(a.level == b.level && memcmp(a.system_id, b.system_id, 6) == 0 && a.before == b.before && a.after == b.after && a.advertised == b.advertised);
}

int LLVMFuzzerTestOneInput(const uint8_t *data, size_t size);

int LLVMFuzzerTestOneInput(const uint8_t *data, size_t size) {
    static isis_gr_gateway g, before, after, chunked;
    static const uint8_t nobody[6] = {0};
    uint32_t clock = 0;
    if (size == 0) {
        return 0;
    }
    start(&g, data[0] % 3);
    data++;
    size--;
    while (size >= 6) {
        const uint8_t source[6] = {2, 0, 0, 0, 0, data[1]};
        size_t room = data[3] % 24, length = (size_t)data[4] << 8 | data[5], i;
        uint8_t circuit = data[0] % 4, question = (uint8_t)((data[1] + data[5]) % 3), level;
        uint8_t *frame, *reply, *lent, *joined;
        const uint8_t *id;
        isis_gr_call call = {ISIS_GR_CALL_RECEIVE, 0, 0, 0, NULL, NULL, 0, NULL, 0};
        isis_gr_reason why;
        isis_gr_received r, ended;
        clock += data[2] % 8;
        data += 6;
        size -= 6;
        length = length < size ? length : size;
        require(isis_gr_tick(&g, clock).code == ISIS_GR_OK);
        frame = malloc(length);
        reply = malloc(room);
        lent = malloc(room);
        joined = malloc(room);
        if (length > 0) {
            memcpy(frame, data, length);
        }
        if (room > 0) {
            memset(reply, 0xEE, room);
            memset(lent, 0xEE, room);
            memset(joined, 0xEE, room);
        }
        id = length < 15 ? nobody : frame + 9;
        level = length > 4 && (frame[4] & 31) == 16 ? 2 : 1;
        call.circuit = circuit;
        call.source = source;
        call.frame = frame;
        call.frame_len = length;
        call.reply = lent;
        call.reply_len = room;
        before = chunked = g;
        why = isis_gr_why(&g, &after, question, &call, circuit, level, id, source);
        require(memcmp(&g, &before, sizeof g) == 0);
        r = isis_gr_receive(&g, circuit, source, frame, length, reply, room);
        require(r.code <= ISIS_GR_REFUSED_NO_ROOM);
        require(r.position <= length + 1 && (r.position >= 9) == (r.code == ISIS_GR_REFUSED_TLV_PAST_END || r.code == ISIS_GR_REFUSED_BAD_TLV));
        require(memcmp(&g, &after, sizeof g) == 0 && (room == 0 || memcmp(lent, reply, room) == 0));
        require_reason(question, why, r, isis_gr_look_up(&g, circuit, level, id, source));
        ended = in_chunks(&chunked, circuit, source, frame, length, joined, room);
        if (ended.code == ISIS_GR_REFUSED_TOO_LONG) {
            require(length > ISIS_GR_MOST_OCTETS && memcmp(chunked.words, before.words, OWN_OCTETS) == 0);
        } else {
            require_same(ended, r);
            require(memcmp(chunked.words, g.words, OWN_OCTETS) == 0 && (room == 0 || memcmp(joined, reply, room) == 0));
        }
        if (r.code != ISIS_GR_OK) {
            require(memcmp(&g, &before, sizeof g) == 0 && r.reply == ISIS_GR_REPLY_NONE && r.hello_flags == 0);
        }
        if (r.hello_flags != 0) {
            require(r.hello_flags == ISIS_GR_FLAG_SA && r.before != ISIS_GR_RECORD_UP && r.after == ISIS_GR_RECORD_UP);
        }
        for (i = r.reply == ISIS_GR_REPLY_NONE ? 0 : ISIS_GR_REPLY_OCTETS; i < room; i++) {
            require(reply[i] == 0xEE);
        }
        if (r.reply != ISIS_GR_REPLY_NONE) {
            require(reply[0] == 211 && reply[1] == 9 && reply[2] == r.reply && (reply[3] << 8 | reply[4]) == r.remaining);
        }
        free(frame);
        free(reply);
        free(lent);
        free(joined);
        data += length;
        size -= length;
    }
    return 0;
}
