/* Settings of the tests: circuit 1 is P2P, circuit 2 a LAN, both with both levels and our own MAC 00:00:00:00:00:09. */
#ifndef TWO_CIRCUITS_H
#define TWO_CIRCUITS_H

#include "isis_gr.h"

static inline isis_gr_settings two_circuits(uint8_t mode, uint16_t t1, uint16_t t2) {
    isis_gr_settings s;
    size_t i;
    memset(&s, 0, sizeof s);
    s.system_id[5] = 1;
    s.t1 = t1;
    s.t2 = t2;
    s.tries = 3;
    s.mode = mode;
    s.count = 2;
    for (i = 0; i < 2; i++) {
        s.circuits[i].kind = i == 0 ? ISIS_GR_KIND_P2P : ISIS_GR_KIND_LAN;
        s.circuits[i].levels = ISIS_GR_LEVEL_BOTH;
        s.circuits[i].hold = 30;
        s.circuits[i].mac[5] = 9;
    }
    return s;
}

#endif
