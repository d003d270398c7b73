/* IS-IS PDUs on one interface of Linux: an AF_PACKET socket that has joined the three groups of IS-IS, for root; and the clock. */
#ifndef RAW_H
#define RAW_H

#include <arpa/inet.h>
#include <net/if.h>
#include <netpacket/packet.h>
#include <stdint.h>
#include <stdio.h>
#include <stdlib.h>
#include <string.h>
#include <sys/ioctl.h>
#include <sys/socket.h>
#include <time.h>

enum { RAW_802_2 = 4, RAW_HEAD = 17 }; /* the kernel's number of 802.3 frames with an LLC; octets before the PDU */

/* where PDUs go: AllIntermediateSystems on P2P, AllL1ISs, AllL2ISs */
static const uint8_t raw_groups[3][6] = {{0x09, 0x00, 0x2B, 0, 0, 5}, {0x01, 0x80, 0xC2, 0, 0, 0x14}, {0x01, 0x80, 0xC2, 0, 0, 0x15}};

/* The socket, and the interface's MAC; ends the program where that fails. */
static inline int raw_open(const char *interface, uint8_t mac[6]) {
    struct sockaddr_ll at;
    struct packet_mreq group;
    struct ifreq q;
    size_t i;
    int fd = socket(AF_PACKET, SOCK_RAW, htons(RAW_802_2));
    int good;
    memset(&at, 0, sizeof at);
    at.sll_family = AF_PACKET;
    at.sll_protocol = htons(RAW_802_2);
    at.sll_ifindex = (int)if_nametoindex(interface);
    memset(&q, 0, sizeof q);
    strncpy(q.ifr_name, interface, sizeof q.ifr_name - 1);
    good = fd >= 0 && at.sll_ifindex > 0 && bind(fd, (struct sockaddr *)&at, sizeof at) == 0 && ioctl(fd, SIOCGIFHWADDR, &q) == 0;
    for (i = 0; i < 3 && good; i++) {
        memset(&group, 0, sizeof group);
        group.mr_ifindex = at.sll_ifindex;
        group.mr_type = PACKET_MR_MULTICAST;
        group.mr_alen = 6;
        memcpy(group.mr_address, raw_groups[i], 6);
        good = setsockopt(fd, SOL_PACKET, PACKET_ADD_MEMBERSHIP, &group, sizeof group) == 0;
    }
    if (!good) {
        perror(interface);
        exit(2);
    }
    memcpy(mac, q.ifr_hwaddr.sa_data, 6);
    return fd;
}

/* Sends a PDU to a group, behind the 802.3 header and the LLC, in at least 60 octets. */
static inline int raw_send(int fd, const uint8_t to[6], const uint8_t mac[6], const uint8_t *pdu, size_t n) {
    uint8_t frame[RAW_HEAD + 512] = {0};
    size_t all = n + RAW_HEAD < 60 ? 60 : n + RAW_HEAD;
    if (n > 512) {
        return 0;
    }
    memcpy(frame, to, 6);
    memcpy(frame + 6, mac, 6);
    frame[12] = (uint8_t)((n + 3) >> 8);
    frame[13] = (uint8_t)(n + 3);
    memcpy(frame + 14, "\xFE\xFE\x03", 3);
    memcpy(frame + RAW_HEAD, pdu, n);
    return send(fd, frame, all, 0) == (ssize_t)all;
}

/* One frame that came in, not one of ours; the octets from 0x83 on, padding with them, or 0 where it is none of IS-IS. Its source is at frame + 6,
   its PDU at frame + RAW_HEAD. */
static inline size_t raw_receive(int fd, uint8_t *frame, size_t room) {
    struct sockaddr_ll from;
    socklen_t size = sizeof from;
    ssize_t n = recvfrom(fd, frame, room, 0, (struct sockaddr *)&from, &size);
    if (n < RAW_HEAD + 8 || from.sll_pkttype == PACKET_OUTGOING || memcmp(frame + 14, "\xFE\xFE\x03\x83", 4) != 0) {
        return 0;
    }
    return (size_t)n - RAW_HEAD;
}

/* 1 where the link is up. */
static inline int raw_carrier(int fd, const char *interface) {
    struct ifreq q;
    memset(&q, 0, sizeof q);
    strncpy(q.ifr_name, interface, sizeof q.ifr_name - 1);
    return ioctl(fd, SIOCGIFFLAGS, &q) == 0 && (q.ifr_flags & IFF_RUNNING) != 0;
}

/* Seconds that never go back. */
static inline uint32_t raw_clock(void) {
    struct timespec t;
    clock_gettime(CLOCK_MONOTONIC, &t);
    return (uint32_t)t.tv_sec;
}

#endif
