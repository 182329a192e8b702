/* CHUDP for a program with the library chaos_ncp, which feeds and takes datagrams of version 1. Both framings carry the same words of a
 * packet, so a datagram is turned from one framing into the other in its buffer. docs/PROTOCOL.md describes both. */
#ifndef CHUDP_H
#define CHUDP_H

#include <stddef.h>
#include <stdint.h>
#include <string.h>

/* The bytes of a head, of the smallest packet and of a trailer; the most bytes that are sent, and that are taken. */
enum { CHUDP_HEAD = 4, CHUDP_PACKET = 16, CHUDP_TRAILER = 6, CHUDP_MAX_DATAGRAM = 514, CHUDP_MAX_TAKEN = 2048 };

/* Adds words, each high byte first, and each carry out of the top at the bottom. */
static inline uint16_t chudp_sum(const uint8_t *bytes, size_t count) {
    uint32_t sum = 0;
    for (size_t at = 0; at + 1 < count; at += 2) sum += (uint32_t)bytes[at] << 8 | bytes[at + 1];
    while (sum >> 16) sum = (sum & 0xFFFF) + (sum >> 16);
    return (uint16_t)sum;
}

static inline void chudp_put(uint8_t *bytes, uint16_t word) {
    bytes[0] = (uint8_t)(word >> 8);
    bytes[1] = (uint8_t)word;
}

/* Turns a datagram that chaos_ncp_take gave into a datagram of CHUDP. The buffer has room for CHUDP_MAX_DATAGRAM bytes. `hop` is the
 * Chaosnet address of the next hop, the bridge's or the destination's, and `from` is the node's. Returns how many bytes there are now. */
static inline size_t chudp_wrap(uint8_t *datagram, size_t count, uint16_t hop, uint16_t from) {
    memcpy(datagram, "\1\1\0\0", CHUDP_HEAD);
    chudp_put(datagram + count, hop);
    chudp_put(datagram + count + 2, from);
    chudp_put(datagram + count + 4, (uint16_t)~chudp_sum(datagram + CHUDP_HEAD, count + 4 - CHUDP_HEAD));
    return count + CHUDP_TRAILER;
}

/* Turns a datagram of CHUDP that came into a datagram for chaos_ncp_feed, which looks at the packet. Returns how many bytes there are now,
 * or 0 if the head, the length or the sum is wrong: drop the datagram then. */
static inline size_t chudp_unwrap(uint8_t *datagram, size_t count) {
    if (count < CHUDP_HEAD + CHUDP_PACKET + CHUDP_TRAILER || count > CHUDP_MAX_TAKEN || count % 2) return 0;
    if (datagram[0] != 1 || datagram[1] != 1 || chudp_sum(datagram + CHUDP_HEAD, count - CHUDP_HEAD) != 0xFFFF) return 0;
    memcpy(datagram, "CH\1\0", CHUDP_HEAD);
    return count - CHUDP_TRAILER;
}

#endif
