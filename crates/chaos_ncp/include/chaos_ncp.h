/* chaos_ncp.h: a host of Chaosnet (a node) for programs in C and other languages.
 *
 * The library is a proved implementation of the protocol of D. Moon, "Chaosnet" (MIT AI Memo 628, 1981), in datagrams of docs/PROTOCOL.md.
 * It does no input or output: it opens no socket, reads no clock and starts no thread. The caller does, in a loop:
 *
 *     feed a datagram that came, tick, call the connections, take each datagram that is to go out, wait.
 *
 * docs/NCP.md shows the loop, and says what is proved. examples/c/get.c is a whole program.
 *
 * Words. A node has an address and so many connections. A connection is named by its number, from 1 to 65535, which the node gives. A
 * number that isn't in use any more is refused with CHAOS_NCP_NO_CONNECTION. Addresses are those of Chaosnet. Moments, `now`, are
 * milliseconds of any clock of the caller that doesn't go back; an earlier moment counts as the last.
 *
 * Answers. Each call answers 0 or more where it did what it says, and a negative number of `enum chaos_ncp_fault` where it was refused. A
 * refused call changes nothing, but for a tick, which says so.
 *
 * What the caller owes, and the library can't check:
 *   - A pointer is to readable memory of the length that is passed with it, and for what is written, to memory that may be written and
 *     that nothing else uses during the call. No pointer is null, not even with the length 0. No two pointers of a call overlap.
 *   - A `chaos_ncp` is zero before its first call (CHAOS_NCP_NONE), is never copied while it has a node, and nobody writes into it.
 *   - Calls on one node don't overlap in time, and come from the thread that created the node. Different nodes share nothing.
 *   - malloc, realloc and free are one allocator's, and align blocks as that of any C library does. No call comes from a signal handler,
 *     or from a forked child of a process with threads.
 *
 * Who owns what: the library copies what it keeps, and lends nothing. All memory is taken by chaos_ncp_create and given back by
 * chaos_ncp_destroy: some 530 bytes for each packet of each connection's two windows, and 40,000.
 */
#ifndef CHAOS_NCP_H
#define CHAOS_NCP_H

#include <stddef.h>
#include <stdint.h>

#ifdef __cplusplus
extern "C" {
#endif

/* A node, or none. The fields are the library's. */
typedef struct chaos_ncp {
    uint64_t mark;
    void *node;
} chaos_ncp;

/* A handle without a node. Memory of zeros is such a handle too. */
#define CHAOS_NCP_NONE {0, 0}

/* The most bytes of data in a packet, of a datagram that the library sends, and of one that it takes. */
#define CHAOS_NCP_MAX_DATA 488
#define CHAOS_NCP_MAX_DATAGRAM 508
#define CHAOS_NCP_MAX_FED 2020

/* Why a call was refused. */
enum chaos_ncp_fault {
    CHAOS_NCP_NO_NODE = -1,           /* the handle has no node: it wasn't created, or was destroyed */
    CHAOS_NCP_HAS_NODE = -2,          /* create: the handle has a node already */
    CHAOS_NCP_BAD_ADDRESS = -3,       /* an address is 0 */
    CHAOS_NCP_BAD_COUNT = -4,         /* create: the connections aren't 1 to 255 */
    CHAOS_NCP_BAD_WINDOW = -5,        /* create: the window isn't 1 to 64 */
    CHAOS_NCP_NO_MEMORY = -6,         /* create: malloc gave no memory */
    CHAOS_NCP_OUTBOX_FULL = -7,       /* too many datagrams wait: take them all, and call again */
    CHAOS_NCP_BAD_DATAGRAM = -8,      /* feed: the bytes are no datagram of docs/PROTOCOL.md */
    CHAOS_NCP_TOO_LONG = -9,          /* more bytes than the call takes */
    CHAOS_NCP_BAD_CONTACT = -10,      /* listen: the contact is empty, or has a space */
    CHAOS_NCP_ALREADY_LISTENS = -11,  /* listen: the node listens to this contact */
    CHAOS_NCP_TOO_MANY_CONTACTS = -12,/* listen: the node listens to 16 contacts */
    CHAOS_NCP_TABLE_FULL = -13,       /* connect: every connection is in use */
    CHAOS_NCP_NO_CONNECTION = -14,    /* no connection has this number */
    CHAOS_NCP_NOT_OPEN = -15,         /* the connection isn't open */
    CHAOS_NCP_WINDOW_FULL = -16,      /* write: the peer has to read first */
    CHAOS_NCP_WRONG_STATE = -17,      /* the connection's state takes no such call */
    CHAOS_NCP_STILL_ACTIVE = -18,     /* release: the connection hasn't ended */
    CHAOS_NCP_BAD_OPCODE = -19,       /* write: the opcode is neither one of data, 0200 to 0377, nor that of an EOF, 014 */
    CHAOS_NCP_SMALL_BUFFER = -20,     /* the caller's buffer is too small for what is there */
    CHAOS_NCP_IN_USE = -21            /* pass: a connection is in use, or a datagram waits */
};

/* What a connection is doing. From CHAOS_NCP_ANSWERED on it has ended: read what is in front, then release it. */
enum chaos_ncp_state {
    CHAOS_NCP_RFC_SENT = 1,     /* asked, and not answered yet */
    CHAOS_NCP_RFC_RECEIVED = 2, /* a request that waits: accept, answer or reject it */
    CHAOS_NCP_OPEN = 3,
    CHAOS_NCP_ANSWERED = 4,     /* the request was answered by one ANS: chaos_ncp_ending gives its bytes */
    CHAOS_NCP_CLS_RECEIVED = 5, /* the peer closed, or refused: chaos_ncp_ending gives its text */
    CHAOS_NCP_LOS_RECEIVED = 6, /* the peer's host doesn't know the connection */
    CHAOS_NCP_HOST_DOWN = 7,    /* nothing was heard of the peer for 90 seconds */
    CHAOS_NCP_FORWARDED = 8     /* the request is to be made elsewhere */
};

/* ---- a node ---- */

/* Creates a node at this address, which isn't 0, with 1 to 255 connections, whose two windows have 1 to 64 packets each; 13 is usual. */
int32_t chaos_ncp_create(chaos_ncp *ncp, uint16_t address, uint16_t connections, uint16_t window);

/* Passes over `count` numbers of each slot. Peers may still have connections of an earlier process, and would take a new connection with
 * the same number for the old one. So call this once, after chaos_ncp_create, with a drawn count. Nothing goes out. */
int32_t chaos_ncp_pass(chaos_ncp *ncp, uint8_t count);

/* Destroys the node, and says nothing to its peers: close the connections first. The handle is then as before the creation. */
int32_t chaos_ncp_destroy(chaos_ncp *ncp);

/* ---- datagrams and time ---- */

/* Feeds a datagram that came, whoever sent it. Bytes that are no datagram are refused, and a datagram that isn't for the node is taken
 * and dropped. A datagram that was refused for CHAOS_NCP_OUTBOX_FULL may be fed again. */
int32_t chaos_ncp_feed(chaos_ncp *ncp, const uint8_t *bytes, size_t count, uint64_t now);

/* Does what is due by this moment: retransmits, probes a silent peer, gives it up. After CHAOS_NCP_OUTBOX_FULL take all datagrams and
 * tick again: the tick goes on where it stopped. Tick every 100 milliseconds, or by chaos_ncp_next_due. */
int32_t chaos_ncp_tick(chaos_ncp *ncp, uint64_t now);

/* Answers 1, and puts the moment at which a tick does something next into `due`: 0 if something is due already. Answers 0 if nothing will
 * be due, and leaves `due`. Each other call may change this. */
int32_t chaos_ncp_next_due(chaos_ncp *ncp, uint64_t *due);

/* Takes the next datagram that is to go out: its bytes into the buffer, of at least CHAOS_NCP_MAX_DATAGRAM bytes, and the Chaosnet
 * address that it goes to into `to`. Answers how many bytes it has, or 0 if none waits. Whatever becomes of a datagram on its way, the
 * node does what the protocol says: drop one that can't be sent. */
int32_t chaos_ncp_take(chaos_ncp *ncp, uint16_t *to, uint8_t *buffer, size_t room);

/* ---- requests ---- */

/* Listens to a contact: 1 to 64 bytes without a space. Requests for it wait in connections of the state CHAOS_NCP_RFC_RECEIVED. */
int32_t chaos_ncp_listen(chaos_ncp *ncp, const uint8_t *contact, size_t count);

/* Asks the host `to` for a contact: at most 488 bytes, the name, and its arguments behind a space. Answers the number of the connection.
 * What is written is numbered from `first` on: take it from a clock, since a peer may remember an earlier connection. */
int32_t chaos_ncp_connect(chaos_ncp *ncp, uint16_t to, const uint8_t *contact, size_t count, uint16_t first, uint64_t now);

/* Answers the number of the connection in a slot, from 0 to the connections of the node less 1, or 0 if the slot is free. A service looks
 * at each slot in each turn: so it finds requests. */
int32_t chaos_ncp_connection(chaos_ncp *ncp, uint16_t slot);

/* Copy the contact of a request that waits, and what stands behind the space. Answer how many bytes there are. A buffer of
 * CHAOS_NCP_MAX_DATA bytes is always enough; in a smaller one nothing is changed where the bytes don't fit. */
int32_t chaos_ncp_contact(chaos_ncp *ncp, uint16_t connection, uint8_t *buffer, size_t room);
int32_t chaos_ncp_arguments(chaos_ncp *ncp, uint16_t connection, uint8_t *buffer, size_t room);

/* Accepts a request: the connection is then open. `first` is as with chaos_ncp_connect. */
int32_t chaos_ncp_accept(chaos_ncp *ncp, uint16_t connection, uint16_t first, uint64_t now);

/* Answers a request by one ANS of at most 488 bytes, or refuses it by a CLS with a text. Either frees the slot. */
int32_t chaos_ncp_answer(chaos_ncp *ncp, uint16_t connection, const uint8_t *bytes, size_t count);
int32_t chaos_ncp_reject(chaos_ncp *ncp, uint16_t connection, const uint8_t *text, size_t count);

/* ---- connections ---- */

/* Answers one of `enum chaos_ncp_state`. */
int32_t chaos_ncp_state(chaos_ncp *ncp, uint16_t connection);

/* Answers the address of the connection's peer. */
int32_t chaos_ncp_peer(chaos_ncp *ncp, uint16_t connection);

/* Answers 1 if a write of data is taken now, else 0. */
int32_t chaos_ncp_can_write(chaos_ncp *ncp, uint16_t connection);

/* Answers 1 if the peer acknowledged all that was written, else 0. */
int32_t chaos_ncp_drained(chaos_ncp *ncp, uint16_t connection);

/* Writes one packet: data of at most 488 bytes, of an opcode from 0200 to 0377, or an EOF, of the opcode 014 and without bytes. */
int32_t chaos_ncp_write(chaos_ncp *ncp, uint16_t connection, uint8_t opcode, const uint8_t *bytes, size_t count, uint64_t now);

/* Copies the packet in front, where it stays, and puts its opcode into `opcode`: 0 if nothing is in front. Answers how many bytes the
 * packet has, which may be 0. CHAOS_NCP_MAX_DATA bytes are always enough. */
int32_t chaos_ncp_front(chaos_ncp *ncp, uint16_t connection, uint8_t *opcode, uint8_t *buffer, size_t room);

/* Passes over the packet in front, which lets the peer write more. Answers 1, or 0 if nothing was in front. Ask chaos_ncp_can_write, pass
 * over the packet, then write the reply: so you read no packet that you can't reply to, and the reply acknowledges the packet. */
int32_t chaos_ncp_read_done(chaos_ncp *ncp, uint16_t connection);

/* Copies the bytes of the packet by which the connection ended, as chaos_ncp_front does: the opcode is 05 for an ANS, 03 for a CLS, 011
 * for a LOS. The node keeps that of one connection alone: the one that ended last. The opcode is 0 for any other. */
int32_t chaos_ncp_ending(chaos_ncp *ncp, uint16_t connection, uint8_t *opcode, uint8_t *buffer, size_t room);

/* Gives a connection up in any state, and frees its slot. The peer of an open connection gets a CLS with the text. */
int32_t chaos_ncp_close(chaos_ncp *ncp, uint16_t connection, const uint8_t *text, size_t count);

/* Frees the slot of a connection that has ended. Nothing is sent, and what is in front is dropped. */
int32_t chaos_ncp_release(chaos_ncp *ncp, uint16_t connection);

#ifdef __cplusplus
}
#endif

#endif
