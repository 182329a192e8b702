/* Calls each call of chaos_ncp, of two nodes in one process, and ends with status 0, or 1 and the line of the first check that fails. */
#include <chaos_ncp.h>
#include <stdio.h>
#include <string.h>

#define BYTES(text) (const uint8_t *)(text), sizeof(text) - 1
#define CHECK(found, wanted) check((found), (wanted), __LINE__)

static chaos_ncp ann = CHAOS_NCP_NONE, bob;
static uint8_t buffer[CHAOS_NCP_MAX_DATA], op;
static uint64_t now = 1000;

static int failed;

static void check(int64_t found, int64_t wanted, int line) {
    if (found == wanted || failed) return;
    printf("line %d: %lld and not %lld\n", line, (long long)found, (long long)wanted);
    failed = 1;
}

/* Hands on all that one node has for the other, which has this address. Answers how many datagrams there were. */
static int carry(chaos_ncp *from, chaos_ncp *to, uint16_t address) {
    uint8_t datagram[CHAOS_NCP_MAX_DATAGRAM];
    uint16_t goes_to;
    int32_t size;
    int count = 0;
    for (; (size = chaos_ncp_take(from, &goes_to, datagram, sizeof datagram)) > 0; count++) {
        CHECK(goes_to, address);
        CHECK(chaos_ncp_feed(to, datagram, (size_t)size, now), 0);
    }
    CHECK(size, 0);
    return count;
}

/* Loses all that a node has for others. Answers how many datagrams there were. */
static int lose(chaos_ncp *from) {
    uint8_t datagram[CHAOS_NCP_MAX_DATAGRAM];
    uint16_t to;
    int count = 0;
    while (chaos_ncp_take(from, &to, datagram, sizeof datagram) > 0) count++;
    return count;
}

static void carry_both(void) {
    while (carry(&ann, &bob, 0401) + carry(&bob, &ann, 0402)) continue;
}

static void handles(void) {
    uint64_t due;
    CHECK(chaos_ncp_tick(&ann, now), CHAOS_NCP_NO_NODE);
    CHECK(chaos_ncp_destroy(&ann), CHAOS_NCP_NO_NODE);
    CHECK(chaos_ncp_pass(&ann, 1), CHAOS_NCP_NO_NODE);
    CHECK(chaos_ncp_create(&ann, 0402, 2, 0), CHAOS_NCP_BAD_WINDOW);
    CHECK(chaos_ncp_create(&ann, 0, 2, 13), CHAOS_NCP_BAD_ADDRESS);
    CHECK(chaos_ncp_create(&ann, 0402, 256, 13), CHAOS_NCP_BAD_COUNT);
    CHECK(chaos_ncp_create(&ann, 0402, 2, 2), 0);
    CHECK(chaos_ncp_create(&ann, 0402, 2, 2), CHAOS_NCP_HAS_NODE);
    CHECK(chaos_ncp_create(&bob, 0401, 1, 2), 0);
    CHECK(chaos_ncp_next_due(&ann, &due), 0);
    CHECK(chaos_ncp_feed(&ann, BYTES("no datagram"), now), CHAOS_NCP_BAD_DATAGRAM);
    CHECK(chaos_ncp_feed(&ann, BYTES(""), now), CHAOS_NCP_BAD_DATAGRAM);
}

static void contacts(void) {
    CHECK(chaos_ncp_listen(&bob, BYTES("TALK")), 0);
    CHECK(chaos_ncp_listen(&bob, BYTES("TALK")), CHAOS_NCP_ALREADY_LISTENS);
    CHECK(chaos_ncp_listen(&bob, BYTES("TALK TO")), CHAOS_NCP_BAD_CONTACT);
    CHECK(chaos_ncp_connect(&ann, 0, BYTES("TALK"), 1, now), CHAOS_NCP_BAD_ADDRESS);
    CHECK(chaos_ncp_state(&ann, 1), CHAOS_NCP_NO_CONNECTION);
}

/* The number of the next connection that ann asks for. */
static int32_t asked(void) { return chaos_ncp_connect(&ann, 0401, BYTES("TALK"), 1, now); }

/* A node that isn't in use passes over numbers of each slot, of which nothing goes out. */
static void passing(void) {
    CHECK(chaos_ncp_pass(&ann, 0), 0);
    CHECK(chaos_ncp_pass(&ann, 3), 0);
    CHECK(lose(&ann), 0);
    CHECK(asked(), 3 * 256 + 1);
    CHECK(asked(), 3 * 256 + 2);
    CHECK(lose(&ann), 2);
    CHECK(chaos_ncp_pass(&ann, 1), CHAOS_NCP_IN_USE);
    CHECK(chaos_ncp_close(&ann, 3 * 256 + 1, BYTES("")), 0);
    lose(&ann);
    CHECK(chaos_ncp_pass(&ann, 1), CHAOS_NCP_IN_USE);
    CHECK(chaos_ncp_close(&ann, 3 * 256 + 2, BYTES("")), 0);
    lose(&ann);
    CHECK(asked(), 4 * 256 + 1);
    CHECK(chaos_ncp_close(&ann, 4 * 256 + 1, BYTES("")), 0);
    CHECK(chaos_ncp_pass(&ann, 1), CHAOS_NCP_IN_USE);
    CHECK(lose(&ann) > 0, 1);
    CHECK(chaos_ncp_pass(&ann, 255), 0);
    CHECK(asked(), 4 * 256 + 1);
    CHECK(chaos_ncp_close(&ann, 4 * 256 + 1, BYTES("")), 0);
    lose(&ann);
}

/* A request that is retransmitted, and answered by one ANS. */
static void one_answer(void) {
    uint64_t due = 0;
    uint16_t to, id = (uint16_t)chaos_ncp_connect(&ann, 0401, BYTES("TALK about it"), 7, now), asked;
    uint8_t lost[CHAOS_NCP_MAX_DATAGRAM];
    CHECK(chaos_ncp_state(&ann, id), CHAOS_NCP_RFC_SENT);
    CHECK(chaos_ncp_peer(&ann, id), 0401);
    CHECK(chaos_ncp_take(&ann, &to, lost, sizeof lost - 1), CHAOS_NCP_SMALL_BUFFER);
    CHECK(chaos_ncp_take(&ann, &to, lost, sizeof lost) > 0, 1);
    CHECK(chaos_ncp_next_due(&ann, &due), 1);
    CHECK((int64_t)due, (int64_t)now + 500);
    now = due;
    CHECK(chaos_ncp_tick(&ann, now), 0);
    carry_both();
    asked = (uint16_t)chaos_ncp_connection(&bob, 0);
    CHECK(chaos_ncp_connection(&bob, 1), 0);
    CHECK(chaos_ncp_state(&bob, asked), CHAOS_NCP_RFC_RECEIVED);
    CHECK(chaos_ncp_contact(&bob, asked, buffer, sizeof buffer), 4);
    CHECK(memcmp(buffer, "TALK", 4), 0);
    CHECK(chaos_ncp_arguments(&bob, asked, buffer, 7), CHAOS_NCP_SMALL_BUFFER);
    CHECK(chaos_ncp_arguments(&bob, asked, buffer, sizeof buffer), 8);
    CHECK(memcmp(buffer, "about it", 8), 0);
    CHECK(chaos_ncp_answer(&bob, asked, BYTES("No.")), 0);
    CHECK(chaos_ncp_connection(&bob, 0), 0);
    carry_both();
    CHECK(chaos_ncp_state(&ann, id), CHAOS_NCP_ANSWERED);
    CHECK(chaos_ncp_ending(&ann, id, &op, buffer, sizeof buffer), 3);
    CHECK(op, 05);
    CHECK(memcmp(buffer, "No.", 3), 0);
    CHECK(chaos_ncp_release(&ann, id), 0);
    CHECK(chaos_ncp_release(&ann, id), CHAOS_NCP_NO_CONNECTION);
}

static void refusal(void) {
    uint16_t id = (uint16_t)chaos_ncp_connect(&ann, 0401, BYTES("TALK"), 8, now);
    carry_both();
    CHECK(chaos_ncp_reject(&bob, (uint16_t)chaos_ncp_connection(&bob, 0), BYTES("Not now.")), 0);
    carry_both();
    CHECK(chaos_ncp_state(&ann, id), CHAOS_NCP_CLS_RECEIVED);
    CHECK(chaos_ncp_ending(&ann, id, &op, buffer, sizeof buffer), 8);
    CHECK(op, 03);
    CHECK(chaos_ncp_release(&ann, id), 0);
}

/* A connection with windows of two packets. */
static void dialogue(void) {
    uint16_t id = (uint16_t)chaos_ncp_connect(&ann, 0401, BYTES("TALK"), 9, now), other;
    CHECK(chaos_ncp_write(&ann, id, 0200, BYTES("too early"), now), CHAOS_NCP_NOT_OPEN);
    carry_both();
    other = (uint16_t)chaos_ncp_connection(&bob, 0);
    CHECK(chaos_ncp_accept(&bob, other, 99, now), 0);
    CHECK(chaos_ncp_accept(&bob, other, 99, now), CHAOS_NCP_WRONG_STATE);
    carry_both();
    CHECK(chaos_ncp_state(&ann, id), CHAOS_NCP_OPEN);
    CHECK(chaos_ncp_write(&ann, id, 0201, BYTES("one"), now), 0);
    CHECK(chaos_ncp_write(&ann, id, 014, BYTES(""), now), 0);
    CHECK(chaos_ncp_can_write(&ann, id), 0);
    CHECK(chaos_ncp_write(&ann, id, 0200, BYTES("two"), now), CHAOS_NCP_WINDOW_FULL);
    CHECK(chaos_ncp_write(&ann, id, 03, BYTES(""), now), CHAOS_NCP_BAD_OPCODE);
    CHECK(chaos_ncp_drained(&ann, id), 0);
    carry_both();
    CHECK(chaos_ncp_front(&bob, other, &op, buffer, 2), CHAOS_NCP_SMALL_BUFFER);
    CHECK(chaos_ncp_front(&bob, other, &op, buffer, sizeof buffer), 3);
    CHECK(op, 0201);
    CHECK(memcmp(buffer, "one", 3), 0);
    CHECK(chaos_ncp_read_done(&bob, other), 1);
    CHECK(chaos_ncp_front(&bob, other, &op, buffer, sizeof buffer), 0);
    CHECK(op, 014);
    CHECK(chaos_ncp_read_done(&bob, other), 1);
    CHECK(chaos_ncp_read_done(&bob, other), 0);
    CHECK(chaos_ncp_front(&bob, other, &op, buffer, sizeof buffer), 0);
    CHECK(op, 0);
    carry_both();
    CHECK(chaos_ncp_drained(&ann, id), 1);
    CHECK(chaos_ncp_release(&ann, id), CHAOS_NCP_STILL_ACTIVE);
    CHECK(chaos_ncp_close(&bob, other, BYTES("Bye.")), 0);
    carry_both();
    CHECK(chaos_ncp_ending(&ann, id, &op, buffer, sizeof buffer), 4);
    CHECK(chaos_ncp_close(&ann, id, BYTES("")), 0);
}

/* An outbox takes 66 packets: a call that may put out another is refused, and made once all are taken. */
static void full_outbox(void) {
    int32_t id = 0;
    for (int count = 0; count < 66; count++) {
        if (count) CHECK(chaos_ncp_close(&ann, (uint16_t)id, BYTES("")), 0);
        id = chaos_ncp_connect(&ann, 0401, BYTES("TALK"), 1, now);
        CHECK(id > 0, 1);
    }
    CHECK(chaos_ncp_connect(&ann, 0401, BYTES("TALK"), 1, now), CHAOS_NCP_OUTBOX_FULL);
    CHECK(chaos_ncp_close(&ann, (uint16_t)id, BYTES("")), CHAOS_NCP_OUTBOX_FULL);
    CHECK(chaos_ncp_feed(&ann, BYTES("any"), now), CHAOS_NCP_OUTBOX_FULL);
    now += 500;
    CHECK(chaos_ncp_tick(&ann, now), CHAOS_NCP_OUTBOX_FULL);
    CHECK(lose(&ann), 66);
    CHECK(chaos_ncp_tick(&ann, now), 0);
    CHECK(lose(&ann), 1);
    CHECK(chaos_ncp_close(&ann, (uint16_t)id, BYTES("")), 0);
}

int main(void) {
    memset(&bob, 0, sizeof bob);
    handles();
    contacts();
    passing();
    one_answer();
    refusal();
    dialogue();
    full_outbox();
    CHECK(chaos_ncp_destroy(&ann), 0);
    CHECK(chaos_ncp_destroy(&bob), 0);
    CHECK(chaos_ncp_tick(&bob, now), CHAOS_NCP_NO_NODE);
    return failed;
}
