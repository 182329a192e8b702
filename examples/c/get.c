/* Gets a file of a FILE server, such as `chaosd serve`, by the library chaos_ncp over a UDP socket.
 *
 *     get ADDRESS PORT SERVER=IP:PORT FILE > COPY
 *     get 402 9002 401=127.0.0.1:9001 A.LISP > A.LISP
 *
 * The Chaosnet addresses are octal. Nothing is written before the whole file came. Status 0: it came; 1: it didn't; 2: a bad line;
 * 3: the server refused it; 4: no memory. docs/NCP.md walks through this program, and docs/FILE.md has the commands that it sends. */
#include <arpa/inet.h>
#include <chaos_ncp.h>
#include <errno.h>
#include <poll.h>
#include <stdarg.h>
#include <stdio.h>
#include <stdlib.h>
#include <string.h>
#include <sys/socket.h>
#include <time.h>
#include <unistd.h>

enum status { DONE, FAULT, BAD_LINE, REFUSED, NO_MEMORY };

enum { WINDOW = 13, PATIENCE = 10000, LONGEST_WAIT = 100, DATA = 0200, END_OF_FILE = 014, MOST_BYTES = 1 << 20 };

/* A client: its node, its connection, its socket and the server. */
struct client {
    chaos_ncp ncp;
    uint16_t connection, server;
    int socket;
    struct sockaddr_in there;
    const char *place; /* the server as the line names it */
};

/* What came of the file so far. */
struct copy {
    uint8_t *bytes;
    size_t count;
};

static struct client client = {.ncp = CHAOS_NCP_NONE, .socket = -1};

/* Sends all datagrams that wait. One that the system doesn't send is lost, as any may be: the node sends it again. */
static void send_all(void) {
    uint8_t datagram[CHAOS_NCP_MAX_DATAGRAM];
    uint16_t to;
    int32_t count;
    while ((count = chaos_ncp_take(&client.ncp, &to, datagram, sizeof datagram)) > 0)
        if (to == client.server)
            sendto(client.socket, datagram, (size_t)count, 0, (const struct sockaddr *)&client.there, sizeof client.there);
}

/* Gives the connection up, of which the server hears, and the node. */
static void hang_up(void) {
    chaos_ncp_close(&client.ncp, client.connection, (const uint8_t *)"", 0);
    send_all();
    chaos_ncp_destroy(&client.ncp);
}

/* Ends the program with a message. */
static void end(enum status status, const char *format, ...) {
    va_list rest;
    va_start(rest, format);
    hang_up();
    fputs("get: ", stderr);
    vfprintf(stderr, format, rest);
    fputc('\n', stderr);
    va_end(rest);
    exit(status);
}

static uint64_t now(void) {
    struct timespec time;
    if (clock_gettime(CLOCK_MONOTONIC, &time)) end(FAULT, "the clock can't be read: %s", strerror(errno));
    return (uint64_t)time.tv_sec * 1000 + (uint64_t)time.tv_nsec / 1000000;
}

/* How long to wait for a datagram, in milliseconds: until something is due. */
static int wait_for(void) {
    uint64_t due, moment = now();
    if (chaos_ncp_next_due(&client.ncp, &due) != 1 || due > moment + LONGEST_WAIT) return LONGEST_WAIT;
    return due > moment ? (int)(due - moment) : 0;
}

/* One turn: sends what waits, feeds a datagram where one comes in time, and does what is due. */
static void turn(void) {
    uint8_t datagram[CHAOS_NCP_MAX_FED + 1];
    struct pollfd ready = {.fd = client.socket, .events = POLLIN};
    send_all();
    if (poll(&ready, 1, wait_for()) > 0) {
        ssize_t count = recv(client.socket, datagram, sizeof datagram, 0);
        if (count >= 0) chaos_ncp_feed(&client.ncp, datagram, (size_t)count, now());
    }
    send_all();
    while (chaos_ncp_tick(&client.ncp, now()) == CHAOS_NCP_OUTBOX_FULL) send_all();
}

/* Ends the program where the connection has ended, with what the server said. */
static void check_open(void) {
    uint8_t op, text[CHAOS_NCP_MAX_DATA];
    int32_t state = chaos_ncp_state(&client.ncp, client.connection), count;
    if (state == CHAOS_NCP_RFC_SENT || state == CHAOS_NCP_OPEN) return;
    count = chaos_ncp_ending(&client.ncp, client.connection, &op, text, sizeof text);
    if (state == CHAOS_NCP_HOST_DOWN) end(FAULT, "%s isn't heard any more", client.place);
    if (count > 0) end(FAULT, "%s ended the connection: %.*s", client.place, (int)count, (const char *)text);
    end(FAULT, "%s ended the connection", client.place);
}

/* Takes turns until there is an answer, for as long as one is waited for. */
static void await(int (*is_there)(void)) {
    uint64_t since = now();
    while (!is_there()) {
        if (now() - since > PATIENCE) end(FAULT, "no answer from %s", client.place);
        turn();
        check_open();
    }
}

static int can_write(void) { return chaos_ncp_can_write(&client.ncp, client.connection) == 1; }

static int is_drained(void) {
    return chaos_ncp_drained(&client.ncp, client.connection) == 1 || chaos_ncp_state(&client.ncp, client.connection) != CHAOS_NCP_OPEN;
}

static int has_item(void) {
    uint8_t op, item[CHAOS_NCP_MAX_DATA];
    return chaos_ncp_front(&client.ncp, client.connection, &op, item, sizeof item) >= 0 && op != 0;
}

/* Sends a command, and gives its reply behind the tid and the handle, with a 0 at its end: "T F READ.." as "READ..". An ERROR ends the
 * program. */
static size_t ask(const char *handle, const char *command, char reply[CHAOS_NCP_MAX_DATA + 1]) {
    char text[CHAOS_NCP_MAX_DATA];
    uint8_t op;
    int count = snprintf(text, sizeof text, "T %s %s", handle, command), front = 3 + (int)strlen(handle);
    int32_t came;
    await(can_write);
    if (chaos_ncp_write(&client.ncp, client.connection, DATA, (const uint8_t *)text, (size_t)count, now()) < 0)
        end(FAULT, "%s takes no command", client.place);
    await(has_item);
    came = chaos_ncp_front(&client.ncp, client.connection, &op, (uint8_t *)text, sizeof text);
    if (op < DATA || came < front || chaos_ncp_read_done(&client.ncp, client.connection) != 1)
        end(FAULT, "%s doesn't speak FILE", client.place);
    memcpy(reply, text + front, (size_t)(came - front));
    reply[came - front] = 0;
    if (!strncmp(reply, "ERROR ", 6)) end(REFUSED, "%s", reply + 6);
    return (size_t)(came - front);
}

/* Reads the file that is open as F, to its end. */
static void read_file(struct copy *copy) {
    char reply[CHAOS_NCP_MAX_DATA + 1];
    for (;;) {
        size_t count = ask("F", "READ", reply);
        if (count == 3 && !memcmp(reply, "EOF", 3)) return;
        if (count < 5 || memcmp(reply, "READ\215", 5)) end(FAULT, "%s doesn't speak FILE", client.place);
        if (copy->count + count - 5 > MOST_BYTES) end(FAULT, "%s sends more than a file may have", client.place);
        memcpy(copy->bytes + copy->count, reply + 5, count - 5);
        copy->count += count - 5;
    }
}

/* Says farewell: an EOF, and when the server has read it, a CLS. */
static void leave(void) {
    await(can_write);
    chaos_ncp_write(&client.ncp, client.connection, END_OF_FILE, (const uint8_t *)"", 0, now());
    for (uint64_t since = now(); !is_drained() && now() - since < PATIENCE;) turn();
    hang_up();
}

/* A number of a line, to its end or to `last`. */
static unsigned long number(const char *text, int radix, unsigned long most, char last, const char *what) {
    char *rest;
    unsigned long found = strtoul(text, &rest, radix);
    if (text[0] < '0' || text[0] > '9' || *rest != last || found == 0 || found > most) end(BAD_LINE, "%s is no %s", text, what);
    return found;
}

/* Reads the line: ADDRESS PORT SERVER=IP:PORT FILE. Opens the socket, and makes the node. */
static void begin(char **words) {
    struct sockaddr_in here = {.sin_family = AF_INET, .sin_addr.s_addr = htonl(INADDR_ANY)};
    uint16_t address = (uint16_t)number(words[1], 8, 65535, 0, "address of Chaosnet");
    char ip[INET_ADDRSTRLEN] = "", *at = strchr(words[3], '='), *port = at ? strchr(at, ':') : NULL;
    here.sin_port = htons((uint16_t)number(words[2], 10, 65535, 0, "UDP port"));
    client.place = words[3];
    if (!port || (size_t)(port - at - 1) >= sizeof ip) end(BAD_LINE, "%s is no server such as 401=127.0.0.1:9001", words[3]);
    memcpy(ip, at + 1, (size_t)(port - at - 1));
    client.server = (uint16_t)number(words[3], 8, 65535, '=', "server such as 401=127.0.0.1:9001");
    client.there = (struct sockaddr_in){.sin_family = AF_INET, .sin_port = htons((uint16_t)number(port + 1, 10, 65535, 0, "UDP port"))};
    if (inet_pton(AF_INET, ip, &client.there.sin_addr) != 1) end(BAD_LINE, "%s is no IP address", ip);
    client.socket = socket(AF_INET, SOCK_DGRAM, 0);
    if (client.socket < 0 || bind(client.socket, (const struct sockaddr *)&here, sizeof here))
        end(FAULT, "port %s can't be opened: %s", words[2], strerror(errno));
    if (chaos_ncp_create(&client.ncp, address, 1, WINDOW) < 0) end(NO_MEMORY, "no memory");
}

/* Asks the server for FILE. The server may still have a connection of an earlier run of this program that was killed. So the node passes
 * over as many numbers as the clock says, and this run's connection has another number. */
static void call(void) {
    struct timespec time;
    clock_gettime(CLOCK_REALTIME, &time);
    uint16_t first = (uint16_t)(time.tv_sec * 1000 + time.tv_nsec / 1000000);
    chaos_ncp_pass(&client.ncp, (uint8_t)(time.tv_nsec / 1000));
    int32_t connection = chaos_ncp_connect(&client.ncp, client.server, (const uint8_t *)"FILE", 4, first, now());
    if (connection < 0) end(FAULT, "no connection: %d", (int)connection);
    client.connection = (uint16_t)connection;
}

int main(int count, char **words) {
    char command[CHAOS_NCP_MAX_DATA], reply[CHAOS_NCP_MAX_DATA + 1];
    struct copy copy = {malloc(MOST_BYTES), 0};
    if (count != 5) end(BAD_LINE, "use it as get ADDRESS PORT SERVER=IP:PORT FILE, such as get 402 9002 401=127.0.0.1:9001 A.LISP");
    if (strlen(words[4]) > 64) end(BAD_LINE, "%s is no file of FILE", words[4]);
    if (!copy.bytes) end(NO_MEMORY, "no memory");
    begin(words);
    call();
    ask("", "LOGIN CLIENT", reply);
    snprintf(command, sizeof command, "OPEN READ\215%s", words[4]);
    ask("F", command, reply);
    read_file(&copy);
    ask("F", "CLOSE", reply);
    leave();
    if (fwrite(copy.bytes, 1, copy.count, stdout) != copy.count || fflush(stdout)) end(FAULT, "the copy can't be written: %s", strerror(errno));
    return DONE;
}
