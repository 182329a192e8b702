/* Turns datagrams by examples/c/chudp.h, for tests/ncp.py: `chudp wrap` and `chudp unwrap` read a datagram on each line, in hexadecimal
 * digits, and print what becomes of it. Behind a datagram to wrap stand its hop and its sender, four digits each. */
#include <chudp.h>
#include <stdio.h>

static char line[8192];
static uint8_t bytes[4096];

int main(int count, char **words) {
    int is_wrap = count == 2 && !strcmp(words[1], "wrap");
    while (fgets(line, sizeof line, stdin)) {
        unsigned byte;
        size_t size = strcspn(line, "\n") / 2;
        for (size_t at = 0; at < size; at++) {
            if (sscanf(line + 2 * at, "%2x", &byte) != 1) return 2;
            bytes[at] = (uint8_t)byte;
        }
        if (is_wrap) {
            uint8_t *ends = bytes + size - 4;
            uint16_t hop = (uint16_t)(ends[0] << 8 | ends[1]), from = (uint16_t)(ends[2] << 8 | ends[3]);
            size = chudp_wrap(bytes, size - 4, hop, from);
        } else
            size = chudp_unwrap(bytes, size);
        for (size_t at = 0; at < size; at++) printf("%02x", bytes[at]);
        printf("\n");
    }
    return 0;
}
