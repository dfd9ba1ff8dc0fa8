/* What libpasa.a answers to packets, for hosts/wireshark/check: a packet in hexadecimal digits on each line of standard input, an answer on
 * each line of standard output:
 *
 *     REFUSAL ADDRESS PLACE CHECKED PARENT DEPTH LENGTH HOST STEP NODE STEP NODE ..
 *
 * ADDRESS, PARENT and NODE in hexadecimal digits. CHECKED says how many of the first three octets the reading looked at. LENGTH is the
 * address's in bits, and HOST is 1 for a host. Without a refusal there follow the address's steps, such as router:0, each with the node that it
 * leads to; the last node is the address. */
#include <inttypes.h>
#include <stdio.h>
#include <stdlib.h>
#include <string.h>

#include "pasa.h"

enum { PACKET_MOST = 4096, START = 3 };

static void fail(const char *what)
{
    fprintf(stderr, "answers: %s\n", what);
    exit(2);
}

static int digit(char c)
{
    const char *digits = "0123456789abcdef";
    const char *found = c == '\0' ? NULL : strchr(digits, c);
    if (found == NULL) {
        fail("a digit that is none of 0 to 9 and a to f");
    }
    return (int)(found - digits);
}

static size_t octets(const char *line, uint8_t *packet)
{
    size_t digits = strcspn(line, "\n");
    if (digits % 2 != 0 || digits / 2 > PACKET_MOST) {
        fail("half an octet, or too many");
    }
    for (size_t i = 0; i < digits / 2; i++) {
        packet[i] = (uint8_t)(digit(line[2 * i]) * 16 + digit(line[2 * i + 1]));
    }
    return digits / 2;
}

/* An octet that is wrong is refused as soon as it is there, whatever is behind it: so a packet's beginnings tell how far its reading came. */
static size_t checked(const uint8_t *packet, size_t length)
{
    size_t count = 0;
    while (count < START && count < length) {
        count++;
        if (pasa_header_read(packet, count).refusal == PASA_WRONG_START) {
            break;
        }
    }
    return count;
}

static struct pasa_node with_counts(uint64_t address, uint8_t routers, uint8_t hosts)
{
    struct pasa_node node = pasa_fresh(address);
    node.routers = routers;
    node.hosts = hosts;
    return node;
}

/* The step from a parent to its child is the one by which the parent would give it. */
static void print_step(uint64_t parent, uint64_t child)
{
    for (uint8_t index = 0; index < PASA_LONGEST; index++) {
        if (pasa_child_router(with_counts(parent, index, 0)).child == child) {
            printf(" router:%u %" PRIx64, index, child);
            return;
        }
        if (pasa_child_host(with_counts(parent, 0, index)).child == child) {
            printf(" host:%u %" PRIx64, index, child);
            return;
        }
    }
    fail("a path goes to a node that its parent never gives");
}

static void print_steps(uint64_t address)
{
    uint64_t words[PASA_PATH_MOST];
    struct pasa_listed listed = pasa_path(PASA_ROOT, address, words, PASA_PATH_MOST);
    if (listed.refusal != PASA_DONE) {
        fail("no path from the root");
    }
    for (uint32_t hop = 0; hop < listed.hops; hop++) {
        print_step(words[hop], words[hop + 1]);
    }
}

static void print_answer(const uint8_t *packet, size_t length)
{
    struct pasa_read read = pasa_header_read(packet, length);
    printf("%u %" PRIx64 " %zu %zu", read.refusal, read.address, read.place, checked(packet, length));
    printf(" %" PRIx64 " %" PRIu32 " %" PRIu32 " %u", pasa_parent(read.address), pasa_depth(read.address), pasa_bit_length(read.address),
           pasa_is_host(read.address));
    if (read.refusal == PASA_DONE) {
        print_steps(read.address);
    }
    putchar('\n');
}

int main(void)
{
    static char line[2 * PACKET_MOST + 2];
    static uint8_t packet[PACKET_MOST];
    while (fgets(line, sizeof line, stdin) != NULL) {
        print_answer(packet, octets(line, packet));
    }
    return 0;
}
