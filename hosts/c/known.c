/* Calls every function of pasa.h and compares with the specification's known values. Each difference is a line, and the exit status is 1;
 * without one the last line says how many values were compared. */
#include <inttypes.h>
#include <stdbool.h>
#include <stdio.h>
#include <string.h>

#include "pasa.h"

static unsigned compared, differences;

static void same(const char *what, uint64_t got, uint64_t expected)
{
    compared++;
    if (got != expected) {
        differences++;
        printf("%s: 0x%" PRIx64 ", but the specification says 0x%" PRIx64 "\n", what, got, expected);
    }
}

static void same_octets(const char *what, const uint8_t *got, const uint8_t *expected, size_t count)
{
    for (size_t i = 0; i < count; i++) {
        char place[96];
        snprintf(place, sizeof place, "%s, octet %zu", what, i);
        same(place, got[i], expected[i]);
    }
}

/* The address that binary digits show. */
static uint64_t bits(const char *digits)
{
    uint64_t number = 0;
    for (; *digits != '\0'; digits++)
        number = number * 2 + (uint64_t)(*digits - '0');
    return number;
}

static void same_text(const char *what, const char *got, const char *expected)
{
    compared++;
    if (strcmp(got, expected) != 0) {
        differences++;
        printf("%s: \"%s\", but the specification says \"%s\"\n", what, got, expected);
    }
}

static struct pasa_node record(const char *digits, uint8_t routers, uint8_t hosts)
{
    struct pasa_node node = pasa_fresh(bits(digits));
    node.routers = routers;
    node.hosts = hosts;
    return node;
}

/* The same record with other limits, whatever they are: bad records are made so too. */
static struct pasa_node limited(struct pasa_node node, uint8_t routers, uint8_t hosts)
{
    node.router_limit = routers;
    node.host_limit = hosts;
    return node;
}

static void same_node(const char *what, struct pasa_node got, struct pasa_node node)
{
    char part[128];
    snprintf(part, sizeof part, "%s: the record's address", what);
    same(part, got.address, node.address);
    snprintf(part, sizeof part, "%s: the record's routers", what);
    same(part, got.routers, node.routers);
    snprintf(part, sizeof part, "%s: the record's hosts", what);
    same(part, got.hosts, node.hosts);
    snprintf(part, sizeof part, "%s: the record's limit on routers", what);
    same(part, got.router_limit, node.router_limit);
    snprintf(part, sizeof part, "%s: the record's limit on hosts", what);
    same(part, got.host_limit, node.host_limit);
}

static void same_child(const char *what, struct pasa_child got, uint64_t child, struct pasa_node node, uint8_t refusal)
{
    char part[128];
    snprintf(part, sizeof part, "%s: the child", what);
    same(part, got.child, child);
    snprintf(part, sizeof part, "%s: the refusal", what);
    same(part, got.refusal, refusal);
    same_node(what, got.node, node);
}

static void same_limited(const char *what, struct pasa_limited got, struct pasa_node node, uint8_t refusal)
{
    char part[128];
    snprintf(part, sizeof part, "%s: the refusal", what);
    same(part, got.refusal, refusal);
    same_node(what, got.node, node);
}

static void same_hop_to(const char *what, struct pasa_hop got, uint64_t node, uint8_t action, uint8_t refusal)
{
    char part[128];
    snprintf(part, sizeof part, "%s: the node", what);
    same(part, got.node, node);
    snprintf(part, sizeof part, "%s: the action", what);
    same(part, got.action, action);
    snprintf(part, sizeof part, "%s: the refusal", what);
    same(part, got.refusal, refusal);
}

static void same_hop(const char *what, struct pasa_hop got, const char *node, uint8_t action, uint8_t refusal)
{
    same_hop_to(what, got, bits(node), action, refusal);
}

static void address_as(const char *digits, const char *parent, uint32_t depth, uint8_t is_host)
{
    char part[160];
    snprintf(part, sizeof part, "%s: the parent", digits);
    same(part, pasa_parent(bits(digits)), bits(parent));
    snprintf(part, sizeof part, "%s: the depth", digits);
    same(part, pasa_depth(bits(digits)), depth);
    snprintf(part, sizeof part, "%s: the length in bits", digits);
    same(part, pasa_bit_length(bits(digits)), strlen(digits));
    snprintf(part, sizeof part, "%s: whether it is a host", digits);
    same(part, pasa_is_host(bits(digits)), is_host);
}

static void addresses(void)
{
    address_as("1", "0", 0, 0);
    address_as("10", "1", 1, 0);
    address_as("11", "1", 1, 1);
    address_as("110", "1", 1, 0);
    address_as("111110", "1", 1, 0);
    address_as("10010", "100", 3, 0); /* 003, 7.1: "Len(0x00010010) = 5" */
    address_as("10011", "100", 3, 1);
    address_as("101011", "1010", 3, 1);
    same("zero: the parent", pasa_parent(0), 0);
    same("zero: the depth", pasa_depth(0), 0);
    same("zero: the length in bits", pasa_bit_length(0), 0);
    same("zero: whether it is a host", pasa_is_host(0), 0);
    same("64 ones: the parent", pasa_parent(UINT64_MAX), PASA_ROOT);
    same("64 ones: the depth", pasa_depth(UINT64_MAX), 1);
    same("64 ones: the length in bits", pasa_bit_length(UINT64_MAX), PASA_LONGEST);
    same("64 ones: whether it is a host", pasa_is_host(UINT64_MAX), 1);
    same("the deepest: the depth", pasa_depth(UINT64_C(1) << 63), 63);
    same("the deepest: the parent", pasa_parent(UINT64_C(1) << 63), UINT64_C(1) << 62);
}

static void interface(void)
{
    PASA_CHECK_INTERFACE();
    same("the number of the interface", PASA_INTERFACE(), 2);
}

static void refusal_texts(void)
{
    same_text("refusal 0", pasa_refusal_text(PASA_DONE), "done");
    same_text("refusal 1", pasa_refusal_text(1), "the node record is bad, or a limit to set isn't 0 to 64 or is below its count");
    same_text("refusal 2", pasa_refusal_text(2), "a host is asked for a child");
    same_text("refusal 3", pasa_refusal_text(3), "the child would be longer than 64 bits");
    same_text("refusal 4", pasa_refusal_text(4), "the packet ends too early");
    same_text("refusal 5", pasa_refusal_text(5), "one of the first three octets is wrong");
    same_text("refusal 6", pasa_refusal_text(6),
              "a size above 8, a first octet of zero where there are several, or an NSA field that isn't the shortest form of a number");
    same_text("refusal 7", pasa_refusal_text(7), "destination below this node, child not given");
    same_text("refusal 8", pasa_refusal_text(8), "IPv6 prefix differs");
    same_text("refusal 9", pasa_refusal_text(9), "an address is zero");
    same_text("refusal 10", pasa_refusal_text(10), "lent output too short, or no slot of a journal is erased");
    same_text("refusal 11", pasa_refusal_text(11), "the path program's input isn't the one line it reads");
    same_text("refusal 12", pasa_refusal_text(12),
              "an IPv6 address isn't 16 octets, a prefix isn't 8, a journal isn't 1 to 128 slots, or a block isn't 1 to 63 addresses");
    same_text("refusal 13", pasa_refusal_text(13), "a plan's text is outside the grammar");
    same_text("refusal 14", pasa_refusal_text(14),
              "a plan has too many bytes, a plan or a journal too many nodes, or an NSA payload length is above 65,787");
    same_text("refusal 15", pasa_refusal_text(PASA_AT_LIMIT), "a node is asked for a child at its limit");
    same("the number at a limit", PASA_AT_LIMIT, 15);
    same_text("refusal 16", pasa_refusal_text(PASA_EMPTY), "the payload is empty");
    same("the number of an empty payload", PASA_EMPTY, 16);
    same_text("refusal 17", pasa_refusal_text(PASA_BAD_JOURNAL),
              "a journal's slot is out of place or no right block, or an address in it is no next child");
    same_text("refusal 18", pasa_refusal_text(18), "a refusal that this header doesn't know");
    same_text("refusal 255", pasa_refusal_text(255), "a refusal that this header doesn't know");
}

static void children(void)
{
    struct pasa_node root = pasa_fresh(PASA_ROOT);
    same("a fresh record's address", root.address, 1);
    same("a fresh record's routers", root.routers, 0);
    same("a fresh record's hosts", root.hosts, 0);
    same("a fresh record's limit on routers", root.router_limit, 64);
    same("a fresh record's limit on hosts", root.host_limit, PASA_NO_CAP);
    same_child("the root's first router", pasa_child_router(root), bits("10"), record("1", 1, 0), PASA_DONE);
    same_child("then a host", pasa_child_host(record("1", 1, 0)), bits("11"), record("1", 1, 1), PASA_DONE);
    same_child("then a router", pasa_child_router(record("1", 1, 1)), bits("110"), record("1", 2, 1), PASA_DONE);
    same_child("then a host", pasa_child_host(record("1", 2, 1)), bits("111"), record("1", 2, 2), PASA_DONE);
    same_child("a router of node 10", pasa_child_router(record("10", 1, 1)), bits("1010"), record("10", 2, 1), PASA_DONE);
    same_child("a host of node 10", pasa_child_host(record("10", 1, 1)), bits("1011"), record("10", 1, 2), PASA_DONE);
    same_child("the root's 63rd host", pasa_child_host(record("1", 0, 62)), UINT64_MAX, record("1", 0, 63), PASA_DONE);
    same_child("the root's 64th host", pasa_child_host(record("1", 0, 63)), 0, record("1", 0, 63), PASA_TOO_LONG);

    struct pasa_node long_router = pasa_fresh(UINT64_C(1) << 62);
    struct pasa_child first = pasa_child_router(long_router);
    same("a 63-bit router's router", first.child, UINT64_C(1) << 63);
    struct pasa_child second = pasa_child_host(first.node);
    same("a 63-bit router's host", second.child, (UINT64_C(1) << 63) + 1);
    same_child("its second router", pasa_child_router(second.node), 0, second.node, PASA_TOO_LONG);
    same_child("its second host", pasa_child_host(second.node), 0, second.node, PASA_TOO_LONG);
    struct pasa_node longest_router = pasa_fresh(UINT64_C(1) << 63);
    same_child("a 64-bit router's router", pasa_child_router(longest_router), 0, longest_router, PASA_TOO_LONG);
    same_child("a 64-bit router's host", pasa_child_host(longest_router), 0, longest_router, PASA_TOO_LONG);
    same_child("host 11 asked", pasa_child_router(record("11", 0, 0)), 0, record("11", 0, 0), PASA_HOST_ASKED);
    same_child("host 11 with a count of 1", pasa_child_host(record("11", 1, 0)), 0, record("11", 1, 0), PASA_BAD_RECORD);
    same_child("a record of address zero", pasa_child_host(record("0", 0, 0)), 0, record("0", 0, 0), PASA_BAD_RECORD);
}

/* "Asked for a child at its limit, a node answers 15, after 2 and before 3." */
static void children_at_limits(void)
{
    struct pasa_node node = limited(record("10", 2, 1), 2, 5);
    same_child("a router of 10 at its limit", pasa_child_router(node), 0, node, PASA_AT_LIMIT);
    same_child("a host of the same", pasa_child_host(node), bits("1011"), limited(record("10", 2, 2), 2, 5), PASA_DONE);
    node = limited(record("10", 2, 1), 5, 1);
    same_child("a host of 10 at its limit", pasa_child_host(node), 0, node, PASA_AT_LIMIT);
    same_child("a router of the same", pasa_child_router(node), bits("10110"), limited(record("10", 3, 1), 5, 1), PASA_DONE);
    node = limited(record("10", 2, 3), 4, 4);
    same_child("a router where both kinds together are more than its limit", pasa_child_router(node), bits("10110"),
               limited(record("10", 3, 3), 4, 4), PASA_DONE);
    same_child("a host where they are", pasa_child_host(node), bits("101111"), limited(record("10", 2, 4), 4, 4), PASA_DONE);
    node = limited(record("1", 0, 0), 0, 0);
    same_child("a router of a node without any", pasa_child_router(node), 0, node, PASA_AT_LIMIT);
    same_child("a host of a node without any", pasa_child_host(node), 0, node, PASA_AT_LIMIT);
    node = limited(record("11", 0, 0), 0, 0);
    same_child("a host at its limits asked", pasa_child_host(node), 0, node, PASA_HOST_ASKED);
    same_child("a host at its limits asked for a router", pasa_child_router(node), 0, node, PASA_HOST_ASKED);
    node = limited(pasa_fresh(UINT64_C(1) << 63), 0, PASA_NO_CAP);
    same_child("a router of a 64-bit router with limit 0", pasa_child_router(node), 0, node, PASA_AT_LIMIT);
    same_child("a host of it", pasa_child_host(node), 0, node, PASA_TOO_LONG);
    node = limited(record("1", 0, 63), PASA_NO_CAP, 63);
    same_child("the root's 64th host with limit 63", pasa_child_host(node), 0, node, PASA_AT_LIMIT);
    node = limited(record("1", 0, 63), PASA_NO_CAP, 64);
    same_child("the root's 64th host with limit 64", pasa_child_host(node), 0, node, PASA_TOO_LONG);
    node = limited(record("1", 63, 0), 63, 0);
    same_child("the root's 64th router with limit 63", pasa_child_router(node), 0, node, PASA_AT_LIMIT);
}

/* "a limit above 64, or a count above its limit, makes the record bad (1)": for every call that takes one. */
static void bad_by_limits(const char *what, struct pasa_node node)
{
    uint64_t nodes[1] = {90};
    uint8_t actions[1] = {80}, refusals[1] = {70};
    const uint64_t destination = PASA_ROOT;
    const uint8_t empty[4] = {0xF1, 0x80, 0x0F, 0x01};
    same_child(what, pasa_child_router(node), 0, node, PASA_BAD_RECORD);
    same_child(what, pasa_child_host(node), 0, node, PASA_BAD_RECORD);
    same_hop(what, pasa_next_hop(node, PASA_ROOT), "0", PASA_STOPPED, PASA_BAD_RECORD);
    same_hop(what, pasa_packet_next_hop(node, NULL, 0), "0", PASA_STOPPED, PASA_BAD_RECORD);
    same_hop(what, pasa_packet_next_hop(node, empty, sizeof empty), "0", PASA_STOPPED, PASA_BAD_RECORD);
    same(what, pasa_next_hops(node, &destination, 1, nodes, 1, actions, 1, refusals, 1), 1);
    same(what, nodes[0], 0);
    same(what, actions[0], PASA_STOPPED);
    same(what, refusals[0], PASA_BAD_RECORD);
    same_limited(what, pasa_limit_routers(node, PASA_NO_CAP), node, PASA_BAD_RECORD);
    same_limited(what, pasa_limit_hosts(node, PASA_NO_CAP), node, PASA_BAD_RECORD);
}

static void records_bad_by_limits(void)
{
    bad_by_limits("a limit of 65 on routers", limited(record("10", 0, 0), 65, 64));
    bad_by_limits("a limit of 65 on hosts", limited(record("10", 0, 0), 64, 65));
    bad_by_limits("a limit of 255 on routers", limited(record("1", 0, 0), 255, 0));
    bad_by_limits("a limit of 255 on hosts", limited(record("1", 0, 0), 0, 255));
    bad_by_limits("3 routers with limit 2", limited(record("1", 3, 0), 2, 64));
    bad_by_limits("3 hosts with limit 2", limited(record("1", 0, 3), 64, 2));
    bad_by_limits("a host with a limit of 65", limited(record("11", 0, 0), 65, 64));
    /* what C makes of a struct that is filled with an address and two counts */
    bad_by_limits("a record by hand with a count", (struct pasa_node){.address = 1, .routers = 1});
    struct pasa_node by_hand = {.address = 1};
    same_child("a record by hand without counts", pasa_child_router(by_hand), 0, by_hand, PASA_AT_LIMIT);
    /* the next hop goes by counts alone where the record is good */
    struct pasa_node full = limited(record("1", 2, 2), 2, 2);
    same_hop("at a full node for its last router", pasa_next_hop(full, bits("110")), "110", PASA_TO_CHILD, PASA_DONE);
    same_hop("at a full node for the next one", pasa_next_hop(full, bits("1110")), "0", PASA_STOPPED, PASA_CHILD_NOT_GIVEN);
}

static const uint64_t OUTSIDE[] = {65, 66, 128, 255, 256, 256 + 64, UINT64_C(1) << 32, (UINT64_C(1) << 32) + 5, UINT64_C(1) << 63, UINT64_MAX};

static void set_outside(const char *what, struct pasa_node node)
{
    for (size_t i = 0; i < sizeof OUTSIDE / sizeof *OUTSIDE; i++) {
        char part[96];
        snprintf(part, sizeof part, "%s, a limit of %" PRIu64, what, OUTSIDE[i]);
        same_limited(part, pasa_limit_routers(node, OUTSIDE[i]), node, PASA_BAD_RECORD);
        same_limited(part, pasa_limit_hosts(node, OUTSIDE[i]), node, PASA_BAD_RECORD);
    }
}

/* Every limit from 0 to 64, at a node with so many children: "below its count" is refused, "otherwise the record comes back with that limit as
 * asked and nothing else changed". */
static void set_each(const char *what, struct pasa_node node)
{
    for (uint8_t limit = 0; limit <= 64; limit++) {
        char part[96];
        snprintf(part, sizeof part, "%s, a limit of %u", what, limit);
        bool few = limit < node.routers;
        same_limited(part, pasa_limit_routers(node, limit), few ? node : limited(node, limit, node.host_limit), few ? PASA_BAD_RECORD : PASA_DONE);
        few = limit < node.hosts;
        same_limited(part, pasa_limit_hosts(node, limit), few ? node : limited(node, node.router_limit, limit), few ? PASA_BAD_RECORD : PASA_DONE);
    }
    set_outside(what, node);
}

static void settings(void)
{
    set_each("a bare root", pasa_fresh(PASA_ROOT));
    set_each("a root with children", record("1", 5, 9));
    set_each("a root with limits", limited(record("1", 5, 9), 5, 10));
    set_each("a root with most children", record("1", 63, 63));
    set_each("node 10", limited(record("10", 2, 1), 40, 1));
    set_each("a 64-bit router", pasa_fresh(UINT64_C(1) << 63));
    set_each("host 11", record("11", 0, 0));
    set_outside("a bad record", record("0", 0, 0));
    same_limited("a count too many, and its limit", pasa_limit_routers(record("10", 63, 0), 64), record("10", 63, 0), PASA_BAD_RECORD);
    /* a node under its limit, full, and going on when the limit is raised */
    struct pasa_node node = pasa_limit_hosts(pasa_fresh(PASA_ROOT), 1).node;
    struct pasa_child child = pasa_child_host(node);
    same("the first host under a limit of 1", child.child, bits("11"));
    same("the second host under a limit of 1", pasa_child_host(child.node).refusal, PASA_AT_LIMIT);
    child = pasa_child_host(pasa_limit_hosts(child.node, 2).node);
    same_child("the second host under a limit of 2", child, bits("111"), limited(record("1", 0, 2), 64, 2), PASA_DONE);
    same("the third host under a limit of 2", pasa_child_host(child.node).refusal, PASA_AT_LIMIT);
    child = pasa_child_host(pasa_limit_hosts(child.node, PASA_NO_CAP).node);
    same_child("the third host without a limit", child, bits("1111"), record("1", 0, 3), PASA_DONE);
}

static void next_hops(void)
{
    same_hop("at 11 for 110", pasa_next_hop(record("11", 0, 0), bits("110")), "1", PASA_TO_PARENT, PASA_DONE);
    same_hop("at 1 for 110", pasa_next_hop(record("1", 2, 2), bits("110")), "110", PASA_TO_CHILD, PASA_DONE);
    same_hop("at 1 for 1110", pasa_next_hop(record("1", 2, 2), bits("1110")), "0", PASA_STOPPED, PASA_CHILD_NOT_GIVEN);
    same_hop("at 10 for 101011", pasa_next_hop(record("10", 2, 2), bits("101011")), "1010", PASA_TO_CHILD, PASA_DONE);
    same_hop("at 10 for 10", pasa_next_hop(record("10", 2, 2), bits("10")), "10", PASA_DELIVERED, PASA_DONE);
    same_hop("at 10 for zero", pasa_next_hop(record("10", 2, 2), 0), "0", PASA_STOPPED, PASA_ZERO_ADDRESS);
    same_hop("at a bad record for zero", pasa_next_hop(record("10", 63, 0), 0), "0", PASA_STOPPED, PASA_BAD_RECORD);

    uint8_t packet[16] = {0};
    struct pasa_written written = pasa_header_write(bits("101011"), packet, sizeof packet);
    same_hop("at 10 for a packet to 101011", pasa_packet_next_hop(record("10", 2, 2), packet, sizeof packet), "1010", PASA_TO_CHILD,
             PASA_DONE);
    same_hop("at 10 for half a packet", pasa_packet_next_hop(record("10", 2, 2), packet, written.count - 1), "0", PASA_STOPPED,
             PASA_ENDS_EARLY);
    same_hop("at 10 for no packet", pasa_packet_next_hop(record("10", 2, 2), NULL, 0), "0", PASA_STOPPED, PASA_ENDS_EARLY);

    const uint64_t destinations[4] = {bits("110"), bits("1110"), bits("1"), 0};
    uint64_t nodes[4] = {90, 91, 92, 93};
    uint8_t actions[4] = {80, 81, 82, 83};
    uint8_t refusals[3] = {70, 71, 72};
    same("many next hops, as many as the shortest allows",
         pasa_next_hops(record("1", 2, 2), destinations, 4, nodes, 4, actions, 4, refusals, 3), 3);
    same("the first of many: the node", nodes[0], bits("110"));
    same("the first of many: the action", actions[0], PASA_TO_CHILD);
    same("the first of many: the refusal", refusals[0], PASA_DONE);
    same("the second of many: the node", nodes[1], 0);
    same("the second of many: the action", actions[1], PASA_STOPPED);
    same("the second of many: the refusal", refusals[1], PASA_CHILD_NOT_GIVEN);
    same("the third of many: the node", nodes[2], 1);
    same("the third of many: the action", actions[2], PASA_DELIVERED);
    same("the third of many: the refusal", refusals[2], PASA_DONE);
    same("the node behind them", nodes[3], 93);
    same("the action behind them", actions[3], 83);
    same("no next hops", pasa_next_hops(record("1", 2, 2), NULL, 0, NULL, 0, NULL, 0, NULL, 0), 0);
    same("no room for next hops", pasa_next_hops(record("1", 2, 2), destinations, 4, nodes, 4, NULL, 0, refusals, 3), 0);
}

static void read_as(const char *what, const uint8_t *packet, size_t length, uint64_t address, size_t place, uint8_t refusal)
{
    char part[96];
    struct pasa_read got = pasa_header_read(packet, length);
    snprintf(part, sizeof part, "%s: the address", what);
    same(part, got.address, address);
    snprintf(part, sizeof part, "%s: the place", what);
    same(part, got.place, place);
    snprintf(part, sizeof part, "%s: the refusal", what);
    same(part, got.refusal, refusal);
}

static void headers(void)
{
    const uint8_t known[6] = {0xF1, 0x80, 0x0F, 0x3E, 0x55, 0x55};
    uint8_t out[PASA_HEADER_MOST];
    memset(out, 0x55, sizeof out);
    struct pasa_written written = pasa_header_write(bits("111110"), out, sizeof out);
    same("the header of 111110: its octets", written.count, 4);
    same("the header of 111110: the refusal", written.refusal, PASA_DONE);
    same_octets("the header of 111110, and two behind it", out, known, sizeof known);
    read_as("the header of 111110 and one octet", known, 5, bits("111110"), 4, PASA_DONE);
    read_as("the header of 111110 and two octets", known, 6, bits("111110"), 4, PASA_DONE);
    same("the header of 255: its octets", pasa_header_write(255, out, sizeof out).count, 4);
    same("the header of 256: its octets", pasa_header_write(256, out, sizeof out).count, 5);
    same("the header of 65,535: its octets", pasa_header_write(65535, out, sizeof out).count, 5);
    same("the header of 65,536: its octets", pasa_header_write(65536, out, sizeof out).count, 6);
    same("the longest header: its octets", pasa_header_write(UINT64_MAX, out, sizeof out).count, PASA_HEADER_MOST);
    same("no room for a header", pasa_header_write(65536, out, 5).refusal, PASA_NO_ROOM);
    same("no buffer for a header", pasa_header_write(1, NULL, 0).refusal, PASA_NO_ROOM);
    same("a header of zero", pasa_header_write(0, NULL, 0).refusal, PASA_ZERO_ADDRESS);

    read_as("F1 80 0F 00", (const uint8_t[]){0xF1, 0x80, 0x0F, 0x00}, 4, 0, 0, PASA_ZERO_ADDRESS);
    read_as("F1 81 0F 00 3E", (const uint8_t[]){0xF1, 0x81, 0x0F, 0x00, 0x3E}, 5, 0, 0, PASA_WRONG_SIZE);
    read_as("F1 81 0F 00 00", (const uint8_t[]){0xF1, 0x81, 0x0F, 0x00, 0x00}, 5, 0, 0, PASA_WRONG_SIZE);
    read_as("F1 83 0F 00 00 00 3E", (const uint8_t[]){0xF1, 0x83, 0x0F, 0x00, 0x00, 0x00, 0x3E}, 7, 0, 0, PASA_WRONG_SIZE);
    read_as("F1 88 0F", (const uint8_t[]){0xF1, 0x88, 0x0F}, 3, 0, 0, PASA_WRONG_SIZE);
    read_as("F1 82 0F", (const uint8_t[]){0xF1, 0x82, 0x0F}, 3, 0, 0, PASA_ENDS_EARLY);
    read_as("F1 82 0F 01 00 00 and an octet", (const uint8_t[]){0xF1, 0x82, 0x0F, 0x01, 0x00, 0x00, 0x00}, 7, 65536, 6, PASA_DONE);
    read_as("F1 81 0F 00", (const uint8_t[]){0xF1, 0x81, 0x0F, 0x00}, 4, 0, 0, PASA_ENDS_EARLY);
    read_as("F1 A1", (const uint8_t[]){0xF1, 0xA1}, 2, 0, 0, PASA_WRONG_START);
    read_as("no octets", NULL, 0, 0, 0, PASA_ENDS_EARLY);
}

/* A packet as it is put together, and the octets of which a payload is made. */
enum { LONGEST_PAYLOAD = 65537 };
static uint8_t packet[PASA_HEADER_MOST + 24 + LONGEST_PAYLOAD];
static const uint8_t BEHIND[] = {0x00, 0x01, 0x0F, 0xF1, 0xFF};

/* A header octet by octet, as the documents have it, of an address in so many octets, with zeros in front where it takes fewer; behind it the same
 * octet again and again. Answers where the payload begins. */
static size_t put_packet(uint64_t address, size_t size, uint8_t behind)
{
    const uint8_t start[3] = {0xF1, (uint8_t)(0x80 + size - 1), 0x0F};
    memset(packet, behind, sizeof packet);
    memcpy(packet, start, sizeof start);
    for (size_t i = 0; i < size; i++)
        packet[3 + i] = size - i > 8 ? 0 : (uint8_t)(address >> 8 * (size - i - 1));
    return 3 + size;
}

/* "A packet whose payload is empty is refused with 16": one octet is enough, whatever it is, and a header that is not whole is 4 as before. */
static void payload_behind(uint64_t address, size_t size)
{
    char what[72];
    for (size_t i = 0; i < sizeof BEHIND; i++) {
        size_t place = put_packet(address, size, BEHIND[i]);
        snprintf(what, sizeof what, "a beginning of the header of 0x%" PRIx64, address);
        for (size_t length = 0; length < place; length++)
            read_as(what, packet, length, 0, 0, PASA_ENDS_EARLY);
        snprintf(what, sizeof what, "the header of 0x%" PRIx64 " alone", address);
        read_as(what, packet, place, 0, 0, PASA_EMPTY);
        snprintf(what, sizeof what, "the header of 0x%" PRIx64 " and %02X", address, BEHIND[i]);
        read_as(what, packet, place + 1, address, place, PASA_DONE);
    }
    const size_t more[] = {2, 3, 8, 253, 254, 255, 256, 257, 65535, 65536, LONGEST_PAYLOAD};
    for (size_t i = 0; i < sizeof more / sizeof *more; i++) {
        snprintf(what, sizeof what, "the header of 0x%" PRIx64 " and %zu octets", address, more[i]);
        read_as(what, packet, 3 + size + more[i], address, 3 + size, PASA_DONE);
    }
}

/* "demand 2's reading back, get one payload octet more"; "writing a header is unchanged" */
static void written_and_read(uint64_t address, size_t size)
{
    char what[72];
    uint8_t out[PASA_HEADER_MOST + 1];
    size_t place = put_packet(address, size, 0xA7);
    for (size_t room = place; room <= place + 1; room++) {
        bool alone = room == place;
        memset(out, 0xA7, sizeof out);
        struct pasa_written written = pasa_header_write(address, out, room);
        snprintf(what, sizeof what, "0x%" PRIx64 " in %zu octets", address, room);
        same(what, written.count, place);
        same(what, written.refusal, PASA_DONE);
        same_octets(what, out, packet, sizeof out);
        read_as(what, out, room, alone ? 0 : address, alone ? 0 : place, alone ? PASA_EMPTY : PASA_DONE);
    }
}

static void payloads(void)
{
    for (size_t size = 1; size <= 8; size++) {
        const uint64_t least = UINT64_C(1) << 8 * (size - 1), most = UINT64_MAX >> 8 * (8 - size);
        const uint64_t addresses[] = {least, least + 1, 2 * least, 128 * least, most - 1, most};
        for (size_t i = 0; i < sizeof addresses / sizeof *addresses; i++) {
            payload_behind(addresses[i], size);
            written_and_read(addresses[i], size);
        }
    }
    read_as("F1 80 0F 3E", (const uint8_t[]){0xF1, 0x80, 0x0F, 0x3E}, 4, 0, 0, PASA_EMPTY);
    read_as("F1 82 0F 01 00 00", (const uint8_t[]){0xF1, 0x82, 0x0F, 0x01, 0x00, 0x00}, 6, 0, 0, PASA_EMPTY);
}

/* "after every other header check": another fault decides, without a payload and with one; and before it a bad record does. */
static void faulty_header(const char *what, size_t place, uint8_t refusal)
{
    for (size_t payload = 0; payload <= 2; payload++) {
        char part[80];
        snprintf(part, sizeof part, "%s, %zu octets behind", what, payload);
        read_as(part, packet, place + payload, 0, 0, refusal);
        same_hop(part, pasa_packet_next_hop(record("10", 2, 2), packet, place + payload), "0", PASA_STOPPED, refusal);
        same_hop(part, pasa_packet_next_hop(record("10", 63, 0), packet, place + payload), "0", PASA_STOPPED, PASA_BAD_RECORD);
    }
}

static void faulty_headers(void)
{
    for (size_t i = 0; i < sizeof BEHIND; i++) {
        faulty_header("a single zero octet", put_packet(0, 1, BEHIND[i]), PASA_ZERO_ADDRESS);
        for (size_t size = 2; size <= 8; size++) {
            faulty_header("zeros alone", put_packet(0, size, BEHIND[i]), PASA_WRONG_SIZE);
            faulty_header("a zero in front", put_packet(UINT64_MAX >> 8 * (9 - size), size, BEHIND[i]), PASA_WRONG_SIZE);
        }
        for (size_t size = 9; size <= 32; size++) {
            size_t place = put_packet(1, size, BEHIND[i]);
            packet[3] = 0x80;
            faulty_header("a size above 8", place, PASA_WRONG_SIZE);
            faulty_header("a size above 8 and no address", 3, PASA_WRONG_SIZE);
        }
        for (size_t size = 1; size <= 8; size++)
            for (size_t wrong = 0; wrong < 3; wrong++) {
                size_t place = put_packet(UINT64_MAX >> 8 * (8 - size), size, BEHIND[i]);
                packet[wrong] ^= 0x20;
                faulty_header("one of the first three octets wrong", place, PASA_WRONG_START);
            }
    }
}

/* Where a packet to the destination goes with a payload; without one it goes nowhere: 16 is "before any next-hop answer". */
static void sent(const char *what, struct pasa_node node, uint64_t destination, size_t size, uint64_t to, uint8_t action, uint8_t refusal)
{
    char part[80];
    for (size_t i = 0; i < sizeof BEHIND; i++) {
        size_t place = put_packet(destination, size, BEHIND[i]);
        snprintf(part, sizeof part, "%s, without a payload", what);
        same_hop(part, pasa_packet_next_hop(node, packet, place), "0", PASA_STOPPED, PASA_EMPTY);
        for (size_t payload = 1; payload <= 256; payload += 255) {
            snprintf(part, sizeof part, "%s, with %zu times %02X", what, payload, BEHIND[i]);
            same_hop_to(part, pasa_packet_next_hop(node, packet, place + payload), to, action, refusal);
        }
    }
}

/* "from a packet 1, then the reading order, then 7": every beginning of a packet, the empty one among them, and a whole packet. */
static void sent_at_bad(const char *what, struct pasa_node node, uint64_t destination, size_t size)
{
    size_t place = put_packet(destination, size, 0x00);
    for (size_t length = 0; length <= place + 1; length++)
        same_hop(what, pasa_packet_next_hop(node, packet, length), "0", PASA_STOPPED, PASA_BAD_RECORD);
}

static void next_hops_of_packets(void)
{
    sent("at 1 for a packet to 1", record("1", 2, 2), 1, 1, 1, PASA_DELIVERED, PASA_DONE);
    sent("at 10 for a packet to 10", record("10", 2, 2), 2, 1, 2, PASA_DELIVERED, PASA_DONE);
    sent("at 11 for a packet to 11", record("11", 0, 0), 3, 1, 3, PASA_DELIVERED, PASA_DONE);
    sent("at 11 for a packet to 110", record("11", 0, 0), bits("110"), 1, 1, PASA_TO_PARENT, PASA_DONE);
    sent("at 10 for a packet to 1", record("10", 2, 2), 1, 1, 1, PASA_TO_PARENT, PASA_DONE);
    sent("at 10 for a packet to 110", record("10", 2, 2), bits("110"), 1, 1, PASA_TO_PARENT, PASA_DONE);
    sent("at 1 for a packet to 110", record("1", 2, 2), bits("110"), 1, bits("110"), PASA_TO_CHILD, PASA_DONE);
    sent("at 10 for a packet to 101011", record("10", 2, 2), bits("101011"), 1, bits("1010"), PASA_TO_CHILD, PASA_DONE);
    sent("at 1 for a packet to 1110", record("1", 2, 2), bits("1110"), 1, 0, PASA_STOPPED, PASA_CHILD_NOT_GIVEN);
    sent("at a bare root for a packet to 10", pasa_fresh(PASA_ROOT), 2, 1, 0, PASA_STOPPED, PASA_CHILD_NOT_GIVEN);
    for (size_t size = 2; size <= 8; size++) {
        const uint64_t least = UINT64_C(1) << 8 * (size - 1), most = UINT64_MAX >> 8 * (8 - size);
        sent("at a router for a packet to it", pasa_fresh(least), least, size, least, PASA_DELIVERED, PASA_DONE);
        sent("at a host for a packet to it", pasa_fresh(most), most, size, most, PASA_DELIVERED, PASA_DONE);
        sent("at 11 for a packet to many ones", record("11", 0, 0), most, size, 1, PASA_TO_PARENT, PASA_DONE);
        sent("at 1 for a packet to many zeros", record("1", 1, 0), least, size, 2, PASA_TO_CHILD, PASA_DONE);
        sent("at 1 for a packet to many zeros, not given", record("1", 0, 1), least, size, 0, PASA_STOPPED, PASA_CHILD_NOT_GIVEN);
    }
    sent_at_bad("at a record of address zero", record("0", 0, 0), 1, 1);
    sent_at_bad("at a record with a count too many, for itself", record("10", 63, 0), 2, 1);
    sent_at_bad("at a record with a count too many, for a child", record("10", 0, 63), bits("1010"), 1);
    sent_at_bad("at a host with a count, for itself", record("11", 1, 0), 3, 1);
    sent_at_bad("at a record with a limit of 65", limited(record("1", 0, 0), 65, 64), UINT64_MAX, 8);
}

static void ipv6_forms(void)
{
    const uint8_t prefix[PASA_IPV6_PREFIX] = {0x20, 0x01, 0x0d, 0xb8};
    const uint8_t other[PASA_IPV6_PREFIX] = {0x20, 0x01, 0x0d, 0xb9};
    const uint8_t known[PASA_IPV6_WHOLE] = {0x20, 0x01, 0x0d, 0xb8, [15] = 0x3e};
    uint8_t out[PASA_IPV6_WHOLE];
    memset(out, 0x55, sizeof out);
    struct pasa_written written = pasa_ipv6_write(prefix, sizeof prefix, bits("111110"), out, sizeof out);
    same("2001:db8::3e: its octets", written.count, PASA_IPV6_WHOLE);
    same("2001:db8::3e: the refusal", written.refusal, PASA_DONE);
    same_octets("2001:db8::3e", out, known, sizeof known);
    same("a prefix of seven octets", pasa_ipv6_write(prefix, 7, 0, NULL, 0).refusal, PASA_WRONG_LENGTH);
    same("a form of zero", pasa_ipv6_write(prefix, sizeof prefix, 0, NULL, 0).refusal, PASA_ZERO_ADDRESS);
    same("no room for a form", pasa_ipv6_write(prefix, sizeof prefix, 1, out, 15).refusal, PASA_NO_ROOM);

    struct pasa_address got = pasa_ipv6_read(prefix, sizeof prefix, known, sizeof known);
    same("2001:db8::3e back: the address", got.address, bits("111110"));
    same("2001:db8::3e back: the refusal", got.refusal, PASA_DONE);
    same("15 octets back", pasa_ipv6_read(prefix, sizeof prefix, known, 15).refusal, PASA_WRONG_LENGTH);
    same("another prefix", pasa_ipv6_read(other, sizeof other, known, sizeof known).refusal, PASA_OTHER_PREFIX);
    const uint8_t zero[PASA_IPV6_WHOLE] = {0x20, 0x01, 0x0d, 0xb8};
    got = pasa_ipv6_read(prefix, sizeof prefix, zero, sizeof zero);
    same("2001:db8:: back: the address", got.address, 0);
    same("2001:db8:: back: the refusal", got.refusal, PASA_ZERO_ADDRESS);
}

/* Octets as hexadecimal digits show them, two for each, with spaces between. */
struct octets {
    uint8_t bytes[64];
    size_t count;
};

static struct octets octets(const char *digits)
{
    struct octets shown = {{0}, 0};
    unsigned octet;
    for (int end; sscanf(digits, "%2x%n", &octet, &end) == 1; digits += end)
        shown.bytes[shown.count++] = (uint8_t)octet;
    return shown;
}

/* One of the older address fields, which two halls still have with NSA (request Seven): its number, and its octets as digits. */
struct field {
    uint64_t number;
    const char *digits;
};

/* "A payload length to 252 is one octet; 253 is followed by one octet and 254 by two, each plus 252" */
static const struct field NSA_LENGTHS[] = {
    {0, "00"},
    {1, "01"},
    {252, "FC"},
    {253, "FD 01"},
    {380, "FD 80"},
    {507, "FD FF"},
    {508, "FE 01 00"},
    {4912, "FE 12 34"},
    {65787, "FE FF FF"},
};

/* "An address to 252 is one octet; 253 is followed by two octets, 254 by four, 255 by a length and that many octets." */
static const struct field NSA_ADDRESSES[] = {
    {1, "01"},
    {252, "FC"},
    {253, "FD 00 FD"},
    {0x1234, "FD 12 34"},
    {65535, "FD FF FF"},
    {65536, "FE 00 01 00 00"},
    {0x12345678, "FE 12 34 56 78"},
    {(UINT64_C(1) << 32) - 1, "FE FF FF FF FF"},
    {UINT64_C(1) << 32, "FF 05 01 00 00 00 00"},
    {(UINT64_C(1) << 40) - 1, "FF 05 FF FF FF FF FF"},
    {UINT64_C(1) << 40, "FF 06 01 00 00 00 00 00"},
    {(UINT64_C(1) << 48) - 1, "FF 06 FF FF FF FF FF FF"},
    {UINT64_C(1) << 48, "FF 07 01 00 00 00 00 00 00"},
    {(UINT64_C(1) << 56) - 1, "FF 07 FF FF FF FF FF FF FF"},
    {UINT64_C(1) << 56, "FF 08 01 00 00 00 00 00 00 00"},
    {UINT64_C(0x123456789ABCDEF0), "FF 08 12 34 56 78 9A BC DE F0"},
    {UINT64_MAX, "FF 08 FF FF FF FF FF FF FF FF"},
};

enum { LENGTHS = sizeof NSA_LENGTHS / sizeof *NSA_LENGTHS, ADDRESSES = sizeof NSA_ADDRESSES / sizeof *NSA_ADDRESSES };

/* The numbers of the three fields in a row. */
struct numbers {
    uint64_t length, source, destination;
};

/* The fields are read from the front of so many octets, and the octets stay as they were. */
static void nsa_read_as(const char *what, struct octets lent, size_t count, struct numbers numbers, size_t place, uint8_t refusal)
{
    char part[192];
    const struct octets before = lent;
    struct pasa_nsa got = pasa_nsa_read(lent.bytes, count);
    snprintf(part, sizeof part, "%s, %zu octets: the payload length", what, count);
    same(part, got.length, numbers.length);
    snprintf(part, sizeof part, "%s, %zu octets: the source", what, count);
    same(part, got.source, numbers.source);
    snprintf(part, sizeof part, "%s, %zu octets: the destination", what, count);
    same(part, got.destination, numbers.destination);
    snprintf(part, sizeof part, "%s, %zu octets: the place", what, count);
    same(part, got.place, place);
    snprintf(part, sizeof part, "%s, %zu octets: the refusal", what, count);
    same(part, got.refusal, refusal);
    snprintf(part, sizeof part, "%s, %zu octets: the octets read", what, count);
    same(part, memcmp(lent.bytes, before.bytes, sizeof lent.bytes) != 0, 0);
}

/* In a refusal all four numbers are 0. */
static void nsa_refused(const char *digits, uint8_t refusal)
{
    struct octets lent = octets(digits);
    nsa_read_as(digits, lent, lent.count, (struct numbers){0, 0, 0}, 0, refusal);
}

/* More octets than the fields may have, and what each holds before. */
enum { NSA_LENT = PASA_NSA_MOST + 9, NSA_BEFORE = 0x55 };

/* The fields are written as these octets, or as none with a refusal, and what stands behind them stays as it was. */
static void nsa_written_as(const char *what, struct numbers numbers, size_t room, struct octets expected, uint8_t refusal)
{
    char part[192];
    uint8_t out[NSA_LENT];
    memset(out, NSA_BEFORE, sizeof out);
    struct pasa_written got = pasa_nsa_write(numbers.length, numbers.source, numbers.destination, out, room);
    snprintf(part, sizeof part, "%s in %zu octets: the octets written", what, room);
    same(part, got.count, expected.count);
    snprintf(part, sizeof part, "%s in %zu octets: the refusal", what, room);
    same(part, got.refusal, refusal);
    snprintf(part, sizeof part, "%s in %zu", what, room);
    same_octets(part, out, expected.bytes, expected.count);
    size_t changed = 0;
    for (size_t i = expected.count; i < sizeof out; i++)
        changed += out[i] != NSA_BEFORE;
    snprintf(part, sizeof part, "%s in %zu octets: octets changed behind them", what, room);
    same(part, changed, 0);
}

/* "Whatever is accepted is what we would write, and the reverse": three fields are written into as many octets as they have or more, and no fewer;
 * they are read whatever stands behind them, and without their last octets they end too early. */
static void nsa_both_ways(struct field length, struct field source, struct field destination)
{
    char digits[96];
    snprintf(digits, sizeof digits, "%s %s %s", length.digits, source.digits, destination.digits);
    const struct octets none = {{0}, 0}, whole = octets(digits);
    const struct numbers numbers = {length.number, source.number, destination.number}, zeros = {0, 0, 0};
    for (size_t room = 0; room < whole.count; room++)
        nsa_written_as(digits, numbers, room, none, PASA_NO_ROOM);
    nsa_written_as(digits, numbers, whole.count, whole, PASA_DONE);
    nsa_written_as(digits, numbers, whole.count + 1, whole, PASA_DONE);
    nsa_written_as(digits, numbers, NSA_LENT, whole, PASA_DONE);

    for (size_t count = 0; count < whole.count; count++)
        nsa_read_as(digits, whole, count, zeros, 0, PASA_ENDS_EARLY);
    nsa_read_as(digits, whole, whole.count, numbers, whole.count, PASA_DONE);
    for (unsigned behind = 0; behind < 256; behind += 255) {
        struct octets more = whole;
        memset(more.bytes + whole.count, (int)behind, sizeof more.bytes - whole.count);
        nsa_read_as(digits, more, whole.count + 1, numbers, whole.count, PASA_DONE);
        nsa_read_as(digits, more, sizeof more.bytes, numbers, whole.count, PASA_DONE);
    }
}

/* Each field beside the shortest ones and beside the longest. */
static void nsa_fields(void)
{
    const struct field shortest = NSA_ADDRESSES[0], longest = NSA_ADDRESSES[ADDRESSES - 1];
    const struct field short_length = NSA_LENGTHS[0], long_length = NSA_LENGTHS[LENGTHS - 1];
    for (size_t i = 0; i < LENGTHS; i++) {
        nsa_both_ways(NSA_LENGTHS[i], shortest, shortest);
        nsa_both_ways(NSA_LENGTHS[i], longest, longest);
    }
    for (size_t i = 0; i < ADDRESSES; i++) {
        nsa_both_ways(short_length, NSA_ADDRESSES[i], shortest);
        nsa_both_ways(long_length, NSA_ADDRESSES[i], longest);
        nsa_both_ways(short_length, shortest, NSA_ADDRESSES[i]);
        nsa_both_ways(long_length, longest, NSA_ADDRESSES[i]);
    }
    same("the most octets of the fields", PASA_NSA_MOST, 23);
    struct octets most = octets("FE FF FF FF 08 FF FF FF FF FF FF FF FF FF 08 FF FF FF FF FF FF FF FF");
    nsa_written_as("the longest fields", (struct numbers){65787, UINT64_MAX, UINT64_MAX}, 23, most, PASA_DONE);
    same("the longest fields: their octets", most.count, PASA_NSA_MOST);
}

/* What may stand behind a faulty field, "The first faulty field decides": nothing, right fields, and fields that end early or have a fault. */
static const char *const NSA_BEHIND[] = {"", "01", "01 01", "00", "01 00", "FD", "FD 00 FC", "FF", "FF 04", "01 FF 09"};
enum { BEHINDS = sizeof NSA_BEHIND / sizeof *NSA_BEHIND };

static void nsa_refused_whatever_follows(const char *front, const char *field, uint8_t refusal)
{
    for (size_t i = 0; i < BEHINDS; i++) {
        char digits[160];
        snprintf(digits, sizeof digits, "%s %s %s", front, field, NSA_BEHIND[i]);
        nsa_refused(digits, refusal);
    }
}

/* "Only the shortest form is accepted: otherwise 6"; "255 is refused with 6"; "Within a field a missing octet is 4 and comes before any judgement of
 * the value" */
static void nsa_payload_lengths_refused(void)
{
    nsa_refused_whatever_follows("", "FD 00", PASA_WRONG_SIZE);
    nsa_refused_whatever_follows("", "FE 00 00", PASA_WRONG_SIZE);
    nsa_refused_whatever_follows("", "FE 00 01", PASA_WRONG_SIZE);
    nsa_refused_whatever_follows("", "FE 00 FF", PASA_WRONG_SIZE);
    nsa_refused_whatever_follows("", "FF", PASA_WRONG_SIZE);
    nsa_refused("", PASA_ENDS_EARLY);
    nsa_refused("FD", PASA_ENDS_EARLY);
    nsa_refused("FE", PASA_ENDS_EARLY);
    nsa_refused("FE 00", PASA_ENDS_EARLY);
    nsa_refused("FE 01", PASA_ENDS_EARLY);
    nsa_refused("FE FF", PASA_ENDS_EARLY);
    /* a right length, and no source behind it */
    nsa_refused("FD 01", PASA_ENDS_EARLY);
    nsa_refused("FE 01 00", PASA_ENDS_EARLY);
}

/* What stands before an address: for a source a payload length, for a destination a source too. */
static const char *const NSA_FRONTS[] = {
    "00", "FE FF FF", "00 01", "FD 01 FD 00 FD", "00 FF 08 FF FF FF FF FF FF FF FF",
};
enum { FRONTS = sizeof NSA_FRONTS / sizeof *NSA_FRONTS };

/* "so after 255 the length is 5 to 8 and its first octet isn't zero. Address zero in one octet is 9, longer zeros are 6."; "the length octet after
 * 255 is judged before its address octets are looked for" */
static const struct fault {
    const char *digits;
    uint8_t refusal;
} NSA_FAULTS[] = {
    {"00", PASA_ZERO_ADDRESS},
    {"FD 00 00", PASA_WRONG_SIZE},
    {"FD 00 01", PASA_WRONG_SIZE},
    {"FD 00 FC", PASA_WRONG_SIZE},
    {"FE 00 00 00 00", PASA_WRONG_SIZE},
    {"FE 00 00 00 FD", PASA_WRONG_SIZE},
    {"FE 00 00 FF FF", PASA_WRONG_SIZE},
    {"FF 00", PASA_WRONG_SIZE},
    {"FF 01 FD", PASA_WRONG_SIZE}, /* as many octets as FD 00 FD */
    {"FF 02 FF FF", PASA_WRONG_SIZE},
    {"FF 03 01 00 00", PASA_WRONG_SIZE}, /* as many octets as FE 00 01 00 00 */
    {"FF 04", PASA_WRONG_SIZE},
    {"FF 04 FF FF FF FF", PASA_WRONG_SIZE},
    {"FF 05 00 00 00 00 00", PASA_WRONG_SIZE},
    {"FF 05 00 FF FF FF FF", PASA_WRONG_SIZE},
    {"FF 06 00 00 00 00 00 00", PASA_WRONG_SIZE},
    {"FF 06 00 FF FF FF FF FF", PASA_WRONG_SIZE},
    {"FF 07 00 00 00 00 00 00 00", PASA_WRONG_SIZE},
    {"FF 07 00 FF FF FF FF FF FF", PASA_WRONG_SIZE},
    {"FF 08 00 00 00 00 00 00 00 00", PASA_WRONG_SIZE},
    {"FF 08 00 FF FF FF FF FF FF FF", PASA_WRONG_SIZE},
    {"FF 09", PASA_WRONG_SIZE},
    {"FF 09 00 01 00 00 00 00 00 00 00", PASA_WRONG_SIZE},
    {"FF 09 01 00 00 00 00 00 00 00 00", PASA_WRONG_SIZE},
    {"FF 0D", PASA_WRONG_SIZE}, /* 5 but for one bit */
    {"FF 85", PASA_WRONG_SIZE},
    {"FF FF", PASA_WRONG_SIZE},
};

/* Addresses whose last octets are missing, also where those that are there begin no right one. */
static const char *const NSA_EARLY[] = {
    "",
    "FD",
    "FD 00",
    "FD FF",
    "FE",
    "FE 00",
    "FE 00 00",
    "FE 00 00 00",
    "FE 00 01 00",
    "FF",
    "FF 05",
    "FF 05 00",
    "FF 05 00 00 00 00",
    "FF 05 01 00 00 00",
    "FF 06",
    "FF 06 00 FF FF FF FF",
    "FF 07",
    "FF 07 00 FF FF FF FF FF",
    "FF 08",
    "FF 08 00",
    "FF 08 00 FF FF FF FF FF FF",
    "FF 08 FF FF FF FF FF FF FF",
};

static void nsa_addresses_refused(void)
{
    for (size_t i = 0; i < FRONTS; i++) {
        for (size_t j = 0; j < sizeof NSA_FAULTS / sizeof *NSA_FAULTS; j++)
            nsa_refused_whatever_follows(NSA_FRONTS[i], NSA_FAULTS[j].digits, NSA_FAULTS[j].refusal);
        for (size_t j = 0; j < sizeof NSA_EARLY / sizeof *NSA_EARLY; j++) {
            char digits[160];
            snprintf(digits, sizeof digits, "%s %s", NSA_FRONTS[i], NSA_EARLY[j]);
            nsa_refused(digits, PASA_ENDS_EARLY);
        }
    }
    for (unsigned length = 0; length < 256; length++) {
        char digits[16];
        bool right = length >= 5 && length <= 8;
        snprintf(digits, sizeof digits, "00 FF %02X", length);
        nsa_refused(digits, right ? PASA_ENDS_EARLY : PASA_WRONG_SIZE);
        snprintf(digits, sizeof digits, "00 01 FF %02X", length);
        nsa_refused(digits, right ? PASA_ENDS_EARLY : PASA_WRONG_SIZE);
    }
}

/* Whatever the room is, also where there is none. */
static void nsa_not_written(struct numbers numbers, uint8_t refusal)
{
    char what[128];
    const size_t rooms[] = {0, 2, 3, PASA_NSA_MOST, NSA_LENT};
    snprintf(what, sizeof what, "length %" PRIu64 ", source %" PRIu64 ", destination %" PRIu64, numbers.length, numbers.source, numbers.destination);
    for (size_t i = 0; i < sizeof rooms / sizeof *rooms; i++)
        nsa_written_as(what, numbers, rooms[i], (struct octets){{0}, 0}, refusal);
}

/* "A length to write above 65,787 is 14, checked first; then 9; then 10." */
static void nsa_writings_refused(void)
{
    const uint64_t above[] = {65788, 65789, 65536 + 65787, 1 << 24, UINT64_C(1) << 32, (UINT64_C(1) << 32) + 252, UINT64_C(1) << 63,
                              UINT64_MAX - 251, UINT64_MAX};
    const uint64_t addresses[] = {0, 1, UINT64_C(1) << 32, UINT64_MAX};
    for (size_t source = 0; source < 4; source++)
        for (size_t destination = 0; destination < 4; destination++) {
            for (size_t i = 0; i < sizeof above / sizeof *above; i++)
                nsa_not_written((struct numbers){above[i], addresses[source], addresses[destination]}, PASA_TOO_MANY);
            for (size_t i = 0; i < LENGTHS && (source == 0 || destination == 0); i++)
                nsa_not_written((struct numbers){NSA_LENGTHS[i].number, addresses[source], addresses[destination]}, PASA_ZERO_ADDRESS);
        }
}

static void nsa_by_null_pointers(void)
{
    same("no fields: the refusal", pasa_nsa_read(NULL, 0).refusal, PASA_ENDS_EARLY);
    same("no fields: the place", pasa_nsa_read(NULL, 0).place, 0);
    same("no buffer for fields", pasa_nsa_write(0, 1, 1, NULL, 0).refusal, PASA_NO_ROOM);
    same("no buffer, and a source of zero", pasa_nsa_write(0, 0, 1, NULL, 0).refusal, PASA_ZERO_ADDRESS);
    same("no buffer, and a destination of zero", pasa_nsa_write(0, 1, 0, NULL, 0).refusal, PASA_ZERO_ADDRESS);
    same("no buffer, zeros, and a length above 65,787", pasa_nsa_write(65788, 0, 0, NULL, 0).refusal, PASA_TOO_MANY);
}

static void path_as(const char *first, const char *second, const char *const *expected, size_t addresses)
{
    char part[96];
    uint64_t words[PASA_PATH_MOST];
    memset(words, 0x55, sizeof words);
    struct pasa_listed listed = pasa_path(bits(first), bits(second), words, PASA_PATH_MOST);
    snprintf(part, sizeof part, "the path %s to %s: the refusal", first, second);
    same(part, listed.refusal, PASA_DONE);
    snprintf(part, sizeof part, "the path %s to %s: its hops", first, second);
    same(part, listed.hops, addresses - 1);
    for (size_t i = 0; i < addresses; i++) {
        snprintf(part, sizeof part, "the path %s to %s: address %zu", first, second, i);
        same(part, words[i], bits(expected[i]));
    }
    snprintf(part, sizeof part, "the path %s to %s: the word behind it", first, second);
    same(part, words[addresses], UINT64_C(0x5555555555555555));
    snprintf(part, sizeof part, "the path %s to %s: one word too few", first, second);
    same(part, pasa_path(bits(first), bits(second), words, addresses - 1).refusal, PASA_NO_ROOM);
}

static void paths(void)
{
    path_as("10011", "101011", (const char *const[]){"10011", "100", "10", "1010", "101011"}, 5);
    path_as("1001", "111", (const char *const[]){"1001", "100", "10", "1", "111"}, 5);
    path_as("110", "110", (const char *const[]){"110"}, 1);
    same("a path from zero", pasa_path(0, 1, NULL, 0).refusal, PASA_ZERO_ADDRESS);
    same("a path to zero", pasa_path(1, 0, NULL, 0).refusal, PASA_ZERO_ADDRESS);
    same("no words for a path", pasa_path(1, 1, NULL, 0).refusal, PASA_NO_ROOM);
}

/* A plan's text as it is put together. */
struct text {
    char bytes[PASA_PLAN_BYTES + 1];
    size_t length;
};

/* The text with so many times more behind it. */
static struct text then(struct text text, const char *more, size_t times)
{
    for (size_t i = 0; i < times; i++) {
        memcpy(text.bytes + text.length, more, strlen(more));
        text.length += strlen(more);
    }
    return text;
}

static struct text many(const char *bytes, size_t times)
{
    return then((struct text){{0}, 0}, bytes, times);
}

/* The words that are lent for a plan, and what each holds before. */
enum { LENT = PASA_PLAN_NODES + 8 };
#define BEFORE UINT64_C(0x5555555555555555)
static uint64_t lent[LENT];

static struct pasa_plan read_plan(struct text plan, size_t room)
{
    for (size_t i = 0; i < LENT; i++)
        lent[i] = BEFORE;
    return pasa_plan_read((const uint8_t *)plan.bytes, plan.length, lent, room);
}

/* The number of the first word from which on all are as before. */
static size_t words_changed(void)
{
    size_t end = LENT;
    while (end > 0 && lent[end - 1] == BEFORE)
        end--;
    return end;
}

static void same_plan(const char *what, struct pasa_plan got, size_t nodes, size_t place, uint8_t refusal)
{
    char part[96];
    snprintf(part, sizeof part, "%s: the nodes", what);
    same(part, got.nodes, nodes);
    snprintf(part, sizeof part, "%s: the place", what);
    same(part, got.place, place);
    snprintf(part, sizeof part, "%s: the refusal", what);
    same(part, got.refusal, refusal);
    snprintf(part, sizeof part, "%s: the words changed", what);
    same(part, words_changed(), nodes);
}

/* It is read where there is room for its nodes and where there is more, and with one word less it is refused with 10. */
static void plan_read(const char *what, struct text plan, size_t nodes)
{
    char part[96];
    snprintf(part, sizeof part, "%s, one word too few", what);
    same_plan(part, read_plan(plan, nodes - 1), 0, 0, PASA_NO_ROOM);
    snprintf(part, sizeof part, "%s, room for the nodes", what);
    same_plan(part, read_plan(plan, nodes), nodes, 0, PASA_DONE);
    same_plan(what, read_plan(plan, LENT), nodes, 0, PASA_DONE);
}

/* It is refused with any room, also with none. */
static void plan_refused(const char *what, struct text plan, size_t place, uint8_t refusal)
{
    same_plan(what, read_plan(plan, LENT), 0, place, refusal);
    same_plan(what, read_plan(plan, 0), 0, place, refusal);
}

static void plan_fault(const char *text, size_t place)
{
    plan_refused(text, many(text, 1), place, PASA_BAD_PLAN);
}

static void plan_words(const char *text, const char *const *expected, size_t nodes)
{
    plan_read(text, many(text, 1), nodes);
    for (size_t i = 0; i < nodes; i++) {
        char part[96];
        snprintf(part, sizeof part, "%s: address %zu", text, i);
        same(part, lent[i], bits(expected[i]));
    }
}

static void plans_in_the_grammar(void)
{
    plan_words("R(R(H)H)", (const char *const[]){"1", "10", "101", "11"}, 4);
    plan_words("R()", (const char *const[]){"1"}, 1);
    plan_words("R(HR(HR()H)HR(R()R(H)))",
               (const char *const[]){"1", "11", "10", "101", "100", "1011", "111", "110", "1100", "11010", "110101"}, 11);
}

static void plans_outside_the_grammar(void)
{
    plan_fault("", 0);
    plan_fault("x", 0);
    plan_fault("H", 0);
    plan_fault("(", 0);
    plan_fault(" R()", 0);
    plan_fault("r()", 0);
    plan_fault("R", 1);
    plan_fault("RH", 1);
    plan_fault("R)", 1);
    plan_fault("R(", 2);
    plan_fault("R((", 2);
    plan_fault("R(h)", 2);
    plan_fault("R( )", 2);
    plan_fault("R(\xC8)", 2); /* H with the highest bit */
    plan_fault("R()x", 3);
    plan_fault("R()H", 3);
    plan_fault("R())", 3);
    plan_fault("R()R()", 3);
    plan_fault("R()\n", 3);
    plan_fault("R(H", 3);
    plan_fault("R(R)", 3);
    plan_fault("R(H))", 4);
    plan_fault("R(R()", 5);
    plan_refused("R(, a zero byte, )", (struct text){{'R', '(', 0, ')'}, 4}, 2, PASA_BAD_PLAN);
}

/* The root with so many hosts, closed or not. */
static struct text hosts_of_the_root(size_t hosts, bool closed)
{
    return then(then(many("R(", 1), "H", hosts), ")", closed);
}

/* "a plan 32,768 bytes" */
static void plans_about_their_bytes(void)
{
    same("the most bytes of a plan", PASA_PLAN_BYTES, 32768);
    plan_refused("32,768 bytes of nonsense", many("x", 32768), 0, PASA_BAD_PLAN);
    plan_refused("32,769 bytes of nonsense", many("x", 32769), 0, PASA_TOO_MANY);
    plan_refused("32,768 bytes, never closed", hosts_of_the_root(32766, false), 32768, PASA_BAD_PLAN);
    plan_refused("32,769 bytes, never closed", hosts_of_the_root(32767, false), 0, PASA_TOO_MANY);
    plan_refused("32,768 bytes, the last of them wrong", then(hosts_of_the_root(32765, false), "x", 1), 32767, PASA_BAD_PLAN);
    plan_refused("32,769 bytes, the last of them wrong", then(hosts_of_the_root(32766, false), "x", 1), 0, PASA_TOO_MANY);
    plan_refused("32,768 bytes, closed", hosts_of_the_root(32765, true), 0, PASA_TOO_MANY);
    plan_refused("32,769 bytes, closed", hosts_of_the_root(32766, true), 0, PASA_TOO_MANY);
    /* about the limit before request Six, which is none */
    plan_refused("4,096 bytes of nonsense", many("x", 4096), 0, PASA_BAD_PLAN);
    plan_refused("4,097 bytes of nonsense", many("x", 4097), 0, PASA_BAD_PLAN);
    plan_refused("4,096 bytes, never closed", hosts_of_the_root(4094, false), 4096, PASA_BAD_PLAN);
    plan_refused("4,097 bytes, never closed", hosts_of_the_root(4095, false), 4097, PASA_BAD_PLAN);
    plan_refused("4,096 bytes, closed", hosts_of_the_root(4093, true), 0, PASA_TOO_LONG);
    plan_refused("4,097 bytes, closed", hosts_of_the_root(4094, true), 0, PASA_TOO_LONG);
}

/* A root with so many routers, each with as many routers with as many items as the second number says, the root not yet closed. */
static struct text three_levels(size_t routers, size_t each, const char *item)
{
    struct text text = many("R(", 1);
    for (size_t i = 0; i < routers; i++) {
        text = then(text, "R(", 1);
        for (size_t j = 0; j < each; j++)
            text = then(then(then(text, "R(", 1), item, each), ")", 1);
        text = then(text, ")", 1);
    }
    return text;
}

/* "A plan .. may now have 4,096 nodes, the root counted" */
static void plans_about_their_nodes(void)
{
    same("the most nodes of a plan", PASA_PLAN_NODES, 4096);
    /* a root with 15 routers, each with 16 routers of 16 hosts: 1 + 15 * (1 + 16 * (1 + 16)) */
    struct text most = three_levels(15, 16, "H");
    plan_read("4,096 nodes", then(most, ")", 1), 4096);
    same("4,096 nodes: the first address", lent[0], PASA_ROOT);
    same("4,096 nodes: the second address", lent[1], bits("10"));
    same("4,096 nodes: the last address", lent[4095], bits("1" "111111111111110" "1111111111111110" "1111111111111111"));
    same_plan("4,096 nodes, no words", read_plan(then(most, ")", 1), 0), 0, 0, PASA_NO_ROOM);
    same_plan("4,096 nodes, 512 words", read_plan(then(most, ")", 1), 512), 0, 0, PASA_NO_ROOM);
    plan_refused("4,097 nodes", then(most, "H)", 1), 0, PASA_TOO_MANY);
    plan_refused("4,097 nodes, the last of them a router", then(most, "R())", 1), 0, PASA_TOO_MANY);
    /* a node takes at most three bytes: no right text is longer */
    struct text longest = three_levels(15, 16, "R()");
    same("4,096 routers: the bytes", longest.length + 1, 12288);
    plan_read("4,096 routers", then(longest, ")", 1), 4096);
    same("4,096 routers: the last address", lent[4095], bits("1" "111111111111110" "1111111111111110" "1111111111111110"));
    plan_refused("4,097 routers", then(longest, "R())", 1), 0, PASA_TOO_MANY);
    plan_refused("4,096 routers and a host", then(longest, "H)", 1), 0, PASA_TOO_MANY);

    /* about the limit before request Six, which is none: a root with 7 routers, each with 8 routers of 8 hosts, 1 + 7 * (1 + 8 * (1 + 8)) */
    most = three_levels(7, 8, "H");
    plan_read("512 nodes", then(most, ")", 1), 512);
    same("512 nodes: the first address", lent[0], PASA_ROOT);
    same("512 nodes: the second address", lent[1], bits("10"));
    same("512 nodes: the last address", lent[511], bits("1" "1111110" "11111110" "11111111"));
    plan_read("513 nodes", then(most, "H)", 1), 513);
    same("513 nodes: the last address", lent[512], bits("11"));
    plan_read("513 nodes, the last of them a router", then(most, "R())", 1), 513);
    same("513 nodes, the last of them a router: its address", lent[512], bits("1" "11111110"));
}

static void plans_about_their_limits(void)
{
    plans_about_their_bytes();
    plans_about_their_nodes();

    plan_read("64 groups", then(many("R(", 64), ")", 64), 64);
    for (size_t i = 0; i < 64; i++)
        same("64 groups: an address", lent[i], UINT64_C(1) << i);
    plan_refused("a host in the 64th group", then(then(many("R(", 64), "H", 1), ")", 64), 0, PASA_TOO_LONG);
    plan_refused("65 groups", then(many("R(", 65), ")", 65), 128, PASA_BAD_PLAN);
    plan_refused("64 groups and the R of one more", then(many("R(", 64), "R", 1), 128, PASA_BAD_PLAN);
    plan_refused("64 groups, never closed", many("R(", 64), 128, PASA_BAD_PLAN);

    plan_read("63 hosts", hosts_of_the_root(63, true), 64);
    same("63 hosts: the last address", lent[63], UINT64_MAX);
    plan_refused("64 hosts", hosts_of_the_root(64, true), 0, PASA_TOO_LONG);
    plan_read("63 routers", then(then(many("R(", 1), "R()", 63), ")", 1), 64);
    same("63 routers: the last address", lent[63], UINT64_MAX - 1);
    plan_refused("64 routers", then(then(many("R(", 1), "R()", 64), ")", 1), 0, PASA_TOO_LONG);
    plan_read("63 of each kind", then(then(many("R(", 1), "R()H", 63), ")", 1), 127);
}

/* "Then a text outside the grammar: 13 .. Then over 512 nodes: 14", 4,096 since request Six. "Then an address too long: 3. Then no room: 10." */
static void plans_of_two_refusals(void)
{
    plan_refused("4,096 hosts, and a byte too many", then(hosts_of_the_root(4096, true), "x", 1), 4099, PASA_BAD_PLAN);
    plan_refused("512 hosts, and a byte too many", then(hosts_of_the_root(512, true), "x", 1), 515, PASA_BAD_PLAN);
    plan_refused("64 hosts, and a byte too many", then(hosts_of_the_root(64, true), "x", 1), 67, PASA_BAD_PLAN);
    plan_refused("4,096 hosts", hosts_of_the_root(4096, true), 0, PASA_TOO_MANY);
    plan_refused("4,095 hosts", hosts_of_the_root(4095, true), 0, PASA_TOO_LONG);
    plan_refused("512 hosts", hosts_of_the_root(512, true), 0, PASA_TOO_LONG);
    plan_refused("511 hosts", hosts_of_the_root(511, true), 0, PASA_TOO_LONG);
}

static void plans_by_null_pointers(void)
{
    struct pasa_plan none = pasa_plan_read(NULL, 0, NULL, 0);
    same("no text: the place", none.place, 0);
    same("no text: the refusal", none.refusal, PASA_BAD_PLAN);
    same("no words for a plan", pasa_plan_read((const uint8_t *)"R()", 3, NULL, 0).refusal, PASA_NO_ROOM);
}

/* A journal as it is put together, with room for a slot more than it may have, and a copy of what it was. */
enum { JOURNAL = (PASA_SLOTS + 1) * PASA_SLOT, ERASED = 0xFF, LAST = PASA_SLOT - 1 };
static uint8_t journal[JOURNAL], journal_before[JOURNAL];

static uint8_t *slot_of(size_t slot)
{
    return journal + slot * PASA_SLOT;
}

/* "erased to 0xFF" */
static void erase(void)
{
    memset(journal, ERASED, sizeof journal);
}

/* "in bytes 509 and 510, high first, a CRC-16 of bytes 0 to 508": here bit by bit, so that no table is shared with the archive. */
static void check_again(uint8_t *slot)
{
    uint32_t rest = 0xFFFF;
    for (size_t bit = 0; bit < 509 * 8; bit++) {
        uint32_t leaving = rest >> 15 ^ (slot[bit / 8] >> (7 - bit % 8) & 1u);
        rest = (rest << 1 & 0xFFFF) ^ (leaving != 0 ? 0x1021 : 0);
    }
    slot[509] = (uint8_t)(rest >> 8);
    slot[510] = (uint8_t)rest;
}

/* A block, by hand: also one that the writer would refuse. */
static void put_block(size_t slot, const uint64_t *addresses, size_t count)
{
    uint8_t *bytes = slot_of(slot);
    memset(bytes, 0, PASA_SLOT);
    bytes[0] = 0x50;
    bytes[1] = (uint8_t)count;
    for (size_t i = 0; i < 8 * count && 2 + i < 509; i++)
        bytes[2 + i] = (uint8_t)(addresses[i / 8] >> (56 - 8 * (i % 8)));
    check_again(bytes);
    bytes[LAST] = 0xA5;
}

/* As many addresses as the slots of a journal hold, which are more than a hall may have. */
enum { SLOTS_HOLD = PASA_SLOTS * PASA_BLOCK_MOST };

/* Addresses as they are given: so many children of a kind of a node behind those that are in the list. */
struct list {
    uint64_t addresses[SLOTS_HOLD];
    size_t count;
};

static struct list give(struct list list, uint64_t parent, size_t from, size_t count, int host)
{
    for (size_t i = from; i < from + count; i++)
        list.addresses[list.count++] = ((((parent + 1) << i) - 1) << 1) + (uint64_t)host;
    return list;
}

static struct list nobody(void)
{
    return (struct list){{0}, 0};
}

/* So many addresses: 63 routers and 63 hosts of the root, 62 and 62 of node 10, 61 and 61 of node 100, and so on down to the longest; then in the
 * same way those of node 110, of 1100 and so on, and those of 1110. */
static struct list first_addresses(size_t count)
{
    struct list list = nobody();
    for (uint64_t first = PASA_ROOT; list.count < count; first = first == PASA_ROOT ? 6 : 2 * first + 2)
        for (uint64_t parent = first; pasa_bit_length(parent) < PASA_LONGEST; parent *= 2)
            for (int host = 0; host < 2; host++) {
                size_t room = PASA_LONGEST - pasa_bit_length(parent), left = count - list.count;
                list = give(list, parent, 0, room < left ? room : left, host);
            }
    return list;
}

/* The list in blocks of so many addresses each, the last one shorter, from a slot on. The number of the slot behind them. */
static size_t put_blocks(size_t slot, const struct list *list, size_t each)
{
    for (size_t at = 0; at < list->count; at += each)
        put_block(slot++, list->addresses + at, list->count - at < each ? list->count - at : each);
    return slot;
}

/* The words that are lent to recovery: each holds the address that stands there in the largest hall of this file, so that none is known which
 * only the words remember. */
static void remember(uint64_t *words, size_t count)
{
    static struct list list;
    if (list.count == 0)
        list = first_addresses(PASA_NODES - 1);
    for (size_t i = 0; i < count; i++)
        words[i] = i == 0 ? PASA_ROOT : list.addresses[(i - 1) % list.count];
}

enum { WORDS = PASA_NODES + 88 };
static uint64_t words[WORDS], words_before[WORDS];

/* Recovers from so many bytes into so many words, and leaves the journal as it was. */
static struct pasa_recovered recover(const char *what, size_t length, size_t room)
{
    char part[128];
    remember(words, WORDS);
    memcpy(words_before, words, sizeof words);
    memcpy(journal_before, journal, sizeof journal);
    struct pasa_recovered got = pasa_journal_recover(journal, length, words, room);
    snprintf(part, sizeof part, "%s: the journal after recovery", what);
    same(part, memcmp(journal, journal_before, sizeof journal) != 0, 0);
    return got;
}

/* The number of words from the first on that are no zeros, and whether only zeros are behind them up to the end of those lent, and all others as
 * they were. */
static size_t words_left(const char *what, size_t room)
{
    char part[128];
    size_t nodes = 0, behind = 0, changed = 0;
    while (nodes < room && words[nodes] != 0)
        nodes++;
    for (size_t i = nodes; i < room; i++)
        behind += words[i] != 0;
    for (size_t i = room; i < WORDS; i++)
        changed += words[i] != words_before[i];
    snprintf(part, sizeof part, "%s: words behind the first zero that are none", what);
    same(part, behind, 0);
    snprintf(part, sizeof part, "%s: words changed that are not lent", what);
    same(part, changed, 0);
    return nodes;
}

/* So many slots recover to the root and these addresses, into just enough words and into more. */
static void recovers(const char *what, size_t slots, const struct list *list)
{
    char part[128];
    for (size_t room = PASA_NODES; room <= PASA_NODES + 44; room += 44) {
        struct pasa_recovered got = recover(what, slots * PASA_SLOT, room);
        snprintf(part, sizeof part, "%s into %zu words: the refusal", what, room);
        same(part, got.refusal, PASA_DONE);
        snprintf(part, sizeof part, "%s into %zu words: the nodes", what, room);
        same(part, got.nodes, list->count + 1);
        snprintf(part, sizeof part, "%s into %zu words: the words left", what, room);
        same(part, words_left(what, room), list->count + 1);
        size_t others = words[0] != PASA_ROOT;
        for (size_t i = 0; i < list->count; i++)
            others += words[i + 1] != list->addresses[i];
        snprintf(part, sizeof part, "%s into %zu words: words that are others", what, room);
        same(part, others, 0);
    }
}

/* So many slots are refused with 14 or 17, which leaves zeros in all words lent and in no other. The writer refuses every block then, with the
 * same number, and leaves the journal as it was. */
static void faulty(const char *what, size_t slots, uint8_t refusal)
{
    char part[128];
    for (size_t room = PASA_NODES; room <= PASA_NODES + 44; room += 44) {
        struct pasa_recovered got = recover(what, slots * PASA_SLOT, room);
        snprintf(part, sizeof part, "%s: recovery's refusal", what);
        same(part, got.refusal, refusal);
        snprintf(part, sizeof part, "%s: the nodes", what);
        same(part, got.nodes, 0);
        snprintf(part, sizeof part, "%s: the words left", what);
        same(part, words_left(what, room), 0);
    }
    const uint64_t blocks[2][1] = {{2}, {0}};
    for (size_t i = 0; i < 2; i++) {
        struct pasa_block written = pasa_journal_write(journal, slots * PASA_SLOT, blocks[i], 1);
        snprintf(part, sizeof part, "%s: the writer's refusal", what);
        same(part, written.refusal, refusal);
        snprintf(part, sizeof part, "%s: the writer's slot", what);
        same(part, written.slot, 0);
        snprintf(part, sizeof part, "%s: the journal after the writer", what);
        same(part, memcmp(journal, journal_before, sizeof journal) != 0, 0);
    }
}

/* A block of these addresses is written to that slot of so many: the bytes are those of a block made by hand, and no other byte is changed. */
static void writes(const char *what, size_t slots, const uint64_t *addresses, size_t count, size_t slot)
{
    char part[128];
    memcpy(journal_before, journal, sizeof journal);
    struct pasa_block got = pasa_journal_write(journal, slots * PASA_SLOT, addresses, count);
    snprintf(part, sizeof part, "%s: the refusal", what);
    same(part, got.refusal, PASA_DONE);
    snprintf(part, sizeof part, "%s: the slot", what);
    same(part, got.slot, slot);
    uint8_t written[JOURNAL];
    memcpy(written, journal, sizeof journal);
    memcpy(journal, journal_before, sizeof journal);
    put_block(slot, addresses, count);
    snprintf(part, sizeof part, "%s: the journal", what);
    same(part, memcmp(written, journal, sizeof journal) != 0, 0);
}

/* A block is refused, and the journal stays as it was. */
static void refuses(const char *what, size_t length, const uint64_t *addresses, size_t count, uint8_t refusal)
{
    char part[128];
    memcpy(journal_before, journal, sizeof journal);
    struct pasa_block got = pasa_journal_write(journal, length, addresses, count);
    snprintf(part, sizeof part, "%s: the refusal", what);
    same(part, got.refusal, refusal);
    snprintf(part, sizeof part, "%s: the slot", what);
    same(part, got.slot, 0);
    snprintf(part, sizeof part, "%s: the journal", what);
    same(part, memcmp(journal, journal_before, sizeof journal) != 0, 0);
}

static void checks_of_octets(void)
{
    uint8_t zeros[509] = {0};
    same("the CRC of 123456789", pasa_crc((const uint8_t *)"123456789", 9), 0x29B1);
    same("the CRC of nothing", pasa_crc(NULL, 0), 0xFFFF);
    same("the CRC of 00", pasa_crc((const uint8_t[]){0x00}, 1), 0xE1F0);
    same("the CRC of FF", pasa_crc((const uint8_t[]){0xFF}, 1), 0xFF00);
    same("the CRC of FF FF", pasa_crc((const uint8_t[]){0xFF, 0xFF}, 2), 0x0000);
    same("the CRC of 509 zeros", pasa_crc(zeros, sizeof zeros), 0x523E);
}

static void blocks_byte_by_byte(void)
{
    uint8_t expected[PASA_SLOT] = {0x50, 1, [9] = 0x02, [509] = 0xAB, [510] = 0x38, [511] = 0xA5};
    erase();
    struct pasa_block got = pasa_journal_write(journal, PASA_SLOT, (const uint64_t[]){2}, 1);
    same("the block of 10: the refusal", got.refusal, PASA_DONE);
    same("the block of 10: the slot", got.slot, 0);
    same_octets("the block of 10", journal, expected, PASA_SLOT);
    same("the byte behind the journal", journal[PASA_SLOT], ERASED);

    /* the 63 hosts of the root: "zeros up to byte 508" leaves bytes 506, 507 and 508 */
    struct list hosts = give(nobody(), PASA_ROOT, 0, 63, 1);
    memset(expected, 0, sizeof expected);
    expected[0] = 0x50;
    expected[1] = 63;
    for (size_t i = 0; i < 63; i++)
        for (size_t octet = 0; octet < 8; octet++) {
            size_t bits_here = i + 2 > 8 * (7 - octet) ? i + 2 - 8 * (7 - octet) : 0;
            expected[2 + 8 * i + octet] = (uint8_t)(bits_here >= 8 ? 0xFF : (1u << bits_here) - 1);
        }
    expected[509] = 0x2E;
    expected[510] = 0x3E;
    expected[511] = 0xA5;
    erase();
    got = pasa_journal_write(journal, PASA_SLOT, hosts.addresses, hosts.count);
    same("the block of 63 hosts: the refusal", got.refusal, PASA_DONE);
    same_octets("the block of 63 hosts", journal, expected, PASA_SLOT);
    recovers("63 hosts", 1, &hosts);
    same("63 hosts: the last address", words[63], UINT64_MAX);
}

/* The first k bytes of a block, and erased ones behind them. */
static void cut(size_t slot, const uint8_t *block, size_t k)
{
    memset(slot_of(slot), ERASED, PASA_SLOT);
    for (size_t i = 0; i < k; i++)
        slot_of(slot)[i] = block[i];
}

/* "If power fails after any number of bytes of one block, all other slots kept, recovery gives the state before that block if fewer than 512 bytes
 * were written and the state after it if all were." */
static void power_cuts(const char *what, const struct list *before, const struct list *block)
{
    char part[128];
    struct list after = *before;
    for (size_t i = 0; i < block->count; i++)
        after.addresses[after.count++] = block->addresses[i];
    erase();
    size_t at = before->count > 0 ? put_blocks(0, before, PASA_BLOCK_MOST) : 0;
    put_block(at, block->addresses, block->count);
    uint8_t whole[PASA_SLOT];
    memcpy(whole, slot_of(at), PASA_SLOT);
    for (size_t k = 0; k <= PASA_SLOT; k++) {
        const struct list *expected = k < PASA_SLOT ? before : &after;
        cut(at, whole, k);
        cut(at + 1, NULL, 0);
        struct pasa_recovered got = pasa_journal_recover(journal, (at + 2) * PASA_SLOT, words, PASA_NODES);
        snprintf(part, sizeof part, "%s, %zu bytes written: the refusal", what, k);
        same(part, got.refusal, PASA_DONE);
        snprintf(part, sizeof part, "%s, %zu bytes written: the nodes", what, k);
        same(part, got.nodes, expected->count + 1);
        snprintf(part, sizeof part, "%s, %zu bytes written: the addresses", what, k);
        same(part, memcmp(words + 1, expected->addresses, expected->count * sizeof *words) != 0, 0);
        uint64_t behind = 0;
        for (size_t i = expected->count + 1; i < PASA_NODES; i++)
            behind |= words[i];
        snprintf(part, sizeof part, "%s, %zu bytes written: the words behind", what, k);
        same(part, behind, 0);
        if (k == PASA_SLOT)
            break;
        /* an erased slot is taken again, a torn one is lost */
        struct pasa_block again = pasa_journal_write(journal, (at + 2) * PASA_SLOT, block->addresses, block->count);
        snprintf(part, sizeof part, "%s, %zu bytes written: the refusal of the block again", what, k);
        same(part, again.refusal, PASA_DONE);
        snprintf(part, sizeof part, "%s, %zu bytes written: the slot of the block again", what, k);
        same(part, again.slot, k == 0 ? at : at + 1);
    }
}

static void journals_cut_off(void)
{
    struct list none = nobody(), ten = give(nobody(), PASA_ROOT, 0, 1, 0), hosts = give(nobody(), PASA_ROOT, 0, 63, 1);
    power_cuts("the first block", &none, &ten);
    power_cuts("63 hosts behind 10", &ten, &hosts);
    /* 4 routers of the root, 6 hosts and 7 routers of node 10, 10 hosts of the root: their CRC is 0xFFFF */
    struct list ones = give(give(give(give(nobody(), PASA_ROOT, 0, 4, 0), 2, 0, 6, 1), 2, 0, 7, 0), PASA_ROOT, 0, 10, 1);
    put_block(0, ones.addresses, ones.count);
    same("a CRC of ones: byte 509", journal[509], 0xFF);
    same("a CRC of ones: byte 510", journal[510], 0xFF);
    power_cuts("a CRC of ones", &none, &ones);
}

static void journals_of_many_forms(void)
{
    struct list none = nobody(), ten = give(nobody(), PASA_ROOT, 0, 1, 0);
    struct list two = give(ten, PASA_ROOT, 0, 1, 1);

    erase();
    recovers("an erased journal of 1 slot", 1, &none);
    recovers("an erased journal of 128 slots", PASA_SLOTS, &none);
    put_block(0, two.addresses, 1);
    put_block(1, two.addresses + 1, 1);
    recovers("two blocks", 2, &two);
    recovers("two blocks, and an erased slot", 3, &two);

    /* "A slot that isn't erased but ends in 0xFF is torn and skipped", whatever it holds */
    erase();
    memset(slot_of(0), 0x00, LAST);
    slot_of(1)[17] = 0xFE;
    put_block(2, two.addresses, 2);
    put_block(3, two.addresses, 2);
    slot_of(3)[LAST] = ERASED;
    recovers("torn slots before a block and behind it", 4, &two);
    recovers("torn slots before a block, behind it and erased ones", 6, &two);
    recovers("torn slots alone", 2, &none);

    /* "Any slot that isn't erased, torn or not, standing after an erased one is 17." */
    erase();
    put_block(1, ten.addresses, 1);
    faulty("a block behind an erased slot", 2, PASA_BAD_JOURNAL);
    slot_of(1)[LAST] = ERASED;
    faulty("a torn slot behind an erased one", 2, PASA_BAD_JOURNAL);
    recovers("the same journal without it", 1, &none);
    erase();
    put_block(0, ten.addresses, 1);
    put_block(3, two.addresses + 1, 1);
    faulty("a block behind erased slots", 4, PASA_BAD_JOURNAL);

    /* a slot that ends in neither 0xFF nor 0xA5 */
    for (unsigned last = 0; last < 256; last++) {
        erase();
        put_block(0, ten.addresses, 1);
        slot_of(0)[LAST] = (uint8_t)last;
        if (last == ERASED)
            recovers("a block but for 0xFF at its end", 1, &none);
        else if (last == 0xA5)
            recovers("a block", 1, &ten);
        else
            faulty("a block with another byte at its end", 1, PASA_BAD_JOURNAL);
    }
    erase();
    memset(slot_of(0), ERASED, LAST);
    slot_of(0)[LAST] = 0xA5;
    faulty("an erased slot but for its last byte", 1, PASA_BAD_JOURNAL);
    memset(slot_of(0), 0x00, PASA_SLOT);
    faulty("a slot of zeros", 1, PASA_BAD_JOURNAL);
}

/* One byte of a block changed, with its CRC made right again or not. */
static void changed(const char *what, size_t count, size_t place, uint8_t byte, int right_again)
{
    struct list hosts = give(nobody(), PASA_ROOT, 0, count, 1);
    erase();
    put_block(0, hosts.addresses, count);
    slot_of(0)[place] = byte;
    if (right_again)
        check_again(slot_of(0));
    faulty(what, 2, PASA_BAD_JOURNAL);
}

/* A block of no addresses that is right in all else; and one of 64, whose last would be the next child if it were read from the bytes behind the
 * 63rd: three of the block's, its CRC, 0xA5 and two of the next slot, which is erased. The CRC was searched for that. */
static void counts_about_the_limits(void)
{
    const uint64_t last = UINT64_C(0x11B95FA2F0A5FFFF);
    erase();
    put_block(0, NULL, 0);
    faulty("a block of no addresses", 2, PASA_BAD_JOURNAL);

    struct list list = give(nobody(), PASA_ROOT, 0, 4, 1);
    for (uint32_t left = pasa_bit_length(last) - 1; left-- > 1;) {
        uint64_t front = last >> left, ones = (UINT64_C(1) << left) - 1;
        list.addresses[list.count++] = front % 2 == 1 && (last & ones) != ones ? front - 1 : front;
    }
    same("the addresses before the 64th", list.count, PASA_BLOCK_MOST);
    erase();
    put_block(0, list.addresses, list.count);
    recovers("63 addresses", 2, &list);
    list.addresses[list.count++] = last;
    put_block(0, list.addresses, list.count);
    same("the CRC of the block of 64", (uint64_t)slot_of(0)[509] << 8 | slot_of(0)[510], last >> 24 & 0xFFFF);
    faulty("a block of 64 next children", 2, PASA_BAD_JOURNAL);
}

static void blocks_that_are_none(void)
{
    counts_about_the_limits();
    changed("a CRC one off", 1, 510, 0x1C, 0);
    changed("a CRC with another high octet", 1, 509, 0x00, 0);
    changed("a first byte of 0x51", 1, 0, 0x51, 1);
    changed("a first byte of 0xFF", 1, 0, 0xFF, 1);
    changed("a count of 0", 1, 1, 0, 1);
    changed("a count of 64", 63, 1, 64, 1);
    changed("a count of 255", 63, 1, 255, 1);
    changed("a count of 2 for 1", 1, 1, 2, 1);
    changed("a count of 1 for 2", 2, 1, 1, 1);
    changed("a byte behind the addresses", 1, 10, 1, 1);
    changed("byte 508 behind an address", 1, 508, 1, 1);
    changed("byte 506 behind 63 addresses", 63, 506, 1, 1);
    changed("byte 508 behind 63 addresses", 63, 508, 0x80, 1);
    for (size_t place = 0; place < 511; place++)
        for (unsigned bit = 0; bit < 8; bit += 7) {
            erase();
            put_block(0, (const uint64_t[]){2, 3}, 2);
            slot_of(0)[place] ^= (uint8_t)(1u << bit);
            struct pasa_recovered got = pasa_journal_recover(journal, PASA_SLOT, words, PASA_NODES);
            same("one bit of a block changed", got.refusal, PASA_BAD_JOURNAL);
        }
}

/* An address that is no next child, alone, behind node 10 in a slot of its own, and in the midst of a block. */
static void no_next_child(const char *what, uint64_t address)
{
    erase();
    refuses(what, PASA_SLOT, &address, 1, PASA_BAD_JOURNAL);
    put_block(0, &address, 1);
    faulty(what, 1, PASA_BAD_JOURNAL);
    erase();
    put_block(0, (const uint64_t[]){2}, 1);
    refuses(what, 2 * PASA_SLOT, &address, 1, PASA_BAD_JOURNAL);
    put_block(1, &address, 1);
    faulty(what, 3, PASA_BAD_JOURNAL);
    erase();
    const uint64_t block[3] = {2, address, 3};
    refuses(what, PASA_SLOT, block, 3, PASA_BAD_JOURNAL);
    put_block(0, block, 3);
    faulty(what, 1, PASA_BAD_JOURNAL);
}

static void addresses_that_are_no_next_children(void)
{
    no_next_child("zero", 0);
    no_next_child("the root's 1", 1);
    no_next_child("a skipped router", bits("1110"));
    no_next_child("a skipped host", bits("111"));
    no_next_child("a child of a router that is not there", bits("1100"));
    no_next_child("a skipped router of 10", bits("1010"));
    no_next_child("64 ones", UINT64_MAX);
    no_next_child("a one and 63 zeros", UINT64_C(1) << 63);
    /* 110 is a child of the host 11 by its bits, but a router of the root by its steps, and 10 is skipped */
    erase();
    refuses("a child of a host by bits", PASA_SLOT, (const uint64_t[]){3, 6}, 2, PASA_BAD_JOURNAL);
    put_block(0, (const uint64_t[]){3, 6}, 2);
    faulty("a child of a host by bits", 1, PASA_BAD_JOURNAL);
    /* a repeat: in a block, and in two */
    erase();
    put_block(0, (const uint64_t[]){2, 2}, 2);
    faulty("a repeat in a block", 1, PASA_BAD_JOURNAL);
    put_block(0, (const uint64_t[]){2}, 1);
    put_block(1, (const uint64_t[]){2}, 1);
    faulty("a repeat in two blocks", 2, PASA_BAD_JOURNAL);
    /* and in their order they are right: a router, then a host of it, then the next router */
    erase();
    writes("10, 101, 1011, 100, 110", 2, (const uint64_t[]){2, 5, 11, 4, 6}, 5, 0);
    writes("then 11 and 111", 2, (const uint64_t[]){3, 7}, 2, 1);
    struct list all = {{2, 5, 11, 4, 6, 3, 7}, 7};
    recovers("them all", 2, &all);
}

/* "Recovery first checks the length (12), then that at least 512 words are lent (10)", "Recovery wants 4,096 words lent"; "The writer refuses in
 * this order: 12 if the journal's length is wrong or n is outside 1 to 63" */
static void journals_of_wrong_lengths(void)
{
    const size_t wrong[] = {0, 1, 511, 513, 1023, PASA_SLOTS * PASA_SLOT - 1, PASA_SLOTS * PASA_SLOT + 1, JOURNAL};
    uint64_t many[64] = {0};
    erase();
    memset(journal, 0x00, PASA_SLOT); /* which would be 17 */
    for (size_t i = 0; i < sizeof wrong / sizeof *wrong; i++)
        for (size_t room = 0; room <= WORDS; room += WORDS) {
            struct pasa_recovered got = recover("a journal of a wrong length", wrong[i], room);
            same("a journal of a wrong length: the refusal", got.refusal, PASA_WRONG_LENGTH);
            same("a journal of a wrong length: the nodes", got.nodes, 0);
            same("a journal of a wrong length: the words", memcmp(words, words_before, sizeof words) != 0, 0);
            refuses("a block for a journal of a wrong length", wrong[i], many, 1, PASA_WRONG_LENGTH);
        }
    same("the words that recovery wants", PASA_NODES, 4096);
    const size_t few[] = {0, 1, 511, 512, 513, 4095};
    for (size_t i = 0; i < sizeof few / sizeof *few; i++) {
        struct pasa_recovered got = recover("too few words", PASA_SLOT, few[i]);
        same("too few words: the refusal", got.refusal, PASA_NO_ROOM);
        same("too few words: the nodes", got.nodes, 0);
        same("too few words: the words", memcmp(words, words_before, sizeof words) != 0, 0);
    }
    refuses("a block of no addresses", PASA_SLOT, many, 0, PASA_WRONG_LENGTH);
    refuses("a block of 64 addresses", PASA_SLOT, many, 64, PASA_WRONG_LENGTH);
    refuses("a block of a wrong journal", PASA_SLOT, many, 63, PASA_BAD_JOURNAL);
    same("no journal", pasa_journal_recover(NULL, 0, NULL, 0).refusal, PASA_WRONG_LENGTH);
    same("no journal to write to", pasa_journal_write(NULL, 0, NULL, 0).refusal, PASA_WRONG_LENGTH);
    erase();
    same("no words", pasa_journal_recover(journal, PASA_SLOT, NULL, 0).refusal, PASA_NO_ROOM);
    same("no addresses", pasa_journal_write(journal, PASA_SLOT, NULL, 0).refusal, PASA_WRONG_LENGTH);
}

/* "a 513th node, the root counted, is 14, but 17 if it is no next child": a 4,097th since request Six */
static void halls_of_most_nodes(void)
{
    struct list most = first_addresses(4095), more = first_addresses(4097);
    const uint64_t last = more.addresses[4094], next = more.addresses[4095], other = more.addresses[4096], known = 2;
    erase();
    size_t slots = put_blocks(0, &most, PASA_BLOCK_MOST);
    same("the slots of 4,095 addresses", slots, 65);
    recovers("4,096 nodes in 65 blocks", slots, &most);
    recovers("4,096 nodes in 65 blocks of 128 slots", PASA_SLOTS, &most);
    refuses("a 4,097th node", PASA_SLOTS * PASA_SLOT, &next, 1, PASA_TOO_MANY);
    refuses("a 4,097th node that is no next child", PASA_SLOTS * PASA_SLOT, &other, 1, PASA_BAD_JOURNAL);
    refuses("a 4,097th node that is known", PASA_SLOTS * PASA_SLOT, &known, 1, PASA_BAD_JOURNAL);
    refuses("a 4,097th node that is the last one", PASA_SLOTS * PASA_SLOT, &last, 1, PASA_BAD_JOURNAL);
    refuses("a 4,097th node, and then one that is no next child", PASA_SLOTS * PASA_SLOT, (const uint64_t[]){next, 0}, 2, PASA_TOO_MANY);
    put_block(slots, &next, 1);
    faulty("a 4,097th node written", slots + 1, PASA_TOO_MANY);
    memset(slot_of(slots + 1), 0, PASA_SLOT);
    faulty("a 4,097th node, and then a slot of zeros", slots + 2, PASA_TOO_MANY);
    put_block(slots, (const uint64_t[]){next, 0}, 2);
    faulty("a 4,097th node, and zero behind it", slots + 1, PASA_TOO_MANY);
    put_block(slots, &other, 1);
    faulty("a 4,097th node written that is no next child", slots + 1, PASA_BAD_JOURNAL);
    put_block(slots, &known, 1);
    faulty("a 4,097th node written that is known", slots + 1, PASA_BAD_JOURNAL);
    put_block(slots, &next, 1);
    slot_of(slots)[510] ^= 1;
    faulty("a 4,097th node in a wrong block", slots + 1, PASA_BAD_JOURNAL);
    put_block(slots, &next, 1);
    slot_of(slots)[LAST] = ERASED;
    recovers("a 4,097th node in a torn slot", slots + 1, &most);
    memset(slot_of(slots), ERASED, PASA_SLOT);
    put_block(slots + 1, &next, 1);
    faulty("a 4,097th node behind an erased slot", slots + 2, PASA_BAD_JOURNAL);

    /* the 4,096th node and a 4,097th in one block */
    erase();
    most.count--;
    same("the slots of 4,094 addresses", put_blocks(0, &most, PASA_BLOCK_MOST), slots);
    refuses("two nodes more than 4,095", PASA_SLOTS * PASA_SLOT, (const uint64_t[]){last, next}, 2, PASA_TOO_MANY);
    refuses("two nodes more than 4,095, a wrong one last", PASA_SLOTS * PASA_SLOT, (const uint64_t[]){last, other}, 2, PASA_BAD_JOURNAL);
    put_block(slots, (const uint64_t[]){last, next}, 2);
    faulty("two nodes more than 4,095 written", slots + 1, PASA_TOO_MANY);
    memset(slot_of(slots), ERASED, PASA_SLOT);
    writes("a 4,096th node", PASA_SLOTS, &last, 1, slots);
    most.count++;
    recovers("a 4,096th node in a block of its own", PASA_SLOTS, &most);
}

/* About the limit before request Six, which is none. */
static void halls_of_about_512_nodes(void)
{
    struct list hall = first_addresses(511);
    erase();
    size_t slots = put_blocks(0, &hall, PASA_BLOCK_MOST);
    same("the slots of 511 addresses", slots, 9);
    recovers("512 nodes in 9 blocks", slots, &hall);
    recovers("512 nodes in 9 blocks of 128 slots", PASA_SLOTS, &hall);
    hall = first_addresses(513);
    refuses("a 513th node that is no next child", PASA_SLOTS * PASA_SLOT, hall.addresses + 512, 1, PASA_BAD_JOURNAL);
    writes("a 513th node", PASA_SLOTS, hall.addresses + 511, 1, slots);
    writes("a 514th node", PASA_SLOTS, hall.addresses + 512, 1, slots + 1);
    recovers("514 nodes", PASA_SLOTS, &hall);
}

/* 128 slots hold 8,064 addresses, which are more than a hall may have. */
static void journals_of_more_than_a_hall(void)
{
    struct list all = first_addresses(SLOTS_HOLD);
    same("the addresses that 128 slots hold", all.count, 8064);
    erase();
    same("128 full blocks", put_blocks(0, &all, PASA_BLOCK_MOST), PASA_SLOTS);
    faulty("128 full blocks", PASA_SLOTS, PASA_TOO_MANY);
    faulty("66 full blocks of them", 66, PASA_TOO_MANY);
    memset(slot_of(127), 0, PASA_SLOT);
    faulty("127 full blocks, and then a slot of zeros", PASA_SLOTS, PASA_TOO_MANY);
    memset(slot_of(66), 0, PASA_SLOT);
    faulty("full blocks with a slot of zeros behind the 4,097th node", PASA_SLOTS, PASA_TOO_MANY);
    memset(slot_of(65), 0, PASA_SLOT);
    faulty("full blocks with a slot of zeros before the 4,097th node", PASA_SLOTS, PASA_BAD_JOURNAL);
    all.count = 4095;
    recovers("65 full blocks of them", 65, &all);
}

/* "14 or 17 exactly if recovery gives it for the journal, or else for its written slots and this block after them, even a 129th; 10 if no slot is
 * erased" */
static void journals_without_an_erased_slot(void)
{
    struct list most = first_addresses(4095), some = first_addresses(PASA_SLOTS);
    erase();
    same("128 blocks", put_blocks(0, &some, 1), PASA_SLOTS);
    recovers("128 blocks", PASA_SLOTS, &some);
    refuses("a 129th block", PASA_SLOTS * PASA_SLOT, most.addresses + PASA_SLOTS, 1, PASA_NO_ROOM);
    refuses("a 129th block of 63", PASA_SLOTS * PASA_SLOT, most.addresses + PASA_SLOTS, 63, PASA_NO_ROOM);
    refuses("a 129th block that is no next child", PASA_SLOTS * PASA_SLOT, most.addresses + PASA_SLOTS + 1, 1, PASA_BAD_JOURNAL);
    refuses("a 129th block of zero", PASA_SLOTS * PASA_SLOT, (const uint64_t[]){0}, 1, PASA_BAD_JOURNAL);
    some = first_addresses(511);
    same("511 addresses in 128 blocks", put_blocks(0, &some, 4), PASA_SLOTS);
    recovers("511 addresses in 128 blocks", PASA_SLOTS, &some);
    refuses("a 513th node in a 129th block", PASA_SLOTS * PASA_SLOT, most.addresses + 511, 1, PASA_NO_ROOM);
    same("4,095 addresses in 128 blocks", put_blocks(0, &most, 32), PASA_SLOTS);
    recovers("4,095 addresses in 128 blocks", PASA_SLOTS, &most);
    struct list more = first_addresses(4097);
    refuses("a 4,097th node in a 129th block", PASA_SLOTS * PASA_SLOT, more.addresses + 4095, 1, PASA_TOO_MANY);
    refuses("a 4,097th node in a 129th block that is no next child", PASA_SLOTS * PASA_SLOT, more.addresses + 4096, 1, PASA_BAD_JOURNAL);
    some = first_addresses(4094);
    same("4,094 addresses in 128 blocks", put_blocks(0, &some, 32), PASA_SLOTS);
    refuses("a 4,096th node in a 129th block", PASA_SLOTS * PASA_SLOT, more.addresses + 4094, 1, PASA_NO_ROOM);
    refuses("a 4,096th and a 4,097th node in a 129th block", PASA_SLOTS * PASA_SLOT, more.addresses + 4094, 2, PASA_TOO_MANY);
    erase();
    for (size_t slot = 0; slot < PASA_SLOTS; slot++)
        slot_of(slot)[0] = 0x50;
    recovers("128 torn slots", PASA_SLOTS, &(struct list){{0}, 0});
    refuses("a block behind 128 torn slots", PASA_SLOTS * PASA_SLOT, most.addresses, 1, PASA_NO_ROOM);
    refuses("a block behind 128 torn slots that is no next child", PASA_SLOTS * PASA_SLOT, most.addresses + 1, 1, PASA_BAD_JOURNAL);
    erase();
    put_block(0, most.addresses, 1);
    refuses("a block for a journal of one slot", PASA_SLOT, most.addresses + 1, 1, PASA_NO_ROOM);
    writes("a block for its second slot", 2, most.addresses + 1, 1, 1);
}

static void record_as(const char *what, const uint64_t *among, size_t count, uint64_t address, struct pasa_node node, uint8_t found)
{
    char part[128];
    struct pasa_record got = pasa_journal_record(among, count, address);
    snprintf(part, sizeof part, "%s: whether it is found", what);
    same(part, got.found, found);
    same_node(what, got.node, node);
}

static void records_of_recovered_words(void)
{
    struct list all = {{2, 5, 11, 4, 6, 3, 7}, 7};
    erase();
    put_block(0, all.addresses, all.count);
    recovers("the hall of the records", 1, &all);
    const struct pasa_node none = {0, 0, 0, 0, 0};
    record_as("the root", words, PASA_NODES, 1, record("1", 2, 2), 1);
    record_as("node 10", words, PASA_NODES, 2, record("10", 1, 2), 1);
    record_as("node 100", words, PASA_NODES, 4, record("100", 0, 0), 1);
    record_as("host 11", words, PASA_NODES, 3, record("11", 0, 0), 1);
    record_as("a node that is not there", words, PASA_NODES, bits("1110"), none, 0);
    record_as("zero, which stands among the words", words, PASA_NODES, 0, none, 0);
    record_as("no words", NULL, 0, 1, none, 0);
    record_as("words without the node's children", words, 1, 1, record("1", 0, 0), 1);
    /* a hall of 4,096 nodes: the record counts what stands last too */
    struct list most = first_addresses(4095);
    erase();
    put_blocks(0, &most, PASA_BLOCK_MOST);
    recovers("the largest hall of the records", 65, &most);
    record_as("the root of 4,096 nodes", words, PASA_NODES, 1, record("1", 63, 63), 1);
    record_as("node 110 of 4,096", words, PASA_NODES, 6, record("110", 61, 2), 1);
    record_as("node 110 of 4,096 without the last", words, PASA_NODES - 1, 6, record("110", 61, 1), 1);
    record_as("the last of 4,096 nodes", words, PASA_NODES, bits("11011"), record("11011", 0, 0), 1);
    record_as("the last of 4,096 nodes without it", words, PASA_NODES - 1, bits("11011"), none, 0);
    erase();
    put_block(0, all.addresses, all.count);
    recovers("the hall of the records again", 1, &all);
    struct pasa_child next = pasa_child_router(pasa_journal_record(words, PASA_NODES, PASA_ROOT).node);
    same("the root's next router after recovery", next.child, bits("1110"));
    /* "The journal holds no limits, so recovered nodes have 64 and 64." */
    same("the root's limit on routers after recovery", next.node.router_limit, 64);
    same("the root's limit on hosts after recovery", next.node.host_limit, 64);
    /* words that no recovery leaves: the same child often */
    static uint64_t often[600];
    for (size_t i = 0; i < 600; i++)
        often[i] = i == 0 ? 1 : i < 300 ? 2 : 3;
    record_as("254 routers", often, 255, 1, record("1", 254, 0), 1);
    record_as("255 routers", often, 256, 1, record("1", 255, 0), 1);
    record_as("256 routers", often, 257, 1, record("1", 255, 0), 1);
    record_as("299 routers and 300 hosts", often, 600, 1, record("1", 255, 255), 1);
    record_as("a child without its parent", often + 1, 10, 1, none, 0);
}

/* The hall's own way: every child as it is given, written and then recovered. */
static void a_hall_by_its_requests(void)
{
    struct list given = nobody();
    erase();
    for (size_t block = 0; block < 8; block++) {
        uint64_t addresses[2];
        recovers("the hall so far", 8, &given);
        struct pasa_node root = pasa_journal_record(words, PASA_NODES, PASA_ROOT).node;
        struct pasa_child router = pasa_child_router(root);
        addresses[0] = router.child;
        addresses[1] = pasa_child_host(pasa_fresh(router.child)).child;
        writes("a router of the root and its host", 8, addresses, 2, block);
        given.addresses[given.count++] = addresses[0];
        given.addresses[given.count++] = addresses[1];
    }
    recovers("the whole hall", 8, &given);
}

int main(void)
{
    interface();
    refusal_texts();
    addresses();
    children();
    children_at_limits();
    records_bad_by_limits();
    settings();
    next_hops();
    headers();
    payloads();
    faulty_headers();
    next_hops_of_packets();
    ipv6_forms();
    nsa_fields();
    nsa_payload_lengths_refused();
    nsa_addresses_refused();
    nsa_writings_refused();
    nsa_by_null_pointers();
    paths();
    plans_in_the_grammar();
    plans_outside_the_grammar();
    plans_about_their_limits();
    plans_of_two_refusals();
    plans_by_null_pointers();
    checks_of_octets();
    blocks_byte_by_byte();
    journals_cut_off();
    journals_of_many_forms();
    blocks_that_are_none();
    addresses_that_are_no_next_children();
    journals_of_wrong_lengths();
    halls_of_most_nodes();
    halls_of_about_512_nodes();
    journals_of_more_than_a_hall();
    journals_without_an_erased_slot();
    records_of_recovered_words();
    a_hall_by_its_requests();
    printf("%u known values compared, %u different\n", compared, differences);
    return differences == 0 ? 0 : 1;
}
