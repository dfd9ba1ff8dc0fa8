/* PASA addresses: parents and depths, children and limits on them, next hops, packet headers, IPv6 forms, the older NSA fields, paths, hall plans
 * and journals.
 *
 * The functions are those of libpasa.a, for x86-64, each proved to answer what the specification says for every input; a refusal is an
 * answer like any other. Nothing is kept between calls and nothing is allocated, so every function may be called from any thread.
 *
 * An address is any number but zero: a string of 1 to 64 bits whose first bit is 1, right-justified. With a refusal every other number
 * answered is 0, the place of refusal 13 excepted, a node answered is the one handed in, and nothing lent is changed, but that 14 and 17 of
 * pasa_journal_recover leave zeros in its words. Without one, only what is named below is written. A batch (pasa_next_hops) has no refusal of
 * its own: the refusal of one destination is written at its index, and an output that is too short is no refusal 10, it only shortens the
 * batch.
 *
 * What a caller owes is C's own: a pointer is valid for as many elements as its length says, and what a call writes to overlaps nothing else
 * that it is handed. A null pointer with length 0 is fine. */
#ifndef PASA_H
#define PASA_H

#include <stddef.h>
#include <stdint.h>

#ifdef __cplusplus
extern "C" {
#endif

/* The longest length of an address in bits, and the root's address. */
#define PASA_LONGEST 64
#define PASA_ROOT UINT64_C(1)

/* The limit of a node that has none, which is the highest one too. */
#define PASA_NO_CAP 64

/* The most octets of a header, the octets of an IPv6 prefix and of an IPv6 address, the most octets of the NSA fields, and the most addresses of a
 * path. */
#define PASA_HEADER_MOST 11
#define PASA_IPV6_PREFIX 8
#define PASA_IPV6_WHOLE 16
#define PASA_NSA_MOST 23
#define PASA_PATH_MOST 126

/* The most nodes of a plan, the root counted, and the most bytes of its text. */
#define PASA_PLAN_NODES 4096
#define PASA_PLAN_BYTES 32768

/* The bytes of a journal's slot, the most slots of a journal, and the most addresses of a block. */
#define PASA_SLOT 512
#define PASA_SLOTS 128
#define PASA_BLOCK_MOST 63

/* The most nodes that are recovered from a journal, the root counted, and the fewest words that recovery wants lent. */
#define PASA_NODES 4096

/* The refusals, by the documents' numbers. */
enum pasa_refusal {
    PASA_DONE = 0,
    PASA_BAD_RECORD = 1,      /* the node record is bad, or a limit to set isn't 0 to 64 or is below its count */
    PASA_HOST_ASKED = 2,      /* a host is asked for a child */
    PASA_TOO_LONG = 3,        /* the child would be longer than 64 bits */
    PASA_ENDS_EARLY = 4,      /* the packet ends too early */
    PASA_WRONG_START = 5,     /* one of the first three octets is wrong */
    PASA_WRONG_SIZE = 6,      /* a size above 8, a first octet of zero where there are several, or an NSA field that isn't the shortest form of a number */
    PASA_CHILD_NOT_GIVEN = 7, /* destination below this node, child not given */
    PASA_OTHER_PREFIX = 8,    /* IPv6 prefix differs */
    PASA_ZERO_ADDRESS = 9,    /* an address is zero */
    PASA_NO_ROOM = 10,        /* lent output too short, or no slot of a journal is erased */
    PASA_BAD_LINE = 11,       /* the path program's input isn't the one line it reads; no function here answers it */
    PASA_WRONG_LENGTH = 12,   /* an IPv6 address isn't 16 octets, a prefix isn't 8, a journal isn't 1 to 128 slots, or a block isn't 1 to 63
                                 addresses */
    PASA_BAD_PLAN = 13,       /* a plan's text is outside the grammar */
    PASA_TOO_MANY = 14,       /* a plan has too many bytes, a plan or a journal too many nodes, or an NSA payload length is above 65,787 */
    PASA_AT_LIMIT = 15,       /* a node is asked for a child at its limit */
    PASA_EMPTY = 16,          /* the payload is empty */
    PASA_BAD_JOURNAL = 17     /* a journal's slot is out of place or no right block, or an address in it is no next child */
};

/* What becomes of a packet at a node. */
enum pasa_action {
    PASA_STOPPED = 0, /* with a refusal */
    PASA_DELIVERED = 1,
    PASA_TO_PARENT = 2,
    PASA_TO_CHILD = 3
};

/* A node's record: its address, the router children and the host children given so far, and how many of each it may give, 0 to 64.
 *
 * A caller makes a record by pasa_fresh alone, and sets its limits by pasa_limit_routers and pasa_limit_hosts. One that was stored is made in
 * this order: afresh; its counts set, which are the only fields that a caller writes; then its limits, where it had other ones than a fresh
 * record. pasa_journal_record answers a record made so as far as its counts: a journal holds no limits, so they are set again.
 *
 * A record without limits has 64 in both, PASA_NO_CAP, and not 0. A struct that is initialized by hand with an address and two counts gets
 * limits of 0 from C: with both counts 0 such a record gives no child (15), and with any other it is bad (1). One that is only assigned to has
 * for limits whatever stood there.
 *
 * There is one record of a node, and the one that a request or a setting answers takes its place: an old record, or a copy, that is asked again
 * gives the same address a second time, to another node. */
struct pasa_node {
    uint64_t address;
    uint8_t routers;
    uint8_t hosts;
    uint8_t router_limit;
    uint8_t host_limit;
};

/* A child's answer: the record to go on with, and the child's address. */
struct pasa_child {
    struct pasa_node node;
    uint64_t child;
    uint8_t refusal; /* enum pasa_refusal, here and below */
};

/* A setting's answer: the record to go on with. */
struct pasa_limited {
    struct pasa_node node;
    uint8_t refusal;
};

/* A next hop's answer: the node passed to, on delivery the node itself. */
struct pasa_hop {
    uint64_t node;
    uint8_t refusal;
    uint8_t action; /* enum pasa_action */
};

/* A writer's answer: how many octets were written. */
struct pasa_written {
    size_t count;
    uint8_t refusal;
};

/* A header reader's answer: the address, and the place where the payload begins, at which the packet has an octet. */
struct pasa_read {
    uint64_t address;
    size_t place;
    uint8_t refusal;
};

/* An IPv6 reader's answer: the address. */
struct pasa_address {
    uint64_t address;
    uint8_t refusal;
};

/* An NSA reader's answer: the payload length, the two addresses, and the place behind these fields. */
struct pasa_nsa {
    uint64_t length;
    uint64_t source;
    uint64_t destination;
    size_t place;
    uint8_t refusal;
};

/* A path's answer: its hops, one fewer than the addresses listed. */
struct pasa_listed {
    uint32_t hops;
    uint8_t refusal;
};

/* A plan reader's answer: how many nodes the hall has, and where its text stops being a plan. The place is 0 but with refusal 13. */
struct pasa_plan {
    size_t nodes;
    size_t place;
    uint8_t refusal;
};

/* A journal writer's answer: the slot that the block was written to, counted from 0. */
struct pasa_block {
    size_t slot;
    uint8_t refusal;
};

/* Recovery's answer: how many nodes the hall has, the root counted. */
struct pasa_recovered {
    size_t nodes;
    uint8_t refusal;
};

/* A node's record among recovered words: found is 1; or 0, and the node all zeros. There is no refusal. */
struct pasa_record {
    struct pasa_node node;
    uint8_t found;
};

/* The layout above is the archive's. Where a compiler lays a struct out otherwise, it says so here. */
#if defined(__cplusplus) && __cplusplus >= 201103L
#define PASA_ASSERT(fact) static_assert(fact, #fact);
#elif defined(__STDC_VERSION__) && __STDC_VERSION__ >= 201112L
#define PASA_ASSERT(fact) _Static_assert(fact, #fact);
#else
#define PASA_ASSERT(fact)
#endif

PASA_ASSERT(sizeof(struct pasa_node) == 16)
PASA_ASSERT(offsetof(struct pasa_node, address) == 0)
PASA_ASSERT(offsetof(struct pasa_node, routers) == 8)
PASA_ASSERT(offsetof(struct pasa_node, hosts) == 9)
PASA_ASSERT(offsetof(struct pasa_node, router_limit) == 10)
PASA_ASSERT(offsetof(struct pasa_node, host_limit) == 11)

PASA_ASSERT(sizeof(struct pasa_child) == 32)
PASA_ASSERT(offsetof(struct pasa_child, node) == 0)
PASA_ASSERT(offsetof(struct pasa_child, child) == 16)
PASA_ASSERT(offsetof(struct pasa_child, refusal) == 24)

PASA_ASSERT(sizeof(struct pasa_limited) == 24)
PASA_ASSERT(offsetof(struct pasa_limited, node) == 0)
PASA_ASSERT(offsetof(struct pasa_limited, refusal) == 16)

PASA_ASSERT(sizeof(struct pasa_hop) == 16)
PASA_ASSERT(offsetof(struct pasa_hop, node) == 0)
PASA_ASSERT(offsetof(struct pasa_hop, refusal) == 8)
PASA_ASSERT(offsetof(struct pasa_hop, action) == 9)

PASA_ASSERT(sizeof(struct pasa_written) == 16)
PASA_ASSERT(offsetof(struct pasa_written, count) == 0)
PASA_ASSERT(offsetof(struct pasa_written, refusal) == 8)

PASA_ASSERT(sizeof(struct pasa_read) == 24)
PASA_ASSERT(offsetof(struct pasa_read, address) == 0)
PASA_ASSERT(offsetof(struct pasa_read, place) == 8)
PASA_ASSERT(offsetof(struct pasa_read, refusal) == 16)

PASA_ASSERT(sizeof(struct pasa_address) == 16)
PASA_ASSERT(offsetof(struct pasa_address, address) == 0)
PASA_ASSERT(offsetof(struct pasa_address, refusal) == 8)

PASA_ASSERT(sizeof(struct pasa_nsa) == 40)
PASA_ASSERT(offsetof(struct pasa_nsa, length) == 0)
PASA_ASSERT(offsetof(struct pasa_nsa, source) == 8)
PASA_ASSERT(offsetof(struct pasa_nsa, destination) == 16)
PASA_ASSERT(offsetof(struct pasa_nsa, place) == 24)
PASA_ASSERT(offsetof(struct pasa_nsa, refusal) == 32)

PASA_ASSERT(sizeof(struct pasa_listed) == 8)
PASA_ASSERT(offsetof(struct pasa_listed, hops) == 0)
PASA_ASSERT(offsetof(struct pasa_listed, refusal) == 4)

PASA_ASSERT(sizeof(struct pasa_plan) == 24)
PASA_ASSERT(offsetof(struct pasa_plan, nodes) == 0)
PASA_ASSERT(offsetof(struct pasa_plan, place) == 8)
PASA_ASSERT(offsetof(struct pasa_plan, refusal) == 16)

PASA_ASSERT(sizeof(struct pasa_block) == 16)
PASA_ASSERT(offsetof(struct pasa_block, slot) == 0)
PASA_ASSERT(offsetof(struct pasa_block, refusal) == 8)

PASA_ASSERT(sizeof(struct pasa_recovered) == 16)
PASA_ASSERT(offsetof(struct pasa_recovered, nodes) == 0)
PASA_ASSERT(offsetof(struct pasa_recovered, refusal) == 8)

PASA_ASSERT(sizeof(struct pasa_record) == 24)
PASA_ASSERT(offsetof(struct pasa_record, node) == 0)
PASA_ASSERT(offsetof(struct pasa_record, found) == 16)

#undef PASA_ASSERT

/* The number of the interface, which rises whenever a struct or a parameter changes. The archive has a function whose name carries it, and
 * every object that includes this header refers to that function: with an archive of another interface it does not link, but ends with an
 * undefined reference to the name. The reference costs a pointer an object. A compiler other than gcc and clang makes none by itself: call
 * PASA_CHECK_INTERFACE() there, once in a program. */
#define PASA_INTERFACE pasa_interface_2
uint32_t PASA_INTERFACE(void);
#define PASA_CHECK_INTERFACE() ((void)PASA_INTERFACE())

#ifdef __GNUC__
/* `used` keeps the reference in the object, `retain` keeps it where the linker drops sections that nothing refers to. */
#ifndef __has_attribute
#define PASA_KEPT __attribute__((used))
#elif __has_attribute(retain)
#define PASA_KEPT __attribute__((used, retain))
#else
#define PASA_KEPT __attribute__((used))
#endif
PASA_KEPT static uint32_t (*const pasa_interface_kept)(void) = PASA_INTERFACE;
#undef PASA_KEPT
#endif

/* What a refusal says, in the documents' words; a text for every number, "done" for 0. */
static inline const char *pasa_refusal_text(uint8_t refusal)
{
    switch (refusal) {
    case PASA_DONE:
        return "done";
    case PASA_BAD_RECORD:
        return "the node record is bad, or a limit to set isn't 0 to 64 or is below its count";
    case PASA_HOST_ASKED:
        return "a host is asked for a child";
    case PASA_TOO_LONG:
        return "the child would be longer than 64 bits";
    case PASA_ENDS_EARLY:
        return "the packet ends too early";
    case PASA_WRONG_START:
        return "one of the first three octets is wrong";
    case PASA_WRONG_SIZE:
        return "a size above 8, a first octet of zero where there are several, or an NSA field that isn't the shortest form of a number";
    case PASA_CHILD_NOT_GIVEN:
        return "destination below this node, child not given";
    case PASA_OTHER_PREFIX:
        return "IPv6 prefix differs";
    case PASA_ZERO_ADDRESS:
        return "an address is zero";
    case PASA_NO_ROOM:
        return "lent output too short, or no slot of a journal is erased";
    case PASA_BAD_LINE:
        return "the path program's input isn't the one line it reads";
    case PASA_WRONG_LENGTH:
        return "an IPv6 address isn't 16 octets, a prefix isn't 8, a journal isn't 1 to 128 slots, or a block isn't 1 to 63 addresses";
    case PASA_BAD_PLAN:
        return "a plan's text is outside the grammar";
    case PASA_TOO_MANY:
        return "a plan has too many bytes, a plan or a journal too many nodes, or an NSA payload length is above 65,787";
    case PASA_AT_LIMIT:
        return "a node is asked for a child at its limit";
    case PASA_EMPTY:
        return "the payload is empty";
    case PASA_BAD_JOURNAL:
        return "a journal's slot is out of place or no right block, or an address in it is no next child";
    default:
        return "a refusal that this header doesn't know";
    }
}

/* The address less its last step; 0 for the root and for zero. */
uint64_t pasa_parent(uint64_t address);

/* The number of steps from the root; 0 for zero. */
uint32_t pasa_depth(uint64_t address);

/* The length in bits; 0 for zero. */
uint32_t pasa_bit_length(uint64_t address);

/* 1 for a host's address, 0 for any other; neither the root nor zero is one. */
uint8_t pasa_is_host(uint64_t address);

/* The record that a node starts with: its address, both counts 0 and both limits PASA_NO_CAP. It refuses nothing; a record of address zero is
 * bad. */
struct pasa_node pasa_fresh(uint64_t address);

/* Gives the next router child. The record answered takes the place of the one handed in. Refusals: 1, 2, 15, 3. */
struct pasa_child pasa_child_router(struct pasa_node node);

/* Gives the next host child. The record answered takes the place of the one handed in. Refusals: 1, 2, 15, 3. */
struct pasa_child pasa_child_host(struct pasa_node node);

/* Sets how many router children the node may give, those given so far among them; PASA_NO_CAP takes the limit away. The record answered takes
 * the place of the one handed in; nothing else in it is changed. Refusal: 1, for a bad record, which no setting mends, a limit above PASA_NO_CAP,
 * or one below the count; then the record answered is the one handed in. */
struct pasa_limited pasa_limit_routers(struct pasa_node node, uint64_t limit);

/* The same for host children. A host may have limits too; it gives no child whatever they are. */
struct pasa_limited pasa_limit_hosts(struct pasa_node node, uint64_t limit);

/* The next hop at this node for a packet to the destination. Refusals: 1, 9, 7. */
struct pasa_hop pasa_next_hop(struct pasa_node node, uint64_t destination);

/* The next hop at this node for a packet, whose destination is the address in its header. Refusals: 1, then a reader's, which are 4, 5, 6, 9 and
 * last 16, then 7. What pasa_header_write wrote, alone, is refused with 16 also at the node that it is for. */
struct pasa_hop pasa_packet_next_hop(struct pasa_node node, const uint8_t *packet, size_t packet_length);

/* The next hops at this node for many destinations: for each what pasa_next_hop answers, its three numbers at the same index of the three
 * outputs, a refusal like any other answer. It does as many as the shortest of the four lengths allows, answers how many, and leaves the rest
 * of the outputs as it was. */
size_t pasa_next_hops(struct pasa_node node, const uint64_t *destinations, size_t destinations_length, uint64_t *nodes, size_t nodes_length,
                      uint8_t *actions, size_t actions_length, uint8_t *refusals, size_t refusals_length);

/* Writes the address's header, 4 to 11 octets, to the front of the buffer. It writes no payload: the header alone is refused with 16 where it is
 * read as a packet. Refusals: 9, 10. */
struct pasa_written pasa_header_write(uint64_t address, uint8_t *out, size_t out_length);

/* Reads the header at the front of a packet. Refusals: 4, 5, 6, 9, in the specification's order of reading, and behind all of them 16 where the
 * payload is empty: what pasa_header_write wrote, alone, is refused with 16, and reads back with any octet behind it. */
struct pasa_read pasa_header_read(const uint8_t *packet, size_t packet_length);

/* Writes the prefix, 8 octets, and the address behind it, 16 octets together, to the front of the buffer. Refusals: 12, 9, 10. */
struct pasa_written pasa_ipv6_write(const uint8_t *prefix, size_t prefix_length, uint64_t address, uint8_t *out, size_t out_length);

/* Reads an IPv6 address, 16 octets, that begins with the prefix, 8 octets. Refusals: 12, 8, 9. */
struct pasa_address pasa_ipv6_read(const uint8_t *prefix, size_t prefix_length, const uint8_t *ipv6, size_t ipv6_length);

/* Writes the older NSA fields, payload length, source and destination in a row, to the front of the buffer: each in its shortest form and high
 * octet first, 3 to PASA_NSA_MOST octets together. An address to 252 is one octet; else 253 and two octets, 254 and four, or 255, a length of 5
 * to 8 and that many. A payload length to 252 is one octet; else 253 and one octet, or 254 and two, which hold what it is above 252. The rest of an
 * NSA header, its I/O and MA bits among it, is the caller's. Refusals: 14 for a payload length above 65,787, then 9 for either address, 10. */
struct pasa_written pasa_nsa_write(uint64_t length, uint64_t source, uint64_t destination, uint8_t *out, size_t out_length);

/* Reads the NSA fields at the front of some octets; nothing need stand behind them, and the payload length isn't compared with what does. It accepts
 * what pasa_nsa_write writes and nothing else. Refusals, those of the first faulty field: 4 where an octet of it is missing, then 6 where it isn't
 * the shortest form of its number, or 9 where an address is one zero octet. A payload length that begins with 255, and an address with another
 * length than 5 to 8 behind 255, are 6 also where nothing is behind. */
struct pasa_nsa pasa_nsa_read(const uint8_t *fields, size_t fields_length);

/* Lists the path from the first address up to the deepest common ancestor-or-self and down to the second, both ends in it, at the front of
 * the words. At most PASA_PATH_MOST addresses. Refusals: 9, 10. */
struct pasa_listed pasa_path(uint64_t first, uint64_t second, uint64_t *words, size_t words_length);

/* Reads a hall plan: "R(", items, ")", an item being "H" for a host or another "R(", items, ")" for a router, at most 64 groups open at once.
 * The outermost R is the root. Lists the addresses of its nodes at the front of the words in the order of the text, the root first and a router
 * before what its group holds, and leaves the words behind them as they were. Refusals, in this order: 14 for a text above PASA_PLAN_BYTES; 13
 * for one outside the grammar, with the place, counted from 0, of the first byte with which the text stops being the start of any text of the
 * grammar, or the text's length where it ends early; 14 for more than PASA_PLAN_NODES nodes; 3, 10. */
struct pasa_plan pasa_plan_read(const uint8_t *text, size_t text_length, uint64_t *words, size_t words_length);

/* Writes a block of 1 to PASA_BLOCK_MOST addresses, in the order given, to the first wholly erased slot of a journal, its bytes in order, and
 * leaves every other byte of the journal as it was. Each address must be the next child of a node that the journal or the block holds before it.
 * Refusals: 12 for a journal that is not 1 to PASA_SLOTS whole slots, or another number of addresses; 14 or 17 where recovery answers that for the
 * journal, and then where it would with this block behind the written slots, also where no slot is left for it; 10 where no slot is erased.
 * It takes 33 KiB of stack, for PASA_NODES words of its own (docs/LINKING.md).
 * Where the storage is not the journal lent, copy the slot that is answered, in order and byte 511 last (docs/JOURNAL.md). */
struct pasa_block pasa_journal_write(uint8_t *journal, size_t journal_length, const uint64_t *addresses, size_t addresses_length);

/* Recovers a hall from its journal: lists the root and the addresses of all blocks, in their order, at the front of the words, with zeros behind
 * them to the end of the words. A slot that is not erased but ends in 0xFF is torn and passed over. Refusals: 12 for a journal that is not 1 to
 * PASA_SLOTS whole slots; 10 for fewer than PASA_NODES words; then for the first fault in the order of the slots 17, or 14 where a next child
 * would be one node more than PASA_NODES. With 12 and 10 the words stay as they were; with 14 and 17 all of them become zeros. */
struct pasa_recovered pasa_journal_recover(const uint8_t *journal, size_t journal_length, uint64_t *words, size_t words_length);

/* The record of a node among recovered words: its address, with the words that are its children counted by kind, at most 255 each, and with both
 * limits PASA_NO_CAP, since a journal holds none: whoever had others sets them again. Found exactly if the address is not zero and stands among
 * the words, whatever they are. The record takes the place of any other record of the node. */
struct pasa_record pasa_journal_record(const uint64_t *words, size_t words_length, uint64_t address);

/* The CRC-16 of the octets as a journal's blocks have it: polynomial 0x1021, start 0xFFFF, high bit first, nothing reversed or added at the end. */
uint16_t pasa_crc(const uint8_t *octets, size_t octets_length);

#ifdef __cplusplus
}
#endif

#endif
