/* What the readers must answer, written from the specification octet by octet and number by number, for the fuzzer to compare with. */
#ifndef REFERENCE_H
#define REFERENCE_H

#include <stdbool.h>
#include <string.h>

#include "pasa.h"

/* A loop whose branches tell the fuzzer nothing new: it is not told of them, which makes large journals quicker. */
#define UNTOLD __attribute__((no_sanitize("coverage")))

static struct pasa_read reference_header_read(const uint8_t *packet, size_t length)
{
    struct pasa_read answer = {0, 0, PASA_DONE};
    for (size_t i = 0; i < 3; i++) {
        if (length <= i) {
            answer.refusal = PASA_ENDS_EARLY;
            return answer;
        }
        bool right = i == 0 ? packet[0] == 0xF1 : i == 1 ? (packet[1] & 0xE0) == 0x80 : packet[2] == 15;
        if (!right) {
            answer.refusal = PASA_WRONG_START;
            return answer;
        }
    }
    size_t size = (packet[1] & 0x1Fu) + 1;
    if (size > 8) {
        answer.refusal = PASA_WRONG_SIZE;
        return answer;
    }
    if (length - 3 < size) {
        answer.refusal = PASA_ENDS_EARLY;
        return answer;
    }
    if (packet[3] == 0) {
        answer.refusal = size == 1 ? PASA_ZERO_ADDRESS : PASA_WRONG_SIZE;
        return answer;
    }
    /* "A packet whose payload is empty is refused with 16, after every other header check" */
    if (length - 3 == size) {
        answer.refusal = PASA_EMPTY;
        return answer;
    }
    for (size_t i = 0; i < size; i++)
        answer.address |= (uint64_t)packet[3 + i] << (8 * (size - 1 - i));
    answer.place = 3 + size;
    return answer;
}

/* The bits of an address, most significant first. */
struct digits {
    unsigned count;
    bool bit[64];
};

UNTOLD static struct digits digits_of(uint64_t number)
{
    struct digits digits = {0, {false}};
    for (int place = 63; place >= 0; place--) {
        bool bit = (number >> place & 1) != 0;
        if (bit || digits.count > 0)
            digits.bit[digits.count++] = bit;
    }
    return digits;
}

UNTOLD static uint64_t number_of(struct digits digits, unsigned count)
{
    uint64_t number = 0;
    for (unsigned i = 0; i < count; i++)
        number = number * 2 + (digits.bit[i] ? 1 : 0);
    return number;
}

static bool is_host(struct digits digits)
{
    return digits.count > 1 && digits.bit[digits.count - 1];
}

/* A count of a kind beside the room that the address leaves, and beside its limit. */
static bool fits(uint8_t count, uint8_t limit, unsigned room)
{
    return limit <= 64 && count <= limit && count <= room;
}

static bool reference_is_good(struct pasa_node node)
{
    struct digits c = digits_of(node.address);
    unsigned room = is_host(c) ? 0 : 64 - c.count;
    return c.count != 0 && fits(node.routers, node.router_limit, room) && fits(node.hosts, node.host_limit, room);
}

static struct pasa_child reference_child(struct pasa_node node, bool host)
{
    struct pasa_child answer = {node, 0, PASA_DONE};
    struct digits c = digits_of(node.address);
    uint8_t *count = host ? &answer.node.hosts : &answer.node.routers, limit = host ? node.host_limit : node.router_limit;
    if (!reference_is_good(node)) {
        answer.refusal = PASA_BAD_RECORD;
    } else if (is_host(c)) {
        answer.refusal = PASA_HOST_ASKED;
    } else if (*count == limit && limit < 64) {
        answer.refusal = PASA_AT_LIMIT;
    } else if (c.count + *count + 1 > 64) {
        answer.refusal = PASA_TOO_LONG;
    } else {
        for (unsigned ones = *count; ones > 0; ones--)
            c.bit[c.count++] = true;
        c.bit[c.count++] = host;
        answer.child = number_of(c, c.count);
        *count += 1;
    }
    return answer;
}

static struct pasa_limited reference_limited(struct pasa_node node, bool host, uint64_t limit)
{
    struct pasa_limited answer = {node, PASA_BAD_RECORD};
    if (!reference_is_good(node) || limit > 64 || limit < (host ? node.hosts : node.routers))
        return answer;
    *(host ? &answer.node.host_limit : &answer.node.router_limit) = (uint8_t)limit;
    answer.refusal = PASA_DONE;
    return answer;
}

static struct pasa_hop reference_next_hop(struct pasa_node node, uint64_t destination)
{
    struct pasa_hop answer = {0, PASA_DONE, PASA_STOPPED};
    struct digits c = digits_of(node.address);
    bool host = is_host(c);
    if (!reference_is_good(node)) {
        answer.refusal = PASA_BAD_RECORD;
        return answer;
    }
    if (destination == 0) {
        answer.refusal = PASA_ZERO_ADDRESS;
        return answer;
    }
    struct digits d = digits_of(destination);
    unsigned common = 0;
    while (common < c.count && common < d.count && c.bit[common] == d.bit[common])
        common++;
    if (common == c.count && common == d.count) {
        answer.node = node.address;
        answer.action = PASA_DELIVERED;
        return answer;
    }
    if (host || common < c.count) {
        /* without the last bit and the ones before it, but for the first bit of all; the root's parent is 0 */
        unsigned count = c.count - 1;
        while (count > 1 && c.bit[count - 1])
            count--;
        answer.node = number_of(c, count);
        answer.action = PASA_TO_PARENT;
        return answer;
    }
    unsigned end = common;
    do
        end++;
    while (d.bit[end - 1] && end < d.count);
    if (end - common - 1 < (d.bit[end - 1] ? node.hosts : node.routers)) {
        answer.node = number_of(d, end);
        answer.action = PASA_TO_CHILD;
    } else {
        answer.refusal = PASA_CHILD_NOT_GIVEN;
    }
    return answer;
}

static struct pasa_hop reference_packet_next_hop(struct pasa_node node, const uint8_t *packet, size_t length)
{
    struct pasa_hop answer = reference_next_hop(node, 0);
    if (answer.refusal == PASA_BAD_RECORD)
        return answer;
    struct pasa_read read = reference_header_read(packet, length);
    if (read.refusal != PASA_DONE) {
        answer.refusal = read.refusal;
        return answer;
    }
    return reference_next_hop(node, read.address);
}

static struct pasa_address reference_ipv6_read(const uint8_t *prefix, size_t prefix_length, const uint8_t *ipv6, size_t ipv6_length)
{
    struct pasa_address answer = {0, PASA_DONE};
    if (prefix_length != 8 || ipv6_length != 16) {
        answer.refusal = PASA_WRONG_LENGTH;
        return answer;
    }
    for (size_t i = 0; i < 8; i++) {
        if (prefix[i] != ipv6[i])
            answer.refusal = PASA_OTHER_PREFIX;
        answer.address = answer.address << 8 | ipv6[8 + i];
    }
    if (answer.refusal == PASA_OTHER_PREFIX)
        answer.address = 0;
    else if (answer.address == 0)
        answer.refusal = PASA_ZERO_ADDRESS;
    return answer;
}

/* A field of NSA as it is written: its octets, or none where the number has no such form. */
struct nsa_form {
    size_t count;
    uint8_t octets[10];
};

/* A number in so many octets, high octet first, behind as many octets in front: none, a mark, or a mark and a length. */
static struct nsa_form nsa_form(size_t front, uint8_t mark, uint8_t length, uint64_t number, size_t size)
{
    struct nsa_form form = {front + size, {mark, length}};
    for (size_t place = form.count; place > front; place--) {
        form.octets[place - 1] = (uint8_t)(number % 256);
        number /= 256;
    }
    return number == 0 ? form : (struct nsa_form){0, {0}};
}

/* One octet alone, where it is no mark. */
static struct nsa_form nsa_one_octet(uint64_t number)
{
    return number <= 252 ? nsa_form(0, 0, 0, number, 1) : (struct nsa_form){0, {0}};
}

/* The shorter of two forms; the first of them, where both are as long. */
static struct nsa_form nsa_shorter(struct nsa_form first, struct nsa_form second)
{
    return second.count != 0 && (first.count == 0 || second.count < first.count) ? second : first;
}

/* "A payload length to 252 is one octet; 253 is followed by one octet and 254 by two, each plus 252": of all these forms the shortest. */
static struct nsa_form nsa_length(uint64_t length)
{
    struct nsa_form form = nsa_one_octet(length);
    if (length >= 252) {
        form = nsa_shorter(form, nsa_form(1, 253, 0, length - 252, 1));
        form = nsa_shorter(form, nsa_form(1, 254, 0, length - 252, 2));
    }
    return form;
}

/* "An address to 252 is one octet; 253 is followed by two octets, 254 by four, 255 by a length and that many octets.": of all these forms the
 * shortest. With a length of 1 or 3 behind 255 a number may be as short as behind 253 or 254, but the request has 5 to 8: the lower mark counts. */
static struct nsa_form nsa_address(uint64_t address)
{
    struct nsa_form form = nsa_one_octet(address);
    form = nsa_shorter(form, nsa_form(1, 253, 0, address, 2));
    form = nsa_shorter(form, nsa_form(1, 254, 0, address, 4));
    for (uint8_t size = 1; size <= 8; size++)
        form = nsa_shorter(form, nsa_form(2, 255, size, address, size));
    return form;
}

/* "A length to write above 65,787 is 14, checked first; then 9; then 10.": a length is above that where it has no form. */
static struct pasa_written reference_nsa_write(uint64_t length, uint64_t source, uint64_t destination, uint8_t *out, size_t room)
{
    struct pasa_written answer = {0, PASA_DONE};
    const struct nsa_form forms[3] = {nsa_length(length), nsa_address(source), nsa_address(destination)};
    if (forms[0].count == 0) {
        answer.refusal = PASA_TOO_MANY;
    } else if (source == 0 || destination == 0) {
        answer.refusal = PASA_ZERO_ADDRESS;
    } else if (room < forms[0].count + forms[1].count + forms[2].count) {
        answer.refusal = PASA_NO_ROOM;
    } else {
        for (size_t i = 0; i < 3; i++)
            for (size_t octet = 0; octet < forms[i].count; octet++)
                out[answer.count++] = forms[i].octets[octet];
    }
    return answer;
}

/* Whether a length may stand behind 255: it does before the largest number of so many octets. */
static bool nsa_is_size(uint8_t size)
{
    if (size == 0 || size > 8)
        return false;
    struct nsa_form form = nsa_address(UINT64_MAX >> 8 * (8 - size));
    return form.octets[0] == 255 && form.octets[1] == size;
}

/* A field that is read: how many octets it has, its number, and its refusal. */
struct nsa_field {
    size_t count;
    uint64_t number;
    uint8_t refusal;
};

/* The number in so many octets behind those in front. "Within a field a missing octet is 4 and comes before any judgement of the value"; "Only the
 * shortest form is accepted: otherwise 6"; "Address zero in one octet is 9, longer zeros are 6." */
static struct nsa_field nsa_judged(const uint8_t *octets, size_t left, bool is_address, size_t front, size_t size)
{
    struct nsa_field field = {front + size, 0, PASA_DONE};
    if (left < field.count) {
        field.refusal = PASA_ENDS_EARLY;
        return field;
    }
    for (size_t i = front; i < field.count; i++)
        field.number = field.number * 256 + octets[i];
    if (!is_address && front > 0)
        field.number += 252;
    struct nsa_form form = is_address ? nsa_address(field.number) : nsa_length(field.number);
    if (form.count != field.count || memcmp(form.octets, octets, form.count) != 0)
        field.refusal = PASA_WRONG_SIZE;
    else if (is_address && field.number == 0)
        field.refusal = PASA_ZERO_ADDRESS;
    return field;
}

/* The field at the front of the octets that are left. "255 is refused with 6", as a payload length; "the length octet after 255 is judged before its
 * address octets are looked for" */
static struct nsa_field nsa_field(const uint8_t *octets, size_t left, bool is_address)
{
    static const size_t behind[2][2] = {{1, 2}, {2, 4}}; /* 253 and 254, of a payload length and of an address */
    if (left == 0)
        return (struct nsa_field){0, 0, PASA_ENDS_EARLY};
    if (octets[0] <= 252)
        return nsa_judged(octets, left, is_address, 0, 1);
    if (octets[0] <= 254)
        return nsa_judged(octets, left, is_address, 1, behind[is_address][octets[0] - 253]);
    if (!is_address)
        return (struct nsa_field){0, 0, PASA_WRONG_SIZE};
    if (left == 1)
        return (struct nsa_field){0, 0, PASA_ENDS_EARLY};
    if (!nsa_is_size(octets[1]))
        return (struct nsa_field){0, 0, PASA_WRONG_SIZE};
    return nsa_judged(octets, left, is_address, 2, octets[1]);
}

/* "The first faulty field decides. The reader answers these and the place after them" */
static struct pasa_nsa reference_nsa_read(const uint8_t *octets, size_t length)
{
    uint64_t numbers[3];
    size_t place = 0;
    for (size_t i = 0; i < 3; i++) {
        struct nsa_field field = nsa_field(octets + place, length - place, i > 0);
        if (field.refusal != PASA_DONE)
            return (struct pasa_nsa){0, 0, 0, 0, field.refusal};
        numbers[i] = field.number;
        place += field.count;
    }
    return (struct pasa_nsa){numbers[0], numbers[1], numbers[2], place, PASA_DONE};
}

/* Whether a byte may stand in a plan behind the one before it, with so many groups open. Nothing may stand behind the root's group. */
static bool may_follow(uint8_t before, uint8_t byte, size_t open)
{
    if (before == 'R')
        return byte == '(';
    return open > 0 && (byte == 'H' || byte == ')' || (byte == 'R' && open < 64));
}

/* The place of the first byte that may not stand where it does; the text's length where none is found. Whether the text is a plan then, is the
 * second answer. */
static size_t plan_fault(const uint8_t *text, size_t length, bool *whole)
{
    size_t open = 0;
    *whole = false;
    for (size_t i = 0; i < length; i++) {
        if (i == 0 ? text[0] != 'R' : !may_follow(text[i - 1], text[i], open))
            return i;
        if (text[i] == '(')
            open++;
        if (text[i] == ')')
            open--;
    }
    *whole = length > 1 && open == 0;
    return length;
}

/* A router of a plan: its digits, and its children of each kind, routers first. */
struct planned {
    struct digits digits;
    unsigned children[2];
};

/* The digits of its next child, a host or not; none where they are more than an address has. */
static struct digits planned_child(struct planned *router, bool host)
{
    struct digits child = router->digits;
    unsigned ones = router->children[host]++;
    if (child.count + ones + 1 > 64)
        return (struct digits){0, {false}};
    while (ones-- > 0)
        child.bit[child.count++] = true;
    child.bit[child.count++] = host;
    return child;
}

/* Lists the addresses of a plan that has at most 4,096 nodes, and answers how many there are; none where one is too long. */
static size_t plan_addresses(const uint8_t *text, size_t length, uint64_t *addresses)
{
    struct planned open[64];
    size_t depth = 0, nodes = 0;
    for (size_t i = 0; i < length; i++) {
        if (text[i] == ')')
            depth--;
        if (text[i] != 'R' && text[i] != 'H')
            continue;
        struct digits digits = depth == 0 ? digits_of(PASA_ROOT) : planned_child(&open[depth - 1], text[i] == 'H');
        if (digits.count == 0)
            return 0;
        if (text[i] == 'R')
            open[depth++] = (struct planned){digits, {0, 0}};
        addresses[nodes++] = number_of(digits, digits.count);
    }
    return nodes;
}

static struct pasa_plan reference_plan_read(const uint8_t *text, size_t length, uint64_t *words, size_t room)
{
    struct pasa_plan answer = {0, 0, PASA_DONE};
    uint64_t addresses[4096];
    size_t nodes = 0;
    bool whole;
    if (length > 32768) {
        answer.refusal = PASA_TOO_MANY;
        return answer;
    }
    size_t place = plan_fault(text, length, &whole);
    if (!whole) {
        answer.refusal = PASA_BAD_PLAN;
        answer.place = place;
        return answer;
    }
    for (size_t i = 0; i < length; i++)
        nodes += text[i] == 'R' || text[i] == 'H';
    if (nodes > 4096) {
        answer.refusal = PASA_TOO_MANY;
    } else if (plan_addresses(text, length, addresses) == 0) {
        answer.refusal = PASA_TOO_LONG;
    } else if (room < nodes) {
        answer.refusal = PASA_NO_ROOM;
    } else {
        for (size_t i = 0; i < nodes; i++)
            words[i] = addresses[i];
        answer.nodes = nodes;
    }
    return answer;
}

/* "a CRC-16 .. (polynomial 0x1021, start 0xFFFF, high bit first, nothing reversed or added at the end)", by a table of whole octets that is made bit
 * by bit. */
UNTOLD static uint16_t reference_crc(const uint8_t *octets, size_t length)
{
    static uint16_t table[256];
    if (table[1] == 0)
        for (unsigned octet = 0; octet < 256; octet++) {
            uint32_t rest = octet << 8;
            for (unsigned bit = 0; bit < 8; bit++)
                rest = (rest << 1) ^ ((rest & 0x8000) != 0 ? 0x11021 : 0);
            table[octet] = (uint16_t)rest;
        }
    uint16_t rest = 0xFFFF;
    for (size_t i = 0; i < length; i++)
        rest = (uint16_t)((rest & 0xFF) << 8 ^ table[rest >> 8 ^ octets[i]]);
    return rest;
}

/* A node that is known: its address, and its children of each kind, routers first. */
struct known_node {
    uint64_t address;
    unsigned children[2];
};

/* The nodes that are known, in their order; and, so that large halls are quicker, where each address stands: its number counted from 1, in the first
 * place free from the one that its bits give. */
enum { KNOWN_PLACES = 16384 };

struct known_hall {
    struct known_node nodes[4096];
    size_t count;
    uint16_t places[KNOWN_PLACES];
};

/* The parent of an address by its digits; 0 for zero and for the root. */
UNTOLD static uint64_t known_parent(uint64_t address)
{
    struct digits digits = digits_of(address);
    if (digits.count < 2)
        return 0;
    unsigned count = digits.count - 1;
    while (count > 1 && digits.bit[count - 1])
        count--;
    return number_of(digits, count);
}

/* The address of a node's next child of a kind; 0 where it has none. */
UNTOLD static uint64_t known_next(const struct known_node *node, bool host)
{
    if (node->address > 1 && node->address % 2 == 1)
        return 0;
    struct planned router = {digits_of(node->address), {node->children[0], node->children[1]}};
    struct digits child = planned_child(&router, host);
    return number_of(child, child.count);
}

/* The place of an address, or the free one that would be its. */
UNTOLD static uint16_t *known_place(struct known_hall *hall, uint64_t address)
{
    size_t place = (size_t)((address ^ address >> 32) * UINT64_C(0x9E3779B97F4A7C15) >> 50);
    while (hall->places[place] != 0 && hall->nodes[hall->places[place] - 1].address != address)
        place = (place + 1) % KNOWN_PLACES;
    return &hall->places[place];
}

UNTOLD static struct known_node *known_at(struct known_hall *hall, uint64_t address)
{
    uint16_t number = *known_place(hall, address);
    return number != 0 ? &hall->nodes[number - 1] : NULL;
}

static void known_add(struct known_hall *hall, uint64_t address)
{
    uint16_t *place = known_place(hall, address);
    hall->nodes[hall->count++] = (struct known_node){address, {0, 0}};
    *place = (uint16_t)hall->count;
}

static void known_begin(struct known_hall *hall)
{
    memset(hall->places, 0, sizeof hall->places);
    hall->count = 0;
    known_add(hall, PASA_ROOT);
}

/* "each are the next child of a node already known .. otherwise 17"; "a 513th node, the root counted, is 14, but 17 if it is no next child": a
 * 4,097th since request Six */
static uint8_t known_take(struct known_hall *hall, uint64_t address)
{
    bool host = address % 2 == 1;
    struct known_node *parent = known_at(hall, known_parent(address));
    if (address < 2 || parent == NULL || known_next(parent, host) != address)
        return PASA_BAD_JOURNAL;
    if (hall->count == 4096)
        return PASA_TOO_MANY;
    parent->children[host]++;
    known_add(hall, address);
    return PASA_DONE;
}

UNTOLD static bool slot_is_erased(const uint8_t *slot)
{
    for (size_t i = 0; i < 512; i++)
        if (slot[i] != 0xFF)
            return false;
    return true;
}

/* Bytes 0 to 511 of a block of so many addresses, whatever they are. */
UNTOLD static void reference_block(const uint64_t *addresses, size_t count, uint8_t *slot)
{
    for (size_t i = 0; i < 509; i++)
        slot[i] = 0;
    slot[0] = 0x50;
    slot[1] = (uint8_t)count;
    for (size_t i = 0; i < 8 * count; i++)
        slot[2 + i] = (uint8_t)(addresses[i / 8] >> 8 * (7 - i % 8));
    uint16_t crc = reference_crc(slot, 509);
    slot[509] = (uint8_t)(crc >> 8);
    slot[510] = (uint8_t)(crc & 0xFF);
    slot[511] = 0xA5;
}

/* A slot that is not erased and not torn: a right block is what would be written for its addresses. */
static uint8_t block_taken(struct known_hall *hall, const uint8_t *slot)
{
    uint64_t addresses[63] = {0};
    uint8_t written[512];
    size_t count = slot[1];
    if (count < 1 || count > 63)
        return PASA_BAD_JOURNAL;
    for (size_t i = 0; i < 8 * count; i++)
        addresses[i / 8] = addresses[i / 8] << 8 | slot[2 + i];
    reference_block(addresses, count, written);
    for (size_t i = 0; i < 512; i++)
        if (written[i] != slot[i])
            return PASA_BAD_JOURNAL;
    uint8_t refusal = PASA_DONE;
    for (size_t i = 0; i < count && refusal == PASA_DONE; i++)
        refusal = known_take(hall, addresses[i]);
    return refusal;
}

/* "then takes slots in order, the first fault deciding, in a slot its place and form before its addresses" */
static uint8_t slots_taken(struct known_hall *hall, const uint8_t *journal, size_t slots)
{
    bool erased_before = false;
    known_begin(hall);
    for (size_t i = 0; i < slots; i++) {
        const uint8_t *slot = journal + 512 * i;
        if (slot_is_erased(slot)) {
            erased_before = true;
            continue;
        }
        if (erased_before)
            return PASA_BAD_JOURNAL;
        uint8_t refusal = slot[511] == 0xFF ? PASA_DONE : block_taken(hall, slot);
        if (refusal != PASA_DONE)
            return refusal;
    }
    return PASA_DONE;
}

static bool is_journal_length(size_t length)
{
    return length >= 512 && length <= 65536 && length % 512 == 0;
}

static struct pasa_recovered reference_journal_recover(const uint8_t *journal, size_t length, uint64_t *words, size_t room)
{
    struct pasa_recovered answer = {0, PASA_DONE};
    static struct known_hall hall;
    if (!is_journal_length(length)) {
        answer.refusal = PASA_WRONG_LENGTH;
        return answer;
    }
    if (room < 4096) {
        answer.refusal = PASA_NO_ROOM;
        return answer;
    }
    answer.refusal = slots_taken(&hall, journal, length / 512);
    if (answer.refusal == PASA_DONE)
        answer.nodes = hall.count;
    for (size_t i = 0; i < room; i++)
        words[i] = i < answer.nodes ? hall.nodes[i].address : 0;
    return answer;
}

/* "The writer refuses in this order: 12 ..; 14 or 17 exactly if recovery gives it for the journal, or else for its written slots and this block after
 * them, even a 129th; 10 if no slot is erased." */
static struct pasa_block reference_journal_write(uint8_t *journal, size_t length, const uint64_t *addresses, size_t count)
{
    struct pasa_block answer = {0, PASA_DONE};
    static struct known_hall hall;
    if (!is_journal_length(length) || count < 1 || count > 63) {
        answer.refusal = PASA_WRONG_LENGTH;
        return answer;
    }
    answer.refusal = slots_taken(&hall, journal, length / 512);
    for (size_t i = 0; i < count && answer.refusal == PASA_DONE; i++)
        answer.refusal = known_take(&hall, addresses[i]);
    if (answer.refusal != PASA_DONE)
        return answer;
    size_t slot = 0;
    while (slot < length / 512 && !slot_is_erased(journal + 512 * slot))
        slot++;
    if (slot == length / 512) {
        answer.refusal = PASA_NO_ROOM;
        return answer;
    }
    reference_block(addresses, count, journal + 512 * slot);
    answer.slot = slot;
    return answer;
}

/* Found exactly if the address is not zero and stands among the words; the counts are the words whose parent it is, by kind, at most 255 each;
 * a journal holds no limits. */
UNTOLD static struct pasa_record reference_journal_record(const uint64_t *words, size_t count, uint64_t address)
{
    struct pasa_record answer = {{0, 0, 0, 0, 0}, 0};
    unsigned children[2] = {0, 0};
    for (size_t i = 0; i < count; i++) {
        if (words[i] == address && address != 0)
            answer.found = 1;
        if (address != 0 && words[i] != 0 && known_parent(words[i]) == address && children[words[i] % 2] < 255)
            children[words[i] % 2]++;
    }
    if (answer.found == 1)
        answer.node = (struct pasa_node){address, (uint8_t)children[0], (uint8_t)children[1], 64, 64};
    return answer;
}

#endif
