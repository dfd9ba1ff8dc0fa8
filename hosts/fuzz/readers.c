/* A libFuzzer harness over everything of pasa.h that reads octets. Each input goes through pasa_header_read, pasa_packet_next_hop,
 * pasa_ipv6_read, pasa_nsa_read, pasa_plan_read and pasa_journal_recover, and what they answer is compared with reference.h; so are
 * pasa_journal_write, pasa_journal_record and pasa_crc on the same journals, pasa_child_router, pasa_child_host, pasa_limit_routers and
 * pasa_limit_hosts on the same records, and pasa_nsa_write on numbers that the octets spell. What is read as an address, or as the fields of NSA, is
 * written again, and must give the octets read; a header that is written is refused alone, and reads back with a payload behind it.
 *
 * The archive is not instrumented, so the octets lent stand once at the end and once at the beginning of mapped memory, with a page that
 * nobody may touch behind them or before them: one octet too far ends the run. What is lent for reading is compared with a copy afterwards,
 * and so is everything beside what is lent for writing. The sanitizers watch the harness. */
#define _DEFAULT_SOURCE
#include <inttypes.h>
#include <stdio.h>
#include <stdlib.h>
#include <string.h>
#include <sys/mman.h>

#include "pasa.h"
#include "reference.h"

enum { PAGE = 4096, RECORD = 12, LARGEST = 256 };

/* A plan's text, and the words for its nodes: each a little more than there may be, in whole pages. */
enum { TEXT = 9 * PAGE, WORDS = 9 * PAGE };

/* A journal, a little more than there may be, and the words for its nodes: as many as are wanted, one less, and some more. */
enum { JOURNAL = 17 * PAGE, MOST_SLOTS = JOURNAL / PASA_SLOT, FEW = PASA_NODES - 1, SOME = PASA_NODES + 40 };

int LLVMFuzzerTestOneInput(const uint8_t *data, size_t size);

static void fail(const char *what, const uint8_t *octets, size_t count)
{
    fprintf(stderr, "%s:", what);
    for (size_t i = 0; i < count; i++)
        fprintf(stderr, " %02X", octets[i]);
    fprintf(stderr, "\n");
    abort();
}

/* So many octets, in whole pages, between two pages that nobody may touch. */
static uint8_t *guarded(size_t size)
{
    uint8_t *pages = mmap(NULL, size + 2 * PAGE, PROT_NONE, MAP_PRIVATE | MAP_ANONYMOUS, -1, 0);
    if (pages == MAP_FAILED || mprotect(pages + PAGE, size, PROT_READ | PROT_WRITE) != 0) {
        perror("mapping guarded pages");
        exit(2);
    }
    return pages + PAGE;
}

/* Some octets at the beginning of guarded pages of this size, or at their end. */
static uint8_t *placed(uint8_t *pages, size_t size, int at_end, const uint8_t *octets, size_t count)
{
    uint8_t *place = at_end ? pages + size - count : pages;
    if (count > 0)
        memcpy(place, octets, count);
    return place;
}

static void unchanged(const uint8_t *place, const uint8_t *octets, size_t count)
{
    if (count > 0 && memcmp(place, octets, count) != 0)
        fail("what was lent for reading is changed", octets, count);
}

static void write_again(uint8_t *page, uint64_t address, const uint8_t *octets, size_t count)
{
    uint8_t expected[PAGE];
    for (int at_end = 0; at_end < 2; at_end++) {
        memset(page, 0x5A, PAGE);
        memcpy(expected, page, PAGE);
        size_t at = at_end ? PAGE - count : 0;
        memcpy(expected + at, octets, count);
        struct pasa_written written = pasa_header_write(address, page + at, count);
        if (written.refusal != PASA_DONE || written.count != count || memcmp(page, expected, PAGE) != 0)
            fail("the address read is written otherwise", octets, count);
        memcpy(expected, page, PAGE);
        written = pasa_header_write(address, page + at, count - 1);
        if (written.refusal != PASA_NO_ROOM || written.count != 0 || memcmp(page, expected, PAGE) != 0)
            fail("a buffer that is too short is written to", octets, count);
    }
}

static bool same_read(struct pasa_read got, struct pasa_read expected)
{
    return got.address == expected.address && got.place == expected.place && got.refusal == expected.refusal;
}

/* "demand 2's reading back, get one payload octet more": a header that is written is 16 alone, and reads back with a payload, whatever it is. */
static void read_back(uint8_t *page, uint64_t address, const uint8_t *octets, size_t count, size_t payload, uint8_t octet)
{
    const struct pasa_read empty = {0, 0, PASA_EMPTY}, found = {address, count, PASA_DONE};
    for (int at_end = 0; at_end < 2; at_end++) {
        size_t length = count + payload;
        uint8_t *lent = at_end ? page + PAGE - length : page;
        memset(page, octet, PAGE);
        struct pasa_written written = pasa_header_write(address, lent, length);
        if (written.refusal != PASA_DONE || written.count != count || (payload > 0 && lent[count] != octet))
            fail("a header is written otherwise where there is more room", octets, count);
        if (!same_read(pasa_header_read(lent, length), payload > 0 ? found : empty))
            fail(payload > 0 ? "a header is not read back with a payload" : "a header alone is not refused with 16", octets, count);
    }
}

static bool same_node(struct pasa_node got, struct pasa_node expected)
{
    return got.address == expected.address && got.routers == expected.routers && got.hosts == expected.hosts &&
           got.router_limit == expected.router_limit && got.host_limit == expected.host_limit;
}

static void fail_at(struct pasa_node node, const char *what, const uint8_t *octets, size_t count)
{
    fprintf(stderr, "record %" PRIx64 " %u/%u %u/%u\n", node.address, node.routers, node.router_limit, node.hosts, node.host_limit);
    fail(what, octets, count);
}

static void same_child(struct pasa_node node, struct pasa_child got, struct pasa_child expected)
{
    if (!same_node(got.node, expected.node) || got.child != expected.child || got.refusal != expected.refusal)
        fail_at(node, "a child differs", NULL, 0);
}

static void same_limited(struct pasa_node node, struct pasa_limited got, struct pasa_limited expected)
{
    if (!same_node(got.node, expected.node) || got.refusal != expected.refusal)
        fail_at(node, "a setting differs", NULL, 0);
}

/* A node's children, and its limits set to a number, to that number's last octet and to the numbers about both counts. */
static void records(struct pasa_node node, uint64_t limit)
{
    same_child(node, pasa_child_router(node), reference_child(node, false));
    same_child(node, pasa_child_host(node), reference_child(node, true));
    const uint64_t limits[6] = {limit, limit % 256, node.routers, node.hosts, node.routers - UINT64_C(1), node.hosts - UINT64_C(1)};
    for (size_t i = 0; i < 6; i++) {
        same_limited(node, pasa_limit_routers(node, limits[i]), reference_limited(node, false, limits[i]));
        same_limited(node, pasa_limit_hosts(node, limits[i]), reference_limited(node, true, limits[i]));
    }
}

static void packet_at(struct pasa_node node, const uint8_t *packet, size_t length)
{
    static uint8_t *page;
    if (page == NULL)
        page = guarded(PAGE);
    struct pasa_read expected_read = reference_header_read(packet, length);
    struct pasa_hop expected_hop = reference_packet_next_hop(node, packet, length);
    for (int at_end = 0; at_end < 2; at_end++) {
        uint8_t *lent = placed(page, PAGE, at_end, packet, length);
        struct pasa_read read = pasa_header_read(lent, length);
        unchanged(lent, packet, length);
        if (!same_read(read, expected_read))
            fail("pasa_header_read differs at", packet, length);
        struct pasa_hop hop = pasa_packet_next_hop(node, lent, length);
        unchanged(lent, packet, length);
        if (hop.node != expected_hop.node || hop.refusal != expected_hop.refusal || hop.action != expected_hop.action)
            fail_at(node, "pasa_packet_next_hop differs at", packet, length);
    }
}

/* A packet, and its beginnings as far as a header and one octet behind it go: where it is accepted, its header alone is among them. */
static void packets(struct pasa_node node, const uint8_t *packet, size_t length)
{
    static uint8_t *out;
    if (out == NULL)
        out = guarded(PAGE);
    packet_at(node, packet, length);
    for (size_t count = 0; count < length && count <= PASA_HEADER_MOST + 1; count++)
        packet_at(node, packet, count);
    struct pasa_read read = reference_header_read(packet, length);
    if (read.refusal != PASA_DONE)
        return;
    write_again(out, read.address, packet, read.place);
    static const size_t payloads[4] = {0, 1, 2, 256};
    for (size_t i = 0; i < 4; i++) {
        read_back(out, read.address, packet, read.place, payloads[i], 0x00);
        read_back(out, read.address, packet, read.place, payloads[i], 0xFF);
    }
}

static void forms(size_t prefix_length, const uint8_t *octets, size_t length)
{
    static uint8_t *prefix_page, *page, *out;
    if (page == NULL) {
        prefix_page = guarded(PAGE);
        page = guarded(PAGE);
        out = guarded(PAGE);
    }
    if (prefix_length > length)
        prefix_length = length;
    const uint8_t *ipv6 = octets + prefix_length;
    size_t ipv6_length = length - prefix_length;
    struct pasa_address expected = reference_ipv6_read(octets, prefix_length, ipv6, ipv6_length);
    for (int at_end = 0; at_end < 2; at_end++) {
        uint8_t *lent_prefix = placed(prefix_page, PAGE, at_end, octets, prefix_length);
        uint8_t *lent = placed(page, PAGE, at_end, ipv6, ipv6_length);
        struct pasa_address got = pasa_ipv6_read(lent_prefix, prefix_length, lent, ipv6_length);
        unchanged(lent_prefix, octets, prefix_length);
        unchanged(lent, ipv6, ipv6_length);
        if (got.address != expected.address || got.refusal != expected.refusal)
            fail("pasa_ipv6_read differs at", octets, length);
        if (expected.refusal == PASA_DONE) {
            uint8_t *into = at_end ? out + PAGE - ipv6_length : out;
            memset(out, 0x5A, PAGE);
            struct pasa_written written = pasa_ipv6_write(lent_prefix, prefix_length, got.address, into, ipv6_length);
            if (written.refusal != PASA_DONE || written.count != 16 || memcmp(into, ipv6, 16) != 0)
                fail("the address read is written otherwise", octets, length);
            unchanged(lent_prefix, octets, prefix_length);
        }
    }
}

static bool same_fields(struct pasa_nsa got, struct pasa_nsa expected)
{
    return got.length == expected.length && got.source == expected.source && got.destination == expected.destination &&
           got.place == expected.place && got.refusal == expected.refusal;
}

static void fail_with(uint64_t length, uint64_t source, uint64_t destination, const char *what, const uint8_t *octets, size_t count)
{
    fprintf(stderr, "length %" PRIu64 ", source %" PRIx64 ", destination %" PRIx64 "\n", length, source, destination);
    fail(what, octets, count);
}

/* Three numbers into so many octets: the whole answer, and all that stands about the octets. What is written is read back. */
static void numbers_into(uint64_t length, uint64_t source, uint64_t destination, size_t room)
{
    static uint8_t *page;
    if (page == NULL)
        page = guarded(PAGE);
    uint8_t expected_page[PAGE], octets[PASA_NSA_MOST];
    struct pasa_written expected = reference_nsa_write(length, source, destination, octets, room);
    for (int at_end = 0; at_end < 2; at_end++) {
        size_t at = at_end ? PAGE - room : 0;
        memset(page, 0x5A, PAGE);
        memset(expected_page, 0x5A, PAGE);
        memcpy(expected_page + at, octets, expected.count);
        struct pasa_written got = pasa_nsa_write(length, source, destination, page + at, room);
        if (got.count != expected.count || got.refusal != expected.refusal) {
            fprintf(stderr, "%zu octets, refusal %u in %zu octets, not %zu and %u\n", got.count, got.refusal, room, expected.count, expected.refusal);
            fail_with(length, source, destination, "pasa_nsa_write differs at", octets, expected.count);
        }
        if (memcmp(page, expected_page, PAGE) != 0)
            fail_with(length, source, destination, "pasa_nsa_write writes otherwise than", octets, expected.count);
        if (got.refusal != PASA_DONE)
            continue;
        struct pasa_nsa back = {length, source, destination, expected.count, PASA_DONE};
        if (!same_fields(pasa_nsa_read(page + at, room), back))
            fail_with(length, source, destination, "what pasa_nsa_write writes is read otherwise", octets, expected.count);
    }
}

/* The fields that are read are those that are written, into as many octets and into no fewer. */
static void fields_again(struct pasa_nsa read, const uint8_t *octets)
{
    uint8_t written[PASA_NSA_MOST];
    struct pasa_written again = pasa_nsa_write(read.length, read.source, read.destination, written, sizeof written);
    if (again.refusal != PASA_DONE || again.count != read.place || memcmp(written, octets, read.place) != 0)
        fail("the fields read are written otherwise", octets, read.place);
    numbers_into(read.length, read.source, read.destination, read.place);
    numbers_into(read.length, read.source, read.destination, read.place - 1);
}

static void fields(const uint8_t *octets, size_t count)
{
    static uint8_t *page;
    if (page == NULL)
        page = guarded(PAGE);
    struct pasa_nsa expected = reference_nsa_read(octets, count);
    for (int at_end = 0; at_end < 2; at_end++) {
        uint8_t *lent = placed(page, PAGE, at_end, octets, count);
        struct pasa_nsa got = pasa_nsa_read(lent, count);
        unchanged(lent, octets, count);
        if (!same_fields(got, expected)) {
            fprintf(stderr, "place %zu, refusal %u, not %zu and %u\n", got.place, got.refusal, expected.place, expected.refusal);
            fail_with(got.length, got.source, got.destination, "pasa_nsa_read differs at", octets, count);
        }
    }
    if (expected.refusal == PASA_DONE)
        fields_again(expected, octets);
}

/* A number that the octets from a place on spell: as the eight behind the first stand, or their front; a power of two, or one less; or one beside
 * which the forms of NSA's fields change. */
static uint64_t spelled_number(const uint8_t *octets, size_t count, size_t *place)
{
    static const uint64_t boundaries[10] = {0, 1, 252, 253, 507, 508, 65535, 65536, 65787, 65788};
    uint64_t number = 0;
    unsigned kind = *place < count ? octets[*place] % 4 : 3, more = *place < count ? octets[*place] / 4 : 0;
    *place += 1;
    if (kind == 3)
        return boundaries[more % 10];
    if (kind > 0)
        return (UINT64_C(1) << more) - (kind - 1);
    for (size_t i = 0; i < 8; i++) {
        number = number << 8 | (*place < count ? octets[*place] : 0);
        *place += 1;
    }
    return number >> more;
}

/* Three fields in a row, unless one of them has no form. */
static void forms_in_a_row(struct nsa_form length, struct nsa_form source, struct nsa_form destination)
{
    const struct nsa_form row[3] = {length, source, destination};
    uint8_t octets[PASA_NSA_MOST];
    size_t count = 0;
    for (size_t i = 0; i < 3; i++) {
        if (row[i].count == 0)
            return;
        memcpy(octets + count, row[i].octets, row[i].count);
        count += row[i].count;
    }
    fields(octets, count);
}

/* The numbers behind each mark, and each address behind 255 and each length up to 8, also where a shorter form has to be taken. */
static void in_each_form(uint64_t length, uint64_t source, uint64_t destination)
{
    const struct nsa_form first = nsa_length(length), second = nsa_address(source), third = nsa_address(destination);
    if (length >= 252)
        for (uint8_t size = 1; size <= 2; size++)
            forms_in_a_row(nsa_form(1, 252 + size, 0, length - 252, size), second, third);
    for (uint8_t size = 2; size <= 4; size += 2) {
        forms_in_a_row(first, nsa_form(1, 252 + size / 2, 0, source, size), third);
        forms_in_a_row(first, second, nsa_form(1, 252 + size / 2, 0, destination, size));
    }
    for (uint8_t size = 1; size <= 8; size++) {
        forms_in_a_row(first, nsa_form(2, 255, size, source, size), third);
        forms_in_a_row(first, second, nsa_form(2, 255, size, destination, size));
    }
}

/* Three numbers after three: each time written with room for all octets, for one less, and for as many as an octet says; and read in each form. */
static void spelled_fields(const uint8_t *octets, size_t count)
{
    uint8_t out[PASA_NSA_MOST];
    for (size_t place = 0; place < count;) {
        uint64_t length = spelled_number(octets, count, &place);
        uint64_t source = spelled_number(octets, count, &place);
        uint64_t destination = spelled_number(octets, count, &place);
        size_t whole = reference_nsa_write(length, source, destination, out, sizeof out).count;
        numbers_into(length, source, destination, whole);
        numbers_into(length, source, destination, whole > 0 ? whole - 1 : 0);
        numbers_into(length, source, destination, octets[place % count] % 32);
        in_each_form(length, source, destination);
    }
}

/* All beginnings of the octets and all their ends are fields of NSA; then the octets spell numbers for others. */
static void older_fields(const uint8_t *octets, size_t count)
{
    for (size_t i = 0; i <= count; i++) {
        fields(octets + i, count - i);
        fields(octets, i);
    }
    spelled_fields(octets, count);
}

/* One plan into so many words: the whole answer, and all that stands about the words. */
static void plan_into(const uint8_t *text, size_t length, size_t room)
{
    static uint8_t *text_pages, *pages;
    if (pages == NULL) {
        text_pages = guarded(TEXT);
        pages = guarded(WORDS);
    }
    uint8_t expected_pages[WORDS];
    uint64_t words[PASA_PLAN_NODES];
    struct pasa_plan expected = reference_plan_read(text, length, words, room);
    for (int at_end = 0; at_end < 2; at_end++) {
        size_t at = at_end ? WORDS - room * sizeof(uint64_t) : 0;
        memset(pages, 0x5A, WORDS);
        memset(expected_pages, 0x5A, WORDS);
        memcpy(expected_pages + at, words, expected.nodes * sizeof(uint64_t));
        uint8_t *lent = placed(text_pages, TEXT, at_end, text, length);
        struct pasa_plan got = pasa_plan_read(lent, length, (uint64_t *)(void *)(pages + at), room);
        unchanged(lent, text, length);
        if (got.nodes != expected.nodes || got.place != expected.place || got.refusal != expected.refusal) {
            fprintf(stderr, "%zu nodes, place %zu, refusal %u in %zu words\n", got.nodes, got.place, got.refusal, room);
            fail("pasa_plan_read differs at", text, length);
        }
        if (memcmp(pages, expected_pages, WORDS) != 0)
            fail("pasa_plan_read writes otherwise at", text, length);
    }
}

/* With room for all nodes and some to spare, with none to spare, and with one word less, where each R and H is one. */
static void plan(const uint8_t *text, size_t length)
{
    size_t nodes = 0;
    for (size_t i = 0; i < length; i++)
        if (text[i] == 'R' || text[i] == 'H')
            nodes++;
    if (nodes > PASA_PLAN_NODES)
        nodes = PASA_PLAN_NODES;
    plan_into(text, length, nodes + 2);
    plan_into(text, length, nodes);
    plan_into(text, length, nodes > 0 ? nodes - 1 : 0);
}

/* Each octet spells a piece of a plan, and how often, or what so many octets before it have spelled once more: so a few octets reach the limits,
 * which lie beyond the length of the inputs. The last kind of piece is no part of a plan, but much like one. */
static void spelled_plan(const uint8_t *octets, size_t count)
{
    static const char *const pieces[7] = {"R(", "H", ")", "R()", "R(H)", "R", "("};
    static const char *const wrong[8] = {"x", "\n", "\r\n", " ", "r", "h", "\xC8", "[]"};
    uint8_t text[TEXT];
    size_t length = 0, begins[LARGEST];
    for (size_t i = 0; i < count; i++) {
        unsigned kind = octets[i] % 8, number = octets[i] / 8;
        begins[i] = length;
        if (kind == 6 && number > 0) {
            size_t from = begins[i - (number < i ? number : i)], more = length - from < TEXT - length ? length - from : TEXT - length;
            memcpy(text + length, text + from, more);
            length += more;
            continue;
        }
        const char *piece = kind < 7 ? pieces[kind] : wrong[number % 8];
        size_t size = strlen(piece);
        size_t times = kind < 5 ? number + 1 : 1;
        for (; times > 0 && length + size <= TEXT; times--) {
            memcpy(text + length, piece, size);
            length += size;
        }
    }
    plan(text, length);
}

/* One journal into so many words: the whole answer, and all that stands about the words. They hold addresses before, which must not count as known.
 * Then the record of some node among them. */
static void recovery_into(const uint8_t *journal, size_t length, size_t room, unsigned which)
{
    static uint8_t *journal_pages, *pages;
    if (pages == NULL) {
        journal_pages = guarded(JOURNAL);
        pages = guarded(WORDS);
    }
    static uint64_t before[WORDS / sizeof(uint64_t)], expected_words[WORDS / sizeof(uint64_t)], recovered[SOME];
    if (before[0] == 0)
        for (size_t i = 0; i < WORDS / sizeof(uint64_t); i++)
            before[i] = i % 3 == 0 ? PASA_ROOT : UINT64_C(2) << i % 5;
    struct pasa_recovered expected = reference_journal_recover(journal, length, recovered, room);
    bool is_written = expected.refusal != PASA_WRONG_LENGTH && expected.refusal != PASA_NO_ROOM;
    for (int at_end = 0; at_end < 2; at_end++) {
        size_t at = at_end ? WORDS / sizeof(uint64_t) - room : 0;
        memcpy(pages, before, WORDS);
        memcpy(expected_words, before, WORDS);
        if (is_written)
            memcpy(expected_words + at, recovered, room * sizeof(uint64_t));
        uint8_t *lent = placed(journal_pages, JOURNAL, at_end, journal, length);
        uint64_t *words = (uint64_t *)(void *)pages + at;
        struct pasa_recovered got = pasa_journal_recover(lent, length, words, room);
        unchanged(lent, journal, length);
        if (got.nodes != expected.nodes || got.refusal != expected.refusal) {
            fprintf(stderr, "%zu nodes, refusal %u in %zu words, not %zu and %u\n", got.nodes, got.refusal, room, expected.nodes, expected.refusal);
            fail("pasa_journal_recover differs at", journal, length);
        }
        if (memcmp(pages, expected_words, WORDS) != 0)
            fail("pasa_journal_recover writes otherwise at", journal, length);
        size_t among = which % (room + 1);
        uint64_t address = which % 7 == 0 ? which : words[which % room];
        struct pasa_record record = pasa_journal_record(words, among, address);
        struct pasa_record expected_record = reference_journal_record(words, among, address);
        if (record.found != expected_record.found || !same_node(record.node, expected_record.node))
            fail("pasa_journal_record differs at", (const uint8_t *)words, among * sizeof(uint64_t));
        if (memcmp(pages, expected_words, WORDS) != 0)
            fail("pasa_journal_record writes at", journal, length);
    }
}

/* One block more: the whole answer, and the whole journal. */
static void block_into(const uint8_t *journal, size_t length, const uint64_t *addresses, size_t count)
{
    static uint8_t *pages, *address_pages;
    if (pages == NULL) {
        pages = guarded(JOURNAL);
        address_pages = guarded(PAGE);
    }
    static uint8_t written[JOURNAL], beside[JOURNAL];
    memset(beside, 0x5A, JOURNAL);
    memcpy(written, journal, length);
    struct pasa_block expected = reference_journal_write(written, length, addresses, count);
    for (int at_end = 0; at_end < 2; at_end++) {
        memset(pages, 0x5A, JOURNAL);
        uint8_t *lent = placed(pages, JOURNAL, at_end, journal, length);
        uint8_t *block = placed(address_pages, PAGE, at_end, (const uint8_t *)addresses, count * sizeof(uint64_t));
        struct pasa_block got = pasa_journal_write(lent, length, (const uint64_t *)(void *)block, count);
        unchanged(block, (const uint8_t *)addresses, count * sizeof(uint64_t));
        if (got.slot != expected.slot || got.refusal != expected.refusal) {
            fprintf(stderr, "slot %zu, refusal %u, not %zu and %u\n", got.slot, got.refusal, expected.slot, expected.refusal);
            fail("pasa_journal_write differs at", journal, length);
        }
        if (length > 0 && memcmp(lent, written, length) != 0)
            fail("pasa_journal_write writes otherwise at", journal, length);
        memset(lent, 0x5A, length);
        if (memcmp(pages, beside, JOURNAL) != 0)
            fail("pasa_journal_write writes beside", journal, length);
    }
}

/* The hall from which the blocks of a spelled journal have their addresses; also beyond what a journal may hold. */
enum { GIVEN = (MOST_SLOTS + 1) * PASA_BLOCK_MOST };

struct spelled {
    uint8_t journal[JOURNAL];
    size_t slots;
    struct known_node nodes[GIVEN];
    size_t count;
};

/* So many next children, of nodes that the seed chooses. */
static size_t give(struct spelled *hall, uint64_t *addresses, size_t count, unsigned seed)
{
    size_t given = 0;
    for (size_t tries = 0; given < count && tries < 4 * count && hall->count < GIVEN; tries++) {
        seed = seed * 1103515245 + 12345;
        struct known_node *node = &hall->nodes[(seed >> 16) % hall->count];
        bool host = (seed >> 9) % 2 != 0;
        uint64_t child = known_next(node, host);
        if (child == 0)
            continue;
        node->children[host]++;
        hall->nodes[hall->count++] = (struct known_node){child, {0, 0}};
        addresses[given++] = child;
    }
    return given;
}

static void put_slot(struct spelled *hall, const uint64_t *addresses, size_t count)
{
    if (hall->slots < MOST_SLOTS && count > 0)
        reference_block(addresses, count, hall->journal + PASA_SLOT * hall->slots++);
}

/* The slot spelled last with a byte changed: it stays so, or its check is made right again. */
static void change(struct spelled *hall, size_t place, uint8_t byte, bool right_again)
{
    if (hall->slots == 0)
        return;
    uint8_t *slot = hall->journal + PASA_SLOT * (hall->slots - 1);
    slot[place % PASA_SLOT] ^= byte;
    if (right_again) {
        uint16_t crc = reference_crc(slot, 509);
        slot[509] = (uint8_t)(crc >> 8);
        slot[510] = (uint8_t)crc;
        slot[511] = 0xA5;
    }
}

/* Each octet spells a slot, or more: a block of next children, a full one or 32, many short ones, one of the octets behind it whatever they are,
 * one of no addresses, a torn slot, erased ones; or a change of the slot before, or some bytes more, which make the journal's length a wrong one.
 * Then it is recovered from, and written to with next children and with some that are none. */
static void spelled_journal(const uint8_t *octets, size_t count)
{
    static struct spelled hall;
    uint64_t addresses[PASA_BLOCK_MOST + 1] = {0};
    size_t more = 0;
    unsigned sum = 0;
    hall.slots = 0;
    hall.nodes[0] = (struct known_node){PASA_ROOT, {0, 0}};
    hall.count = 1;
    for (size_t i = 0; i < count; i++) {
        unsigned kind = octets[i] % 8, number = octets[i] / 8;
        sum = sum * 31 + octets[i];
        uint8_t next = i + 1 < count ? octets[i + 1] : 0;
        switch (kind) {
        case 0:
            put_slot(&hall, addresses, give(&hall, addresses, number + 1, sum));
            break;
        case 1:
            for (unsigned block = 0; block < (number == 31 ? 32 : 1); block++)
                put_slot(&hall, addresses, give(&hall, addresses, PASA_BLOCK_MOST, sum + block));
            break;
        case 2:
            for (unsigned block = 0; block <= number; block++)
                put_slot(&hall, addresses, give(&hall, addresses, 1, sum + block));
            break;
        case 3:
            for (size_t address = 0; address <= number % 4; address++) {
                addresses[address] = 0;
                for (size_t octet = 0; octet < 8 && i + 1 < count; octet++)
                    addresses[address] = addresses[address] << 8 | octets[++i];
                addresses[address] >>= number;
            }
            put_slot(&hall, addresses, 1 + number % 4);
            break;
        case 4:
            put_slot(&hall, addresses, give(&hall, addresses, 1 + number % 4, sum));
            if (hall.slots > 0)
                memset(hall.journal + PASA_SLOT * (hall.slots - 1) + 2 * next, 0xFF, PASA_SLOT - 2 * next);
            break;
        case 5:
            for (unsigned erased = 0; erased <= number % 16 && hall.slots < MOST_SLOTS; erased++)
                memset(hall.journal + PASA_SLOT * hall.slots++, 0xFF, PASA_SLOT);
            break;
        case 6:
            change(&hall, 16 * number + next % 16, (uint8_t)(next / 16 + 1), next / 16 % 2 == 0);
            break;
        default:
            if (number < 16)
                more = number;
            else if (hall.slots < MOST_SLOTS)
                reference_block(NULL, 0, hall.journal + PASA_SLOT * hall.slots++);
        }
    }
    if (hall.slots == MOST_SLOTS)
        more = 0;
    size_t length = hall.slots * PASA_SLOT + more;
    recovery_into(hall.journal, length, PASA_NODES, sum);
    recovery_into(hall.journal, length, sum % 2 == 0 ? SOME : FEW, sum / 2);
    size_t given = give(&hall, addresses, 1 + sum % PASA_BLOCK_MOST, sum);
    block_into(hall.journal, length, addresses, given);
    addresses[sum % (given + 1)] ^= 1u << sum % 8;
    block_into(hall.journal, length, addresses, sum % 16 == 0 ? PASA_BLOCK_MOST + 1 : given);
    if (pasa_crc(hall.journal, length % 1024) != reference_crc(hall.journal, length % 1024))
        fail("pasa_crc differs at", hall.journal, length % 1024);
}

/* The record of a node among many words that no recovery leaves: each octet is one, again and again. */
static void record_among(const uint8_t *octets, size_t count)
{
    uint64_t words[600];
    for (size_t i = 0; i < 600 && count > 0; i++)
        words[i] = octets[i % count];
    size_t among = count > 0 ? 600 : 0;
    uint64_t address = count > 0 ? octets[0] : 1;
    struct pasa_record got = pasa_journal_record(words, among, address), expected = reference_journal_record(words, among, address);
    if (got.found != expected.found || !same_node(got.node, expected.node))
        fail("pasa_journal_record differs among", octets, count);
}

/* The octets as they are, as a journal, which they are too few for; as they begin a slot of zeros or of 0xFF; their CRC; and a record among them. */
static void journals(const uint8_t *octets, size_t count)
{
    record_among(octets, count);
    static uint8_t slot[PASA_SLOT];
    recovery_into(octets, count, PASA_NODES, 1);
    for (int erased = 0; erased < 2; erased++) {
        memset(slot, erased ? 0xFF : 0x00, sizeof slot);
        if (count > 0)
            memcpy(slot, octets, count);
        recovery_into(slot, sizeof slot, PASA_NODES, 2);
        block_into(slot, sizeof slot, (const uint64_t[]){2}, 1);
    }
    static uint8_t *pages;
    if (pages == NULL)
        pages = guarded(PAGE);
    uint8_t *page = placed(pages, PAGE, 1, octets, count);
    if (pasa_crc(page, count) != reference_crc(octets, count))
        fail("pasa_crc differs at", octets, count);
    unchanged(page, octets, count);
    spelled_journal(octets, count);
}

/* All octets are a plan's text, and then spell another one; then they are a journal, and spell another one; then they are fields of NSA, and spell
 * numbers for others. Then the first twelve are a node's record, if there are twelve, which is asked for children and set limits, and the packet
 * follows, and its beginnings: once with the record as it stands, once with a shorter address and smaller counts and limits, so that more records are
 * good. Then the octets behind the first are a prefix, of as many octets as the first says, and an IPv6 address; and at last all octets are an IPv6
 * address with its own first eight for the prefix. */
int LLVMFuzzerTestOneInput(const uint8_t *data, size_t size)
{
    if (size > LARGEST)
        return 0;
    plan(data, size);
    spelled_plan(data, size);
    journals(data, size);
    older_fields(data, size);
    if (size < RECORD)
        return 0;
    struct pasa_node node = {0, data[8], data[9], data[10], data[11]};
    for (size_t i = 0; i < 8; i++)
        node.address = node.address << 8 | data[i];
    uint64_t limit = node.address;
    records(node, limit);
    packets(node, data + RECORD, size - RECORD);
    node.address >>= data[0] % 64;
    node.routers %= 66;
    node.hosts %= 66;
    node.router_limit %= 66;
    node.host_limit %= 66;
    records(node, limit);
    packets(node, data + RECORD, size - RECORD);

    forms(data[0] % 18, data + 1, size - 1);
    uint8_t agreeing[LARGEST + 8];
    memcpy(agreeing, data, 8);
    memcpy(agreeing + 8, data, size);
    forms(8, agreeing, size + 8);
    return 0;
}
