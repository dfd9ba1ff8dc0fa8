/* Measures the stack that each function of pasa.h takes, and prints a line for each, its name and the octets. The function is called on a stack of
 * its own, all octets of which have the same value before; the lowest one that has another value after says how much was used. That is done with
 * inputs of every answer and every refusal, and for each with two values, since an octet may be written with what it held; the most counts. An
 * answer that is not the one meant is a line on standard error, and the exit status is 1.
 *
 * The calls are made by hand, as the calling convention of x86-64 has it, so that nothing stands on that stack but the return address and what the
 * function uses itself. Arguments that are handed over on the stack are the caller's and are not counted. */
#include <inttypes.h>
#include <stdbool.h>
#include <stdio.h>
#include <string.h>

#include "pasa.h"

/* The memset that the archive calls, with its return address for all its stack: what the platform's takes is not the archive's. */
__asm__(".text\n"
        ".globl memset\n"
        ".type memset, @function\n"
        "memset:\n"
        "    mov %rdi, %r8\n"
        "    mov %esi, %eax\n"
        "    mov %rdx, %rcx\n"
        "    rep stosb\n"
        "    mov %r8, %rax\n"
        "    ret\n"
        ".size memset, . - memset\n");

/* Six arguments in registers and four on the stack, whatever the function takes of them. */
enum { IN_REGISTERS = 6, ARGUMENTS = 10, OCTETS = 1 << 16, TOP = OCTETS - 8 * (ARGUMENTS - IN_REGISTERS) };

static _Alignas(16) uint8_t stack[OCTETS];
static uint8_t paint;
static size_t deepest;
static unsigned differences;

/* What a function answers: in two registers, or where its first argument points. */
union answer {
    uint64_t registers[2];
    struct pasa_child child;
    struct pasa_limited limited;
    struct pasa_hop hop;
    struct pasa_written written;
    struct pasa_read read;
    struct pasa_address address;
    struct pasa_nsa nsa;
    struct pasa_listed listed;
    struct pasa_plan plan;
    struct pasa_block block;
    struct pasa_recovered recovered;
    struct pasa_record record;
};

static union answer answer;

struct call {
    uint64_t arguments[ARGUMENTS];
    void (*function)(void);
    uint8_t *stack_end;
};

_Static_assert(offsetof(struct call, function) == 80 && offsetof(struct call, stack_end) == 88, "as perform has it");

/* Calls the function on the stack that ends there. */
static void perform(const struct call *call)
{
    uint64_t first, second;
    __asm__ volatile("mov %%rsp, %%rbx\n\t"
                     "mov 88(%%rax), %%rsp\n\t"
                     "pushq 72(%%rax)\n\t"
                     "pushq 64(%%rax)\n\t"
                     "pushq 56(%%rax)\n\t"
                     "pushq 48(%%rax)\n\t"
                     "mov 40(%%rax), %%r9\n\t"
                     "mov 32(%%rax), %%r8\n\t"
                     "mov 24(%%rax), %%rcx\n\t"
                     "mov 16(%%rax), %%rdx\n\t"
                     "mov 8(%%rax), %%rsi\n\t"
                     "mov (%%rax), %%rdi\n\t"
                     "call *80(%%rax)\n\t"
                     "mov %%rbx, %%rsp"
                     : "=a"(first), "=d"(second)
                     : "a"(call)
                     : "rbx", "rcx", "rsi", "rdi", "r8", "r9", "r10", "r11", "xmm0", "xmm1", "xmm2", "xmm3", "xmm4", "xmm5", "xmm6", "xmm7",
                       "xmm8", "xmm9", "xmm10", "xmm11", "xmm12", "xmm13", "xmm14", "xmm15", "memory", "cc");
    if (call->arguments[0] != (uintptr_t)&answer) {
        answer.registers[0] = first;
        answer.registers[1] = second;
    }
}

static void same(const char *what, uint64_t got, uint64_t meant)
{
    if (got != meant) {
        differences++;
        fprintf(stderr, "%s: %" PRIu64 ", but %" PRIu64 " was meant\n", what, got, meant);
    }
}

static void measure(struct call call)
{
    call.stack_end = stack + OCTETS;
    memset(stack, paint, sizeof stack);
    memset(&answer, 0, sizeof answer);
    perform(&call);
    size_t unused = 0;
    while (unused < TOP && stack[unused] == paint)
        unused++;
    same("a stack that is used up", unused == 0, false);
    if (TOP - unused > deepest)
        deepest = TOP - unused;
}

/* The function that is measured at present. */
static void (*function)(void);

/* Its call, with its arguments as words: a record is two, every other is one, and an answer of more than two words has a pointer to it in front. */
#define WORD(pointer) ((uint64_t)(uintptr_t)(pointer))
#define ANSWER WORD(&answer)
#define CALL(...) measure((struct call){.arguments = {__VA_ARGS__}, .function = function})

/* A record as two arguments. */
#define NODE(node) (node).address, second_word(node)

static uint64_t second_word(struct pasa_node node)
{
    uint64_t words[2];
    memcpy(words, &node, sizeof words);
    return words[1];
}

static struct pasa_node record(uint64_t address, uint8_t routers, uint8_t hosts, uint8_t router_limit, uint8_t host_limit)
{
    return (struct pasa_node){address, routers, hosts, router_limit, host_limit};
}

static void interface(void)
{
    CALL(0);
}

/* The functions of one address. */
static void of_addresses(void)
{
    CALL(0);
    for (unsigned length = 0; length < PASA_LONGEST; length++) {
        CALL(UINT64_MAX >> length);
        for (uint64_t last = 0; last < 4; last++)
            CALL((UINT64_C(1) << length) + last);
    }
}

static void child_of(struct pasa_node node, uint8_t refusal)
{
    CALL(ANSWER, NODE(node));
    same("a child", answer.child.refusal, refusal);
}

static void children(void)
{
    child_of(record(1, 0, 0, 64, 64), PASA_DONE);
    child_of(record(1, 62, 62, 64, 64), PASA_DONE);
    child_of(record(2, 2, 1, 5, 5), PASA_DONE);
    child_of(record(0, 0, 0, 64, 64), PASA_BAD_RECORD);
    child_of(record(1, 64, 0, 64, 64), PASA_BAD_RECORD);
    child_of(record(1, 0, 64, 64, 64), PASA_BAD_RECORD);
    child_of(record(1, 0, 0, 65, 64), PASA_BAD_RECORD);
    child_of(record(1, 0, 0, 64, 65), PASA_BAD_RECORD);
    child_of(record(1, 3, 0, 2, 64), PASA_BAD_RECORD);
    child_of(record(1, 0, 3, 64, 2), PASA_BAD_RECORD);
    child_of(record(3, 1, 0, 64, 64), PASA_BAD_RECORD);
    child_of(record(3, 0, 0, 64, 64), PASA_HOST_ASKED);
    child_of(record(2, 2, 2, 2, 2), PASA_AT_LIMIT);
    child_of(record(1, 63, 63, 64, 64), PASA_TOO_LONG);
    child_of(record(UINT64_C(1) << 63, 0, 0, 64, 64), PASA_TOO_LONG);
}

static void limit_on(struct pasa_node node, uint64_t limit, uint8_t refusal)
{
    CALL(ANSWER, NODE(node), limit);
    same("a limit", answer.limited.refusal, refusal);
}

static void limits(void)
{
    limit_on(record(1, 5, 5, 64, 64), 5, PASA_DONE);
    limit_on(record(1, 0, 0, 0, 0), 64, PASA_DONE);
    limit_on(record(2, 2, 1, 5, 5), 7, PASA_DONE);
    limit_on(record(3, 0, 0, 64, 64), 0, PASA_DONE);
    limit_on(record(1, 5, 5, 64, 64), 4, PASA_BAD_RECORD);
    limit_on(record(1, 5, 5, 64, 64), 65, PASA_BAD_RECORD);
    limit_on(record(1, 5, 5, 64, 64), UINT64_MAX, PASA_BAD_RECORD);
    limit_on(record(0, 0, 0, 64, 64), 64, PASA_BAD_RECORD);
    limit_on(record(2, 63, 0, 64, 64), 64, PASA_BAD_RECORD);
    limit_on(record(2, 0, 63, 64, 64), 64, PASA_BAD_RECORD);
    limit_on(record(1, 0, 0, 65, 64), 64, PASA_BAD_RECORD);
    limit_on(record(1, 0, 0, 64, 65), 64, PASA_BAD_RECORD);
    limit_on(record(3, 1, 0, 64, 64), 64, PASA_BAD_RECORD);
}

/* Where a packet goes: the record of the node, the destination, and what is answered. */
static const struct hop_case {
    struct pasa_node node;
    uint64_t destination;
    uint8_t action, refusal;
} HOPS[] = {
    {{1, 2, 2, 64, 64}, 1, PASA_DELIVERED, PASA_DONE},
    {{2, 2, 2, 64, 64}, 2, PASA_DELIVERED, PASA_DONE},
    {{2, 2, 2, 64, 64}, 3, PASA_TO_PARENT, PASA_DONE},
    {{2, 2, 2, 64, 64}, UINT64_MAX, PASA_TO_PARENT, PASA_DONE},
    {{11, 0, 0, 64, 64}, 1, PASA_TO_PARENT, PASA_DONE},
    {{11, 0, 0, 64, 64}, 23, PASA_TO_PARENT, PASA_DONE},
    {{UINT64_C(1) << 63, 0, 0, 64, 64}, 1, PASA_TO_PARENT, PASA_DONE},
    {{1, 2, 2, 64, 64}, 6, PASA_TO_CHILD, PASA_DONE},
    {{1, 2, 2, 64, 64}, 7, PASA_TO_CHILD, PASA_DONE},
    {{2, 2, 2, 64, 64}, 43, PASA_TO_CHILD, PASA_DONE},
    {{1, 63, 63, 64, 64}, UINT64_MAX, PASA_TO_CHILD, PASA_DONE},
    {{1, 2, 2, 64, 64}, 14, PASA_STOPPED, PASA_CHILD_NOT_GIVEN},
    {{1, 2, 2, 64, 64}, UINT64_MAX, PASA_STOPPED, PASA_CHILD_NOT_GIVEN},
    {{0, 0, 0, 64, 64}, 1, PASA_STOPPED, PASA_BAD_RECORD},
    {{2, 63, 0, 64, 64}, 1, PASA_STOPPED, PASA_BAD_RECORD},
    {{1, 0, 0, 65, 64}, 1, PASA_STOPPED, PASA_BAD_RECORD},
    {{3, 1, 0, 64, 64}, 1, PASA_STOPPED, PASA_BAD_RECORD},
    {{1, 2, 2, 64, 64}, 0, PASA_STOPPED, PASA_ZERO_ADDRESS},
};

enum { HOP_CASES = sizeof HOPS / sizeof *HOPS };

static void next_hop(void)
{
    for (size_t i = 0; i < HOP_CASES; i++) {
        CALL(NODE(HOPS[i].node), HOPS[i].destination);
        same("a next hop", answer.hop.refusal, HOPS[i].refusal);
        same("a next hop's action", answer.hop.action, HOPS[i].action);
    }
}

/* Packets that no reader takes. */
static const struct packet {
    uint8_t octets[12];
    size_t length;
    uint8_t refusal;
} PACKETS[] = {
    {{0}, 0, PASA_ENDS_EARLY},
    {{0xF1, 0x80}, 2, PASA_ENDS_EARLY},
    {{0xF1, 0x87, 0x0F, 0x80, 0, 0, 0, 0, 0, 0}, 10, PASA_ENDS_EARLY},
    {{0xF0, 0x80, 0x0F, 0x01}, 4, PASA_WRONG_START},
    {{0xF1, 0xA0, 0x0F, 0x01}, 4, PASA_WRONG_START},
    {{0xF1, 0x80, 0x0E, 0x01}, 4, PASA_WRONG_START},
    {{0xF1, 0x88, 0x0F, 0x01}, 4, PASA_WRONG_SIZE},
    {{0xF1, 0x81, 0x0F, 0x00, 0x01}, 5, PASA_WRONG_SIZE},
    {{0xF1, 0x80, 0x0F, 0x00}, 4, PASA_ZERO_ADDRESS},
    {{0xF1, 0x80, 0x0F, 0x01}, 4, PASA_EMPTY},
    {{0xF1, 0x87, 0x0F, 0x80, 0, 0, 0, 0, 0, 0, 0}, 11, PASA_EMPTY},
};

enum { BAD_PACKETS = sizeof PACKETS / sizeof *PACKETS };

/* The header of an address and one octet of payload: answers how many they are. */
static size_t packet_to(uint64_t address, uint8_t *octets)
{
    size_t place = pasa_header_write(address, octets, PASA_HEADER_MOST).count;
    octets[place] = 0x5A;
    return place + 1;
}

static void packet_next_hop(void)
{
    uint8_t octets[PASA_HEADER_MOST + 1];
    for (size_t i = 0; i < HOP_CASES; i++) {
        if (HOPS[i].destination == 0)
            continue;
        size_t length = packet_to(HOPS[i].destination, octets);
        CALL(NODE(HOPS[i].node), WORD(octets), length);
        same("a packet's next hop", answer.hop.refusal, HOPS[i].refusal);
        same("a packet's action", answer.hop.action, HOPS[i].action);
        CALL(NODE(HOPS[i].node), WORD(octets), length - 1);
        same("an empty packet's next hop", answer.hop.refusal, HOPS[i].refusal == PASA_BAD_RECORD ? PASA_BAD_RECORD : PASA_EMPTY);
    }
    for (size_t i = 0; i < BAD_PACKETS; i++) {
        CALL(NODE(pasa_fresh(PASA_ROOT)), WORD(PACKETS[i].octets), PACKETS[i].length);
        same("a bad packet's next hop", answer.hop.refusal, PACKETS[i].refusal);
    }
}

static void next_hops(void)
{
    uint64_t destinations[HOP_CASES], nodes[HOP_CASES];
    uint8_t actions[HOP_CASES], refusals[HOP_CASES];
    for (size_t i = 0; i < HOP_CASES; i++)
        destinations[i] = HOPS[i].destination;
    for (size_t i = 0; i < HOP_CASES; i++)
        for (size_t room = 0; room <= HOP_CASES; room += HOP_CASES) {
            CALL(NODE(HOPS[i].node), WORD(destinations), HOP_CASES, WORD(nodes), HOP_CASES, WORD(actions), HOP_CASES,
                 WORD(refusals), room);
            same("next hops", answer.registers[0], room);
            if (room > 0)
                same("one of the next hops", refusals[i], HOPS[i].refusal);
        }
}

static void header_write(void)
{
    uint8_t octets[PASA_HEADER_MOST];
    for (unsigned size = 1; size <= 8; size++)
        for (size_t room = 0; room <= sizeof octets; room++) {
            CALL(UINT64_C(1) << (8 * size - 1), WORD(octets), room);
            same("a header", answer.written.refusal, room < 3 + size ? PASA_NO_ROOM : PASA_DONE);
        }
    CALL(0, WORD(octets), sizeof octets);
    same("a header of zero", answer.written.refusal, PASA_ZERO_ADDRESS);
}

static void header_read(void)
{
    uint8_t octets[PASA_HEADER_MOST + 1];
    for (unsigned size = 1; size <= 8; size++) {
        size_t length = packet_to(UINT64_C(1) << (8 * size - 1), octets);
        CALL(ANSWER, WORD(octets), length);
        same("a header read", answer.read.refusal, PASA_DONE);
        CALL(ANSWER, WORD(octets), length - 1);
        same("a header alone read", answer.read.refusal, PASA_EMPTY);
    }
    for (size_t i = 0; i < BAD_PACKETS; i++) {
        CALL(ANSWER, WORD(PACKETS[i].octets), PACKETS[i].length);
        same("a bad packet read", answer.read.refusal, PACKETS[i].refusal);
    }
}

static const uint8_t PREFIX[PASA_IPV6_PREFIX] = {0x20, 0x01, 0x0d, 0xb8};

static void ipv6_write(void)
{
    uint8_t octets[PASA_IPV6_WHOLE];
    CALL(WORD(PREFIX), PASA_IPV6_PREFIX, UINT64_MAX, WORD(octets), sizeof octets);
    same("a form", answer.written.refusal, PASA_DONE);
    CALL(WORD(PREFIX), 7, UINT64_MAX, WORD(octets), sizeof octets);
    same("a form with a short prefix", answer.written.refusal, PASA_WRONG_LENGTH);
    CALL(WORD(PREFIX), PASA_IPV6_PREFIX, 0, WORD(octets), sizeof octets);
    same("a form of zero", answer.written.refusal, PASA_ZERO_ADDRESS);
    CALL(WORD(PREFIX), PASA_IPV6_PREFIX, UINT64_MAX, WORD(octets), 15);
    same("a form without room", answer.written.refusal, PASA_NO_ROOM);
}

static void ipv6_read(void)
{
    const uint8_t right[PASA_IPV6_WHOLE] = {0x20, 0x01, 0x0d, 0xb8, [15] = 1}, other[PASA_IPV6_WHOLE] = {0x20, [15] = 1};
    const uint8_t zero[PASA_IPV6_WHOLE] = {0x20, 0x01, 0x0d, 0xb8};
    CALL(WORD(PREFIX), PASA_IPV6_PREFIX, WORD(right), PASA_IPV6_WHOLE);
    same("a form read", answer.address.refusal, PASA_DONE);
    CALL(WORD(PREFIX), PASA_IPV6_PREFIX, WORD(right), 15);
    same("a short form read", answer.address.refusal, PASA_WRONG_LENGTH);
    CALL(WORD(PREFIX), 7, WORD(right), PASA_IPV6_WHOLE);
    same("a short prefix", answer.address.refusal, PASA_WRONG_LENGTH);
    CALL(WORD(PREFIX), PASA_IPV6_PREFIX, WORD(other), PASA_IPV6_WHOLE);
    same("another prefix", answer.address.refusal, PASA_OTHER_PREFIX);
    CALL(WORD(PREFIX), PASA_IPV6_PREFIX, WORD(zero), PASA_IPV6_WHOLE);
    same("a form of zero read", answer.address.refusal, PASA_ZERO_ADDRESS);
}

/* A form of a field of NSA: the largest number that is written so, and how many octets it has. */
struct form {
    uint64_t number;
    size_t octets;
};

static const struct form NSA_LENGTHS[] = {{252, 1}, {507, 2}, {65787, 3}};
static const struct form NSA_ADDRESSES[] = {
    {252, 1}, {65535, 3}, {UINT32_MAX, 5}, {UINT64_MAX >> 24, 7}, {UINT64_MAX >> 16, 8}, {UINT64_MAX >> 8, 9}, {UINT64_MAX, 10},
};

enum { LENGTH_FORMS = sizeof NSA_LENGTHS / sizeof *NSA_LENGTHS, ADDRESS_FORMS = sizeof NSA_ADDRESSES / sizeof *NSA_ADDRESSES };

/* Calls with a length of each form, a source of each form and a destination of each form. */
static void of_each_form(void (*calls)(struct form length, struct form source, struct form destination))
{
    for (size_t i = 0; i < LENGTH_FORMS; i++)
        for (size_t j = 0; j < ADDRESS_FORMS; j++)
            for (size_t k = 0; k < ADDRESS_FORMS; k++)
                calls(NSA_LENGTHS[i], NSA_ADDRESSES[j], NSA_ADDRESSES[k]);
}

static void nsa_write_into(struct form length, struct form source, struct form destination)
{
    uint8_t octets[PASA_NSA_MOST];
    for (size_t room = 0; room <= sizeof octets; room++) {
        CALL(length.number, source.number, destination.number, WORD(octets), room);
        same("fields", answer.written.refusal, room < length.octets + source.octets + destination.octets ? PASA_NO_ROOM : PASA_DONE);
    }
}

static void nsa_write(void)
{
    uint8_t octets[PASA_NSA_MOST];
    of_each_form(nsa_write_into);
    CALL(65788, 1, 1, WORD(octets), sizeof octets);
    same("fields of a length too large", answer.written.refusal, PASA_TOO_MANY);
    CALL(0, 0, 1, WORD(octets), sizeof octets);
    same("fields of source zero", answer.written.refusal, PASA_ZERO_ADDRESS);
    CALL(0, 1, 0, WORD(octets), sizeof octets);
    same("fields of destination zero", answer.written.refusal, PASA_ZERO_ADDRESS);
}

/* The fields whole, and without their last octets. */
static void nsa_read_from(struct form length, struct form source, struct form destination)
{
    uint8_t octets[PASA_NSA_MOST];
    size_t whole = pasa_nsa_write(length.number, source.number, destination.number, octets, sizeof octets).count;
    for (size_t count = 0; count <= whole; count++) {
        CALL(ANSWER, WORD(octets), count);
        same("fields read", answer.nsa.refusal, count < whole ? PASA_ENDS_EARLY : PASA_DONE);
    }
}

/* Payload lengths that no reader takes. */
static const struct packet NSA_BAD_LENGTHS[] = {
    {{0xFD, 0x00}, 2, PASA_WRONG_SIZE},
    {{0xFE, 0x00, 0xFF}, 3, PASA_WRONG_SIZE},
    {{0xFF}, 1, PASA_WRONG_SIZE},
};

/* And such addresses. */
static const struct packet NSA_BAD_ADDRESSES[] = {
    {{0x00}, 1, PASA_ZERO_ADDRESS},
    {{0xFD, 0x00, 0xFC}, 3, PASA_WRONG_SIZE},
    {{0xFE, 0x00, 0x00, 0xFF, 0xFF}, 5, PASA_WRONG_SIZE},
    {{0xFF, 0x04}, 2, PASA_WRONG_SIZE},
    {{0xFF, 0x09}, 2, PASA_WRONG_SIZE},
    {{0xFF, 0x05, 0x00, 1, 1, 1, 1}, 7, PASA_WRONG_SIZE},
    {{0xFF, 0x06, 0x00, 1, 1, 1, 1, 1}, 8, PASA_WRONG_SIZE},
    {{0xFF, 0x07, 0x00, 1, 1, 1, 1, 1, 1}, 9, PASA_WRONG_SIZE},
    {{0xFF, 0x08, 0x00, 1, 1, 1, 1, 1, 1, 1}, 10, PASA_WRONG_SIZE},
};

static void nsa_read(void)
{
    of_each_form(nsa_read_from);
    for (size_t i = 0; i < sizeof NSA_BAD_LENGTHS / sizeof *NSA_BAD_LENGTHS; i++) {
        CALL(ANSWER, WORD(NSA_BAD_LENGTHS[i].octets), NSA_BAD_LENGTHS[i].length);
        same("a bad length read", answer.nsa.refusal, NSA_BAD_LENGTHS[i].refusal);
    }
    for (size_t i = 0; i < sizeof NSA_BAD_ADDRESSES / sizeof *NSA_BAD_ADDRESSES; i++)
        for (size_t before = 1; before <= 2; before++) {
            uint8_t octets[PASA_NSA_MOST] = {1, 1}; /* a length, or a length and a source */
            memcpy(octets + before, NSA_BAD_ADDRESSES[i].octets, NSA_BAD_ADDRESSES[i].length);
            CALL(ANSWER, WORD(octets), before + NSA_BAD_ADDRESSES[i].length);
            same("a bad address read", answer.nsa.refusal, NSA_BAD_ADDRESSES[i].refusal);
        }
}

static void path(void)
{
    const uint64_t ends[] = {0, 1, 2, 3, 6, 19, 43, UINT64_C(1) << 63, UINT64_C(3) << 62, (UINT64_C(1) << 63) + 1, UINT64_MAX};
    enum { ENDS = sizeof ends / sizeof *ends };
    uint64_t words[PASA_PATH_MOST];
    for (size_t i = 0; i < ENDS; i++)
        for (size_t j = 0; j < ENDS; j++) {
            bool zero = ends[i] == 0 || ends[j] == 0;
            CALL(ends[i], ends[j], WORD(words), PASA_PATH_MOST);
            same("a path", answer.listed.refusal, zero ? PASA_ZERO_ADDRESS : PASA_DONE);
            CALL(ends[i], ends[j], WORD(words), answer.listed.hops);
            same("a path without room", answer.listed.refusal, zero ? PASA_ZERO_ADDRESS : PASA_NO_ROOM);
        }
}

/* A plan's text as it is put together, and the words lent for it and for a journal. */
static char text[PASA_PLAN_BYTES + 2];
static size_t text_length;
static uint64_t words[PASA_NODES];

static void append(const char *more, size_t times)
{
    for (size_t i = 0; i < times; i++) {
        memcpy(text + text_length, more, strlen(more));
        text_length += strlen(more);
    }
}

/* So many groups opened, items so many times, and so many groups closed. */
static void plan_of(size_t opened, const char *items, size_t times, size_t closed, size_t room, uint8_t refusal)
{
    text_length = 0;
    append("R(", opened);
    append(items, times);
    append(")", closed);
    CALL(ANSWER, WORD(text), text_length, WORD(words), room);
    same("a plan", answer.plan.refusal, refusal);
}

static void plan_read(void)
{
    plan_of(1, "", 0, 1, PASA_PLAN_NODES, PASA_DONE);
    plan_of(1, "R()H", 63, 1, PASA_PLAN_NODES, PASA_DONE);
    plan_of(64, "", 0, 64, PASA_PLAN_NODES, PASA_DONE);
    plan_of(64, "", 0, 64, 63, PASA_NO_ROOM);
    plan_of(64, "H", 1, 64, PASA_PLAN_NODES, PASA_TOO_LONG);
    plan_of(0, "", 0, 0, PASA_PLAN_NODES, PASA_BAD_PLAN);
    plan_of(0, "R", 1, 0, PASA_PLAN_NODES, PASA_BAD_PLAN);
    plan_of(64, "", 0, 0, PASA_PLAN_NODES, PASA_BAD_PLAN);
    plan_of(64, "x", 1, 64, PASA_PLAN_NODES, PASA_BAD_PLAN);
    plan_of(64, "R", 1, 64, PASA_PLAN_NODES, PASA_BAD_PLAN);
    plan_of(64, "", 0, 65, PASA_PLAN_NODES, PASA_BAD_PLAN);
    plan_of(65, "", 0, 65, PASA_PLAN_NODES, PASA_BAD_PLAN);
    plan_of(1, "H", PASA_PLAN_NODES, 1, PASA_PLAN_NODES, PASA_TOO_MANY);
    plan_of(1, "H", PASA_PLAN_BYTES - 2, 1, PASA_PLAN_NODES, PASA_TOO_MANY);
}

/* A journal as it is put together. */
enum { JOURNAL = PASA_SLOTS * PASA_SLOT, ERASED = 0xFF };
static uint8_t journal[JOURNAL];

static void put_block(size_t slot, const uint64_t *addresses, size_t count)
{
    uint8_t *bytes = journal + slot * PASA_SLOT;
    memset(bytes, 0, PASA_SLOT);
    bytes[0] = 0x50;
    bytes[1] = (uint8_t)count;
    for (size_t i = 0; i < 8 * count; i++)
        bytes[2 + i] = (uint8_t)(addresses[i / 8] >> (56 - 8 * (i % 8)));
    uint16_t crc = pasa_crc(bytes, 509);
    bytes[509] = (uint8_t)(crc >> 8);
    bytes[510] = (uint8_t)crc;
    bytes[511] = 0xA5;
}

/* Addresses as they are given, one more than a hall may have: children of the root, of its routers and of node 100. */
static uint64_t given[PASA_NODES];

static size_t give(size_t count, uint64_t parent)
{
    struct pasa_child child = {.node = pasa_fresh(parent)};
    while (count < PASA_NODES && (child = pasa_child_router(child.node)).refusal == PASA_DONE)
        given[count++] = child.child;
    while (count < PASA_NODES && (child = pasa_child_host(child.node)).refusal == PASA_DONE)
        given[count++] = child.child;
    return count;
}

static void give_most(void)
{
    size_t count = give(0, PASA_ROOT);
    for (size_t router = 0; router < 63; router++)
        count = give(count, given[router]);
    same("addresses given", give(count, 4), PASA_NODES);
}

/* An erased journal, with the first addresses given in as many full blocks, and so many more in the next. */
static void journal_with(size_t blocks, size_t more)
{
    give_most();
    memset(journal, ERASED, sizeof journal);
    for (size_t slot = 0; slot < blocks; slot++)
        put_block(slot, given + slot * PASA_BLOCK_MOST, PASA_BLOCK_MOST);
    if (more > 0)
        put_block(blocks, given + blocks * PASA_BLOCK_MOST, more);
}

static void recover(size_t length, size_t room, uint8_t refusal)
{
    CALL(WORD(journal), length, WORD(words), room);
    same("a recovery", answer.recovered.refusal, refusal);
}

static void journal_recover(void)
{
    journal_with(0, 0);
    recover(JOURNAL, PASA_NODES, PASA_DONE);
    recover(JOURNAL - 1, PASA_NODES, PASA_WRONG_LENGTH);
    recover(JOURNAL, PASA_NODES - 1, PASA_NO_ROOM);
    journal_with(65, 0);
    recover(JOURNAL, PASA_NODES, PASA_DONE);
    journal_with(65, 1);
    recover(JOURNAL, PASA_NODES, PASA_TOO_MANY);
    journal_with(1, 3);
    journal[3 * PASA_SLOT] = 0x50;
    recover(JOURNAL, PASA_NODES, PASA_BAD_JOURNAL);
    journal[2 * PASA_SLOT] = 0x50;
    recover(JOURNAL, PASA_NODES, PASA_DONE);
    journal[PASA_SLOT + 5] ^= 1;
    recover(JOURNAL, PASA_NODES, PASA_BAD_JOURNAL);
    put_block(1, given, 2);
    recover(JOURNAL, PASA_NODES, PASA_BAD_JOURNAL);
}

static void write_block(size_t length, const uint64_t *addresses, size_t count, uint8_t refusal)
{
    CALL(WORD(journal), length, WORD(addresses), count);
    same("a write", answer.block.refusal, refusal);
}

static void journal_write(void)
{
    journal_with(0, 0);
    write_block(JOURNAL, given, 0, PASA_WRONG_LENGTH);
    write_block(JOURNAL, given, 64, PASA_WRONG_LENGTH);
    write_block(JOURNAL - 1, given, 1, PASA_WRONG_LENGTH);
    write_block(JOURNAL, given, 63, PASA_DONE);
    write_block(JOURNAL, given + 63, 1, PASA_DONE);
    write_block(JOURNAL, given + 63, 1, PASA_BAD_JOURNAL);
    write_block(2 * PASA_SLOT, given + 64, 1, PASA_NO_ROOM);
    journal[5] ^= 1;
    write_block(JOURNAL, given + 64, 1, PASA_BAD_JOURNAL);
    journal_with(64, 0);
    write_block(JOURNAL, given + 64 * 63, 63, PASA_DONE);
    write_block(JOURNAL, given + 65 * 63, 1, PASA_TOO_MANY);
    journal_with(65, 1);
    write_block(JOURNAL, given, 1, PASA_TOO_MANY);
}

static void journal_record(void)
{
    give_most();
    const uint64_t asked[] = {given[0], given[62], given[63], given[PASA_NODES - 1], PASA_ROOT, 0};
    for (size_t i = 0; i < sizeof asked / sizeof *asked; i++) {
        CALL(ANSWER, WORD(given), PASA_NODES, asked[i]);
        same("a record", answer.record.found, i < 4);
        CALL(ANSWER, WORD(given), 0, asked[i]);
        same("a record among no words", answer.record.found, 0);
    }
    /* more children of a kind than are counted */
    for (uint64_t child = 6; child < 8; child++) {
        for (size_t i = 0; i < PASA_NODES; i++)
            words[i] = i == 0 ? PASA_ROOT : child;
        CALL(ANSWER, WORD(words), PASA_NODES, PASA_ROOT);
        same("a record of many", answer.record.node.routers + answer.record.node.hosts, 255);
    }
}

static void crc(void)
{
    CALL(WORD("123456789"), 9);
    same("a CRC", answer.registers[0] & 0xFFFF, 0x29B1);
    CALL(WORD(journal), 509);
    CALL(0, 0);
}

/* The name and the function, where the name is a macro too, and the calls that are made of it. */
#define EXPORT(name, calls) NAMED(name, calls)
#define NAMED(name, calls) {#name, (void (*)(void))(name), calls}

static const struct {
    const char *name;
    void (*function)(void);
    void (*calls)(void);
} EXPORTS[] = {
    EXPORT(PASA_INTERFACE, interface),
    EXPORT(pasa_parent, of_addresses),
    EXPORT(pasa_depth, of_addresses),
    EXPORT(pasa_bit_length, of_addresses),
    EXPORT(pasa_is_host, of_addresses),
    EXPORT(pasa_fresh, of_addresses),
    EXPORT(pasa_child_router, children),
    EXPORT(pasa_child_host, children),
    EXPORT(pasa_limit_routers, limits),
    EXPORT(pasa_limit_hosts, limits),
    EXPORT(pasa_next_hop, next_hop),
    EXPORT(pasa_packet_next_hop, packet_next_hop),
    EXPORT(pasa_next_hops, next_hops),
    EXPORT(pasa_header_write, header_write),
    EXPORT(pasa_header_read, header_read),
    EXPORT(pasa_ipv6_write, ipv6_write),
    EXPORT(pasa_ipv6_read, ipv6_read),
    EXPORT(pasa_nsa_write, nsa_write),
    EXPORT(pasa_nsa_read, nsa_read),
    EXPORT(pasa_path, path),
    EXPORT(pasa_plan_read, plan_read),
    EXPORT(pasa_journal_write, journal_write),
    EXPORT(pasa_journal_recover, journal_recover),
    EXPORT(pasa_journal_record, journal_record),
    EXPORT(pasa_crc, crc),
};

int main(void)
{
    for (size_t i = 0; i < sizeof EXPORTS / sizeof *EXPORTS; i++) {
        function = EXPORTS[i].function;
        deepest = 0;
        for (unsigned time = 0; time < 2; time++) {
            paint = time == 0 ? 0x5B : 0xA4;
            EXPORTS[i].calls();
        }
        printf("%s %zu\n", EXPORTS[i].name, deepest);
    }
    return differences != 0;
}
