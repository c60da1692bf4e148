/* Wegbaro: the check call, the command call and the route call, for C (C89 and later) and C++. Link with -lwegbaro.
 *
 * The words used here (record, version, policy, state, route, row) are explained in docs/FORMAT.md, installed in
 * share/doc/wegbaro.
 *
 * Every length, every content and every number is allowed: what is wrong with them is answered as a refusal. Asked of
 * the caller is only what C asks of any function: each pointer is not null, even with length 0, is aligned as its type
 * asks, and has its length behind it, in bytes or, for a list, in entries; and the buffers of one call do not overlap.
 *
 * Memory: everything is in the buffers, which are lent for the call alone. No call keeps a pointer, allocates, or
 * remembers an earlier call. On the stack a call needs at most WEGBARO_STACK_BYTES.
 *
 * Threads: the library has no data of its own and calls no function but memcpy, memmove and memset. Calls that have
 * different buffers may run at the same time, in any thread or signal handler. Check calls and route calls at the same
 * time may share a store, which they only read; each needs a work buffer of its own, and each route call a list of its
 * own. A command call shares its store with no other. */

#ifndef WEGBARO_H
#define WEGBARO_H

#include <limits.h>
#include <stddef.h>

/* The library is for x86-64 Linux, where unsigned long has 64 bits and is what <stdint.h>, which C89 has not, calls
 * uint64_t; likewise unsigned char is uint8_t and unsigned short uint16_t. */
#if ULONG_MAX >> 31 >> 31 != 3
#error "wegbaro.h: unsigned long must have 64 bits, as on x86-64 Linux"
#endif

/* ---- Version ---- */

/* The version of this header, and of the library that belongs to it. */
#define WEGBARO_VERSION "0.7.4"
#define WEGBARO_VERSION_MAJOR 0
#define WEGBARO_VERSION_MINOR 7
#define WEGBARO_VERSION_PATCH 4

/* The same as one number, as wegbaro_version() answers it. */
#define WEGBARO_VERSION_NUMBER \
    (WEGBARO_VERSION_MAJOR * 1000000ul + WEGBARO_VERSION_MINOR * 1000ul + WEGBARO_VERSION_PATCH)

/* ---- Sizes ---- */

/* The bytes of a record, and of a command. */
#define WEGBARO_RECORD_BYTES 24

/* The records of the largest network. */
#define WEGBARO_MOST_RECORDS 657

/* The least bytes of a store: the largest network, 15,768. */
#define WEGBARO_STORE_BYTES (WEGBARO_MOST_RECORDS * WEGBARO_RECORD_BYTES)

/* The least bytes of work for a network: (nodes + 2) planes of 2^(2N) bits. `nodes` is the node count of its longest
 * policy, 0 to 32 (0 without a policy); `bits` is N = 1 + H + P + W, 4 to 10. A command leaves both as they are. */
#define WEGBARO_WORK_BYTES(nodes, bits) (((size_t)(nodes) + 2) * (((size_t)1 << (2 * (bits))) / 8))

/* Bytes of work that are enough for every network: 4,456,448. */
#define WEGBARO_MOST_WORK_BYTES WEGBARO_WORK_BYTES(32, 10)

/* The least entries of a list for a network's routes: 2^N + 1, with `bits` as above. */
#define WEGBARO_LIST_ENTRIES(bits) (((size_t)1 << (bits)) + 1)

/* Entries of a list that are enough for every network: 1,025. */
#define WEGBARO_MOST_LIST_ENTRIES WEGBARO_LIST_ENTRIES(10)

/* Bytes of stack that are enough for every call on every input. docs/SPEED.md says how they were measured. */
#define WEGBARO_STACK_BYTES 65536

/* ---- Answers ---- */

/* The cases of the check call's answer, with its first and second number. */
#define WEGBARO_HOLDS 0    /* 0, 0 */
#define WEGBARO_VIOLATED 1 /* policy, state */

/* The cases of the command call's answer, with its first and second number. */
#define WEGBARO_FORWARDED 0 /* the new record count, 0 */
#define WEGBARO_BLOCKED 1   /* policy, state */

/* The cases of the route call's answer, with its first and second number. */
#define WEGBARO_FOUND 0    /* the count of the route's states, 0 */
#define WEGBARO_NO_ROUTE 1 /* 0, 0 */

/* The case that all calls have, with its first and second number.
 *
 *    number  refused because                                                          place
 *    1       there are no records, or more than 657                                   0
 *    2       the store has fewer than 15,768 bytes                                    0
 *    3       a kind is not 1 to 5 or 9 or is below the one before, or kind 1 is not   the record, from 0
 *            once and first
 *    4       a width is outside its limits                                            the record
 *    5       a field is outside its range or width, the version is not 0, 1 or 4, an  the record
 *            action is bad, or an unnamed byte is not zero
 *    6       a link ends at a port that is not ordinary or at a point already         the record
 *            linked, or both ends are the same point
 *    7       a miss is not that of the next switch, or a switch has no miss           the record, or as below
 *    8       the same rule stands twice                                               the later one
 *    9       an operand is not an earlier node, a policy is out of order, or Y is     the record
 *            free at its end
 *    10      there is a 257th rule, a ninth policy or a 33rd node                     the record
 *    11      the work buffer is too short                                             0
 *    12      the command is not 24 bytes, or not a well-formed add, modify or delete  0
 *    13      256 rules are present, and the command would add a new one               0
 *    14      the start or the end is not below 2^N                                    0
 *    15      the list has fewer than 2^N + 1 entries                                  0
 *    16      a group has a faulty field, is out of order or the 17th, a bucket's      the record; in a command 0
 *            group is not lower, or a group is named that its switch does not have
 *
 * Where misses are missing, the place of row 7 is the record behind them, or n if none is there.
 *
 * The check call has 1 to 11 and 16, the command call 1 to 13 and 16, the route call 1 to 11 and 14 to 16. The first that
 * is so is answered: 1 and 2, then the first faulty record with the lowest number of 3 to 10 and 16 that is so of it, then
 * 11, then of a command 12, 16 and 13 in this order, and of a route 14 and 15. */
#define WEGBARO_REFUSED 2 /* number, place */

/* An answer of any call: its case and its two numbers in 64 bits. */
typedef unsigned long wegbaro_answer;

#ifdef __cplusplus
extern "C" {
#endif

/* This function and those below that have a body are `__inline__`, not `inline`, for C89's sake.
 *
 * The case of an answer: bits 0 and 1. */
static __inline__ unsigned int wegbaro_case(wegbaro_answer answer)
{
    return (unsigned int)(answer & 3);
}

/* The first number of an answer: bits 2 to 17. */
static __inline__ unsigned int wegbaro_first(wegbaro_answer answer)
{
    return (unsigned int)(answer >> 2 & 65535);
}

/* The second number of an answer: bits 18 to 33. */
static __inline__ unsigned int wegbaro_second(wegbaro_answer answer)
{
    return (unsigned int)(answer >> 18 & 65535);
}

/* ---- Records ---- */

/* A record, or a command. An array of them is laid out as a store is.
 *
 * The functions below make records of their parts. They take every number: one that has no room in its field, as a fifth
 * action has none, makes a record that the calls refuse, and never one that means something else. */
typedef struct {
    unsigned char bytes[WEGBARO_RECORD_BYTES];
} wegbaro_record;

/* A set of numbers: where a bit of `care` is 1 the bit must be that of `value`, and where it is 0 any bit matches. */
typedef struct {
    unsigned char value;
    unsigned char care;
} wegbaro_pattern;

/* What a rule, or a miss, does with a frame. */
typedef struct {
    unsigned char bytes[3];
} wegbaro_action;

/* What a group does with one copy of a frame. */
typedef struct {
    unsigned char bytes[4];
} wegbaro_bucket;

/* The variables of a policy. */
#define WEGBARO_X 0
#define WEGBARO_Y 1

/* For the functions below: a number as a byte. No field goes up to 255, so that 255 is refused. */
static __inline__ unsigned char wegbaro_byte(unsigned int number)
{
    return (unsigned char)(number < 255 ? number : 255);
}

/* For the functions below: a record from its first bytes; the others are zero. */
static __inline__ wegbaro_record wegbaro_laid_out(unsigned int kind, unsigned int one, unsigned int two, unsigned int three,
                                                  unsigned int four)
{
    wegbaro_record record = {{0}};

    record.bytes[0] = wegbaro_byte(kind);
    record.bytes[1] = wegbaro_byte(one);
    record.bytes[2] = wegbaro_byte(two);
    record.bytes[3] = wegbaro_byte(three);
    record.bytes[4] = wegbaro_byte(four);
    return record;
}

/* For the functions below: the record with a part of `size` bytes more, at most `most` of which have room. One more is
 * counted alone, which is refused. */
static __inline__ wegbaro_record wegbaro_with_part(wegbaro_record record, const unsigned char *part, unsigned int size,
                                                   unsigned int most)
{
    unsigned int count = record.bytes[8];
    unsigned int i;

    for (i = 0; i < size && count < most; i++)
        record.bytes[9 + count * size + i] = part[i];
    if (count <= most)
        record.bytes[8] = (unsigned char)(count + 1);
    return record;
}

/* The pattern with these bits. */
static __inline__ wegbaro_pattern wegbaro_bits(unsigned int value, unsigned int care)
{
    wegbaro_pattern pattern;

    pattern.value = wegbaro_byte(value);
    pattern.care = wegbaro_byte(care);
    return pattern;
}

/* The pattern of every number; as what is set, of nothing. */
static __inline__ wegbaro_pattern wegbaro_any(void)
{
    return wegbaro_bits(0, 0);
}

/* The pattern of one number of so many bits. */
static __inline__ wegbaro_pattern wegbaro_exactly(unsigned int number, unsigned int width)
{
    return wegbaro_bits(number, width < 8 ? (1u << width) - 1 : 255);
}

/* The widths H, P and W, and the version: 1 for OpenFlow 1.0, 4 for OpenFlow 1.3, and 0 reads as 4. */
static __inline__ wegbaro_record wegbaro_widths(unsigned int header, unsigned int port, unsigned int switch_bits,
                                                unsigned int version)
{
    return wegbaro_laid_out(1, header, port, switch_bits, version);
}

/* A link between two points. */
static __inline__ wegbaro_record wegbaro_link(unsigned int of_switch, unsigned int port, unsigned int other_switch,
                                              unsigned int other_port)
{
    return wegbaro_laid_out(2, of_switch, port, other_switch, other_port);
}

/* The miss of a switch, without its actions: wegbaro_with_action gives it 1 to 4. */
static __inline__ wegbaro_record wegbaro_miss(unsigned int of_switch)
{
    return wegbaro_laid_out(3, of_switch, 0, 0, 0);
}

/* A rule for the frames of a port and a header pattern, without its actions, as above. */
static __inline__ wegbaro_record wegbaro_rule(unsigned int of_switch, unsigned int priority, wegbaro_pattern port,
                                              wegbaro_pattern header)
{
    wegbaro_record record = wegbaro_laid_out(4, of_switch, priority & 255, priority >> 8 & 255, port.value);

    record.bytes[5] = port.care;
    record.bytes[6] = header.value;
    record.bytes[7] = header.care;
    /* A byte that must be zero: no priority is refused by itself. */
    record.bytes[WEGBARO_RECORD_BYTES - 1] = priority >> 16 != 0;
    return record;
}

/* The command that adds a rule, with its actions. */
static __inline__ wegbaro_record wegbaro_add(wegbaro_record rule)
{
    rule.bytes[0] = 6;
    return rule;
}

/* The command that gives these actions to a rule that is there. */
static __inline__ wegbaro_record wegbaro_modify(wegbaro_record rule)
{
    rule.bytes[0] = 7;
    return rule;
}

/* The command that deletes a rule; its actions do not matter. */
static __inline__ wegbaro_record wegbaro_delete(wegbaro_record rule)
{
    unsigned int i;

    rule.bytes[0] = 8;
    for (i = 8; i < 21; i++)
        rule.bytes[i] = 0;
    return rule;
}

/* For the functions below: an action by its kind. */
static __inline__ wegbaro_action wegbaro_action_of(unsigned char kind, wegbaro_pattern pattern)
{
    wegbaro_action action;

    action.bytes[0] = kind;
    action.bytes[1] = pattern.value;
    action.bytes[2] = pattern.care;
    return action;
}

/* Sends a copy to the ports of a pattern, but not to the port of arrival. */
static __inline__ wegbaro_action wegbaro_output(wegbaro_pattern ports)
{
    return wegbaro_action_of(1, ports);
}

/* Writes the bits of a pattern into the header. */
static __inline__ wegbaro_action wegbaro_set(wegbaro_pattern header)
{
    return wegbaro_action_of(2, header);
}

/* Sends a copy back to the port of arrival. */
static __inline__ wegbaro_action wegbaro_in_port(void)
{
    return wegbaro_action_of(3, wegbaro_any());
}

/* Runs a group of the same switch. */
static __inline__ wegbaro_action wegbaro_run_group(unsigned int number)
{
    return wegbaro_action_of(4, wegbaro_bits(number, 0));
}

/* A miss, a rule, an add or a modify with an action more, behind those that it has. */
static __inline__ wegbaro_record wegbaro_with_action(wegbaro_record record, wegbaro_action action)
{
    return wegbaro_with_part(record, action.bytes, 3, 4);
}

/* A group of a switch, without its buckets: wegbaro_with_bucket gives it 1 to 3. */
static __inline__ wegbaro_record wegbaro_group(unsigned int of_switch, unsigned int number)
{
    return wegbaro_laid_out(9, of_switch, number, 0, 0);
}

/* For the functions below: a bucket by the kind of its target. */
static __inline__ wegbaro_bucket wegbaro_bucket_of(wegbaro_pattern set, unsigned char kind, unsigned int number)
{
    wegbaro_bucket bucket;

    bucket.bytes[0] = set.value;
    bucket.bytes[1] = set.care;
    bucket.bytes[2] = kind;
    bucket.bytes[3] = wegbaro_byte(number);
    return bucket;
}

/* Sets the header and sends the copy to a port, unless the frame arrived there. */
static __inline__ wegbaro_bucket wegbaro_to_port(wegbaro_pattern set, unsigned int port)
{
    return wegbaro_bucket_of(set, 1, port);
}

/* Sets the header and runs a lower group of the same switch. */
static __inline__ wegbaro_bucket wegbaro_to_group(wegbaro_pattern set, unsigned int number)
{
    return wegbaro_bucket_of(set, 2, number);
}

/* A group with a bucket more, behind those that it has. */
static __inline__ wegbaro_record wegbaro_with_bucket(wegbaro_record group, wegbaro_bucket bucket)
{
    return wegbaro_with_part(group, bucket.bytes, 4, 3);
}

/* The nodes of a policy, each the policy's number and what it is. An operand is the number of an earlier node of the same
 * policy, from 0. The last node is what the policy forbids.
 *
 * A bit of the state's number is 1. */
static __inline__ wegbaro_record wegbaro_node_bit(unsigned int policy, unsigned int variable, unsigned int bit)
{
    return wegbaro_laid_out(5, policy, 0, variable, bit);
}

/* The first state steps to the second. */
static __inline__ wegbaro_record wegbaro_node_r(unsigned int policy, unsigned int from, unsigned int to)
{
    return wegbaro_laid_out(5, policy, 1, from, to);
}

/* The state's point is external. */
static __inline__ wegbaro_record wegbaro_node_e(unsigned int policy, unsigned int variable)
{
    return wegbaro_laid_out(5, policy, 2, variable, 0);
}

/* The operand is false. */
static __inline__ wegbaro_record wegbaro_node_not(unsigned int policy, unsigned int operand)
{
    return wegbaro_laid_out(5, policy, 3, operand, 0);
}

/* Both operands are true. */
static __inline__ wegbaro_record wegbaro_node_and(unsigned int policy, unsigned int one, unsigned int other)
{
    return wegbaro_laid_out(5, policy, 4, one, other);
}

/* At least one operand is true. */
static __inline__ wegbaro_record wegbaro_node_or(unsigned int policy, unsigned int one, unsigned int other)
{
    return wegbaro_laid_out(5, policy, 5, one, other);
}

/* The operand is true for some state as that variable. */
static __inline__ wegbaro_record wegbaro_node_some(unsigned int policy, unsigned int operand, unsigned int variable)
{
    return wegbaro_laid_out(5, policy, 6, operand, variable);
}

/* The operand is true for every state as that variable. */
static __inline__ wegbaro_record wegbaro_node_all(unsigned int policy, unsigned int operand, unsigned int variable)
{
    return wegbaro_laid_out(5, policy, 7, operand, variable);
}

/* A walk over pairs that make the operand true leads from the first state to the second. */
static __inline__ wegbaro_record wegbaro_node_tc(unsigned int policy, unsigned int operand, unsigned int from,
                                                 unsigned int to)
{
    return wegbaro_laid_out(5, policy, 8, operand, from < 2 && to < 2 ? 2 * from + to : 255);
}

/* ---- Calls ---- */

/* The check call: judges the network of the first n records of the store.
 *
 * WEGBARO_HOLDS     no policy's forbidden condition is true for any state.
 * WEGBARO_VIOLATED  some policy's is: the lowest broken policy, and the lowest state that breaks it.
 * WEGBARO_REFUSED   the network was not judged: number and place of the table above.
 *
 * Of the rules that match an arriving frame all of the highest priority act, and the frame steps wherever any of them sends
 * it. OpenFlow leaves open which of them a switch takes. A policy is even if every way from its last node down to an R
 * passes an even number of NOTs. If the network holds, each even policy also holds if every state takes the steps of just
 * one of those rules, whichever. Other policies are judged over the steps of all of them together, and nothing is said of a
 * switch that takes just one. The command call judges in the same way.
 *
 * The store is only read. If refused, the work buffer is untouched. Otherwise its first WEGBARO_WORK_BYTES of this network
 * are all zero, and the rest of it is untouched. What is in it before the call does not matter. */
wegbaro_answer wegbaro_check(const unsigned char *store, size_t store_len, size_t n, unsigned char *work,
                             size_t work_len);

/* The command call: judges the whole network that the command `given` would leave of the first n records of the store,
 * and carries the command out only if that network holds. Start with n records that the check call said hold, and from
 * then on give the count last answered as forwarded.
 *
 * WEGBARO_FORWARDED the network that it leaves holds: its record count. The store has its records, then zeros to byte
 *                   15,768; later bytes are untouched.
 * WEGBARO_BLOCKED   it does not hold: the lowest policy that would be broken, and the lowest state that would break it. The
 *                   store is untouched.
 * WEGBARO_REFUSED   the command was not judged: number and place of the table above. The store is untouched.
 *
 * An add of a rule that is there replaces it. A delete of a rule that is not there changes nothing. A modify of one adds
 * it in version 1 (OpenFlow 1.0), and changes nothing in version 4 (OpenFlow 1.3); the version is byte 4 of the widths
 * record, and 0 reads as 4. A command that changes nothing is judged like any other. The command is only read. The work
 * buffer is left as by the check call. */
wegbaro_answer wegbaro_command(unsigned char *store, size_t store_len, size_t n, unsigned char *work, size_t work_len,
                               const unsigned char *given, size_t given_len);

/* The route call: finds how a frame gets from the state `start` to the state `end` in the network of the first n records
 * of the store. No policy is judged.
 *
 * WEGBARO_FOUND     a route: the count of its states, which are the first entries of the list; later entries are
 *                   untouched.
 * WEGBARO_NO_ROUTE  no frame gets there. The list is untouched.
 * WEGBARO_REFUSED   the network was not searched: number and place of the table above. The list is untouched.
 *
 * A route has the start first and the end last, and each of its states steps to the next, by any of the rules where several
 * of equal priority act. It has at least one step, so from a state to itself it is a loop, and at most 2^N. Of all such
 * lists it is one with the fewest steps, and of those the one that has the smaller state where it first differs from
 * another. The store is only read. The work buffer is left as by the check call. `list_len` counts entries, not bytes. */
wegbaro_answer wegbaro_route(const unsigned char *store, size_t store_len, size_t n, unsigned char *work, size_t work_len,
                             size_t start, size_t end, unsigned short *list, size_t list_len);

/* The version of the library that the program runs with: 1,000,000 times its major number, 1,000 times its minor number,
 * and its patch. */
unsigned long wegbaro_version(void);

/* Whether the program may make the calls above: whether that library is of this header's major and minor version, and not
 * older than the header. From one minor version to the next, records, calls or buffers can change. */
static __inline__ int wegbaro_is_compatible(void)
{
    return wegbaro_version() / 1000 == WEGBARO_VERSION_NUMBER / 1000 && wegbaro_version() >= WEGBARO_VERSION_NUMBER;
}

#ifdef __cplusplus
}
#endif

#endif
