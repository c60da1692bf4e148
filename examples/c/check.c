/* Network K of docs/FORMAT.md: the check call, then its two adds, with a line for each answer as the program prints it,
 * then a route: how header 0 gets from port 1 of switch 0, where it arrives, to port 2 of switch 1, where it leaves. */

#include <stdio.h>
#include <string.h>

#include "wegbaro.h"

#define COUNT(array) (sizeof(array) / sizeof(array)[0])

/* A rule that sends to port 2; K has two bits for a port's number. */
static wegbaro_record to_2(wegbaro_record rule)
{
    return wegbaro_with_action(rule, wegbaro_output(wegbaro_exactly(2, 2)));
}

/* The miss of a switch that drops what no rule matches. */
static wegbaro_record dropping(unsigned int of_switch)
{
    return wegbaro_with_action(wegbaro_miss(of_switch), wegbaro_output(wegbaro_exactly(0, 2)));
}

/* Puts the records of network K in place; their count. */
static size_t build(wegbaro_record *network)
{
    const wegbaro_pattern port_1 = wegbaro_exactly(1, 2), header_0 = wegbaro_exactly(0, 1), any = wegbaro_any();
    size_t n = 0;

    network[n++] = wegbaro_widths(1, 2, 1, 0);
    network[n++] = wegbaro_link(0, 2, 1, 1);
    network[n++] = dropping(0);
    network[n++] = dropping(1);
    network[n++] = to_2(wegbaro_rule(0, 10, port_1, header_0));
    network[n++] = to_2(wegbaro_rule(1, 10, port_1, any));
    network[n++] = wegbaro_node_e(0, WEGBARO_X); /* 0 */
    network[n++] = wegbaro_node_bit(0, WEGBARO_X, 4); /* 1 */
    network[n++] = wegbaro_node_not(0, 1); /* 2 */
    network[n++] = wegbaro_node_and(0, 0, 2); /* 3: X arrives at an external point */
    network[n++] = wegbaro_node_r(0, WEGBARO_X, WEGBARO_Y); /* 4 */
    network[n++] = wegbaro_node_tc(0, 4, WEGBARO_X, WEGBARO_Y); /* 5: X gets to Y */
    network[n++] = wegbaro_node_e(0, WEGBARO_Y); /* 6 */
    network[n++] = wegbaro_node_bit(0, WEGBARO_Y, 4); /* 7 */
    network[n++] = wegbaro_node_bit(0, WEGBARO_Y, 0); /* 8 */
    network[n++] = wegbaro_node_and(0, 6, 7); /* 9: Y departs at an external point */
    network[n++] = wegbaro_node_and(0, 9, 8); /* 10: with header 1 */
    network[n++] = wegbaro_node_and(0, 5, 10); /* 11 */
    network[n++] = wegbaro_node_some(0, 11, WEGBARO_Y); /* 12 */
    network[n++] = wegbaro_node_and(0, 3, 12); /* 13: what policy 0 forbids */
    return n;
}

static unsigned char store[WEGBARO_STORE_BYTES];

/* K's one policy has 14 nodes, and its N is 1 + 1 + 2 + 1. */
static unsigned char work[WEGBARO_WORK_BYTES(14, 5)];

static unsigned short list[WEGBARO_LIST_ENTRIES(5)];

/* Prints the check call's answer; whether it is that the network holds. */
static int print_check(wegbaro_answer answer)
{
    switch (wegbaro_case(answer)) {
    case WEGBARO_HOLDS:
        printf("start holds\n");
        return 1;
    case WEGBARO_VIOLATED:
        printf("start violated %u %u\n", wegbaro_first(answer), wegbaro_second(answer));
        return 0;
    default:
        printf("start refused %u %u\n", wegbaro_first(answer), wegbaro_second(answer));
        return 0;
    }
}

/* Prints the command call's answer to a command, numbered from 1. */
static void print_command(unsigned int number, wegbaro_answer answer)
{
    switch (wegbaro_case(answer)) {
    case WEGBARO_FORWARDED:
        printf("%u forwarded %u\n", number, wegbaro_first(answer));
        break;
    case WEGBARO_BLOCKED:
        printf("%u blocked %u %u\n", number, wegbaro_first(answer), wegbaro_second(answer));
        break;
    default:
        printf("%u refused %u %u\n", number, wegbaro_first(answer), wegbaro_second(answer));
        break;
    }
}

/* Prints the route call's answer, with the states of a route. */
static void print_route(wegbaro_answer answer)
{
    unsigned int i;

    switch (wegbaro_case(answer)) {
    case WEGBARO_FOUND:
        printf("route");
        for (i = 0; i < wegbaro_first(answer); i++)
            printf(" %u", (unsigned int)list[i]);
        printf("\n");
        break;
    case WEGBARO_NO_ROUTE:
        printf("no route\n");
        break;
    default:
        printf("route refused %u %u\n", wegbaro_first(answer), wegbaro_second(answer));
        break;
    }
}

int main(void)
{
    wegbaro_record network[20], commands[2];
    size_t n = build(network);
    unsigned int i;

    if (!wegbaro_is_compatible()) {
        fprintf(stderr, "built for Wegbaro %s, and the library is %lu\n", WEGBARO_VERSION, wegbaro_version());
        return 1;
    }
    commands[0] = wegbaro_add(to_2(wegbaro_rule(0, 5, wegbaro_any(), wegbaro_any())));
    commands[1] = wegbaro_add(to_2(wegbaro_rule(0, 5, wegbaro_any(), wegbaro_exactly(0, 1))));
    memcpy(store, network, n * sizeof *network);
    if (!print_check(wegbaro_check(store, sizeof store, n, work, sizeof work)))
        return 1;

    for (i = 0; i < COUNT(commands); i++) {
        wegbaro_answer answer = wegbaro_command(store, sizeof store, n, work, sizeof work, commands[i].bytes,
                                                sizeof commands[i].bytes);
        print_command(i + 1, answer);
        if (wegbaro_case(answer) == WEGBARO_FORWARDED)
            n = wegbaro_first(answer);
    }
    print_route(wegbaro_route(store, sizeof store, n, work, sizeof work, 2, 28, list, COUNT(list)));
    return 0;
}
