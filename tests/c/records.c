/* Records made by the header's functions, a line of hexadecimal for each. */

#include <stdio.h>

#include "wegbaro.h"

static void print(wegbaro_record record)
{
    unsigned int i;

    for (i = 0; i < sizeof record.bytes; i++)
        printf("%02x", record.bytes[i]);
    printf("\n");
}

/* A rule with four actions, and with a fifth. */
static void print_rules(void)
{
    wegbaro_record rule = wegbaro_rule(9, 0x1234, wegbaro_bits(5, 7), wegbaro_bits(8, 25));

    rule = wegbaro_with_action(rule, wegbaro_set(wegbaro_bits(1, 3)));
    rule = wegbaro_with_action(rule, wegbaro_run_group(15));
    rule = wegbaro_with_action(rule, wegbaro_in_port());
    rule = wegbaro_with_action(rule, wegbaro_output(wegbaro_bits(4, 6)));
    print(rule);
    print(wegbaro_add(rule));
    print(wegbaro_modify(rule));
    print(wegbaro_delete(rule));
    rule = wegbaro_with_action(rule, wegbaro_in_port());
    print(rule);
    print(wegbaro_with_action(rule, wegbaro_in_port()));
}

/* A group with three buckets, and with a fourth. */
static void print_groups(void)
{
    wegbaro_record group = wegbaro_group(2, 14);

    group = wegbaro_with_bucket(group, wegbaro_to_port(wegbaro_bits(1, 3), 5));
    group = wegbaro_with_bucket(group, wegbaro_to_group(wegbaro_any(), 6));
    group = wegbaro_with_bucket(group, wegbaro_to_port(wegbaro_bits(8, 12), 7));
    print(group);
    print(wegbaro_with_bucket(group, wegbaro_to_port(wegbaro_any(), 1)));
}

static void print_nodes(void)
{
    print(wegbaro_node_bit(3, WEGBARO_Y, 9));
    print(wegbaro_node_r(3, WEGBARO_Y, WEGBARO_X));
    print(wegbaro_node_e(3, WEGBARO_Y));
    print(wegbaro_node_not(3, 7));
    print(wegbaro_node_and(3, 5, 6));
    print(wegbaro_node_or(3, 5, 6));
    print(wegbaro_node_some(3, 5, WEGBARO_Y));
    print(wegbaro_node_all(3, 5, WEGBARO_X));
    print(wegbaro_node_tc(3, 5, WEGBARO_Y, WEGBARO_X));
}

/* Numbers that have no room. */
static void print_too_large(void)
{
    print(wegbaro_link(256, 2, 3, 260));
    print(wegbaro_rule(0, 65536, wegbaro_exactly(300, 9), wegbaro_any()));
    print(wegbaro_delete(wegbaro_rule(0, 65536, wegbaro_any(), wegbaro_any())));
    print(wegbaro_node_tc(3, 5, 0, 2));
}

int main(void)
{
    print(wegbaro_widths(6, 2, 1, 4));
    print(wegbaro_link(1, 2, 3, 4));
    print(wegbaro_with_action(wegbaro_miss(9), wegbaro_output(wegbaro_exactly(2, 3))));
    print_rules();
    print_groups();
    print_nodes();
    print_too_large();
    return 0;
}
