/* Measures the stack of the three calls. Reads records as the program `gate` does: a network, then commands. The
 * arguments are the starts and ends of routes, in pairs. Each call runs in a thread of its own on a stack filled with a
 * mark, and what it has overwritten is counted down from the frame of the caller. Prints the bytes of each call, then
 * the bound of the header. */

#include <pthread.h>
#include <stdio.h>
#include <stdlib.h>
#include <string.h>

#include "wegbaro.h"

#define MARK 0xA5
#define MOST_INPUT (2 * WEGBARO_STORE_BYTES)
#define STACK_BYTES (16 * WEGBARO_STACK_BYTES)

static unsigned char input[MOST_INPUT];
static unsigned char store[WEGBARO_STORE_BYTES];
static unsigned char work[WEGBARO_MOST_WORK_BYTES];
static unsigned short list[WEGBARO_MOST_LIST_ENTRIES];
static unsigned char *stack;

/* A call: the records of the network, and the command, or the two ends of a route, or neither for the check call. */
struct call {
    size_t n;
    const unsigned char *command;
    const size_t *ends;
    wegbaro_answer answer;
    const unsigned char *frame;
};

static void *run(void *given)
{
    struct call *call = given;

    call->frame = __builtin_frame_address(0);
    if (call->command)
        call->answer = wegbaro_command(store, sizeof store, call->n, work, sizeof work, call->command,
                                       WEGBARO_RECORD_BYTES);
    else if (call->ends)
        call->answer = wegbaro_route(store, sizeof store, call->n, work, sizeof work, call->ends[0], call->ends[1], list,
                                     WEGBARO_MOST_LIST_ENTRIES);
    else
        call->answer = wegbaro_check(store, sizeof store, call->n, work, sizeof work);
    return NULL;
}

/* The bytes of stack that a call needs. */
static size_t measured(struct call *call)
{
    const unsigned char *lowest = stack;
    pthread_attr_t attributes;
    pthread_t thread;

    memset(stack, MARK, STACK_BYTES);
    if (pthread_attr_init(&attributes) || pthread_attr_setstack(&attributes, stack, STACK_BYTES)
        || pthread_create(&thread, &attributes, run, call) || pthread_join(thread, NULL)) {
        fprintf(stderr, "no thread\n");
        exit(1);
    }
    if (wegbaro_case(call->answer) == WEGBARO_REFUSED) {
        fprintf(stderr, "refused %u %u\n", wegbaro_first(call->answer), wegbaro_second(call->answer));
        exit(1);
    }
    while (*lowest == MARK)
        lowest++;
    return (size_t)(call->frame - lowest);
}

static int is_command(unsigned int kind)
{
    return kind >= 6 && kind <= 8;
}

int main(int arguments, char **argument)
{
    size_t records = fread(input, WEGBARO_RECORD_BYTES, sizeof input / WEGBARO_RECORD_BYTES, stdin);
    struct call call = {0, NULL, NULL, 0, NULL};
    size_t ends[2];
    size_t place;
    int pair;

    if (posix_memalign((void **)&stack, 4096, STACK_BYTES))
        return 1;
    while (call.n < records && !is_command(input[call.n * WEGBARO_RECORD_BYTES]))
        call.n++;
    memcpy(store, input, sizeof store);
    printf("check %lu\n", (unsigned long)measured(&call));
    for (pair = 1; pair + 1 < arguments; pair += 2) {
        ends[0] = strtoul(argument[pair], NULL, 10);
        ends[1] = strtoul(argument[pair + 1], NULL, 10);
        call.ends = ends;
        printf("route %lu\n", (unsigned long)measured(&call));
    }
    for (place = call.n; place < records; place++) {
        memcpy(store, input, sizeof store);
        call.command = input + place * WEGBARO_RECORD_BYTES;
        printf("command %lu\n", (unsigned long)measured(&call));
    }
    printf("bound %lu\n", (unsigned long)WEGBARO_STACK_BYTES);
    return 0;
}
