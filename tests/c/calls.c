/* Makes the calls that standard input asks for, through the header, and tells on standard output what they answer and leave.
 *
 * A call is a line of its name, store_len, n, work_len, given_len, start, end and list_len, then the bytes of store, work,
 * command and list. What it answers is a line of its case and its two numbers, then the bytes of store, work and list. */

#include <stdio.h>
#include <stdlib.h>
#include <string.h>

#include "wegbaro.h"

struct call {
    char name[8];
    unsigned long store_len, n, work_len, given_len, start, end, list_len;
    unsigned char *store, *work, *given;
    unsigned short *list;
};

static const char *checked(wegbaro_answer answer)
{
    switch (wegbaro_case(answer)) {
    case WEGBARO_HOLDS:
        return "holds";
    case WEGBARO_VIOLATED:
        return "violated";
    case WEGBARO_REFUSED:
        return "refused";
    default:
        return "unknown";
    }
}

static const char *commanded(wegbaro_answer answer)
{
    switch (wegbaro_case(answer)) {
    case WEGBARO_FORWARDED:
        return "forwarded";
    case WEGBARO_BLOCKED:
        return "blocked";
    case WEGBARO_REFUSED:
        return "refused";
    default:
        return "unknown";
    }
}

static const char *routed(wegbaro_answer answer)
{
    switch (wegbaro_case(answer)) {
    case WEGBARO_FOUND:
        return "found";
    case WEGBARO_NO_ROUTE:
        return "none";
    case WEGBARO_REFUSED:
        return "refused";
    default:
        return "unknown";
    }
}

/* Makes a call; the word for the case of its answer. */
static const char *made(const struct call *call, wegbaro_answer *answer)
{
    if (strcmp(call->name, "check") == 0) {
        *answer = wegbaro_check(call->store, call->store_len, call->n, call->work, call->work_len);
        return checked(*answer);
    }
    if (strcmp(call->name, "command") == 0) {
        *answer = wegbaro_command(call->store, call->store_len, call->n, call->work, call->work_len, call->given,
                                  call->given_len);
        return commanded(*answer);
    }
    if (strcmp(call->name, "route") == 0) {
        *answer = wegbaro_route(call->store, call->store_len, call->n, call->work, call->work_len, call->start, call->end,
                                call->list, call->list_len);
        return routed(*answer);
    }
    fprintf(stderr, "no call %s\n", call->name);
    exit(1);
}

/* So many bytes of the input, in memory of their own, which is not null even where they are none. */
static void *taken(size_t len)
{
    void *bytes = malloc(len ? len : 1);

    if (!bytes || fread(bytes, 1, len, stdin) != len) {
        fprintf(stderr, "%lu bytes are not there\n", (unsigned long)len);
        exit(1);
    }
    return bytes;
}

static void take_buffers(struct call *call)
{
    call->store = taken(call->store_len);
    call->work = taken(call->work_len);
    call->given = taken(call->given_len);
    call->list = taken(call->list_len * sizeof *call->list);
}

static void free_buffers(struct call *call)
{
    free(call->store);
    free(call->work);
    free(call->given);
    free(call->list);
}

static void tell(const struct call *call)
{
    wegbaro_answer answer;
    const char *word = made(call, &answer);

    printf("%s %u %u\n", word, wegbaro_first(answer), wegbaro_second(answer));
    fwrite(call->store, 1, call->store_len, stdout);
    fwrite(call->work, 1, call->work_len, stdout);
    fwrite(call->list, sizeof *call->list, call->list_len, stdout);
    fflush(stdout);
}

int main(void)
{
    struct call call;

    /* The last character read is the end of the line, behind which the bytes are. */
    while (scanf("%7s %lu %lu %lu %lu %lu %lu %lu%*c", call.name, &call.store_len, &call.n, &call.work_len, &call.given_len,
                 &call.start, &call.end, &call.list_len) == 8) {
        take_buffers(&call);
        tell(&call);
        free_buffers(&call);
    }
    return 0;
}
