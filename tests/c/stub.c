/* A library of version STUB_VERSION that answers 0 to every call. */

#include "wegbaro.h"

unsigned long wegbaro_version(void)
{
    return STUB_VERSION;
}

wegbaro_answer wegbaro_check(const unsigned char *store, size_t store_len, size_t n, unsigned char *work, size_t work_len)
{
    (void)store, (void)store_len, (void)n, (void)work, (void)work_len;
    return 0;
}

wegbaro_answer wegbaro_command(unsigned char *store, size_t store_len, size_t n, unsigned char *work, size_t work_len,
                               const unsigned char *given, size_t given_len)
{
    (void)store, (void)store_len, (void)n, (void)work, (void)work_len, (void)given, (void)given_len;
    return 0;
}

wegbaro_answer wegbaro_route(const unsigned char *store, size_t store_len, size_t n, unsigned char *work, size_t work_len,
                             size_t start, size_t end, unsigned short *list, size_t list_len)
{
    (void)store, (void)store_len, (void)n, (void)work, (void)work_len, (void)start, (void)end, (void)list, (void)list_len;
    return 0;
}
