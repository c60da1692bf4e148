/* Prints the version of the header, as text and as a number, that of the library, and whether both go together. */

#include <stdio.h>

#include "wegbaro.h"

int main(void)
{
    printf("%s %lu %lu %d\n", WEGBARO_VERSION, WEGBARO_VERSION_NUMBER, wegbaro_version(), wegbaro_is_compatible());
    return 0;
}
