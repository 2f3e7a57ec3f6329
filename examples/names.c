/* Prints the names of all actions, a line each: NUMBER NAME.
 *
 *     scripts/staticlib
 *     gcc -std=c99 -O2 -I include -o names examples/names.c -L target/staticlib -lpcode_c
 */
#include <stdint.h>
#include <stdio.h>

#include "pcode.h"

int main(void)
{
    uint8_t name[PCODE_MOST_NAME];
    size_t length;
    for (size_t action = 0; (length = pcode_action_name(action, name, sizeof name)) != 0; action++)
        printf("%u %.*s\n", (unsigned)action, (int)length, (const char *)name);
    return fflush(stdout) == 0 && !ferror(stdout) ? 0 : 2;
}
