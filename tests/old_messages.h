/* KN and DC for the tests in C: drives read them, and send only KW and DW. */
#ifndef OLD_MESSAGES_H
#define OLD_MESSAGES_H

#include <stddef.h>
#include <stdint.h>
#include <string.h>

/*
 * A KW or DW of so many bytes as a KN or DC: of each number the two low bytes. How many bytes it has; or 0, where
 * `only_same` is asked for and a number does not fit.
 */
static inline size_t as_old(const uint8_t *message, size_t size, uint8_t *old, int only_same)
{
    size_t head = message[0] == 'K' ? 12 : 4, made = head;
    memcpy(old, message, head);
    old[1] = message[0] == 'K' ? 'N' : 'C';
    for (size_t at = head; at + 4 <= size; at += 4, made += 2) {
        if (only_same && (message[at + 2] != 0 || message[at + 3] != 0))
            return 0;
        memcpy(old + made, message + at, 2);
    }
    return made;
}

#endif
