/* Octets as hexadecimal words: see hex.h. */
#include "hex.h"

#include <stdio.h>
#include <string.h>

/* The value of a digit; -1 where it is none. */
static int digit(char c)
{
    if (c >= '0' && c <= '9')
        return c - '0';
    if (c >= 'A' && c <= 'F')
        return c - 'A' + 10;
    return -1;
}

/* See hex.h. */
long hex_octets(const char *word, uint8_t *octets)
{
    size_t digits = strlen(word);
    size_t i;

    if (strcmp(word, "-") == 0)
        return 0;
    if (digits % 2 != 0 || digits > HEX_DIGITS)
        return -1;
    for (i = 0; i < digits / 2; i++) {
        int high = digit(word[2 * i]);
        int low = digit(word[2 * i + 1]);
        if (high < 0 || low < 0)
            return -1;
        octets[i] = (uint8_t)(16 * high + low);
    }
    return (long)(digits / 2);
}

/* How many octets are the same as the first, of so many. */
static size_t same_octets(const uint8_t *octets, size_t count)
{
    size_t same = 1;

    while (same < count && octets[same] == octets[0])
        same++;
    return same;
}

/* See hex.h. */
void hex_print(const uint8_t *octets, size_t count)
{
    size_t i, same;

    for (i = 0; i < count; i += same) {
        same = same_octets(octets + i, count - i);
        printf(" %02X", (unsigned)octets[i]);
        if (same < HEX_SAME)
            same = 1;
        else
            printf("x%lu", (unsigned long)same);
    }
}

/* See hex.h. */
void hex_line(const char *name, const uint8_t *octets, size_t count)
{
    printf("%s: %lu octets:", name, (unsigned long)count);
    hex_print(octets, count);
    printf("\n");
}
