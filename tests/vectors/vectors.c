/* What the vectors' programs share, and their main: see vectors.h. */
#include "vectors.h"

#include <stdio.h>

/* See vectors.h. */
int vector_numbers(uint8_t *numbers, int count)
{
    unsigned number;
    int i;

    for (i = 0; i < count; i++) {
        if (scanf("%u", &number) != 1 || number > 255)
            return 0;
        numbers[i] = (uint8_t)number;
    }
    return 1;
}

/* See vectors.h. */
int vector_room(size_t *room)
{
    unsigned number;

    if (scanf("%u", &number) != 1 || number > HEX_OCTETS)
        return 0;
    *room = number;
    return 1;
}

/* See vectors.h. */
int vector_octets(const uint8_t **octets, size_t *len)
{
    static char word[HEX_DIGITS + 1];
    static uint8_t read[HEX_OCTETS];
    long count;

    if (scanf("%8192s", word) != 1 || (count = hex_octets(word, read)) < 0)
        return 0;
    *octets = read;
    *len = (size_t)count;
    return 1;
}

/* See vectors.h. */
int vector_refused(const char *name, uint8_t answer, size_t place)
{
    if (answer == LV_OK && place == NOWHERE)
        return 0;
    printf("%s: refused %u", name, (unsigned)answer);
    if (place != NOWHERE)
        printf(" at %lu", (unsigned long)place);
    printf("\n");
    return 1;
}

/* See vectors.h. */
void vector_frame(size_t k, uint8_t type, const uint8_t *octets, size_t start, size_t size)
{
    printf("  frame %lu: type %u at %lu, %lu octets:", (unsigned long)k, (unsigned)type, (unsigned long)start,
           (unsigned long)size);
    hex_print(octets + start, size);
    printf("\n");
}

/* Takes one line after the other. */
int main(void)
{
    char name[64];

    while (scanf("%63s", name) == 1)
        if (!vector(name)) {
            fprintf(stderr, "vectors: cannot read the line of %s\n", name);
            return 1;
        }
    return ferror(stdin) || fflush(stdout) != 0 ? 1 : 0;
}
