/* Reads payloads, one to a line, and says what each holds: the calls lv_payload_read and lv_payload_frame.
 *
 * A line is: NAME FORM MAX_L MAX_B OCTETS. vectors.h says how the program is used. */
#include "vectors.h"

#include <stdio.h>

/* The numbers of a line, in its order. */
enum { FORM, MAX_L, MAX_B, NUMBERS };

/* Prints one frame after the other, until the call says that there is none; that there are b. */
static void print_frames(const char *name, const uint8_t *at, const uint8_t *payload, size_t len, size_t b)
{
    uint8_t type, answer;
    size_t start, size, place = NOWHERE, k = 0;

    while ((answer = lv_payload_frame(at[FORM], at[MAX_L], at[MAX_B], payload, len, k, &type, &start, &size,
                                      &place)) == LV_OK)
        vector_frame(k++, type, payload, start, size);
    if (answer != LV_NOT_APPLICABLE || place != NOWHERE || k != b)
        printf("%s: frame %lu of %lu: refused %u\n", name, (unsigned long)k, (unsigned long)b, (unsigned)answer);
}

/* Prints why a payload cannot be read; that each frame of it is refused likewise. */
static void print_refusal(const char *name, const uint8_t *at, const uint8_t *payload, size_t len, uint8_t answer,
                          size_t place)
{
    uint8_t type;
    size_t start, size, again = NOWHERE;

    vector_refused(name, answer, place);
    if (lv_payload_frame(at[FORM], at[MAX_L], at[MAX_B], payload, len, 0, &type, &start, &size, &again) != answer ||
        again != place)
        printf("%s: its frames are refused otherwise\n", name);
}

/* See vectors.h. */
int vector(const char *name)
{
    uint8_t at[NUMBERS], l, n, b, d, answer;
    const uint8_t *payload;
    size_t len, place = NOWHERE;

    if (!vector_numbers(at, NUMBERS) || !vector_octets(&payload, &len))
        return 0;
    answer = lv_payload_read(at[FORM], at[MAX_L], at[MAX_B], payload, len, &l, &n, &b, &d, &place);
    if (answer != LV_OK || place != NOWHERE) {
        print_refusal(name, at, payload, len, answer, place);
        return 1;
    }
    printf("%s: L %u N %u B %u D %u\n", name, (unsigned)l, (unsigned)n, (unsigned)b, (unsigned)d);
    print_frames(name, at, payload, len, b);
    return 1;
}
