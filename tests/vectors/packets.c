/* Writes packets, one to a line: the calls lv_packet_write and lv_packet_write_header_free.
 *
 * A line is: NAME FORM MAX_L MAX_B L N B D ROOM ENTRIES. FORM 0 is header-free, where L, N, B and D are not used.
 * vectors.h says how the program is used. */
#include "vectors.h"

/* The numbers of a line, in its order. */
enum { FORM, MAX_L, MAX_B, L, N, B, D, NUMBERS };

/* Makes the call of the line's form. */
static uint8_t write_one(const uint8_t *at, const uint8_t *entries, size_t len, uint8_t *out, size_t room,
                         size_t *written, size_t *place)
{
    if (at[FORM] == LV_HEADER_FREE)
        return lv_packet_write_header_free(at[FORM], at[MAX_L], at[MAX_B], entries, len, out, room, written, place);
    return lv_packet_write(at[FORM], at[MAX_L], at[MAX_B], at[L], at[N], at[B], at[D], entries, len, out, room,
                           written, place);
}

/* See vectors.h. */
int vector(const char *name)
{
    static uint8_t out[HEX_OCTETS];
    uint8_t at[NUMBERS], answer;
    const uint8_t *entries;
    size_t len, room, written, place = NOWHERE;

    if (!vector_numbers(at, NUMBERS) || !vector_room(&room) || !vector_octets(&entries, &len))
        return 0;
    answer = write_one(at, entries, len, out, room, &written, &place);
    if (!vector_refused(name, answer, place))
        hex_line(name, out, written);
    return 1;
}
