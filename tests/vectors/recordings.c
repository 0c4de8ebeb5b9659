/* Reads and writes recordings, one to a line: the calls lv_recording_read, lv_recording_frame and
 * lv_recording_write.
 *
 * A line is: NAME read OCTETS, or NAME write ROOM ENTRIES, to write a recording of entries into ROOM octets.
 * vectors.h says how the program is used. */
#include "vectors.h"

#include <stdio.h>
#include <string.h>

/* Prints one frame after the other, until the call says that there is none; that there are as many as counted. */
static void print_frames(const char *name, const uint8_t *recording, size_t len, size_t count)
{
    uint8_t type, answer;
    size_t start, size, place = NOWHERE, k = 0;

    while ((answer = lv_recording_frame(recording, len, k, &type, &start, &size, &place)) == LV_OK)
        vector_frame(k++, type, recording, start, size);
    if (answer != LV_NOT_APPLICABLE || place != NOWHERE || k != count)
        printf("%s: frame %lu of %lu: refused %u\n", name, (unsigned long)k, (unsigned long)count, (unsigned)answer);
}

/* Prints why a recording cannot be read; that each frame of it is refused likewise. */
static void print_refusal(const char *name, const uint8_t *recording, size_t len, uint8_t answer, size_t place)
{
    uint8_t type;
    size_t start, size, again = NOWHERE;

    vector_refused(name, answer, place);
    if (lv_recording_frame(recording, len, 0, &type, &start, &size, &again) != answer || again != place)
        printf("%s: its frames are refused otherwise\n", name);
}

/* Reads one recording. */
static void read_one(const char *name, const uint8_t *recording, size_t len)
{
    size_t count, place = NOWHERE;
    uint8_t answer = lv_recording_read(recording, len, &count, &place);

    if (answer != LV_OK || place != NOWHERE) {
        print_refusal(name, recording, len, answer, place);
        return;
    }
    printf("%s: %lu frames\n", name, (unsigned long)count);
    print_frames(name, recording, len, count);
}

/* Writes one recording. */
static void write_one(const char *name, const uint8_t *entries, size_t len, size_t room)
{
    static uint8_t out[HEX_OCTETS];
    size_t written, place = NOWHERE;
    uint8_t answer = lv_recording_write(entries, len, out, room, &written, &place);

    if (!vector_refused(name, answer, place))
        hex_line(name, out, written);
}

/* See vectors.h. */
int vector(const char *name)
{
    char what[8];
    const uint8_t *octets;
    size_t len, room;

    if (scanf("%7s", what) != 1)
        return 0;
    if (strcmp(what, "read") == 0 && vector_octets(&octets, &len))
        read_one(name, octets, len);
    else if (strcmp(what, "write") == 0 && vector_room(&room) && vector_octets(&octets, &len))
        write_one(name, octets, len, room);
    else
        return 0;
    return 1;
}
