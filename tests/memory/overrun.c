/* Opens a session and offers it a packet that is held and one whose table is cut, and states one octet more than there
 * is of the buffer that the argument names: `session`, `payload`, `lost` or `place`. A memory checker must notice that.
 * Without an argument all is as stated. */
#include "landing_voice.h"

#include <stdlib.h>
#include <string.h>

/* A buffer of its own; the short one lacks its last octet. */
static void *room(const char *name, const char *short_one, size_t len)
{
    void *octets = calloc(1, strcmp(name, short_one) == 0 ? len - 1 : len);

    if (octets == NULL)
        exit(1);
    return octets;
}

/* One call that opens, and two that offer. */
int main(int argc, char **argv)
{
    const char *short_one = argc > 1 ? argv[1] : "";
    uint8_t *session = room("session", short_one, LV_SESSION_OCTETS);
    uint8_t *payload = room("payload", short_one, 2);
    size_t *lost = room("lost", short_one, sizeof *lost);
    size_t *place = room("place", short_one, sizeof *place);
    int good = lv_session_open(7, LV_INTERLEAVED, 0, 1, session, LV_SESSION_OCTETS) == LV_OK &&
               lv_session_offer(session, LV_SESSION_OCTETS, 7, 0, 0, payload, 2, lost, place) == LV_OK &&
               lv_session_offer(session, LV_SESSION_OCTETS, 7, 0, 0, payload, 1, lost, place) == LV_TABLE_CUT &&
               *place == 1;

    free(session);
    free(payload);
    free(lost);
    free(place);
    return good ? 0 : 1;
}
