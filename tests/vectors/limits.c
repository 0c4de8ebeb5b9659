/* Holds the header's numbers to what the calls do at the edge: what is just there is taken, one more is refused;
 * the greatest group, loss, capture and recording are made. Says on standard error what does not hold; the status
 * is then 1.
 *
 * Good as C and as C++. ci/steps/20-header compiles it, with ANSWERS for the enumerators of lv_answer. */
#include "landing_voice.h"

#include <stdio.h>
#include <string.h>

enum { MAX_L = LV_GREATEST_L, MAX_B = LV_GREATEST_B, PAYLOAD = 1 + MAX_B + MAX_B * LV_BODY_MAX };
enum { HEAD = 12, GUARD = 0xA5 };
enum { FRAME = 160, GROUP = FRAME * (MAX_L + 1) * MAX_B }; /* counts of the clock: of a frame, of the greatest group */

static int failed;
static uint8_t session[LV_SESSION_OCTETS + 1], holding[LV_HOLDING_OCTETS + 1], joined[LV_HOLDING_OCTETS];
static uint8_t dropped[LV_SESSION_OCTETS], later[LV_HOLDING_OCTETS];
static uint8_t capture[LV_CAPTURE_MAX + 1], recording[LV_RECORDING_MAX + 1], poured[LV_POURED_MAX + 1];
static uint8_t payload[PAYLOAD];
static size_t place; /* of a fault; only try_place looks at it */

/* Notes what does not hold. */
static void holds(int good, const char *what)
{
    if (good)
        return;
    fprintf(stderr, "limits: does not hold: %s\n", what);
    failed = 1;
}

/* The longest payload: packet n of a group of the greatest L and B, Rate 1 frames alone. */
static void longest_payload(int n)
{
    memset(payload, 0, sizeof payload);
    payload[0] = (uint8_t)(8 * MAX_L + n);
    memset(payload + 1, 0x80 | LV_RATE_1, MAX_B - 1);
    payload[MAX_B] = LV_RATE_1;
}

/* Offers that payload to the session, from source 7, as of a group with this base timestamp. */
static uint8_t offer(int n, unsigned sequence, long base, size_t *lost)
{
    longest_payload(n);
    return lv_session_offer(session, LV_SESSION_OCTETS, 7, (uint16_t)sequence, (uint32_t)(base + FRAME * n), payload,
                            sizeof payload, lost, &place);
}

/* Opens the session with maxima, in so many octets. */
static uint8_t open_session(int max_l, int max_b, size_t len)
{
    return lv_session_open(7, LV_INTERLEAVED, (uint8_t)max_l, (uint8_t)max_b, session, len);
}

/* LV_SESSION_OCTETS: fewer are refused, but after the form, and no more are written. Fewer that are read are no session.
 * LV_GREATEST_L, LV_LEAST_B and LV_GREATEST_B are the ends of the range, and the defaults are in it. */
static void try_session(void)
{
    size_t lost;

    memset(session, GUARD, sizeof session);
    holds(open_session(MAX_L, MAX_B, LV_SESSION_OCTETS - 1) == LV_NO_ROOM, "a session needs LV_SESSION_OCTETS");
    holds(open_session(MAX_L + 1, MAX_B, LV_SESSION_OCTETS - 1) == LV_NOT_APPLICABLE, "21 comes before 15");
    holds(open_session(MAX_L + 1, MAX_B, LV_SESSION_OCTETS) == LV_NOT_APPLICABLE, "L is at most LV_GREATEST_L");
    holds(open_session(MAX_L, MAX_B + 1, LV_SESSION_OCTETS) == LV_NOT_APPLICABLE, "B is at most LV_GREATEST_B");
    holds(open_session(0, LV_LEAST_B - 1, LV_SESSION_OCTETS) == LV_NOT_APPLICABLE &&
              open_session(0, LV_LEAST_B, LV_SESSION_OCTETS) == LV_OK,
          "B is at least LV_LEAST_B");
    holds(open_session(LV_DEFAULT_MAX_L, LV_DEFAULT_MAX_B, LV_SESSION_OCTETS) == LV_OK, "the defaults are in range");
    holds(open_session(MAX_L, MAX_B, sizeof session) == LV_OK, "LV_SESSION_OCTETS are enough");
    holds(session[LV_SESSION_OCTETS - 1] == 0 && session[LV_SESSION_OCTETS] == GUARD, "a session is LV_SESSION_OCTETS");
    holds(lv_session_offer(session, LV_SESSION_OCTETS - 1, 8, 0, 0, payload, 0, &lost, &place) == LV_NOT_APPLICABLE &&
              lv_session_offer(session, LV_SESSION_OCTETS, 8, 0, 0, payload, 0, &lost, &place) == LV_ANOTHER_SOURCE,
          "fewer octets are no session");
}

/* LV_POURED_MAX and LV_HOLDING_OCTETS: the greatest group, held whole, poured from a holding and from the session. */
static void try_group(void)
{
    size_t lost, written;
    int n;

    for (n = 0; n <= MAX_L; n++)
        holds(offer(n, (unsigned)n, 0, &lost) == LV_OK && lost == 0, "the greatest group is heard");
    memset(holding, GUARD, sizeof holding);
    holds(lv_session_copy(session, LV_SESSION_OCTETS, holding, LV_HOLDING_OCTETS - 1) == LV_NO_ROOM &&
              lv_session_copy(session, LV_SESSION_OCTETS, holding, sizeof holding) == LV_OK &&
              holding[LV_HOLDING_OCTETS - 1] == 0 && holding[LV_HOLDING_OCTETS] == GUARD,
          "a holding is LV_HOLDING_OCTETS");
    holds(lv_holding_join(holding, LV_HOLDING_OCTETS, holding, LV_HOLDING_OCTETS, joined, sizeof joined) == LV_OK &&
              memcmp(holding, joined, LV_HOLDING_OCTETS) == 0,
          "a holding joined with itself is itself");
    holds(lv_holding_pour(joined, sizeof joined, poured, LV_POURED_MAX - 1, &written) == LV_NO_ROOM &&
              lv_holding_pour(joined, sizeof joined, poured, sizeof poured, &written) == LV_OK &&
              written == LV_POURED_MAX,
          "the greatest holding is LV_POURED_MAX octets poured");
    memcpy(dropped, session, sizeof dropped);
    holds(lv_session_pour(session, LV_SESSION_OCTETS, poured, LV_POURED_MAX - 1, &written) == LV_NO_ROOM &&
              lv_session_pour(session, LV_SESSION_OCTETS, poured, LV_POURED_MAX, &written) == LV_OK &&
              written == LV_POURED_MAX,
          "the greatest group is LV_POURED_MAX octets poured");
}

/* LV_HOLDING_OCTETS, LV_GREATEST_L and LV_GREATEST_B: that group as it is read. Fewer octets are no holding. */
static void try_read(void)
{
    uint32_t source = 0, timestamp = 1;
    uint16_t sequence = 1;
    uint8_t l = 0, b = 0, held = 0;

    holds(lv_holding_read(holding, LV_HOLDING_OCTETS - 1, &source, &sequence, &timestamp, &l, &b, &held) ==
              LV_NOT_APPLICABLE,
          "fewer octets are no holding");
    holds(lv_holding_read(holding, LV_HOLDING_OCTETS, &source, &sequence, &timestamp, &l, &b, &held) == LV_OK &&
              source == 7 && sequence == 0 && timestamp == 0,
          "a holding has its source and base numbers");
    holds(l == LV_GREATEST_L && b == LV_GREATEST_B && held == 255, "the greatest group is held whole");
}

/* LV_SESSION_OCTETS: the session as it held that group. Fewer octets are no session; dropped, it is as if poured. */
static void try_drop(void)
{
    holds(lv_session_drop(dropped, LV_SESSION_OCTETS - 1) == LV_NOT_APPLICABLE, "fewer octets are no session");
    holds(lv_session_drop(dropped, LV_SESSION_OCTETS) == LV_OK && memcmp(dropped, session, sizeof dropped) == 0,
          "a session that drops its group is as one that pours it");
    holds(lv_session_drop(dropped, LV_SESSION_OCTETS) == LV_NOT_APPLICABLE, "a group is dropped once");
}

/* Offers a packet so many counts of the clock behind that group's end, by its sequence number the next one. */
static uint8_t offer_behind(long counts, size_t *lost)
{
    return offer(0, MAX_L + 1, GROUP + counts, lost);
}

/* LV_LOST_MAX: behind that group, one frame more is too many, and what is no whole number of frames is refused before
 * that. */
static void try_lost(void)
{
    size_t lost = 0;

    holds(offer_behind(1, &lost) == LV_OFF_THE_CLOCK && offer_behind(FRAME - 1, &lost) == LV_OFF_THE_CLOCK &&
              offer_behind(-FRAME, &lost) == LV_OFF_THE_CLOCK,
          "only whole frames are lost");
    holds(offer_behind(FRAME * (LV_LOST_MAX + 1L), &lost) == LV_TOO_FAR_AHEAD, "LV_LOST_MAX and a frame are too many");
    holds(offer_behind(FRAME * (LV_LOST_MAX + 1L) + 1, &lost) == LV_OFF_THE_CLOCK, "24 comes before 16");
    holds(offer(0, MAX_L, GROUP + 1, &lost) == LV_EARLIER_GROUP, "13 comes before 24");
    holds(offer_behind(FRAME * (long)LV_LOST_MAX, &lost) == LV_OK && lost == LV_LOST_MAX,
          "at most LV_LOST_MAX frames are lost");
}

/* The lost frames between that group's holding and another one's, so many counts behind it, in so many octets. */
static uint8_t lost_between(long counts, size_t len, size_t *lost)
{
    holds(open_session(MAX_L, MAX_B, LV_SESSION_OCTETS) == LV_OK && offer_behind(counts, lost) == LV_OK &&
              lv_session_copy(session, LV_SESSION_OCTETS, later, sizeof later) == LV_OK,
          "a group is held");
    return lv_holding_lost(holding, LV_HOLDING_OCTETS, later, len, lost);
}

/* LV_LOST_MAX and LV_HOLDING_OCTETS: the same between two holdings. */
static void try_lost_between(void)
{
    const long most = FRAME * (long)LV_LOST_MAX;
    size_t lost = 0;

    holds(lost_between(most + 1, sizeof later, &lost) == LV_OFF_THE_CLOCK,
          "only whole frames are lost between holdings");
    holds(lost_between(most + FRAME, sizeof later, &lost) == LV_TOO_FAR_AHEAD,
          "LV_LOST_MAX and a frame are too many between holdings");
    holds(lost_between(most, sizeof later - 1, &lost) == LV_NOT_APPLICABLE, "fewer octets are no later holding");
    holds(lost_between(most, sizeof later, &lost) == LV_OK && lost == LV_LOST_MAX,
          "at most LV_LOST_MAX frames are lost between holdings");
    holds(lv_holding_lost(later, sizeof later, holding, LV_HOLDING_OCTETS, &lost) == LV_EARLIER_GROUP,
          "the earlier holding is not later");
}

/* LV_BODY_MAX and LV_OPENING_OCTETS. */
static void try_octets(void)
{
    uint8_t type = 0, l, n, b, d;
    size_t start = 1, size = 0, written = 0;

    holds(lv_payload_frame(LV_HEADER_FREE, 0, 0, payload, LV_BODY_MAX, 0, &type, &start, &size, &place) == LV_OK &&
              type == LV_RATE_1 && start == 0 && size == LV_BODY_MAX,
          "the longest body is LV_BODY_MAX octets");
    holds(lv_payload_read(LV_HEADER_FREE, 0, 0, payload, LV_BODY_MAX + 1, &l, &n, &b, &d, &place) ==
              LV_HEADER_FREE_LENGTH,
          "no body is longer than LV_BODY_MAX");
    holds(lv_recording_write(payload, 0, recording, sizeof recording, &written, &place) == LV_OK &&
              written == LV_OPENING_OCTETS,
          "a recording of nothing is LV_OPENING_OCTETS");
}

/* The frame types: each has a body of its size; a blank may be sent, and an erasure not. */
static void try_types(void)
{
    static const uint8_t types[] = {LV_BLANK, LV_RATE_8TH, LV_RATE_HALF, LV_RATE_1, LV_ERASURE};
    static const uint8_t sizes[] = {0, 2, 10, LV_BODY_MAX, 0};
    uint8_t entry[1 + LV_BODY_MAX] = {0}, type = 255;
    size_t start, size = 255, written = 0, k;

    for (k = 0; k < sizeof types; k++) {
        entry[0] = types[k];
        holds(lv_recording_write(entry, 1u + sizes[k], recording, sizeof recording, &written, &place) == LV_OK &&
                  lv_recording_frame(recording, written, 0, &type, &start, &size, &place) == LV_OK &&
                  type == types[k] && size == sizes[k],
              "each type has its size");
        holds(lv_packet_write(LV_INTERLEAVED, 0, 1, 0, 0, 1, 0, entry, 1u + sizes[k], poured, sizeof poured,
                              &written, &place) == (k + 1 == sizeof types ? LV_NOT_SENDABLE : LV_OK),
              "all but the last, an erasure, may be sent");
    }
}

/* LV_OPENING_OCTETS is the place of a recording's first entry; among entries lent it is 0. An accepted call, and a
 * refusal that has no place, leave it as it was. */
static void try_place(void)
{
    const size_t none = (size_t)-1;
    uint8_t entry[] = {LV_BLANK};
    size_t written = 0, count = 0;

    place = none;
    holds(lv_recording_write(entry, 1, recording, sizeof recording, &written, &place) == LV_OK && place == none,
          "an accepted call sets no place");
    holds(lv_recording_read(recording, LV_OPENING_OCTETS - 1, &count, &place) == LV_WRONG_OPENING && place == none,
          "a wrong opening has no place");
    entry[0] = recording[LV_OPENING_OCTETS] = LV_RATE_1;
    holds(lv_recording_read(recording, written, &count, &place) == LV_BODY_CUT && place == LV_OPENING_OCTETS,
          "the first entry is at LV_OPENING_OCTETS");
    holds(lv_recording_write(entry, 1, recording, sizeof recording, &written, &place) == LV_BODY_CUT && place == 0,
          "the first entry lent is at 0");
}

/* Writes a number of a capture, big-endian, in two octets. */
static void put_two(size_t at, size_t number)
{
    capture[at] = (uint8_t)(number / 256);
    capture[at + 1] = (uint8_t)(number % 256);
}

/* The same in four. */
static void put_four(size_t at, size_t number)
{
    put_two(at, number / 65536);
    put_two(at + 2, number % 65536);
}

/* LV_CAPTURE_MAX and LV_CAPTURE_PACKETS_MAX: one packet that fills a capture, and as many packets as there can be. */
static void try_capture(void)
{
    size_t count, written = 0;

    memset(capture, 0, sizeof capture);
    put_two(0, 1);
    put_two(HEAD, LV_CAPTURE_MAX - HEAD - 2);
    holds(lv_capture_record(capture, LV_CAPTURE_MAX, recording, sizeof recording, &written) == LV_OK &&
              lv_capture_answer(capture, LV_CAPTURE_MAX, 0, &written, &place) == LV_OCTETS_LEFT && place == 2,
          "a capture may have LV_CAPTURE_MAX octets");
    put_two(HEAD, LV_CAPTURE_MAX + 1 - HEAD - 2);
    holds(lv_capture_record(capture, LV_CAPTURE_MAX + 1, recording, sizeof recording, &written) == LV_BAD_CAPTURE &&
              lv_capture_answer(capture, LV_CAPTURE_MAX + 1, 0, &written, &place) == LV_BAD_CAPTURE,
          "a capture has at most LV_CAPTURE_MAX octets");
    memset(capture, 0, sizeof capture);
    for (count = LV_CAPTURE_PACKETS_MAX; count <= LV_CAPTURE_PACKETS_MAX + 1; count++) {
        put_two(0, count);
        holds(lv_capture_record(capture, 2 + HEAD * count, recording, sizeof recording, &written) ==
                  (count > LV_CAPTURE_PACKETS_MAX ? LV_BAD_CAPTURE : LV_OK),
              "a capture has at most LV_CAPTURE_PACKETS_MAX packets");
    }
}

/* LV_RECORDING_MAX, and LV_LOST_MAX again: every packet begins a group of the greatest L and B, LV_LOST_MAX frames
 * behind the end of the one before it. */
static void try_recording(void)
{
    size_t table = 2 + HEAD * LV_CAPTURE_PACKETS_MAX, len = table + PAYLOAD * LV_CAPTURE_PACKETS_MAX;
    size_t written = 0, lost = 0, i;

    memset(capture, 0, sizeof capture);
    put_two(0, LV_CAPTURE_PACKETS_MAX);
    longest_payload(0);
    for (i = 0; i < LV_CAPTURE_PACKETS_MAX; i++) {
        put_two(2 + HEAD * i + 4, (MAX_L + 1) * i);
        put_four(2 + HEAD * i + 6, (GROUP + FRAME * (size_t)LV_LOST_MAX) * i);
        put_two(2 + HEAD * i + 10, PAYLOAD);
        memcpy(capture + table + PAYLOAD * i, payload, PAYLOAD);
    }
    holds(lv_capture_record(capture, len, recording, LV_RECORDING_MAX - 1, &written) == LV_NO_ROOM &&
              lv_capture_record(capture, len, recording, LV_RECORDING_MAX, &written) == LV_OK &&
              written == LV_RECORDING_MAX,
          "the longest recording of a capture is LV_RECORDING_MAX octets");
    holds(lv_capture_answer(capture, len, LV_CAPTURE_PACKETS_MAX - 1, &lost, &place) == LV_OK && lost == LV_LOST_MAX,
          "at most LV_LOST_MAX frames are lost before a packet of a capture");
    holds(lv_capture_answer(capture, len, LV_CAPTURE_PACKETS_MAX, &lost, &place) == LV_NOT_APPLICABLE,
          "there is no packet LV_CAPTURE_PACKETS_MAX");
}

/* How often a number is an answer: 0 or 1. */
static int times_answer(int number)
{
    static const uint8_t answers[] = {ANSWERS};
    int times = 0;
    size_t i;

    for (i = 0; i < sizeof answers; i++)
        times += answers[i] == number;
    return times;
}

/* lv_answer_text: a phrase for each answer, no two the same, and the one for no answer for every other number. */
static void try_texts(void)
{
    int i;

    for (i = 0; i < 256 * 256; i++) {
        int number = i / 256, other = i % 256, times = times_answer(number);
        const char *text = lv_answer_text((uint8_t)number);
        holds(times <= 1, "no two answers are the same");
        holds((strcmp(text, "no such answer") == 0) == (times == 0), "each answer has a phrase, and no other number");
        holds(times == 0 || number == other || strcmp(text, lv_answer_text((uint8_t)other)) != 0,
              "no two phrases are the same");
    }
}

/* LV_VERSION and LV_VERSION_NUMBER are the same version. */
static void try_version(void)
{
    char version[32];

    sprintf(version, "%d.%d.%d", LV_VERSION_NUMBER / 10000, LV_VERSION_NUMBER / 100 % 100, LV_VERSION_NUMBER % 100);
    holds(strcmp(version, LV_VERSION) == 0, "LV_VERSION_NUMBER is LV_VERSION");
}

/* One after the other: the session goes on from each to the next. */
int main(void)
{
    try_session();
    try_group();
    try_read();
    try_drop();
    try_lost();
    try_lost_between();
    try_octets();
    try_types();
    try_place();
    try_capture();
    try_recording();
    try_texts();
    try_version();
    return failed;
}
