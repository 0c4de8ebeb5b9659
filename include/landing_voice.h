/* The landing voice library: EVRC speech in RTP payloads, for a recorder written in C or C++.
 *
 * Every call returns a uint8_t: LV_OK (0), or the number of a refusal (enum lv_answer). Look at each answer.
 * Each call is total: whatever the numbers and octets are, it answers or refuses. A refusal changes no octet
 * of a lent buffer and no out-parameter but `place`, and octets past an answer's end stay unchanged. Every
 * call's promise is proved for all inputs; docs/PROMISES.md has them. lv_answer_text below is not one of the
 * calls: it is plain C, and stands here whole.
 *
 * `place` is where the fault is: an octet's place, counted from 0. It is the one out-parameter that a refusal
 * may set, and only a refusal that has a place; each call that has it says which those are. Otherwise *place
 * is as it was before the call, also where the call accepts. 0 is a place, too: a host that wants to see
 * whether there is one sets *place before the call, say to SIZE_MAX.
 *
 * What C itself asks of a caller, as no call can see it:
 *   - no pointer is null, also where the length beside it is 0;
 *   - a stated length is there: a buffer has at least the octets that its length says;
 *   - no overlap: what a call may write to (a pointer with no const) shares no octet with anything else that
 *     the same call is given, out-parameters among them. What is only read may overlap.
 * Calls keep nothing between them and allocate nothing. Several threads may call at once, each on memory of
 * its own.
 *
 * Link with -llanding (target/staticlib/liblanding.a); nothing else is needed. docs/C.md shows the calls at
 * work.
 */
#ifndef LANDING_VOICE_H
#define LANDING_VOICE_H

#include <stddef.h>
#include <stdint.h>

/* The version in words; and as a number to be compared, 10000 x major + 100 x minor + patch. */
#define LV_VERSION "4.0.2"
#define LV_VERSION_NUMBER 40002

#ifdef __cplusplus
extern "C" {
#endif

/* The answers by number. */
enum lv_answer {
    LV_OK = 0,
    LV_NO_OCTET = 1,            /* an interleaved payload has no octet */
    LV_INDEX_PAST_LENGTH = 2,   /* N above L */
    LV_LENGTH_PAST_MAXIMUM = 3, /* L above the agreed maximum */
    LV_TABLE_CUT = 4,           /* the table of contents runs past the payload */
    LV_RESERVED_TYPE = 5,       /* a reserved frame type */
    LV_TOO_MANY_FRAMES = 6,     /* an entry past the agreed maximum B; in writing, B 0 or above it */
    LV_BODIES_CUT = 7,          /* the bodies need more octets than are there */
    LV_OCTETS_LEFT = 8,         /* octets are left after the last body */
    LV_HEADER_FREE_LENGTH = 9,  /* a header-free payload's length is not 2, 10 or 22 */
    LV_ANOTHER_SOURCE = 10,     /* the packet, or the second holding, is another source's */
    LV_CONTRADICTS_GROUP = 11,  /* the packet contradicts the group held */
    LV_LATER_GROUP = 12,        /* the packet is a later group's: pour, then offer it again */
    LV_EARLIER_GROUP = 13,      /* the packet is an earlier group's, or the second holding is not later */
    LV_PACKET_DIFFERS = 14,     /* a packet that is held already has other frames */
    LV_NO_ROOM = 15,            /* the output is shorter than the answer needs */
    LV_TOO_FAR_AHEAD = 16,      /* more than 3,000 frames, a minute, since the last group */
    LV_NOT_SENDABLE = 17,       /* a frame, or a number of frames, that is not to be sent */
    LV_WRONG_OPENING = 18,      /* a recording's opening octets are missing or wrong */
    LV_BODY_CUT = 19,           /* a recording entry's body is cut */
    LV_NOT_SAME_GROUP = 20,     /* two holdings are not of the same group */
    LV_NOT_APPLICABLE = 21,     /* wrong form, maxima or D out of range, no such frame, none open or held */
    LV_OFF_THE_CLOCK = 24,      /* the time since the last group is no whole number of frames */
    LV_BAD_CAPTURE = 255        /* not a capture, or one with octets left over */
};

/* The agreed form of a session: the calls' `form`. Any other number answers LV_NOT_APPLICABLE. */
enum lv_form {
    LV_HEADER_FREE = 0, /* one body and nothing else; the two maxima are ignored */
    LV_INTERLEAVED = 1  /* type 1 payloads, L at most max_l (0 to 7), B at most max_b (1 to 10) */
};

/* The maxima that are agreed where none are named. */
enum lv_default {
    LV_DEFAULT_MAX_L = 5,
    LV_DEFAULT_MAX_B = 10
};

/* The range of the maxima, which L and B of a group are in too. The least L is 0. */
enum lv_range {
    LV_GREATEST_L = 7,
    LV_LEAST_B = 1,
    LV_GREATEST_B = 10
};

/* The EVRC frame types. */
enum lv_type {
    LV_BLANK = 0,     /* no octets */
    LV_RATE_8TH = 1,  /* 2 octets */
    LV_RATE_HALF = 3, /* 10 octets */
    LV_RATE_1 = 4,    /* 22 octets; when sent, the low 5 bits of the last one are zero */
    LV_ERASURE = 14   /* no octets */
};

/* How much there is, and how much there can be. Each greatest number is reached. */
enum lv_size {
    LV_BODY_MAX = 22,             /* octets of the longest body */
    LV_OPENING_OCTETS = 7,        /* a recording opens with 23 21 45 56 52 43 0A: "#!EVRC" and a newline */
    LV_SESSION_OCTETS = 2304,     /* octets of a session */
    LV_HOLDING_OCTETS = 2304,     /* octets of a holding */
    LV_POURED_MAX = 1840,         /* octets of a poured group */
    LV_LOST_MAX = 3000,           /* frames lost before a group: a minute */
    LV_CAPTURE_MAX = 65536,       /* octets of a capture */
    LV_CAPTURE_PACKETS_MAX = 256, /* packets of a capture */
    LV_RECORDING_MAX = 841807     /* octets of a capture's recording */
};

/* An answer in a few words, for a line that a person reads; "no such answer" for a number that is none. */
static inline const char *lv_answer_text(uint8_t answer)
{
    switch (answer) {
    case LV_OK: return "accepted";
    case LV_NO_OCTET: return "no octet";
    case LV_INDEX_PAST_LENGTH: return "index past length";
    case LV_LENGTH_PAST_MAXIMUM: return "length past maximum";
    case LV_TABLE_CUT: return "table cut";
    case LV_RESERVED_TYPE: return "reserved type";
    case LV_TOO_MANY_FRAMES: return "too many frames";
    case LV_BODIES_CUT: return "bodies cut";
    case LV_OCTETS_LEFT: return "octets left";
    case LV_HEADER_FREE_LENGTH: return "header-free length";
    case LV_ANOTHER_SOURCE: return "another source";
    case LV_CONTRADICTS_GROUP: return "contradicts the group";
    case LV_LATER_GROUP: return "later group";
    case LV_EARLIER_GROUP: return "earlier group";
    case LV_PACKET_DIFFERS: return "packet differs";
    case LV_NO_ROOM: return "no room";
    case LV_TOO_FAR_AHEAD: return "too far ahead";
    case LV_NOT_SENDABLE: return "not sendable";
    case LV_WRONG_OPENING: return "wrong opening";
    case LV_BODY_CUT: return "body cut";
    case LV_NOT_SAME_GROUP: return "not the same group";
    case LV_NOT_APPLICABLE: return "not applicable";
    case LV_OFF_THE_CLOCK: return "off the clock";
    case LV_BAD_CAPTURE: return "bad capture";
    default: return "no such answer";
    }
}

/* Reads a payload in the agreed form. On LV_OK: *l and *n are the interleave length and index, *b the
 * number of frames, and *d the last entry's D bit. A header-free payload is read as l 0, n 0, b 1, d 0.
 * Refuses, in this order: 21; 1, 2, 3; for each entry 4, 6, 5; then 7, 8. Header-free: 9.
 * 4 to 8 have a place in the payload: 4 its length; 5 and 6 the entry's place, the first entry's being 1; 7
 * the place of the first body that does not fit whole, which is the length where nothing of it is there; 8
 * the first octet left over. */
uint8_t lv_payload_read(uint8_t form, uint8_t max_l, uint8_t max_b, const uint8_t *payload, size_t len,
                        uint8_t *l, uint8_t *n, uint8_t *b, uint8_t *d, size_t *place);

/* Finds frame k of a payload, k from 0. On LV_OK: *type is its type, and its body is the *size octets, at
 * most LV_BODY_MAX, at payload + *start; an empty body has size 0 and starts where it would lie. Spare
 * bits of a body are as they came.
 * Refuses as lv_payload_read does, with the same place; a payload that can be read, with no frame k, answers
 * 21, which has none. */
uint8_t lv_payload_frame(uint8_t form, uint8_t max_l, uint8_t max_b, const uint8_t *payload, size_t len,
                         size_t k, uint8_t *type, size_t *start, size_t *size, size_t *place);

/* Writes packet n of an interleave group. The entries are the group's (l + 1) x b frames in time order, as
 * recording entries, whose F and D bits are ignored; the packet holds frames k x (l + 1) + n, k from 0 to
 * b - 1, with d in every table entry. On LV_OK: *written is the number of octets written to out.
 * Refuses, in this order: 21 (form not LV_INTERLEAVED, maxima out of range, d above 1), 2, 3, 6; for each
 * entry of the whole input 5, 19, 17; then 17 if there are not (l + 1) x b entries; then 15.
 * 5 and 19 have a place: that of the entry's octet in entries, the first at 0. 17 has none, and neither has
 * 6, which judges the number b here. */
uint8_t lv_packet_write(uint8_t form, uint8_t max_l, uint8_t max_b, uint8_t l, uint8_t n, uint8_t b,
                        uint8_t d, const uint8_t *entries, size_t entries_len, uint8_t *out, size_t out_len,
                        size_t *written, size_t *place);

/* Writes a header-free packet: the body of the one entry, and nothing else. On LV_OK: *written is the
 * number of octets written to out.
 * Refuses, in this order: 21 (form not LV_HEADER_FREE); for each entry 5, 19, 17, a blank too; then 17 if
 * there is not exactly one entry; then 15.
 * 5 and 19 have a place: that of the entry's octet in entries, the first at 0. */
uint8_t lv_packet_write_header_free(uint8_t form, uint8_t max_l, uint8_t max_b, const uint8_t *entries,
                                    size_t entries_len, uint8_t *out, size_t out_len, size_t *written,
                                    size_t *place);

/* Reads a recording: the opening octets, then entries of one octet and a body. On LV_OK: *count is the
 * number of its frames.
 * Refuses, in this order: 18; entry by entry 5, 19.
 * 5 and 19 have a place: that of the entry's octet in the recording, its opening counted, so that the first
 * entry's is LV_OPENING_OCTETS. */
uint8_t lv_recording_read(const uint8_t *recording, size_t len, size_t *count, size_t *place);

/* Finds frame k of a recording, k from 0. On LV_OK: *type is its type, and its body is the *size octets,
 * at most LV_BODY_MAX, at recording + *start.
 * Refuses as lv_recording_read does, with the same place; a recording that can be read, with no frame k,
 * answers 21, which has none. */
uint8_t lv_recording_frame(const uint8_t *recording, size_t len, size_t k, uint8_t *type, size_t *start,
                           size_t *size, size_t *place);

/* Writes a recording: the opening octets, then the entries with their F and D bits cleared. On LV_OK:
 * *written is the number of octets written to out, LV_OPENING_OCTETS + entries_len.
 * Refuses, in this order: entry by entry 5, 19; then 15.
 * 5 and 19 have a place: that of the entry's octet in entries, the first at 0. */
uint8_t lv_recording_write(const uint8_t *entries, size_t entries_len, uint8_t *out, size_t out_len,
                           size_t *written, size_t *place);

/* Records a capture: at most LV_CAPTURE_MAX octets, big-endian: a count (2, at most
 * LV_CAPTURE_PACKETS_MAX), then for each packet its source (4), sequence (2), timestamp (4) and length
 * (2), then all payloads in that order and nothing after. A session takes the first packet's source,
 * interleaved, maxima 7 and 10. On LV_OK: *written is the number of octets of the recording written to
 * out, at most LV_RECORDING_MAX.
 * Refuses, in this order: 255 (bad capture), 15. */
uint8_t lv_capture_record(const uint8_t *capture, size_t len, uint8_t *out, size_t out_len, size_t *written);

/* Tells what packet i of a capture, i from 0, was answered in the run that lv_capture_record makes: what
 * lv_session_offer answered it; and where that was 12, what it answered the second time, after the group was
 * poured. On LV_OK: the packet was held, or had been already, and *lost is the number of frames lost before
 * the group that it begins, as lv_session_offer counts them, at most LV_LOST_MAX; 0 if it begins none.
 * Refuses, in this order: 255 (bad capture), 21 (no packet i); then as the packet was refused, by 1, 2, 4 to
 * 8, 10, 11, 13, 14, 16 or 24: that packet was skipped.
 * 4 to 8 have a place in that packet's payload, as lv_payload_read has them. */
uint8_t lv_capture_answer(const uint8_t *capture, size_t len, size_t i, size_t *lost, size_t *place);

/* Sessions and holdings live in octets that the host lends: a session hears one source, a holding is one
 * group as far as heard. The octets are the library's own: the host lends them, copies them and compares
 * them whole, but does not look into them. A wholly zero session is one never opened; a wholly zero
 * holding holds no packet. Equal knowledge is equal octets. A call that accepts writes all
 * LV_SESSION_OCTETS or LV_HOLDING_OCTETS of what it changes, and leaves octets past them as they are; an
 * output with fewer answers 15, after every other refusal. Fewer octets than that, given to be read, are no
 * session and no holding: 21. So are octets that no call has written, wherever they break the library's
 * rules; octets that stand for nothing are zero. An accepted repeat changes no octet. */

/* Opens a session for a source in the agreed form, whatever the octets were: a fresh session that holds no
 * group and remembers none.
 * Refuses, in this order: 21 (no such form, maxima out of range), 15 (len below LV_SESSION_OCTETS). */
uint8_t lv_session_open(uint32_t source, uint8_t form, uint8_t max_l, uint8_t max_b, uint8_t *session,
                        size_t len);

/* Offers a packet to a session. On LV_OK: it is held, or was already, and *lost is the number of frames
 * lost before the group that it begins, at most LV_LOST_MAX; 0 if it begins none, or the session's first.
 * Lost frames are counted by the timestamp clock, modulo 2^32, 160 counts a frame: from the end of the last
 * group poured or dropped, (L + 1) x B frames after its base timestamp, to this one's base timestamp. So a
 * pause, in which a set sends nothing and uses no sequence numbers, counts as lost packets do.
 * Refuses, in this order: 21 (not open, or len below LV_SESSION_OCTETS), 10, the payload's refusals (1 to
 * 9); then with a group held 11, 12, 13, 14 by where it stands; with none held but one poured or dropped
 * before, 13 by the sequence number, 24 if the time between is no whole number of frames, 16 if it is over
 * LV_LOST_MAX frames. After 12 the host pours the group and offers the packet again. A set that has begun its
 * clock anew is refused by 24 or 16 from then on, until the session is ended, or opened again.
 * 4 to 8 have a place in the payload, as lv_payload_read has them. */
uint8_t lv_session_offer(uint8_t *session, size_t len, uint32_t source, uint16_t sequence, uint32_t timestamp,
                         const uint8_t *payload, size_t payload_len, size_t *lost, size_t *place);

/* Pours the group that a session holds, and ends it: its frames in time order as recording entries, those
 * not heard as erasures. The session remembers the group's numbers, and counts what is lost from its end. On
 * LV_OK: *written is the number of octets written to out, at most LV_POURED_MAX.
 * Refuses, in this order: 21 (not open, len below LV_SESSION_OCTETS, or no group held), 15 (out_len too
 * small). */
uint8_t lv_session_pour(uint8_t *session, size_t len, uint8_t *out, size_t out_len, size_t *written);

/* Copies the group that a session holds out as a holding. The session stays as it is: it still holds the
 * group.
 * Refuses, in this order: 21 (not open, len below LV_SESSION_OCTETS, or no group held), 15 (holding_len
 * below LV_HOLDING_OCTETS). */
uint8_t lv_session_copy(const uint8_t *session, size_t len, uint8_t *holding, size_t holding_len);

/* Drops the group that a session holds: ends it as lv_session_pour does, and writes nothing of it. It is for
 * a group that was copied out and recorded from there. The session is then as after pouring: it remembers
 * the group's numbers, and counts what is lost from its end.
 * Refuses: 21 (not open, len below LV_SESSION_OCTETS, or no group held). */
uint8_t lv_session_drop(uint8_t *session, size_t len);

/* Ends a session, whatever the octets were: all LV_SESSION_OCTETS become zero.
 * Refuses: 15 (len below LV_SESSION_OCTETS). */
uint8_t lv_session_end(uint8_t *session, size_t len);

/* Reads what a holding is. On LV_OK: *source is its source, *sequence and *timestamp are its base numbers
 * (those of its packet 0, held or not), *l and *b its L and B; bit n of *held is 1 if packet n is held, n
 * from 0 to *l, and the bits above are 0.
 * Refuses: 21 (it holds no packet, or len is below LV_HOLDING_OCTETS). */
uint8_t lv_holding_read(const uint8_t *holding, size_t len, uint32_t *source, uint16_t *sequence,
                        uint32_t *timestamp, uint8_t *l, uint8_t *b, uint8_t *held);

/* Joins two holdings of one group: out holds every packet held in either. The two stay as they are.
 * Refuses, in this order: 21 (either holds no packet, or has fewer octets than LV_HOLDING_OCTETS), 20, 14,
 * 15 (out_len below LV_HOLDING_OCTETS). */
uint8_t lv_holding_join(const uint8_t *a, size_t a_len, const uint8_t *b, size_t b_len, uint8_t *out,
                        size_t out_len);

/* Pours a holding, copied or joined, as lv_session_pour does. The holding stays as it is.
 * Refuses, in this order: 21 (it holds no packet, or len is below LV_HOLDING_OCTETS), 15 (out_len too
 * small). */
uint8_t lv_holding_pour(const uint8_t *holding, size_t len, uint8_t *out, size_t out_len, size_t *written);

/* Counts what is lost between the group of one holding and that of a later one, by the rule of a session that
 * has poured the first: by the timestamp clock, a pause among it. On LV_OK: *lost is the number of frames
 * lost between them, at most LV_LOST_MAX.
 * Refuses, in this order: 21 (either holds no packet, or has fewer octets than LV_HOLDING_OCTETS), 10 (their
 * sources differ), 13 (by sequence number, the second is not later than the first), 24 (the time between them
 * is no whole number of frames), 16 (it is over LV_LOST_MAX frames). */
uint8_t lv_holding_lost(const uint8_t *before, size_t before_len, const uint8_t *after, size_t after_len,
                        size_t *lost);

#ifdef __cplusplus
}
#endif

#endif
