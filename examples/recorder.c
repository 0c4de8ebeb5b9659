/* Records what two boxes heard, one recording for each talk: an example of the calls on sessions and holdings, to
 * be copied into a recorder, with hex.c and hex.h.
 *
 * Standard input has a line for each packet heard, in the order heard, comments from # on:
 *
 *     BOX SOURCE SEQUENCE TIMESTAMP PAYLOAD    BOX is ice or office; source and payload in hexadecimal, - for no octets
 *     end NAME                                 the talk is over
 *
 * Standard output gets the talk's recording; with -x, a line of hexadecimal for each talk. With `ice` or `office`
 * for an argument, that box is recorded alone. Standard error gets a line for each packet or group that is refused,
 * and for a payload at fault the octet where the fault is, counted from 0.
 *
 * Silence, in which a set sends nothing, and lost packets are recorded alike: as many erasures as the set's clock has
 * gone on by frames. Where the clock cannot tell, as it has gone on by more than a minute (16) or by no whole number of
 * frames (24), the talk goes on, but the time between is not recorded: that is told, too.
 *
 * A talk is recorded group by group. Each box offers its packets to its own session, up to the first one of a later
 * group; then what the two hold is copied out, joined and poured, and dropped from their sessions. So it does not
 * matter how far one box is behind the other. A recorder that listens has a queue where this program has a list, and
 * otherwise does the same. */
#include "hex.h"
#include "landing_voice.h"

#include <stdio.h>
#include <stdlib.h>
#include <string.h>

enum {
    PACKETS = 1024, /* the most packets of a talk that a box may hear */
    PAYLOAD = 1500, /* the longest payload that comes over the network */
    /* The most octets that a packet adds: frames lost before it, a group's entries, its own bodies. */
    ADDED = LV_LOST_MAX + 80 + 10 * LV_BODY_MAX,
    ENTRIES = 2 * PACKETS * ADDED,
    LINE = HEX_DIGITS + 128
};

struct packet {
    uint32_t source;
    uint16_t sequence;
    uint32_t timestamp;
    size_t len;
    uint8_t payload[PAYLOAD];
};

/* Each buffer is one of its own: what a call writes to must overlap nothing else that it is given. */
struct box {
    struct packet packets[PACKETS];
    size_t count;
    size_t next; /* the packet to be offered next */
    int holds;   /* whether it holds a group */
    uint8_t session[LV_SESSION_OCTETS];
    uint8_t held[LV_HOLDING_OCTETS]; /* the group held, copied out */
};

enum { ICE, OFFICE, BOXES };

struct talk {
    struct box boxes[BOXES];
    const struct packet *heard_first; /* the first packet of the talk: its source is the skipper's */
    uint8_t joined[LV_HOLDING_OCTETS];
    uint8_t last[LV_HOLDING_OCTETS]; /* the last group recorded; before the first all zero, which holds no packet */
    uint8_t group[LV_POURED_MAX];
    uint8_t entries[ENTRIES];
    size_t len;
};

/* What a holding is, as the library tells it. */
struct group {
    uint32_t source, timestamp;
    uint16_t sequence;
    uint8_t l, b, held;
};

/* What a place is before a call: only a refusal that has one changes it. */
#define NOWHERE ((size_t)-1)

static struct talk talk;
static uint8_t recording[LV_OPENING_OCTETS + ENTRIES];
static int hex;          /* whether recordings are written in hexadecimal */
static const char *only; /* the one box that is recorded; NULL for both */

static const char *const box_names[BOXES] = {"ice", "office"};
static const char usage[] = "usage: recorder [-x] [ice|office] <PACKETS";

/* Ends the program, and says why. */
static void give_up(const char *why)
{
    fprintf(stderr, "recorder: %s\n", why);
    exit(1);
}

/* Ends a line: a refusal by its number and in words, and the octet at fault if it has a place. */
static void tell_refusal(uint8_t answer, size_t place)
{
    fprintf(stderr, "refused %u, %s", (unsigned)answer, lv_answer_text(answer));
    if (place != NOWHERE)
        fprintf(stderr, ", at octet %lu", (unsigned long)place);
    fprintf(stderr, "\n");
}

/* Ends the program where a call is refused that is not to be. */
static void must_at(const char *what, uint8_t answer, size_t place)
{
    if (answer == LV_OK)
        return;
    fprintf(stderr, "recorder: %s: ", what);
    tell_refusal(answer, place);
    exit(1);
}

/* The same for a call whose refusals have no place. */
static void must(const char *what, uint8_t answer)
{
    must_at(what, answer, NOWHERE);
}

/* Tells that a box's packet, or the group that begins at this sequence number, is refused; of a payload at fault, also
 * where. */
static void tell(const struct box *box, uint32_t source, uint16_t sequence, uint8_t answer, size_t place)
{
    fprintf(stderr, "%s: source %08lX sequence %u: ", box_names[box - talk.boxes], (unsigned long)source,
            (unsigned)sequence);
    tell_refusal(answer, place);
}

/* What a group is, by its holding. */
static struct group group_of(const uint8_t *holding)
{
    struct group group;

    must("reading a group", lv_holding_read(holding, LV_HOLDING_OCTETS, &group.source, &group.sequence,
                                            &group.timestamp, &group.l, &group.b, &group.held));
    return group;
}

/* Tells that a group is recorded, but not the time before it, and why. */
static void tell_unknown_time(const uint8_t *holding, uint8_t answer)
{
    struct group group = group_of(holding);

    fprintf(stderr, "source %08lX sequence %u: recorded without the time before it: ", (unsigned long)group.source,
            (unsigned)group.sequence);
    tell_refusal(answer, NOWHERE);
}

/* Opens a box's session for the skipper, or ends it and opens it again: it remembers no group, and no clock. */
static void begin(struct box *box)
{
    must("opening a session", lv_session_open(talk.heard_first->source, LV_INTERLEAVED, LV_DEFAULT_MAX_L,
                                              LV_DEFAULT_MAX_B, box->session, sizeof box->session));
}

/* Copies out the group that a box holds, if it holds one. */
static void copy_out(struct box *box)
{
    uint8_t answer = lv_session_copy(box->session, sizeof box->session, box->held, sizeof box->held);

    box->holds = answer == LV_OK;
    if (answer != LV_NOT_APPLICABLE)
        must("copying a group", answer);
}

/* Whether the clock cannot tell what is lost since the last group: over a minute, or no whole number of frames. */
static int is_unknown_time(uint8_t answer)
{
    return answer == LV_TOO_FAR_AHEAD || answer == LV_OFF_THE_CLOCK;
}

/* Offers a box's packets in turn, up to one that has to wait until more is recorded: one of a later group, or one
 * that is too far ahead of the last group recorded, or off its clock. Other refusals skip the packet; the next
 * skipper's never get in. */
static void hear(struct box *box)
{
    for (; box->next < box->count; box->next++) {
        const struct packet *packet = &box->packets[box->next];
        size_t lost; /* not looked at: record_group says why */
        size_t place = NOWHERE;
        uint8_t answer = lv_session_offer(box->session, sizeof box->session, packet->source, packet->sequence,
                                          packet->timestamp, packet->payload, packet->len, &lost, &place);

        if (answer == LV_LATER_GROUP || is_unknown_time(answer))
            break;
        if (answer != LV_OK)
            tell(box, packet->source, packet->sequence, answer, place);
    }
    copy_out(box);
}

/* Where nothing is held, nothing more will be recorded before the packets that wait, and their sessions would refuse
 * all behind them, too: they begin anew. record_group tells of it. Says whether there was one. */
static int begin_anew(void)
{
    int begun = 0;
    struct box *box;

    for (box = talk.boxes; box < talk.boxes + BOXES; box++)
        if (box->next < box->count) {
            begin(box);
            begun = 1;
        }
    return begun;
}

/* Room for more entries, at the end of those that are there. */
static uint8_t *more_entries(size_t count)
{
    uint8_t *end = talk.entries + talk.len;

    if (count > ENTRIES - talk.len)
        give_up("the talk is too long");
    talk.len += count;
    return end;
}

/* Adds a group to the recording, behind the frames that were lost since the last group recorded, by the clock; none for
 * the talk's first (21), nor where the time before it is unknown. Refuses one that is not later than the last. A box's
 * own count of lost frames would also count the groups that only the other box heard. */
static uint8_t record_group(const uint8_t *holding)
{
    size_t lost = 0, written;
    uint8_t answer = lv_holding_lost(talk.last, sizeof talk.last, holding, LV_HOLDING_OCTETS, &lost);

    if (is_unknown_time(answer))
        tell_unknown_time(holding, answer);
    else if (answer != LV_OK && answer != LV_NOT_APPLICABLE)
        return answer;
    must("pouring a group", lv_holding_pour(holding, LV_HOLDING_OCTETS, talk.group, LV_POURED_MAX, &written));
    memset(more_entries(lost), LV_ERASURE, lost);
    memcpy(more_entries(written), talk.group, written);
    memcpy(talk.last, holding, LV_HOLDING_OCTETS);
    return LV_OK;
}

/* Ends a box's group. One that is recorded is dropped: the session remembers it, and if the other box holds none, so
 * does that one's, as if it had heard it too. Sessions may be copied whole. One that is refused is told, and is not to
 * be remembered: its box begins anew. */
static void end_group(struct box *box, struct box *other, uint8_t answer)
{
    box->holds = 0;
    if (answer != LV_OK) {
        struct group group = group_of(box->held);
        tell(box, group.source, group.sequence, answer, NOWHERE);
        begin(box);
        return;
    }
    must("dropping a group", lv_session_drop(box->session, sizeof box->session));
    if (!other->holds)
        memcpy(other->session, box->session, sizeof other->session);
}

/* Whether a box's group is later than another one's: 13 says that it is not, by its sequence number. */
static int is_later(const struct box *box, const struct box *other)
{
    size_t lost;

    return lv_holding_lost(other->held, sizeof other->held, box->held, sizeof box->held, &lost) != LV_EARLIER_GROUP;
}

/* Joins what both boxes hold. Gives the box that is recorded by itself first, where one is at a later group than the
 * other; NULL where they are joined, or differ: then the ice house's word is taken. */
static struct box *join(struct box *ice, struct box *office)
{
    uint8_t answer = lv_holding_join(ice->held, sizeof ice->held, office->held, sizeof office->held, talk.joined,
                                     sizeof talk.joined);

    if (answer == LV_NOT_SAME_GROUP && is_later(office, ice))
        return ice;
    if (answer == LV_NOT_SAME_GROUP && is_later(ice, office))
        return office;
    if (answer != LV_OK) {
        /* Somebody has to look at it: a packet has other frames (14), or the groups contradict each other. */
        fprintf(stderr, "ice and office differ at sequence %u\n", (unsigned)group_of(office->held).sequence);
        memcpy(talk.joined, ice->held, sizeof talk.joined);
    }
    return NULL;
}

/* Records the earliest group held: joined, if both boxes hold it. At least one box holds a group. The ice house's is
 * ended last: where the two differ, both go on from its group. */
static void close_group(struct box *ice, struct box *office)
{
    struct box *alone = ice->holds && office->holds ? join(ice, office) : ice->holds ? ice : office;
    uint8_t answer = record_group(alone == NULL ? talk.joined : alone->held);

    if (alone != ice)
        end_group(office, ice, answer);
    if (alone != office)
        end_group(ice, office, answer);
}

/* Records a talk: all groups of the first packet's source. */
static void record_talk(struct box *ice, struct box *office)
{
    if (talk.heard_first == NULL)
        return;
    begin(ice);
    begin(office);
    for (;;) {
        hear(ice);
        hear(office);
        if (ice->holds || office->holds)
            close_group(ice, office);
        else if (!begin_anew())
            return;
    }
}

/* Writes a talk's recording. */
static void write_talk(const char *name)
{
    size_t written, place = NOWHERE;
    uint8_t answer = lv_recording_write(talk.entries, talk.len, recording, sizeof recording, &written, &place);

    must_at("writing the recording", answer, place);
    if (hex)
        hex_line(name, recording, written);
    else if (fwrite(recording, 1, written, stdout) != written)
        give_up("standard output cannot be written");
}

/* Wipe hands, then log out: the sessions are ended, and no word of the talk stays behind. */
static void end_talk(void)
{
    must("ending a session", lv_session_end(talk.boxes[ICE].session, LV_SESSION_OCTETS));
    must("ending a session", lv_session_end(talk.boxes[OFFICE].session, LV_SESSION_OCTETS));
    memset(&talk, 0, sizeof talk);
    memset(recording, 0, sizeof recording);
}

/* The box of a name; NULL if there is none. */
static struct box *box_of(const char *name)
{
    int i;

    for (i = 0; i < BOXES; i++)
        if (strcmp(name, box_names[i]) == 0)
            return &talk.boxes[i];
    return NULL;
}

/* Reads a packet's line into its box's list, unless only the other box is recorded; 0 where it is no such line. */
static int read_packet(const char *line)
{
    static char word[HEX_DIGITS + 1];
    static uint8_t octets[HEX_OCTETS];
    char name[16], more[2];
    unsigned long source, sequence, timestamp;
    struct box *box;
    struct packet *packet;
    long len;

    if (sscanf(line, "%15s %lx %lu %lu %8192s %1s", name, &source, &sequence, &timestamp, word, more) != 5 ||
        source > 0xFFFFFFFFul || sequence > 0xFFFFul || timestamp > 0xFFFFFFFFul)
        return 0;
    box = box_of(name);
    len = hex_octets(word, octets);
    if (box == NULL || len < 0 || len > PAYLOAD)
        return 0;
    if (only != NULL && strcmp(name, only) != 0)
        return 1;
    if (box->count == PACKETS)
        give_up("the talk is too long");
    packet = &box->packets[box->count++];
    packet->source = (uint32_t)source;
    packet->sequence = (uint16_t)sequence;
    packet->timestamp = (uint32_t)timestamp;
    packet->len = (size_t)len;
    memcpy(packet->payload, octets, (size_t)len);
    if (talk.heard_first == NULL)
        talk.heard_first = packet;
    return 1;
}

/* Takes a line: a packet, or the end of a talk, which is then recorded. */
static void take_line(char *line)
{
    static int talks;
    char name[64];

    if (strchr(line, '\n') == NULL && !feof(stdin))
        give_up("a line is too long");
    line[strcspn(line, "#\n")] = '\0';
    if (line[strspn(line, " \t\r")] == '\0')
        return;
    if (sscanf(line, "end %63s", name) == 1) {
        if (!hex && talks++ > 0)
            give_up("a second talk: only -x takes several");
        record_talk(&talk.boxes[ICE], &talk.boxes[OFFICE]);
        write_talk(name);
        end_talk();
    } else if (!read_packet(line)) {
        fprintf(stderr, "recorder: no such line: %.60s\n", line);
        exit(1);
    }
}

/* Reads the arguments. */
static void read_options(int argc, char **argv)
{
    int i;

    for (i = 1; i < argc; i++) {
        if (strcmp(argv[i], "-x") == 0)
            hex = 1;
        else if (box_of(argv[i]) != NULL)
            only = argv[i];
        else if (strcmp(argv[i], "-h") == 0 || strcmp(argv[i], "--help") == 0)
            exit(puts(usage) < 0);
        else
            give_up(usage);
    }
}

/* Takes one line after the other. */
int main(int argc, char **argv)
{
    static char line[LINE];

    read_options(argc, argv);
    while (fgets(line, sizeof line, stdin) != NULL)
        take_line(line);
    if (ferror(stdin))
        give_up("standard input cannot be read");
    if (talk.heard_first != NULL)
        give_up("the last talk has no end");
    if (fflush(stdout) != 0)
        give_up("standard output cannot be written");
    return 0;
}
