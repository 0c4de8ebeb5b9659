/* The library's C calls at work, one row of bench/run: the same work as src/calls.rs, which is plain Rust.
 *
 * `calls ROW` does the row's turns and times them: a count of what was written and a sum over outputs go to standard
 * output, the nanoseconds of the turns alone to standard error. A turn is a group of L 5 and B 10, six packets; or a
 * capture of 256.
 *
 * `calls ROW check` times nothing: it does some turns, then changes the input bit by bit, and cuts the input and the
 * room. The count is then that of the refusals, and the sum is over every answer, every place and every octet. */
#define _POSIX_C_SOURCE 199309L
#include "input.h"

#include <stdio.h>
#include <time.h>

static uint8_t session[LV_SESSION_OCTETS], out[LV_RECORDING_MAX];
static size_t room, written, place, refused; /* room: octets of out that are lent; written: by this turn */
static uint64_t sum = 14695981039346656037u;
static uint32_t turns; /* done so far */

static void add(uint64_t word)
{
    sum = (sum ^ word) * 1099511628211u;
}

/* Takes an answer; a refusal with the place that was told last. */
static int accepted(uint8_t answer)
{
    if (answer == LV_OK)
        return 1;
    refused++;
    add(answer);
    add(place);
    return 0;
}

/* read: the six payloads, behind three numbers; D changes from turn to turn. */
static void make_read(void)
{
    make_payloads(all_rates);
    memcpy(input, (uint8_t[]){LV_INTERLEAVED, LV_DEFAULT_MAX_L, LV_DEFAULT_MAX_B}, 3);
    memcpy(input + 3, payloads, start[PACKETS]);
    len = 3 + start[PACKETS];
}

static void turn_read(uint32_t turn)
{
    (void)turn;
    for (int n = 0; n < PACKETS; n++) {
        size_t from = 3 + start[n], to = 3 + start[n + 1];
        uint8_t *told = out + 4 * n;
        input[from + B] ^= 0x40;
        to = to < len ? to : len;
        if (accepted(lv_payload_read(input[0], input[1], input[2], input + from, to < from ? 0 : to - from, told,
                                     told + 1, told + 2, told + 3, &place)))
            written += 4;
    }
}

/* write: the six packets of the group whose entries stand behind six numbers. */
static void make_write(void)
{
    memcpy(input, (uint8_t[]){LV_INTERLEAVED, LV_DEFAULT_MAX_L, LV_DEFAULT_MAX_B, L, B, 0}, 6);
    room = POURED;
    len = 6 + make_entries(input + 6);
}

static void turn_write(uint32_t turn)
{
    input[7] = (uint8_t)turn;
    for (uint8_t n = 0; n < PACKETS; n++) {
        size_t octets = 0;
        if (accepted(lv_packet_write(input[0], input[1], input[2], input[3], n, input[4], input[5], input + 6,
                                     len < 6 ? 0 : len - 6, out + written, room < written ? 0 : room - written, &octets,
                                     &place)))
            written += octets;
    }
}

/* Offers the six packets of a group to the session, of which so many octets are lent. */
static void offer(uint32_t group, uint32_t turn, size_t lent)
{
    for (uint32_t n = 0; n < PACKETS; n++) {
        size_t lost = 0;
        payloads[start[n] + 1 + B] = (uint8_t)turn;
        if (accepted(lv_session_offer(session, lent, SOURCE, (uint16_t)(group * PACKETS + n),
                                      FRAME_COUNTS * (group * FRAMES + n), payloads + start[n], start[n + 1] - start[n],
                                      &lost, &place)))
            written += lost;
    }
}

static void pour(void)
{
    size_t octets = 0;
    if (accepted(lv_session_pour(session, sizeof session, out, room, &octets)))
        written += octets;
}

static void open_session(const uint8_t *rates)
{
    make_payloads(rates);
    room = POURED;
    accepted(lv_session_open(SOURCE, LV_INTERLEAVED, 7, 10, session, sizeof session));
}

/* offer: a group, to a session that has poured the last but one before it; it is copied back before each turn. */
static void make_offer(void)
{
    open_session(all_rates);
    offer(0, 0, sizeof session);
    pour();
    memcpy(input, session, sizeof session);
    len = sizeof session;
}

static void turn_offer(uint32_t turn)
{
    memcpy(session, input, sizeof session);
    offer(2, turn, len);
}

/* held: the same to a session that holds the group; for `check` alone. */
static void make_held(void)
{
    make_offer();
    offer(2, 0, sizeof session);
    memcpy(input, session, sizeof session);
}

/* pour: group after group, rate 1 alone, offered and poured. */
static void make_pour(void)
{
    open_session(rate_1);
}

static void turn_pour(uint32_t turn)
{
    offer(turn, turn, sizeof session);
    pour();
}

/* capture: into room of just the recording's size; capture-roomy: into room for any recording. */
static void turn_capture(uint32_t turn)
{
    input[2 + 12 * LV_CAPTURE_PACKETS_MAX + 1 + B] = (uint8_t)turn;
    accepted(lv_capture_record(input, len, out, room, &written));
}

static void make_capture_roomy(void)
{
    make_payloads(all_rates);
    room = sizeof out;
    len = make_capture(input);
}

static void make_capture_exact(void)
{
    make_capture_roomy();
    turn_capture(0);
    room = written;
}

/* The rows. Of what a turn wrote, the eight octets at `shown` go into the sum while it is timed; its input is spoilt
 * about so many times to check it. */
static const struct row {
    const char *name;
    uint32_t turns, spoilt;
    void (*make)(void), (*turn)(uint32_t turn);
    const uint8_t *shown;
} rows[] = {
    {"read", 200000, 20000, make_read, turn_read, out},
    {"write", 20000, 20000, make_write, turn_write, out + 8},
    {"offer", 10000, 20000, make_offer, turn_offer, session + 144},
    {"held", 10000, 20000, make_held, turn_offer, session + 144},
    {"pour", 10000, 20000, make_pour, turn_pour, out},
    {"capture", 400, 200, make_capture_exact, turn_capture, out + 7},
    {"capture-roomy", 600, 200, make_capture_roomy, turn_capture, out + 7},
};

/* A turn whose whole output goes into the sum, with what stands behind it. */
static void check_turn(const struct row *row)
{
    written = 0;
    row->turn(turns++);
    add(written);
    for (size_t i = 0; i < sizeof out && i < written + 64; i++)
        add(out[i]);
    for (size_t i = 0; i < sizeof session; i++)
        add(session[i]);
}

/* Some turns as they are; then a bit changed, the input cut, the room cut, spread over all of it. */
static void check(const struct row *row)
{
    size_t bits = 8 * len, whole = len, lent = room;
    for (int turn = 0; turn < 20; turn++)
        check_turn(row);
    for (size_t bit = 0; bit < bits; bit += (bits / row->spoilt) | 1) {
        input[bit / 8] ^= (uint8_t)(1 << bit % 8);
        check_turn(row);
        input[bit / 8] ^= (uint8_t)(1 << bit % 8);
    }
    for (len = 0; len < whole; len += 1 + whole / row->spoilt)
        check_turn(row);
    len = whole;
    for (room = 0; room < lent; room += 1 + lent / row->spoilt)
        check_turn(row);
    room = lent;
}

/* The row's turns, and how long they took. */
static uint64_t timed(const struct row *row)
{
    struct timespec from, to;
    uint64_t count = 0, word;
    clock_gettime(CLOCK_MONOTONIC, &from);
    while (turns < row->turns) {
        written = 0;
        row->turn(turns++);
        memcpy(&word, row->shown, sizeof word);
        add(word);
        count += written;
    }
    clock_gettime(CLOCK_MONOTONIC, &to);
    fprintf(stderr, "%lld\n", (long long)(to.tv_sec - from.tv_sec) * 1000000000 + (to.tv_nsec - from.tv_nsec));
    return count;
}

int main(int argc, char **argv)
{
    const struct row *row = rows, *end = rows + sizeof rows / sizeof *rows;
    uint64_t count;
    while (row < end && (argc < 2 || strcmp(row->name, argv[1]) != 0))
        row++;
    if (row == end)
        return 2;
    row->make();
    if (refused > 0)
        return 1;
    if (argc > 2)
        check(row);
    count = argc > 2 ? refused : timed(row);
    check_turn(row);
    printf("%llu %llu\n", (unsigned long long)count, (unsigned long long)sum);
    return argc < 3 && refused > 0;
}
