/* What the rows of calls.c are given, all of it made by a fixed rule; src/input.rs makes the same. */
#ifndef BENCH_INPUT_H
#define BENCH_INPUT_H

#include "landing_voice.h"

#include <string.h>

enum {
    SOURCE = 7,
    L = 5,
    B = 10,
    PACKETS = L + 1,
    FRAMES = PACKETS * B,
    FRAME_COUNTS = 160, /* of the clock, a frame */
    PAYLOAD_MAX = 1 + B + B * LV_BODY_MAX,
    POURED = FRAMES * (1 + LV_BODY_MAX) /* octets of the group poured, all of rate 1 */
};

/* The input that a row's calls read, and that is spoilt to check it; how many octets of it are lent. */
static uint8_t input[LV_CAPTURE_MAX];
static size_t len;

/* A group's payloads, one behind the other: payload n from start[n] to start[n + 1]. */
static uint8_t payloads[PACKETS * PAYLOAD_MAX];
static size_t start[PACKETS + 1];

/* All rates, mixed within a packet; or rate 1 alone. */
static const uint8_t all_rates[8] = {4, 3, 1, 4, 0, 3, 4, 1};
static const uint8_t rate_1[8] = {4, 4, 4, 4, 4, 4, 4, 4};

static uint8_t kind_of(const uint8_t *rates, int n, int k)
{
    return rates[(3 * n + k) % 8];
}

/* Writes the body of frame k of packet n: it may be sent. The octets written. */
static size_t put_body(const uint8_t *rates, int n, int k, uint8_t *to)
{
    static const size_t octets[5] = {0, 2, 0, 10, 22};
    size_t size = octets[kind_of(rates, n, k)];
    for (size_t i = 0; i < size; i++)
        to[i] = (uint8_t)(31 * n + 7 * k + (int)i);
    if (size == LV_BODY_MAX)
        to[size - 1] &= 0xE0;
    return size;
}

static void make_payloads(const uint8_t *rates)
{
    size_t at = 0;
    for (int n = 0; n < PACKETS; n++) {
        start[n] = at;
        payloads[at++] = (uint8_t)(L * 8 + n);
        for (int k = 0; k < B; k++)
            payloads[at++] = (uint8_t)((k + 1 < B ? 0x80 : 0) + kind_of(rates, n, k));
        for (int k = 0; k < B; k++)
            at += put_body(rates, n, k, payloads + at);
    }
    start[PACKETS] = at;
}

/* The group's frames in time order, as entries. */
static size_t make_entries(uint8_t *to)
{
    size_t at = 0;
    for (int k = 0; k < B; k++)
        for (int n = 0; n < PACKETS; n++) {
            to[at++] = kind_of(all_rates, n, k);
            at += put_body(all_rates, n, k, to + at);
        }
    return at;
}

static uint8_t *put_number(uint8_t *to, int octets, uint32_t number)
{
    for (int i = 0; i < octets; i++)
        to[i] = (uint8_t)(number >> 8 * (octets - 1 - i));
    return to + octets;
}

/* A capture of 256 packets, group after group; behind each fourth group the set is silent for 25 frames. */
static size_t make_capture(uint8_t *to)
{
    uint8_t *row = put_number(to, 2, LV_CAPTURE_PACKETS_MAX), *body = row + 12 * LV_CAPTURE_PACKETS_MAX;
    for (uint32_t i = 0; i < LV_CAPTURE_PACKETS_MAX; i++) {
        uint32_t group = i / PACKETS, n = i % PACKETS;
        size_t size = start[n + 1] - start[n];
        row = put_number(row, 4, SOURCE);
        row = put_number(row, 2, i);
        row = put_number(row, 4, FRAME_COUNTS * (group * FRAMES + group / 4 * 25 + n));
        row = put_number(row, 2, (uint32_t)size);
        memcpy(body, payloads + start[n], size);
        body += size;
    }
    return (size_t)(body - to);
}

#endif
