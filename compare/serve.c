/* The library's side of the comparison: makes the calls it is asked for, and shows what became of the memory it lent.
 *
 * The library has code for one kind of machine and the comparison runs on any, so they are two programs. This one is
 * compiled for the library's machine and linked with liblanding.a; the other starts it and speaks to it over standard
 * input and output. It judges nothing. What it knows of single calls is in serve_calls.h, which compare/calls makes of
 * the header.
 *
 * Numbers are little-endian. A request is
 *     u32 the number of octets that follow,
 *     u8 the call, by its place in the table, u8 m, m scalars of u64,
 *     u8 q, q buffers: u32 image length, u32 offset, u32 length, and the image's octets.
 * The call is lent the image's octets from the offset on, as many as the length says. An out-parameter is a buffer too,
 * as long as its type. An image may have octets around the lent ones, so that it shows what became of those as well.
 * A response is
 *     u32 the number of octets that follow, u8 the call's answer, and every image, whole, in the order of the request.
 * A request of no octets asks for the table; the response is u32 the number of octets that follow, and the table's
 * text.
 *
 * By its first argument the call is lent
 *     nothing     a part of the image;
 *     exact       a copy in memory of just the lent octets' number, so that a memory checker sees a step beyond them;
 *     guarded     a copy against a page that may not be touched, by turns right before it and right behind it; what is
 *                 lent for reading is on pages that may not be written. A step outside ends the program by a signal.
 * With the second argument `short` the copy lacks the last octet, to show that this is noticed. After `guarded`, `before`
 * has the server itself step before a copy, and `written` write to what is lent for reading, to the same end.
 *
 * Responses may be kept back while whole requests are at hand; all are sent before the program waits for more. It ends
 * with status 0 at the end of input, and with status 1 and a line on standard error at a malformed request or other
 * words. */
#define _DEFAULT_SOURCE
#include "landing_voice.h"

#include <stdio.h>
#include <stdlib.h>
#include <string.h>
#include <sys/mman.h>
#include <unistd.h> /* read, which unlike fread gives what is there and does not wait for more */

enum { CHUNK = 1 << 16, LENGTH_OCTETS = 4, COUNT_MAX = 255 };

/* A size_t out-parameter has the length of a u64. */
typedef char size_t_has_8_octets[sizeof(size_t) == 8 ? 1 : -1];

/* A call in the table: its line; for each scalar the digit of its octets; for each buffer `s` (lent for reading), `l`
 * (for writing), or the digit of an out-parameter's octets. */
struct call {
    const char *line, *scalars, *buffers;
};

/* A buffer of a request, and what is lent of it. */
struct buffer {
    uint8_t *image;
    void *lent;
    size_t image_len, offset, len;
};

#include "serve_calls.h"

enum { CALLS = sizeof calls / sizeof calls[0] };

/* Octets read and not used yet: those from start to end. */
struct input {
    uint8_t *octets;
    size_t room, start, end;
};

/* What is left of a request while it is taken apart. */
struct cursor {
    const uint8_t *at;
    size_t left;
};

struct request {
    size_t call, scalars, buffers;
    uint64_t scalar[COUNT_MAX];
    struct buffer buffer[COUNT_MAX];
};

/* Pages between two that may not be touched. */
struct area {
    uint8_t *room;
    size_t size;
};

static enum { IN_IMAGE, EXACT, GUARDED } lending = IN_IMAGE;
static int lacks_last;                /* whether copies lack the last octet */
static int steps_before, steps_into;  /* whether the server steps before a copy, or writes to what is only read */
static int before_page;               /* whether copies end right before a page, or begin right behind one */
static struct area areas[COUNT_MAX]; /* by the buffer's place, used again by each call */

/* Ends the program with a line. */
static void fail(const char *why)
{
    fprintf(stderr, "serve: %s\n", why);
    exit(1);
}

/* Ends the program with a line unless all is good. */
static void demand(int good, const char *otherwise)
{
    if (!good)
        fail(otherwise);
}

/* The next octets of a request. */
static const uint8_t *take(struct cursor *cursor, size_t count)
{
    const uint8_t *taken = cursor->at;
    demand(count <= cursor->left, "malformed request: shorter than its parts");
    cursor->at += count;
    cursor->left -= count;
    return taken;
}

/* The next number, of so many octets. */
static uint64_t take_number(struct cursor *cursor, size_t count)
{
    const uint8_t *octets = take(cursor, count);
    uint64_t number = 0;
    while (count-- > 0)
        number = number << 8 | octets[count];
    return number;
}

/* An image has memory of its own and of just its length, so that a memory checker sees a call that goes beyond it. What
 * malloc gives is aligned for every type. */
static void take_buffer(struct cursor *cursor, struct buffer *buffer)
{
    buffer->image_len = take_number(cursor, 4);
    buffer->offset = take_number(cursor, 4);
    buffer->len = take_number(cursor, 4);
    demand(buffer->offset <= buffer->image_len && buffer->len <= buffer->image_len - buffer->offset,
           "malformed request: a buffer goes beyond its image");
    const uint8_t *octets = take(cursor, buffer->image_len);
    buffer->image = malloc(buffer->image_len);
    demand(buffer->image != NULL || buffer->image_len == 0, "no memory for an image");
    if (buffer->image_len > 0)
        memcpy(buffer->image, octets, buffer->image_len);
}

/* The parts of a request. */
static void take_request(struct cursor cursor, struct request *request)
{
    request->call = take_number(&cursor, 1);
    request->scalars = take_number(&cursor, 1);
    for (size_t i = 0; i < request->scalars; i++)
        request->scalar[i] = take_number(&cursor, 8);
    request->buffers = take_number(&cursor, 1);
    for (size_t i = 0; i < request->buffers; i++)
        take_buffer(&cursor, &request->buffer[i]);
    demand(cursor.left == 0, "malformed request: longer than its parts");
}

/* Whether a buffer is lent for reading. */
static int shown(const struct request *request, size_t place)
{
    return calls[request->call].buffers[place] == 's';
}

/* An out-parameter is as long as its type, and aligned. */
static void check_buffer(const struct buffer *buffer, char kind)
{
    size_t octets = (size_t)(kind - '0');
    if (kind == 's' || kind == 'l')
        return;
    demand(buffer->len == octets && buffer->offset % octets == 0,
           "malformed request: an out-parameter is not as its type");
}

/* Whether a request has what its call takes. */
static void check(const struct request *request)
{
    demand(request->call < CALLS, "malformed request: no such call");
    const struct call *call = &calls[request->call];
    demand(request->scalars == strlen(call->scalars) && request->buffers == strlen(call->buffers),
           "malformed request: not the call's number of scalars and buffers");
    for (size_t i = 0; i < request->scalars; i++)
        demand(call->scalars[i] == '8' || request->scalar[i] >> 8 * (call->scalars[i] - '0') == 0,
               "malformed request: a scalar is too great for its type");
    for (size_t i = 0; i < request->buffers; i++)
        check_buffer(&request->buffer[i], call->buffers[i]);
}

/* Makes an area large enough; its octets may be written. */
static void reserve(struct area *area, size_t len)
{
    size_t page = (size_t)sysconf(_SC_PAGESIZE), size = (len / page + 1) * page;
    if (area->size < size) {
        if (area->room != NULL)
            munmap(area->room - page, area->size + 2 * page);
        uint8_t *all = mmap(NULL, size + 2 * page, PROT_NONE, MAP_PRIVATE | MAP_ANONYMOUS, -1, 0);
        demand(all != MAP_FAILED, "no memory for an area");
        area->room = all + page;
        area->size = size;
    }
    demand(mprotect(area->room, area->size, PROT_READ | PROT_WRITE) == 0, "no protection");
}

/* How many octets a copy has. */
static size_t copied(const struct buffer *buffer)
{
    return buffer->len - (lacks_last && buffer->len > 0);
}

/* The memory that a copy is made in. */
static uint8_t *room_for(const struct buffer *buffer, struct area *area)
{
    uint8_t *room;
    if (lending == GUARDED) {
        reserve(area, copied(buffer));
        return before_page ? area->room + area->size - copied(buffer) : area->room;
    }
    room = malloc(copied(buffer));
    demand(room != NULL || copied(buffer) == 0, "no memory for a copy");
    return room;
}

/* Lends a buffer to the call. */
static void lend(const struct request *request, struct buffer *buffer, size_t place)
{
    buffer->lent = buffer->image + buffer->offset;
    if (lending == IN_IMAGE)
        return;
    buffer->lent = room_for(buffer, &areas[place]);
    if (copied(buffer) > 0)
        memcpy(buffer->lent, buffer->image + buffer->offset, copied(buffer));
    if (lending == GUARDED && shown(request, place))
        demand(mprotect(areas[place].room, areas[place].size, PROT_READ) == 0, "no protection");
    if (steps_before && !before_page)
        *((volatile uint8_t *)buffer->lent - 1) = 0;
    if (steps_into && shown(request, place))
        *(volatile uint8_t *)buffer->lent = 0;
}

/* Gives the image what became of the copy. */
static void take_back(struct buffer *buffer)
{
    if (lending == IN_IMAGE)
        return;
    if (copied(buffer) > 0)
        memcpy(buffer->image + buffer->offset, buffer->lent, copied(buffer));
    if (lending == EXACT)
        free(buffer->lent);
}

/* Writes octets of a response. */
static void put(const void *octets, size_t count)
{
    demand(count == 0 || fwrite(octets, 1, count, stdout) == count, "a response cannot be written");
}

/* Writes a number of so many octets. */
static void put_number(uint64_t number, size_t count)
{
    for (; count > 0; count--, number >>= 8)
        demand(putchar((int)(number & 0xFF)) != EOF, "a response cannot be written");
}

/* Writes the table. */
static void put_table(void)
{
    size_t count = 0;
    for (size_t i = 0; i < CALLS; i++)
        count += strlen(calls[i].line);
    put_number(count, LENGTH_OCTETS);
    for (size_t i = 0; i < CALLS; i++)
        put(calls[i].line, strlen(calls[i].line));
}

/* Writes what became of a call. */
static void put_response(const struct request *request, uint8_t answer)
{
    uint64_t count = 1;
    for (size_t i = 0; i < request->buffers; i++)
        count += request->buffer[i].image_len;
    put_number(count, LENGTH_OCTETS);
    put_number(answer, 1);
    for (size_t i = 0; i < request->buffers; i++)
        put(request->buffer[i].image, request->buffer[i].image_len);
}

/* Makes the call of a request. */
static void serve(struct cursor cursor)
{
    static struct request request;
    take_request(cursor, &request);
    check(&request);
    before_page = !before_page;
    for (size_t i = 0; i < request.buffers; i++)
        lend(&request, &request.buffer[i], i);
    uint8_t answer = make_call(request.call, request.scalar, request.buffer);
    for (size_t i = 0; i < request.buffers; i++)
        take_back(&request.buffer[i]);
    put_response(&request, answer);
    for (size_t i = 0; i < request.buffers; i++)
        free(request.buffer[i].image);
}

/* Serves the whole requests that are at hand. */
static void serve_all(struct input *input)
{
    for (;;) {
        struct cursor cursor = {input->octets + input->start, input->end - input->start};
        if (cursor.left < LENGTH_OCTETS)
            return;
        size_t count = take_number(&cursor, LENGTH_OCTETS);
        if (cursor.left < count)
            return;
        cursor.left = count;
        if (count == 0)
            put_table();
        else
            serve(cursor);
        input->start += LENGTH_OCTETS + count;
    }
}

/* Moves the octets not used yet to the front, and makes room for at least a chunk behind them. */
static void make_room(struct input *input)
{
    size_t kept = input->end - input->start;
    if (kept > 0)
        memmove(input->octets, input->octets + input->start, kept);
    input->start = 0;
    input->end = kept;
    if (input->room - kept < CHUNK) {
        input->room = 2 * kept + CHUNK;
        input->octets = realloc(input->octets, input->room);
        demand(input->octets != NULL, "no memory for the input");
    }
}

/* Reads what is there, and waits if nothing is. Gives 0 at the end of input. */
static int read_more(struct input *input)
{
    make_room(input);
    ssize_t count = read(STDIN_FILENO, input->octets + input->end, input->room - input->end);
    demand(count >= 0, "the input cannot be read");
    input->end += (size_t)count;
    return count > 0;
}

/* What the words say of lending. */
static void take_words(int count, char **words)
{
    static const char usage[] = "usage: serve [exact | guarded] [short | before | written] < REQUESTS > RESPONSES\n";
    if (count > 1 && (strcmp(words[1], "-h") == 0 || strcmp(words[1], "--help") == 0)) {
        fputs(usage, stdout);
        exit(0);
    }
    if (count > 1 && strcmp(words[1], "exact") == 0)
        lending = EXACT;
    if (count > 1 && strcmp(words[1], "guarded") == 0)
        lending = GUARDED;
    lacks_last = lending != IN_IMAGE && count > 2 && strcmp(words[2], "short") == 0;
    steps_before = lending == GUARDED && count > 2 && strcmp(words[2], "before") == 0;
    steps_into = lending == GUARDED && count > 2 && strcmp(words[2], "written") == 0;
    demand(count == 1 + (lending != IN_IMAGE) + lacks_last + steps_before + steps_into, usage);
}

/* Serves until the end of input. */
int main(int argc, char **argv)
{
    struct input input = {NULL, 0, 0, 0};
    take_words(argc, argv);
    setvbuf(stdout, NULL, _IOFBF, CHUNK);
    while (read_more(&input)) {
        serve_all(&input);
        demand(fflush(stdout) == 0, "a response cannot be written");
    }
    demand(input.start == input.end, "malformed request: cut at the end of input");
    free(input.octets);
    return 0;
}
