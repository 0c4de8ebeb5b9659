/* The calls of landing_voice.h for a host that cannot be linked with the archive: each is sent to compare/serve.c, which
 * makes it, and what became of the memory comes back. So a host's own code runs on any machine, and under that machine's
 * memory checkers: every octet that the host states to be there is read here, and what a call may write to is written
 * here, as long as stated. The calls themselves are in relay_calls.h, which compare/calls makes of the header.
 *
 * The environment's LV_SERVER is the command that runs the server, its words separated by spaces. It is started at the
 * first call, and ends when its input does, at the program's end. The protocol is at the head of compare/serve.c. If the
 * server cannot be started, ends, is silent for a minute or gives no good answer, the program ends, with a line on
 * standard error and status 3.
 *
 * What a call may write to is sent first, as it is. Out-parameters are not: the host need not have set them. For the
 * place of a fault a number is sent that is none, and the host's is set where another comes back. */
#define _POSIX_C_SOURCE 200809L
#include "landing_voice.h"

#include <signal.h>
#include <stdio.h>
#include <stdlib.h>
#include <string.h>
#include <unistd.h>

enum {
    WORDS = 32,
    BUFFERS = 255, /* the most that a request has */
    SILENCE = 60, /* the seconds that a call may take */
    FAILED = 3
};

/* The server's size_t has 8 octets, and so has the host's. */
typedef char size_t_has_8_octets[sizeof(size_t) == 8 ? 1 : -1];

/* Octets that a call reads; octets that it may write to; its out-parameters; and the one that a refusal may set. */
enum kind { SHOWN, LENT, OUT, PLACE };

struct buffer {
    enum kind kind;
    const uint8_t *sent;
    void *written;
    size_t len;
};

/* A call by its place in the table. Scalars and buffers come in the order of its parameters. */
struct request {
    uint8_t call, scalars, buffers;
    const uint64_t *scalar;
    const struct buffer *buffer;
};

static FILE *to_server, *from_server;

/* Ends the program with a line unless all is good. */
static void demand(int good, const char *otherwise)
{
    if (!good) {
        fprintf(stderr, "relay: %s\n", otherwise);
        exit(FAILED);
    }
}

/* Ends the program if the server says nothing. */
static void silent(int number)
{
    static const char line[] = "relay: the server is silent\n";
    ssize_t said = write(STDERR_FILENO, line, sizeof line - 1);

    (void)number;
    (void)said;
    _exit(FAILED);
}

/* Runs the command in place of this program. */
static void become_server(const char *command)
{
    char *words[WORDS + 1];
    int count = 0;
    char *word = strtok(strdup(command), " ");

    for (; word != NULL && count < WORDS; word = strtok(NULL, " "))
        words[count++] = word;
    words[count] = NULL;
    if (count > 0 && word == NULL)
        execvp(words[0], words);
    fprintf(stderr, "relay: LV_SERVER cannot be run\n");
    _exit(FAILED);
}

/* Starts the server. */
static void start(void)
{
    const char *command = getenv("LV_SERVER");
    int requests[2], answers[2];
    pid_t child;

    demand(command != NULL, "LV_SERVER names no server");
    demand(pipe(requests) == 0 && pipe(answers) == 0, "there is no pipe to the server");
    child = fork();
    demand(child >= 0, "the server cannot be started");
    if (child == 0) {
        dup2(requests[0], STDIN_FILENO);
        dup2(answers[1], STDOUT_FILENO);
        close(requests[0]);
        close(requests[1]);
        close(answers[0]);
        close(answers[1]);
        become_server(command);
    }
    close(requests[0]);
    close(answers[1]);
    signal(SIGPIPE, SIG_IGN); /* a server that has ended is found when it is written to */
    signal(SIGALRM, silent);
    to_server = fdopen(requests[1], "wb");
    from_server = fdopen(answers[0], "rb");
    demand(to_server != NULL && from_server != NULL, "there is no pipe to the server");
}

/* Sends octets. */
static void put(const uint8_t *octets, size_t count)
{
    demand(fwrite(octets, 1, count, to_server) == count, "the server takes no more requests");
}

/* Sends a number of so many octets. */
static void put_number(uint64_t number, size_t count)
{
    for (; count > 0; count--, number >>= 8)
        demand(putc((int)(number & 0xFF), to_server) != EOF, "the server takes no more requests");
}

/* Sends a buffer. */
static void put_buffer(const struct buffer *buffer)
{
    put_number(buffer->len, 4);
    put_number(0, 4);
    put_number(buffer->len, 4);
    put(buffer->sent, buffer->len);
}

/* The octets of all images. */
static uint64_t images(const struct request *request)
{
    uint64_t count = 0;
    int i;

    for (i = 0; i < request->buffers; i++) {
        const struct buffer *buffer = &request->buffer[i];
        demand(buffer->sent != NULL && (buffer->kind == SHOWN || buffer->written != NULL), "a null pointer is lent");
        demand(buffer->len <= UINT32_MAX / (2 * BUFFERS), "more is lent than can be sent");
        count += buffer->len;
    }
    return count;
}

/* Sends a call. */
static void put_request(const struct request *request)
{
    int i;

    put_number(3 + 8u * request->scalars + 12u * request->buffers + images(request), 4);
    put_number(request->call, 1);
    put_number(request->scalars, 1);
    for (i = 0; i < request->scalars; i++)
        put_number(request->scalar[i], 8);
    put_number(request->buffers, 1);
    for (i = 0; i < request->buffers; i++)
        put_buffer(&request->buffer[i]);
    demand(fflush(to_server) == 0, "the server takes no more requests");
}

/* The next number of an answer, of so many octets. */
static uint64_t get_number(size_t count)
{
    uint64_t number = 0;
    size_t i;

    for (i = 0; i < count; i++) {
        int octet = getc(from_server);
        demand(octet != EOF, "the server has ended");
        number |= (uint64_t)octet << 8 * i;
    }
    return number;
}

/* What is lent for reading comes back as it was. */
static void get_shown(const struct buffer *buffer)
{
    size_t i;

    for (i = 0; i < buffer->len; i++)
        demand(get_number(1) == buffer->sent[i], "malformed answer: an octet has changed that the call only reads");
}

/* Gives an out-parameter its number. */
static void set(void *written, size_t octets, uint64_t number)
{
    switch (octets) {
    case 1:
        *(uint8_t *)written = (uint8_t)number;
        break;
    case 2:
        *(uint16_t *)written = (uint16_t)number;
        break;
    case 4:
        *(uint32_t *)written = (uint32_t)number;
        break;
    default:
        *(size_t *)written = number;
    }
}

/* A refusal changes no out-parameter but the place of the fault. */
static void get_buffer(const struct buffer *buffer, uint8_t answer)
{
    uint64_t number;

    switch (buffer->kind) {
    case SHOWN:
        get_shown(buffer);
        break;
    case LENT:
        demand(fread(buffer->written, 1, buffer->len, from_server) == buffer->len, "the server has ended");
        break;
    case OUT:
        number = get_number(buffer->len);
        if (answer == LV_OK)
            set(buffer->written, buffer->len, number);
        break;
    case PLACE:
        number = get_number(buffer->len);
        if (number != UINT64_MAX)
            set(buffer->written, buffer->len, number);
        break;
    }
}

/* Makes a call, and gives its answer. */
static uint8_t made(uint8_t call, uint8_t scalars, const uint64_t *scalar, uint8_t buffers, const struct buffer *buffer)
{
    struct request request = {call, scalars, buffers, scalar, buffer};
    uint8_t answer;
    int i;

    if (to_server == NULL)
        start();
    alarm(SILENCE);
    put_request(&request);
    demand(get_number(4) == 1 + images(&request), "malformed answer: not as long as the images");
    answer = (uint8_t)get_number(1);
    for (i = 0; i < buffers; i++)
        get_buffer(&buffer[i], answer);
    alarm(0);
    return answer;
}

/* Octets that a call reads. */
static struct buffer shown_octets(const uint8_t *octets, size_t len)
{
    struct buffer buffer = {SHOWN, octets, NULL, len};
    return buffer;
}

/* Octets that it may write to. */
static struct buffer lent_octets(uint8_t *octets, size_t len)
{
    struct buffer buffer = {LENT, octets, octets, len};
    return buffer;
}

/* An out-parameter. */
static struct buffer out_number(void *number, size_t octets)
{
    static const uint8_t not_set[sizeof(size_t)];
    struct buffer buffer = {OUT, not_set, number, octets};
    return buffer;
}

/* The place of a fault; all ones is none. */
static struct buffer place_number(size_t *place)
{
    static const uint8_t none[] = {255, 255, 255, 255, 255, 255, 255, 255};
    struct buffer buffer = {PLACE, none, place, sizeof *place};
    return buffer;
}

#include "relay_calls.h"
