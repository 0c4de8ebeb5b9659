/* What the vectors' programs share. Each reads vectors from standard input, a line for each, and writes what the
 * calls answer to standard output:
 *
 *     payloads <tests/vectors/payloads.txt | diff tests/vectors/payloads.out -
 *
 * A line begins with the vector's name; the program's own file says what follows. Its last word is octets in
 * hexadecimal, or - for none. The status is 1, with a line on standard error, where a line cannot be read. */
#ifndef TESTS_VECTORS_H
#define TESTS_VECTORS_H

#include "hex.h"
#include "landing_voice.h"

/* Each program's own: reads the rest of a line, makes its calls and prints the answers; 0 where it cannot be read. */
int vector(const char *name);

/* Reads the next words of a line: numbers of at most 255; one number, of at most HEX_OCTETS; the octets at its end,
 * which stay until the next line. Each gives 0 where they are not there. */
int vector_numbers(uint8_t *numbers, int count);
int vector_room(size_t *room);
int vector_octets(const uint8_t **octets, size_t *len);

/* What a place is before a call. A refusal that has a place changes it, and nothing else does. */
#define NOWHERE ((size_t)-1)

/* Prints a refusal by its number, and where the fault is; says whether it was one. */
int vector_refused(const char *name, uint8_t answer, size_t place);

/* Prints frame k of octets: its type, and its body. */
void vector_frame(size_t k, uint8_t type, const uint8_t *octets, size_t start, size_t size);

#endif
