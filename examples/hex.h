/* Octets as hexadecimal words, for the example recorder and the vectors' programs. */
#ifndef EXAMPLES_HEX_H
#define EXAMPLES_HEX_H

#include <stddef.h>
#include <stdint.h>

/* The longest word, and how many octets it has. */
enum { HEX_OCTETS = 4096, HEX_DIGITS = 2 * HEX_OCTETS };

/* So many octets that are the same are printed as one. */
enum { HEX_SAME = 30 };

/* The octets of a word of upper case digits, or of - for none, and how many there are; -1 where it is no such word.
 * There is room for HEX_OCTETS. */
long hex_octets(const char *word, uint8_t *octets);

/* Prints octets, each behind a space; HEX_SAME or more that are the same as one with their number, 0Ex50. */
void hex_print(const uint8_t *octets, size_t count);

/* Prints a line: a name, how many octets, and the octets. */
void hex_line(const char *name, const uint8_t *octets, size_t count);

#endif
