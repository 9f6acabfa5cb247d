/*
 * The part that the drivers in C have in common. A driver reads commands, one a line, and prints a line for each: its
 * result, "-" if the library has no such call, or "error" with a reason.
 */
#ifndef DRIVER_H
#define DRIVER_H

#include <stdbool.h>
#include <stddef.h>
#include <stdint.h>
#include <stdio.h>

/* A command: its name, and a function that prints its result, from the rest of its line. */
struct command {
    const char *name;
    void (*run)(char *rest);
};

/* The commands of a driver, up to one without a name. */
extern const struct command commands[];

/* Returns the next number of a line, and moves past it. Separators are spaces and colons. */
uint64_t next_number(char **rest);

/* Whether a number follows. */
bool has_number(char **rest);

/* Returns the next word of a line, which is ended by a zero byte, and moves past it. */
char *next_word(char **rest);

/* Prints a number. If the variable FAULT is the name of the command, one more is printed. */
void print_number(uint64_t number);

/* Prints a value and a count, after a space unless it is the first of a list. */
void print_pair(bool is_first, uint64_t value, uint64_t count);

void print_hex(const uint8_t *bytes, size_t length);

/* Returns the bytes of hexadecimal digits, which the caller frees, and stores their number. */
uint8_t *bytes_of_hex(const char *digits, size_t *length);

/* Ends the program with a message. */
void fail(const char *what);

#endif
