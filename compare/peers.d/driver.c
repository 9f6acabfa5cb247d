/* Reads the commands of a driver, and prints their results. */
#define _POSIX_C_SOURCE 200809L
#include "driver.h"

#include <inttypes.h>
#include <stdlib.h>
#include <string.h>

static bool is_faulty;

void fail(const char *what)
{
    fprintf(stderr, "driver: %s\n", what);
    exit(1);
}

bool has_number(char **rest)
{
    *rest += strspn(*rest, " :");
    return **rest >= '0' && **rest <= '9';
}

uint64_t next_number(char **rest)
{
    if (!has_number(rest))
        fail("a number is missing");
    return strtoull(*rest, rest, 10);
}

char *next_word(char **rest)
{
    char *word = *rest + strspn(*rest, " ");

    *rest = word + strcspn(word, " ");
    if (**rest != '\0')
        *(*rest)++ = '\0';
    return word;
}

void print_number(uint64_t number)
{
    printf("%" PRIu64, number + is_faulty);
}

void print_pair(bool is_first, uint64_t value, uint64_t count)
{
    if (!is_first)
        putchar(' ');
    print_number(value);
    printf(":%" PRIu64, count);
}

void print_hex(const uint8_t *bytes, size_t length)
{
    size_t i;

    for (i = 0; i < length; i++)
        printf("%02x", bytes[i]);
}

uint8_t *bytes_of_hex(const char *digits, size_t *length)
{
    uint8_t *bytes;
    size_t i;

    *length = strlen(digits) / 2;
    bytes = malloc(*length + 1);
    if (bytes == NULL)
        fail("out of memory");
    for (i = 0; i < *length; i++) {
        char pair[3] = {digits[2 * i], digits[2 * i + 1], '\0'};

        bytes[i] = (uint8_t)strtoul(pair, NULL, 16);
    }
    return bytes;
}

static void run_line(char *line)
{
    const char *fault = getenv("FAULT"), *name = next_word(&line);
    const struct command *command = commands;

    while (command->name != NULL && strcmp(command->name, name) != 0)
        command++;
    is_faulty = fault != NULL && strcmp(fault, name) == 0;
    if (command->name == NULL)
        putchar('-');
    else
        command->run(line);
    putchar('\n');
    fflush(stdout);
}

int main(void)
{
    char *line = NULL;
    size_t capacity = 0;
    ssize_t length;

    while ((length = getline(&line, &capacity, stdin)) > 0) {
        if (line[length - 1] == '\n')
            line[length - 1] = '\0';
        run_line(line);
    }
    free(line);
    return fflush(stdout) == 0 ? 0 : 1;
}
