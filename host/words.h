/* The words of a line of text: numbers, bytes, names, texts. What is wrong is told on standard error, with file and
 * line. */
#ifndef WORDS_H
#define WORDS_H

#include <stdbool.h>
#include <stddef.h>
#include <stdint.h>

/* A line of text that is being read. */
struct words {
    const char *source; /* the file's name */
    unsigned line;      /* the line's number, from 1 on; 0 where the source has none */
    char *rest;         /* what is not yet read */
};

/* Tells what is wrong with the line; always false, so that `return wrong(..)` leaves a reader. */
bool wrong(const struct words *words, const char *format, ...) __attribute__((format(printf, 2, 3)));

/* The next word, or null at the end. */
char *next_word(struct words *words);

/* The next word is this one. */
bool read_name(struct words *words, const char *name);

/* The next word is a number in this range, decimal or hexadecimal after 0x. */
bool read_number(struct words *words, const char *what, unsigned long least, unsigned long most, unsigned long *number);

/* The words up to the end are bytes of two hexadecimal digits: `most` of them at most. */
bool read_bytes(struct words *words, uint8_t *bytes, size_t most, size_t *count);

/* Next stands a text in quotation marks: bytes as they are, \xNN for the byte of these two hexadecimal digits; `most`
 * of them at most. */
bool read_text(struct words *words, uint8_t *bytes, size_t most, size_t *count);

/* There is no further word. */
bool read_end(struct words *words);

#endif
