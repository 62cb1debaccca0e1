#define _POSIX_C_SOURCE 200809L
#include "words.h"

#include <ctype.h>
#include <errno.h>
#include <stdarg.h>
#include <stdio.h>
#include <stdlib.h>
#include <string.h>

bool wrong(const struct words *words, const char *format, ...)
{
    va_list arguments;
    if (words->line > 0)
        fprintf(stderr, "serve: %s:%u: ", words->source, words->line);
    else
        fprintf(stderr, "serve: %s: ", words->source);
    va_start(arguments, format);
    vfprintf(stderr, format, arguments);
    va_end(arguments);
    fputc('\n', stderr);
    return false;
}

static const char space[] = " \t\r\n";

char *next_word(struct words *words)
{
    char *word = words->rest + strspn(words->rest, space);
    if (*word == '\0' || *word == '#') {
        words->rest = word + strlen(word);
        return NULL;
    }
    words->rest = word + strcspn(word, space);
    if (*words->rest != '\0')
        *words->rest++ = '\0';
    return word;
}

bool read_name(struct words *words, const char *name)
{
    const char *word = next_word(words);
    if (word == NULL)
        return wrong(words, "the line ends where '%s' is expected", name);
    if (strcmp(word, name) != 0)
        return wrong(words, "'%s' stands where '%s' is expected", word, name);
    return true;
}

bool read_number(struct words *words, const char *what, unsigned long least, unsigned long most, unsigned long *number)
{
    const char *word = next_word(words);
    char *end;
    if (word == NULL)
        return wrong(words, "the line ends where the %s is expected", what);
    bool hexadecimal = word[0] == '0' && (word[1] == 'x' || word[1] == 'X');
    errno = 0;
    *number = strtoul(word, &end, hexadecimal ? 16 : 10);
    if (!isdigit((unsigned char)word[0]) || *end != '\0' || errno != 0 || *number < least || *number > most)
        return wrong(words, "the %s is '%s', not a number from %lu to %lu", what, word, least, most);
    return true;
}

bool read_bytes(struct words *words, uint8_t *bytes, size_t most, size_t *count)
{
    const char *word;
    for (*count = 0; (word = next_word(words)) != NULL; ++*count) {
        if (strlen(word) != 2 || !isxdigit((unsigned char)word[0]) || !isxdigit((unsigned char)word[1]))
            return wrong(words, "'%s' is not a byte of two hexadecimal digits", word);
        if (*count == most)
            return wrong(words, "there are more than %zu bytes", most);
        bytes[*count] = (uint8_t)strtoul(word, NULL, 16);
    }
    return true;
}

/* the byte that a text has next, and how many characters tell it; 0 where none does: a backslash that begins no \xNN */
static size_t text_byte(const char *at, uint8_t *byte)
{
    if (*at != '\\') {
        *byte = (uint8_t)*at;
        return 1;
    }
    if (at[1] != 'x' || !isxdigit((unsigned char)at[2]) || !isxdigit((unsigned char)at[3]))
        return 0;
    *byte = (uint8_t)strtoul((char[]){at[2], at[3], '\0'}, NULL, 16);
    return 4;
}

bool read_text(struct words *words, uint8_t *bytes, size_t most, size_t *count)
{
    char *at = words->rest + strspn(words->rest, space);
    if (*at++ != '"')
        return wrong(words, "there is no quotation mark where the text is expected");
    for (*count = 0; *at != '"'; ++*count) {
        uint8_t byte;
        if (*at == '\0' || *at == '\n' || *at == '\r')
            return wrong(words, "the line ends within the text");
        size_t told = text_byte(at, &byte);
        if (told == 0)
            return wrong(words, "a backslash in the text begins no byte like \\x5C");
        if (*count == most)
            return wrong(words, "the text has more than %zu bytes", most);
        bytes[*count] = byte;
        at += told;
    }
    words->rest = at + 1;
    return true;
}

bool read_end(struct words *words)
{
    const char *word = next_word(words);
    return word == NULL || wrong(words, "'%s' stands where the line should end", word);
}
