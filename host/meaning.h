/* Frames in words, as ./run shows them. */
#ifndef MEANING_H
#define MEANING_H

#include <stddef.h>
#include <stdint.h>
#include <stdio.h>

/* A label, the bytes of a frame, and below them what they say. */
void show_frame(FILE *to, const char *label, const uint8_t *bytes, size_t count);

/* What is sent at once: a frame, an acknowledgement, or both. */
void show_sent(FILE *to, const char *label, const uint8_t *bytes, size_t count);

#endif
