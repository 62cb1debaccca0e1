/* meaning_test TRACE: each frame that ./run shows (crates/cases/stdout), shown by meaning.c, is the same text; and some
 * that it does not show. One line for each test. */
#define _POSIX_C_SOURCE 200809L
#include <stdbool.h>
#include <stdio.h>
#include <stdlib.h>
#include <string.h>

#include "meaning.h"

enum { LABEL = 12 };

static int failed;

static void test(const char *name, bool passed)
{
    printf("meaning %s: %s\n", name, passed ? "ok" : "FAILED");
    failed |= !passed;
}

static bool is_shown_as(const char *label, const uint8_t *bytes, size_t count, const char *wanted)
{
    char *text;
    size_t size;
    FILE *to = open_memstream(&text, &size);
    show_frame(to, label, bytes, count);
    fclose(to);
    bool is_same = strcmp(text, wanted) == 0;
    if (!is_same)
        printf("    shown is:\n%s    wanted is:\n%s", text, wanted);
    free(text);
    return is_same;
}

/* the bytes of a line of nothing else; 0 where there is something else in it */
static size_t read_bytes(const char *line, uint8_t *bytes)
{
    size_t count = 0;
    int read;
    unsigned byte;
    while (sscanf(line, " %2x%n", &byte, &read) == 1 && read >= 2) {
        bytes[count++] = (uint8_t)byte;
        line += read;
        if (*line != ' ' && *line != '\n')
            return 0;
    }
    return line[strspn(line, " \n")] == '\0' ? count : 0;
}

static bool is_label(const char *line)
{
    return strncmp(line, "   host   : ", LABEL) == 0 || strncmp(line, "   server : ", LABEL) == 0;
}

/* Compares all frames of the trace; answers how many there are. */
static unsigned compare(FILE *trace, bool *is_same)
{
    static char line[1000], text[100000];
    uint8_t bytes[300];
    size_t count = 0;
    unsigned frames = 0;
    bool is_hex = false;
    for (bool is_line = true; is_line;) {
        is_line = fgets(line, sizeof line, trace) != NULL;
        if (is_line && strncmp(line, "            ", LABEL) == 0 && count > 0) {
            size_t more = is_hex && count % 24 == 0 ? read_bytes(line + LABEL, bytes + count) : 0;
            is_hex = more > 0;
            count += more;
            strcat(text, line);
            continue;
        }
        if (count > 0) {
            char label[LABEL + 1] = {0};
            memcpy(label, text, LABEL);
            *is_same &= is_shown_as(label, bytes, count, text);
            frames++;
        }
        count = is_line && is_label(line) ? read_bytes(line + LABEL, bytes) : 0;
        is_hex = count > 0;
        if (count > 0)
            strcpy(text, line);
    }
    return frames;
}

#define SHOWN(bytes, wanted) is_shown_as("", (const uint8_t *)bytes, sizeof bytes - 1, wanted)

int main(int count, char **words)
{
    bool is_same = true;
    FILE *trace = count == 2 ? fopen(words[1], "r") : NULL;
    if (trace == NULL)
        return 2;
    unsigned frames = compare(trace, &is_same);
    char name[100];
    snprintf(name, sizeof name, "of the %u frames that ./run shows is the same", frames);
    test(name, is_same && frames > 40);
    test("of an indication",
         SHOWN("\x68\x0C\x0C\x68\xF3\xF0\xC1\x00\x05\x00\x01\x00\x05\x18\x01\x01\xC9\x16",
               "68 0C 0C 68 F3 F0 C1 00 05 00 01 00 05 18 01 01 C9 16\n"
               "            data frame, count bit odd, 11 bytes: DatapointValue.Ind, start 5, number 1\n"
               "            datapoint 5: state 18, value 01\n"));
    test("of a set of an item",
         SHOWN("\x68\x0B\x0B\x68\x53\xF0\x02\x00\x0F\x00\x01\x00\x0F\x01\x01\x66\x16",
               "68 0B 0B 68 53 F0 02 00 0F 00 01 00 0F 01 01 66 16\n"
               "            data frame, count bit even, 10 bytes: SetServerItem.Req, start 15, number 1\n"
               "            item 15 = 01\n"));
    test("of a set of parameter bytes",
         SHOWN("\x68\x0A\x0A\x68\x73\xF0\x08\x00\x05\x00\x03\xA1\xA2\xA3\x59\x16",
               "68 0A 0A 68 73 F0 08 00 05 00 03 A1 A2 A3 59 16\n"
               "            data frame, count bit odd, 9 bytes: SetParameterByte.Req, start 5, number 3\n"
               "            A1 A2 A3\n"));
    test("of its answer",
         SHOWN("\x68\x08\x08\x68\xF3\xF0\x88\x00\x05\x00\x00\x00\x70\x16",
               "68 08 08 68 F3 F0 88 00 05 00 00 00 70 16\n"
               "            data frame, count bit odd, 7 bytes: SetParameterByte.Res, done, start 5\n"));
    test("of a set of nine parameter bytes",
         SHOWN("\x68\x10\x10\x68\x53\xF0\x08\x00\x05\x00\x09\xA1\xA2\xA3\xA4\xA5\xA6\xA7\xA8\xA9\x26\x16",
               "68 10 10 68 53 F0 08 00 05 00 09 A1 A2 A3 A4 A5 A6 A7 A8 A9 26 16\n"
               "            data frame, count bit even, 15 bytes: SetParameterByte.Req, start 5, number 9\n"
               "            A1 A2 A3 .. A9\n"));
    test("of an answer of eight parameter bytes",
         SHOWN("\x68\x0F\x0F\x68\xD3\xF0\x87\x00\x05\x00\x08\xA1\xA2\xA3\xA4\xA5\xA6\xA7\xA8\x7B\x16",
               "68 0F 0F 68 D3 F0 87 00 05 00 08 A1 A2 A3 A4 A5 A6 A7 A8 7B 16\n"
               "            data frame, count bit even, 14 bytes: GetParameterByte.Res, start 5, number 8\n"
               "            A1 A2 A3 A4 A5 A6 A7 A8\n"));
    test("of a set of no parameter bytes",
         SHOWN("\x68\x07\x07\x68\x73\xF0\x08\x00\x00\x00\x00\x6B\x16",
               "68 07 07 68 73 F0 08 00 00 00 00 6B 16\n"
               "            data frame, count bit odd, 6 bytes: SetParameterByte.Req, start 0, number 0\n"));
    test("of a request for description strings",
         SHOWN("\x68\x07\x07\x68\x73\xF0\x04\x00\x05\x00\x03\x6F\x16",
               "68 07 07 68 73 F0 04 00 05 00 03 6F 16\n"
               "            data frame, count bit odd, 6 bytes: GetDescriptionString.Req, start 5, number 3\n"));
    test("of its answer of three strings",
         SHOWN("\x68\x13\x13\x68\xF3\xF0\x84\x00\x05\x00\x03\x00\x04Lamp\x00\x00\x00\x02\xC3\xBC\x7E\x16",
               "68 13 13 68 F3 F0 84 00 05 00 03 00 04 4C 61 6D 70 00 00 00 02 C3 BC 7E\n"
               "            16\n"
               "            data frame, count bit odd, 18 bytes: GetDescriptionString.Res, start 5, number 3\n"
               "            \"Lamp\", \"\", \"\\xC3\\xBC\"\n"));
    test("of four strings",
         SHOWN("\x68\x12\x12\x68\xD3\xF0\x84\x00\x01\x00\x04\x00\x01\x22\x00\x01\x5C\x00\x01~\x00\x00\x4B\x16",
               "68 12 12 68 D3 F0 84 00 01 00 04 00 01 22 00 01 5C 00 01 7E 00 00 4B 16\n"
               "            data frame, count bit even, 17 bytes: GetDescriptionString.Res, start 1, number 4\n"
               "            \"\\x22\", \"\\x5C\", \"~\", ..\n"));
    test("of strings that do not fit",
         SHOWN("\x68\x08\x08\x68\xF3\xF0\x84\x00\x08\x00\x00\x03\x72\x16",
               "68 08 08 68 F3 F0 84 00 08 00 00 03 72 16\n"
               "            data frame, count bit odd, 7 bytes: GetDescriptionString.Res, error 3 (buffer is too small), "
               "ID 8\n"));
    test("of the server's reset", SHOWN("\x10\xC0\xC0\x16", "10 C0 C0 16\n            reset indication\n"));
    test("of half a frame", SHOWN("\x68\x07\x07", "68 07 07\n            no sound frame\n"));
    return failed;
}
