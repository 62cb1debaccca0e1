/* The words are those of the scripts of the cases, crates/cases/stdin, which have none for indications and for some
 * services: these are called as document 000 calls them. host/meaning_test holds the two together. */
#include "meaning.h"

#include <stdbool.h>

#define COUNT(array) (sizeof(array) / sizeof *(array))

static void below(FILE *to)
{
    fputs("\n            ", to);
}

static void show_bytes(FILE *to, const uint8_t *bytes, size_t count)
{
    for (size_t i = 0; i < count; i++) {
        if (i > 0 && i % 24 == 0)
            below(to);
        else if (i > 0)
            fputc(' ', to);
        fprintf(to, "%02X", bytes[i]);
    }
}

/* the text of this number; the last of them for any number beyond */
static const char *choice(const char *const *texts, size_t count, size_t which)
{
    return texts[which < count ? which : count - 1];
}

static unsigned number_of(const uint8_t *bytes)
{
    return (unsigned)bytes[0] << 8 | bytes[1];
}

/* ---- entries, each in a line of its own */

/* how many bytes an entry has before its data, which the last of them counts (a description is all head); 0: none */
static size_t head_size(uint8_t sub)
{
    switch (sub) {
    case 0x02:
    case 0x81:
        return 3;
    case 0x06:
    case 0x85:
    case 0xC1:
        return 4;
    case 0x83:
        return 5;
    default:
        return 0;
    }
}

static void show_entry(FILE *to, uint8_t sub, const uint8_t *head, const uint8_t *value, size_t size)
{
    static const char *const commands[] = {"no command",
                                           "set new value",
                                           "send value on bus",
                                           "set new value and send on bus",
                                           "read new value via bus",
                                           "clear transmission state (retired)",
                                           "reserved command"};
    below(to);
    if (sub == 0x02 || sub == 0x81)
        fprintf(to, "item %u = ", number_of(head));
    else if (sub == 0x06)
        fprintf(to, "datapoint %u: %s%s", number_of(head), choice(commands, COUNT(commands), head[2]),
                size > 0 ? ", value " : ", no value");
    else if (sub == 0x83)
        fprintf(to, "datapoint %u: type %u, flags %02X, DPT %u", number_of(head), head[2], head[3], head[4]);
    else
        fprintf(to, "datapoint %u: state %02X, value ", number_of(head), head[2]);
    show_bytes(to, value, size);
}

/* the first three */
static void show_entries(FILE *to, uint8_t sub, const uint8_t *message, size_t count)
{
    size_t at = 6, head = head_size(sub);
    for (int k = 0; k < 3; k++) {
        if (head == 0 || count - at < head)
            return;
        size_t from = at + head, size = sub == 0x83 ? 0 : message[from - 1];
        if (count - from < size)
            return;
        show_entry(to, sub, message + at, message + from, size);
        at = from + size;
    }
    if (at < count) {
        below(to);
        fputs("..", to);
    }
}

/* ---- messages */

static void show_service(FILE *to, uint8_t sub)
{
    static const char *const services[] = {
        "another service",   "GetServerItem",     "SetServerItem",    "GetDatapointDescription", "GetDescriptionString",
        "GetDatapointValue", "SetDatapointValue", "GetParameterByte", "SetParameterByte",        "another service"};
    if (sub == 0xC1)
        fputs("DatapointValue.Ind, ", to);
    else
        fprintf(to, "%s%s", choice(services, COUNT(services), sub % 128u), sub < 128 ? ".Req, " : ".Res, ");
}

/* an answer of number 0 tells that a set was done, or an error by its code (document 000, appendix B) */
static void show_result(FILE *to, const uint8_t *message, size_t count)
{
    static const char *const errors[] = {"",
                                         "",
                                         " (no element found)",
                                         " (buffer is too small)",
                                         " (item is not writable)",
                                         " (service is not supported)",
                                         " (bad service parameter)",
                                         " (bad ID)",
                                         " (bad command or value)",
                                         " (bad length)",
                                         " (message inconsistent)",
                                         ""};
    if (count < 7)
        return;
    if (message[6] == 0)
        fprintf(to, "done, start %u", number_of(message + 2));
    else
        fprintf(to, "error %u%s, ID %u", message[6], choice(errors, COUNT(errors), message[6]), number_of(message + 2));
}

/* the parameter bytes of a set or an answer: up to eight, or the first three and the last */
static void show_parameters(FILE *to, const uint8_t *message, size_t count)
{
    if (count == 6)
        return;
    below(to);
    show_bytes(to, message + 6, count > 14 ? 3 : count - 6);
    if (count > 14)
        fprintf(to, " .. %02X", message[count - 1]);
}

/* a text in quotation marks: printable ASCII as it is, any other byte, a quotation mark and a backslash as \xNN */
static void show_text(FILE *to, const uint8_t *text, size_t count)
{
    fputc('"', to);
    for (size_t i = 0; i < count; i++)
        if (text[i] < 0x20 || text[i] > 0x7E || text[i] == '"' || text[i] == '\\')
            fprintf(to, "\\x%02X", text[i]);
        else
            fputc(text[i], to);
    fputc('"', to);
}

/* the strings of an answer, in one line: the first three */
static void show_strings(FILE *to, const uint8_t *message, size_t count)
{
    size_t at = 6;
    for (int k = 0; k < 3; k++) {
        if (count - at < 2 || count - at - 2 < number_of(message + at))
            return;
        if (k == 0)
            below(to);
        else
            fputs(", ", to);
        show_text(to, message + at + 2, number_of(message + at));
        at += 2 + number_of(message + at);
    }
    if (at < count)
        fputs(", ..", to);
}

static void show_message(FILE *to, const uint8_t *message, size_t count)
{
    static const char *const filters[] = {", all values", ", valid values", ", updated values", ", reserved filter"};
    if (count < 6) {
        fputs(count == 0 ? "no message" : "too few for a request", to);
        return;
    }
    uint8_t sub = message[1];
    show_service(to, sub);
    if (sub >= 128 && number_of(message + 4) == 0) {
        show_result(to, message, count);
        return;
    }
    fprintf(to, "start %u, number %u", number_of(message + 2), number_of(message + 4));
    if (sub == 0x05 && count > 6)
        fputs(choice(filters, COUNT(filters), message[6]), to);
    else if (sub == 0x08 || sub == 0x87)
        show_parameters(to, message, count);
    else if (sub == 0x84)
        show_strings(to, message, count);
    else
        show_entries(to, sub, message, count);
}

/* ---- frames */

static bool is_whole_data_frame(const uint8_t *bytes, size_t count)
{
    uint8_t sum = 0;
    if (count < 7 || bytes[0] != 0x68 || bytes[1] != bytes[2] || bytes[3] != 0x68 || count != bytes[1] + 6u ||
        bytes[count - 1] != 0x16)
        return false;
    for (size_t i = 4; i < count - 2; i++)
        sum = (uint8_t)(sum + bytes[i]);
    return sum == bytes[count - 2];
}

static const char *fixed_frame(uint8_t control)
{
    return control == 0x40 ? "reset request" : control == 0xC0 ? "reset indication" : "another frame of four bytes";
}

static void show_meaning(FILE *to, const uint8_t *bytes, size_t count)
{
    if (is_whole_data_frame(bytes, count)) {
        fprintf(to, "data frame, count bit %s, %zu bytes: ", bytes[4] & 0x20 ? "odd" : "even", count - 7);
        show_message(to, bytes + 5, count - 7);
    } else if (count == 1 && bytes[0] == 0xE5) {
        fputs("acknowledgement", to);
    } else if (count == 4 && bytes[0] == 0x10 && bytes[1] == bytes[2] && bytes[3] == 0x16) {
        fputs(fixed_frame(bytes[1]), to);
    } else {
        fputs("no sound frame", to);
    }
}

void show_frame(FILE *to, const char *label, const uint8_t *bytes, size_t count)
{
    fputs(label, to);
    show_bytes(to, bytes, count);
    below(to);
    show_meaning(to, bytes, count);
    fputc('\n', to);
}

void show_sent(FILE *to, const char *label, const uint8_t *bytes, size_t count)
{
    if (count > 1 && bytes[0] == 0xE5) {
        show_frame(to, label, bytes, 1);
        bytes++;
        count--;
    }
    show_frame(to, label, bytes, count);
}
