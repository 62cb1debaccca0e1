/* Sees each field of each struct of tagobrelin.h through the call, each value that the call returns, and that a refusal
 * changes no byte; each member of a reading, in each case and refusal, and that a reading changes no byte; each member
 * of a burst, in each ending and refused, and each place of its run. One line for each test; the exit status tells
 * whether all passed. */
#define _DEFAULT_SOURCE
#include <stdbool.h>
#include <stdio.h>
#include <stdlib.h>
#include <string.h>
#include <sys/mman.h>
#include <unistd.h>

#include "tagobrelin.h"

#define COUNT(array) (sizeof(array) / sizeof *(array))

/* all that a call is lent */
static struct bench {
    struct tagobrelin_datapoint datapoints[1001];
    size_t datapoint_count;
    struct tagobrelin_item items[65];
    size_t item_count;
    uint8_t parameters[256];
    size_t parameter_count;
    uint8_t texts[2][100]; /* the lists, where they are altered */
    const uint8_t *site_texts, *default_texts;
    size_t site_texts_size, default_texts_size;
    struct tagobrelin_link link;
    uint8_t value[16];
    size_t value_count;
    uint8_t out[300];
    size_t room;
} bench, before;

static const char *test;
static int wrong, failed;

#define EXPECT(fact) expect(fact, #fact, __LINE__)

static void expect(bool fact, const char *text, int line)
{
    if (!fact && ++wrong <= 10)
        printf("    layout_test.c:%d: %s\n", line, text);
}

static void ends(void)
{
    if (test)
        printf("layout %s: %s\n", test, wrong ? "FAILED" : "ok");
    failed += wrong;
    wrong = 0;
}

/* a new test: no table entries, no texts, a fresh link record, room, and in every byte of padding A5 */
static void begins(const char *name)
{
    ends();
    test = name;
    memset(&bench, 0, sizeof bench);
    for (size_t i = 0; i < COUNT(bench.datapoints); i++)
        ((uint8_t *)&bench.datapoints[i])[21] = 0xA5;
    tagobrelin_fresh_link(&bench.link);
    ((uint8_t *)&bench.link)[529] = 0xA5;
    memset(bench.out, 0xEE, sizeof bench.out);
    bench.room = TAGOBRELIN_ROOM;
    bench.site_texts = bench.texts[0];
    bench.default_texts = bench.texts[1];
}

static int32_t called(uint8_t event, uint8_t byte, uint16_t id, uint8_t outcome)
{
    return tagobrelin_call(event, byte, id, outcome, bench.value, bench.value_count, bench.datapoints, bench.datapoint_count, bench.items, bench.item_count,
                           bench.parameters, bench.parameter_count, bench.site_texts, bench.site_texts_size,
                           bench.default_texts, bench.default_texts_size, &bench.link, bench.out, bench.room);
}

/* the call is refused with this number, and no byte of anything is changed, padding included */
static void refused(int32_t number, uint8_t event, uint8_t byte, uint16_t id, uint8_t outcome, int line)
{
    memcpy(&before, &bench, sizeof bench);
    int32_t answer = called(event, byte, id, outcome);
    if (answer != number && wrong < 10)
        printf("    answered %d, not %d\n", (int)answer, (int)number);
    expect(answer == number, "the refusal's number", line);
    expect(memcmp(&before, &bench, sizeof bench) == 0, "a refusal changes no byte", line);
}

#define REFUSED(number, event, byte, id, outcome) refused(number, event, byte, id, outcome, __LINE__)

/* a host's or a server's data frame */
static size_t framed(uint8_t control, const uint8_t *message, size_t count, uint8_t *frame)
{
    uint8_t sum = control, head[] = {0x68, (uint8_t)(count + 1), (uint8_t)(count + 1), 0x68, control};
    memcpy(frame, head, 5);
    memcpy(frame + 5, message, count);
    for (size_t i = 0; i < count; i++)
        sum += message[i];
    frame[count + 5] = sum;
    frame[count + 6] = 0x16;
    return count + 7;
}

/* the bytes come from the host: what the call answers to the last of them; 0 to all others */
static int32_t heard(const uint8_t *bytes, size_t count)
{
    int32_t answer = 0;
    for (size_t i = 0; i < count; i++) {
        expect(answer == 0, "nothing is sent before the last byte", __LINE__);
        answer = called(TAGOBRELIN_HOST_BYTE, bytes[i], 0, 0);
    }
    return answer;
}

/* the request draws an acknowledgement and this answer, framed under this control byte */
static void answered(uint8_t host, const uint8_t *message, size_t count, uint8_t server, const uint8_t *answer, size_t answer_count, int line)
{
    uint8_t frame[261], sent[TAGOBRELIN_ROOM] = {0xE5};
    size_t sent_count = 1 + (answer_count ? framed(server, answer, answer_count, sent + 1) : 0);
    expect(heard(frame, framed(host, message, count, frame)) == (int32_t)sent_count, "how many bytes are sent", line);
    expect(memcmp(bench.out, sent, sent_count) == 0, "the acknowledgement and the answer", line);
    for (size_t i = sent_count; i < sizeof bench.out; i++)
        expect(bench.out[i] == 0xEE, "no byte behind the reply is changed", line);
    memset(bench.out, 0xEE, sizeof bench.out);
}

#define BYTES(...) (const uint8_t[]){__VA_ARGS__}, sizeof((const uint8_t[]){__VA_ARGS__})
#define ANSWERED(...) answered(__VA_ARGS__, __LINE__)

static bool is_zero(const uint8_t *bytes, size_t count)
{
    for (size_t i = 0; i < count; i++)
        if (bytes[i])
            return false;
    return true;
}

static void fresh(void)
{
    begins("tagobrelin_fresh_link");
    struct tagobrelin_link *link = &bench.link;
    memset(link, 0xA5, sizeof *link); /* whatever stood there */
    tagobrelin_fresh_link(link);
    EXPECT(is_zero(link->receiver, sizeof link->receiver));
    EXPECT(link->received == 0);
    EXPECT(link->dropping == 0);
    EXPECT(link->expected == 1);
    EXPECT(link->send == 1);
    EXPECT(is_zero(link->outstanding, sizeof link->outstanding));
    EXPECT(link->held == 0);
    EXPECT(link->resends == 0);
    EXPECT(heard(BYTES(0x10, 0x40, 0x40, 0x16)) == 1 && bench.out[0] == 0xE5);
}

static void datapoints(void)
{
    begins("datapoint: id, typecode, flags, dpt");
    bench.datapoints[0] = (struct tagobrelin_datapoint){.id = 0x0102, .typecode = 8, .flags = 0xAB, .dpt = 0xCD};
    bench.datapoints[1] = (struct tagobrelin_datapoint){.id = 0x0304, .typecode = 14, .flags = 0x12, .dpt = 0x34};
    bench.datapoint_count = 2;
    ANSWERED(0x73, BYTES(0xF0, 0x03, 0x01, 0x02, 0xFF, 0xFF), 0xF3, BYTES(0xF0, 0x83, 0x01, 0x02, 0x00, 0x02, 0x01, 0x02, 8, 0xAB, 0xCD, 0x03, 0x04, 14, 0x12, 0x34));

    begins("datapoint: state, value");
    bench.datapoints[0] = (struct tagobrelin_datapoint){.id = 1, .typecode = 14, .state = 0x1D, .value = {1, 2, 3, 4, 5, 6, 7, 8, 9, 10, 11, 12, 13, 14}};
    bench.datapoints[1] = (struct tagobrelin_datapoint){.id = 2, .typecode = 9, .state = 0x02, .value = {0x21, 0x22, 0x23}};
    bench.datapoint_count = 2;
    ANSWERED(0x73, BYTES(0xF0, 0x05, 0, 1, 0, 2, 0), 0xF3, BYTES(0xF0, 0x85, 0, 1, 0, 2, 0, 1, 0x1D, 14, 1, 2, 3, 4, 5, 6, 7, 8, 9, 10, 11, 12, 13, 14, 0, 2, 0x02, 3, 0x21, 0x22, 0x23));
    EXPECT(bench.datapoints[0].state == 0x15 && bench.datapoints[1].state == 0x02);

    begins("datapoint: mark");
    bench.datapoints[0] = (struct tagobrelin_datapoint){.id = 1, .typecode = 7, .state = 0x18, .value = {0x41}};
    bench.datapoints[1] = (struct tagobrelin_datapoint){.id = 2, .typecode = 7, .state = 0x18, .value = {0x42}};
    bench.datapoint_count = 2;
    EXPECT(called(TAGOBRELIN_POLL, 0, 0, 0) == 0);
    bench.datapoints[1].mark = 1;
    uint8_t frame[261];
    size_t count = framed(0xF3, BYTES(0xF0, 0xC1, 0, 2, 0, 1, 0, 2, 0x18, 1, 0x42), frame);
    EXPECT(called(TAGOBRELIN_POLL, 0, 0, 0) == (int32_t)count && memcmp(bench.out, frame, count) == 0);
    EXPECT(!bench.datapoints[1].mark && bench.datapoints[1].state == 0x10 && bench.datapoints[0].state == 0x18);
    EXPECT(bench.link.held == count && memcmp(bench.link.outstanding, frame, count) == 0);

    begins("bus value and outcomes");
    bench.datapoints[0] = (struct tagobrelin_datapoint){.id = 7, .typecode = 10, .state = 0x04};
    bench.datapoint_count = 1;
    memcpy(bench.value, "\x01\x02\x03\x04", bench.value_count = 4);
    EXPECT(called(TAGOBRELIN_BUS_VALUE, 0, 7, 255) == 0);
    EXPECT(memcmp(bench.datapoints[0].value, "\x01\x02\x03\x04\0\0\0\0\0\0\0\0\0\0", 14) == 0 && bench.datapoints[0].state == 0x18 && bench.datapoints[0].mark);
    EXPECT(called(TAGOBRELIN_OUTCOME, 0, 7, TAGOBRELIN_FAILED) == 0 && bench.datapoints[0].state == 0x19);
    EXPECT(called(TAGOBRELIN_OUTCOME, 0, 7, TAGOBRELIN_IN_PROGRESS) == 0 && bench.datapoints[0].state == 0x1A);
    EXPECT(called(TAGOBRELIN_OUTCOME, 0, 7, TAGOBRELIN_SENT) == 0 && bench.datapoints[0].state == 0x18);
}

static void items(void)
{
    begins("item: id, size, bytes");
    bench.items[0] = (struct tagobrelin_item){.id = 1, .size = 6, .bytes = {0x00, 0x00, 0xC5, 0x07, 0x00, 0x02}};
    bench.items[1] = (struct tagobrelin_item){.id = 0x0203, .size = 16, .bytes = {1, 2, 3, 4, 5, 6, 7, 8, 9, 10, 11, 12, 13, 14, 15, 16}};
    bench.item_count = 2;
    ANSWERED(0x73, BYTES(0xF0, 0x01, 0, 1, 0, 1), 0xF3, BYTES(0xF0, 0x81, 0, 1, 0, 1, 0, 1, 6, 0x00, 0x00, 0xC5, 0x07, 0x00, 0x02));
    EXPECT(heard(BYTES(0xE5)) == 0);
    ANSWERED(0x53, BYTES(0xF0, 0x01, 2, 3, 0, 1), 0xD3, BYTES(0xF0, 0x81, 2, 3, 0, 1, 2, 3, 16, 1, 2, 3, 4, 5, 6, 7, 8, 9, 10, 11, 12, 13, 14, 15, 16));

    begins("item: writable");
    bench.items[0] = (struct tagobrelin_item){.id = 1, .size = 2, .bytes = {1, 2}};
    bench.items[1] = (struct tagobrelin_item){.id = 2, .size = 2, .writable = 1, .bytes = {1, 2}};
    bench.item_count = 2;
    ANSWERED(0x73, BYTES(0xF0, 0x02, 0, 1, 0, 1, 0, 1, 2, 7, 8), 0xF3, BYTES(0xF0, 0x82, 0, 1, 0, 0, 4));
    EXPECT(heard(BYTES(0xE5)) == 0 && memcmp(bench.items[0].bytes, "\x01\x02", 2) == 0);
    ANSWERED(0x53, BYTES(0xF0, 0x02, 0, 2, 0, 1, 0, 2, 2, 7, 8), 0xD3, BYTES(0xF0, 0x82, 0, 2, 0, 0, 0));
    EXPECT(memcmp(bench.items[1].bytes, "\x07\x08", 2) == 0);
}

static void link_record(void)
{
    uint8_t message[254], frame[261];
    begins("link: receiver, received");
    for (size_t i = 0; i < sizeof message; i++)
        message[i] = (uint8_t)(i * 7 + 3);
    memcpy(message, "\xF0\x06\x00\x01\x00\x01", 6);
    EXPECT(framed(0x73, message, sizeof message, frame) == 261);
    memcpy(bench.link.receiver, frame, bench.link.received = 260);
    EXPECT(heard(frame + 260, 1) == 1 + 14 && bench.out[0] == 0xE5 && memcmp(bench.out + 6, "\xF0\x86\x00\x01\x00\x00\x0A", 7) == 0);
    EXPECT(bench.link.received == 0 && is_zero(bench.link.receiver, 260));
    for (size_t i = 0; i < 260; i++) {
        EXPECT(heard(frame + i, 1) == 0);
        EXPECT(bench.link.received == i + 1 && memcmp(bench.link.receiver, frame, i + 1) == 0);
    }

    begins("link: dropping");
    EXPECT(heard(BYTES(0x10, 0x41)) == 0 && !bench.link.dropping && bench.link.received == 2);
    EXPECT(heard(BYTES(0x40)) == 0 && bench.link.dropping && bench.link.received == 0);
    EXPECT(heard(BYTES(0x10, 0x40, 0x40, 0x16)) == 0);
    EXPECT(called(TAGOBRELIN_IDLE_MARK, 0, 0, 0) == 0 && !bench.link.dropping);
    EXPECT(heard(BYTES(0x10, 0x40, 0x40, 0x16)) == 1);
    bench.link.dropping = 1;
    EXPECT(heard(BYTES(0x10, 0x40, 0x40, 0x16)) == 0);

    begins("link: expected");
    bench.link.expected = 0;
    ANSWERED(0x73, BYTES(0xF0, 0x09, 0, 1, 0, 1), 0, (const uint8_t *)"", 0);
    EXPECT(!bench.link.expected);
    ANSWERED(0x53, BYTES(0xF0, 0x09, 0, 1, 0, 1), 0xF3, BYTES(0xF0, 0x89, 0, 1, 0, 0, 5));
    EXPECT(bench.link.expected);

    begins("link: send");
    bench.link.send = 0;
    ANSWERED(0x73, BYTES(0xF0, 0x09, 0, 1, 0, 1), 0xD3, BYTES(0xF0, 0x89, 0, 1, 0, 0, 5));
    EXPECT(!bench.link.send && heard(BYTES(0xE5)) == 0 && bench.link.send && bench.link.held == 0);

    begins("link: outstanding, held, resends");
    EXPECT(framed(0xF3, message, sizeof message, bench.link.outstanding) == 261);
    memcpy(frame, bench.link.outstanding, bench.link.held = 261);
    for (uint8_t n = 1; n <= 3; n++) {
        EXPECT(called(TAGOBRELIN_ACK_WAIT_OVER, 0, 0, 0) == 261 && memcmp(bench.out, frame, 261) == 0);
        EXPECT(bench.link.resends == n && bench.link.held == 261);
    }
    bench.link.send = 0;
    REFUSED(TAGOBRELIN_BAD_LINK, TAGOBRELIN_ACK_WAIT_OVER, 0, 0, 0);
    bench.link.send = 1;
    EXPECT(called(TAGOBRELIN_ACK_WAIT_OVER, 0, 0, 0) == 4 && memcmp(bench.out, "\x10\xC0\xC0\x16", 4) == 0);
    EXPECT(bench.link.resends == 0 && bench.link.held == 0 && is_zero(bench.link.outstanding, 261));
    EXPECT(called(TAGOBRELIN_ACK_WAIT_OVER, 0, 0, 0) == 0);
}

static void parameters(void)
{
    uint8_t answer[254] = {0xF0, 0x87, 0, 5, 0, 248};
    begins("parameter bytes, and the most that is sent: 262 bytes");
    for (size_t i = 0; i < 255; i++)
        bench.parameters[i] = (uint8_t)(i + 1);
    bench.parameter_count = 255;
    for (size_t i = 0; i < 248; i++)
        answer[6 + i] = (uint8_t)(5 + i);
    ANSWERED(0x73, BYTES(0xF0, 0x07, 0, 5, 0, 248), 0xF3, answer, sizeof answer);
}

/* all that is lent is as `before` has it, but for the link record */
static void is_as_before(int line)
{
    memcpy(&before.link, &bench.link, sizeof bench.link);
    expect(memcmp(&before, &bench, sizeof bench) == 0, "every other byte is as before", line);
}

#define IS_AS_BEFORE() is_as_before(__LINE__)

static void parameters_set(void)
{
    uint8_t message[254] = {0xF0, 0x08, 0, 2, 0, 248}, frame[261];
    begins("parameter bytes set: the first, the last, three between, 248");
    bench.datapoints[0] = (struct tagobrelin_datapoint){.id = 1, .typecode = 7, .state = 0x18, .value = {0x41}, .mark = 1};
    bench.datapoint_count = 1;
    bench.items[0] = (struct tagobrelin_item){.id = 1, .size = 1, .writable = 1, .bytes = {0x42}};
    bench.item_count = 1;
    for (size_t i = 0; i < sizeof bench.parameters; i++)
        bench.parameters[i] = (uint8_t)(i + 1);
    bench.parameter_count = 254; /* two bytes are not the table's */
    memcpy(&before, &bench, sizeof bench);
    ANSWERED(0x73, BYTES(0xF0, 0x08, 0, 1, 0, 1, 0xC1), 0xF3, BYTES(0xF0, 0x88, 0, 1, 0, 0, 0));
    before.parameters[0] = 0xC1;
    IS_AS_BEFORE();
    EXPECT(heard(BYTES(0xE5)) == 0);
    ANSWERED(0x53, BYTES(0xF0, 0x08, 0, 254, 0, 1, 0xC2), 0xD3, BYTES(0xF0, 0x88, 0, 254, 0, 0, 0));
    before.parameters[253] = 0xC2;
    IS_AS_BEFORE();
    EXPECT(heard(BYTES(0xE5)) == 0);
    ANSWERED(0x73, BYTES(0xF0, 0x08, 0, 101, 0, 3, 0xC3, 0xC4, 0xC5), 0xF3, BYTES(0xF0, 0x88, 0, 101, 0, 0, 0));
    memcpy(before.parameters + 100, "\xC3\xC4\xC5", 3);
    IS_AS_BEFORE();
    EXPECT(heard(BYTES(0xE5)) == 0);
    for (size_t i = 6; i < sizeof message; i++)
        message[i] = (uint8_t)(i * 11);
    ANSWERED(0x53, message, sizeof message, 0xD3, BYTES(0xF0, 0x88, 0, 2, 0, 0, 0));
    memcpy(before.parameters + 1, message + 6, 248);
    IS_AS_BEFORE();

    begins("parameter bytes not set: error answers, and a refusal at the last byte of a request");
    for (size_t i = 0; i < sizeof bench.parameters; i++)
        bench.parameters[i] = (uint8_t)(i + 1);
    bench.parameter_count = 254;
    memcpy(&before, &bench, sizeof bench);
    ANSWERED(0x73, BYTES(0xF0, 0x08, 0, 253, 0, 3, 0xC1, 0xC2, 0xC3), 0xF3, BYTES(0xF0, 0x88, 0, 255, 0, 0, 7));
    EXPECT(heard(BYTES(0xE5)) == 0);
    ANSWERED(0x53, BYTES(0xF0, 0x08, 0, 0, 0, 1, 0xC1), 0xD3, BYTES(0xF0, 0x88, 0, 0, 0, 0, 7));
    EXPECT(heard(BYTES(0xE5)) == 0);
    ANSWERED(0x73, BYTES(0xF0, 0x08, 0, 0, 0, 0), 0xF3, BYTES(0xF0, 0x88, 0, 0, 0, 0, 6));
    EXPECT(heard(BYTES(0xE5)) == 0);
    ANSWERED(0x53, BYTES(0xF0, 0x08, 0, 1, 0, 2, 0xC1), 0xD3, BYTES(0xF0, 0x88, 0, 1, 0, 0, 10));
    EXPECT(heard(BYTES(0xE5)) == 0);
    IS_AS_BEFORE();
    EXPECT(heard(frame, framed(0x73, message, sizeof message, frame) - 1) == 0);
    bench.room = TAGOBRELIN_ROOM - 1;
    REFUSED(TAGOBRELIN_NO_ROOM, TAGOBRELIN_HOST_BYTE, 0x16, 0, 0);
    bench.room = TAGOBRELIN_ROOM;
    bench.parameter_count = 256;
    REFUSED(TAGOBRELIN_BAD_TABLE, TAGOBRELIN_HOST_BYTE, 0x16, 0, 0);
    bench.parameter_count = 254;
    EXPECT(heard(BYTES(0x16)) == 1 + 14 && memcmp(bench.parameters + 1, message + 6, 248) == 0);
}

/* These are lent where a write would be a fault. */
static const uint8_t site_list[] = {0, 0, 1, 'z', 1, 2, 3, 'a', 'b', 'c', 1, 3, 0, 2, 0, 1, 'n'};
static const uint8_t default_list[] = {1, 2, 2, 'x', 'y', 1, 3, 4, 'p', 'q', 'r', 's', 255, 255, 0};

/* three datapoints, the IDs of the first two in both lists */
static void lend_three(void)
{
    static const uint16_t ids[] = {0x0102, 0x0103, 0x0304};
    for (size_t i = 0; i < COUNT(ids); i++)
        bench.datapoints[i] = (struct tagobrelin_datapoint){.id = ids[i], .typecode = 7, .state = 0x18, .mark = 1};
    bench.datapoint_count = COUNT(ids);
}

/* the request for all strings draws this answer, and nothing else is changed */
static void strings_are(const uint8_t *answer, size_t count, int line)
{
    tagobrelin_fresh_link(&bench.link);
    memcpy(&before, &bench, sizeof bench);
    answered(0x73, BYTES(0xF0, 0x04, 0x01, 0x00, 0xFF, 0xFF), 0xF3, answer, count, line);
    is_as_before(line);
}

#define STRINGS_ARE(...) strings_are(BYTES(0xF0, 0x84, 0x01, 0x00, __VA_ARGS__), __LINE__)

static void texts(void)
{
    begins("lists of texts: the site's text, the default one, none");
    lend_three();
    STRINGS_ARE(0, 3, 0, 0, 0, 0, 0, 0);
    bench.default_texts = default_list;
    bench.default_texts_size = sizeof default_list;
    STRINGS_ARE(0, 3, 0, 2, 'x', 'y', 0, 4, 'p', 'q', 'r', 's', 0, 0);
    bench.site_texts = site_list;
    bench.site_texts_size = sizeof site_list;
    STRINGS_ARE(0, 3, 0, 3, 'a', 'b', 'c', 0, 4, 'p', 'q', 'r', 's', 0, 0);
    bench.default_texts_size = 0;
    STRINGS_ARE(0, 3, 0, 3, 'a', 'b', 'c', 0, 0, 0, 0);
    /* both are one list, and one begins within the other */
    bench.default_texts = site_list;
    bench.default_texts_size = sizeof site_list;
    STRINGS_ARE(0, 3, 0, 3, 'a', 'b', 'c', 0, 0, 0, 0);
    bench.site_texts = default_list;
    bench.site_texts_size = sizeof default_list;
    bench.default_texts = default_list + 5;
    bench.default_texts_size = sizeof default_list - 5;
    STRINGS_ARE(0, 3, 0, 2, 'x', 'y', 0, 4, 'p', 'q', 'r', 's', 0, 0);
    /* and a value within a list, of an event that has none */
    tagobrelin_fresh_link(&bench.link);
    EXPECT(tagobrelin_call(TAGOBRELIN_POLL, 0, 0, 0, default_list + 2, 9, bench.datapoints, bench.datapoint_count,
                           bench.items, 0, bench.parameters, 0, default_list, sizeof default_list, default_list,
                           sizeof default_list, &bench.link, bench.out, bench.room) == 7 + 6 + 3 * 5);

    for (size_t which = 0; which < 2; which++) {
        uint8_t answer[6 + 2 + 30 + 2 + 1] = {0xF0, 0x84, 0x01, 0x00, 0, 2, 0, 30}, *list = bench.texts[which];
        size_t *size = which ? &bench.default_texts_size : &bench.site_texts_size;
        begins(which ? "default texts: each byte" : "site's texts: each byte");
        lend_three();
        bench.datapoint_count = 2;
        memcpy(list, "\x01\x02\x1E", 3);
        memcpy(list + 33, "\x01\x03\x01", 3);
        *size = 37;
        answer[6 + 2 + 30 + 1] = 1;
        for (size_t i = 0; i < 30; i++)
            list[3 + i] = answer[8 + i] = (uint8_t)(0xA0 + i);
        list[36] = answer[40] = 0xFE;
        strings_are(answer, sizeof answer, __LINE__);
        for (size_t i = 0; i < 31; i++) {
            list[i < 30 ? 3 + i : 36] = answer[i < 30 ? 8 + i : 40] = (uint8_t)(i * 5);
            strings_are(answer, sizeof answer, __LINE__);
        }
        /* the second text is that of another ID, by its lower and by its higher byte */
        answer[39] = 0;
        for (size_t at = 33; at < 35; at++) {
            list[at] += 4;
            strings_are(answer, sizeof answer - 1, __LINE__);
            list[at] -= 4;
        }
        /* so is the first one */
        list[1] = 0;
        STRINGS_ARE(0, 2, 0, 0, 0, 1, list[36]);
        list[1] = 2;
        /* the size is that of the first entry */
        *size = 33;
        strings_are(answer, sizeof answer - 1, __LINE__);
        *size = 37;
        /* a length of one less or one more leaves no whole entry behind it */
        for (size_t i = 0; i < 4; i++) {
            uint8_t *length = list + (i < 2 ? 2 : 35), was = *length;
            *length = (uint8_t)(i % 2 ? was + 1 : was - 1);
            REFUSED(TAGOBRELIN_BAD_TABLE, TAGOBRELIN_IDLE_MARK, 0, 0, 0);
            *length = was;
        }
        /* cut at each byte */
        for (*size = 0; *size < 37; ++*size)
            if (*size != 0 && *size != 33)
                REFUSED(TAGOBRELIN_BAD_TABLE, (uint8_t)(1 + *size % 6), 0x10, 0x0102, 0);
    }
}

/* This byte of what is lent may be 0 or 1: with any other every event is refused. It is as before then. */
static void is_0_or_1(uint8_t *byte, int32_t number, int line)
{
    uint8_t was = *byte;
    for (int other = 2; other < 256; other++) {
        *byte = (uint8_t)other;
        refused(number, (uint8_t)(1 + other % 6), (uint8_t)other, 1, 0, line);
    }
    *byte = was;
}

#define IS_0_OR_1(byte, number) is_0_or_1(&(byte), number, __LINE__)

static void refusals(void)
{
    begins("-1: datapoints");
    bench.datapoint_count = 2;
    for (size_t i = 0; i < 2; i++)
        bench.datapoints[i].id = (uint16_t)(i + 1);
    EXPECT(called(TAGOBRELIN_IDLE_MARK, 0, 0, 0) == 0);
    bench.datapoints[1].id = 1;
    REFUSED(TAGOBRELIN_BAD_TABLE, TAGOBRELIN_IDLE_MARK, 0, 0, 0);
    bench.datapoints[1].id = 2;
    bench.datapoints[0].id = 0;
    REFUSED(TAGOBRELIN_BAD_TABLE, TAGOBRELIN_HOST_BYTE, 0x10, 0, 0);
    bench.datapoints[0].id = 1;
    bench.datapoints[1].typecode = 15;
    REFUSED(TAGOBRELIN_BAD_TABLE, TAGOBRELIN_POLL, 0, 0, 0);
    bench.datapoints[1].typecode = 0;
    bench.datapoints[1].state = 0x20;
    REFUSED(TAGOBRELIN_BAD_TABLE, TAGOBRELIN_OUTCOME, 0, 1, 0);
    bench.datapoints[1].state = 0;
    bench.datapoints[1].value[0] = 2;
    REFUSED(TAGOBRELIN_BAD_TABLE, TAGOBRELIN_ACK_WAIT_OVER, 0, 0, 0);
    bench.datapoints[1].value[0] = 1;
    EXPECT(called(TAGOBRELIN_IDLE_MARK, 0, 0, 0) == 0);
    for (size_t i = 1; i < 14; i++) {
        bench.datapoints[1].value[i] = 0x80;
        REFUSED(TAGOBRELIN_BAD_TABLE, TAGOBRELIN_IDLE_MARK, 0, 0, 0);
        bench.datapoints[1].value[i] = 0;
    }
    for (uint8_t typecode = 0; typecode < 15; typecode++) {
        bench.datapoints[1].typecode = typecode;
        IS_0_OR_1(bench.datapoints[1].mark, TAGOBRELIN_BAD_TABLE);
    }
    bench.datapoints[1].mark = 1;
    EXPECT(called(TAGOBRELIN_IDLE_MARK, 0, 0, 0) == 0);
    for (size_t i = 0; i < 1001; i++)
        bench.datapoints[i].id = (uint16_t)(i + 1);
    bench.datapoint_count = 1000;
    EXPECT(called(TAGOBRELIN_IDLE_MARK, 0, 0, 0) == 0);
    bench.datapoint_count = 1001;
    REFUSED(TAGOBRELIN_BAD_TABLE, TAGOBRELIN_IDLE_MARK, 0, 0, 0);

    begins("-1: items, parameter bytes");
    for (size_t i = 0; i < 65; i++)
        bench.items[i] = (struct tagobrelin_item){.id = (uint16_t)(i + 1), .size = 1};
    bench.item_count = 64;
    bench.parameter_count = 255;
    EXPECT(called(TAGOBRELIN_IDLE_MARK, 0, 0, 0) == 0);
    bench.item_count = 65;
    REFUSED(TAGOBRELIN_BAD_TABLE, TAGOBRELIN_IDLE_MARK, 0, 0, 0);
    bench.item_count = 2;
    bench.items[1].id = 1;
    REFUSED(TAGOBRELIN_BAD_TABLE, TAGOBRELIN_IDLE_MARK, 0, 0, 0);
    bench.items[1].id = 2;
    bench.items[1].size = 17;
    REFUSED(TAGOBRELIN_BAD_TABLE, TAGOBRELIN_IDLE_MARK, 0, 0, 0);
    bench.items[1].size = 0;
    REFUSED(TAGOBRELIN_BAD_TABLE, TAGOBRELIN_IDLE_MARK, 0, 0, 0);
    bench.items[1].size = 1;
    for (size_t i = 1; i < 16; i++) {
        bench.items[1].bytes[i] = 1;
        REFUSED(TAGOBRELIN_BAD_TABLE, TAGOBRELIN_IDLE_MARK, 0, 0, 0);
        bench.items[1].bytes[i] = 0;
    }
    for (uint8_t size = 1; size < 17; size++) {
        bench.items[1].size = size;
        IS_0_OR_1(bench.items[1].writable, TAGOBRELIN_BAD_TABLE);
    }
    bench.items[1].writable = 1;
    EXPECT(called(TAGOBRELIN_IDLE_MARK, 0, 0, 0) == 0);
    bench.parameter_count = 256;
    REFUSED(TAGOBRELIN_BAD_TABLE, TAGOBRELIN_IDLE_MARK, 0, 0, 0);

    for (size_t which = 0; which < 2; which++) {
        uint8_t *list = bench.texts[which];
        size_t *size = which ? &bench.default_texts_size : &bench.site_texts_size;
        begins(which ? "-1: default texts" : "-1: site's texts");
        memcpy(list, "\0\0\0\0\1\1z\1\0\0", *size = 10);
        for (uint8_t event = 1; event < 5; event++)
            EXPECT(called(event, 0, 0, 0) == 0);
        list[7] = 0; /* 0, 1, 0 */
        for (uint8_t event = 1; event < 7; event++)
            REFUSED(TAGOBRELIN_BAD_TABLE, event, 0x68, 1, 0);
        list[8] = 1; /* 0, 1, 1 */
        REFUSED(TAGOBRELIN_BAD_TABLE, TAGOBRELIN_IDLE_MARK, 0, 0, 0);
        list[8] = 2; /* 0, 1, 2 */
        EXPECT(called(TAGOBRELIN_IDLE_MARK, 0, 0, 0) == 0);
        list[4] = 0; /* 0, 0, 2 */
        REFUSED(TAGOBRELIN_BAD_TABLE, TAGOBRELIN_IDLE_MARK, 0, 0, 0);
        for (uint8_t length = 29; length < 40; length++) {
            list[2] = length;
            *size = 3u + length;
            if (length < 31)
                EXPECT(called(TAGOBRELIN_IDLE_MARK, 0, 0, 0) == 0);
            else
                REFUSED(TAGOBRELIN_BAD_TABLE, TAGOBRELIN_IDLE_MARK, 0, 0, 0);
        }
    }

    begins("-2: the link record");
    IS_0_OR_1(bench.link.dropping, TAGOBRELIN_BAD_LINK);
    IS_0_OR_1(bench.link.expected, TAGOBRELIN_BAD_LINK);
    IS_0_OR_1(bench.link.send, TAGOBRELIN_BAD_LINK);
    for (size_t i = 0; i < 260; i++) {
        bench.link.receiver[i] = 1;
        REFUSED(TAGOBRELIN_BAD_LINK, TAGOBRELIN_HOST_BYTE, 0x16, 0, 0);
        bench.link.receiver[i] = 0;
    }
    for (size_t i = 0; i < 261; i++) {
        bench.link.outstanding[i] = 1;
        REFUSED(TAGOBRELIN_BAD_LINK, TAGOBRELIN_POLL, 0, 0, 0);
        bench.link.outstanding[i] = 0;
    }
    bench.link.received = 261;
    REFUSED(TAGOBRELIN_BAD_LINK, TAGOBRELIN_IDLE_MARK, 0, 0, 0);
    bench.link.received = 65535;
    REFUSED(TAGOBRELIN_BAD_LINK, TAGOBRELIN_HOST_BYTE, 0, 0, 0);
    bench.link.received = 1;
    REFUSED(TAGOBRELIN_BAD_LINK, TAGOBRELIN_IDLE_MARK, 0, 0, 0);
    bench.link.received = 0;
    bench.link.held = 262;
    REFUSED(TAGOBRELIN_BAD_LINK, TAGOBRELIN_ACK_WAIT_OVER, 0, 0, 0);
    bench.link.held = 0;
    bench.link.resends = 1;
    REFUSED(TAGOBRELIN_BAD_LINK, TAGOBRELIN_ACK_WAIT_OVER, 0, 0, 0);
    bench.link.held = (uint16_t)framed(0xF3, BYTES(0xF0), bench.link.outstanding);
    bench.link.resends = 4;
    REFUSED(TAGOBRELIN_BAD_LINK, TAGOBRELIN_ACK_WAIT_OVER, 0, 0, 0);
    bench.link.resends = 3;
    EXPECT(called(TAGOBRELIN_IDLE_MARK, 0, 0, 0) == 0);
    IS_0_OR_1(bench.link.send, TAGOBRELIN_BAD_LINK);

    begins("-3: room");
    bench.room = TAGOBRELIN_ROOM - 1;
    REFUSED(TAGOBRELIN_NO_ROOM, TAGOBRELIN_HOST_BYTE, 0x10, 0, 0);
    bench.room = 0;
    REFUSED(TAGOBRELIN_NO_ROOM, TAGOBRELIN_POLL, 0, 0, 0);
    bench.room = TAGOBRELIN_ROOM;
    EXPECT(called(TAGOBRELIN_POLL, 0, 0, 0) == 0);

    begins("-4: bus events");
    bench.datapoints[0] = (struct tagobrelin_datapoint){.id = 7, .typecode = 0};
    bench.datapoint_count = 1;
    bench.value_count = 1;
    EXPECT(called(TAGOBRELIN_BUS_VALUE, 0, 7, 0) == 0);
    ((uint8_t *)&bench.datapoints[0])[21] = 0xA5;
    REFUSED(TAGOBRELIN_BAD_BUS_EVENT, TAGOBRELIN_BUS_VALUE, 0, 6, 0);
    REFUSED(TAGOBRELIN_BAD_BUS_EVENT, TAGOBRELIN_BUS_VALUE, 0, 0, 0);
    REFUSED(TAGOBRELIN_BAD_BUS_EVENT, TAGOBRELIN_OUTCOME, 0, 8, TAGOBRELIN_SENT);
    bench.value[0] = 2;
    REFUSED(TAGOBRELIN_BAD_BUS_EVENT, TAGOBRELIN_BUS_VALUE, 0, 7, 0);
    bench.value[0] = 1;
    bench.value_count = 2;
    REFUSED(TAGOBRELIN_BAD_BUS_EVENT, TAGOBRELIN_BUS_VALUE, 0, 7, 0);
    bench.value_count = 0;
    REFUSED(TAGOBRELIN_BAD_BUS_EVENT, TAGOBRELIN_BUS_VALUE, 0, 7, 0);

    begins("-100: no event");
    REFUSED(TAGOBRELIN_NO_EVENT, 0, 0x10, 0, 0);
    for (int event = 7; event < 256; event++)
        REFUSED(TAGOBRELIN_NO_EVENT, (uint8_t)event, 0x10, 0, 0);
    for (int outcome = 3; outcome < 256; outcome++)
        REFUSED(TAGOBRELIN_NO_EVENT, TAGOBRELIN_OUTCOME, 0, 0, (uint8_t)outcome);
    for (uint8_t event = 1; event < 5; event++)
        EXPECT(called(event, 0, 65535, 255) == 0);

    begins("several refusals at once: the first");
    bench.datapoint_count = 1;
    bench.link.resends = 9;
    bench.room = 5;
    REFUSED(TAGOBRELIN_NO_EVENT, TAGOBRELIN_OUTCOME, 0, 9, 3);
    REFUSED(TAGOBRELIN_BAD_TABLE, TAGOBRELIN_BUS_VALUE, 0, 9, 0);
    bench.datapoints[0].id = 1;
    REFUSED(TAGOBRELIN_BAD_LINK, TAGOBRELIN_BUS_VALUE, 0, 9, 0);
    bench.link.resends = 0;
    REFUSED(TAGOBRELIN_NO_ROOM, TAGOBRELIN_BUS_VALUE, 0, 9, 0);
    bench.room = TAGOBRELIN_ROOM;
    REFUSED(TAGOBRELIN_BAD_BUS_EVENT, TAGOBRELIN_BUS_VALUE, 0, 9, 0);
}

/* The reading of this ID has these members, the float by its bits; and no byte of the table is changed, padding too. */
static void reads(uint16_t id, int32_t number, uint32_t whole, uint32_t bits, int line)
{
    uint32_t value;
    memcpy(&before, &bench, sizeof bench);
    struct tagobrelin_reading reading = tagobrelin_read(id, bench.datapoints, bench.datapoint_count);
    memcpy(&value, &reading.value, sizeof value);
    if ((reading.number != number || reading.whole != whole || value != bits) && wrong < 10)
        printf("    reads %d, %u, %08X, not %d, %u, %08X\n", (int)reading.number, (unsigned)reading.whole,
               (unsigned)value, (int)number, (unsigned)whole, (unsigned)bits);
    expect(reading.number == number, "the reading's number", line);
    expect(reading.whole == whole, "its whole number", line);
    expect(value == bits, "its value", line);
    expect(memcmp(&before, &bench, sizeof bench) == 0, "a reading changes no byte", line);
}

#define READS(id, number, whole, bits) reads(id, number, whole, bits, __LINE__)

/* one more datapoint, valid, updated and marked, with padding of its own; its value is 0 */
static struct tagobrelin_datapoint *lend(uint16_t id, uint8_t dpt, uint8_t typecode)
{
    struct tagobrelin_datapoint *d = &bench.datapoints[bench.datapoint_count++];
    d->id = id;
    d->typecode = typecode;
    d->dpt = dpt;
    d->state = 0x18;
    d->mark = 1;
    return d;
}

/* These are read where a write would be a fault. */
static const struct tagobrelin_datapoint in_flash[] = {
    {.id = 0x0102, .typecode = 8, .dpt = 9, .state = 0x10, .value = {0x0C, 0x1A}},
    {.id = 0x0304, .typecode = 7, .dpt = 5, .state = 0x10, .value = {0xFE}},
};

static void readings(void)
{
    static const struct {
        uint16_t octets;
        uint32_t bits;
    } two_octets[] = {
        {0x0000, 0x00000000},
        {0x7800, 0x00000000}, /* M is 0 */
        {0x0001, 0x3C23D70A}, /* 0.01 */
        {0x87FF, 0xBC23D70A}, /* -0.01 */
        {0x0191, 0x408051EC}, /* 4.01 */
        {0x0C1A, 0x41A80000}, /* 21 */
        {0x8000, 0xC1A3D70A}, /* -20.48 */
        {0x8A24, 0xC1F00000}, /* -30 */
        {0xFFFF, 0xC3A3D70A}, /* -327.68 */
        {0x7FFE, 0x4923AE14}, /* 670433.28 */
        {0xF800, 0xC923D70A}, /* -671088.64 */
    };
    /* 0, minus 0, the smallest, a subnormal, the smallest that is none, 1, two that show each byte, the largest */
    static const uint32_t singles[] = {0x00000000, 0x80000000, 0x00000001, 0x807FFFFF, 0x00800000,
                                       0x3F800000, 0x12345678, 0x9ABCDEF0, 0x7F7FFFFF, 0xFF7FFFFF};
    static const uint32_t no_numbers[] = {0x7F800000, 0xFF800000, 0x7F800001, 0x7FC00000, 0xFFFFFFFF};

    begins("reading: a switch, a count");
    struct tagobrelin_datapoint *d = lend(0x0102, 1, 0), *count = lend(0x0304, 5, 7);
    READS(0x0102, TAGOBRELIN_SWITCH, 0, 0);
    d->value[0] = 1;
    READS(0x0102, TAGOBRELIN_SWITCH, 1, 0);
    for (int byte = 0; byte < 256; byte++) {
        count->value[0] = (uint8_t)byte;
        READS(0x0304, TAGOBRELIN_COUNT, (uint32_t)byte, 0);
    }

    begins("reading: a two-octet value, and 7FFF");
    lend(1, 9, 8);
    d = lend(2, 9, 8);
    for (size_t i = 0; i < COUNT(two_octets); i++) {
        d->value[0] = (uint8_t)(two_octets[i].octets >> 8);
        d->value[1] = (uint8_t)two_octets[i].octets;
        READS(2, TAGOBRELIN_TWO_OCTET, 0, two_octets[i].bits);
    }
    memcpy(d->value, "\x7F\xFF", 2);
    READS(2, TAGOBRELIN_UNREADABLE, 0, 0);

    begins("reading: a single, and infinite ones and those that are no number");
    lend(1, 14, 10);
    d = lend(2, 14, 10);
    for (size_t i = 0; i < COUNT(singles) + COUNT(no_numbers); i++) {
        bool is_number = i < COUNT(singles);
        uint32_t bits = is_number ? singles[i] : no_numbers[i - COUNT(singles)];
        for (size_t k = 0; k < 4; k++)
            d->value[k] = (uint8_t)(bits >> (24 - 8 * k));
        READS(2, is_number ? TAGOBRELIN_SINGLE : TAGOBRELIN_UNREADABLE, 0, is_number ? bits : 0);
    }

    begins("reading: each DPT with each type code, each state");
    d = lend(7, 0, 0);
    for (int dpt = 0; dpt < 256; dpt++)
        for (uint8_t typecode = 0; typecode < 15; typecode++) {
            d->dpt = (uint8_t)dpt;
            d->typecode = typecode;
            int32_t number = dpt == 1 && typecode == 0     ? TAGOBRELIN_SWITCH
                             : dpt == 5 && typecode == 7   ? TAGOBRELIN_COUNT
                             : dpt == 9 && typecode == 8   ? TAGOBRELIN_TWO_OCTET
                             : dpt == 14 && typecode == 10 ? TAGOBRELIN_SINGLE
                                                           : TAGOBRELIN_UNREADABLE;
            for (uint8_t state = 0; state < 32; state++) {
                d->state = state;
                READS(7, state & 0x10 ? number : TAGOBRELIN_UNREADABLE, 0, 0);
            }
        }

    begins("reading: a poll behind it tells what was read");
    d = lend(2, 5, 7);
    d->value[0] = 0x42;
    READS(2, TAGOBRELIN_COUNT, 0x42, 0);
    uint8_t frame[261];
    size_t size = framed(0xF3, BYTES(0xF0, 0xC1, 0, 2, 0, 1, 0, 2, 0x18, 1, 0x42), frame);
    EXPECT(called(TAGOBRELIN_POLL, 0, 0, 0) == (int32_t)size && memcmp(bench.out, frame, size) == 0);

    begins("reading: a table that cannot be written, and a part of one");
    struct tagobrelin_reading reading = tagobrelin_read(0x0102, in_flash, COUNT(in_flash));
    EXPECT(reading.number == TAGOBRELIN_TWO_OCTET && reading.whole == 0 && reading.value == 21);
    reading = tagobrelin_read(0x0304, in_flash, COUNT(in_flash));
    EXPECT(reading.number == TAGOBRELIN_COUNT && reading.whole == 0xFE && reading.value == 0);
    reading = tagobrelin_read(0x0304, in_flash, 1);
    EXPECT(reading.number == TAGOBRELIN_ABSENT && reading.whole == 0 && reading.value == 0);
    reading = tagobrelin_read(0x0304, in_flash + 1, 1);
    EXPECT(reading.number == TAGOBRELIN_COUNT && reading.whole == 0xFE && reading.value == 0);

    begins("reading: each of 1000 datapoints");
    for (uint16_t i = 0; i < 1001; i++)
        lend((uint16_t)(5 + 3 * i), 5, 7)->value[0] = (uint8_t)i;
    bench.datapoint_count = 1000;
    for (uint16_t i = 0; i < 1000; i++) {
        struct tagobrelin_reading given = tagobrelin_read((uint16_t)(5 + 3 * i), bench.datapoints, 1000);
        EXPECT(given.number == TAGOBRELIN_COUNT && given.whole == (uint8_t)i);
    }

    begins("reading, -4: no such ID");
    READS(0, TAGOBRELIN_ABSENT, 0, 0);
    READS(1, TAGOBRELIN_ABSENT, 0, 0);
    lend(0x0102, 1, 0);
    lend(0x0304, 5, 7);
    for (uint32_t id = 0; id < 0x10000; id++)
        if (id != 0x0102 && id != 0x0304 && (id < 0x0400 || id % 257 == 0 || id > 0xFFF0))
            READS((uint16_t)id, TAGOBRELIN_ABSENT, 0, 0);

    begins("reading, -1: datapoints; before -4");
    for (uint16_t i = 0; i < 1001; i++)
        lend((uint16_t)(i + 1), 5, 7);
    d = &bench.datapoints[1];
    READS(1, TAGOBRELIN_BAD_TABLE, 0, 0);
    READS(2000, TAGOBRELIN_BAD_TABLE, 0, 0);
    bench.datapoint_count = 1000;
    READS(1000, TAGOBRELIN_COUNT, 0, 0);
    READS(2000, TAGOBRELIN_ABSENT, 0, 0);
    bench.datapoint_count = 2;
    const struct tagobrelin_datapoint sound = *d;
    for (int kind = 0; kind < 7; kind++) {
        *d = sound;
        if (kind < 2)
            d->id = (uint16_t)kind; /* does not rise */
        d->typecode = kind == 2 ? 15 : kind == 4 ? 6 : 7;
        d->state = kind == 3 ? 0x38 : 0x18;
        d->value[0] = kind == 4 ? 0x80 : 0;
        d->value[13] = kind == 5;
        d->mark = kind == 6 ? 2 : 1;
        READS(1, TAGOBRELIN_BAD_TABLE, 0, 0);
        READS(2, TAGOBRELIN_BAD_TABLE, 0, 0);
        READS(0, TAGOBRELIN_BAD_TABLE, 0, 0);
    }
    *d = sound;
    READS(2, TAGOBRELIN_COUNT, 0, 0);
}

/* A burst lies in memory that can only be read, its run of places in memory that can be written, and both end at a page
 * that cannot be touched. Where pages have 4096 bytes, a run of 2048 places begins at such a page too. */
enum { PLACES = TAGOBRELIN_LONGEST_BURST, BURST_ROOM = 8192, RUN_ROOM = PLACES * sizeof(uint16_t) };

static uint8_t *burst_end;
static uint16_t *run;

/* so many bytes, between pages that cannot be touched; they end at the second */
static uint8_t *walled(size_t size)
{
    size_t page = (size_t)sysconf(_SC_PAGESIZE), inside = (size + page - 1) / page * page;
    uint8_t *at = mmap(NULL, inside + 2 * page, PROT_NONE, MAP_PRIVATE | MAP_ANONYMOUS, -1, 0);
    if (at == MAP_FAILED || mprotect(at + page, inside, PROT_READ | PROT_WRITE) != 0) {
        perror("layout_test: mmap");
        exit(1);
    }
    return at + page + inside - size;
}

static void protect(void *at, size_t size, int how)
{
    size_t page = (size_t)sysconf(_SC_PAGESIZE);
    uint8_t *end = (uint8_t *)at + size, *start = end - (size + page - 1) / page * page;
    expect(mprotect(start, (size_t)(end - start), how) == 0, "memory is protected", __LINE__);
}

/* what the run holds before a burst is read */
static uint16_t unneeded(size_t place)
{
    return (uint16_t)(0xA5A5 + place);
}

/* the burst as it lies before the wall */
static const uint8_t *lend_burst(const uint8_t *bytes, size_t count)
{
    protect(burst_end - BURST_ROOM, BURST_ROOM, PROT_READ | PROT_WRITE);
    if (count > 0)
        memcpy(burst_end - count, bytes, count);
    protect(burst_end - BURST_ROOM, BURST_ROOM, PROT_READ);
    return burst_end - count;
}

/* The members of a burst are these, the first places its starts, and the places behind them as they were. */
static void holds(const uint8_t *bytes, size_t count, int32_t number, uint16_t frames, uint16_t acknowledgements,
                  const uint16_t *starts, int line)
{
    const uint8_t *lent = lend_burst(bytes, count);
    size_t found = (size_t)frames + acknowledgements;
    for (size_t i = 0; i < PLACES; i++)
        run[i] = unneeded(i);
    struct tagobrelin_burst burst = tagobrelin_read_burst(lent, count, run, PLACES);
    if ((burst.number != number || burst.frames != frames || burst.acknowledgements != acknowledgements) && wrong < 10)
        printf("    %zu bytes: %d, %u, %u, not %d, %u, %u\n", count, (int)burst.number, burst.frames,
               burst.acknowledgements, (int)number, frames, acknowledgements);
    expect(burst.number == number, "the burst's number", line);
    expect(burst.frames == frames, "its frames", line);
    expect(burst.acknowledgements == acknowledgements, "its acknowledgements", line);
    for (size_t i = 0; i < PLACES; i++)
        expect(run[i] == (i < found ? starts[i] : unneeded(i)), i < found ? "a start" : "a place not needed", line);
}

#define STARTS(...) (const uint16_t[]){__VA_ARGS__}
#define HOLDS(...) holds(__VA_ARGS__, __LINE__)

/* The burst is refused, and no place is written: the run lies where a write would be a fault. */
static void burst_refused(size_t count, size_t places, int line)
{
    const uint8_t *lent = lend_burst((const uint8_t[BURST_ROOM]){0xE5}, count);
    protect(run, RUN_ROOM, PROT_READ);
    struct tagobrelin_burst burst = tagobrelin_read_burst(lent, count, run, places);
    expect(burst.number == TAGOBRELIN_BAD_BURST && burst.number == -8, "the refusal's number", line);
    expect(burst.frames == 0 && burst.acknowledgements == 0, "no frames, no acknowledgements", line);
    protect(run, RUN_ROOM, PROT_READ | PROT_WRITE);
}

/* a frame of 7 bytes, a reset, a frame of 9 bytes with an E5 and a 16 within, an acknowledgement */
static const uint8_t pieces[] = {0x68, 1, 1, 0x68, 0x73, 0x73, 0x16, 0x10, 0x40, 0x40, 0x16,
                                 0x68, 3, 3, 0x68, 0x53, 0xE5, 0x16, 0x4E, 0x16, 0xE5};

static void bursts(void)
{
    uint8_t many[TAGOBRELIN_LONGEST_BURST];
    uint16_t starts[PLACES];
    burst_end = walled(BURST_ROOM) + BURST_ROOM;
    run = (uint16_t *)(void *)walled(RUN_ROOM);

    begins("burst: number, frames, acknowledgements, starts");
    EXPECT(TAGOBRELIN_CLEAN == 1 && TAGOBRELIN_DAMAGED == 2 && TAGOBRELIN_UNFINISHED == 3);
    HOLDS(pieces, 0, TAGOBRELIN_CLEAN, 0, 0, NULL);
    HOLDS(BYTES(0xE5), TAGOBRELIN_CLEAN, 0, 1, STARTS(0));
    HOLDS(pieces, sizeof pieces, TAGOBRELIN_CLEAN, 3, 1, STARTS(0, 7, 11, 20));
    HOLDS(BYTES(0xE5, 0xE5, 0x10, 0xC0, 0xC0, 0x16, 0xE5), TAGOBRELIN_CLEAN, 1, 3, STARTS(0, 1, 2, 6));
    HOLDS(BYTES(0x00), TAGOBRELIN_DAMAGED, 0, 0, NULL);
    HOLDS(BYTES(0xE5, 0xE5, 0x10, 0x40, 0x40, 0x16, 0x68, 0x00, 0xE5), TAGOBRELIN_DAMAGED, 1, 2, STARTS(0, 1, 2));
    HOLDS(BYTES(0xE5, 0x10, 0x40, 0x40, 0x16, 0x10, 0x40, 0x41, 0x16, 0xE5), TAGOBRELIN_DAMAGED, 1, 1, STARTS(0, 1));
    HOLDS(BYTES(0x68), TAGOBRELIN_UNFINISHED, 0, 0, NULL);
    HOLDS(BYTES(0x10, 0x40, 0x40, 0x16, 0x10, 0x41, 0x41, 0x16, 0xE5, 0x68, 0xFF), TAGOBRELIN_UNFINISHED, 2, 1,
          STARTS(0, 4, 8));

    begins("burst: cut and changed at each byte");
    for (size_t cut = 1; cut < sizeof pieces; cut++) {
        bool is_clean = cut == 7 || cut == 11 || cut == 20;
        uint16_t frames = cut < 7 ? 0 : cut < 11 ? 1 : cut < 20 ? 2 : 3;
        HOLDS(pieces, cut, is_clean ? TAGOBRELIN_CLEAN : TAGOBRELIN_UNFINISHED, frames, 0, STARTS(0, 7, 11));
    }
    for (size_t at = 0; at < 20; at++)
        for (int byte = 0; byte < 256; byte++) {
            bool is_first = at == 0 || at == 7 || at == 11; /* each of the forms may begin there */
            bool is_length = at == 1 || at == 12, is_content = at == 4 || at == 8 || (at > 14 && at < 18);
            bool is_found_later = is_content || (is_length && byte != 0);
            uint16_t frames = at < 7 ? 0 : at < 11 ? 1 : 2;
            if (byte == pieces[at] || (is_first && (byte == 0xE5 || byte == 0x10 || byte == 0x68)))
                continue;
            memcpy(many, pieces, sizeof pieces);
            many[at] = (uint8_t)byte;
            HOLDS(many, sizeof pieces, TAGOBRELIN_DAMAGED, frames, 0, STARTS(0, 7));
            /* and where it is the last byte: another C, control or data is found later, and another L that is not 0 */
            HOLDS(many, at + 1, is_found_later ? TAGOBRELIN_UNFINISHED : TAGOBRELIN_DAMAGED, frames, 0, STARTS(0, 7));
        }
    for (size_t cut = 2; cut <= 6; cut++)
        HOLDS((const uint8_t *)"\x68\0\0\x68\0\x16", cut, TAGOBRELIN_DAMAGED, 0, 0, NULL);

    begins("burst: a frame of each length, whole and cut");
    for (size_t count = 0; count < 255; count++) {
        uint8_t message[254];
        memset(message, 0xE5, sizeof message);
        size_t size = framed(0x73, message, count, many);
        many[size] = 0xE5;
        HOLDS(many, size, TAGOBRELIN_CLEAN, 1, 0, STARTS(0));
        HOLDS(many, size + 1, TAGOBRELIN_CLEAN, 1, 1, STARTS(0, (uint16_t)size));
        for (size_t cut = 1; cut < size; cut++)
            HOLDS(many, cut, TAGOBRELIN_UNFINISHED, 0, 0, NULL);
    }

    begins("burst: 2048 acknowledgements, 512 frames, and every place of the run");
    memset(many, 0xE5, sizeof many);
    for (size_t i = 0; i < PLACES; i++)
        starts[i] = (uint16_t)i;
    HOLDS(many, sizeof many, TAGOBRELIN_CLEAN, 0, 2048, starts);
    HOLDS(many, 2047, TAGOBRELIN_CLEAN, 0, 2047, starts);
    for (size_t i = 0; i < 512; i++) {
        memcpy(many + 4 * i, "\x10\x40\x40\x16", 4);
        starts[i] = (uint16_t)(4 * i);
    }
    HOLDS(many, sizeof many, TAGOBRELIN_CLEAN, 512, 0, starts);
}

/* This is read where a write would be a fault. */
static const uint8_t burst_in_flash[] = {0xE5, 0x10, 0x40, 0x40, 0x16, 0xE5, 0x10};

static void bursts_in_memory(void)
{
    begins("burst: at each address, and in a longer run");
    for (size_t shift = 0; shift < 16; shift++) {
        static uint8_t bytes[sizeof pieces + 16];
        static uint16_t longer[3000], as_before[3000];
        memcpy(bytes + shift, pieces, sizeof pieces);
        memset(longer, 0x5A, sizeof longer);
        memcpy(as_before, longer, sizeof longer);
        memcpy(as_before + shift, STARTS(0, 7, 11, 20), 4 * sizeof(uint16_t));
        struct tagobrelin_burst burst =
            tagobrelin_read_burst(bytes + shift, sizeof pieces, longer + shift, COUNT(longer) - shift);
        EXPECT(burst.number == TAGOBRELIN_CLEAN && burst.frames == 3 && burst.acknowledgements == 1);
        EXPECT(memcmp(longer, as_before, sizeof longer) == 0);
        EXPECT(memcmp(bytes + shift, pieces, sizeof pieces) == 0);
    }

    begins("burst: one that cannot be written, and a part of it");
    struct tagobrelin_burst burst = tagobrelin_read_burst(burst_in_flash, sizeof burst_in_flash, run, PLACES);
    EXPECT(burst.number == TAGOBRELIN_UNFINISHED && burst.frames == 1 && burst.acknowledgements == 2);
    burst = tagobrelin_read_burst(burst_in_flash + 1, 5, run, PLACES);
    EXPECT(burst.number == TAGOBRELIN_CLEAN && burst.frames == 1 && burst.acknowledgements == 1);

    begins("burst, -8: more than 2048 bytes, less than 2048 places");
    static const size_t counts[] = {0, 1, 2047, 2048, 2049, 2050, 4096, BURST_ROOM};
    static const size_t places[] = {0, 1, 2, 1024, 2046, 2047, 2048};
    for (size_t i = 0; i < COUNT(counts); i++)
        for (size_t k = 0; k < COUNT(places); k++)
            if (counts[i] > 2048 || places[k] < 2048)
                burst_refused(counts[i], places[k], __LINE__);
}

int main(void)
{
    fresh();
    datapoints();
    items();
    link_record();
    parameters();
    parameters_set();
    texts();
    refusals();
    readings();
    bursts();
    bursts_in_memory();
    ends();
    return failed != 0;
}
