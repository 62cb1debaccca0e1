/* The face of tagobrelin.h, each function of it, and the README's examples of a reading and of bursts, compiled as C
 * and as C++ by host/face_test. Tells what is wrong. */
#include <stdio.h>
#include <string.h>

#include "burst_example.c"
#include "reading_example.c"
#include "tagobrelin.h"

#define TEXT_OF(number) #number
#define TEXT(number) TEXT_OF(number)
#define VERSION_BY_NUMBERS \
    TEXT(TAGOBRELIN_VERSION_MAJOR) "." TEXT(TAGOBRELIN_VERSION_MINOR) "." TEXT(TAGOBRELIN_VERSION_PATCH)
#define EXPECT(fact) expect(fact, #fact, __LINE__)

static struct tagobrelin_datapoint datapoints[1];
static struct tagobrelin_item items[1];
static uint8_t parameters[248];
static const uint8_t site_texts[] = {0, 5, 4, 'L', 'a', 'm', 'p'}, default_texts[] = {0, 5, 2, 'D', 'P', 0, 6, 0};
static struct tagobrelin_server server, empty;
static int failed;

static void expect(int fact, const char *text, int line)
{
    if (!fact) {
        printf("    face_test.c:%d: %s\n", line, text);
        failed = 1;
    }
}

static void set_up(void)
{
    datapoints[0].id = 5;
    items[0].id = 1;
    items[0].size = 2;
    items[0].bytes[0] = 0xC5;
    server.datapoints = datapoints;
    server.datapoint_count = 1;
    server.items = items;
    server.item_count = 1;
    server.parameters = parameters;
    server.parameter_count = sizeof parameters;
    tagobrelin_start(&server);
    tagobrelin_start(&empty);
}

/* what is answered to the last of these bytes from the host */
static int32_t heard(struct tagobrelin_server *by, const char *bytes, size_t count)
{
    int32_t answer = 0;
    size_t i;
    for (i = 0; i < count; i++)
        answer = tagobrelin_host_byte(by, (uint8_t)bytes[i]);
    return answer;
}

#define HEARD(by, bytes) heard(by, bytes, sizeof bytes - 1)
#define SENT(by, bytes) (memcmp((by)->out, bytes, sizeof bytes - 1) == 0)

static void requests(void)
{
    EXPECT(!tagobrelin_is_outstanding(&server) && !tagobrelin_is_receiving(&server) &&
           !tagobrelin_is_dropping(&server));
    EXPECT(HEARD(&server, "\x68\x07") == 0 && tagobrelin_is_receiving(&server));
    EXPECT(HEARD(&server, "\x07\x68\x73\xF0\x01\x00\x01\x00\x01\x66\x16") == 19 && !tagobrelin_is_receiving(&server));
    EXPECT(SENT(&server, "\xE5\x68\x0C\x0C\x68\xF3\xF0\x81\x00\x01\x00\x01\x00\x01\x02\xC5\x00\x2E\x16"));
    EXPECT(tagobrelin_is_outstanding(&server) == 1);
    EXPECT(tagobrelin_ack_wait_over(&server) == 18 && tagobrelin_ack_wait_over(&server) == 18 &&
           tagobrelin_ack_wait_over(&server) == 18);
    EXPECT(tagobrelin_ack_wait_over(&server) == 4 && SENT(&server, "\x10\xC0\xC0\x16") &&
           !tagobrelin_is_outstanding(&server));
    EXPECT(HEARD(&server, "\x68\x07\x07\x68\x53\xF0\x07\x00\x01\x00\xF8\x43\x16") == TAGOBRELIN_ROOM &&
           tagobrelin_is_outstanding(&server));
    EXPECT(HEARD(&server, "\xE5") == 0 && !tagobrelin_is_outstanding(&server));
    EXPECT(HEARD(&server, "\x68\x00") == 0 && tagobrelin_is_dropping(&server) &&
           HEARD(&server, "\x10\x40\x40\x16") == 0);
    EXPECT(tagobrelin_idle_mark(&server) == 0 && !tagobrelin_is_dropping(&server) &&
           HEARD(&server, "\x10\x40\x40\x16") == 1);
}

/* parameter bytes that a host sets, and gets; and a set that reaches behind the last of 248 */
static void parameter_bytes(void)
{
    EXPECT(HEARD(&server, "\x68\x0A\x0A\x68\x73\xF0\x08\x00\x02\x00\x03\x0A\x0B\x0C\x91\x16") == 15);
    EXPECT(SENT(&server, "\xE5\x68\x08\x08\x68\xF3\xF0\x88\x00\x02\x00\x00\x00\x6D\x16"));
    EXPECT(parameters[0] == 0 && parameters[1] == 0x0A && parameters[2] == 0x0B && parameters[3] == 0x0C);
    EXPECT(HEARD(&server, "\xE5") == 0);
    EXPECT(HEARD(&server, "\x68\x07\x07\x68\x53\xF0\x07\x00\x01\x00\x05\x50\x16") == 19);
    EXPECT(SENT(&server, "\xE5\x68\x0C\x0C\x68\xD3\xF0\x87\x00\x01\x00\x05\x00\x0A\x0B\x0C\x00\x71\x16"));
    EXPECT(HEARD(&server, "\xE5") == 0);
    EXPECT(HEARD(&server, "\x68\x0A\x0A\x68\x73\xF0\x08\x00\xF7\x00\x03\x0D\x0E\x0F\x8F\x16") == 15);
    EXPECT(SENT(&server, "\xE5\x68\x08\x08\x68\xF3\xF0\x88\x00\xF9\x00\x00\x07\x6B\x16"));
    EXPECT(parameters[246] == 0 && parameters[247] == 0);
    EXPECT(HEARD(&server, "\x10\x40\x40\x16") == 1);
}

/* the text of datapoint 5: the site's, the default one, none; and a list that is cut */
static void description_strings(void)
{
    server.site_texts = site_texts;
    server.site_texts_size = sizeof site_texts;
    server.default_texts = default_texts;
    server.default_texts_size = sizeof default_texts;
    EXPECT(HEARD(&server, "\x68\x07\x07\x68\x73\xF0\x04\x00\x05\x00\x01\x6D\x16") == 20);
    EXPECT(SENT(&server, "\xE5\x68\x0D\x0D\x68\xF3\xF0\x84\x00\x05\x00\x01\x00\x04Lamp\xFB\x16"));
    EXPECT(HEARD(&server, "\xE5") == 0);
    server.site_texts_size = 0;
    EXPECT(HEARD(&server, "\x68\x07\x07\x68\x53\xF0\x04\x00\x05\x00\x01\x4D\x16") == 18);
    EXPECT(SENT(&server, "\xE5\x68\x0B\x0B\x68\xD3\xF0\x84\x00\x05\x00\x01\x00\x02" "DP\xE3\x16"));
    EXPECT(HEARD(&server, "\xE5") == 0);
    server.default_texts = NULL;
    server.default_texts_size = 0;
    EXPECT(HEARD(&server, "\x68\x07\x07\x68\x73\xF0\x04\x00\x05\x00\x01\x6D\x16") == 16);
    EXPECT(SENT(&server, "\xE5\x68\x09\x09\x68\xF3\xF0\x84\x00\x05\x00\x01\x00\x00\x6D\x16"));
    server.site_texts_size = sizeof site_texts - 1;
    EXPECT(tagobrelin_idle_mark(&server) == TAGOBRELIN_BAD_TABLE && tagobrelin_is_outstanding(&server));
    server.site_texts_size = 0;
    EXPECT(HEARD(&server, "\x10\x40\x40\x16") == 1);
}

static void bus_events(void)
{
    const uint8_t on[1] = {1};
    EXPECT(tagobrelin_poll(&server) == 0);
    EXPECT(tagobrelin_bus_value(&server, 5, on, 1) == 0 && datapoints[0].mark == 1 && datapoints[0].value[0] == 1);
    EXPECT(tagobrelin_poll(&server) == 18 && tagobrelin_is_outstanding(&server) && datapoints[0].mark == 0);
    EXPECT(SENT(&server, "\x68\x0C\x0C\x68\xF3\xF0\xC1\x00\x05\x00\x01\x00\x05\x18\x01\x01"));
    EXPECT(tagobrelin_outcome(&server, 5, TAGOBRELIN_IN_PROGRESS) == 0 && datapoints[0].state == 0x12);
    EXPECT(tagobrelin_outcome(&server, 5, 3) == TAGOBRELIN_NO_EVENT);
    EXPECT(tagobrelin_bus_value(&server, 6, on, 1) == TAGOBRELIN_BAD_BUS_EVENT);
    EXPECT(tagobrelin_bus_value(&server, 5, on, 0) == TAGOBRELIN_BAD_BUS_EVENT);
    EXPECT(tagobrelin_bus_value(&server, 5, NULL, 1) == TAGOBRELIN_BAD_BUS_EVENT);
}

/* whether the datapoint of this ID reads so */
static int reads(const struct tagobrelin_server *by, uint16_t id, int32_t number, uint32_t whole, float value)
{
    struct tagobrelin_reading reading = tagobrelin_reading_of(by, id);
    return reading.number == number && reading.whole == whole && memcmp(&reading.value, &value, sizeof value) == 0;
}

/* each case, both refusals, the README's example; of a server that was never started */
static void readings(void)
{
    static struct tagobrelin_datapoint read[5], as_before[5];
    static const uint16_t ids[5] = {5, 6, 9, 12, 300};
    static const uint8_t kinds[5][2] = {{1, 0}, {5, 7}, {9, 8}, {14, 10}, {9, 10}}; /* DPT and type code */
    static const uint8_t values[5][4] = {{1, 0, 0, 0}, {128, 0, 0, 0}, {0x0C, 0x1A, 0, 0}, {0x80, 0, 0, 0}, {1, 2, 3, 4}};
    static struct tagobrelin_server reader;
    float degrees = 0;
    size_t i;
    for (i = 0; i < 5; i++) {
        read[i].id = ids[i];
        read[i].dpt = kinds[i][0];
        read[i].typecode = kinds[i][1];
        read[i].state = 0x18;
        read[i].mark = 1;
        memcpy(read[i].value, values[i], sizeof values[i]);
    }
    memcpy(as_before, read, sizeof read);
    reader.datapoints = read;
    reader.datapoint_count = 5;
    EXPECT(reads(&reader, 5, TAGOBRELIN_SWITCH, 1, 0));
    EXPECT(reads(&reader, 6, TAGOBRELIN_COUNT, 128, 0));
    EXPECT(reads(&reader, 9, TAGOBRELIN_TWO_OCTET, 0, 21));
    EXPECT(reads(&reader, 12, TAGOBRELIN_SINGLE, 0, -0.0f));
    EXPECT(reads(&reader, 300, TAGOBRELIN_UNREADABLE, 0, 0));
    EXPECT(reads(&reader, 0, TAGOBRELIN_ABSENT, 0, 0) && reads(&reader, 7, TAGOBRELIN_ABSENT, 0, 0));
    EXPECT(read_temperature(&reader, &degrees) == 1 && memcmp(read, as_before, sizeof read) == 0);
    EXPECT(degrees > 20.99f && degrees < 21.01f);
    read[2].state = 0x08;
    EXPECT(reads(&reader, 9, TAGOBRELIN_UNREADABLE, 0, 0) && read_temperature(&reader, &degrees) == 0);
    reader.datapoint_count = 2;
    EXPECT(reads(&reader, 9, TAGOBRELIN_ABSENT, 0, 0) && read_temperature(&reader, &degrees) == 0);
    read[1].state = 0x20;
    EXPECT(reads(&reader, 5, TAGOBRELIN_BAD_TABLE, 0, 0) && reads(&reader, 9, TAGOBRELIN_BAD_TABLE, 0, 0));
    EXPECT(TAGOBRELIN_BAD_TABLE == -1 && TAGOBRELIN_ABSENT == -4);
}

/* whether the bytes hold this, and these are the starts */
static int holds(const char *bytes, size_t count, int32_t number, uint16_t frames, uint16_t acknowledgements,
                 const char *wanted)
{
    static uint16_t starts[TAGOBRELIN_LONGEST_BURST];
    struct tagobrelin_burst burst;
    size_t i, found = (size_t)frames + acknowledgements;
    memset(starts, 0xA5, sizeof starts);
    burst = tagobrelin_burst_of((const uint8_t *)bytes, count, starts);
    for (i = 0; i < TAGOBRELIN_LONGEST_BURST; i++)
        if (starts[i] != (i < found ? (uint16_t)wanted[i] : 0xA5A5))
            return 0;
    return burst.number == number && burst.frames == frames && burst.acknowledgements == acknowledgements;
}

/* each ending, both refusals; and no byte at all, with a pointer and without */
static void bursts(void)
{
    static const char longer[TAGOBRELIN_LONGEST_BURST + 1] = {0};
    EXPECT(holds(NULL, 0, TAGOBRELIN_CLEAN, 0, 0, "") && holds("", 0, TAGOBRELIN_CLEAN, 0, 0, ""));
    EXPECT(holds("\x10\x40\x40\x16\xE5\x68\x01\x01\x68\x73\x73\x16", 12, TAGOBRELIN_CLEAN, 2, 1, "\0\4\5"));
    EXPECT(holds("\xE5\xE5\x10\x40\x41\x16\xE5", 7, TAGOBRELIN_DAMAGED, 0, 2, "\0\1"));
    EXPECT(holds("\xE5\x10\x40\x40\x16\x68\x07", 7, TAGOBRELIN_UNFINISHED, 1, 1, "\0\1"));
    EXPECT(holds(longer, TAGOBRELIN_LONGEST_BURST, TAGOBRELIN_DAMAGED, 0, 0, ""));
    EXPECT(holds(longer, TAGOBRELIN_LONGEST_BURST + 1, TAGOBRELIN_BAD_BURST, 0, 0, ""));
    EXPECT(holds(NULL, 1, TAGOBRELIN_BAD_BURST, 0, 0, "") && holds(NULL, 2048, TAGOBRELIN_BAD_BURST, 0, 0, ""));
    EXPECT(TAGOBRELIN_CLEAN == 1 && TAGOBRELIN_DAMAGED == 2 && TAGOBRELIN_UNFINISHED == 3);
    EXPECT(TAGOBRELIN_LONGEST_BURST == 2048 && TAGOBRELIN_BAD_BURST == -8);
}

static uint8_t sent[300];
static size_t sent_count;

void driver_send(const uint8_t *bytes, size_t count)
{
    memcpy(sent + sent_count, bytes, count);
    sent_count += count;
}

/* whether the example sends these bytes for a burst */
static int answers(const char *bytes, size_t count, const char *wanted, size_t wanted_count)
{
    sent_count = 0;
    on_burst(&server, (const uint8_t *)bytes, count);
    return sent_count == wanted_count && memcmp(sent, wanted, wanted_count) == 0 && !tagobrelin_is_receiving(&server) &&
           !tagobrelin_is_dropping(&server);
}

#define ANSWERS(bytes, wanted) answers(bytes, sizeof bytes - 1, wanted, sizeof wanted - 1)
#define REQUEST "\x68\x07\x07\x68\x73\xF0\x01\x00\x01\x00\x01\x66\x16"
#define ITEM "\x68\x0C\x0C\x68\xF3\xF0\x81\x00\x01\x00\x01\x00\x01\x02\xC5\x00\x2E\x16"

/* the README's example: frames are answered, bursts that hold nothing only counted, one that is too long is heard */
static void burst_example(void)
{
    static char longer[TAGOBRELIN_LONGEST_BURST + 1] = "\x10\x40\x40\x16" REQUEST;
    struct tagobrelin_link before;
    EXPECT(ANSWERS("\x10\x40\x40\x16" REQUEST, "\xE5\xE5" ITEM) && tagobrelin_is_outstanding(&server));
    memcpy(&before, &server.link, sizeof before); /* padding too */
    EXPECT(ANSWERS("", "") && ANSWERS("\x68\x00" REQUEST, "") && ANSWERS("\x68\x07\x07\x68\x73", ""));
    EXPECT(memcmp(&before, &server.link, sizeof before) == 0);
    EXPECT(seen.frames == 2 && seen.acknowledgements == 0 && seen.damaged == 1 && seen.unfinished == 1);
    EXPECT(ANSWERS("\xE5" REQUEST "\x68\x07", "\xE5") && !tagobrelin_is_outstanding(&server));
    EXPECT(ANSWERS("\xE5\xE5\x68\x00", ""));
    EXPECT(seen.frames == 3 && seen.acknowledgements == 3 && seen.damaged == 2 && seen.unfinished == 2);
    EXPECT(answers(longer, sizeof longer, "\xE5\xE5" ITEM, sizeof "\xE5\xE5" ITEM - 1));
    EXPECT(seen.frames == 3 && seen.damaged == 2 && seen.unfinished == 2 && seen.too_long == 1);
    EXPECT(ANSWERS("\x10\x40\x40\x16", "\xE5"));
}

/* null pointers: no table at all is a server too, and a count without a table is refused */
static void no_tables(void)
{
    EXPECT(HEARD(&empty, "\x68\x07\x07\x68\x73\xF0\x01\x00\x01\x00\x01\x66\x16") == 15 &&
           tagobrelin_is_outstanding(&empty));
    EXPECT(tagobrelin_ack_wait_over(&empty) == 14 && tagobrelin_idle_mark(&empty) == 0 && tagobrelin_poll(&empty) == 0);
    EXPECT(HEARD(&empty, "\xE5") == 0);
    EXPECT(HEARD(&empty, "\x68\x08\x08\x68\x53\xF0\x08\x00\x01\x00\x01\x0A\x57\x16") == 15);
    EXPECT(SENT(&empty, "\xE5\x68\x08\x08\x68\xD3\xF0\x88\x00\x01\x00\x00\x07\x53\x16"));
    EXPECT(tagobrelin_bus_value(&empty, 1, NULL, 0) == TAGOBRELIN_BAD_BUS_EVENT);
    EXPECT(tagobrelin_outcome(&empty, 1, TAGOBRELIN_SENT) == TAGOBRELIN_BAD_BUS_EVENT);
    EXPECT(reads(&empty, 1, TAGOBRELIN_ABSENT, 0, 0) && reads(&empty, 0, TAGOBRELIN_ABSENT, 0, 0));
    empty.datapoint_count = 1;
    EXPECT(tagobrelin_poll(&empty) == TAGOBRELIN_BAD_TABLE && reads(&empty, 1, TAGOBRELIN_BAD_TABLE, 0, 0));
    empty.datapoint_count = 0;
    empty.item_count = 1;
    EXPECT(tagobrelin_poll(&empty) == TAGOBRELIN_BAD_TABLE);
    empty.item_count = 0;
    empty.parameter_count = 1;
    EXPECT(tagobrelin_poll(&empty) == TAGOBRELIN_BAD_TABLE);
    empty.parameter_count = 0;
    empty.site_texts_size = 1;
    EXPECT(tagobrelin_poll(&empty) == TAGOBRELIN_BAD_TABLE);
    empty.site_texts_size = 0;
    empty.default_texts_size = 1;
    EXPECT(tagobrelin_poll(&empty) == TAGOBRELIN_BAD_TABLE);
    empty.default_texts_size = 0;
    EXPECT(tagobrelin_poll(&empty) == 0);
}

int main(void)
{
    set_up();
    requests();
    parameter_bytes();
    description_strings();
    bus_events();
    readings();
    bursts();
    burst_example();
    no_tables();
    EXPECT(TAGOBRELIN_MICROSECONDS(TAGOBRELIN_GAP_BITS, 19200) == 1719);
    EXPECT(TAGOBRELIN_MICROSECONDS(TAGOBRELIN_ACK_WAIT_BITS, 19200) == 26563);
    EXPECT(TAGOBRELIN_MICROSECONDS(261 * TAGOBRELIN_BYTE_BITS, 1200) == 2392500);
    EXPECT(strcmp(TAGOBRELIN_VERSION, VERSION_BY_NUMBERS) == 0);
    return failed;
}
