/* Tagobrelin in C: what libtagobrelin.a exports, and over it the face that a program uses: struct tagobrelin_server,
 * one function an event, one for readings and one for bursts, at the end of this file.
 *
 * The archive's four functions, tagobrelin_call, tagobrelin_fresh_link, tagobrelin_read and tagobrelin_read_burst, are
 * proved to do what crates/tagobrelin/src/exported.rt promises, for every content of the memory that they are lent. They
 * keep no state of their own, use no heap, and need memcpy and memset of the C library. The proof speaks of a caller that
 * keeps the rules below: nothing checks a C caller.
 *
 * A caller guarantees, at each call:
 *   - No pointer is null, not even one whose count is 0: pass the address of any byte then. (The face does.)
 *   - Behind each pointer lies as much memory as its count says, and the counts are elements, not bytes. The size of a
 *     list of texts is bytes.
 *   - Datapoints, items, the link record and a run of places lie at even addresses. (As C objects of these types they
 *     do.)
 *   - Value and the two lists of texts are only read: they may lie in flash, and may overlap each other, but nothing
 *     else. All other runs of memory overlap nothing and lie in memory that can be written.
 *   - Nobody else writes to any of them while the call runs. So two calls for one server are never made at the same
 *     time, also not one of them in an interrupt or another thread; for two servers that share no memory they may be.
 *   - tagobrelin_read only reads its table, which may lie in flash. Two readings may be made at the same time, but
 *     none while a call with the same table runs, which may write there.
 *   - tagobrelin_read_burst only reads its burst, which may lie in flash, and writes to its run of places. It knows no
 *     server: two bursts may be read at the same time, each into a run of its own, and also while a call runs that
 *     writes to neither.
 *   - While tagobrelin_read runs, which divides once, floating point rounds to nearest and traps nothing: so it is in a
 *     C program that has not changed it.
 * The contents may be anything: what is not in order is refused by number, and then no byte of anything is changed.
 */
#ifndef TAGOBRELIN_H
#define TAGOBRELIN_H

#include <stddef.h>
#include <stdint.h>

/* By semver.org, for the face at the end of this file. What it stands on, tagobrelin_call, tagobrelin_read,
 * tagobrelin_read_burst and the records' layout, and what a host is answered may change in a minor version: header and
 * archive are always taken together. CHANGELOG.md tells what changed. */
#define TAGOBRELIN_VERSION_MAJOR 1
#define TAGOBRELIN_VERSION_MINOR 6
#define TAGOBRELIN_VERSION_PATCH 1
#define TAGOBRELIN_VERSION "1.6.1"

#ifdef __cplusplus
extern "C" {
#endif

/* One datapoint. A table has 0 to 1000 of them, their IDs 1 or more and strictly rising. */
struct tagobrelin_datapoint {
    uint16_t id;
    uint8_t typecode;  /* 0 to 14: 1 to 7 bits, then 1, 2, 3, 4, 6, 8, 10 and 14 bytes */
    uint8_t flags;     /* config flags, any byte: bit 2 communication, 6 transmit. Commands 2, 3 need both, 4 bit 2 */
    uint8_t dpt;       /* datapoint type: any byte */
    uint8_t state;     /* bit 4 valid, 3 updated from bus, 2 data request, 1-0 transmission status; bits 7 to 5 are 0 */
    uint8_t value[14]; /* big-endian, from the first byte on; bits and bytes beyond the type's size are 0 */
    uint8_t mark;      /* 1: the value came from the bus and waits for an indication; else 0 */
};

/* One server item. A table has 0 to 64 of them, their IDs 1 or more and strictly rising. */
struct tagobrelin_item {
    uint16_t id;
    uint8_t size;      /* 1 to 16 */
    uint8_t writable;  /* 1: a host may set it; else 0 */
    uint8_t bytes[16]; /* those beyond the size are 0 */
};

/* A list of texts is bytes, entry behind entry: the datapoint's ID in two bytes, the higher first, as in a message; a
 * length byte of 0 to 30; and as many bytes of text, any bytes, without a 0 behind them. IDs strictly rise, the first
 * may be 0, and they need not be datapoints of the table. A list has as many entries as there are IDs, or fewer; one of
 * 0 bytes has none. Texts for the datapoints 5 and 258:
 *     static const uint8_t texts[] = "\x00\x05\x05" "Attic" "\x01\x02\x04" "Hall";
 * Each text begins a literal of its own, since \x takes every hexadecimal digit behind it; and the list's size is
 * sizeof texts - 1, without the 0 that C puts behind a string. Each call looks through both lists to their ends.
 *
 * There are two. A host that asks for a datapoint's description string is given its text of the site's list, where that
 * has one of 1 byte or more, else that of the default list, else an empty one. */

/* The link record: made by tagobrelin_fresh_link, and from then on changed by tagobrelin_call alone. */
struct tagobrelin_link {
    uint8_t receiver[260];    /* the bytes of the frame that is being received, and 0 behind them */
    uint16_t received;        /* how many they are */
    uint8_t dropping;         /* 1: the receiver drops what comes, up to the next idle mark; else 0 */
    uint8_t expected;         /* the count bit of the next request that is carried out: 1 odd, 0 even */
    uint8_t send;             /* the count bit of the next frame that is sent, or of the outstanding one, likewise */
    uint8_t outstanding[261]; /* the frame that waits for its acknowledgement, and 0 behind it */
    uint16_t held;            /* how many bytes it has: 0 where nothing is outstanding */
    uint8_t resends;          /* how often it was sent again: 0 to 3 */
};

/* The six events. */
enum {
    TAGOBRELIN_HOST_BYTE = 1,     /* `byte` came from the host */
    TAGOBRELIN_IDLE_MARK = 2,     /* the line was silent for the standard's gap */
    TAGOBRELIN_ACK_WAIT_OVER = 3, /* the time in which an acknowledgement had to come is over */
    TAGOBRELIN_POLL = 4,          /* send an indication, if one is due */
    TAGOBRELIN_BUS_VALUE = 5,     /* the bus gave `value` for the datapoint `id` */
    TAGOBRELIN_OUTCOME = 6        /* `outcome` of a transmission of the datapoint `id` */
};

/* The outcomes of a transmission. */
enum {
    TAGOBRELIN_SENT = 0,
    TAGOBRELIN_FAILED = 1,
    TAGOBRELIN_IN_PROGRESS = 2
};

/* What tagobrelin_call returns: 0 to 262, how many bytes from the start of `out` are to be sent to the host; or one of
 * these. Several at once: the first that applies, in the order TAGOBRELIN_NO_EVENT, -1, -2, -3, -4. */
enum {
    TAGOBRELIN_BAD_TABLE = -1,     /* a table is not well formed, or too long; or more than 255 parameter bytes; or a
                                      list of texts is out of order or not made of whole entries */
    TAGOBRELIN_BAD_LINK = -2,      /* the link record is not in range: not made by tagobrelin_fresh_link, or altered */
    TAGOBRELIN_NO_ROOM = -3,       /* `out` has room for less than TAGOBRELIN_ROOM bytes */
    TAGOBRELIN_BAD_BUS_EVENT = -4, /* the ID is absent, the value's length is not its type's, or unused bits are set */
    TAGOBRELIN_NO_EVENT = -100     /* the event is not 1 to 6, or it is 6 and the outcome is not 0 to 2 */
};

/* The most that one call sends, and the room that each call wants. */
enum { TAGOBRELIN_ROOM = 262 };

/* One event. `byte`, `id`, `outcome` and `value` are read where the event has them, and may be anything where it has
 * not. A number below 0: no byte of anything lent was changed. Else the first bytes of `out`, as many as the number
 * says, are to be sent, the bytes behind them are as they were, and tables and link record are such that the next call
 * does not refuse them. */
int32_t tagobrelin_call(uint8_t event, uint8_t byte, uint16_t id, uint8_t outcome,
                        const uint8_t *value, size_t value_count,
                        struct tagobrelin_datapoint *datapoints, size_t datapoint_count,
                        struct tagobrelin_item *items, size_t item_count,
                        uint8_t *parameters, size_t parameter_count,
                        const uint8_t *site_texts, size_t site_texts_size,
                        const uint8_t *default_texts, size_t default_texts_size,
                        struct tagobrelin_link *link,
                        uint8_t *out, size_t room);

/* Makes the link record that a reset leaves, whatever stood there: the receiver at a frame start, both bits odd,
 * nothing outstanding. */
void tagobrelin_fresh_link(struct tagobrelin_link *link);

/* A reading: a datapoint's value as a number, by its datapoint type and type code. The member that a case does not use
 * is 0; where the number is below 0, both are. */
struct tagobrelin_reading {
    int32_t number; /* one of the five cases; or TAGOBRELIN_BAD_TABLE, or TAGOBRELIN_ABSENT */
    uint32_t whole;
    float value;
};

/* The five cases. */
enum {
    TAGOBRELIN_SWITCH = 1,    /* DPT 1, type code 0: `whole` is 1 for on, 0 for off */
    TAGOBRELIN_COUNT = 2,     /* DPT 5, type code 7: `whole` is the byte, 0 to 255; a percentage is not scaled */
    TAGOBRELIN_TWO_OCTET = 3, /* DPT 9, type code 8: `value` is its hundredths divided by 100, rounded once */
    TAGOBRELIN_SINGLE = 4,    /* DPT 14, type code 10: `value` is the number whose bits these are */
    TAGOBRELIN_UNREADABLE = 5 /* the valid bit is off, or it is any other DPT and type code, or a two-octet value of
                                 7F FF, or a single that is infinite or not a number */
};

/* The refusal behind TAGOBRELIN_BAD_TABLE, which here tells of the datapoints alone. */
enum { TAGOBRELIN_ABSENT = -4 }; /* no datapoint has the ID */

/* The reading of the datapoint `id`. Nothing is changed, and nothing handed out: the updated bit and the mark stay, and
 * a host is told of the value as if nobody had read it. */
struct tagobrelin_reading tagobrelin_read(uint16_t id, const struct tagobrelin_datapoint *datapoints,
                                          size_t datapoint_count);

/* A burst, everything that came between two idle marks, read at once: what it holds by the receiver's own rules, from a
 * frame start on. Where it is refused, both counts are 0. */
struct tagobrelin_burst {
    int32_t number;            /* one of the three endings; or TAGOBRELIN_BAD_BURST */
    uint16_t frames;           /* sound frames, those too that a server ignores */
    uint16_t acknowledgements; /* E5 */
};

/* The three endings. */
enum {
    TAGOBRELIN_CLEAN = 1,     /* with the last byte of a frame or an acknowledgement, or there was no byte */
    TAGOBRELIN_DAMAGED = 2,   /* a byte broke the forms: the frame that it stood in is dropped, and all behind it, whole
                                 frames too */
    TAGOBRELIN_UNFINISHED = 3 /* in mid-frame */
};

/* The most bytes of a burst, and the fewest places for its starts. */
enum { TAGOBRELIN_LONGEST_BURST = 2048 };

/* The refusal: more bytes, or fewer places. */
enum { TAGOBRELIN_BAD_BURST = -8 };

/* Reads a burst. Where each frame and each acknowledgement starts, counted in bytes from 0, goes into the first places
 * of `starts`, in order; the places behind them are as they were. What starts at a place is an acknowledgement where its
 * byte is E5, else a frame: of 4 bytes where its byte is 10, else of as many as its second byte says, and 6 more.
 * Refused: no place was changed. */
struct tagobrelin_burst tagobrelin_read_burst(const uint8_t *burst, size_t byte_count,
                                              uint16_t *starts, size_t place_count);

/* ---- The face. Later versions add members and functions and take none away.
 *
 * A server: the tables that it holds, its end of the line, and what it sends. It is static or zeroed before its members
 * are set, by name: a member that a later version adds is 0 then, which means none. */
struct tagobrelin_server {
    struct tagobrelin_datapoint *datapoints; /* each table may be null where its count is 0, and only there */
    size_t datapoint_count;
    struct tagobrelin_item *items;
    size_t item_count;
    uint8_t *parameters; /* a host may set them, while an event runs; to keep them over a restart is the program's part */
    size_t parameter_count;
    const uint8_t *site_texts;    /* the lists of texts, each laid out as above; null and 0 bytes: none */
    size_t site_texts_size;       /* in bytes */
    const uint8_t *default_texts;
    size_t default_texts_size;
    struct tagobrelin_link link;  /* made by tagobrelin_start; nobody else writes to it, or has to read it */
    uint8_t out[TAGOBRELIN_ROOM]; /* what the last event left to be sent */
};

/* Before the first event: the link as a reset leaves it. The tables stay. */
static inline void tagobrelin_start(struct tagobrelin_server *server)
{
    tagobrelin_fresh_link(&server->link);
}

/* One event by its number. The functions below are for use; this is what they have in common. */
static inline int32_t tagobrelin_event(struct tagobrelin_server *server, uint8_t event, uint8_t byte, uint16_t id,
                                       uint8_t outcome, const uint8_t *value, size_t value_count)
{
    /* Something that exists stands where there is no element. */
    struct tagobrelin_datapoint no_datapoint;
    struct tagobrelin_item no_item;
    uint8_t no_parameter, no_text = 0;
    if ((!server->datapoints && server->datapoint_count > 0) || (!server->items && server->item_count > 0) ||
        (!server->parameters && server->parameter_count > 0) ||
        (!server->site_texts && server->site_texts_size > 0) ||
        (!server->default_texts && server->default_texts_size > 0))
        return TAGOBRELIN_BAD_TABLE;
    return tagobrelin_call(event, byte, id, outcome, value ? value : server->out, value ? value_count : 0,
                           server->datapoints ? server->datapoints : &no_datapoint, server->datapoint_count,
                           server->items ? server->items : &no_item, server->item_count,
                           server->parameters ? server->parameters : &no_parameter, server->parameter_count,
                           server->site_texts ? server->site_texts : &no_text, server->site_texts_size,
                           server->default_texts ? server->default_texts : &no_text, server->default_texts_size,
                           &server->link, server->out, sizeof server->out);
}

/* The six events. Each returns how many bytes from the start of `out` are to be sent now, 0 for none, or a number below
 * 0: then it was refused and nothing changed. Only bus values and outcomes can be refused with tables that are in order. */

static inline int32_t tagobrelin_host_byte(struct tagobrelin_server *server, uint8_t byte)
{
    return tagobrelin_event(server, TAGOBRELIN_HOST_BYTE, byte, 0, 0, NULL, 0);
}

/* The line was silent for TAGOBRELIN_GAP_BITS. */
static inline int32_t tagobrelin_idle_mark(struct tagobrelin_server *server)
{
    return tagobrelin_event(server, TAGOBRELIN_IDLE_MARK, 0, 0, 0, NULL, 0);
}

/* A frame is outstanding, and TAGOBRELIN_ACK_WAIT_BITS are over since its last bit was on the line. */
static inline int32_t tagobrelin_ack_wait_over(struct tagobrelin_server *server)
{
    return tagobrelin_event(server, TAGOBRELIN_ACK_WAIT_OVER, 0, 0, 0, NULL, 0);
}

/* An indication is sent, if one is due. Not while a request comes in: behind an indication it is dropped, and the host
 * has to repeat it. */
static inline int32_t tagobrelin_poll(struct tagobrelin_server *server)
{
    return tagobrelin_event(server, TAGOBRELIN_POLL, 0, 0, 0, NULL, 0);
}

/* The bus gave this value, of as many bytes as the datapoint's type has. */
static inline int32_t tagobrelin_bus_value(struct tagobrelin_server *server, uint16_t id, const uint8_t *value,
                                           size_t value_count)
{
    return tagobrelin_event(server, TAGOBRELIN_BUS_VALUE, 0, id, 0, value, value_count);
}

/* A transmission came to TAGOBRELIN_SENT, TAGOBRELIN_FAILED or TAGOBRELIN_IN_PROGRESS. */
static inline int32_t tagobrelin_outcome(struct tagobrelin_server *server, uint16_t id, uint8_t outcome)
{
    return tagobrelin_event(server, TAGOBRELIN_OUTCOME, 0, id, outcome, NULL, 0);
}

/* The reading of a datapoint, whatever the line is at. With a table that is in order it is refused for an ID that is
 * absent, and for nothing else. */
static inline struct tagobrelin_reading tagobrelin_reading_of(const struct tagobrelin_server *server, uint16_t id)
{
    /* Something that exists stands where there is no element. */
    const struct tagobrelin_datapoint no_datapoint = {0, 0, 0, 0, 0, {0}, 0};
    const struct tagobrelin_reading no_table = {TAGOBRELIN_BAD_TABLE, 0, 0};
    if (!server->datapoints && server->datapoint_count > 0)
        return no_table;
    return tagobrelin_read(id, server->datapoints ? server->datapoints : &no_datapoint, server->datapoint_count);
}

/* What a burst holds. It may be null where it has no byte; null with bytes is refused. `starts` has
 * TAGOBRELIN_LONGEST_BURST places, which nothing checks. No server is asked, and none is told. */
static inline struct tagobrelin_burst tagobrelin_burst_of(const uint8_t *burst, size_t byte_count,
                                                          uint16_t starts[TAGOBRELIN_LONGEST_BURST])
{
    /* Something that exists stands where there is no byte. */
    const uint8_t no_byte = 0;
    const struct tagobrelin_burst no_burst = {TAGOBRELIN_BAD_BURST, 0, 0};
    if (!burst && byte_count > 0)
        return no_burst;
    return tagobrelin_read_burst(burst ? burst : &no_byte, byte_count, starts, TAGOBRELIN_LONGEST_BURST);
}

/* 1 where a frame is outstanding: sent, and not acknowledged yet. */
static inline int tagobrelin_is_outstanding(const struct tagobrelin_server *server)
{
    return server->link.held > 0;
}

/* 1 where a frame from the host has begun and is not whole yet. */
static inline int tagobrelin_is_receiving(const struct tagobrelin_server *server)
{
    return server->link.received > 0;
}

/* 1 where what comes is dropped, behind damage and up to the next idle mark. */
static inline int tagobrelin_is_dropping(const struct tagobrelin_server *server)
{
    return server->link.dropping != 0;
}

/* Times on the line, in bit times. */
enum {
    TAGOBRELIN_BYTE_BITS = 11,     /* one byte: start bit, 8 data bits, even parity, stop bit */
    TAGOBRELIN_GAP_BITS = 33,      /* the silence that is an idle mark */
    TAGOBRELIN_ACK_WAIT_BITS = 510 /* the wait for an acknowledgement, from the frame's last bit on */
};

/* So many bit times in microseconds at this baud rate, rounded up. */
#define TAGOBRELIN_MICROSECONDS(bits, baud) (((uint64_t)(bits) * 1000000u + (uint64_t)(baud) - 1u) / (uint64_t)(baud))

#ifdef __cplusplus
}
#define TAGOBRELIN_ASSERT(fact) static_assert(fact, #fact)
#elif defined __STDC_VERSION__ && __STDC_VERSION__ >= 201112L
#define TAGOBRELIN_ASSERT(fact) _Static_assert(fact, #fact)
#else /* C99 has no such assertion: a type, another for each line, that cannot be where the fact is none */
#define TAGOBRELIN_ASSERT(fact) TAGOBRELIN_ASSERT_AT(fact, __LINE__)
#define TAGOBRELIN_ASSERT_AT(fact, line) TAGOBRELIN_ASSERTED(fact, line)
#define TAGOBRELIN_ASSERTED(fact, line) typedef char tagobrelin_asserted_##line[(fact) ? 1 : -1]
#endif

/* The layout that the archive was compiled for. */
#define TAGOBRELIN_AT(type, field, at) TAGOBRELIN_ASSERT(offsetof(struct tagobrelin_##type, field) == at)
TAGOBRELIN_ASSERT(sizeof(size_t) == 8);
TAGOBRELIN_ASSERT(sizeof(struct tagobrelin_datapoint) == 22);
TAGOBRELIN_AT(datapoint, id, 0);
TAGOBRELIN_AT(datapoint, typecode, 2);
TAGOBRELIN_AT(datapoint, flags, 3);
TAGOBRELIN_AT(datapoint, dpt, 4);
TAGOBRELIN_AT(datapoint, state, 5);
TAGOBRELIN_AT(datapoint, value, 6);
TAGOBRELIN_AT(datapoint, mark, 20);
TAGOBRELIN_ASSERT(sizeof(struct tagobrelin_item) == 20);
TAGOBRELIN_AT(item, id, 0);
TAGOBRELIN_AT(item, size, 2);
TAGOBRELIN_AT(item, writable, 3);
TAGOBRELIN_AT(item, bytes, 4);
TAGOBRELIN_ASSERT(sizeof(struct tagobrelin_link) == 530);
TAGOBRELIN_AT(link, receiver, 0);
TAGOBRELIN_AT(link, received, 260);
TAGOBRELIN_AT(link, dropping, 262);
TAGOBRELIN_AT(link, expected, 263);
TAGOBRELIN_AT(link, send, 264);
TAGOBRELIN_AT(link, outstanding, 265);
TAGOBRELIN_AT(link, held, 526);
TAGOBRELIN_AT(link, resends, 528);
TAGOBRELIN_ASSERT(sizeof(float) == 4);
TAGOBRELIN_ASSERT(sizeof(struct tagobrelin_reading) == 12);
TAGOBRELIN_AT(reading, number, 0);
TAGOBRELIN_AT(reading, whole, 4);
TAGOBRELIN_AT(reading, value, 8);
TAGOBRELIN_ASSERT(sizeof(struct tagobrelin_burst) == 8);
TAGOBRELIN_AT(burst, number, 0);
TAGOBRELIN_AT(burst, frames, 4);
TAGOBRELIN_AT(burst, acknowledgements, 6);
#undef TAGOBRELIN_AT
#undef TAGOBRELIN_ASSERT
#undef TAGOBRELIN_ASSERT_AT
#undef TAGOBRELIN_ASSERTED

#endif
