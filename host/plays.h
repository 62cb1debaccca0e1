/* What is timed and counted: tables of a given size, calls on them that can be played again and again; and bursts. */
#ifndef PLAYS_H
#define PLAYS_H

#include "tuned.h"

typedef int32_t call_function(uint8_t event, uint8_t byte, uint16_t id, uint8_t outcome, const uint8_t *value, size_t value_count,
                              struct tagobrelin_datapoint *datapoints, size_t datapoint_count, struct tagobrelin_item *items, size_t item_count,
                              uint8_t *parameters, size_t parameter_count, const uint8_t *site_texts,
                              size_t site_texts_size, const uint8_t *default_texts, size_t default_texts_size,
                              struct tagobrelin_link *link, uint8_t *out, size_t room);

typedef struct tagobrelin_reading read_function(uint16_t id, const struct tagobrelin_datapoint *datapoints,
                                                size_t datapoint_count);

typedef struct tagobrelin_burst read_burst_function(const uint8_t *burst, size_t byte_count,
                                                    uint16_t *starts, size_t place_count);

/* What plays are played by: the proved functions, or others in their place. */
struct functions {
    call_function *call;
    read_function *read;
    read_burst_function *read_burst;
};

enum kind {
    MID_FRAME,      /* one host byte behind `size` gathered ones of a data frame of 261 bytes */
    STREAM,         /* `size` host bytes, one after the other, in such a frame */
    GET,            /* the last byte of a request for `size` values */
    GET_FRAME,      /* all bytes of it, and the acknowledgement of the answer */
    STRINGS,        /* the last byte of a request for `size` description strings */
    SET,            /* the last byte of a request that sets `size` datapoints */
    SET_FRAME,      /* all bytes of it, and the acknowledgement */
    PARAMETERS,     /* the last byte of a request for `size` parameter bytes */
    SET_PARAMETERS, /* the last byte of a request that sets `size` parameter bytes */
    POLL,           /* a poll with `size` marks */
    FRAME,          /* all bytes of a data frame of `size` bytes whose service is not known, and the acknowledgement */
    CHECKSUM,       /* the checksum's byte of such a frame */
    BUS_VALUE,      /* a value from the bus */
    OUTCOME,        /* an outcome of a transmission */
    RESEND,         /* ack wait over, a frame of `size` bytes outstanding */
    IDLE,           /* an idle mark behind `size` gathered bytes */
    READING,        /* a reading of a two-octet value */
    BURST,          /* a burst of frames of `size` bytes, as many as it takes: data frames; 4: fixed ones; 1: E5; 0: none */
    EXCHANGES       /* the same, with an E5 behind each frame */
};

/* Some calls: the link record that they begin with, the datapoints that have a report mark before them, and their
 * events; or one reading or one burst. */
struct play {
    enum kind kind;
    struct tagobrelin_link link;
    uint16_t marks[62];
    uint16_t mark_count;
    uint16_t step_count;
    struct step {
        uint8_t event, byte; /* a reading has the ID alone */
        uint16_t id;
    } steps[262];
    uint8_t value[14], value_count;
    uint16_t burst_size;
    uint8_t burst[TAGOBRELIN_LONGEST_BURST];
};

/* Plays of one kind that differ in their IDs and values, so that no jump is learnt by heart, as those of 256 plays were.
 * COUNTED of them are enough where instructions are counted. */
enum { VARIANTS = 1024, COUNTED = 16 };
extern struct play plays[VARIANTS];

/* Fills the tables: so many datapoints and items, some parameter bytes. The lists of texts are empty. */
void make_tables(size_t datapoints, size_t items);

/* Fills the two lists of texts, each with so many entries: for datapoints spread over the table, and for IDs behind the
 * last where there are more entries than datapoints. Every other entry of the site's list is empty, so that half of the
 * texts are default ones. */
void make_texts(size_t entries);

/* Makes the plays of a kind on these tables; a frame of `held` bytes is outstanding, 0: none. Answers how many calls each play has. */
unsigned make_plays(enum kind kind, size_t size, size_t held);

/* One play by these functions. Answers what its last call answered. */
int32_t play(const struct play *p, const struct functions *f);

/* Reads each byte of the tables, the parameters, the lists and the link record once. */
uint64_t read_all(void);

/* All that is lent. */
extern struct lent {
    struct tagobrelin_datapoint datapoints[1000];
    struct tagobrelin_datapoint readable[1000]; /* for readings: the same, but that every third is a two-octet value */
    struct tagobrelin_item items[64];
    struct tagobrelin_link link;
    uint8_t parameters[255], out[TAGOBRELIN_ROOM];
    uint8_t site_texts[33000], default_texts[33000];
    uint16_t starts[TAGOBRELIN_LONGEST_BURST];
} lent;

#endif
