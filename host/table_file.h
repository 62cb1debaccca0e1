/* The server's tables, read from a text file. host/tables.txt tells how it is written. */
#ifndef TABLE_FILE_H
#define TABLE_FILE_H

#include <stdbool.h>

#include "tagobrelin.h"

/* A list of texts as the library takes it, and what a reader of the next entry has to know. */
struct text_list {
    uint8_t bytes[1000 * 33];
    size_t size, count;
    unsigned long last_id;
};

struct tables {
    struct tagobrelin_datapoint datapoints[1000];
    size_t datapoint_count;
    struct tagobrelin_item items[64];
    size_t item_count;
    uint8_t parameters[255];
    size_t parameter_count;
    struct text_list site_texts, default_texts;
};

/* How many bytes a value of this type code has, for codes up to 14. */
size_t value_size(uint8_t typecode);

/* Makes these the server's tables. */
void lend_tables(struct tables *tables, struct tagobrelin_server *server);

/* Fills the tables, which are empty before. If it cannot, it tells why on standard error, with the line, and returns false. */
bool read_tables(const char *path, struct tables *tables);

#endif
