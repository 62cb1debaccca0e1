#define _POSIX_C_SOURCE 200809L
#include "table_file.h"

#include <errno.h>
#include <stdio.h>
#include <stdlib.h>
#include <string.h>
#include <sys/types.h>

#include "words.h"

#define ROOM(array) (sizeof(array) / sizeof *(array))

size_t value_size(uint8_t typecode)
{
    static const uint8_t sizes[] = {1, 1, 1, 1, 1, 1, 1, 1, 2, 3, 4, 6, 8, 10, 14};
    return sizes[typecode];
}

void lend_tables(struct tables *tables, struct tagobrelin_server *server)
{
    server->datapoints = tables->datapoints;
    server->datapoint_count = tables->datapoint_count;
    server->items = tables->items;
    server->item_count = tables->item_count;
    server->parameters = tables->parameters;
    server->parameter_count = tables->parameter_count;
    server->site_texts = tables->site_texts.bytes;
    server->site_texts_size = tables->site_texts.size;
    server->default_texts = tables->default_texts.bytes;
    server->default_texts_size = tables->default_texts.size;
}

/* The library alone judges what is well formed: it refuses any event with tables that are not. */
static bool is_accepted(struct tables *tables)
{
    static struct tagobrelin_server server;
    lend_tables(tables, &server);
    tagobrelin_start(&server);
    return tagobrelin_idle_mark(&server) == 0;
}

/* datapoint ID type CODE flags BYTE dpt BYTE state BYTE value BYTES */
static bool read_datapoint(struct words *words, struct tables *tables)
{
    unsigned long id, typecode, flags, dpt, state;
    size_t count;
    if (tables->datapoint_count == ROOM(tables->datapoints))
        return wrong(words, "there are more than %zu datapoints", ROOM(tables->datapoints));
    struct tagobrelin_datapoint *datapoint = &tables->datapoints[tables->datapoint_count];
    if (!read_number(words, "ID", 1, 65535, &id) || !read_name(words, "type") || !read_number(words, "type code", 0, 14, &typecode) ||
        !read_name(words, "flags") || !read_number(words, "flags byte", 0, 255, &flags) || !read_name(words, "dpt") ||
        !read_number(words, "DPT", 0, 255, &dpt) || !read_name(words, "state") || !read_number(words, "state", 0, 31, &state) ||
        !read_name(words, "value") || !read_bytes(words, datapoint->value, sizeof datapoint->value, &count))
        return false;
    if (tables->datapoint_count > 0 && id <= datapoint[-1].id)
        return wrong(words, "datapoint %lu stands behind datapoint %u: IDs have to rise", id, datapoint[-1].id);
    if (count != value_size((uint8_t)typecode))
        return wrong(words, "a value of type %lu has %zu bytes, not %zu", typecode, value_size((uint8_t)typecode), count);
    datapoint->id = (uint16_t)id;
    datapoint->typecode = (uint8_t)typecode;
    datapoint->flags = (uint8_t)flags;
    datapoint->dpt = (uint8_t)dpt;
    datapoint->state = (uint8_t)state;
    tables->datapoint_count++;
    return true;
}

/* item ID size N writable yes|no bytes BYTES */
static bool read_item(struct words *words, struct tables *tables)
{
    unsigned long id, size;
    size_t count;
    const char *answer;
    if (tables->item_count == ROOM(tables->items))
        return wrong(words, "there are more than %zu items", ROOM(tables->items));
    struct tagobrelin_item *item = &tables->items[tables->item_count];
    if (!read_number(words, "ID", 1, 65535, &id) || !read_name(words, "size") || !read_number(words, "size", 1, 16, &size) ||
        !read_name(words, "writable"))
        return false;
    answer = next_word(words);
    if (answer == NULL || (strcmp(answer, "yes") != 0 && strcmp(answer, "no") != 0))
        return wrong(words, "behind 'writable' stands neither yes nor no");
    if (!read_name(words, "bytes") || !read_bytes(words, item->bytes, sizeof item->bytes, &count))
        return false;
    if (tables->item_count > 0 && id <= item[-1].id)
        return wrong(words, "item %lu stands behind item %u: IDs have to rise", id, item[-1].id);
    if (count != size)
        return wrong(words, "the size is %lu, and there are %zu bytes", size, count);
    item->id = (uint16_t)id;
    item->size = (uint8_t)size;
    item->writable = strcmp(answer, "yes") == 0;
    tables->item_count++;
    return true;
}

/* parameters BYTES: further ones of the run that begins with index 1 */
static bool read_parameters(struct words *words, struct tables *tables)
{
    size_t count, before = tables->parameter_count;
    if (!read_bytes(words, tables->parameters + before, sizeof tables->parameters - before, &count))
        return false;
    tables->parameter_count += count;
    return true;
}

/* text site|default ID "TEXT" */
static bool read_text_line(struct words *words, struct tables *tables)
{
    enum { TEXTS = 1000 };
    const char *name = next_word(words);
    bool is_site = name != NULL && strcmp(name, "site") == 0;
    if (!is_site && (name == NULL || strcmp(name, "default") != 0))
        return wrong(words, "behind 'text' stands neither site nor default");
    struct text_list *list = is_site ? &tables->site_texts : &tables->default_texts;
    unsigned long id;
    uint8_t text[30];
    size_t count;
    if (list->count == TEXTS)
        return wrong(words, "there are more than %d texts in this list", TEXTS);
    if (!read_number(words, "ID", 1, 65535, &id) || !read_text(words, text, sizeof text, &count) || !read_end(words))
        return false;
    if (list->count > 0 && id <= list->last_id)
        return wrong(words, "the text for %lu stands behind that for %lu: IDs have to rise", id, list->last_id);
    uint8_t *entry = list->bytes + list->size;
    entry[0] = (uint8_t)(id >> 8);
    entry[1] = (uint8_t)id;
    entry[2] = (uint8_t)count;
    memcpy(entry + 3, text, count);
    list->size += 3 + count;
    list->count++;
    list->last_id = id;
    return true;
}

static bool read_entry(struct words *words, struct tables *tables)
{
    const char *kind = next_word(words);
    bool is_read;
    if (kind == NULL)
        return true;
    if (strcmp(kind, "datapoint") == 0)
        is_read = read_datapoint(words, tables);
    else if (strcmp(kind, "item") == 0)
        is_read = read_item(words, tables);
    else if (strcmp(kind, "parameters") == 0)
        is_read = read_parameters(words, tables);
    else if (strcmp(kind, "text") == 0)
        is_read = read_text_line(words, tables);
    else
        return wrong(words, "'%s' is none of datapoint, item, parameters, text", kind);
    if (is_read && !is_accepted(tables))
        return wrong(words, "the value has bits set that its type does not have");
    return is_read;
}

bool read_tables(const char *path, struct tables *tables)
{
    struct words words = {.source = path};
    char *line = NULL;
    size_t room = 0;
    ssize_t count;
    bool is_read = true;
    FILE *file = fopen(path, "r");
    if (file == NULL)
        return wrong(&words, "%s", strerror(errno));
    while (is_read && (count = getline(&line, &room, file)) >= 0) {
        words.line++;
        words.rest = line;
        is_read = strlen(line) == (size_t)count ? read_entry(&words, tables) : wrong(&words, "the line holds a NUL");
    }
    if (is_read && ferror(file)) {
        words.line = 0;
        is_read = wrong(&words, "%s", strerror(errno));
    }
    free(line);
    fclose(file);
    return is_read;
}
