/* Instructions: run under callgrind, which counts inside the calls, readings and bursts alone and writes a part at each
 * dump, named "EVENT DATAPOINTS ITEMS SIZE HELD FUNCTION CALLS". The scripts count and count_test read them.
 * Usage: count [ours]: the proved ones alone. */
#include <stdbool.h>
#include <stdio.h>
#include <string.h>
#include <valgrind/callgrind.h>

#include "plays.h"

static const struct row {
    const char *name;
    enum kind kind;
    size_t size, held, texts; /* texts: the entries of each list, which the name ends with where they are not 0 */
} rows[] = {
    {"mid-frame", MID_FRAME, 40, 0, 0}, {"mid-frame", MID_FRAME, 232, 0, 0}, {"mid-frame", MID_FRAME, 40, 40, 0},
    {"mid-frame", MID_FRAME, 40, 232, 0}, {"get-frame", GET_FRAME, 20, 0, 0}, {"get", GET, 5, 0, 0},
    {"get", GET, 20, 0, 0}, {"set-frame", SET_FRAME, 40, 0, 0}, {"set", SET, 8, 0, 0}, {"set", SET, 40, 0, 0},
    {"poll", POLL, 0, 0, 0}, {"poll", POLL, 8, 0, 0}, {"poll", POLL, 40, 0, 0}, {"frame", FRAME, 261, 0, 0},
    {"checksum", CHECKSUM, 47, 0, 0}, {"checksum", CHECKSUM, 239, 0, 0}, {"parameters", PARAMETERS, 40, 0, 0},
    {"parameters", PARAMETERS, 232, 0, 0}, {"resend", RESEND, 40, 0, 0}, {"resend", RESEND, 232, 0, 0},
    {"set-parameters", SET_PARAMETERS, 40, 0, 0}, {"set-parameters", SET_PARAMETERS, 232, 0, 0},
    {"bus-value", BUS_VALUE, 0, 0, 0}, {"outcome", OUTCOME, 0, 0, 0}, {"idle", IDLE, 40, 0, 0},
    {"mid-frame-100", MID_FRAME, 40, 0, 100}, {"mid-frame-1000", MID_FRAME, 40, 0, 1000},
    {"strings-100", STRINGS, 20, 0, 100}, {"strings-1000", STRINGS, 5, 0, 1000}, {"strings-1000", STRINGS, 20, 0, 1000},
    {"reading", READING, 0, 0, 0},
    /* the last six are on no table */
    {"burst", BURST, 0, 0, 0}, {"burst", BURST, 261, 0, 0}, {"burst", BURST, 13, 0, 0},
    {"exchanges", EXCHANGES, 13, 0, 0}, {"burst", BURST, 4, 0, 0}, {"burst", BURST, 1, 0, 0},
};
enum { ROWS = sizeof rows / sizeof *rows, BURSTS = ROWS - 6, READINGS = BURSTS - 1 };

static const struct functions proved = {tagobrelin_call, tagobrelin_read, tagobrelin_read_burst},
                              by_hand = {tuned_call, tuned_read, tuned_read_burst};

static void count(const struct row *row, size_t datapoints, size_t items, const struct functions *f,
                  const char *function)
{
    char name[100];
    unsigned calls = make_plays(row->kind, row->size, row->held);
    /* once before: the loader looks a function up at its first call */
    for (size_t v = 0; v < COUNTED; v++)
        play(&plays[v], f);
    CALLGRIND_ZERO_STATS;
    for (size_t v = 0; v < COUNTED; v++)
        play(&plays[v], f);
    snprintf(name, sizeof name, "%s %zu %zu %zu %zu %s %u", row->name, datapoints, items, row->size, row->held, function, calls * COUNTED);
    CALLGRIND_DUMP_STATS_AT(name);
}

int main(int argc, char **argv)
{
    static const struct {
        size_t datapoints, items, from, to; /* which rows */
    } tables[] = {{0, 64, 0, BURSTS}, {10, 64, 0, BURSTS},       {100, 64, 0, BURSTS}, {1000, 64, 0, BURSTS},
                  {0, 0, 0, 1},       {1, 0, READINGS, BURSTS}, {0, 0, BURSTS, ROWS}};
    bool both = argc < 2 || strcmp(argv[1], "ours") != 0;
    for (size_t t = 0; t < sizeof tables / sizeof *tables; t++)
        for (size_t i = tables[t].from; i < tables[t].to; i++) {
            for (int f = 0; f <= both; f++) {
                /* the same tables and plays for each */
                make_tables(tables[t].datapoints, tables[t].items);
                make_texts(rows[i].texts);
                count(&rows[i], tables[t].datapoints, tables[t].items, f ? &by_hand : &proved, f ? "tuned" : "ours");
            }
        }
    return 0;
}
