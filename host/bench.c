/* Times the proved call, reading and reader of bursts beside the hand-written ones: both on the same memory, in turns
 * within one run. Usage: bench [ROUNDS]. Each round plays the same batch of some 20 microseconds by each of them, in
 * another order from round to round; the benchmark's own share, played with functions that do nothing, is taken off.
 * Times are the 10th percentile over the rounds, in nanoseconds a call or a burst. */
#define _POSIX_C_SOURCE 199309L
#include <stdio.h>
#include <stdlib.h>
#include <time.h>

#include "plays.h"

/* tuned.c, tuned_read.c and tuned_burst.c once more, at -O3 */
call_function tuned_o3_call;
read_function tuned_o3_read;
read_burst_function tuned_o3_read_burst;

static int32_t no_call(uint8_t event, uint8_t byte, uint16_t id, uint8_t outcome, const uint8_t *value, size_t value_count,
                       struct tagobrelin_datapoint *datapoints, size_t datapoint_count, struct tagobrelin_item *items, size_t item_count,
                       uint8_t *parameters, size_t parameter_count, const uint8_t *site_texts, size_t site_texts_size,
                       const uint8_t *default_texts, size_t default_texts_size, struct tagobrelin_link *link, uint8_t *out,
                       size_t room)
{
    (void)byte, (void)id, (void)outcome, (void)value, (void)value_count, (void)datapoints, (void)datapoint_count, (void)items, (void)item_count;
    (void)parameters, (void)parameter_count, (void)site_texts, (void)site_texts_size, (void)default_texts;
    (void)default_texts_size, (void)link, (void)out, (void)room;
    return event;
}

static struct tagobrelin_reading no_read(uint16_t id, const struct tagobrelin_datapoint *datapoints,
                                         size_t datapoint_count)
{
    (void)id, (void)datapoints, (void)datapoint_count;
    return (struct tagobrelin_reading){0, 0, 0};
}

static struct tagobrelin_burst no_read_burst(const uint8_t *burst, size_t byte_count, uint16_t *starts,
                                             size_t place_count)
{
    (void)burst, (void)byte_count, (void)starts, (void)place_count;
    return (struct tagobrelin_burst){0, 0, 0};
}

static const struct row {
    const char *name;
    enum kind kind;
    size_t size, held, texts; /* texts: the entries of each list */
} rows[] = {
    {"host byte in mid-frame", STREAM, 100, 0, 0},
    {"the same, 261 bytes outstanding", STREAM, 100, 261, 0},
    {"host byte, two lists of 100 texts", STREAM, 100, 0, 100},
    {"host byte, two lists of 1000 texts", STREAM, 100, 0, 1000},
    {"get of 20 values, all its bytes", GET_FRAME, 20, 0, 0},
    {"get of 20 values, its last byte", GET, 20, 0, 0},
    {"get of 20 strings, lists of 100 texts", STRINGS, 20, 0, 100},
    {"get of 20 strings, lists of 1000 texts", STRINGS, 20, 0, 1000},
    {"set of 40 entries, all its bytes", SET_FRAME, 40, 0, 0},
    {"set of 40 entries, its last byte", SET, 40, 0, 0},
    {"poll, 40 marks", POLL, 40, 0, 0},
    {"poll, no mark", POLL, 0, 0, 0},
    {"frame of 261 bytes, all its bytes", FRAME, 261, 0, 0},
    {"248 parameter bytes, its last byte", PARAMETERS, 248, 0, 0},
    {"248 parameter bytes set, its last byte", SET_PARAMETERS, 248, 0, 0},
    {"261 bytes sent again", RESEND, 261, 0, 0},
    {"bus value", BUS_VALUE, 0, 0, 0},
    {"outcome", OUTCOME, 0, 0, 0},
    {"reading of a two-octet value", READING, 0, 0, 0},
};

/* these are on no table */
static const struct row bursts[] = {
    {"7 frames of 261 bytes", BURST, 261, 0, 0},
    {"157 frames of 13 bytes", BURST, 13, 0, 0},
    {"146 times a frame of 13 bytes and E5", EXCHANGES, 13, 0, 0},
    {"512 fixed frames", BURST, 4, 0, 0},
    {"2048 times E5", BURST, 1, 0, 0},
};

enum { OURS, TUNED, TUNED_O3, NONE, FUNCTIONS, MOST_ROUNDS = 5000 };
static const struct functions functions[FUNCTIONS] = {{tagobrelin_call, tagobrelin_read, tagobrelin_read_burst},
                                                      {tuned_call, tuned_read, tuned_read_burst},
                                                      {tuned_o3_call, tuned_o3_read, tuned_o3_read_burst},
                                                      {no_call, no_read, no_read_burst}};
static double times[FUNCTIONS][MOST_ROUNDS], quotients[MOST_ROUNDS];

static double now(void)
{
    struct timespec t;
    clock_gettime(CLOCK_MONOTONIC, &t);
    return (double)t.tv_sec * 1e9 + (double)t.tv_nsec;
}

static int by_size(const void *a, const void *b)
{
    double x = *(const double *)a, y = *(const double *)b;
    return x < y ? -1 : x > y;
}

/* `count` plays, from variant `first` on */
static double batch(const struct functions *f, unsigned first, unsigned count)
{
    double start = now();
    for (unsigned i = first; i < first + count; i++)
        play(&plays[i % VARIANTS], f);
    return (now() - start) / count;
}

static double floor_of(unsigned rounds)
{
    static volatile uint64_t sink;
    for (unsigned r = 0; r < rounds; r++) {
        double start = now();
        for (unsigned i = 0; i < 50; i++)
            sink = read_all();
        times[0][r] = (now() - start) / 50;
    }
    qsort(times[0], rounds, sizeof **times, by_size);
    (void)sink;
    return times[0][rounds / 10];
}

static void tell_columns(const char *what)
{
    printf("%-38s %9s %9s %7s %9s %9s %7s\n", what, "ours", "C -O2", "ratio", "in pairs", "C -O3", "ratio");
}

static void time_row(const struct row *row, unsigned rounds)
{
    double at[FUNCTIONS];
    make_texts(row->texts);
    unsigned calls = make_plays(row->kind, row->size, row->held);
    unsigned count = 1 + (unsigned)(20000 / (batch(&functions[TUNED], 0, 8 * VARIANTS) + 1));
    for (unsigned r = 0; r < rounds; r++) {
        for (unsigned k = 0; k < FUNCTIONS; k++) {
            unsigned f = (k + r) % FUNCTIONS;
            times[f][r] = batch(&functions[f], r * count, count);
        }
        quotients[r] = (times[OURS][r] - times[NONE][r]) / (times[TUNED][r] - times[NONE][r]);
    }
    for (unsigned f = 0; f < FUNCTIONS; f++) {
        qsort(times[f], rounds, sizeof **times, by_size);
        at[f] = times[f][rounds / 10];
    }
    qsort(quotients, rounds, sizeof *quotients, by_size);
    for (unsigned f = 0; f < NONE; f++)
        at[f] = (at[f] - at[NONE]) / calls;
    printf("%-38s %9.1f %9.1f %7.2f %9.2f %9.1f %7.2f\n", row->name, at[OURS], at[TUNED], at[OURS] / at[TUNED],
           quotients[rounds / 2], at[TUNED_O3], at[OURS] / at[TUNED_O3]);
}

int main(int argc, char **argv)
{
    static const size_t sizes[] = {0, 10, 100, 1000};
    unsigned rounds = argc > 1 ? (unsigned)strtoul(argv[1], NULL, 10) : 400;
    if (rounds < 10 || rounds > MOST_ROUNDS)
        rounds = 400;
    for (size_t s = 0; s < sizeof sizes / sizeof *sizes; s++) {
        make_tables(sizes[s], 64);
        printf("%zu datapoints, 64 items, 255 parameter bytes; each lent byte read once: %.0f ns\n", sizes[s],
               floor_of(rounds));
        tell_columns("ns a call");
        for (size_t i = 0; i < sizeof rows / sizeof *rows; i++)
            time_row(&rows[i], rounds);
        printf("\n");
    }
    tell_columns("ns a burst");
    for (size_t i = 0; i < sizeof bursts / sizeof *bursts; i++)
        time_row(&bursts[i], rounds);
    return 0;
}
