/* How much stack a call, a reading or a burst uses: each is made once on a stack of its own that is painted before, and
 * the deepest byte that it wrote is looked for. Counted are the bytes below the caller's frame, the return address among
 * them, the arguments not. */
#define _XOPEN_SOURCE 600
#include <stdio.h>
#include <string.h>
#include <ucontext.h>

#include "plays.h"

enum { STACK = 1 << 16, PAINT = 0x5c };

static uint8_t stack[STACK];
static ucontext_t here, there;
static const struct functions *functions;
static const struct play *played;

static int32_t no_call(uint8_t event, uint8_t byte, uint16_t id, uint8_t outcome, const uint8_t *value, size_t value_count,
                       struct tagobrelin_datapoint *datapoints, size_t datapoint_count, struct tagobrelin_item *items, size_t item_count,
                       uint8_t *parameters, size_t parameter_count, const uint8_t *site_texts, size_t site_texts_size,
                       const uint8_t *default_texts, size_t default_texts_size, struct tagobrelin_link *link, uint8_t *out,
                       size_t room)
{
    (void)byte, (void)id, (void)outcome, (void)value, (void)value_count, (void)datapoints, (void)datapoint_count, (void)items, (void)item_count;
    (void)parameters, (void)parameter_count, (void)site_texts, (void)site_texts_size, (void)default_texts;
    (void)default_texts_size, (void)link, (void)out, (void)room;
    return event;
}

static struct tagobrelin_reading no_read(uint16_t id, const struct tagobrelin_datapoint *datapoints,
                                         size_t datapoint_count)
{
    (void)id, (void)datapoints, (void)datapoint_count;
    return (struct tagobrelin_reading){0, 0, 0};
}

static struct tagobrelin_burst no_read_burst(const uint8_t *burst, size_t byte_count, uint16_t *starts,
                                             size_t place_count)
{
    (void)burst, (void)byte_count, (void)starts, (void)place_count;
    return (struct tagobrelin_burst){0, 0, 0};
}

static void on_the_stack(void)
{
    play(played, functions);
}

/* how many bytes of the stack were left as they were painted */
static size_t untouched(const struct play *p, const struct functions *f)
{
    size_t n = 0;
    memset(stack, PAINT, sizeof stack);
    functions = f;
    played = p;
    getcontext(&there);
    there.uc_stack.ss_sp = stack;
    there.uc_stack.ss_size = sizeof stack;
    there.uc_link = &here;
    makecontext(&there, on_the_stack, 0);
    swapcontext(&here, &there);
    while (n < sizeof stack && stack[n] == PAINT)
        n++;
    return n;
}

int main(void)
{
    static const struct functions proved = {tagobrelin_call, tagobrelin_read, tagobrelin_read_burst},
                                  by_hand = {tuned_call, tuned_read, tuned_read_burst},
                                  none = {no_call, no_read, no_read_burst};
    static const struct {
        const char *name;
        enum kind kind;
        size_t size;
    } events[] = {
        {"host byte in mid-frame", MID_FRAME, 40}, {"get of 20 values", GET, 20},
        {"get of 20 strings", STRINGS, 20}, {"set of 40 entries", SET, 40},
        {"248 parameter bytes", PARAMETERS, 248}, {"248 parameter bytes set", SET_PARAMETERS, 248},
        {"poll, 40 marks", POLL, 40}, {"bus value", BUS_VALUE, 0}, {"outcome", OUTCOME, 0},
        {"261 bytes sent again", RESEND, 261}, {"idle mark", IDLE, 40}, {"reading of a two-octet value", READING, 0},
        {"burst of 157 frames", BURST, 13}, {"burst of frames and E5", EXCHANGES, 13},
    };
    make_tables(1000, 64);
    make_texts(1000);
    printf("%-36s %9s %9s\n", "bytes of stack", "ours", "C -O2");
    for (size_t i = 0; i < sizeof events / sizeof *events; i++) {
        size_t ours = 0, tuned = 0;
        make_plays(events[i].kind, events[i].size, 0);
        for (size_t v = 0; v < VARIANTS; v++) {
            /* once before, so that no function is looked up by the loader while it counts; what nothing uses is the return address */
            play(&plays[v], &proved);
            play(&plays[v], &by_hand);
            size_t all = untouched(&plays[v], &none) + 8, a = all - untouched(&plays[v], &proved),
                   b = all - untouched(&plays[v], &by_hand);
            ours = a > ours ? a : ours;
            tuned = b > tuned ? b : tuned;
        }
        printf("%-36s %9zu %9zu\n", events[i].name, ours, tuned);
    }
    return 0;
}
