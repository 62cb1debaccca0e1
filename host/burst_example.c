/* A driver that hands over everything between two idle marks at once: it calls on_burst, and is called to send. It has
 * one line, and hands over one burst at a time. */
#include "tagobrelin.h"

void driver_send(const uint8_t *bytes, size_t count); /* the driver's own */

static struct { /* what came over the line */
    unsigned long frames, acknowledgements;
    unsigned long damaged, unfinished, too_long; /* bursts that ended so, or were too long to be read */
    unsigned long refused;                       /* bytes that the server refused: a table is not in order */
} seen;

static void on_burst(struct tagobrelin_server *server, const uint8_t *burst, size_t byte_count)
{
    static uint16_t starts[TAGOBRELIN_LONGEST_BURST];
    struct tagobrelin_burst found = tagobrelin_burst_of(burst, byte_count, starts);
    size_t i;
    seen.frames += found.frames;
    seen.acknowledgements += found.acknowledgements;
    seen.damaged += found.number == TAGOBRELIN_DAMAGED;
    seen.unfinished += found.number == TAGOBRELIN_UNFINISHED;
    seen.too_long += found.number == TAGOBRELIN_BAD_BURST;
    if (found.number > 0 && found.frames + found.acknowledgements == 0)
        return; /* with nothing in it, it would leave the line as it is */
    for (i = 0; i < byte_count; i++) {
        int32_t count = tagobrelin_host_byte(server, burst[i]);
        if (count > 0)
            driver_send(server->out, (size_t)count);
        seen.refused += count < 0;
    }
    tagobrelin_idle_mark(server);
}
