/* A serial loop on standard input and output, at 19200 baud: host bytes, idle marks, the acknowledgement timer, polls. */
#define _POSIX_C_SOURCE 200809L
#include <poll.h>
#include <time.h>
#include <unistd.h>
#include "tagobrelin.h"

enum { /* times in microseconds */
    BAUD = 19200,
    GAP = TAGOBRELIN_MICROSECONDS(TAGOBRELIN_GAP_BITS, BAUD),
    ACK_WAIT = TAGOBRELIN_MICROSECONDS(TAGOBRELIN_ACK_WAIT_BITS, BAUD)
};

static struct tagobrelin_datapoint datapoints[] = {
    {.id = 5, .typecode = 0, .flags = 0x44, .state = 0x18, .value = {1}, .mark = 1}, /* 0x44: communicates, transmits */
};
static struct tagobrelin_item items[] = {{.id = 1, .size = 6, .bytes = {0x00, 0x00, 0xC5, 0x07, 0x00, 0x02}}};
static uint8_t parameters[] = {0x2A};
static struct tagobrelin_server server = {
    .datapoints = datapoints, .datapoint_count = sizeof datapoints / sizeof *datapoints,
    .items = items, .item_count = sizeof items / sizeof *items,
    .parameters = parameters, .parameter_count = sizeof parameters,
};
static uint64_t line_free, frame_over; /* when all that was sent will be over the line, and when the last frame will */

static uint64_t now(void) /* by a clock that always runs */
{
    struct timespec time;
    clock_gettime(CLOCK_MONOTONIC, &time);
    return (uint64_t)time.tv_sec * 1000000 + (uint64_t)time.tv_nsec / 1000;
}

static void send_out(int32_t count) /* what an event returned */
{
    uint64_t time = now();
    if (count == 0)
        return;
    if (count < 0 || write(STDOUT_FILENO, server.out, (size_t)count) != count)
        _exit(1);
    line_free = (line_free > time ? line_free : time) + TAGOBRELIN_MICROSECONDS(count * TAGOBRELIN_BYTE_BITS, BAUD);
    if (count > 1) /* more than an acknowledgement: a frame */
        frame_over = line_free;
}

int main(void)
{
    uint64_t heard = now(); /* when the last byte came */
    int idle = 0;           /* whether an idle mark followed */
    tagobrelin_start(&server);
    for (;;) {
        struct pollfd input = {.fd = STDIN_FILENO, .events = POLLIN};
        uint64_t time = now(); /* before the look at the line: what came in time is heard before a wait is over */
        if (poll(&input, 1, 1) > 0) {
            uint8_t bytes[4096];
            ssize_t count = read(STDIN_FILENO, bytes, sizeof bytes);
            if (count <= 0)
                return 0;
            for (ssize_t i = 0; i < count; i++)
                send_out(tagobrelin_host_byte(&server, bytes[i]));
            heard = now();
            idle = 0;
        } else if (!idle && time >= heard + GAP) {
            send_out(tagobrelin_idle_mark(&server));
            idle = 1;
        }
        if (tagobrelin_is_outstanding(&server) && time >= frame_over + ACK_WAIT)
            send_out(tagobrelin_ack_wait_over(&server));
        if (idle) /* not while a request comes in: it would be dropped */
            send_out(tagobrelin_poll(&server));
    }
}
