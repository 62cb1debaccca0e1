/* Serves the library's tables to a host on a serial line: host bytes, idle marks, acknowledgement waits and polls, one
 * call each. Bus values and outcomes can be typed on standard input, readings asked for, and bursts looked into.
 * `serve -h` tells how it is called. */
#define _POSIX_C_SOURCE 200809L
#include <errno.h>
#include <fcntl.h>
#include <signal.h>
#include <stdio.h>
#include <stdlib.h>
#include <string.h>
#include <sys/select.h>
#include <time.h>
#include <unistd.h>

#include "line.h"
#include "meaning.h"
#include "table_file.h"
#include "tagobrelin.h"
#include "words.h"

/* Times are nanoseconds of the monotonic clock. */
#define MILLISECOND INT64_C(1000000)
#define SECOND (1000 * MILLISECOND)
#define NEVER INT64_MAX

static struct tables tables, told; /* what the server holds, and what of it was last shown */
static struct tagobrelin_server server;
static struct line line;

static const char *const parities[] = {[NO_PARITY] = "none", [EVEN_PARITY] = "even", [ODD_PARITY] = "odd"};

/* what the options set */
static unsigned long baud = 19200;
static enum parity parity = EVEN_PARITY;
static int64_t gap, ack_wait = 100 * MILLISECOND, poll_period = 20 * MILLISECOND;
static bool is_verbose;

static int64_t line_free;        /* when all that was handed to the tty will have gone over the line */
static int64_t idle_due = NEVER; /* when the line has been silent for the gap, if no byte comes */
static int64_t ack_due = NEVER;  /* when the outstanding frame's acknowledgement is overdue */
static int64_t poll_due;

static uint8_t heard[261]; /* the bytes from the host since its last whole frame, to be shown; the longest frame has 261 */
static size_t heard_count;
static unsigned long cut_count; /* frames that were cut by an idle mark */

static volatile sig_atomic_t stopped;
static sigset_t while_waiting; /* signals come only while the loop waits */

static void stop(int number)
{
    (void)number;
    stopped = 1;
}

static int64_t now(void)
{
    struct timespec time;
    clock_gettime(CLOCK_MONOTONIC, &time);
    return time.tv_sec * SECOND + time.tv_nsec;
}

static int64_t bit_times(int64_t count)
{
    return count * SECOND / (int64_t)baud;
}

/* Waits until one of the sets is ready, that time, or a signal. Returns how many are ready; below 0 only if waiting itself failed. */
static int wait_until(int64_t time, fd_set *readable, fd_set *writable)
{
    int64_t left = time - now();
    struct timespec timeout = {0, 0};
    if (left > 0) {
        timeout.tv_sec = (time_t)(left / SECOND);
        timeout.tv_nsec = (long)(left % SECOND);
    }
    int ready = pselect(line.tty + 1, readable, writable, NULL, &timeout, &while_waiting);
    return ready < 0 && errno == EINTR ? 0 : ready;
}

/* Sends the bytes. A line that takes none for a second loses the rest: to the host that is damage, which the link rules mend. */
static bool send_bytes(const uint8_t *bytes, size_t count)
{
    int bits = parity == NO_PARITY ? 10 : 11; /* of one byte on the line, with start and stop bit */
    int64_t start = now();
    if (line_free < start)
        line_free = start;
    line_free += bit_times((int64_t)count * bits);
    while (count > 0) {
        ssize_t taken = write(line.tty, bytes, count);
        if (taken > 0) {
            bytes += taken;
            count -= (size_t)taken;
        } else if (taken < 0 && errno != EAGAIN && errno != EINTR) {
            fprintf(stderr, "serve: %s: %s\n", line.path, strerror(errno));
            return false;
        } else {
            fd_set writable;
            FD_ZERO(&writable);
            FD_SET(line.tty, &writable);
            if (wait_until(now() + SECOND, NULL, &writable) <= 0) {
                if (!stopped)
                    fprintf(stderr, "serve: %s takes no bytes: %zu are lost\n", line.path, count);
                return true;
            }
        }
    }
    return true;
}

/* Sends what an event left to be sent, and keeps the acknowledgement's time, which runs from the end of the outstanding
 * frame on the line: what is sent is such a frame where it is more than an acknowledgement. Returns the event's number. */
static int32_t follow(int32_t number)
{
    if (number > 0) {
        if (is_verbose)
            show_sent(stdout, "   server : ", server.out, (size_t)number);
        if (!send_bytes(server.out, (size_t)number))
            exit(EXIT_FAILURE);
    }
    if (!tagobrelin_is_outstanding(&server))
        ack_due = NEVER;
    else if (number > 1)
        ack_due = line_free + ack_wait;
    return number;
}

/* The same for an event that is never refused with tables and a link that nobody else writes to. */
static int32_t follow_surely(int32_t number)
{
    if (number < 0) {
        fprintf(stderr, "serve: the library refused an event with %d\n", (int)number);
        exit(EXIT_FAILURE);
    }
    return follow(number);
}

static void show_bytes(const uint8_t *bytes, size_t count)
{
    for (size_t i = 0; i < count; i++)
        printf(" %02X", bytes[i]);
    putchar('\n');
}

/* Shows the parameter bytes from the first to the last that is not as it was last shown. */
static void show_changed_parameters(void)
{
    size_t first = 0, last = tables.parameter_count;
    while (first < last && tables.parameters[first] == told.parameters[first])
        first++;
    while (first < last && tables.parameters[last - 1] == told.parameters[last - 1])
        last--;
    if (first == last)
        return;
    if (first + 1 == last)
        printf("parameter byte %zu:", last);
    else
        printf("parameter bytes %zu to %zu:", first + 1, last);
    show_bytes(tables.parameters + first, last - first);
}

/* Shows the datapoints and items that are not as they were last shown, and the stretch of such parameter bytes. The bus side has to
 * send the datapoints whose status is requested. */
static void show_changes(void)
{
    for (size_t i = 0; i < tables.datapoint_count; i++) {
        const struct tagobrelin_datapoint *is = &tables.datapoints[i], *was = &told.datapoints[i];
        if (is->state != was->state || memcmp(is->value, was->value, sizeof is->value) != 0) {
            printf("datapoint %u: state %02X, value", is->id, is->state);
            show_bytes(is->value, value_size(is->typecode));
        }
    }
    for (size_t i = 0; i < tables.item_count; i++) {
        const struct tagobrelin_item *is = &tables.items[i], *was = &told.items[i];
        if (memcmp(is->bytes, was->bytes, sizeof is->bytes) != 0) {
            printf("item %u:", is->id);
            show_bytes(is->bytes, is->size);
        }
    }
    show_changed_parameters();
    told = tables;
}

/* Shows what came from the host, as far as it was not shown, and forgets it. */
static void show_heard(void)
{
    if (is_verbose && heard_count > 0)
        show_frame(stdout, "   host   : ", heard, heard_count);
    heard_count = 0;
}

/* A byte from the host. Only an answer, more than an acknowledgement, can have changed a table. */
static void hear_byte(uint8_t byte)
{
    int32_t number = tagobrelin_host_byte(&server, byte);
    if (heard_count < sizeof heard)
        heard[heard_count++] = byte;
    if (!tagobrelin_is_receiving(&server) && !tagobrelin_is_dropping(&server))
        show_heard();
    if (follow_surely(number) > 1)
        show_changes();
}

static void hear(void)
{
    uint8_t bytes[4096]; /* all that a tty keeps: what came is heard before a wait is over */
    ssize_t count = read(line.tty, bytes, sizeof bytes);
    if (count < 0 && (errno == EAGAIN || errno == EINTR))
        return;
    if (count <= 0) {
        fprintf(stderr, "serve: %s is gone\n", line.path);
        exit(EXIT_FAILURE);
    }
    idle_due = now() + gap;
    for (ssize_t i = 0; i < count; i++)
        hear_byte(bytes[i]);
}

/* The line was silent for the gap. Frames that it cuts are told at the third, and then at ten times as many: a host that
 * breaks off is rare, and a driver that makes pauses cuts many. */
static void hear_silence(void)
{
    static unsigned long tell_at = 3;
    bool is_within = heard_count > 0;
    if (tagobrelin_is_receiving(&server) && ++cut_count == tell_at) {
        fprintf(stderr, "serve: %lu frames from the host were cut by an idle mark: ", cut_count);
        fprintf(stderr, "if the driver of %s makes pauses, choose a longer -g than %g\n", line.path, (double)gap / MILLISECOND);
        tell_at *= 10;
    }
    show_heard();
    if (is_verbose && is_within)
        puts("   line   : silent, an idle mark");
    follow_surely(tagobrelin_idle_mark(&server));
}

static void obey_value(struct words *words)
{
    unsigned long id;
    uint8_t value[14];
    size_t count;
    if (!read_number(words, "ID", 0, 65535, &id) || !read_bytes(words, value, sizeof value, &count))
        return;
    if (follow(tagobrelin_bus_value(&server, (uint16_t)id, value, count)) < 0)
        wrong(words, "refused: no datapoint has this ID, or the value is not one of its type");
}

static void obey_outcome(struct words *words)
{
    static const char *const outcomes[] = {[TAGOBRELIN_SENT] = "sent", [TAGOBRELIN_FAILED] = "failed", [TAGOBRELIN_IN_PROGRESS] = "in-progress"};
    unsigned long id;
    uint8_t outcome = 0;
    if (!read_number(words, "ID", 0, 65535, &id))
        return;
    const char *name = next_word(words);
    while (outcome < 3 && (name == NULL || strcmp(name, outcomes[outcome]) != 0))
        outcome++;
    if (outcome == 3)
        wrong(words, "behind the ID stands none of sent, failed, in-progress");
    else if (read_end(words) && follow(tagobrelin_outcome(&server, (uint16_t)id, outcome)) < 0)
        wrong(words, "refused: no datapoint has this ID");
}

/* Shows a datapoint's value as a number, with the unit behind it, if there is one: the tables know none. */
static void show_reading(unsigned long id, struct tagobrelin_reading reading, const char *unit)
{
    static const char *const cases[] = {[TAGOBRELIN_SWITCH] = "switch",
                                        [TAGOBRELIN_COUNT] = "count",
                                        [TAGOBRELIN_TWO_OCTET] = "two-octet value",
                                        [TAGOBRELIN_SINGLE] = "single"};
    if (reading.number == TAGOBRELIN_UNREADABLE) {
        printf("datapoint %lu is unreadable\n", id);
        return;
    }
    printf("datapoint %lu reads ", id);
    if (reading.number == TAGOBRELIN_SWITCH)
        printf("%s", reading.whole ? "on" : "off");
    else if (reading.number == TAGOBRELIN_COUNT)
        printf("%lu", (unsigned long)reading.whole);
    else /* a two-octet value has hundredths; 9 digits tell every single */
        printf(reading.number == TAGOBRELIN_TWO_OCTET ? "%.2f" : "%.9g", (double)reading.value);
    if (unit != NULL && reading.number != TAGOBRELIN_SWITCH)
        printf(" %s", unit);
    printf(" (%s)\n", cases[reading.number]);
}

/* The tables are in order: a reading is refused for an absent ID alone. */
static void obey_reading(struct words *words)
{
    unsigned long id;
    if (!read_number(words, "ID", 0, 65535, &id))
        return;
    const char *unit = next_word(words);
    if (!read_end(words))
        return;
    struct tagobrelin_reading reading = tagobrelin_reading_of(&server, (uint16_t)id);
    if (reading.number < 0)
        wrong(words, "refused: no datapoint has this ID");
    else
        show_reading(id, reading, unit);
}

/* how many bytes the frame or acknowledgement has that starts there */
static size_t piece_size(const uint8_t *at)
{
    return at[0] == 0xE5 ? 1 : at[0] == 0x10 ? 4 : at[1] + 6u;
}

/* Shows a burst, each frame and acknowledgement that it holds in brackets, and what it holds. */
static void show_burst(const uint8_t *bytes, size_t count, struct tagobrelin_burst burst, const uint16_t *starts)
{
    static const char *const endings[] = {[TAGOBRELIN_CLEAN] = "clean",
                                          [TAGOBRELIN_DAMAGED] = "damaged",
                                          [TAGOBRELIN_UNFINISHED] = "unfinished"};
    size_t found = (size_t)burst.frames + burst.acknowledgements, piece = 0, end = 0;
    printf("burst:");
    for (size_t i = 0; i < count; i++) {
        bool is_start = piece < found && i == starts[piece];
        if (is_start)
            end = starts[piece++] + piece_size(bytes + i);
        printf(is_start ? " [%02X" : " %02X", bytes[i]);
        if (i + 1 == end)
            putchar(']');
    }
    printf("\n%u frame%s, %u acknowledgement%s, %s\n", burst.frames, burst.frames == 1 ? "" : "s",
           burst.acknowledgements, burst.acknowledgements == 1 ? "" : "s", endings[burst.number]);
}

/* No more bytes are taken than a burst may have, so that it is never refused. */
static void obey_burst(struct words *words)
{
    static uint16_t starts[TAGOBRELIN_LONGEST_BURST];
    uint8_t bytes[TAGOBRELIN_LONGEST_BURST];
    size_t count;
    if (read_bytes(words, bytes, sizeof bytes, &count))
        show_burst(bytes, count, tagobrelin_burst_of(bytes, count, starts), starts);
}

/* value ID BYTES, or outcome ID sent|failed|in-progress, or reading ID [UNIT], or burst BYTES */
static void obey(struct words *words)
{
    const char *verb = next_word(words);
    if (verb == NULL)
        return;
    if (strcmp(verb, "value") == 0)
        obey_value(words);
    else if (strcmp(verb, "outcome") == 0)
        obey_outcome(words);
    else if (strcmp(verb, "reading") == 0)
        obey_reading(words);
    else if (strcmp(verb, "burst") == 0)
        obey_burst(words);
    else
        wrong(words, "'%s' is none of: value ID BYTES, outcome ID sent|failed|in-progress, reading ID [UNIT], burst BYTES",
              verb);
    show_changes();
}

/* The line that is being typed. */
static struct {
    char text[8192]; /* room for a burst of 2048 bytes */
    size_t count;    /* of all its characters, also those that have no room */
} typed;

/* The line is over. One that is too long or holds a NUL is refused whole. */
static void take_line(void)
{
    struct words words = {.source = "standard input", .rest = typed.text};
    if (typed.count >= sizeof typed.text) {
        wrong(&words, "a line of %zu characters: there is room for %zu", typed.count, sizeof typed.text - 1);
    } else if (memchr(typed.text, '\0', typed.count) != NULL) {
        wrong(&words, "a line holds a NUL");
    } else {
        typed.text[typed.count] = '\0';
        obey(&words);
    }
    typed.count = 0;
}

/* What is typed; its last line also without a newline. Returns false at its end. */
static bool listen_to_input(void)
{
    char bytes[4096];
    ssize_t count = read(STDIN_FILENO, bytes, sizeof bytes);
    if (count < 0 && (errno == EINTR || errno == EAGAIN))
        return true;
    for (ssize_t i = 0; i < count; i++)
        if (bytes[i] == '\n')
            take_line();
        else if (++typed.count < sizeof typed.text)
            typed.text[typed.count - 1] = bytes[i];
    if (count <= 0 && typed.count > 0)
        take_line();
    return count > 0;
}

/* Whether the host is between two frames. In mid-frame no indication is sent, since the frame would be dropped for it. */
static bool is_between_frames(void)
{
    return !tagobrelin_is_receiving(&server) && !tagobrelin_is_dropping(&server);
}

static void serve(void)
{
    bool is_typed = true;
    while (!stopped) {
        fd_set readable;
        int64_t time = now(), due = idle_due;
        if (is_between_frames() && poll_due < due)
            due = poll_due;
        if (ack_due < due)
            due = ack_due;
        FD_ZERO(&readable);
        FD_SET(line.tty, &readable);
        if (is_typed)
            FD_SET(STDIN_FILENO, &readable);
        int ready = wait_until(due, &readable, NULL);
        if (ready < 0) {
            fprintf(stderr, "serve: waiting failed: %s\n", strerror(errno));
            exit(EXIT_FAILURE);
        }
        if (ready == 0)
            FD_ZERO(&readable);
        /* A wait is over by the time before this look at the line: where this is late, bytes may have come in time. */
        if (FD_ISSET(line.tty, &readable)) {
            hear();
        } else if (time >= idle_due) {
            idle_due = NEVER;
            hear_silence();
        }
        if (time >= ack_due)
            follow_surely(tagobrelin_ack_wait_over(&server));
        if (FD_ISSET(STDIN_FILENO, &readable))
            is_typed = listen_to_input();
        if (is_between_frames() && time >= poll_due) {
            if (follow_surely(tagobrelin_poll(&server)) > 0)
                show_changes();
            poll_due = time + poll_period;
        }
        fflush(stdout);
    }
}

/* Takes what is missing of standard input, output and error, so that the tty does not become one of them. */
static void take_standard_places(void)
{
    int place;
    do
        place = open("/dev/null", O_RDWR);
    while (place >= 0 && place <= STDERR_FILENO);
    if (place >= 0)
        close(place);
}

static void close_at_exit(void)
{
    close_line(&line);
}

static void catch_signals(void)
{
    static const int numbers[] = {SIGINT, SIGTERM, SIGHUP};
    struct sigaction action = {.sa_handler = stop};
    sigset_t blocked;
    sigemptyset(&action.sa_mask);
    sigemptyset(&blocked);
    for (size_t i = 0; i < sizeof numbers / sizeof *numbers; i++) {
        sigaction(numbers[i], &action, NULL);
        sigaddset(&blocked, numbers[i]);
    }
    /* An output that nobody reads, or an input that belongs to the foreground, is no reason to end. */
    signal(SIGPIPE, SIG_IGN);
    signal(SIGTTIN, SIG_IGN);
    sigprocmask(SIG_BLOCK, &blocked, &while_waiting);
    for (size_t i = 0; i < sizeof numbers / sizeof *numbers; i++)
        sigdelset(&while_waiting, numbers[i]);
}

static void tell_usage(FILE *to)
{
    fputs("usage: serve [-hv] [-b BAUD] [-p even|odd|none] [-g MS] [-a MS] [-i MS] TTY TABLES\n"
          "  TTY     the serial line to the host\n"
          "  TABLES  a text file with datapoints, items, parameter bytes and texts; host/tables.txt is one. It is only read:\n"
          "          what the host sets is shown, and kept as long as the program runs\n"
          "  -b      baud: 19200 if not given\n"
          "  -p      parity: even if not given\n"
          "  -g      milliseconds of silence that are an idle mark. If not given 20, and more below 12650 baud, so that the\n"
          "          pauses of a FIFO and of a USB adapter (16 ms) are none. It costs: behind damage all is dropped up to an\n"
          "          idle mark, so a frame that the host repeats sooner is lost too. The standard's gap is 33 bit times, 2 ms\n"
          "          at 19200 baud: for a driver that hands over each byte at once, and for more than 19200 baud\n"
          "  -a      milliseconds to wait for the acknowledgement of a frame, from its end on: 100 if not given\n"
          "  -i      milliseconds between polls for an indication: 20 if not given\n"
          "  -v      shows each frame in both directions, with its meaning\n"
          "  -h      shows this\n"
          "Typed lines are bus events: value ID BYTES; outcome ID sent|failed|in-progress. Or they ask for a value as a\n"
          "number: reading ID [UNIT]; the unit is shown behind the number. Or for what bytes between two idle marks hold:\n"
          "burst BYTES; frames and acknowledgements are shown in brackets. Ctrl-C ends the program.\n",
          to);
}

static void refuse_call(void)
{
    tell_usage(stderr);
    exit(2);
}

static unsigned long number_option(const char *option, char *text, unsigned long most)
{
    struct words words = {.source = option, .rest = text};
    unsigned long number;
    if (!read_number(&words, "number", 1, most, &number) || !read_end(&words))
        exit(2);
    return number;
}

static enum parity parity_option(const char *text)
{
    for (enum parity each = NO_PARITY; each <= ODD_PARITY; each++)
        if (strcmp(text, parities[each]) == 0)
            return each;
    fprintf(stderr, "serve: -p: '%s' is none of even, odd, none\n", text);
    exit(2);
}

/* Longer than the pauses that drivers make in a frame: a 16550 hands over 16 bytes at most at a time, or what there is
 * when 4 byte times were silent; a USB adapter hands over what came within 16 ms. And at 19200 baud shorter than the wait
 * of 510 bit times after which a host repeats. */
static int64_t default_gap(void)
{
    int64_t fifo = bit_times(TAGOBRELIN_GAP_BITS + 20 * TAGOBRELIN_BYTE_BITS), usb = 20 * MILLISECOND;
    return fifo > usb ? fifo : usb;
}

static void read_options(int count, char **texts)
{
    int option;
    while ((option = getopt(count, texts, "b:p:g:a:i:vh")) >= 0)
        switch (option) {
        case 'b':
            baud = number_option("-b", optarg, 115200);
            if (!is_baud(baud)) {
                fprintf(stderr, "serve: -b: %lu is none of " BAUDS "\n", baud);
                exit(2);
            }
            break;
        case 'p':
            parity = parity_option(optarg);
            break;
        case 'g':
            gap = (int64_t)number_option("-g", optarg, 60000) * MILLISECOND;
            break;
        case 'a':
            ack_wait = (int64_t)number_option("-a", optarg, 60000) * MILLISECOND;
            break;
        case 'i':
            poll_period = (int64_t)number_option("-i", optarg, 60000) * MILLISECOND;
            break;
        case 'v':
            is_verbose = true;
            break;
        case 'h':
            tell_usage(stdout);
            exit(EXIT_SUCCESS);
        default:
            refuse_call();
        }
    if (count - optind != 2)
        refuse_call();
    if (gap == 0)
        gap = default_gap();
}

int main(int count, char **texts)
{
    take_standard_places();
    read_options(count, texts);
    if (!read_tables(texts[optind + 1], &tables))
        return EXIT_FAILURE;
    catch_signals();
    if (!open_line(&line, texts[optind], baud, parity))
        return EXIT_FAILURE;
    atexit(close_at_exit);
    lend_tables(&tables, &server);
    tagobrelin_start(&server);
    told = tables;
    poll_due = now();
    setvbuf(stdout, NULL, _IOFBF, 1 << 16); /* what is shown leaves at the end of a round: no frame waits for it */
    printf("serving %zu datapoints, %zu items, %zu parameter bytes and %zu texts on %s: %lu baud, %s parity\n",
           tables.datapoint_count, tables.item_count, tables.parameter_count,
           tables.site_texts.count + tables.default_texts.count, line.path, baud,
           parity == NO_PARITY ? "no" : parities[parity]);
    fflush(stdout);
    serve();
    return EXIT_SUCCESS;
}
