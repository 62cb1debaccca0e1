/* The serial line: a tty in raw mode, locked, and put back as it was in the end. */
#ifndef LINE_H
#define LINE_H

#include <stdbool.h>
#include <termios.h>

enum parity { NO_PARITY, EVEN_PARITY, ODD_PARITY };

struct line {
    const char *path;
    int tty; /* does not block */
    struct termios before;
};

/* The baud rates that there are. */
#define BAUDS "1200, 2400, 4800, 9600, 19200, 38400, 57600, 115200"
bool is_baud(unsigned long baud);

/* Opens the tty for this program alone: 8 data bits, 1 stop bit, and these. If it cannot, it tells why on standard error
 * and returns false. */
bool open_line(struct line *line, const char *path, unsigned long baud, enum parity parity);

/* Puts the tty's settings back and closes it. */
void close_line(struct line *line);

#endif
