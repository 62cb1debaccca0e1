#define _DEFAULT_SOURCE /* for the speeds above 38400, and flock */
#include "line.h"

#include <errno.h>
#include <fcntl.h>
#include <stdio.h>
#include <string.h>
#include <sys/file.h>
#include <sys/ioctl.h>
#include <unistd.h>

static bool find_speed(unsigned long baud, speed_t *speed)
{
    static const struct {
        unsigned long baud;
        speed_t speed;
    } speeds[] = {{1200, B1200}, {2400, B2400}, {4800, B4800}, {9600, B9600}, {19200, B19200}, {38400, B38400}, {57600, B57600}, {115200, B115200}};
    for (size_t i = 0; i < sizeof speeds / sizeof *speeds; i++)
        if (speeds[i].baud == baud) {
            *speed = speeds[i].speed;
            return true;
        }
    return false;
}

bool is_baud(unsigned long baud)
{
    speed_t speed;
    return find_speed(baud, &speed);
}

static bool cannot_use(const char *path)
{
    bool is_locked = errno == EBUSY || errno == EWOULDBLOCK;
    fprintf(stderr, "serve: %s: %s\n", path, is_locked ? "in use by another program" : strerror(errno));
    return false;
}

/* A lock for programs that look for it, and one that the kernel keeps for all but the super-user. */
static bool lock_line(const struct line *line)
{
    return flock(line->tty, LOCK_EX | LOCK_NB) == 0 && ioctl(line->tty, TIOCEXCL) == 0;
}

/* Raw, and a byte with a parity or framing error is left out: then its frame is damaged and is not acknowledged. */
static struct termios raw_settings(struct termios before, speed_t speed, enum parity parity)
{
    struct termios raw = before;
    raw.c_iflag = IGNBRK | (parity == NO_PARITY ? 0 : INPCK | IGNPAR);
    raw.c_oflag = 0;
    raw.c_lflag = 0;
    raw.c_cflag = CS8 | CREAD | CLOCAL | (parity == NO_PARITY ? 0 : PARENB) | (parity == ODD_PARITY ? PARODD : 0);
    raw.c_cc[VMIN] = 1;
    raw.c_cc[VTIME] = 0;
    cfsetispeed(&raw, speed);
    cfsetospeed(&raw, speed);
    return raw;
}

static bool is_set(const struct termios *is, const struct termios *wanted)
{
    return is->c_iflag == wanted->c_iflag && is->c_oflag == wanted->c_oflag && is->c_lflag == wanted->c_lflag &&
           (is->c_cflag & (CSIZE | CSTOPB | CREAD | CLOCAL)) == (wanted->c_cflag & (CSIZE | CSTOPB | CREAD | CLOCAL)) &&
           cfgetispeed(is) == cfgetispeed(wanted) && cfgetospeed(is) == cfgetospeed(wanted);
}

bool open_line(struct line *line, const char *path, unsigned long baud, enum parity parity)
{
    speed_t speed;
    struct termios is;
    line->path = path;
    if (!find_speed(baud, &speed))
        return false;
    line->tty = open(path, O_RDWR | O_NOCTTY | O_NONBLOCK);
    if (line->tty < 0)
        return cannot_use(path);
    if (tcgetattr(line->tty, &line->before) != 0) {
        fprintf(stderr, "serve: %s is not a tty\n", path);
        close(line->tty);
        return false;
    }
    if (!lock_line(line)) {
        cannot_use(path);
        close(line->tty);
        return false;
    }
    /* tcsetattr succeeds if it sets anything at all, and may fail where all was set before: look at what is set. */
    struct termios wanted = raw_settings(line->before, speed, parity);
    if ((tcsetattr(line->tty, TCSAFLUSH, &wanted) != 0 && errno != EINVAL) || tcgetattr(line->tty, &is) != 0 || !is_set(&is, &wanted)) {
        fprintf(stderr, "serve: %s cannot be set to %lu baud, 8 data bits\n", path, baud);
        close_line(line);
        return false;
    }
    if ((is.c_cflag & (PARENB | PARODD)) != (wanted.c_cflag & (PARENB | PARODD)))
        fprintf(stderr, "serve: note: %s does not take the parity setting (a pseudoterminal has no parity bit)\n", path);
    return true;
}

void close_line(struct line *line)
{
    tcsetattr(line->tty, TCSANOW, &line->before);
    ioctl(line->tty, TIOCNXCL);
    close(line->tty);
}
