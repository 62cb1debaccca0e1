/* Runs the example on a pseudoterminal and is its host: example_test EXAMPLE. One line for each test. */
#define _GNU_SOURCE
#include <fcntl.h>
#include <poll.h>
#include <stdbool.h>
#include <stdint.h>
#include <stdio.h>
#include <stdlib.h>
#include <string.h>
#include <sys/wait.h>
#include <termios.h>
#include <unistd.h>

static int host;
static bool failed;

#define BYTES(...) (const uint8_t[]){__VA_ARGS__}, sizeof((const uint8_t[]){__VA_ARGS__})

/* the host sends these */
static void say(const uint8_t *bytes, size_t count)
{
    if (write(host, bytes, count) != (ssize_t)count)
        failed = true;
}

/* the next bytes from the module are these: so many times, within ten seconds */
static bool hears(int times, const uint8_t *bytes, size_t count)
{
    for (size_t i = 0; i < (size_t)times * count; i++) {
        struct pollfd input = {.fd = host, .events = POLLIN};
        uint8_t byte;
        if (poll(&input, 1, 10000) != 1 || read(host, &byte, 1) != 1)
            return printf("    byte %zu is missing\n", i), false;
        if (byte != bytes[i % count])
            return printf("    byte %zu is %02X, not %02X\n", i, byte, bytes[i % count]), false;
    }
    return true;
}

static bool hears_nothing(int milliseconds)
{
    struct pollfd input = {.fd = host, .events = POLLIN};
    return poll(&input, 1, milliseconds) == 0;
}

static void test(const char *name, bool passed)
{
    printf("example %s: %s\n", name, passed ? "ok" : "FAILED");
    failed |= !passed;
}

int main(int count, char **words)
{
    struct termios raw;
    host = posix_openpt(O_RDWR | O_NOCTTY);
    if (count != 2 || host < 0 || grantpt(host) != 0 || unlockpt(host) != 0)
        return 2;
    int module = open(ptsname(host), O_RDWR | O_NOCTTY);
    if (module < 0 || tcgetattr(module, &raw) != 0)
        return 2;
    cfmakeraw(&raw);
    if (tcsetattr(module, TCSANOW, &raw) != 0)
        return 2;
    pid_t child = fork();
    if (child == 0) {
        dup2(module, STDIN_FILENO);
        dup2(module, STDOUT_FILENO);
        close(host);
        execl(words[1], words[1], (char *)NULL);
        _exit(2);
    }
    close(module);

    test("poll: the marked datapoint, sent four times by the acknowledgement timer", hears(4, BYTES(0x68, 0x0C, 0x0C, 0x68, 0xF3, 0xF0, 0xC1, 0, 5, 0, 1, 0, 5, 0x18, 1, 1, 0xC9, 0x16)));
    test("acknowledgement timer: the fourth wait sends a reset", hears(1, BYTES(0x10, 0xC0, 0xC0, 0x16)));
    say(BYTES(0x68, 7, 7, 0x68, 0x73, 0xF0, 1, 0, 1, 0, 1, 0x66, 0x16, 0xE5));
    test("host bytes: a request, answered and acknowledged",
         hears(1, BYTES(0xE5, 0x68, 0x10, 0x10, 0x68, 0xF3, 0xF0, 0x81, 0, 1, 0, 1, 0, 1, 6, 0x00, 0x00, 0xC5, 0x07, 0x00, 0x02, 0x3B, 0x16)) && hears_nothing(200));
    say(BYTES(0x68, 7, 7, 0x68, 0x53, 0xF0));
    test("idle mark: half a frame is dropped", hears_nothing(300));
    say(BYTES(0x10, 0x40, 0x40, 0x16));
    test("a reset is acknowledged", hears(1, BYTES(0xE5)));

    int status = 0;
    close(host);
    waitpid(child, &status, 0);
    test("ends where the line does", WIFEXITED(status) && WEXITSTATUS(status) == 0);
    return failed;
}
