// Stands in for the system's UDP sockets: each gives RATE datagrams of BYTES a second, those of a millisecond at once.
#include <stdlib.h>
#include <string.h>
#include <sys/socket.h>
#include <time.h>

#define SOCKETS 1024

static struct { struct timespec began; long given; } sockets[SOCKETS];

static long number(const char *name) { return atol(getenv(name)); }

static ssize_t give(int fd, char *buffer, size_t size) {
    static __thread long rate, bytes;
    if (!rate) rate = number("RATE"), bytes = number("BYTES");
    if (!sockets[fd].given) clock_gettime(CLOCK_MONOTONIC, &sockets[fd].began);
    // the millisecond in which the datagram comes
    long due = sockets[fd].given++ * 1000 / rate;
    struct timespec until = sockets[fd].began;
    until.tv_sec += due / 1000;
    until.tv_nsec += due % 1000 * 1000000;
    if (until.tv_nsec >= 1000000000) until.tv_sec++, until.tv_nsec -= 1000000000;
    clock_nanosleep(CLOCK_MONOTONIC, TIMER_ABSTIME, &until, NULL);
    long length = bytes < (long)size ? bytes : (long)size;
    memset(buffer, 'x', length);
    memcpy(buffer, "UdPbC", 6);
    return length;
}

ssize_t recv(int fd, void *buffer, size_t size, int flags) {
    (void)flags;
    return give(fd, buffer, size);
}

ssize_t recvfrom(int fd, void *buffer, size_t size, int flags, struct sockaddr *from, socklen_t *length) {
    (void)flags, (void)from, (void)length;
    return give(fd, buffer, size);
}
