// Sends datagrams to ports of this host, each at its rate, evenly, and prints how many:
//   send SECONDS PORT:RATE:BYTES ..     RATE in datagrams a second, of BYTES each
#include <arpa/inet.h>
#include <stdio.h>
#include <stdlib.h>
#include <string.h>
#include <sys/socket.h>
#include <time.h>

struct stream {
    struct sockaddr_in to;
    int bytes;
    double gap, due;
};

static double now(void) {
    struct timespec t;
    clock_gettime(CLOCK_MONOTONIC, &t);
    return t.tv_sec + t.tv_nsec / 1e9;
}

int main(int count, char **words) {
    static struct stream streams[64];
    static char payload[1472] = "UdPbC";
    int streams_count = count - 2, fd = socket(AF_INET, SOCK_DGRAM, 0);
    long sent = 0;
    double begin = now(), end = begin + atof(words[1]);
    memset(payload + 6, 'x', sizeof payload - 6);
    for (int i = 0; i < streams_count; i++) {
        int port, rate;
        sscanf(words[i + 2], "%d:%d:%d", &port, &rate, &streams[i].bytes);
        streams[i].to.sin_family = AF_INET;
        streams[i].to.sin_port = htons(port);
        streams[i].to.sin_addr.s_addr = htonl(INADDR_LOOPBACK);
        streams[i].gap = 1.0 / rate;
        streams[i].due = begin + streams[i].gap * i / streams_count;
    }
    for (;;) {
        struct stream *next = streams;
        for (int i = 1; i < streams_count; i++)
            if (streams[i].due < next->due) next = &streams[i];
        if (next->due >= end) break;
        double wait = next->due - now();
        if (wait > 0) {
            struct timespec t = {wait, (wait - (long)wait) * 1e9};
            nanosleep(&t, NULL);
        }
        if (sendto(fd, payload, next->bytes, 0, (struct sockaddr *)&next->to, sizeof next->to) > 0) sent++;
        next->due += next->gap;
    }
    printf("%ld\n", sent);
    return 0;
}
