/* Microseconds of one authorize over HTTP, on one connection to 127.0.0.1: loopback PORT REQUEST CALLS, the best of five. */
#include <arpa/inet.h>
#include <netinet/tcp.h>
#include <stdio.h>
#include <stdlib.h>
#include <string.h>
#include <sys/socket.h>
#include <time.h>
#include <unistd.h>

static double now(void) {
    struct timespec t;
    clock_gettime(CLOCK_MONOTONIC, &t);
    return t.tv_sec + t.tv_nsec / 1e9;
}

int main(int count, char **words) {
    static char body[4096], request[8192], reply[8192];
    if (count != 4) return 2;
    FILE *file = fopen(words[2], "rb");
    if (!file) return 2;
    size_t length = fread(body, 1, sizeof body, file);
    fclose(file);
    int head = snprintf(request, sizeof request, "POST /v1/authorize HTTP/1.1\r\nContent-Length: %zu\r\n\r\n", length);
    memcpy(request + head, body, length);
    int link = socket(AF_INET, SOCK_STREAM, 0), yes = 1;
    struct sockaddr_in at = {.sin_family = AF_INET, .sin_port = htons(atoi(words[1])), .sin_addr.s_addr = htonl(INADDR_LOOPBACK)};
    if (connect(link, (struct sockaddr *)&at, sizeof at)) return 3;
    setsockopt(link, IPPROTO_TCP, TCP_NODELAY, &yes, sizeof yes);
    long calls = atol(words[3]);
    double best = 1e9;
    for (int round = 0; round < 5; round++) {
        double began = now();
        for (long i = 0; i < calls; i++) {
            if (write(link, request, head + length) < 0) return 4;
            for (size_t got = 0;;) {
                ssize_t more = read(link, reply + got, sizeof reply - 1 - got);
                if (more <= 0) return 5;
                reply[got += more] = 0;
                char *end = strstr(reply, "\r\n\r\n"), *size = strstr(reply, "Content-Length: ");
                if (end && size && got >= (size_t)(end + 4 - reply) + strtoul(size + 16, 0, 10)) break;
            }
        }
        double each = (now() - began) / calls * 1e6;
        best = each < best ? each : best;
    }
    printf("%.2f\n", best);
    return 0;
}
