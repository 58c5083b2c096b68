/* Sends COUNT packets of one kind to a port of this machine, RATE of them a second and no faster, and prints how many
   milliseconds that took, how many the system refused, and by how many microseconds one was sent late at most. Over UDP each
   is a datagram, over TCP it follows its size.

       send_datagrams udp|tcp PORT KIND COUNT RATE */
#define _GNU_SOURCE
#include "workload.h"
#include <arpa/inet.h>
#include <netinet/tcp.h>
#include <stdlib.h>
#include <sys/socket.h>
#include <time.h>

enum { DIFFERENT = 4096, SIZE_BYTES = 4 };

static double seconds(void) {
    struct timespec now;
    clock_gettime(CLOCK_MONOTONIC, &now);
    return now.tv_sec + now.tv_nsec / 1e9;
}

/* A socket whose bytes go to the port; those of a stream at once, and not when there are more. */
static int open_to(int port, int is_stream) {
    struct sockaddr_in to = {.sin_family = AF_INET, .sin_port = htons((uint16_t)port)};
    to.sin_addr.s_addr = htonl(INADDR_LOOPBACK);
    int socket_of = socket(AF_INET, is_stream ? SOCK_STREAM : SOCK_DGRAM, 0);
    if (socket_of < 0 || connect(socket_of, (struct sockaddr *)&to, sizeof to)) {
        perror("send_datagrams");
        exit(1);
    }
    if (is_stream) setsockopt(socket_of, IPPROTO_TCP, TCP_NODELAY, &(int){1}, sizeof(int));
    return socket_of;
}

int main(int count_of_words, char **words) {
    static unsigned char frames[DIFFERENT][SIZE_BYTES + MOST_BYTES];
    static size_t sizes[DIFFERENT];
    if (count_of_words != 6) {
        fputs("send_datagrams udp|tcp PORT KIND COUNT RATE\n", stderr);
        return 2;
    }
    int is_stream = !strcmp(words[1], "tcp");
    int to = open_to(atoi(words[2]), is_stream);
    size_t skipped = is_stream ? 0 : SIZE_BYTES;
    long count = atol(words[4]), rate = atol(words[5]), refused = 0;
    for (int k = 0; k < DIFFERENT; k++) {
        size_t size = put_packet(frames[k] + SIZE_BYTES, (enum kind)atoi(words[3]));
        put_word(frames[k], (uint32_t)size);
        sizes[k] = SIZE_BYTES + size;
    }
    double begin = seconds(), latest = 0;
    for (long sent = 0; sent < count; sent++) {
        double late;
        while ((late = seconds() - begin - (double)sent / rate) < 0) continue;
        if (late > latest) latest = late;
        int k = (int)(sent % DIFFERENT);
        if (send(to, frames[k] + skipped, sizes[k] - skipped, MSG_NOSIGNAL) < 0) refused++;
    }
    printf("%.0f %ld %.0f\n", (seconds() - begin) * 1000, refused, latest * 1e6);
    return 0;
}
