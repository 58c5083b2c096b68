/* A bundle of N messages 100 ms ahead, ROUNDS times: the time from the tag to the last arrival. chord PORT HEARD N ROUNDS */
#include <arpa/inet.h>
#include <stdint.h>
#include <stdio.h>
#include <stdlib.h>
#include <string.h>
#include <sys/socket.h>
#include <time.h>
static int64_t now(void) { struct timespec t; clock_gettime(CLOCK_REALTIME, &t); return t.tv_sec * 1000000000LL + t.tv_nsec; }
int main(int argc, char **argv)
{
    int n = atoi(argv[3]), rounds = atoi(argv[4]);
    int in = socket(AF_INET, SOCK_DGRAM, 0), out = socket(AF_INET, SOCK_DGRAM, 0), big = 1 << 20;
    struct sockaddr_in here = {.sin_family = AF_INET, .sin_port = htons(atoi(argv[2])), .sin_addr.s_addr = htonl(INADDR_LOOPBACK)}, there = here;
    there.sin_port = htons(atoi(argv[1]));
    struct timeval most = {1, 0};
    setsockopt(in, SOL_SOCKET, SO_RCVTIMEO, &most, sizeof most);
    setsockopt(in, SOL_SOCKET, SO_RCVBUF, &big, sizeof big);
    bind(in, (struct sockaddr *)&here, sizeof here);
    static unsigned char bytes[65536];
    for (int r = 0; r < rounds; r++) {
        int64_t due = now() + 100000000;
        uint32_t seconds = htonl((uint32_t)(due / 1000000000 + 2208988800u)), part = htonl((uint32_t)(((uint64_t)(due % 1000000000) << 32) / 1000000000));
        memcpy(bytes, "#bundle", 8); memcpy(bytes + 8, &seconds, 4); memcpy(bytes + 12, &part, 4);
        size_t size = 16;
        for (int i = 0; i < n; i++) {
            uint32_t length = htonl(20), number = htonl(i);
            memcpy(bytes + size, &length, 4); memcpy(bytes + size + 4, "/light/dim\0\0,i\0\0", 16); memcpy(bytes + size + 20, &number, 4);
            size += 24;
        }
        sendto(out, bytes, size, 0, (struct sockaddr *)&there, sizeof there);
        int64_t first = 0, last = 0; int got = 0;
        while (got < n && recv(in, bytes + 60000, 100, 0) > 0) { last = now(); if (!got++) first = last; }
        printf("%d of %d: first %.0f us, last %.0f us after the tag\n", got, n, (first - due) / 1e3, (last - due) / 1e3);
    }
}
