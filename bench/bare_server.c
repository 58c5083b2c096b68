/* Receives datagrams at a port and does nothing with them: what the system itself takes. Ends after COUNT of them, or after
   two seconds without one, and prints how many came.

       bare_server PORT COUNT */
#include <arpa/inet.h>
#include <stdio.h>
#include <stdlib.h>
#include <sys/socket.h>
#include <sys/time.h>

enum { IDLE_SECONDS = 2, MOST_BYTES = 65536 };

int main(int count_of_words, char **words) {
    static char datagram[MOST_BYTES];
    if (count_of_words != 3) {
        fputs("bare_server PORT COUNT\n", stderr);
        return 2;
    }
    struct sockaddr_in here = {
        .sin_family = AF_INET,
        .sin_port = htons(atoi(words[1])),
        .sin_addr.s_addr = htonl(INADDR_ANY),
    };
    struct timeval idle = {.tv_sec = IDLE_SECONDS};
    int server = socket(AF_INET, SOCK_DGRAM, 0);
    if (server < 0 || bind(server, (struct sockaddr *)&here, sizeof here)) return 1;
    setsockopt(server, SOL_SOCKET, SO_RCVTIMEO, &idle, sizeof idle);
    long count = atol(words[2]), got = 0;
    while (got < count && recv(server, datagram, sizeof datagram, 0) >= 0) got++;
    printf("%ld\n", got);
    return 0;
}
