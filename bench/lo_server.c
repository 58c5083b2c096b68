/* Serves a port with liblo, with a method at each address of the workload, which counts its calls. Ends after COUNT
   packets, or after two seconds without one, and prints the number of calls.

       lo_server udp|tcp PORT COUNT */
#include "workload.h"
#include <lo/lo.h>
#include <stdlib.h>

enum { WAIT_MILLISECONDS = 20, IDLE_WAITS = 100 };

static unsigned long calls;

static int count_call(const char *path, const char *types, lo_arg **arguments, int count, lo_message message, void *user) {
    (void)path;
    (void)types;
    (void)arguments;
    (void)count;
    (void)message;
    (void)user;
    calls++;
    return 0;
}

static void print_fault(int number, const char *text, const char *where) {
    fprintf(stderr, "fault %d %s %s\n", number, text, where ? where : "");
}

int main(int count_of_words, char **words) {
    if (count_of_words != 4) {
        fputs("lo_server udp|tcp PORT COUNT\n", stderr);
        return 2;
    }
    lo_server server = lo_server_new_with_proto(words[2], strcmp(words[1], "tcp") ? LO_UDP : LO_TCP, print_fault);
    if (!server) return 1;
    for (unsigned method = 0; method < methods; method++) {
        char address[32];
        snprintf(address, sizeof address, "/g%u/n%u", group_of(method), name_of(method));
        lo_server_add_method(server, address, NULL, count_call, NULL);
    }
    long count = atol(words[3]);
    int idle = 0; /* waits in a row; over TCP a read that ends within a packet counts as one */
    while (count > 0 && idle < IDLE_WAITS) {
        int got = lo_server_recv_noblock(server, WAIT_MILLISECONDS) > 0;
        count -= got;
        idle = got ? 0 : idle + 1;
    }
    printf("%lu\n", calls);
    return 0;
}
