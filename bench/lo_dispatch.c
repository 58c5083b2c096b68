/* Hands the same messages as library.c to a liblo server by lo_server_dispatch_data:
 *
 *     lo_dispatch METHODS MESSAGES */
#include <lo/lo.h>
#include <stdlib.h>

#include "workload.h"

enum { PACKETS = 4096 };

static struct { unsigned char bytes[64]; size_t size; } packets[PACKETS];
static unsigned long calls, sum;

static int hear(const char *path, const char *types, lo_arg **arguments, int count, lo_message message, void *user) {
    (void)path, (void)types, (void)count, (void)message, (void)user;
    sum += (unsigned)arguments[0]->i;
    calls++;
    return 0;
}

int main(int count, char **words) {
    methods = count > 2 ? (unsigned)atoi(words[1]) : 1000;
    long messages = count > 2 ? atol(words[2]) : 1000000;
    lo_server server = lo_server_new_with_proto(NULL, LO_UDP, NULL);
    if (!server) return 1;
    for (unsigned k = 0; k < methods; k++) {
        char address[32];
        snprintf(address, sizeof address, "/g%u/n%u", group_of(k), name_of(k));
        lo_server_add_method(server, address, "i", hear, NULL);
    }
    for (int k = 0; k < PACKETS; k++) packets[k].size = put_packet(packets[k].bytes, PLAIN);
    for (long k = 0; k < messages; k++)
        lo_server_dispatch_data(server, packets[k % PACKETS].bytes, packets[k % PACKETS].size);
    printf("%lu calls, sum %lu\n", calls, sum);
    return 0;
}
