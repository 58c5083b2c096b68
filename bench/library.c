/* Hands so many messages of kind 0 to the server through its library for C, where so many methods stand, and reads each call:
 *
 *     library METHODS MESSAGES */
#include <stdlib.h>
#include <vestrulj.h>

#include "workload.h"

enum { PACKETS = 4096 };

static struct { unsigned char bytes[64]; size_t size; } packets[PACKETS];
static unsigned char message[65504];

int main(int count, char **words) {
    methods = count > 2 ? (unsigned)atoi(words[1]) : 1000;
    long messages = count > 2 ? atol(words[2]) : 1000000;
    osc_server server = OSC_SERVER;
    osc_limits limits = {1024, 4096, 65536, 131072, 1, 1 << 28, false};
    if (osc_server_open(&server, &limits).status != OSC_OK) return 1;
    for (unsigned k = 0; k < methods; k++) {
        char address[32];
        snprintf(address, sizeof address, "/g%u/n%u", group_of(k), name_of(k));
        if (osc_server_add(&server, (const uint8_t *)address, strlen(address)).status != OSC_OK) return 1;
    }
    for (int k = 0; k < PACKETS; k++) packets[k].size = put_packet(packets[k].bytes, PLAIN);

    unsigned long calls = 0, sum = 0;
    for (long k = 0; k < messages; k++) {
        if (osc_server_submit(&server, packets[k % PACKETS].bytes, packets[k % PACKETS].size).status != OSC_OK) return 1;
        osc_answer released = osc_server_release(&server);
        if (released.status != OSC_OK) return 1;
        for (uint32_t left = released.count; left > 0; left--) {
            osc_call call;
            osc_server_next_call(&server, &call, message, sizeof message);
            const unsigned char *end = message + call.size - 4;
            sum += (unsigned)end[0] << 24 | end[1] << 16 | end[2] << 8 | end[3];
            calls++;
        }
    }
    printf("%lu calls, sum %lu\n", calls, sum);
    osc_server_close(&server);
    return 0;
}
