#include <stdio.h>
#include <vestrulj.h>

int main(void) {
    uint8_t message[64];
    osc_server server = OSC_SERVER;
    osc_server_open(&server, &(osc_limits){16, 64, 8, 32, 1, 65536, false});
    osc_server_add(&server, (const uint8_t *)"/light/dim", 10);
    osc_server_submit(&server, (const uint8_t *)"/light/dim\0\0,i\0\0\0\0\0\7", 20);
    osc_server_release(&server);
    for (osc_call call; osc_server_next_call(&server, &call, message, sizeof message) == OSC_OK;)
        printf("%s %d\n", (char *)message, message[call.size - 1]);
    osc_server_close(&server);
}
