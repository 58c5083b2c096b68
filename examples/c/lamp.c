/* A desk lamp that hears OSC over UDP, and prints what it does until it is unplugged:
 *
 *     cc lamp.c $(pkg-config --cflags --libs --static vestrulj) -o lamp && ./lamp 9001
 *     oscsend localhost 9001 /lamp/level f 0.5
 *     oscsend localhost 9001 /lamp/unplug
 *
 * The port is any that is free where none is named. */
#include <arpa/inet.h>
#include <inttypes.h>
#include <limits.h>
#include <poll.h>
#include <stdio.h>
#include <stdlib.h>
#include <string.h>
#include <sys/socket.h>
#include <time.h>
#include <vestrulj.h>

static osc_server server = OSC_SERVER;
static uint32_t level, on, unplug; /* the ids of the methods */
static uint8_t bytes[65536];

static void need(bool is_so, const char *what) {
    if (is_so) return;
    fprintf(stderr, "lamp: %s\n", what);
    exit(1);
}

static uint32_t method(const char *address) {
    osc_answer answer = osc_server_add(&server, (const uint8_t *)address, strlen(address));
    need(answer.status == OSC_OK, address);
    return answer.number;
}

/* The time as OSC has it: seconds since 1900 in 32 bits, and a fraction in 32. */
static uint64_t now(void) {
    struct timespec time;
    clock_gettime(CLOCK_REALTIME, &time);
    return ((uint64_t)time.tv_sec + 2208988800u) << 32 | ((uint64_t)time.tv_nsec << 32) / 1000000000u;
}

/* How many milliseconds there are until then; -1, which is for ever, for no moment. */
static int milliseconds_until(uint64_t moment) {
    uint64_t from = now();
    if (moment == 0) return -1;
    if (moment <= from) return 0;
    uint64_t left = ((moment - from) >> 16) * 1000 >> 16;
    return left < INT_MAX ? (int)left + 1 : INT_MAX;
}

/* The first argument of a message as a number, 1 where there is none. */
static double value_in(const uint8_t *message, size_t size) {
    osc_argument first;
    osc_answer answer = osc_message_read(message, size, &first, 1);
    if (answer.status != OSC_OK || answer.count == 0 || first.tag == 'T') return 1;
    uint32_t word = (uint32_t)first.word;
    float number = 0;
    if (first.tag == 'i') return (int32_t)word;
    if (first.tag == 'f') memcpy(&number, &word, sizeof number);
    return number;
}

/* Whether the lamp is still plugged in after this call. */
static bool play(const osc_call *call) {
    double value = value_in(bytes, call->size);
    if (call->method == level) printf("level %.2f\n", value);
    else if (call->method == on) puts(value != 0 ? "on" : "off");
    else if (call->method == unplug) puts("unplugged");
    fflush(stdout);
    return call->method != unplug;
}

/* Does all that is due. Answers when the next will be, or 0. */
static uint64_t play_due(void) {
    osc_answer answer;
    while ((answer = osc_server_release(&server)).status == OSC_OK)
        for (uint32_t k = 0; k < answer.count; k++) {
            osc_call call;
            osc_server_next_call(&server, &call, bytes, sizeof bytes);
            if (!play(&call)) {
                osc_server_close(&server);
                exit(0);
            }
        }
    need(answer.status == OSC_NOTHING_DUE, "the recording is full");
    return answer.unit;
}

/* Takes one datagram, where one is there. */
static void take(int udp) {
    ssize_t size = recv(udp, bytes, sizeof bytes, MSG_DONTWAIT);
    if (size < 0) return;
    osc_answer answer = osc_server_submit(&server, bytes, (size_t)size);
    if (answer.status == OSC_BAD_PACKET)
        printf("no packet: fault %" PRIu32 " at %" PRIu64 "\n", answer.number, answer.unit);
    else if (answer.status != OSC_OK)
        printf("no room: status %" PRIu32 "\n", answer.status);
    fflush(stdout);
}

int main(int count, char **words) {
    struct sockaddr_in place = {0};
    socklen_t size = sizeof place;
    place.sin_family = AF_INET;
    place.sin_port = htons((uint16_t)(count > 1 ? atoi(words[1]) : 0));
    int udp = socket(AF_INET, SOCK_DGRAM, 0);
    need(bind(udp, (struct sockaddr *)&place, size) == 0, "the port is taken");
    getsockname(udp, (struct sockaddr *)&place, &size);

    osc_limits limits = {64, 256, 16, 32, 1, 1 << 24, false};
    need(osc_server_open(&server, &limits).status == OSC_OK, "no server");
    level = method("/lamp/level");
    on = method("/lamp/on");
    unplug = method("/lamp/unplug");
    printf("port %d\n", ntohs(place.sin_port));
    fflush(stdout);

    uint64_t next = 0;
    for (;;) {
        struct pollfd wait = {udp, POLLIN, 0};
        poll(&wait, 1, milliseconds_until(next));
        osc_server_tick(&server, now());
        take(udp);
        next = play_due();
    }
}
