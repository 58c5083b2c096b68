/* Calls each function of the library, and exits with the number of the first check that fails, or 0. */
#include <string.h>

#include "vestrulj.h"

#define CHECK(n, test) \
    if (!(test)) return n
#define TEXT(t) (const uint8_t *)t, sizeof t - 1

/* A bundle for the moment 5 of two messages, to all below /a and to /b/c. */
static const uint8_t bundle[] =
    "#bundle\0\0\0\0\0\0\0\0\5"
    "\0\0\0\14/a/*\0\0\0\0,T\0\0"
    "\0\0\0\20/b/c\0\0\0\0,i\0\0\0\0\0\7";

static uint8_t buffer[64];

int main(void) {
    osc_server server = OSC_SERVER;
    osc_limits limits = {16, 16, 8, 16, 1, 4096, false};
    osc_call call;
    osc_answer a;

    /* A closed server answers so. */
    CHECK(1, osc_server_submit(&server, bundle, sizeof bundle - 1).status == OSC_IS_CLOSED);
    CHECK(2, osc_server_next_call(&server, &call, buffer, sizeof buffer) == OSC_IS_CLOSED);
    CHECK(3, osc_server_recorded(&server) == 0);
    CHECK(52, osc_server_due(&server).status == OSC_IS_CLOSED);
    osc_server_close(&server);

    /* A limit outside its range is named. */
    limits.methods = 65537;
    a = osc_server_open(&server, &limits);
    CHECK(4, a.status == OSC_BAD_LIMIT && a.number == 3 && !server.is_open);
    limits.methods = 8;
    CHECK(5, osc_server_open(&server, &limits).status == OSC_OK && server.is_open);
    CHECK(6, osc_server_open(&server, &limits).status == OSC_IS_OPEN);

    a = osc_server_add(&server, TEXT("/a/x"));
    CHECK(7, a.status == OSC_OK && a.number == 0);
    a = osc_server_add(&server, TEXT("/a/y"));
    CHECK(8, a.status == OSC_OK && a.number == 1);
    a = osc_server_add(&server, TEXT("/b/c"));
    CHECK(9, a.status == OSC_OK && a.number == 2);
    a = osc_server_add(&server, TEXT("/a/y"));
    CHECK(10, a.status == OSC_TAKEN && a.number == 1);
    CHECK(11, osc_server_add(&server, TEXT("/a")).status == OSC_IS_CONTAINER);
    a = osc_server_add(&server, TEXT("no"));
    CHECK(12, a.status == OSC_BAD_ADDRESS && a.number == 1);

    CHECK(50, osc_server_due(&server).status == OSC_NOTHING_DUE);
    a = osc_server_submit(&server, bundle, 20);
    CHECK(13, a.status == OSC_BAD_PACKET);
    a = osc_server_submit(&server, bundle, sizeof bundle - 1);
    CHECK(14, a.status == OSC_OK && a.unit == 0 && a.count == 1 && a.late == 0);
    a = osc_server_due(&server);
    CHECK(51, a.status == OSC_OK && a.unit == 5);
    a = osc_server_release(&server);
    CHECK(15, a.status == OSC_NOTHING_DUE && a.unit == 5);
    CHECK(16, osc_server_tick(&server, 5).status == OSC_OK);
    a = osc_server_tick(&server, 4);
    CHECK(17, a.status == OSC_CLOCK_BACK && a.unit == 5);
    a = osc_server_release(&server);
    CHECK(18, a.status == OSC_OK && a.unit == 0 && a.count == 3);

    /* The calls, in the order of the messages and of the addresses. */
    CHECK(19, osc_server_next_call(&server, &call, buffer, 8) == OSC_BUFFER_SMALL && call.size == 12);
    CHECK(20, osc_server_next_call(&server, &call, buffer, 12) == OSC_OK);
    CHECK(21, call.unit == 0 && call.index == 0 && call.method == 0 && call.size == 12);
    CHECK(21, memcmp(buffer, bundle + 20, 12) == 0);
    CHECK(22, osc_server_next_call(&server, &call, buffer, sizeof buffer) == OSC_OK && call.index == 0 && call.method == 1);
    /* A submit and a tick between two calls change nothing of them. */
    CHECK(23, osc_server_submit(&server, TEXT("/q\0\0,\0\0\0")).status == OSC_OK);
    CHECK(24, osc_server_next_call(&server, &call, buffer, sizeof buffer) == OSC_OK);
    CHECK(25, call.index == 1 && call.method == 2 && call.size == 16 && memcmp(buffer, bundle + 36, 16) == 0);
    CHECK(26, osc_server_next_call(&server, &call, buffer, sizeof buffer) == OSC_NO_CALL);

    a = osc_server_remove(&server, TEXT("/a/x"));
    CHECK(27, a.status == OSC_OK && a.number == 0);
    CHECK(28, osc_server_remove(&server, TEXT("/a/x")).status == OSC_NOT_THERE);

    /* The recording comes in pieces, and a full one is reported. */
    size_t all = osc_server_recorded(&server), at = 0, got;
    while ((got = osc_server_read_recording(&server, at, buffer, sizeof buffer)) > 0) at += got;
    CHECK(29, at == all);
    while ((a = osc_server_tick(&server, 6)).status == OSC_OK) {
    }
    CHECK(30, a.status == OSC_RECORD_FULL && a.need > a.free);
    a = osc_packet_check(bundle, sizeof bundle - 1);
    CHECK(31, a.status == OSC_OK);
    osc_server_close(&server);
    CHECK(32, !server.is_open);

    /* Arguments: a string's bytes and a number's bits. */
    osc_argument arguments[3];
    static const uint8_t message[] = "/x\0\0,sfb\0\0\0\0hello\0\0\0\103\334\0\0\0\0\0\3abc\0";
    a = osc_message_read(message, sizeof message - 1, arguments, 3);
    CHECK(33, a.status == OSC_OK && a.count == 3);
    CHECK(34, arguments[0].tag == 's' && arguments[0].size == 5);
    CHECK(34, strcmp((const char *)message + arguments[0].place, "hello") == 0);
    union { uint32_t word; float number; } bits = {(uint32_t)arguments[1].word};
    CHECK(35, arguments[1].tag == 'f' && bits.number == 440.0f);
    CHECK(36, arguments[2].tag == 'b' && arguments[2].size == 3 && memcmp(message + arguments[2].place, "abc", 3) == 0);
    a = osc_message_read(message, sizeof message - 1, arguments, 1);
    CHECK(37, a.status == OSC_OK && a.count == 3 && arguments[0].tag == 's');
    CHECK(38, osc_message_read(message, 8, arguments, 3).status == OSC_BAD_PACKET);
    CHECK(39, osc_pattern_matches(TEXT("/a/{b,c}*"), TEXT("/a/cd")) == 1);
    CHECK(40, osc_pattern_matches(TEXT("/a/?"), TEXT("/a/cd")) == 0);
    CHECK(41, osc_pattern_matches(TEXT("/a/["), TEXT("/a/cd")) == 2);
    CHECK(42, osc_pattern_matches(TEXT("/a"), TEXT("a")) == 3);

    /* A message is written from its arguments; docs/FORMATS.md, "Messages", has its bytes. */
    osc_argument seven = {7, 0, 0, 'i'}, hello = {0, 0, 5, 's'}, open = {0, 0, 0, '['};
    static const uint8_t dim[] = "/light/dim\0\0,i\0\0\0\0\0\7";
    a = osc_message_write(TEXT("/light/dim"), &seven, 1, dim, 0, buffer, sizeof buffer);
    CHECK(43, a.status == OSC_OK && a.count == 20 && memcmp(buffer, dim, 20) == 0);
    buffer[0] = 'x';
    a = osc_message_write(TEXT("/light/dim"), &seven, 1, dim, 0, buffer, 19);
    CHECK(44, a.status == OSC_BUFFER_SMALL && a.need == 20 && buffer[0] == 'x');
    a = osc_message_write(TEXT("/x"), &hello, 1, TEXT("hello"), buffer, sizeof buffer);
    CHECK(45, a.status == OSC_OK && a.count == 16 && memcmp(buffer, "/x\0\0,s\0\0hello\0\0\0", 16) == 0);
    a = osc_message_write(TEXT("/x"), &hello, 1, TEXT("hel\0o"), buffer, sizeof buffer);
    CHECK(46, a.status == OSC_BAD_ARGUMENT && a.unit == 0 && a.number == 2);
    CHECK(47, osc_message_write(TEXT("/x"), &open, 1, dim, 0, buffer, sizeof buffer).status == OSC_BRACKETS);
    a = osc_message_write(TEXT("/["), &seven, 1, dim, 0, buffer, sizeof buffer);
    CHECK(48, a.status == OSC_BAD_PATTERN && a.number == 11 && a.unit == 1);
    a = osc_packet_check(dim, 16);
    CHECK(49, a.status == OSC_BAD_PACKET && a.number == 14 && a.unit == 16);
    return 0;
}
